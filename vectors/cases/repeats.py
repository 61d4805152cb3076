"""Models with repeats, in which the listing is shorter than its need, and with definitions that are replaced or skipped.

Tables are in short (cases/listings.py).
"""

from cases.known import variable


def single(member):
    return f"(set.singleton {member})"


def union(*parts):
    """Sets, or members that are atoms, joined from the right."""
    first, *rest = (part if part.startswith("(") else single(part) for part in parts)
    return f"(set.union {first} {union(*rest)})" if rest else first


def left(*parts):
    """The same joined from the left."""
    found = union(parts[0])
    for part in parts[1:]:
        found = f"(set.union {found} {union(part)})"
    return found


def bytes_of(numbers):
    return [f"#x{number:02x}" for number in numbers]


def decimals(*numbers):
    return [f"(Decimal #x{number % 2 ** 64:016x})" for number in numbers]


A, B, AB, ABC, NIL = '"a"', '"b"', '"ab"', '"abc"', '""'
NONE, NO_BYTES = "(as set.empty (Set String))", "(as set.empty (Set (_ BitVec 8)))"
# Members repeated, in other order, joined from either side, prefixes of each other, spelled otherwise; sets in sets.
SETS = [
    ("string; set 0; var x 1", variable(
        "x", "(Set String)", union(A, A), union(A, A, A), union(B, A), union(A, B), union(A, B, A), left(A, B, A), left(B, A, B, A),
        union(left(A, B), left(B, A)), union(AB, A), union(A, AB), union(ABC, AB, A, NIL), left(NIL, A, AB, ABC), union(NONE, NONE),
        union(NONE, A), union(A, NONE), union(A, NONE, A), left(NONE, A, NONE, A),
        union('"B"', A, '"\\u{e9}"', '"\u00e9"', '"z"', '"\\u{2ffff}"', '"~"'), union('"\\u{61}"', A, '"\\u0061"'))),
    ("bitvec 8; set 0; set 1; var x 2", variable(
        "x", "(Set (Set (_ BitVec 8)))", union(single(union("#x01", "#x02")), single(left("#x02", "#x01"))),
        union(single(union("#x01", "#x01")), single(union("#x01"))), union(single(union("#x02", "#x01")), single(union("#x01"))),
        union(single(union("#x01", NO_BYTES)), single(union("#x01")), single(NO_BYTES)),
        union(*(single(union(*bytes_of(members))) for members in ((3, 1, 2), (2, 3, 1), (1, 1, 2, 3), (255, 0)))))),
    ("bool; set 0; option 1; record R 1 2; var x 3", variable(
        "x", "R", f"(R {union('true', 'true')} (some {union('false', 'true', 'false')}))",
        f"(R {union('true', 'false')} (as none (Option (Set Bool))))")),
    ("bool; option 0; set 1; var x 2", variable(
        "x", "(Set (Option Bool))",
        union(*map(single, ("(some true)", "(as none (Option Bool))", "((as some (Option Bool)) true)", "(some false)"))))),
    ("decimal; set 0; var x 1", variable("x", "(Set Decimal)", union(*map(single, decimals(1, 10, 2, -1, -2 ** 63, 9, 2))))),
    ("entity E; set 0; var x 1; enum m 0 a; enum n 0 ab", variable(
        "x", "(Set E)", union("n", "m", *map(single, ('(E "a")', '(E "ab")', '(E "")')), "m"))),
    ("bitvec 4; set 0; var x 1", variable(
        "x", "(Set (_ BitVec 4))", union(*(f"#x{(7 * number) % 16:x}" for number in range(16))),
        left("#xA", "#xa", "#b1010", single("(_ bv10 4)")))),
]


def function(arg, out, *values):
    return [f"((define-fun f ((a {arg})) {out} {value}))" for value in values]


def chain(default, *arms):
    return "".join(f"(ite (= a {key}) {value} " for key, value in arms) + default + ")" * len(arms)


def tests(keys):
    return f"(or {' '.join(f'(= a {key})' for key in keys)})"


NUMBERS = bytes_of(range(16))
ONE, TWO, BOTH, TWICE = union("#x01"), union("#x02"), union("#x01", "#x02"), union("#x02", "#x01", "#x02")
NEITHER = "(as none (Option (Option Bool)))"
# Keys that are equal, that come in reverse, that are prefixes of each other, that are spelled otherwise; the later arm holds.
ARMS = [
    ("string; fun f 0 0", function(
        "String", "String", chain(A, (A, A), (A, B)), chain(AB, (A, A), (B, B), (A, B)), chain(A, (A, A), (A, A), (A, A)),
        chain(NIL, (ABC, A), (AB, B), (A, AB), (NIL, ABC)), chain(NIL, (NIL, ABC), (A, AB), (AB, B), (ABC, A)),
        chain(NIL, (B, A), (A, B), (B, B), (A, A)), chain(NIL, ('"\\u{61}"', B), (A, ABC)))),
    ("bool; string; fun f 1 0", function(
        "String", "Bool", f"(or (= a {A}) (= {A} a))", f"(or (= a {AB}) (= {A} a) (= a {NIL}) (= a {AB}))", "(or)")),
    ("bitvec 8; fun f 0 0", function("(_ BitVec 8)", "(_ BitVec 8)", *(chain("#xff", *arms) for arms in (
        [(number, number) for number in reversed(NUMBERS)],
        [(number, "#x00") for number in NUMBERS],
        [(number, "#x01") for number in NUMBERS + NUMBERS[::-1]],
        [("#b00000001", "#x01"), ("#x01", "#x02"), ("(_ bv1 8)", "#x03"), ("(_ bv+01 8)", "#x04")])))),
    ("bitvec 8; set 0; fun f 1 1", function("(Set (_ BitVec 8))", "(Set (_ BitVec 8))", *(chain(union("#x09", "#x09"), *arms) for arms in (
        [(BOTH, union("#x01", "#x01")), (TWICE, union("#x03"))],
        [(TWO, ONE), (union("#x02", "#x02"), union("#x01", "#x01", "#x01")), (BOTH, NO_BYTES)],
        [(NO_BYTES, ONE), (ONE, union("#x02", "#x01"))])))),
    ("decimal; bool; fun f 0 1", function("Decimal", "Bool", tests(decimals(10, 1, 9, -1, -2 ** 63, 0, 1)))),
    ("bool; option 0; option 1; fun f 2 2", function("(Option (Option Bool))", "(Option (Option Bool))", chain(
        "(some (some false))", ("(some (some true))", NEITHER), ("(some (as none (Option Bool)))", "(some (some false))"),
        (NEITHER, "(some (as none (Option Bool)))"), ("(some (some true))", "(some (some true))")))),
    ("bool; record R 0 0; fun f 1 1", function("R", "R", chain(
        "(R true true)", ("(R true false)", "(R true true)"), ("(R false true)", "(R false false)"), ("(R false false)", "(R true false)"),
        ("(R false true)", "(R true true)")))),
    ("bool; entity E; fun f 1 0; enum m 1 a", function("E", "Bool", '(or (= m a) (= a (E "a")) (= a (E "")))')),
]
NAMED = "bool; string; var x 0; var y 1; fun f 0 0; fun g 0 1"
# A name defined twice: each definition is checked, the later one is listed, and it alone counts for the need.
TWICE_DEFINED = [
    (NAMED, [
        '((define-fun y () String "a") (define-fun x () Bool true))',
        '((define-fun y () String "a") (define-fun y () String "b"))',
        '((define-fun y () String "abc") (define-fun x () Bool true) (define-fun y () String ""))',
        '((define-fun y () String "a") (define-fun y () String true))',
        '((define-fun y () Bool "a") (define-fun y () String "b"))',
        "((define-fun f ((a Bool)) Bool (or (= a true))) (define-fun f ((b Bool)) Bool (or)))",
        "((define-fun f ((a Bool)) Bool (or)) (define-fun f ((b Bool)) Bool (or (= b true) (= b false) (= b true))))",
        '((define-fun g ((a Bool)) String "a") (define-fun f ((a Bool)) Bool true) (define-fun x () Bool false) (define-fun y () String ""))',
        '((define-fun g ((a Bool)) String "a") (define-fun g ((a Bool)) String b))',
        "((define-fun f ((a Bool)) Bool true) (define-fun f ((a Bool)) Bool a))",
    ]),
]
# Skipped: a variable's name in the form of a function, a function's in that of a variable, names with bars, names of other letters. They
# neither define nor replace, but their commands have to have a shape.
SKIPPED = [
    (NAMED, [
        "((define-fun x ((a Zork)) Zork zork))",
        "((define-fun f () Zork zork))",
        "((define-fun x () Bool true) (define-fun x ((a Bool)) Bool false))",
        "((define-fun x ((a Bool)) Bool false) (define-fun x () Bool true))",
        "((define-fun f ((a Bool)) Bool true) (define-fun f () Bool false))",
        "((define-fun f () Bool false) (define-fun f ((a Bool)) Bool true))",
        "((define-fun x () Bool true) (define-fun |x| () Bool false))",
        "((define-fun |x| () Bool true) (define-fun |f| ((a Bool)) Bool true) (define-fun |y| () String zork))",
        "((define-fun f ((a Bool)) Bool true) (define-fun |f| ((a Bool)) Bool zork))",
        "((define-fun X () Bool true) (define-fun xx () Bool true) (define-fun F ((a Bool)) Bool true))",
        '((define-fun z () Zork (((("s" #b1) 7) zork) ())))',
        "((define-fun z ((a (Zork))) () ()) (define-fun x () Bool true))",
        "((define-fun z ((a Bool)) Bool (or zork)) (define-fun z () Bool zork))",
        "((define-fun x ((1 Bool)) Bool true))",
        "((define-fun x ((a Bool) (b Bool)) Bool true))",
        "((define-fun x (a) Bool true))",
        "((define-fun x ((a)) Bool true))",
        "((define-fun x a Bool true))",
        '((define-fun "x" () Bool true))',
        "((define-fun 7 () Bool true))",
        "((define-fun (x) () Bool true))",
        "((define-fun-rec x () Bool true))",
        "((define-fun x () Bool true true))",
        "((define-fun z () Zork))",
        "((define-fun z () Zork zork) (define-fun))",
        "((define-fun z () Zork zork) ())",
        "(define-fun x () Bool true)",
        "((declare-fun x () Bool))",
        "((|define-fun| x () Bool true))",
        '(("define-fun" x () Bool true))',
        "((define-fun x ((a Bool) ) Bool true) zork)",
    ]),
    ("bool; var |x| 0; var x 0; fun |a 0 0", [
        "((define-fun |x| () Bool true))",
        "((define-fun x () Bool true))",
        "((define-fun |x| () Bool true) (define-fun x () Bool false))",
        "((define-fun |a ((b Bool)) Bool true) (define-fun a| ((b Bool)) Bool zork))",
        "((define-fun |a b| () Bool true))",
    ]),
    ("bool; var x 0; fun x 0 0", [
        "((define-fun x () Bool true) (define-fun x ((a Bool)) Bool (or (= a true))))",
        "((define-fun x ((a Bool)) Bool (or)))",
        "((define-fun x () Bool false))",
    ]),
]
REPEATS = [*SETS, *ARMS, *TWICE_DEFINED, *SKIPPED]
