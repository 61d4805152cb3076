"""Models for the places where document 01's words leave a doubt, a group for each; A4 to A18 are their numbers in the findings, which
docs/DECISIONS.md names too.

Tables are in short (cases/listings.py). What a level is (A4, A5), and that arms spend none, is shown in cases/levels.py.
"""

from cases.known import ONE_BOOL, bodies, bools, variable
from cases.listings import BOOL_FUN

# A6: a sort without a row is refused when it is met or formed, after the arm's own 4, 7 and 8, before its 16, 19 and 20; inside first.
NO_ROW = [
    (ONE_BOOL, [
        *variable("b", "(_ BitVec 4294967296)", "true"), *variable("b", "(_ BitVec 0)", "true"), *variable("b", "(_ BitVec 8)", "true"),
        *variable("b", "(Option Zork)", "true"), *variable("b", "(Option String)", "true"), *variable("b", "(Option Bool)", "zork"),
        *variable("b", "(Set (_ BitVec 0))", "true"), *variable("b", "(Option (Option (_ BitVec 4294967296)))", "true"),
        *bools("(as none Bool)", "(as none String)", "(as none (Option Bool))", "(as set.empty Bool)", "(as set.empty (Set Bool))"),
        *bools("(set.singleton true)", "(some true)", '"s"', "(_ bv256 8)", "(_ bvx 8)", "(_ bv1 0)", "(_ bv1 8)", "(_ bv1 129)"),
        *bools("(Decimal #x0000000000000000)", "((as some String) zork)", '((as some Bool) "s")'),
    ]),
    ("string; var s 0", [*variable("s", "String", "true", "false", "zork"), *variable("s", "Bool", "zork")]),
    ("bool; option 0; set 1; var b 0", [
        *variable("b", "(Set Bool)", "zork"), *variable("b", "(Set (Option Bool))", "true"), *variable("b", "(Option (Set Bool))", "true"),
        *bools("(as none (Set (Option Bool)))", "(as set.empty (Option Bool))"),
    ]),
    ("bitvec 128; fun f 0 0", [
        "((define-fun f ((a (_ BitVec 128))) (_ BitVec 128) (ite (= a #b1) (_ bv 1) a)))",
        "((define-fun f ((a (_ BitVec 128))) (_ BitVec 129) zork))",
        "((define-fun f ((a (_ BitVec 129))) (_ BitVec 0) zork))",
    ]),
]
# A7: an operator is refused at once, its operands unread, where the number of parts fits; else the arms go on and end in 15.
NAMES_OF_OPERATORS = ("not", "or", "=", "ite", "bvnego", "bvsaddo", "bvsmulo", "V4", "V6")
OPERATORS = [
    (ONE_BOOL, bools(*(f"({name}{' zork' * count})" for name in NAMES_OF_OPERATORS for count in range(5)))),
    (BOOL_FUN, bodies("(not a)", "(V6 a a)", "(ite (= a true) (not a) zork)", "(ite (= a (not a)) zork zork)", "(or (= a (or a a)))",
                      "(or (= (or) a))")),
]
# A8: a vector of another width is no Decimal, whatever its sort; A9: neither is an indexed one. An entity wants a string.
MATCHED = [
    ("decimal; var x 0", variable(
        "x", "Decimal", "(Decimal #b1)", f"(Decimal #x{'0' * 33})", f"(Decimal #x{'0' * 15})", f"(Decimal #b{'1' * 64})",
        "(Decimal (_ bv1 64))", "(Decimal zork)", "(Decimal)", "(Decimal 7)", "(Datetime #b1)", "(Datetime #x0000000000000000)")),
    ("entity E; var x 0", variable("x", "E", '(E "")', "(E)", "(E 7)", "(E E)", '(E "a" "b")', '(E (E "a"))', "(E zork)")),
]
# A10: a typed `some` whose sort is no option is 16; `none` and the empty set have 19 and 20.
TYPED = [
    ("bool; option 0; option 1; set 0; var x 1", variable(
        "x", "(Option Bool)", "((as some Bool) true)", "((as some (Option Bool)) true)", "((as some (Option (Option Bool))) true)",
        "((as some (Set Bool)) true)", "((as some Zork) zork)", "((as some Bool) zork)", "((as some (Option Bool)) (as none (Option Bool)))",
        "((as some (Option Bool)))", "((as none (Option Bool)) true)", "((as some) true)", "(some (as none (Option Bool)))",
        "(some (some true))", "(as some true)", "(as none (Set Bool))", "(as set.empty (Option Bool))", "(as set.empty (Set Bool))")),
]
# A11: an `ite` of other parts is a default; a test of other parts has no shape.
COUNTS = [
    (BOOL_FUN, bodies(
        "(ite)", "(ite (= a true))", "(ite (= a true) true)", "(ite (= a true) true true true)", "(ite (= a) true true)",
        "(ite (=) true true)", "(ite = true true)", "(or = a true)", "(or (or))", "(or (a = true))", "(or () ())", "or",
        "(ite (= a true) true (or))")),
]
# A12: the width fixes the count of digits.
WIDTHS = [
    (f"bitvec {width}; var x 0", variable(
        "x", f"(_ BitVec {width})", f"(_ bv0 {width})", f"(_ bv{2 ** width - 1} {width})", f"#b{1:0{width}b}"))
    for width in (1, 2, 3, 4, 5, 7, 8, 9, 63, 64, 65, 127, 128)
]
# A13: kept words bind sorts and enum members alone.
KEPT_WORDS = [
    ("bool; var true 0; var none 0; fun or 0 0; fun ite 0 0", [
        "((define-fun true () Bool false)\n(define-fun none () Bool true)\n(define-fun or ((ite Bool)) Bool (or (= ite true)))\n"
        "(define-fun ite ((or Bool)) Bool (ite (= false or) false true)))"]),
    ("entity IPAddr; entity int; var x 0", variable("x", "IPAddr", '(IPAddr "a")', '(int "a")')),
    ("bool; fun f 0 0", [
        "((define-fun f ((= Bool)) Bool (or (= = true) (= false =))))",
        "((define-fun f ((true Bool)) Bool (ite (= true true) true true)))",
        "((define-fun f ((false Bool)) Bool (or (= true false) (= false true))))",
        "((define-fun f ((none Bool)) Bool (or (= none none))))",
    ]),
]
# A14: inside values the argument's name is an enum member, if there is one.
ARGUMENTS = [
    ("bool; entity C; fun f 1 0; fun g 1 1; enum a 1 x; enum b 1 y", [
        "((define-fun f ((a C)) Bool (or (= a a))))",
        "((define-fun f ((a C)) Bool (or (= a b) (= a a))))",
        "((define-fun f ((a C)) Bool (or (= b b))))",
        "((define-fun g ((a C)) C a))",
        "((define-fun g ((b C)) C (ite (= b a) b a)))",
        "((define-fun g ((c C)) C (ite (= c c) b a)))",
        "((define-fun g ((c C)) C (ite (= a c) b c)))",
    ]),
]
# A15: key, value, then their sorts. A16: the result of `or` before its first test, after both sorts.
ORDER = [
    (BOOL_FUN, bodies(
        '(ite (= a "s") zork true)', '(ite (= a "s") true zork)', '(ite (= a zork) "s" true)', '(ite (= a true) true "s")',
        '(ite (= a true) "s" (or))', '(or (= a "s") (= a))', '(or (= a true) (= a "s") zork)')),
    ("bool; string; fun f 0 1", [
        *bodies("(or zork)", "(or (= a))", "(or)", out="String"), *bodies("(or zork)", out="Bool"), *bodies("(or zork)", out="Zork"),
        "((define-fun f ((a String)) String (or zork)))", "((define-fun f ((a Zork)) String (or zork)))",
    ]),
    ("bool; string; var b 0", [*variable("b", "String", "true", "zork", '"s"'), *bools('"s"'), *variable("b", "Zork", "zork")]),
]
# A17: empty texts, a record without rows (an empty name is among the refused tables of cases/limits.py). A18: names with `=` and with
# bytes that are not white.
NAMES = [
    ("entity N; record R; var x 0; var y 1; enum m 0 ", [*variable("x", "N", "m"), *variable("y", "R", "(R)")]),
    ("bool; var a=b 0; var = 0; var == 0", [
        "((define-fun a=b () Bool true) (define-fun = () Bool false) (define-fun == () Bool true))"]),
    ("bool; var \x0b 0; var \x00 0; fun \x7f| 0 0", [
        "((define-fun \x0b () Bool true) (define-fun \x00 () Bool false) (define-fun \x7f| ((\x01 Bool)) Bool (or (= \x01 true))))"]),
    ("entity \u00e9; var \u2200 0; enum \U0001f600 0 \u00e9 \x0b", variable("\u2200", "\u00e9", "\U0001f600", '(\u00e9 "\u00e9")')),
    ("entity E; var x 0; enum m 0 =; enum =m 0 m 0 =;", variable("x", "E", "m", "=m")),
]
DOUBTS = [*NO_ROW, *OPERATORS, *MATCHED, *TYPED, *COUNTS, *WIDTHS, *KEPT_WORDS, *ARGUMENTS, *ORDER, *NAMES]
