"""Models on which document 01 and the crate part.

The rules are those of docs/DIFFERENCES.md, each with several models: D1 to D8 under numbers that are not starred, S1 and S2 under
starred ones. Tables are in short (cases/listings.py).
"""

from cases.listings import BOOL_FUN, ONE_BOOL, OPTIONS

ONES = "1" * 128
WIDE = "340282366920938463463374607431768211455"
OPTION_SET = "bool; option 0; set 1; var x 2"
OPTION_RECORD = "bool; option 0; record R 1; var x 2"
OR_STRING = "bool; string; fun f 0 1"
EMPTY_RECORDS = "record A; record B; var x 0"


def variable(name, sort, *values):
    return [f"((define-fun {name} () {sort} {value}))" for value in values]


def bools(*values):
    return variable("b", "Bool", *values)


def bodies(*values, out="Bool"):
    return [f"((define-fun f ((a Bool)) {out} {value}))" for value in values]


# D1: the bare word `none`.
D1 = [
    (OPTIONS, [
        *variable("x", "(Option Bool)", "none"),
        *variable("y", "(Option (Option Bool))", "(some none)", "((as some (Option (Option Bool))) none)"),
        *bodies("none", "(ite (= a true) none none)", out="(Option Bool)"),
    ]),
    (OPTION_SET, variable("x", "(Set (Option Bool))", "(set.singleton none)")),
    (OPTION_RECORD, variable("x", "R", "(R none)")),
    ("bool; option 0; record R 1 0; var x 2", variable("x", "R", '(R none "s")')),
]
# D2: names of sorts as atoms.
D2 = [
    ("record N; var x 0", variable("x", "N", "N")),
    ("bool; record R 0; var b 0", bools("R")),
    ("entity E; entity C; var c 1; enum E 1 x", variable("c", "C", "E")),
    ("record N; entity C; var c 1; enum N 1 x", variable("c", "C", "N")),
    ("bool; record R 0; entity C; var c 2; enum R 2 x", variable("c", "C", "R")),
    ("record N; entity C; var x 0; enum N 1 x", variable("x", "N", "N")),
]
# D3: the sort `IPAddr`.
D3 = [
    (ONE_BOOL, [*variable("b", "IPAddr", "true", "zork"), *bools("(as none (Option IPAddr))")]),
    ("entity IPAddr; var x 0", variable("x", "IPAddr", '(IPAddr "a")')),
    ("bool; entity IPAddr; fun f 1 0", ["((define-fun f ((a IPAddr)) Bool true))"]),
]
# D4: bodies headed `=`; D5: tests of another shape; D6: sorts in arms; D7: `or` without bool; D8: records without fields.
D4 = [
    (BOOL_FUN, bodies("(= a true)", "(= true a)", "(= a)", "(=)", "(= a true true)", "(= true true)")),
    (OR_STRING, bodies("(= a true)", out="String")),
]
D5 = [(BOOL_FUN, bodies(
    "(or true)", "(or (= a))", "(or (= true true))", "(or (= a true true))", "(ite true true true)", "(ite (not (= a true)) true true)"))]
D6 = [(BOOL_FUN, bodies(
    '(or (= a "s"))', '(ite (= a "s") true true)', '(ite (= a true) "s" true)', '"s"', '(or (= a "s") zork)', '(ite (= a true) "s" zork)'))]
D7 = [(OR_STRING, bodies("(or)", "(or (= a true))", "(or zork)", out="String"))]
D8 = [(EMPTY_RECORDS, [*variable("x", "A", "(B)"), *variable("x", "B", "(B)")])]
# S1: what the crate works out; S2: sorts without a row.
S1 = [
    (ONE_BOOL, bools(
        "(not true)", "(or true false)", "(= #b1 #b1)", "(ite true true false)", "(bvnego #x80)", "(bvsaddo #x7f #x01)", "(bvsmulo #x10 #x08)",
        "(not zork)", "(= true #b1)", "(or true #b1)", "(or #b1 #b1)", "(or #b1 #b0)", "(not #b1)", "(bvnego true)", "(bvsaddo #b1 #b00)",
        "(bvsmulo #b1 #b00)", "(ite #b1 true true)", '(ite true true "s")', "(ite #b1 #b0 false)", "(V4 #x7f000001 (some #b00001))",
        "(V4 #x7f000001 none)")),
    (OPTIONS, variable("x", "(Option Bool)", "(ite true none none)")),
    (BOOL_FUN, bodies("(ite (= a true) true (or (= a true) (= a false)))", "(ite (= a true) (ite true true false) false)")),
]
S2 = [
    (ONE_BOOL, [*variable("b", "String", "true"), *bools("#b1", "((as some Bool) true)"), *variable("b", "(_ BitVec 4294967295)", "true")]),
    (BOOL_FUN, bodies("(or (= a #b1))", f"(or (= a #b0{ONES}))", f"(or (= a (_ bv{WIDE} 129)))")),
]
DIFFERING = [*D1, *D2, *D3, *D4, *D5, *D6, *D7, *D8, *S1, *S2]


def pairs(groups):
    """Tables in short and a model each."""
    return [(short, model) for short, models in groups for model in models]
