"""Cases of replies to get-value (document 02, R-1): tables and a list of pairs each; tables in short as in cases/listings.py."""

from cases import levels, limits, listed, models, trees, wider
from cases.levels import DEEPEST, SHORT, records
from cases.limits import BAD, PLAIN
from cases.listings import ONE_BOOL, OPTIONS, VECTOR, tables
from cases.readings import NAMES_OF_OPERATORS
from cases.repeats import A, B, bytes_of, left, single, union
from cuts import tree

GIVEN = b"((b true))"
# A fault of the reader's in a pair that is asked for and in one that is skipped, and around the pairs.
UNREAD = [b'((b true) (z "\\ud800"))', b"((z #b))", b"((z \xff))", b"((b true)", b"((b true)))", b'((b true) "', b"((b #))", b")((b true))",
          b"((z 340282366920938463463374607431768211456))"]
NAMES = "bool; entity C; var b 0; var |c| 0; var c 1; fun f 0 0; fun c 0 0; enum r 1 x"
SORTS = "bool; string; bitvec 8; bitvec 1; option 0; set 1; entity C; record R 0 1; decimal; datetime; duration; option 7; var b 0; var s 1; " \
        "var v 2; var o 4; var t 5; var c 6; var r 7; var d 8; var e 9; var u 10; var p 11; enum m 6 x"
SETS = "string; set 0; bitvec 8; set 2; set 3; var x 1; var y 4"


def given(name, *values):
    return [f"(({name} {value}))" for value in values]


EDGES = [
    # the sample's variable, none at all, twice, and among names that are no variables of the table
    ("bool; bitvec 8; option 1; var x 2; fun f 1 0", [
        "((x (some #xfF)))\n", "()", "((x (some #x01)) (x (some #x02)))", "((y 7) (x (some #x01)) (f (g)))", "( ( x(some #x01) ) ) ; c"]),
    # 13: roots that are no list, and parts that are no pair of a symbol and something
    (ONE_BOOL, [
        "b", "7", "true", '"b"', "#b1", "(b)", "(7)", '("b")', "(#b1)", "(())", "((b))", "((b true false))", "(b true)", "((b true) b)",
        "((b true) ())", "(((b) true))", "((7 true))", '(("b" true))', "((#b1 true))", "((() true))", "((z))", "((z z z))", "(((b true)))",
        "((define-fun b () Bool true))", '(error "b")', "(model)", "((not b) true)", "(((not b) true))"]),
    # the pairs in order: the first fault decides, one in a skipped pair's value is none, one in its shape is; a replaced pair is checked
    (ONE_BOOL, [
        "((b z) x)", "(x (b z))", "((b z)(b true))", "((b true)(b z))", "((b) (b zork))", "((b (not b)) (b))", "((z zork) (b true))",
        "((z (_ bv 0)) (b true))", "((z) (b true))", "((b true) (z))", "((z z))", "((z (not)) (z ()))", "((b true) (b false) (b true) (b false))"]),
    ("bool; bitvec 1; var b 0; var x 1", [
        "((b #b1) x)", "((b #b1) (b true))", "((b true) (b #b1))", "((b #b1) (b z))", "((b z) (b #b1))", "((x #b1) (b true))",
        "((b true) (x #b0) (b false))", "((x #b0) (b false) (x #b1))"]),
    # names: byte by byte, bars kept; those of functions, sorts and members are not asked for; kept words and odd letters
    (ONE_BOOL, ["((|b| true))", "((|b| zork) (b false))", "((B true))", "((bb true))", "((|b true))"]),
    (NAMES, ["((b true) (c r))", "((|c| true))", "((c r) (|c| false))", "((|c| r))", "((c true))", "((f true))", "((f zork))", "((f))",
             "((f (lambda ((a Bool)) a)) (b true))", "((r zork) (C zork))", "((true zork) (b true))"]),
    ("bool; var true 0; var none 0; var define-fun 0", ["((true false) (none true) (define-fun true))"]),
    ("bool; var \u00e9 0; var = 0", ["((\u00e9 true) (= false))", "((e\u0301 true))"]),
    ("bool; fun f 0 0", ["((f true))", "()"]),
    # a value of each sort, and another one for it
    (SORTS, [
        '((b false) (s "a""b\\u{e9}") (v #xA5) (o (as none (Option Bool))) (t (as set.empty (Set String))) (c m) (r (R true "")))',
        f"((d (Decimal #x{'f' * 16})) (e (Datetime #x8{'0' * 15})) (u (Duration #x7{'f' * 15})) (p (some (R false \"x\"))))",
        *(f"(({name} {value}))" for name in "bsvotcrdeup" for value in ("true", '"s"')),
        '((c (C "y")))', "((c C))", "((r R))", "((v #b1))", "((v #b00000001))", "((v (_ bv255 8)))", "((t (set.singleton true)))",
        '((t (set.singleton "s")))', f"((e (Decimal #x{'0' * 16})))", "((d (Decimal (_ bv1 64))))", "((d (Decimal #x00)))"]),
    # the value expects the table's sort, and hands it inwards
    (OPTIONS, [
        "((x ((as some (Option Bool)) true)))", "((x none))", "((y (some (as none (Option Bool)))))", "((y (some (some true))))", "((y (some none)))",
        "((x (some (some true))))", "((y (some true)))", "((x (as none (Option (Option Bool)))))", "((x ((as some (Option (Option Bool))) true)))"]),
    # 4, 7 and 8 in a vector and in a sort
    (VECTOR, given("x", "(_ bv15 8)", "(_ bv+15 8)", "(_ bv15 4)", "#xf", "(_ bv256 8)", "(_ bv256 4294967296)", "(_ bv256 0)", "(_ bvx 0)",
                   "(_ bv 8)", "(_ bv340282366920938463463374607431768211456 8)", "(_ bv1 #x8)", f"#b0{'1' * 128}")),
    (ONE_BOOL, given("b", "(as none (_ BitVec 0))", "(as none (_ BitVec 4294967296))", "(as none (Option (_ BitVec 0)))")),
    # 14, 16, 19, 20, 23 and 28, and the words of no value
    ("bool; option 0; set 0; var b 0; var x 1", [
        *given("b", "(as none Zork)", "(as set.empty (Set Zork))", "((as some Zork) zork)", "(as none Bool)", "(as set.empty Bool)",
               "(as none (Set Bool))", "(as set.empty (Option Bool))", "(as none (Option Bool))", "(as none String)", "((as some Bool) true)", "#b1",
               '"s"', "(some true)", "(set.singleton true)", "(set.union true true)", "(set.union true zork)", "zork", "7", "()", "(true)", "b",
               "(b)", "(f true)", "(let ((a true)) a)"),
        *given("x", "((as some Bool) true)", "((as some (Option Bool)) zork)", "(set.union (some true) (some true))")]),
    ("bool; bitvec 1; var b 0", given("b", "(set.union true #b1)", "((as some Bool) #b1)")),
    # 17 and 18
    ("bool; string; record R 0 1; var x 2", given("x", "(R true)", '(R "a" true)', "(R zork)", "(R)", "(R true true)", "(R (R true zork) zork)")),
    # 22 where the parts fit, else 15
    (ONE_BOOL, given("b", *(f"({name}{' zork' * count})" for name in NAMES_OF_OPERATORS for count in (1, 2)), "(ite zork zork zork)")),
    # repeated members count in the need, those of a pair that is replaced do not
    (SETS, [
        *given("x", union(B, A, B), left(A, A, A)), f"((x {union(A, A, B)}) (x {single(B)}))", f"((x {single(B)}) (x {union(A, A, B)}))",
        f"((x {union(A, A)}) (y {union(*(single(union(*bytes_of(some))) for some in ((2, 1), (1, 2), (1, 1))))}))"]),
]


def nested():
    """Level 1,023 of a value is read, level 1,024 is 24; each pair begins anew, and what is skipped may be deeper."""
    deep, deeper = records("true", DEEPEST), records("true", DEEPEST + 1)
    sort = levels.nested("(Option", " Bool", ")", DEEPEST - 1)
    replies = [*given("x", deep, deeper, records("zork", DEEPEST + 1), f"(as none {sort})", f"(as none (Option{sort}))"),
               f"((x (R true)) (x {deeper}))", f"((z {records('true', DEEPEST + SHORT)}) (x (R true)))"]
    return [("bool; record R 0; var x 1", reply) for reply in replies]


def as_pairs(reply):
    """A model's definitions as pairs, each of a name and what it is defined as; anything else stays."""
    told = tree(reply)
    if not isinstance(told, list):
        return reply
    return models.written([[node[1], node[-1]] if isinstance(node, list) and len(node) == 5 else node for node in told])


def before_the_walk():
    """Refused tables, a rule broken where no pair looks among them; replies that the reader refuses; what is not lent, and what is none."""
    found = [(letter.lower(), text, as_pairs(reply)) for letter, text, reply in limits.before_the_walk()]
    for rows in ("fun f 0 9", "fun f 0 0; fun f 0 0", "enum m 0 x", "fun b 0 0; enum b 0 x"):
        found += [("m", tables(f"{ONE_BOOL}; {rows}").encode(), reply) for reply in (GIVEN, b"x")]
    found += [("m", PLAIN, reply) for reply in UNREAD]
    found += [(letter, PLAIN, reply) for letter in "ntso" for reply in (GIVEN, b"((b true) (b false))", b"()", b"((b z))", b"b", b"((b)")]
    found += [(letter, BAD, GIVEN) for letter in "ntso"] + [("a", PLAIN, GIVEN)]
    return found


def rooms():
    """The rooms of the program, just full and short by one, a need of which most is replaced, and a reply that is too long."""
    small = listed.ROOMS["M"]
    # A definition has three nodes more than a pair: the word, the brackets and the sort.
    found = [(PLAIN, limits.wide(nodes + 3)) for nodes in (small.nodes, small.nodes + 1)]
    found += [limits.named(limits.repeated, need) for need in (small.out, small.out + 1)] + [limits.replaced(b"x" * 100)]
    return [("m", text, as_pairs(reply)) for text, reply in found] + [("m", *limits.lengths()[1][1:])]


def more(rng, drawn):
    """One more pair: of a variable, its value of its own sort or of any; of a function, of a name with bars, of a name of no table."""
    name, row = rng.choice(drawn.vars)
    own, other = drawn.value(row), drawn.value(rng.randrange(len(drawn.rows)))
    functions = [function.encode() for function, *_ in drawn.funs]
    return rng.choice([
        [name.encode(), own], [name.encode(), own], [name.encode(), other], [b"|%s|" % name.encode(), own],
        [rng.choice([b"h", b"m0", b"N0", *functions]), rng.choice([own, other, [b"let", []]])]])


def random_case(rng):
    """Tables and a reply: a pair for each variable and a few more, in any order, half of them damaged once or twice."""
    drawn, strike = rng.choice([(models.Tables, models.damage), (wider.Tables, wider.struck)])
    return reply_of(rng, drawn(rng), strike)


def reply_of(rng, drawn, strike):
    """A reply over tables, as above."""
    told = [[name.encode(), drawn.value(row)] for name, row in drawn.vars] + [more(rng, drawn) for _ in range(rng.randrange(4))]
    rng.shuffle(told)
    told = models.copied(told)
    for _ in range(rng.choice([0, 0, 1, 1, 2])):
        if told:
            strike(rng, drawn, told)
            told = models.copied(told)
    return drawn.text(), models.written(told) if rng.randrange(4) else wider.spaced(rng, told)


def damaged(rng, reply):
    """A copy of a reply with one fault: of a byte, a bracket too few or too many, or another value in a value's place."""
    told, pick = tree(reply), rng.randrange(3)
    told = [part for part in told if isinstance(part, list)] if isinstance(told, list) else None
    if pick == 0 or not told:
        return trees.with_a_fault(rng, reply)
    if pick == 1:
        at = rng.choice([at for at, byte in enumerate(reply) if byte in b"()"])
        return reply[:at] + reply[at:at + 1] * rng.choice([0, 2]) + reply[at + 1:]
    rng.choice(told)[-1] = rng.choice([rng.choice(told)[-1], rng.choice(models.STRAY)])
    return models.written(told)
