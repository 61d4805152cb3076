"""Cases of document 02's R-2, operators that are worked out: tables in short (cases/listings.py), a model, and its answer.

Answers are in short as in docs/DIFFERENCES.md: a bare number is a refusal, else the values of the listing. Behind the listed cases stand
random tables and models with operators wherever a value may stand.
"""

from itertools import product

from cases import models, values, wider
from cases.known import bodies, bools, variable
from cases.levels import DEEPEST, SHORT, nested
from cases.listings import tables
from cases.repeats import single, union

# Each operator with the number of its operands.
COUNTS = {"not": 1, "or": 2, "=": 2, "ite": 3, "bvnego": 1, "bvsaddo": 2, "bvsmulo": 2}
ADDRESSES = ("V4", "V6")
OPTION = "bool; option 0; var b 0; var x 1"
VECTORS = "bool; bitvec 1; bitvec 2; string; var b 0; var v 1"
NO_BOOL = "bitvec 1; var x 0"
BITS = "(_ BitVec 1)"
BODY = "bool; string; fun f 0 0; fun g 0 1"
SETS = "bool; set 0; var x 1"
MANY = "bool; bitvec 4; set 1; set 2; record R 1 2; entity E; entity F; string; decimal; var b 0; enum m 5 a; enum n 5 a; enum k 6 a; enum l 5 b"
# A literal that is refused by a number which no operator gives, so that it shows whether it was read.
READ = "(_ bv 0)"


def told(short, some):
    """Models with their answers, each given as a pair."""
    return [(short, model, answer) for models, answer in some for model in models]


def truths(short, some):
    """Values of the variable `b`, each with its answer."""
    return told(short, [(bools(value), answer) for value, answer in some.items()])


# What an operand expects: nothing, but for the branches of `ite`, which expect what the whole does.
EXPECTING = truths(OPTION, {
    "(not (some true))": "16", "(= (some true) (some true))": "value=true", "(ite true (some true) (some true))": "15",
    "(ite (some true) true true)": "16", "(= (as none (Option Bool)) (some true))": "value=false", "(= (some true) none)": "15",
    "(= (as none (Option Bool)) (as none (Option Bool)))": "value=true", "(or (some true) true)": "16",
}) + told(OPTION, [
    (variable("x", "(Option Bool)", "(ite true (some true) (as none (Option Bool)))", "(some (ite false false true))"), "value=some(true)"),
    (variable("x", "(Option Bool)", "(ite false (some true) (as none (Option Bool)))"), "value=none"),
    (variable("x", "(Option Bool)", "(ite true none none)", "(ite true (some true) none)", "(ite none (some true) (some true))"), "15"),
    (variable("x", "(Option Bool)", "(= (some true) (some true))"), "16"),
])
# Refusals: the first operand's own first, then 16 behind all of them; then what the truth value needs.
REFUSING = truths(VECTORS, {
    "(or (not #b1) zork)": "16", "(or zork (not #b1))": "15", "(not #b1)": "16", '(not "")': "16", "(or true #b1)": "16", "(or #b1 true)": "16",
    "(or #b1 zork)": "15", "(or #b1 #b1)": "16", "(= true #b1)": "16", "(= #b1 #b00)": "16", '(= "" zork)': "15", "(ite #b1 true true)": "16",
    "(ite #b1 zork true)": "15", "(ite #b1 true zork)": "15", '(ite true true "")': "16", '(ite true "" true)': "16", '(ite false true "")': "16",
    '(ite true "" "")': "16", "(ite true true #b1)": "16", "(ite (not #b1) zork true)": "16", "(bvnego true)": "16", '(bvnego "")': "16",
    "(bvsaddo #b1 true)": "16", "(bvsaddo true #b1)": "16", "(bvsaddo #b1 #b00)": "16", "(bvsmulo #b1 #b00)": "16", "(bvsmulo true true)": "16",
    "(bvsaddo true zork)": "15", "(bvsmulo zork true)": "15", "(bvnego zork)": "15", "(bvsaddo #b1 #b000)": "23", "(not b)": "15",
    "(bvsaddo #b1 (bvnego true))": "16", "(not (= #b1 #b00))": "16",
}) + told(VECTORS, [
    (variable("v", BITS, "(not true)", "(bvnego #b1)", "(ite true true true)"), "16"),
    (variable("v", BITS, "(ite true #b1 #b0)", "(ite (bvsmulo #b1 #b1) #b1 #b0)"), "value=bv1:1"),
    (variable("v", BITS, "(ite true #b1 #b00)", "(ite false #b00 #b1)"), "16"),
]) + told(NO_BOOL, [
    (variable("x", BITS, "(not #b1)", "(or #b1 #b1)", "(ite #b1 #b1 #b1)"), "16"),
    (variable("x", BITS, "(= #b1 #b1)", "(bvnego #b1)", "(bvsaddo #b1 #b1)", "(bvsmulo #b1 #b1)", "(ite (= #b1 #b1) #b1 #b1)", "(not true)"), "23"),
    (variable("x", BITS, "(ite zork #b1 #b1)", "(= #b1 zork)"), "15"),
]) + truths("bool; var b 0", {"(= #b1 #b1)": "23", "(not #b1)": "23", "(ite true true #b1)": "23", "(ite false (some true) true)": "15"})
# Another number of operands makes it an application of a name, and nothing of it is read.
COUNTED = truths("bool; var b 0", {
    f"({name}{(' ' + READ) * count})": "4" if count == right else "15" for name, right in COUNTS.items() for count in range(5)
}) + truths("bool; var b 0", {"(or true true true)": "15", "(not)": "15", "(= true)": "15", "((not) true)": "15", "not": "15", "(|not| true)": "15"})
# Addresses stay uncovered and unread, where they are come to.
UNCOVERED = truths("bool; var b 0", {
    f"({name}{(' ' + READ) * count})": "22" if count == 2 else "15" for name in ADDRESSES for count in range(4)
}) + truths("bool; var b 0", {
    "(ite true true (V4 a b))": "22", "(ite false (V6 a b) true)": "22", "(or (V6 a b) zork)": "22", "(or zork (V6 a b))": "15",
    "(not (V4 a b))": "22", "(= (V4 a b) (V4 a b))": "22", "(ite (V4 a b) true true)": "22", "(or true (V4 a b))": "22",
})
# Bodies: `or` and arms are walked as ever; elsewhere they are operators, and a body headed `=` is a default.
WALKED = [case for value, answer in {
    "(or true true)": "21", "(ite true true true)": "21", "(or)": "else=false", "(or (= a true))": "when=true then=true else=false",
    "(= true true)": "else=true", "(= true false)": "else=false", "(= a true)": "15", "(= true a)": "15", "(= a a)": "15", "(=)": "15",
    "(= a)": "15", "(= a true true)": "15", "(= (= true true) a)": "15", "(= (= true true) true)": "else=true", '(= true "")': "16",
    "(not true)": "else=false", "(not a)": "15", "(not (= a true))": "15", "(not (or true false))": "else=false",
    "(not (ite true true false))": "else=false", "(ite true true)": "15", "(ite (not (= a true)) true false)": "21",
    "(ite (= a true) (or true false) (or false false))": "when=true then=true else=false",
    "(ite (= a true) (ite true true false) false)": "when=true then=true else=false", "(ite (= a true) true (ite true true true))": "21",
    "(ite (= a true) true (ite (= a false) true (not true)))": "when=false then=true when=true then=true else=false",
    "(ite (= a true) true (or (= a true) (= a false)))": "15", "(ite (= a true) true (= true false))": "when=true then=true else=false",
    "(ite (= a true) true (= a true))": "15", "(ite (= a true) (not a) false)": "15", '(ite (= a true) (not "") zork)': "16",
    "(or (= a (not true)))": "when=false then=true else=false", "(or (= (ite true true false) a))": "when=true then=true else=false",
    "(or (= a (= true true)) (= (not true) a))": "when=false then=true when=true then=true else=false", "(or (= a (= a true)))": "15",
    "(or (= (not true) (not true)))": "21", "(ite (= a (or false false)) (not true) (not false))": "when=false then=false else=true",
    "(ite (= a (not false)) false (ite (= (not false) a) true false))": "when=true then=true else=false", '(or (= a (ite true "" "")))': "16",
    '(ite (= a true) (ite true "" "") zork)': "16", "(bvnego a)": "15", "(V4 a a)": "22",
}.items() for case in told(BODY, [(bodies(value), answer)])] + told(BODY, [
    (['((define-fun g ((a Bool)) String (ite true "" "")))'], "21"), (['((define-fun g ((a Bool)) String (= true true)))'], "16"),
    (['((define-fun g ((a Bool)) String (ite (= a true) (ite false "" "b") "")))'], "when=true then=s:62 else=s:"),
    (['((define-fun g ((a Bool)) String (or true true)))'], "16"),
]) + told("bool; entity C; fun f 1 0; enum a 1 x", [
    (["((define-fun f ((a C)) Bool (= a a)))", '((define-fun f ((a C)) Bool (= (C "x") a)))'], "else=true"),
    (['((define-fun f ((a C)) Bool (= a (C "y"))))', "((define-fun f ((a C)) Bool (not (= a a))))"], "else=false"),
])
ONE, TWO, FIVE = single("#x1"), single("#x2"), single("#x5")
NOTHING = "(as set.empty (Set (_ BitVec 4)))"
CHOSEN = single("(ite true #x1 #x5)")
# Equality is of values, whatever their notation and arrangement.
EQUAL = truths(MANY, {f"(= {one} {other})": answer for one, other, answer in [
    ("true", "true", "value=true"), ("true", "false", "value=false"), ("#b0101", "#x5", "value=true"), ("#x5", "(_ bv5 4)", "value=true"),
    ("(_ bv+05 4)", "#b0101", "value=true"), ("#x5", "#x6", "value=false"), ('"a"', '"\\u{61}"', "value=true"), ('"a"', '"b"', "value=false"),
    ('""', '"a"', "value=false"), ("(Decimal #x0000000000000001)", f"(Decimal #b{1:064b})", "value=true"),
    ("(Decimal #x0000000000000001)", "(Decimal #xffffffffffffffff)", "value=false"), ("m", "n", "value=true"), ("m", '(E "a")', "value=true"),
    ("m", "l", "value=false"), ("m", "k", "16"), ("m", '(F "a")', "16"), ("m", '"a"', "16"), ("E", "m", "15"),
    (union(ONE, TWO), union(TWO, ONE), "value=true"), (union(ONE, ONE), ONE, "value=true"), (union(ONE, NOTHING), ONE, "value=true"),
    (union(ONE, TWO, FIVE), union(union(FIVE, ONE), union(TWO, ONE)), "value=true"), (ONE, TWO, "value=false"), (ONE, NOTHING, "value=false"),
    (union(ONE, TWO), ONE, "value=false"), (ONE, union(ONE, TWO), "value=false"), (union(ONE, TWO), union(ONE, FIVE), "value=false"),
    (NOTHING, NOTHING, "value=true"), (NOTHING, "(as set.empty (Set (Set (_ BitVec 4))))", "16"), (CHOSEN, ONE, "value=true"),
    (union(CHOSEN, FIVE), union(FIVE, ONE), "value=true"), (single(union(ONE, TWO)), single(union(TWO, ONE, TWO)), "value=true"),
    (union(single(ONE), single(TWO)), union(single(TWO), single(CHOSEN)), "value=true"), (single(ONE), single(NOTHING), "value=false"),
    (f"(R #x1 {union(ONE, TWO)})", f"(R (_ bv1 4) {union(TWO, ONE)})", "value=true"), (f"(R #x1 {ONE})", f"(R #x2 {ONE})", "value=false"),
    (f"(R #x1 {ONE})", f"(R #x1 {NOTHING})", "value=false"), (f"(R #x1 {CHOSEN})", f"(R (ite false #x2 #x1) {ONE})", "value=true"),
]}) + truths(MANY, {
    f"(ite (= {union(ONE, TWO)} {union(TWO, ONE)}) false true)": "value=false", f"(not (= {ONE} {TWO}))": "value=true",
    "(not (not true))": "value=true", "(or (not true) (not false))": "value=true", "(or false false)": "value=false", "(or true false)": "value=true",
    "(or false true)": "value=true", "(or true true)": "value=true", "(not false)": "value=true", "(ite (not true) true false)": "value=false",
    "(bvnego #x8)": "value=true", "(bvnego #x9)": "value=false", "(bvsaddo #x7 #x1)": "value=true", "(bvsaddo #x8 #xf)": "value=true",
    "(bvsaddo #x7 #x8)": "value=false", "(bvsmulo #x8 #xf)": "value=true", "(bvsmulo #x8 #x1)": "value=false", "(bvsmulo #x2 #x4)": "value=true",
}) + truths("bool; bitvec 8; var b 0", {"(bvnego (_ bv128 8))": "value=true", "(bvnego (_ bv+127 8))": "value=false",
                                        "(bvsaddo (_ bv128 8) (_ bv255 8))": "value=true", "(bvsmulo #x80 (_ bv255 8))": "value=true",
                                        "(bvsaddo (_ bv256 8) #x00)": "7"})
# Inside other values, and as those of get-value's pairs through their image (oracle/worked.py).
INSIDE = told("bool; bitvec 1; option 0; set 1; record R 0 1; var o 2; var s 3; var r 4; fun f 4 4", [
    (variable("o", "(Option Bool)", "(some (not true))", "((as some (Option Bool)) (or false false))"), "value=some(false)"),
    (variable("s", f"(Set {BITS})", union(single("(ite true #b1 #b0)"), single("(ite false #b1 #b0)"))), "value={bv1:0,bv1:1}"),
    (variable("s", f"(Set {BITS})", f"(ite true {single('#b1')} {single('#b0')})",
              f"(set.union (ite false {single('#b0')} {single('#b1')}) {single('#b1')})"), "value={bv1:1}"),
    (variable("r", "R", "(R (not true) (ite true #b1 #b0))", "(ite false (R true #b1) (R (bvnego #b0) #b1))"), "value=r4(false,bv1:1)"),
    (variable("r", "R", "(R (ite true #b1 #b1) #b1)", "(R true (not true))"), "17"),
    (variable("r", "R", "(R (not #b1) zork)"), "16"),
    (variable("s", f"(Set {BITS})", single("(not true)")), "23"),
    (["((define-fun f ((a R)) R (ite (= a (R (not true) #b1)) (R (not false) (ite true #b0 #b1)) (R (= #b1 #b0) #b0))))"],
     "when=r4(false,bv1:1) then=r4(true,bv1:0) else=r4(false,bv1:0)"),
])
TWICE, ALONE = union(single("true"), single("true")), single("true")
# The need counts the branch that is taken, as it is written, and nothing else.
NEEDS = [(SETS, model, wanted) for value, wanted in {
    f"(ite false {TWICE} (as set.empty (Set Bool)))": "{}", f"(ite true {TWICE} (as set.empty (Set Bool)))": "{true,true}",
    f"(ite (= {TWICE} {ALONE}) {ALONE} {TWICE})": "{true}", f"(set.union (ite true {ALONE} {TWICE}) (ite false {ALONE} {TWICE}))": "{true,true,true}",
    f"(ite true (ite false {TWICE} {ALONE}) {TWICE})": "{true}",
}.items() for model in variable("x", "(Set Bool)", value)]
LISTED = [*EXPECTING, *REFUSING, *COUNTED, *UNCOVERED, *WALKED, *EQUAL, *INSIDE]

# Widths whose values are all taken, and others, of which those at the edges are.
EVERY, EDGED = (1, 2, 3, 4), (31, 32, 63, 64, 65, 127, 128)
SIGNED = {"bvsaddo": int.__add__, "bvsmulo": int.__mul__}


def numbers(width):
    """The values of a width as signed numbers."""
    least, past = -2 ** (width - 1), 2 ** (width - 1)
    return list(range(least, past)) if width in EVERY else [least, least + 1, -1, 0, 1, past - 1]


def notations(width):
    """How a number of a width is written."""
    found = [lambda number: f"#b{number % 2 ** width:0{width}b}", lambda number: f"(_ bv{number % 2 ** width} {width})"]
    return found + [lambda number: f"#x{number % 2 ** width:0{width // 4}x}"] * (width % 4 == 0)


def applied(width, one, other):
    """Each operator on two values, or one of them or what is worked out of them, as writing it and its answer; `ite` has a vector."""
    least, past = -2 ** (width - 1), 2 ** (width - 1)
    overflows = lambda number: not least <= number < past
    yield "bvnego", "(bvnego {0})", overflows(-one)
    for name, work in SIGNED.items():
        yield name, f"({name} {{0}} {{1}})", overflows(work(one, other))
    yield "=", "(= {0} {1})", one == other
    yield "not", "(not (= {0} {1}))", one != other
    yield "or", "(or (bvnego {0}) (bvsaddo {0} {1}))", overflows(-one) or overflows(one + other)
    yield "ite", "(ite (= {0} {1}) {0} {1})", one if one == other else other
    yield "ite, its other branch", "(ite (bvsmulo {0} {1}) {0} {1})", one if overflows(one * other) else other


def as_text(width, worth):
    return str(worth).lower() if isinstance(worth, bool) else f"bv{width}:{worth % 2 ** width:0{(width + 3) // 4}x}"


def tabulated(width, first, second):
    """A model for each operator, the pairs of values being its arms; `first` and `second` write the operands."""
    found = {}
    for one in numbers(width):
        for other in numbers(width):
            for name, form, worth in applied(width, one, other):
                found.setdefault(name, []).append((form.format(first(one), second(other)), as_text(width, worth)))
    for name, arms in found.items():
        sort, default = (f"(_ BitVec {width})", first(0)) if name.startswith("ite") else ("Bool", "true")
        body = "".join(f"(ite(= a #x{place:02x}){value}" for place, (value, _) in enumerate(arms)) + " " + default + ")" * len(arms)
        lines = "".join(f" when=bv8:{place:02x} then={text}" for place, (_, text) in enumerate(arms))
        wanted = f"{lines[1:]} else={as_text(width, 0) if name.startswith('ite') else 'true'}"
        yield f"bool; bitvec 8; bitvec {width}; fun f 1 {2 * name.startswith('ite')}", f"((define-fun f ((a (_ BitVec 8))) {sort} {body}))", wanted


def worked_tables():
    """Every operator over every pair of values of narrow widths and of those at the edges of others, in each pair of notations."""
    for width in (*EVERY, *EDGED):
        for pair in product(notations(width), repeat=2):
            yield from tabulated(width, *pair)


def fewer_tables():
    """The same with one pair of notations for an operator, the next one for the next operator."""
    for width in (*EVERY, *EDGED):
        found = [list(tabulated(width, *pair)) for pair in product(notations(width), repeat=2)]
        yield from (found[place % len(found)][place] for place in range(len(found[0])))


# Each operator in each of its places, around a truth value; the vectors' take theirs through `ite`.
FORMS = [("(not", ")"), ("(or", " false)"), ("(or false", ")"), ("(=", " true)"), ("(= true", ")"), ("(ite", " true false)"),
         ("(ite true", " false)"), ("(ite false false", ")")]
OVERFLOWS = ["(bvnego(ite{} #b1 #b0))", "(bvsaddo(ite{} #b1 #b0)#b1)", "(bvsmulo #b1(ite{} #b1 #b0))"]
SHORT_TABLES = "bool; bitvec 1; var b 0"


def negated(level):
    """So many negations around a truth value, and what they come to."""
    return nested("(not", " true", ")", level), level % 2 == 0


def at_levels():
    """Level 1,023 through each operator, which is worked out, and level 1,024, which is 24."""
    found = []
    for level in (DEEPEST, DEEPEST + 1):
        inner, worth = negated(level - SHORT)
        found += [(nested(opening, inner, closing, SHORT), worth, level) for opening, closing in FORMS]
        inner, worth = negated(level - 2)
        found += [(form.format(inner), worth, level) for form in OVERFLOWS] + [(*negated(level), level)]
    return [(SHORT_TABLES, *bools(value), f"value={str(worth).lower()}" if level == DEEPEST else "24") for value, worth, level in found]


def again_and_again(levels):
    """A condition inside a set that is compared, again and again: E0 is `true`, each next one is true where the one before it is."""
    value = "true"
    for _ in range(levels):
        value = f"(= (set.union (set.singleton #b1) (set.singleton (ite {value} #b0 #b1))) (set.union (set.singleton #b0) (set.singleton #b1)))"
    return value


def set_rows(levels):
    return "; ".join(["bool", *(f"set {row}" for row in range(levels)), "var b 0"])


def hostile():
    """What takes long where it is done carelessly."""
    sets = [nested("(set.singleton", f" {core}", ")", 1_000) for core in ("true", "false")]
    conditions = nested("(ite", " true", " true false)", 1_000)
    turned = nested("(ite", " true", " false true)", 1_000)
    deep = [(set_rows(1_000), *bools(f"(= {sets[0]} {other})"), answer) for other, answer in zip(sets, ("value=true", "value=false"))]
    return deep + truths(SHORT_TABLES, {conditions: "value=true", turned: "value=true"}) + [
        ("bool; bitvec 1; set 1; var b 0", *bools(again_and_again(255)), "value=true")]


def vectors():
    """What a list of vectors takes; those of NEEDS have answers of another kind."""
    return [*LISTED, *fewer_tables(), *at_levels(), *hostile()]


def pairs():
    """The listed variables as replies to get-value, which have the same answers."""
    found = [*LISTED, *at_levels(), *hostile()]
    return [(rows, values.as_pairs(model.encode()).decode(), answer) for rows, model, answer in found if " ((a " not in model]


DEEP_FORMS = [(opening.encode(), closing.encode()) for opening, closing in FORMS]
DEEP_CORES = [b" true", b" false", b" zork", b" #b1", b"(bvnego #b1)", b"(V4 a a)", b"(some true)"]
DEEP_TABLES = tables("bool; bitvec 1; option 0; record R 0; var x 0; var y 2; var z 3; fun f 0 0").encode()
DEEP_MODELS = [b"((define-fun x()Bool%s))", b"((define-fun y()(Option Bool)(some%s)))", b"((define-fun z()R(R%s)))",
               b"((define-fun f((a Bool))Bool(or(= a%s))))", b"((define-fun f((a Bool))Bool(ite(= a true)%s true)))",
               b"((define-fun f((a Bool))Bool%s))"]
# How many operators one model may have, and how deep they stand in each other.
MOST, DEPTH = 24, 3


class Tables(wider.Tables):
    """Rows as in cases/wider.py with vectors of every width, and operators wherever a value may stand."""

    def __init__(self, rng):
        self.left, self.depth = MOST, 0
        super().__init__(rng)

    def add_row(self):
        """Mostly there is a row for truth values, and often one for a vector."""
        width = ("bitvec", self.rng.randrange(1, 129))
        sort = ("bool",) if not self.rows and self.rng.randrange(20) else width
        if sort in self.rows or sort == width and self.rng.randrange(3):
            super().add_row()
        else:
            self.rows.append(sort)
            self.weights.append(1)

    def near(self, row):
        """This row, now and then any."""
        return row if self.rng.randrange(30) else self.rng.randrange(len(self.rows))

    def value(self, row):
        if self.depth >= DEPTH or self.left <= 0 or self.rng.randrange(4):
            return super().value(row)
        self.depth, self.left = self.depth + 1, self.left - 1
        found = self.made(row)
        self.depth -= 1
        return found

    def made(self, row):
        """A value that is worked out."""
        if self.rows[row] == ("bool",) and self.rng.randrange(4):
            return self.operator(0)
        return [b"ite", self.truth(), self.value(row), self.value(self.near(row))]

    def truth(self):
        """A truth value, or one of another sort."""
        bools = [row for row, sort in enumerate(self.rows) if sort == ("bool",)]
        return self.value(self.near(bools[0])) if bools else self.rng.choice([b"true", b"false"])

    def bool(self, row):
        return models.Tables.bool(self, row)

    def body(self, arg, out):
        """Seldom one whose default is an `ite`, for that would be an arm without a test."""
        found = super().body(arg, out)
        return found if not self.astray(found) or not self.rng.randrange(4) else super().body(arg, out)

    def astray(self, body):
        while len(body) == 4 and body[0] == b"ite" and isinstance(body[1], list) and self.arg in body[1]:
            body = body[3]
        return body[:1] == [b"ite"]

    def operator(self, depth):
        """An operator that mostly fits; now and then one of cases/wider.py, whose vectors have no rows."""
        rng = self.rng
        if not rng.randrange(15):
            return super().operator(depth)
        rows = [row for row, sort in enumerate(self.rows) if sort[0] == "bitvec"] or range(len(self.rows))
        name = rng.choice(list(COUNTS))
        if name in ("not", "or"):
            return [name.encode(), *(self.truth() for _ in range(COUNTS[name]))]
        if name == "ite":
            return [b"ite", self.truth(), self.truth(), self.truth()]
        row = rng.randrange(len(self.rows)) if name == "=" else rng.choice(rows)
        return [name.encode(), *self.operands(row, COUNTS[name])]

    def operands(self, row, count):
        """Values of one row, often equal ones in other notations."""
        one = self.value(row)
        return [one] if count == 1 else [one, wider.again(self.rng, one) if not self.rng.randrange(3) else self.value(self.near(row))]


def deep(rng):
    """Operators nested about as deep as is read."""
    chosen = [rng.choice(DEEP_FORMS) for _ in range(DEEPEST + rng.randrange(-3, 3))]
    value = b"".join(opening for opening, _ in chosen) + rng.choice(DEEP_CORES) + b"".join(closing for _, closing in reversed(chosen))
    return DEEP_TABLES, rng.choice(DEEP_MODELS) % value


def random_case(rng):
    """Tables, a model in bytes, and its nodes, or None where it was not made of nodes."""
    return wider.model_of(rng, Tables(rng)) if rng.randrange(150) else (*deep(rng), None)


def random_reply(rng):
    """Tables and a reply to get-value."""
    return values.reply_of(rng, Tables(rng), wider.struck)
