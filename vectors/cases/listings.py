"""Cases for listings: tables and a model each."""

from cases import models

# Tables in short: `bool; option 0; var x 1` for sort=bool, sort=option 0, var=x 1.
OPTIONS = "bool; option 0; option 1; var x 1; var y 2; fun f 0 1"
ONE_BOOL = "bool; var b 0"
BOOL_FUN = "bool; string; fun f 0 0"
VECTOR = "bitvec 8; var x 0"

EDGES = [
    ("bool; bitvec 8; option 1; var x 2; fun f 1 0",
     "((define-fun x () (Option (_ BitVec 8)) (some #xfF))\n(define-fun f ((a (_ BitVec 8))) Bool (or (= a #b00000001) (= #x00 a))))\n"),
    (OPTIONS, "((define-fun x () (Option Bool) ((as some Bool) true)))"),
    (OPTIONS, "((define-fun x () (Option Bool) (as none Bool)))"),
    (OPTIONS, "((define-fun x () (Option Bool) (none)))"),
    (OPTIONS, "((define-fun x () (Option Bool) (some (_ bv 0))))"),
    (OPTIONS, "((define-fun y () (Option (Option Bool)) (some (as none (Option Bool)))))"),
    (ONE_BOOL, "()"),
    (ONE_BOOL, "true"),
    (ONE_BOOL, "(model)"),
    (ONE_BOOL, "(x (define-fun b () Bool zork))"),
    (ONE_BOOL, "((define-fun b () Bool zork) x)"),
    (ONE_BOOL, "((define-fun b () Bool true) (define-fun b () Bool false))"),
    (ONE_BOOL, "((define-fun b () Bool true) (define-fun b () Bool zork))"),
    (ONE_BOOL, "((define-fun b ((a Bool)) Bool true))"),
    (ONE_BOOL, "((define-fun zz ((1 Z)) Z z))"),
    (ONE_BOOL, "((define-fun zz ((a Z) (c Z)) Z z))"),
    (ONE_BOOL, "((define-fun zz ((a Z)) Z z))"),
    (ONE_BOOL, "((define-fun zz () Z #b1))"),
    (ONE_BOOL, "((define-fun |b| () Zork zork))"),
    (ONE_BOOL, "((define-const b () Bool true))"),
    (ONE_BOOL, "((define-fun b () Bool))"),
    (ONE_BOOL, "((define-fun b () Bool (some zork)))"),
    (ONE_BOOL, "((define-fun b () Bool (set.singleton (_ bv 0))))"),
    (ONE_BOOL, "((define-fun b () Bool (set.union true true)))"),
    (ONE_BOOL, "((define-fun b () Bool (as none (Option Zork))))"),
    (ONE_BOOL, "((define-fun b () Bool none))"),
    (ONE_BOOL, "((define-fun b () Bool 7))"),
    (ONE_BOOL, "((define-fun b () Bool ()))"),
    (ONE_BOOL, "((define-fun b () Bool (true)))"),
    (ONE_BOOL, "((define-fun b () Bool (or true)))"),
    (ONE_BOOL, "((define-fun b () Bool (or true true true)))"),
    (ONE_BOOL, "((define-fun b () Bool ((as none (Option Bool)))))"),
    (ONE_BOOL, "((define-fun b () (_ BitVec 0) true))"),
    (ONE_BOOL, "((define-fun b () (_ BitVec 4294967296) true))"),
    (ONE_BOOL, "((define-fun b () (Bool) true))"),
    ("bool; bitvec 1; var b 0", "((define-fun b () Bool (set.union true #b1)))"),
    ("bool; bitvec 1; var b 0", "((define-fun b () Bool #b1))"),
    ("bool; bitvec 1; var b 0", "((define-fun b () (_ BitVec 1) #b1))"),
    ("bool; record R 0; var x 1", "((define-fun x () R (R zork zork)))"),
    ("bool; record R 0; var x 1", "((define-fun x () R (R)))"),
    ("bool; record R 0; var x 1", "((define-fun x () R (R (R true))))"),
    ("bool; record R 0; var x 1", "((define-fun x () R (R false)))"),
    ("record N; var x 0", "((define-fun x () N (N)))"),
    ("decimal; bitvec 64; var x 0", "((define-fun x () Decimal (Decimal (_ bv1 64))))"),
    ("decimal; bitvec 64; var x 0", "((define-fun x () Decimal (Decimal #x8000000000000000)))"),
    ("decimal; bitvec 64; var x 0", "((define-fun x () Decimal (Decimal #b1)))"),
    ("datetime; var x 0", "((define-fun x () Datetime (Datetime #xffffffffffffffff)))"),
    ("duration; var x 0", "((define-fun x () Duration (Duration #x7fffffffffffffff)))"),
    (VECTOR, "((define-fun x () (_ BitVec 8) (_ bvx 0)))"),
    (VECTOR, "((define-fun x () (_ BitVec 8) (_ bv256 4294967296)))"),
    (VECTOR, "((define-fun x () (_ BitVec 8) (_ bv256 0)))"),
    (VECTOR, "((define-fun x () (_ BitVec 8) (_ bv256 8)))"),
    (VECTOR, "((define-fun x () (_ BitVec 8) (_ bv255 8)))"),
    (VECTOR, "((define-fun x () (_ BitVec 8) (_ bv+255 8)))"),
    (VECTOR, "((define-fun x () (_ BitVec 8) (_ bv-1 8)))"),
    (VECTOR, "((define-fun x () (_ BitVec 8) (_ bv 8)))"),
    (VECTOR, "((define-fun x () (_ BitVec 8) (_ bv340282366920938463463374607431768211456 8)))"),
    (VECTOR, "((define-fun x () (_ BitVec 8) (_ bv1 #x8)))"),
    ("bitvec 128; var x 0", "((define-fun x () (_ BitVec 128) (_ bv340282366920938463463374607431768211455 128)))"),
    (BOOL_FUN, "((define-fun f ((a Bool)) Bool (ite (= a true) true)))"),
    (BOOL_FUN, "((define-fun f ((a Bool)) Bool (ite (= a true) true (ite (= true a) false true))))"),
    (BOOL_FUN, "((define-fun f ((a Bool)) Bool (or)))"),
    (BOOL_FUN, "((define-fun f ((a Bool)) Bool (or (= a true))))"),
    (BOOL_FUN, "((define-fun f ((a Bool)) Bool (or (= a a))))"),
    (BOOL_FUN, "((define-fun f ((a Bool)) Bool (ite (= a zork) (_ bv 0) true)))"),
    (BOOL_FUN, "((define-fun f ((a Bool)) Bool (ite (= a true) (_ bv 0) zork)))"),
    (BOOL_FUN, "((define-fun f ((a Zork)) (_ BitVec 0) x))"),
    (BOOL_FUN, "((define-fun f ((a String)) (_ BitVec 0) x))"),
    (BOOL_FUN, "((define-fun f ((a String)) String x))"),
    (BOOL_FUN, "((define-fun f () Bool true))"),
    ("bool; fun f 0 0", "((define-fun f ((true Bool)) Bool (or (= true true))))"),
    ("bool; option 0; fun f 1 0", "((define-fun f ((a (Option Bool))) Bool (or (= a none))))"),
    ("entity C; var c 0; enum r 0 x", "((define-fun c () C r))"),
    ("entity C; var c 0; enum r 0 x", "((define-fun c () C (r)))"),
    ("entity C; var c 0; enum r 0 x", '((define-fun c () C (C "zzz")))'),
    ("entity C; var c 0; enum r 0 x", "((define-fun c () C (C x)))"),
    ("bool; string; set 1; var x 2", "((define-fun x () (Set String) (as set.empty String)))"),
    ("bool; string; set 1; var x 2", "((define-fun x () (Set String) (as set.empty (Set String))))"),
    ("bool; string; set 1; var x 2",
     '((define-fun x () (Set String) (set.union (set.singleton "b") (set.union (set.singleton "a") (set.singleton "b")))))'),
]
DRAWN = 20_000
# How many random cases are kept for a pair of answers, document 01's and the crate's: of those that are not too long, in digits, or else
# the shortest.
LONGEST, FEWEST = 400, 2
KEPT = {("listing", "listing"): 110}
KEPT_ALIKE, KEPT_APART = 25, 6


def tables(short):
    """Tables written in full."""
    rows = short.split("; ")
    return "".join((row.replace(" ", "=", 1) if row.split(" ")[0] in ("var", "fun", "enum") else "sort=" + row) + "\n" for row in rows)


def edge_cases():
    return [f"{tables(short).encode().hex()} {model.encode().hex()}" for short, model in EDGES]


def drawn(rng):
    """Random cases, of which the list keeps a few for each kind of answer."""
    return [" ".join(part.hex() for part in models.random_case(rng)) for _ in range(DRAWN)]


def kept_of(pair):
    return KEPT.get(pair, KEPT_ALIKE if pair[0] == pair[1] else KEPT_APART)


def sampled(cases, most=kept_of, longest=LONGEST):
    """The first few cases of each pair of answers that are not too long; where there are hardly any such, the shortest."""
    groups = {}
    for case, pair in cases:
        groups.setdefault(pair, []).append(case)
    kept = set()
    for pair, some in groups.items():
        short = [case for case in some if len(case) <= longest]
        few = short if len(short) >= FEWEST else sorted(some, key=len)[:FEWEST]
        kept.update(few[:most(pair)])
    return [case for case, _ in cases if case in kept]
