#!/usr/bin/env python3
"""Finds how deep an input the crate bears on a given stack: it drops, clones and decodes trees by recursion.

Usage: limits.py [ORACLE]     (another build of the oracle, such as one for debugging)
"""

import subprocess
import sys

sys.dont_write_bytecode = True
from asking import ORACLE  # noqa: E402

MEGABYTE = 1 << 20
STACKS = (2 * MEGABYTE, 8 * MEGABYTE)
DEEPEST = 1 << 19


def brackets(depth):
    return "trees", (b"(" * depth + b")" * depth).hex()


def nested(depth, opening, core, closing, sort):
    """A variable whose value is nested; its table row need not fit, for the crate reads the value first."""
    model = b"((define-fun x () %s %s))" % (sort, opening * depth + core + closing * depth)
    return "listings", b"sort=bool\nvar=x 0\n".hex() + " " + model.hex()


SHAPES = {
    "brackets": brackets,
    "skipped body": lambda depth: ("listings", b"sort=bool\n".hex() + " " + (b"((define-fun x () Z %s))" % (b"(" * depth + b")" * depth)).hex()),
    "unions": lambda depth: nested(depth, b"(set.union ", b'(set.singleton "a")', b' (set.singleton "a"))', b"(Set String)"),
    "some": lambda depth: nested(depth, b"((as some Bool) ", b"true", b")", b"Bool"),
    "sorts": lambda depth: nested(0, b"", b"true", b"", b"(Option " * depth + b"Bool" + b")" * depth),
}


def borne(oracle, stack, shape, depth):
    mode, case = SHAPES[shape](depth)
    run = subprocess.run([oracle, mode, str(stack)], input=case.encode() + b"\n", capture_output=True, check=False)
    return run.returncode == 0


def deepest(oracle, stack, shape):
    """The greatest depth that is borne, by halving; None where even the deepest tried is."""
    low, high = 1, DEEPEST
    if borne(oracle, stack, shape, high):
        return None
    while high - low > 1:
        middle = (low + high) // 2
        low, high = (middle, high) if borne(oracle, stack, shape, middle) else (low, middle)
    return low


def main():
    oracle = sys.argv[1] if len(sys.argv) > 1 else ORACLE
    for shape in SHAPES:
        found = {f"{stack // MEGABYTE} MB": deepest(oracle, stack, shape) for stack in STACKS}
        print(shape, found)


if __name__ == "__main__":
    main()
