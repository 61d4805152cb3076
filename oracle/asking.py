"""How the scripts ask the oracle."""

import subprocess
import sys
import threading
from pathlib import Path

ROOT = Path(__file__).resolve().parent.parent
BUILT = ROOT / "target" / "oracle"
ORACLE = BUILT / "build" / "release" / "oracle"
# The one with our library linked to it.
OURS = BUILT / "ours" / "release" / "oracle"
PYTHON_FRAMES = 1_000_000
PYTHON_STACK = 1 << 30


def run(oracle, mode, cases, **more):
    """A run of the oracle on cases, all at once."""
    return subprocess.run([oracle, mode], input="".join(case + "\n" for case in cases).encode(), stdout=subprocess.PIPE, **more)


def answers(mode, cases):
    """The crate's answer to each case, in order."""
    found = run(ORACLE, mode, cases, check=True).stdout.decode().split("\n")[:-1]
    if len(found) != len(cases):
        sys.exit(f"{mode}: {len(cases)} cases and {len(found)} answers")
    return found


def ours(cases):
    """Our library's answer to each case, in order; `broken=` and what was seen where a call did not keep to what it promises."""
    done = run(OURS, "ours", cases, stderr=subprocess.PIPE)
    found = done.stdout.decode().split("\n")[:-1]
    if done.returncode == 0 and len(found) == len(cases):
        return found
    if len(cases) == 1:
        return [f"broken={done.stderr.decode().strip()}, exit code {done.returncode}"]
    half = len(cases) // 2
    return ours(cases[:half]) + ours(cases[half:])


def roomy(task):
    """The result of a task that may recurse as deep as the deepest model."""
    sys.setrecursionlimit(PYTHON_FRAMES)
    threading.stack_size(PYTHON_STACK)
    results = []
    thread = threading.Thread(target=lambda: results.append(task()))
    thread.start()
    thread.join()
    return results[0] if results else None


def with_room(task):
    """Runs such a task and ends with its result as the exit code; one that did not come to its end has none, and that is 1."""
    found = roomy(task)
    sys.exit(1 if found is None else found)
