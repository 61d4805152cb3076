#!/usr/bin/env python3
"""profile.py CRATE [ROWS]: where the check of a crate spends its time, module by module, the dearest first.

Empties crates/CRATE/out/incremental and has `rt check` check the crate from nothing, one module at a time. The prover saves each module
as it has checked it, so the time between two saved files is the price of the later one; what comes before the first, above all the loading
of what the crate stands on, is told apart. FILE.FUNCTION.Lts and what begins so is what the toolchain makes of a function's code, .Answers
and .Invariants what is written of its proof, .Proof the proof that is made of these, .Tie and .Reads what ties code and proof; the others
are the crate's own laws and definitions. Nothing else should run beside it. ROWS is how many rows are printed, 25 where it is not given."""
import os
import re
import shutil
import subprocess
import sys
import time

KINDS = ("Code", "Lts", "Goals", "Answers", "Invariants", "Proof", "Tie", "Reads")


def saved(folder):
    """Each saved module with the second at which it was written, in order."""
    files = [os.path.join(base, name) for base, _, names in os.walk(folder) for name in names if name.endswith(".oantt")]
    return sorted((os.stat(path).st_mtime, os.path.basename(path)) for path in files)


def short(crate, name):
    return re.sub(rf"^Rattle-{crate}[-.]", "", re.sub(r"(\.decls)?\.oantt$", "", name))


def kind(name):
    """What a module is of: the first part of its name after its function's that is one of KINDS."""
    return next((part for part in name.split(".")[1:] if part in KINDS), "other")


def check(folder, *words):
    ran = subprocess.run(["rt", "check", *words], cwd=folder, stdin=subprocess.DEVNULL, stdout=subprocess.PIPE, stderr=subprocess.STDOUT, errors="replace")
    return ran.returncode, ran.stdout


def main():
    if len(sys.argv) < 2:
        sys.exit(__doc__)
    crate, rows = sys.argv[1], int(sys.argv[2]) if len(sys.argv) > 2 else 25
    home = f"crates/{crate}"
    if not os.path.isdir(home):
        sys.exit(f"profile.py: there is no folder {home}")
    if check(home)[0]:
        sys.exit(f"profile.py: {crate} is not proved; rt check in {home} says why")
    # empty, but there: a check takes what other clones kept where there is none
    folder = f"{home}/out/incremental"
    shutil.rmtree(folder)
    os.mkdir(folder)
    start = time.time()
    status, said = check(home, "--jobs", "1")
    whole = time.time() - start
    files = saved(folder)
    if status or not files or f"rt: {crate}: begins with" in said:
        sys.exit(f"profile.py: no check of {crate} from nothing was made, so there is no record to read; it said:\n{said}")
    price, first = {}, files[0][0]
    last = first
    for at, name in files[1:]:
        price[short(crate, name)] = price.get(short(crate, name), 0) + max(0, at - last)
        last = max(last, at)
    print(f"{crate}: {whole:.1f} s, {len(price)} modules; before the first of them {first - start:.1f} s, after the last {start + whole - last:.1f} s")
    kinds = {}
    for name, took in price.items():
        kinds[kind(name)] = kinds.get(kind(name), 0) + took
    print("  " + ", ".join(f"{kind} {took:.1f}" for kind, took in sorted(kinds.items(), key=lambda k: -k[1])))
    for name, took in sorted(price.items(), key=lambda p: -p[1])[:rows]:
        print(f"{took:7.2f}  {name}")


main()
