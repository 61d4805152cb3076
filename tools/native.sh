#!/bin/sh
# tools/native.sh [MACHINE]: proves stazzumpi and writes target/staticlib/libstazzumpi.a for a kind of machine (x86_64, aarch64), this
# one's if none is named. The toolchain runs on x86-64 alone, and its clang compiles for both: there `sh tools/native.sh aarch64` makes
# the archive that an Arm machine links, to be copied to it. Anywhere else nothing can be proved or compiled, and this says so and ends
# with 2.
set -eu

own=$(uname -m)
machine=${1:-$own}
case $machine in
x86_64 | aarch64) ;;
*) echo "native.sh: the toolchain compiles for x86_64 and aarch64 alone, and not for $machine" >&2; exit 2 ;;
esac
if [ "$own" != x86_64 ]; then
    echo "native.sh: the toolchain runs on x86-64 alone, and this machine is $own: run \`sh tools/native.sh $machine\` on an x86-64 machine, and copy target/staticlib/libstazzumpi.a from there" >&2
    exit 2
fi
cd "$(dirname "$0")/.."
mkdir -p target/staticlib
# The plainest processor of each kind: a library does not look at which one it runs on.
case $machine in
x86_64) cpu=x86-64 ;;
aarch64) cpu=generic ;;
esac
(cd crates/stazzumpi && rt lib --target "$machine-unknown-linux-gnu" --cpu "$cpu")
cp crates/stazzumpi/out/libstazzumpi.a target/staticlib/libstazzumpi.a
echo "native.sh: target/staticlib/libstazzumpi.a is for $machine"
