#!/bin/sh
# tools/run.sh PROGRAM: runs crates/PROGRAM/out/PROGRAM, which `rt run` built, in the folder where it is called. The toolchain makes
# programs for x86-64 alone, so on another machine this ends with a message.
set -eu

[ "$(uname -m)" = x86_64 ] || { echo "run.sh: the toolchain makes programs for x86-64 alone, and this machine is $(uname -m)" >&2; exit 2; }
exec "$(cd "$(dirname "$0")/.." && pwd -P)/crates/$1/out/$1"
