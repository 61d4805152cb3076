#!/bin/sh
# tools/check-install.sh: installs the library into a folder of its own, and compiles and runs the C example in another one, from what
# pkg-config says alone; the listing has to be the one that program modellist prints.
set -eu
cd "$(dirname "$0")/.."
project=$PWD
place=$(mktemp -d)
trap 'rm -rf "$place"' EXIT
make --no-print-directory install PREFIX="$place/installed"
mkdir "$place/elsewhere"
cp examples/c/*.c examples/c/*.h crates/modellist/data/tables.txt crates/modellist/stdin crates/modellist/stdout "$place/elsewhere/"
cd "$place/elsewhere"
PKG_CONFIG_PATH=$place/installed/lib/pkgconfig
export PKG_CONFIG_PATH
pkg-config --exact-version="$(sed -n 's/^version = "\(.*\)"/\1/p' "$project/bindings/rust/Cargo.toml")" stazzumpi
# shellcheck disable=SC2046
${CC:-cc} -std=c99 -Wall -Wextra -Werror -pedantic $(pkg-config --cflags stazzumpi) listmodel.c $(pkg-config --libs stazzumpi) -o listmodel
./listmodel tables.txt stdin | cmp - stdout
echo "check-install.sh: the example, compiled elsewhere against what was installed, lists as modellist does"
