#!/bin/sh
# Installs under a folder of its own, builds a program by pkg-config alone, and runs what was installed.
# What the install consists of must have been made: make.
set -eu
cd "$(dirname "$0")/.."
into=$(mktemp -d)
trap 'rm -rf "$into"' EXIT
make --quiet install PREFIX=/opt/net DESTDIR="$into" > "$into/log"
grep -q '^prefix=/opt/net$' "$into/opt/net/lib/pkgconfig/mazhoketh.pc"
make --quiet install PREFIX="$into/net" >> "$into/log"
PKG_CONFIG_PATH=$into/net/lib/pkgconfig
export PKG_CONFIG_PATH
gcc $(pkg-config --cflags mazhoketh) tests/c/header.c $(pkg-config --libs mazhoketh) -o "$into/header"
"$into/header"
"$into/net/bin/netplan" < crates/netplan/stdin | diff - crates/netplan/stdout
seq 1 135 > "$into/movements"
mzk=$into/net/bin/mzk
"$mzk" plan data/roof_45.mtx -w 5 -q -o "$into/plan"
"$mzk" force data/roof_45.mtx "$into/movements" > "$into/forces"
"$mzk" run data/roof_45.mtx "$into/plan" "$into/movements" -q | "$mzk" diff - "$into/forces"
grep -q '^.TH MZK 1' "$into/net/share/man/man1/mzk.1"
echo "installed, built and run"
