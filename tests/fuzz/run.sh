#!/usr/bin/env bash
# Compares the built program with the plain one of bench/baseline/ over random documents: text and status of each command that the
# program knows. `bash tests/fuzz/run.sh` runs for a minute; `--count N` tries N documents, `--seconds S` runs for S seconds, `--seed SEED`
# tries other documents, `--only NUMBER` one of them (and `--write` writes it). At a difference it prints the seed and the smallest
# document that it finds with this difference, and ends with status 1. Needs rustc.
set -eu
here=$(cd "$(dirname "${BASH_SOURCE[0]}")" && pwd)
top=$here/../..
work=$(mktemp -d)
trap 'rm -rf "$work"' EXIT
rustc --edition 2021 -O -o "$work/fuzz" "$here/main.rs"
# Builds the program where it is missing or old; it ends with 2, because it is given no command.
status=0
"$top/osektime" </dev/null || status=$?
if [ "$status" -ne 2 ]; then
  echo "fuzz: the program does not run"
  exit 1
fi
TMPDIR=$work "$work/fuzz" "$top/crates/osektime/out/osektime" "$@"
