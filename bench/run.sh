#!/usr/bin/env bash
# Measures the built program against the plain one of baseline/ and prints a table: `bash bench/run.sh` measures all documents of
# documents.py, `bash bench/run.sh NAME ..` those named, `--quick` with three runs in place of nine, `--write` writes the table into
# README.md too. It prints what it does, compares the answers before it measures, and ends with 1 where one differs.
# Needs python3, rustc and GNU time.
set -eu
here=$(cd "$(dirname "${BASH_SOURCE[0]}")" && pwd)
for tool in python3 rustc /usr/bin/time; do
  command -v "$tool" >/dev/null || { echo "bench/run.sh needs $tool" >&2; exit 1; }
done
work=$(mktemp -d)
trap 'rm -rf "$work"' EXIT
words=()
for word in "$@"; do
  case $word in
    --write) words+=(--table "$here/README.md") ;;
    *) words+=("$word") ;;
  esac
done
echo "compiling the plain program" >&2
rustc --edition 2021 -O -o "$work/plain" "$here/baseline/main.rs"
status=0
"$here/../osektime" </dev/null >/dev/null || status=$?
[ "$status" -eq 2 ] || { echo "the built program does not run" >&2; exit 1; }
PYTHONDONTWRITEBYTECODE=1 python3 "$here/measure.py" "$here/../crates/osektime/out/osektime" "$work/plain" "$work/documents" ${words[@]+"${words[@]}"}
