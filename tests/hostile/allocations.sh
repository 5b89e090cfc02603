#!/usr/bin/env bash
# Refuses the first allocation of the built program, then the second, and so on, in runs of each command over a small document: each run
# must answer out of memory (status 1) with nothing written, or what it answers with all its memory. Needs cc. It runs beside the gate:
# bash tests/hostile/allocations.sh [DOCUMENT ..]
set -eu
here=$(cd "$(dirname "${BASH_SOURCE[0]}")" && pwd)
top=$here/../..
work=$(mktemp -d)
trap 'rm -rf "$work"' EXIT
cc -O1 -shared -fPIC -o "$work/refuse.so" "$here/refuse.c"
status=0
"$top/osektime" </dev/null || status=$?
[ "$status" -eq 2 ] || { echo "the program does not run"; exit 1; }
program=$top/crates/osektime/out/osektime
documents=("$@")
[ $# -gt 0 ] || documents=("$top/examples/start-here/one_task.osektime" "$top/examples/start-here/control_unit.osektime")
passed=0
failed=0

run() { # NUMBER-OF-THE-REFUSED-ALLOCATION DOCUMENT WORD..
  local number=$1 document=$2
  shift 2
  status=0
  LD_PRELOAD=$work/refuse.so REFUSE=$number TELL=1 "$program" "$@" <"$document" >"$work/out" 2>"$work/count" || status=$?
}

for document in "${documents[@]}"; do
  for words in trace check table show load "bulk 0"; do
    # shellcheck disable=SC2086
    run 0 "$document" $words
    cp "$work/out" "$work/whole"
    wanted=$status
    count=$(cat "$work/count")
    refused=0
    for ((number = 1; number <= count; number++)); do
      # shellcheck disable=SC2086
      run "$number" "$document" $words
      if [ "$status" -eq 1 ] && [ ! -s "$work/out" ]; then
        refused=$((refused + 1))
        passed=$((passed + 1))
      elif [ "$status" -eq "$wanted" ] && cmp -s "$work/out" "$work/whole"; then
        passed=$((passed + 1))
      else
        failed=$((failed + 1))
        echo "FAILED: $words of $document, allocation $number of $count: status $status"
      fi
    done
    echo "$(basename "$document") $words: $count allocations, $refused of them refused with status 1"
  done
done
echo "$passed passed, $failed failed"
[ "$failed" -eq 0 ]
