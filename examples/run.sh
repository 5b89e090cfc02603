#!/usr/bin/env bash
# Runs the documents of the folders beside it through the built program: NAME.osektime on standard input of each command for which there
# is a NAME.COMMAND.out, which is the text that must be written. The exit status must be that of the folder's statuses.txt, or 0. A row
# `NAME COMMAND STATUS TEXT` of an answers.txt is the same for a text of one line. A command that the program does not know yet is
# left out, which is printed. A NAME.COMMAND.ends has the number of lines and the last line of a text that is too long to keep.
set -u
here=$(cd "$(dirname "${BASH_SOURCE[0]}")" && pwd)
program=$here/../osektime
passed=0
failed=0
left_out=0
work=$(mktemp -d)
trap 'rm -rf "$work"' EXIT
"$program" >"$work/out" 2>"$work/err" </dev/null
if [ $? -ne 2 ]; then
  cat "$work/err"
  echo "the program does not run"
  exit 1
fi
program=$here/../crates/osektime/out/osektime

declare -A knows
for command in trace show table check load; do
  "$program" "$command" >/dev/null 2>&1 </dev/null
  [ $? -ne 2 ] && knows[$command]=1
done
"$program" bulk 0 >/dev/null 2>&1 </dev/null
[ $? -ne 2 ] && knows[bulk]=1

check() { # NAME WANTED-STATUS WANTED-FILE
  if [ "$status" -eq "$2" ] && cmp -s "$work/out" "$3" && [ ! -s "$work/err" ]; then
    passed=$((passed + 1))
  else
    failed=$((failed + 1))
    echo "FAILED: $1: status $status, wanted $2"
    diff "$3" "$work/out" | head -5
    head -5 "$work/err"
  fi
}

answers() { # NAME COMMAND DOCUMENT WANTED-STATUS WANTED-FILE
  if [ -z "${knows[$2]:-}" ]; then
    left_out=$((left_out + 1))
    return
  fi
  "$program" "$2" <"$3" >"$work/out" 2>"$work/err"
  status=$?
  check "$1 $2" "$4" "$5"
}

declare -A wanted
for table in "$here"/*/statuses.txt "$here"/*/*/statuses.txt; do
  [ -f "$table" ] || continue
  while read -r name status; do
    [ "$name" = "#" ] || wanted[$(dirname "$table")/$name]=$status
  done <"$table"
done
for expected in "$here"/*/*.out "$here"/*/*/*.out; do
  [ -f "$expected" ] || continue
  name=${expected%.out}
  command=${name##*.}
  answers "${name%.*}" "$command" "${name%.*}.osektime" "${wanted[$name]:-0}" "$expected"
done
for expected in "$here"/*/*.ends; do
  name=${expected%.ends}
  "$program" "${name##*.}" <"${name%.*}.osektime" 2>"$work/err" >"$work/long"
  status=$?
  { wc -l <"$work/long"; tail -n 1 "$work/long"; } >"$work/out"
  check "$name" "${wanted[$name]:-0}" "$expected"
done
for table in "$here"/*/answers.txt; do
  while read -r name command status text; do
    [ "$name" = "#" ] && continue
    printf '%s\n' "$text" >"$work/text"
    answers "$name" "$command" "$(dirname "$table")/$name.osektime" "$status" "$work/text"
  done <"$table"
done

# The summaries of the bulk documents by their closed form.
summary() { # NUMBER
  local n=$((2 + $1 % 31))
  local words=$((16 * n > 48 ? 16 * n : 48))
  printf '%s\n' "ticks $((200000 * n))" "rounds 10000" "events $((10000 * (5 * n + 7) + 2))" "activations $((10000 * n))" \
    "depth $n of $((n + 1))" "words $words of $((16 * n + 32))" "end last round"
}
for number in {0..31} 4294967295; do
  if [ -z "${knows[bulk]:-}" ]; then
    left_out=$((left_out + 1))
    continue
  fi
  summary "$number" >"$work/text"
  "$program" bulk "$number" </dev/null >"$work/out" 2>"$work/err"; status=$?; check "bulk $number" 0 "$work/text"
done

# A run takes no memory for its events: half a million outputs are written whole where there is little.
long=$here/language/half_a_million_outputs.osektime
{
  printf '%s\n' "0 os start m" "0 round 1 m" "0 activate A" "0 run A"
  awk 'BEGIN { for (k = 0; k < 500000; k++) print 5 + 3 * k + int(k / 10) + int(k / 200) + int(k / 10000), "out A", k + 1 }'
  printf '%s\n' "1552550 end A" "1552550 run idle" "2000000 check A met" "2000000 stop"
} >"$work/text"
(ulimit -v 20000 && "$program" trace <"$long") >"$work/out" 2>"$work/err"; status=$?
check "half a million outputs in little memory" 0 "$work/text"

# Bad input and bad output: each ends with its status, and without a message.
: >"$work/nothing"
one=$here/start-here/one_task.osektime
usage() { # WORD..
  "$program" "$@" <"$one" >"$work/out" 2>"$work/err"; status=$?; check "the words $*" 2 "$work/nothing"
}
usage trace x
usage
usage bulk
usage bulk 00
usage bulk 07
usage bulk 4294967296
usage bulk 1 2
usage Trace
"$program" trace $'\xff' <"$one" >"$work/out" 2>"$work/err"; status=$?; check "a word that is no text" 13 "$work/nothing"
# In the least memory in which the program starts there is no room for a document.
for ((limit = 1000; limit < 20000; limit += 100)); do
  (ulimit -v "$limit" && "$program" trace <"$one") >"$work/out" 2>"$work/err"; status=$?
  [ "$status" -ge 100 ] || break
done
check "no room for a document" 1 "$work/nothing"
head -c 1048577 /dev/zero | "$program" show >"$work/out" 2>"$work/err"; status=$?; check "a byte too many" 5 "$work/nothing"
for command in show table trace check load; do
  [ -n "${knows[$command]:-}" ] || continue
  "$program" "$command" <"$here" >"$work/out" 2>"$work/err"; status=$?; check "a failing read of $command" 3 "$work/nothing"
  : >"$work/out"
  "$program" "$command" <"$one" >/dev/full 2>"$work/err"; status=$?; check "a full output of $command" 4 "$work/nothing"
done
: >"$work/out"
"$program" trace <"$one" 1>&- 2>"$work/err"; status=$?; check "a closed output" 4 "$work/nothing"
(
  sleep 0.3 # by then nobody reads
  "$program" trace <"$one" 2>"$work/err"
  echo $? >"$work/status"
) | true
status=$(cat "$work/status"); check "a pipe that nobody reads" 4 "$work/nothing"
echo "0 os start m" >"$work/text"
"$program" trace <"$long" 2>"$work/err" | head -1 >"$work/out"; status=${PIPESTATUS[0]}
check "a pipe that closes within a run" 4 "$work/text"

# The index names each document.
cp "$here/README.md" "$work/README.md"
bash "$here/index.sh"
cmp -s "$work/README.md" "$here/README.md"; status=$?
cp "$here/README.md" "$work/out"; : >"$work/err"
check "the index is that of the documents" 0 "$work/README.md"

[ "$left_out" -eq 0 ] || echo "$left_out left out: of commands that the program does not know yet"
echo "$passed passed, $failed failed"
[ "$failed" -eq 0 ]
