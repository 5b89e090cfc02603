#!/usr/bin/env bash
# Writes README.md of this folder: a line for each document, which is its first comment, or its name where it begins with none.
set -eu
cd "$(dirname "${BASH_SOURCE[0]}")"
declare -A about=(
  [start-here]="What to read first"
  [language]="Statements, expressions and demands"
  [runs]="Rounds, preemption and long runs"
  [deadlines]="Monitoring of deadlines"
  [interrupts]="Time-triggered and OSEK interrupts: gates, held occurrences, nested routines"
  [rounds]="The round's end: global time, mode switches, shutdown"
  [osek]="The OSEK subsystem in idle time"
  [check]="The schedule check"
  [tables]="Dispatcher tables"
  [hooks]="ttErrorHook and ttShutdownHook"
  [limits]="Each limit, met with nothing to spare"
  [rules]="Documents that break a rule: \`rule_NN_..\` breaks rule NN of docs/FORMAT.md"
  [forms]="Form: comments, spaces, faults of lines"
)
{
  echo "# Examples"
  echo
  echo "Written by \`examples/index.sh\`. \`bash examples/run.sh\` runs each document through the built program:"
  echo "\`NAME.COMMAND.out\` is the text that COMMAND writes for \`NAME.osektime\`, and \`statuses.txt\` has the exit statuses that are not 0."
  echo "A text of one line is in \`answers.txt\`, with its status. For a long text \`NAME.COMMAND.ends\` has the number of lines and the last"
  echo "line."
  for folder in start-here language runs deadlines interrupts rounds osek check tables hooks limits rules forms; do
    echo
    echo "## $folder"
    echo
    echo "${about[$folder]}."
    echo
    find "$folder" -name '*.osektime' | LC_ALL=C sort | while read -r document; do
      name=$(basename "$document" .osektime)
      first=
      IFS= read -r first <"$document" || true
      case $first in
        '# '*) text=${first#\# } ;;
        *) text="${name//_/ }" ;;
      esac
      echo "- [$name]($document): ${text%.}." | fold -s -w 136 | sed 's/ *$//; 2,$s/^/  /'
    done
  done
} >README.md
