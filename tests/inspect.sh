#!/usr/bin/env bash
# Runs `inspect` (tools/program inspect) on each container of tests/inspect.txt and compares all that it prints with the line there. Prints 'inspect: N cases' only if every one is right.
set -euo pipefail
cd "$(dirname "$0")/.."
inspect=$(tools/program inspect)
cases=0
wrong=0
while IFS= read -r row; do
  case $row in '#'* | '') continue ;; esac
  bytes=$(sed 's/ //g; s/../\\x&/g' <<< "${row%%=*}")
  want=${row#*= }
  # The dot keeps the line's end, which a substitution would drop.
  got=$(printf "$bytes" | "$inspect"; echo .)
  if [ "$got" != "$want"$'\n.' ]; then
    echo "inspect: ${row%%=*}: '$want' expected, '${got%$'\n.'}' printed" >&2
    wrong=1
  fi
  cases=$((cases + 1))
done < tests/inspect.txt
[ "$wrong" = 0 ] && [ "$cases" -gt 0 ]
echo "inspect: $cases cases"
