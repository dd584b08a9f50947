#!/bin/sh
# Runs one case, the folder GROUP/NAME of cases/, by the program that $fc_solve names, and says in one line how it went.
# usage, at the top of the repository: tests/run-case.sh GROUP/NAME
set -u
case=cases/$1
out=$(mktemp) || exit 1
errors=$(mktemp) || exit 1
trap 'rm -f "$out" "$errors"' EXIT

# (what others want they look for themselves)
for program in python3 cc; do
  if grep -qw "$program" "$case/cmd" && ! command -v "$program" >/dev/null; then
    echo "case $1: skipped: there is no $program"
    exit
  fi
done
want=0
[ -f "$case/status" ] && want=$(cat "$case/status")
wanted=$case/stdout
[ -n "${few:-}" ] && [ -f "$case/stdout.few" ] && wanted=$case/stdout.few
told=/dev/null
[ -f "$case/stderr" ] && told=$case/stderr
sh "$case/cmd" >"$out" 2>"$errors" </dev/null
status=$?
if [ "$status" -eq 77 ]; then
  echo "case $1: skipped: $(head -n 1 "$out")"
elif [ "$status" -eq "$want" ] && cmp -s "$out" "$wanted" && cmp -s "$errors" "$told"; then
  echo "case $1: passed"
else
  echo "case $1: FAILED"
fi
