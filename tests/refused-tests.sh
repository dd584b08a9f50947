#!/bin/sh
# Runs each test of a crate's built tests again and again, each allocation refused in turn, until a run meets no refusal:
# each run must pass, so that the test itself says what a refusal may do.
# Usage: refused-tests.sh PROGRAM [WORD] (PROGRAM: crates/NAME/out/NAME_tests, which the gate and `rt test` build); with a
# WORD only the tests whose names contain it are run
set -u
program=$1
word=${2-}
[ -x "$program" ] || command -v rt >/dev/null || { echo "no tests are built here"; exit 77; }
folder=$(mktemp -d) || exit 1
trap 'rm -rf "$folder"' EXIT
cc -shared -fPIC -O1 -o "$folder/refused.so" "$(dirname "$0")/refused.c" -ldl || exit 1

"$program" --list >"$folder/list" || exit 1
for name in $(sed -n 's/: test$//p' "$folder/list" | grep -F -e "$word"); do
  number=0
  while :; do
    number=$((number + 1))
    REFUSE=$number LD_PRELOAD=$folder/refused.so "$program" "$name" >"$folder/out" 2>"$folder/err"
    status=$?
    if [ "$status" -ne 0 ] || ! grep -q '^test result: ok$' "$folder/out"; then
      echo "$name, allocation $number refused: status $status"
      exit 1
    fi
    grep -q '^refused$' "$folder/err" || break
  done
  if [ "$number" -gt 1 ]; then
    echo "$name: passed at each refusal"
  else
    echo "$name: asked for no memory"
  fi
done
