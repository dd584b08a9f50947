#!/bin/sh
# Runs the program again and again, each allocation refused in turn, until a run meets no refusal: each run must give the
# ample answer, or nothing but the fault 'want of memory' with status 4, or of a batch the ample lines but one, which says
# 'want of memory', with status 4.
# Usage: refused-allocations.sh PROGRAM WORD..
set -u
program=$1
shift
folder=$(mktemp -d) || exit 1
trap 'rm -rf "$folder"' EXIT
# Whether what was printed is the ample output with 'want of memory' told in one line alone, and no fault.
is_one_line_less() {
  ! grep -q '^fc_solve:' "$folder/err" && awk 'NR == FNR { ample[NR] = $0; lines = NR; next }
    $0 != ample[FNR] { changed++; split(ample[FNR], words, " "); if ($0 != words[1] " want of memory") changed = 9 }
    END { exit !(changed == 1 && FNR == lines) }' "$folder/ample" "$folder/out"
}

cc -shared -fPIC -O1 -o "$folder/refused.so" "$(dirname "$0")/refused.c" -ldl || exit 1

"$program" "$@" >"$folder/ample" 2>/dev/null
ample=$?
number=0
while :; do
  number=$((number + 1))
  REFUSE=$number LD_PRELOAD=$folder/refused.so "$program" "$@" >"$folder/out" 2>"$folder/err"
  status=$?
  if [ "$status" -eq "$ample" ] && cmp -s "$folder/out" "$folder/ample"; then
    grep -q '^refused$' "$folder/err" || break
  elif [ "$status" -eq 4 ] && [ ! -s "$folder/out" ] && grep -q '^fc_solve: want of memory$' "$folder/err"; then
    continue
  elif [ "$status" -ne 4 ] || ! is_one_line_less; then
    echo "allocation $number refused: status $status"
    exit 1
  fi
done
if [ "$number" -gt 2 ]; then
  echo "each refusal told"
fi
