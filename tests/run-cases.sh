#!/bin/sh
# Runs the built program: each folder GROUP/NAME of cases/ is one run, as cases/README.md says, as many at a time as there are
# processors. Run it at the top of the repository. Its last line is 'N passed, M failed', or 'N passed, M failed, K skipped' where K
# cases want a program that is missing here.
# usage: tests/run-cases.sh [GROUP | GROUP/NAME]..    (default: all)
set -u
fc_solve=$PWD/crates/fc_solve/out/fc_solve
export fc_solve
told=$(mktemp) || exit 1
trap 'rm -f "$told"' EXIT

if ! "$fc_solve" --version >"$told" 2>&1; then
  cat "$told" >&2
  echo "0 passed, 1 failed"
  exit 1
fi

# The cases of these names, each once. A name that is neither a case's nor a group's stays, so that it is told as one that failed.
cases_of() {
  for name in "$@"; do
    if [ -f "cases/$name/cmd" ] || ! (cd cases && ls -d "$name"/*/ 2>/dev/null); then
      echo "$name"
    fi
  done | sed 's|/$||' | awk '!told[$0]++'
}
# The first case makes the library for other programs, while others run; those that want it come last.
[ "$#" -gt 0 ] || set -- library/answers $(ls cases | grep -vx 'README.md\|library') library
set -- $(cases_of "$@")
printf '%s\n' "$@" | xargs -P "${RT_JOBS:-$(nproc)}" -n 1 tests/run-case.sh >"$told"
grep -v ': passed$' "$told"

count() {
  grep -c "^case [^:]*: $1" "$told"
}
passed=$(count passed)
skipped=$(count skipped)
failed=$(($# - passed - skipped))
[ "$skipped" -eq 0 ] && skipped= || skipped=", $skipped skipped"
echo "$passed passed, $failed failed$skipped"
[ "$failed" -eq 0 ]
