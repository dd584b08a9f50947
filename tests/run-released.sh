#!/bin/sh
# Runs the cases over what is released, in a copy of the tree, without the toolchain: what wants it is skipped.
# usage: tests/run-released.sh    at the top of the repository; ./test --cases calls it
set -u
root=$PWD
commit=$(git rev-parse HEAD 2>/dev/null || echo none)
# (sweeps take a share of what they take in the gate)
few=yes
export commit few
room=$(mktemp -d) || exit 1
trap 'rm -rf "$room"' EXIT
trap 'exit 1' INT TERM
tar -cf - --exclude=./.git --exclude=out . | tar -xf - -C "$room" || exit 1
cd "$room" || exit 1
out=crates/fc_solve/out
mkdir -p "$out" && tools/released.sh fc_solve "$out/fc_solve" || { echo "0 passed, 1 failed"; exit 1; }
stamp=$(tools/stamp.sh)
grep -qsxF "program $stamp" release/sources.txt || echo "test: the released program is of other sources: where these changed what it does, cases fail" >&2
# (so that the launcher, which some cases call, runs it)
echo "$stamp" >"$out/stamp"
# What a case finds on its path has no toolchain.
PATH=$(printf %s "$PATH" | tr : '\n' | while read -r folder; do [ -x "$folder/rt" ] || echo "$folder"; done | paste -sd :)
export PATH
# (some cases wait more than they work)
RT_JOBS=${RT_JOBS:-$(($(nproc) + 1))}
export RT_JOBS
tests/run-cases.sh
