#!/bin/sh
# Proves and builds a program or a static library in a copy of the sources, and puts it where it is wanted, so that nothing else appears
# here. Prints the digest of those sources. Where it fails, a log says why; ended on its way, it leaves nothing.
# usage, at the top of the repository:  build_copy.sh CRATE BUILT TO LOG            BUILT is a file of crates/CRATE/out/
#                                       build_copy.sh CRATE BUILT TO LOG library    the digest is that of the library's sources
set -u
room=$(mktemp -d) || exit 3
child=
trap 'rm -rf "$room"' EXIT
trap '[ -n "$child" ] && kill -TERM "-$child" && wait "$child"; exit 3' INT TERM
tar -cf - --exclude=out crates crates.txt HANDLES tools | tar -xf - -C "$room" || exit 3
# (in a group of its own, which is ended as one, and waited for in a way that a signal ends)
(cd "$room" && exec setsid python3 tools/build.py "$1" >log) &
child=$!
if ! wait "$child"; then
  mv "$room/log" "$4"
  exit 3
fi
child=
mv "$room/crates/$1/out/$2" "$3" || exit 3
cd "$room" && tools/stamp.sh ${5:-}
