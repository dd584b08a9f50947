#!/bin/sh
# Unpacks a released file to where it is wanted, unless it is there, and looks at its digest.
# usage, at the top of the repository: released.sh NAME TO
set -u
wanted=$(sed -n "s/  $1\$//p" release/SHA256SUMS)
is_it() {
  [ -n "$wanted" ] && [ "$(sha256sum "$1" 2>/dev/null | cut -d ' ' -f 1)" = "$wanted" ]
}
is_it "$2" && exit 0
trap 'rm -f "$2.$$"' EXIT
trap 'exit 3' INT TERM
file=release/$1
if [ -f "$file.gz" ]; then
  file=$file.gz
  gzip -dc "$file" >"$2.$$" || exit 3
else
  cat "$file" >"$2.$$" || exit 3
fi
if ! is_it "$2.$$"; then
  echo "$file isn't the file of release/SHA256SUMS" >&2
  exit 3
fi
chmod 755 "$2.$$" && mv "$2.$$" "$2"
