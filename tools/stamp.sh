#!/bin/sh
# Prints a digest of all that the program is built from: the sources, definitions and proofs of each crate, but those of tests,
# of measurements and of the library for other programs; with the word `library` those too; with `wasm` what its WebAssembly is made of.
# Run it at the top of the repository.
others='_tests/\|fc_bench/'
also=
case ${1:-} in
  wasm) also="lib/wasm tools/wasm.py" ;;
  library) ;;
  *) others="$others\|fc_library/\|fc_exports/" ;;
esac
find crates/*/src crates/*/specs crates/*/proofs crates.txt HANDLES $also -type f | grep -v "$others" | LC_ALL=C sort |
  xargs sha256sum | sha256sum | cut -d ' ' -f 1
