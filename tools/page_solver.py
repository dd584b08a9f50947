#!/usr/bin/env python3
"""Makes page/solver.js of the released library for WebAssembly and of lib/luffaknife.mjs, or says whether it is of those that stand here.

usage, at the top of the repository:  page_solver.py           says so; the status is 1 where it is of others
                                      page_solver.py --write   makes it anew

A page that is opened from a folder can load scripts and nothing else: so the library stands in one, as gzip in base 64, and the calls as
the text of a worker, which is no module: without `export` and `import.meta`.
"""
import base64
import gzip
import json
import os
import re
import sys

TOP = os.path.dirname(os.path.dirname(os.path.abspath(__file__)))
WASM, CALLS, SCRIPT = (os.path.join(TOP, *it) for it in (("release", "luffaknife.wasm"), ("lib", "luffaknife.mjs"), ("page", "solver.js")))


def read(path):
    with open(path, "rb") as it:
        return it.read()


def calls():
    """The calls as a script that is no module, without its comments at lines' beginnings."""
    text = re.sub(r"^\s*//.*\n", "", read(CALLS).decode(), flags=re.M)
    return re.sub(r"^export ", "", text, flags=re.M).replace("import.meta.url", '""')


def script():
    packed = base64.b64encode(gzip.compress(read(WASM), 9, mtime=0)).decode()
    return f"// Made by tools/page_solver.py of release/luffaknife.wasm and lib/luffaknife.mjs.\nsolver({json.dumps(packed)},\n  {json.dumps(calls(), ensure_ascii=False)});\n"


def parts(text):
    """What a script hands over: the library, unpacked, and the calls."""
    packed, source = json.loads("[" + text[text.index("solver(") + len("solver(") : text.rindex(");")] + "]")
    return gzip.decompress(base64.b64decode(packed)), source


def main():
    if "--write" in sys.argv:
        with open(SCRIPT, "w", encoding="utf-8", newline="\n") as it:
            it.write(script())
    # (another zlib packs otherwise)
    if parts(read(SCRIPT).decode()) != (read(WASM), calls()):
        print("page/solver.js is of another library: tools/page_solver.py --write")
        return 1
    print("page/solver.js has the released library, and its calls")
    return 0


if __name__ == "__main__":
    sys.exit(main())
