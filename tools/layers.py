#!/usr/bin/env python3
"""Whether the three layers of document 01 use each other through promises only.

Between the layers a crate may name of a crate below it: its functions, whose promises the checker hands over; the definitions of its specs/, which promises
name; and of `bits` and `tree` their laws too. So no file may bring in a law (`Rattle.NAME.proofs..`) of a crate of a lower layer but those two, and no crate may
depend on one of a higher layer. Prints what is not so, and nothing where all is; the exit status says the same.

    python3 tools/layers.py            from the top of the repository
"""
import pathlib
import re
import sys

LAYERS = [
    ["bits", "tree", "cells", "preorder", "labels", "rows", "leaves", "rooted", "tables"],
    ["rules", "lifting", "routes", "subtrees", "wear"],
    ["text", "lines", "console", "report", "lca"],
]
COMMON = {"bits", "tree"}
# programs that try the library, beside the layers
TRIALS = {"known", "naive", "sessions"}


def main():
    layer = {name: i for i, names in enumerate(LAYERS) for name in names}
    faults = []
    for line in pathlib.Path("crates.txt").read_text().splitlines():
        name, _, below = line.partition(":")
        name = name.split()[0] if name.split() else name
        if name not in layer and name not in TRIALS:
            faults.append(f"crates.txt: {name} is in no layer of tools/layers.py")
        for other in below.split():
            if name in layer and layer.get(other, -1) > layer[name]:
                faults.append(f"crates.txt: {name} depends on {other}, of a higher layer")
    for path in sorted(pathlib.Path("crates").rglob("*")):
        if path.suffix not in (".antt", ".rt") or "out" in path.parts:
            continue
        name = path.parts[1]
        for number, line in enumerate(path.read_text(encoding="utf-8").splitlines(), 1):
            for other in re.findall(r"Rattle\.([a-z]+)\.proofs\.", line):
                if other in layer and other not in COMMON and name in layer and layer[other] != layer[name]:
                    faults.append(f"{path}:{number}: a law of {other}, of another layer than {name}")
    print("\n".join(faults), end="\n" if faults else "")
    return 1 if faults else 0


if __name__ == "__main__":
    sys.exit(main())
