#!/usr/bin/env python3
"""What a crate's check costs, function by function: where to look when the gate grows slow.

    python3 tools/costs.py NAME [ROWS]     from the top of the repository

Checks the crate from nothing by `rt check --jobs 1`, in a copy of the repository, and goes by the times at which the checker wrote what it keeps of each
module that it has checked. A row has a function's seconds and the modules that took most of them: `Lts` is the checker's account of the code (what each
local is after each step), `Tie` what joins it to the contracts, `Answers` what is written of the proof. A file of laws or definitions is a row of its own.
The crates below are to be proved before, and nothing else should run meanwhile.
"""
import collections
import os
import pathlib
import shutil
import subprocess
import sys
import tempfile


def written(folder):
    """The modules in the order in which they were checked, each with the seconds since the one before it."""
    files = [path for path in folder.rglob("*.oantt")]
    times = sorted((path.stat().st_mtime, path.name) for path in files)
    before = times[0][0] if times else 0
    for time, name in times:
        yield name.replace(".decls", "").removesuffix(".oantt"), time - before
        before = time


def said_of(parts):
    """The three parts that took longest."""
    return ", ".join("%s %.2f" % part for part in parts.most_common(3) if part[1] >= 0.05)


def main(name, rows):
    if name not in [line.split(":")[0].split(" ")[0] for line in pathlib.Path("crates.txt").read_text().splitlines()]:
        sys.exit("crates.txt lists no crate " + name)
    with tempfile.TemporaryDirectory() as top:
        crate = pathlib.Path(top) / "copy/crates" / name
        shutil.copytree(".", crate.parent.parent, ignore=shutil.ignore_patterns("out", "target", ".git"))
        # A check begins with what another check kept of the same text, or else with what lies here: so the text differs, and nothing lies here.
        root = next(file for file in (crate / "src/lib.rt", crate / "src/main.rt") if file.exists())
        root.write_text(root.read_text(encoding="utf-8") + "\n// its own text\n", encoding="utf-8")
        (crate / "out/incremental").mkdir(parents=True)
        said = subprocess.run(["rt", "check", "--jobs", "1"], cwd=crate, stdout=subprocess.PIPE, stderr=subprocess.STDOUT, text=True).stdout
        verdict = [line for line in said.splitlines() if line.startswith("logic=")]
        if not verdict:
            sys.exit(said[-2000:])
        report(written(crate / "out/incremental"), rows)
    print(verdict[-1])


def report(modules, rows):
    """Prints the functions that took longest."""
    owners, kinds, parts = collections.Counter(), collections.Counter(), collections.defaultdict(collections.Counter)
    for module, seconds in modules:
        path = module.split(".")
        owner = ".".join(path[1:-1]) or path[-1]
        owners[owner] += seconds
        kinds[path[-1]] += seconds
        parts[owner][path[-1]] += seconds
    print("%6.2f  %-24s %s" % (sum(owners.values()), "all", said_of(kinds)))
    for owner, seconds in owners.most_common(rows):
        print("%6.2f  %-24s %s" % (seconds, owner, said_of(parts[owner])))


if __name__ == "__main__":
    if not 2 <= len(sys.argv) <= 3 or not os.path.exists("crates.txt"):
        sys.exit(__doc__)
    main(sys.argv[1], int(sys.argv[2]) if len(sys.argv) == 3 else 20)
