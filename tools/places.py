"""Lists the places of docs/DESIGN-PASS.md's points in crates/*/src, of the work tree or of a commit.

    python3 tools/places.py              # the count of each point, in the work tree
    python3 tools/places.py COMMIT       # the same at a commit
    python3 tools/places.py COMMIT 3     # the places of point 3, one a line

A place is found by how it is written, so the lists are where to look and not a verdict: docs/DESIGN-PASS.md says of each what became of it.
"""

import io
import pathlib
import re
import subprocess
import sys
import tarfile

TABLES = ("parents", "label", "tour", "lift", "order")


def tree(commit):
    """Each source file of the crates, and each proof file, by its path."""
    if commit:
        packed = subprocess.run(["git", "archive", commit, "crates"], check=True, capture_output=True).stdout
        with tarfile.open(fileobj=io.BytesIO(packed)) as tar:
            return {m.name: tar.extractfile(m).read().decode() for m in tar.getmembers() if m.isfile()}
    return {str(p): p.read_text() for p in pathlib.Path("crates").rglob("*") if p.suffix in (".rt", ".antt") and "out" not in p.parts}


def lines(files, pattern):
    """The lines that a pattern is found in."""
    found = re.compile(pattern)
    return [f"{name}:{i}: {line.strip()}" for name, text in files.items() for i, line in enumerate(text.split("\n"), 1) if found.search(line)]


def functions(files):
    """Each function: its place, its name, its parameters and its body."""
    for name, text in files.items():
        for m in re.finditer(r"^( *)(?:pub(?:\([a-z]+\))? )?(?:const )?(?:extern \"C\" )?fn (\w+)", text, re.M):
            start = text.find("(", m.end())
            depth, end = 0, start
            while end < len(text):
                depth += {"(": 1, ")": -1}.get(text[end], 0)
                end += 1
                if depth == 0:
                    break
            close = text.find("\n" + m.group(1) + "}", end)
            body = text[end:close]
            opens = body.rfind("\n" + m.group(1) + "{\n")
            code = body[opens:] if 0 <= opens else body
            yield f"{name}:{text.count(chr(10), 0, m.start()) + 1}", m.group(2), text[start:end], code


def shape(code):
    """A body with its names and numbers taken out."""
    code = re.sub(r"//.*", "", code)
    code = re.sub(r"\b\d+\b", "0", re.sub(r"\b(?!if|else|for|while|match|return|let|mut|in|as|loop)[A-Za-z_]\w*\b", "x", code))
    return " ".join(code.split())


def options(files):
    """Enums, and numbers that stand for kinds: point 1."""
    enums = lines(files, r"^\s*(pub(\(crate\))? )?enum \w+")
    kinds = [f"{place}: fn {name}{' '.join(params.split())}" for place, name, params, _ in functions(files)
             if re.search(r"\b(call|kind|way|shape|k|unfit|further|buffer|refusal|letter|what|point)s?: (usize|u8|u16|u32)\b", params)]
    return enums + kinds


def twins(files):
    """Functions of four or more lines whose bodies are alike but for names and numbers: point 2."""
    alike = {}
    for place, name, _, code in functions(files):
        if 4 <= len([l for l in code.split("\n") if l.strip(" {}")]):
            alike.setdefault(shape(code), []).append(f"{place}: fn {name}")
    return [f for group in alike.values() if 1 < len(group) for f in group]


def together(files):
    """Functions that take three or more of a sheet and its tables: point 5."""
    return [f"{place}: fn {name}" for place, name, params, _ in functions(files) if 3 <= sum(bool(re.search(rf"\b{t}: &", params)) for t in TABLES)]


def lengths(files):
    """Functions that take a buffer, and how much of it counts, or keep numbers at places of a slice: point 6."""
    return [f"{place}: fn {name}" for place, name, params, _ in functions(files)
            if re.search(r"&(mut )?\[[^\]]*\],(\s*\w+: usize,)?\s*(n|m|count|cells|many): usize", params) or re.search(r"(lent|log|numbers): &(mut )?\[usize\]", params)]


POINTS = {
    1: ("enums, and numbers in place of kinds", options),
    2: ("functions alike but for names and numbers", twins),
    3: ("loops by `while`", lambda files: lines(files, r"^\s*while ")),
    4: ("comparing, copying, converting and printing by hand",
        lambda files: lines(files, r"\bfn (fill\w*|copy|put\w*|get|set|larger|lesser|leftmost|lower|min|max|told|number_and_place|exchange|all|agree|kept|same\w*|equal\w*|wide|plus|minus|times|text|number)\(")),
    5: ("functions that take three or more of a sheet and its tables", together),
    6: ("functions that take a buffer and how much of it counts", lengths),
    7: ("switches by a number or a flag", lambda files: lines(files, r"\bmatch (call|way|kind|shape|k|letter)\b|^\s*(if|\} else if) (k|call|way|kind|shape) == |\b(both|ordered): bool")),
}


def main():
    commit = sys.argv[1] if 1 < len(sys.argv) else None
    files = tree(commit)
    source = {name: text for name, text in sorted(files.items()) if re.fullmatch(r"crates/\w+/src/.*\.rt", name)}
    if 2 < len(sys.argv):
        print("\n".join(POINTS[int(sys.argv[2])][1](source)))
        return
    for point, (what, places) in POINTS.items():
        print(f"{point}  {len(places(source)):4}  {what}")
    proofs = {name: text for name, text in files.items() if re.fullmatch(r"crates/\w+/proofs/.*/(Answers|Invariants|Proof)\.antt", name)}
    print(f"8  {len(proofs):4}  proof files of functions, of {sum(t.count(chr(10)) for t in proofs.values())} lines")


if __name__ == "__main__":
    main()
