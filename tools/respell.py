#!/usr/bin/env python3
"""Brings the repository's own definitions and lemmas to Rattle's spelling: words in snake case.

Run once, at the top, after port.py of the toolchain. A name counts as the repository's own where a file of specs/ or
a lemma file of proofs/ declares it. In such a name a capital behind a small letter begins a word (splitOf: split_of),
and a dash becomes an underscore (never-69: never_69). Names of types and facts keep their capital. Where the new name
is taken by another declaration, the lemma gets the ending _lem. Names that Rattle makes of the code (goals and steps)
are declared in no such file and stay. Functions of src/, exported names, strings, inputs and outputs stay.
"""
import collections
import glob
import re
import sys

SIG = re.compile(
    r"^\s*(?:(?:abbrev|unfoldable|pub|record|ruleset|data|where|let|in)\s+)*([^\s:(){}⟨,;]+)\s+"
    r"(?:\([^)]*\)\s*|\{[^}]*\}\s*)*:\s",
    re.M,
)
TOKEN = re.compile(r"[^\W\d][\w'₀-₉?!⁻¹→-]*|[^\W\d]")
# Declared here and in the toolchain's library alike, or words of the language.
KEEP = {"ltb→lt"}


def read(path):
    with open(path, encoding="utf8") as file:
        return file.read()


def antt(kinds):
    return [f for k in kinds for f in glob.glob(f"crates/*/{k}/**/*.antt", recursive=True)]


def walked(path):
    """Whether a file is a function's proof, in a folder of its own; a file right in proofs/ is one of lemmas."""
    inside = path.split("/proofs/", 1)[-1]
    return "/" in inside and inside.rsplit("/", 1)[-1] in ("Proof.antt", "Answers.antt", "Invariants.antt")


def snake(name):
    out = re.sub(r"(?<=[a-z0-9])([A-Z])", lambda m: "_" + m.group(1).lower(), name)
    return out.replace("-", "_")


def table():
    declared = collections.defaultdict(set)
    imported = set()
    for path in antt(("specs", "proofs")):
        text = re.sub(r"--.*$", "", read(path), flags=re.M)
        if not walked(path):
            for m in SIG.finditer(text):
                declared[m.group(1)].add(path)
        for m in re.finditer(r"^\s*(?:pub )?use ([\w.+'-]+)\.\{([^}]*)\}", text, flags=re.M):
            own = m.group(1).startswith("Rattle.") and m.group(1).split(".")[1] in OWN
            if not own:
                imported.update(n.split(" as ")[0].strip() for n in m.group(2).split(","))
    names = {}
    for name in sorted(declared, key=lambda n: ("-" in n, n)):
        if name in KEEP or not re.match(r"[a-z]", name) or not re.search(r"[A-Z-]", name):
            continue
        if name in imported:
            continue
        new = snake(name)
        if new == name:
            continue
        taken = new in declared or new in names.values() or new in imported
        if taken and "-" not in name and new not in imported:
            # A definition takes the name, and the lemma that has it gets the ending.
            names[new] = new + "_lem"
        elif taken:
            new += "_lem"
        names[name] = new
    return names


def respell(path, text, names):
    lemma_file = path.endswith(".antt") and not walked(path)

    def name(m):
        word = m.group(0)
        if re.search(r"[A-Z-]", word):
            return names.get(word, word)
        # A lemma that gave way: functions of src/ and folders of proofs/ may have its old name.
        place = text[: m.start()].endswith("proofs.") or text[m.end() : m.end() + 1] == "."
        return names.get(word, word) if lemma_file and not place else word

    return TOKEN.sub(name, text)


OWN = {line.split(":")[0].split()[0] for line in read("crates.txt").splitlines() if ":" in line.split("#")[0]}

if __name__ == "__main__":
    names = table()
    if "--list" in sys.argv:
        for old, new in names.items():
            print(old, new)
        sys.exit()
    files = antt(("specs", "proofs")) + glob.glob("crates/*/src/**/*.rt", recursive=True)
    for path in files:
        old = read(path)
        new = respell(path, old, names)
        if new != old:
            with open(path, "w", encoding="utf8") as file:
                file.write(new)
    print(len(names), "names,", len(files), "files")
