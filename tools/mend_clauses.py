#!/usr/bin/env python3
"""Writes the clauses for cases that cannot come, as a check printed them.

In a crate's folder, with what `rt check` said in the file LOG:

    python3 mend_clauses.py LOG
"""
import collections
import re
import sys


def asked(log):
    """What the log asks for: by file, the line of each error and the clauses that it prints."""
    jobs = collections.defaultdict(list)
    rest = iter(enumerate(log))
    for at, text in rest:
        m = re.match(r"(\./\S+?\.antt):(\d+):\d+: error: `[^`]+`: write the clause", text)
        if not m:
            continue
        clauses = re.findall(r"write the clause `([^`]+)`", text)
        for line in log[at + 1 :]:
            if not line.startswith("  "):
                break
            if not line.strip().startswith("no clause"):
                clauses.append(line.strip())
        jobs[m.group(1)].append((int(m.group(2)), clauses))
    return jobs


def signature(text, line, word):
    """The line that declares a name, upward of the error or else below it."""
    declares = re.compile(r"\s*(?:(?:pub|abbrev|unfoldable) )*" + re.escape(word) + r" :(\s|$)")
    for at in [*range(line - 1, -1, -1), *range(line, len(text))]:
        if declares.match(text[at]):
            return at
    return None


def mended(text, items):
    """The text with the clauses in front of the first one of their function, and the imports that they need."""
    uses = set()
    for line, clauses in sorted(items, reverse=True):
        if not clauses or not all("= elim" in c or "absurd" in c for c in clauses):
            print("by hand:", line, clauses)
            continue
        word = clauses[0].split()[0]
        declared = signature(text, line, word)
        if declared is None:
            print("no signature:", line, word)
            continue
        indent = " " * (len(text[declared]) - len(text[declared].lstrip()))
        first = declared + 1
        while not re.match(indent + re.escape(word) + r"(\s|$)", text[first]):
            first += 1
        written = []
        for clause in clauses:
            clause = re.sub(r"\b(?:[A-Za-z]\w*\.)+(?=\[\])", "", clause)
            for module, name in re.findall(r"\b((?:[A-Za-z]\w*\.)+)([a-z]\w*)\b", clause):
                if module[0].islower() or module.startswith("Rattle"):
                    uses.add((module[:-1], name))
                    clause = clause.replace(module + name, name)
            written.append(indent + clause)
        text[first:first] = written
    at = next(n for n, line in enumerate(text) if line.startswith("use "))
    for module, name in sorted(uses):
        text.insert(at, f"use {module}.{{{name}}}")
    return text


if __name__ == "__main__":
    with open(sys.argv[1], encoding="utf8") as file:
        jobs = asked(file.read().split("\n"))
    for path, items in jobs.items():
        with open(path, encoding="utf8") as file:
            text = file.read().split("\n")
        with open(path, "w", encoding="utf8") as file:
            file.write("\n".join(mended(text, items)))
        print("mended", path, len(items))
