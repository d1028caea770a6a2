#!/usr/bin/env python3
"""Turns proofs/F/Proof.antt of an older Rattle into Invariants.antt and Answers.antt.

In a crate's folder, after `rt check --generated NAMES --old-names`:

    python3 turn_proofs.py NAMES/names.json [FUNCTION ..]

Answers that the check finds alone are left out. What it could not turn is printed.
"""
import glob
import json
import os
import re
import sys

NAMES = json.load(open(sys.argv[1], encoding="utf8"))
ONLY = sys.argv[2:]
TRIVIAL = {"search rules", "omega arith", "search (rules)"}


def clause_table():
    """function name -> (names of requires, names of ensures), over all crates; only where a kind has two or more"""
    table = {}
    mine = os.path.basename(os.getcwd())
    paths = [q for q in glob.glob("../*/src/**/*.rt", recursive=True) if not q.startswith(f"../{mine}/")]
    for path in paths + glob.glob("src/**/*.rt", recursive=True):
        name = None
        for line in open(path, encoding="utf8"):
            m = re.match(r"\s*(?:pub )?(?:extern \"C\" )?fn (\w+)", line)
            if m:
                name = m.group(1)
                table[name] = ([], [])
            m = re.match(r"\s*(requires|ensures) (\w+) \{", line)
            if m and name:
                row = table.setdefault(name, ([], []))
                k = 0 if m.group(1) == "requires" else 1
                if m.group(2) not in row[k]:
                    row[k].append(m.group(2))
    return table


CLAUSES = clause_table()


def top_split(text):
    """the parts of a tuple (a, b, ..), or None"""
    text = text.strip()
    if not (text.startswith("(") and text.endswith(")")):
        return None
    parts, depth, cur = [], 0, ""
    for i, ch in enumerate(text):
        if ch in "([{":
            depth += 1
        if ch in ")]}":
            depth -= 1
            if depth == 0 and i != len(text) - 1:
                return None
        if ch == "," and depth == 1:
            parts.append(cur[1:] if not parts else cur)
            cur = ""
            continue
        cur += ch
    parts.append(cur[:-1])
    if len(parts) == 1:
        return None
    return [q.strip() for q in parts if q.strip()]


def as_record(expr, names, say):
    """a tuple of clauses as a record of them by name"""
    if len(names) < 2:
        return expr
    cut = 0
    for m in re.finditer(r"\bin\s", expr):
        cut = m.end()
    head, tail = expr[:cut], expr[cut:]
    parts = top_split(tail)
    if parts and len(parts) > len(names):
        parts = parts[: len(names) - 1] + ["(" + ", ".join(parts[len(names) - 1 :]) + ")"]
    if not parts or len(parts) != len(names):
        say(f"tuple of {names}: {expr[:70]!r}")
        return expr
    return head + "record { " + "; ".join(f"{n} = {q}" for n, q in zip(names, parts)) + " }"


def norm(s):
    s = s.replace("_", "-")
    s = re.sub(r"^Need-", "", s)
    s = re.sub(r"^overflow-", "", s)
    s = re.sub(r"^nonzero-", "", s)
    return s


def stepnorm(s):
    return s.replace("_", "").replace("-", "")


def chunks(text):
    out, cur = [], []
    for line in text.split("\n"):
        if line.strip() == "":
            if cur:
                out.append("\n".join(cur))
            cur = []
        elif cur and not line.startswith((" ", "\t", ")", "]", "}")) and re.match(r"(?:abbrev |pub |unfoldable )*\S+ :", line) and not cur[-1].startswith("--"):
            out.append("\n".join(cur))
            cur = [line]
        else:
            cur.append(line)
    if cur:
        out.append("\n".join(cur))
    return out


def module_of(path):
    crate = os.path.basename(os.getcwd())
    rel = path[len("proofs/"):-len("/Proof.antt")]
    return crate, rel


def entry(crate, rel):
    dotted = rel.replace("/", ".")
    for key in NAMES:
        if key == f"Rattle-{crate}-proofs.{dotted}.Lts" or key == f"Rattle.{crate}.proofs.{dotted}.Lts":
            return NAMES[key]
    tail = [k for k in NAMES if k.endswith(f".{dotted}.Lts")]
    return NAMES[tail[0]] if tail else None


def turn_paths(body, steps, arms, say, arg, own):
    # aliases: let s = c.before.before in
    while True:
        m = re.search(r"let (\w+) = (\w+(?:\.before)+(?:\.[\w-]+)?|" + arg + r"(?:\.[\w-]+)+) in\s*", body)
        if not m:
            break
        name, path = m.group(1), m.group(2)
        rest = body[m.end():]
        rest = re.sub(r"(?<![\w.])" + re.escape(name) + r"(?=\.)", path, rest)
        if re.search(r"(?<![\w.'])" + re.escape(name) + r"(?![\w'])", rest):
            rest = re.sub(r"(?<![\w.'])" + re.escape(name) + r"(?![\w'.])", path, rest)
        body = body[: m.start()] + rest

    def path(m):
        parts = m.group(0).split(".")
        head, parts = parts[0], parts[1:]
        while parts and parts[0] == "before":
            parts = parts[1:]
        if not parts:
            say(f"bare {m.group(0)}")
            return m.group(0)
        step = parts[0]
        if step == "requires" and len(parts) > 1 and parts[1].isdigit():
            row = CLAUSES.get(own, ([], []))[0]
            if len(row) > 1 and int(parts[1]) < len(row):
                parts[1] = row[int(parts[1])]
        if step in ("args", "requires", "ranges"):
            return ".".join([head] + parts)
        key = stepnorm(step)
        for k in range(len(parts), 1, -1):
            if (key, tuple(parts[1:k])) in arms:
                return ".".join([head, arms[key, tuple(parts[1:k])]] + parts[k:])
        if key in steps:
            callee = re.sub(r"\d+$", "", step).replace("-", "_")
            row = CLAUSES.get(callee, CLAUSES.get(step.replace("-", "_"), ([], [])))[1]
            if len(parts) > 2 and parts[1] == "ensures" and parts[2].isdigit() and len(row) > 1:
                parts[2] = row[int(parts[2])]
            return ".".join([head, steps[key]] + parts[1:])
        say(f"step {step}")
        return ".".join([head] + parts)

    body = re.sub(r"(?<![\w.'])" + arg + r"(?:\.[\w?!'-]+)+", path, body)

    def plain(m):
        return m.group(2) if m.group(3) in steps.values() else m.group(0)

    # The test of `if !f(..)` is now told of what f returned.
    return re.sub(r"\(not-(true|false) \S+ (" + arg + r"\.if-not-([\w-]+)\.(?:true|false))\)", plain, body)


def turn(path):
    crate, rel = module_of(path)
    info = entry(crate, rel)
    said = []
    say = said.append
    text = open(path, encoding="utf8").read()
    if info is None:
        print("NO NAMES", path)
        return
    needs = {}
    for old, new in info["needs"]:
        needs.setdefault(norm(old), new)
    steps = {}
    for _, _, step, _, _ in info["places"]:
        if step and step[0]:
            steps.setdefault(stepnorm(step[0]), step[1])
    arms = {}
    for arm in info["arms"]:
        if arm:
            for field, old, way in arm[2]:
                if way:
                    arms.setdefault((stepnorm(old), tuple(way)), f"{arm[0]}.{field}")
    loops = {}
    for (names, variables), changed in zip(info["loops"], info["changed"]):
        loops[stepnorm(names[0])] = (names[1], variables, changed)
    uses, invariants, answers, helpers = [], [], [], []
    for chunk in chunks(text):
        lines = chunk.split("\n")
        if lines[0].startswith("use "):
            for line in lines:
                if re.search(r"\.(Statement|Tie|Reads|Lts|Kinds)\b", line):
                    continue
                uses.append(line)
            continue
        m = re.match(r"(?:--[^\n]*\n)*(?:abbrev |pub )*(\S+) : tie\.((?:invariant|decreases)-[\w-]+|measure\S*)", chunk)
        if m:
            local, kind = m.group(1), m.group(2)
            comment = "\n".join(l for l in lines if l.startswith("--"))
            body = chunk[m.end():].lstrip("\n")
            d = re.match(r"(?:unfolding [^\n]*\n)?" + re.escape(local) + r"\s+([^=]*?)\s*=\s*(.*)$", body, re.S)
            what, loop = kind.split("-", 1)
            row = loops.get(stepnorm(loop))
            if not d or not row:
                say(f"loop {kind}")
                invariants.append(chunk)
                continue
            new, variables, changed = row
            args = d.group(1).split()
            order = [("l.initial." if c else "l.") + v for v, c in zip(variables, changed)]
            order += ["l." + v for v, c in zip(variables, changed) if c]
            expr = d.group(2)
            if len(args) != len(order):
                say(f"args of {kind}: {args} {order}")
            table = dict(zip(args, order))
            expr = re.sub(
                r"(?<![\w.'])[^\W\d][\w'₀-₉]*", lambda q: table.get(q.group(0), q.group(0)), expr
            )
            name = f"{what}-{new}"
            invariants.append((comment + "\n" if comment else "") + f"abbrev pub {name} : goal.{name}\n{name} l = {expr}")
            continue
        m = re.match(r"((?:--[^\n]*\n)*)(?:pub )?(\S+) : tie\.Need-(\S+)[^\n]*\n(?:  +[^\n]*\n)*", chunk)
        if m:
            comment, local, old = m.groups()
            body = chunk[m.end():]
            unf = re.match(r"unfolding[^\n]*\n", body)
            unfold = unf.group(0) if unf else ""
            body = body[len(unfold):]
            d = re.match(re.escape(local) + r"\s+(\S+)((?: κs\S*)?)\s*=\s*(.*)$", body, re.S)
            if not d:
                say(f"answer {local}")
                helpers.append(chunk)
                continue
            arg, _, expr = d.groups()
            if not unfold and (expr.strip() in TRIVIAL or re.match(r"⊎_elim \(λ \w\. (omega arith|search rules)\) \(λ \w\. (omega arith|search rules)\) c[.\w-]*\.branch$", expr.strip())):
                continue
            new = needs.get(norm(old))
            if new is None:
                say(f"need {old} = {expr[:60]!r}")
                new = old
            if new.startswith("shape_of"):
                continue
            own = rel.split("/")[-1]
            expr = turn_paths(expr, steps, arms, say, arg, own)
            if norm(old).startswith("returns"):
                expr = as_record(expr, CLAUSES.get(own, ([], []))[1], say)
            elif re.search(r"-requires(-\d+)?$", old):
                callee = re.sub(r"-requires(-\d+)?$", "", old).replace("-", "_")
                expr = as_record(expr, CLAUSES.get(callee, ([], []))[0], say)
            if "\n" in expr:
                expr = "\n" + "\n".join("    " + q.strip() for q in expr.strip().split("\n"))
            else:
                expr = " " + expr.strip()
            answers.append(f"{comment}pub {new} : goal.{new}\n{unfold}{new} {arg} ={expr}")
            continue
        if re.search(r"tie\.(close|spec)", chunk):
            continue
        helpers.append(chunk)
    folder = os.path.dirname(path)
    dotted = f"Rattle.{crate}.proofs.{rel.replace('/', '.')}"
    os.remove(path)
    head = "\n".join(uses)
    if invariants:
        with open(f"{folder}/Invariants.antt", "w", encoding="utf8") as f:
            f.write(head + f"\nuse {dotted}.Given as goal\n\n" + "\n\n".join(invariants) + "\n")
    if answers or helpers:
        with open(f"{folder}/Answers.antt", "w", encoding="utf8") as f:
            f.write(head + f"\nuse {dotted}.Goals as goal\n\n" + "\n\n".join(helpers + answers) + "\n")
    print(("LOOK " if said else "done ") + path, "; ".join(said))
    if not os.listdir(folder):
        os.rmdir(folder)


for proof in sorted(glob.glob("proofs/**/Proof.antt", recursive=True)):
    if ONLY and not any(proof == f"proofs/{o}/Proof.antt" or f"/{o}/Proof.antt" in proof for o in ONLY):
        continue
    turn(proof)
