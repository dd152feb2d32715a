#!/usr/bin/env python3
"""Spells the definitions and lemmas of this repository as Rattle does: words in snake case, types and facts in
camel case, and a dash only between two names.

usage: python3 tools/spell_names.py          once, at the top of the checkout, right after the toolchain's port.py

It renames what specs/ and the lemma files of proofs/ declare, in every .antt file, in the clauses of .rt files and
in the must-fail edits. Functions of src/, exported names, strings, inputs and outputs keep their names. A definition
that would get the name of something in src/ ends in `_lem`. A name whose new spelling another item has already is
left as it is and listed.
"""
import collections
import glob
import os
import re
import sys

DECLARES = re.compile(r"\s*(?:(?:abbrev|opaque|unfoldable|pub|instance)\s+)*(?:(record|data)\s+)?([^\s:(){},.=|]+)(?:\s+\{[^}]*\}|\s+\([^)]*\))*\s*:(?:\s|$)")
TOKEN = re.compile(r"[^\s(){}\[\],;:.=|@`«»\"!?]+")
RESERVED = {"use", "mod", "open", "module", "let", "λ", "where", "in"}
# definitions and parameters that DECLARES does not find, with what may stand behind them
HIDDEN = re.compile(r"(addReplyOf|degreesAre|dirEdges(?:Dst|Marked|Src)|edgesLine|edgesLineId|enclosedSide|flatSide|half(?:Chains|Edges(?=₀)|Entries|MarksAre)"
                    r"|in[LM]|keys[XY]Of|lineId|node(?:Chains|Entries|MarksAre)|nodes(?:Degree|Outgoing)|old(?:Nodes|X|Y)|ringFrom|room(?:Id|Line|M|Next|Place)|roomyIs"
                    r"|rotationStart|same[EO]|startReply|takingOf)(['₀]*)$")
# what the library calls its functions in the names of laws
LIBRARY = set("length append take drop set map reverse get_or cond eqb ltb leb min max sum suc zero add mul sub div mod pow cons nil ap sym not if fst snd replicate flatten filter head tail".split())
ANSWERS = ("Proof.antt", "Answers.antt", "Invariants.antt")


def read(path):
    with open(path, encoding="utf-8") as file:
        return file.read()


def paths(root, *patterns):
    return sorted(p for pattern in patterns for p in glob.glob(os.path.join(root, pattern), recursive=True))


def snake(word):
    """camelCase to snake_case; a word that begins with a capital is a type or a fact, and stays."""
    if not re.match("[a-z]", word):
        return word
    return re.sub(r"(?<=[a-z0-9])([A-Z])(?![A-Z])", lambda m: "_" + m[1].lower(), word)


def joined(parts, known):
    """The words of a name, joined: the longest rows of words that are a name first, a dash between two of these."""
    rows, at = [], 0
    while at < len(parts):
        for end in range(len(parts), at, -1):
            row = "_".join(parts[at:end])
            if row in known:
                rows.append((row, True))
                at = end
                break
        else:
            rows.append((parts[at], False))
            at += 1
    name = rows[0][0]
    for (_, left), (row, right) in zip(rows, rows[1:]):
        name += ("-" if left and right else "_") + row
    return name


def declared(root):
    """The names that are declared, those of specs/, and those that are fields of records and nothing else."""
    own, of_specs, others = collections.defaultdict(set), set(), set()
    for path in paths(root, "crates/*/specs/**/*.antt", "crates/*/proofs/**/*.antt"):
        if os.path.basename(path) in ANSWERS:
            continue
        inside = None
        for line in re.sub(r"--.*", "", read(path)).split("\n"):
            depth = len(line) - len(line.lstrip())
            if line.strip() and inside is not None and depth <= inside:
                inside = None
            m = DECLARES.match(line)
            if m and m[2] not in RESERVED and re.match(r"[A-Za-z]", m[2]):
                own[m[2]].add(path)
                if inside is None:
                    others.add(m[2])
                if "/specs/" in path:
                    of_specs.add(m[2])
            if re.match(r"\s*(pub )?record\b", line):
                inside = depth
    return own, of_specs, set(own) - others


def table(root):
    own, of_specs, fields = declared(root)
    source = set()
    for path in paths(root, "crates/*/src/**/*.rt"):
        text = re.sub(r"//.*", "", read(path))
        source |= set(re.findall(r"[A-Za-z_][A-Za-z0-9_]*", text))
    taken = set()
    for path in paths(root, "crates/*/specs/**/*.antt", "crates/*/proofs/**/*.antt"):
        taken |= set(TOKEN.findall(re.sub(r"--.*", "", read(path))))
    known = LIBRARY | {snake(n) for n in of_specs if "-" not in n}
    new, left = {}, []
    # definitions first: a lemma that would have a definition's name ends in _lem
    for name in sorted(own, key=lambda n: ("-" in n, n)):
        parts = [snake(p) for p in name.split("-")]
        to = joined(parts, known) if "-" in name and all(re.match(r"\w+'*$", p) for p in parts) else "-".join(parts)
        if to == name:
            continue
        if name in fields:
            new[name] = to
            continue
        full = taken | set(new.values())
        if to in source or to in full:
            to += "_lem"
        if to in source or to in full:
            left.append((name, to))
            continue
        new[name] = to
    return new, left


def respelled(text, new, answers):
    """answers: in a file of a function's answers a dashed word behind a dot is a step of the code and no name of ours."""
    def word(m):
        it = m[0]
        hidden = HIDDEN.match(it)
        if hidden:
            return re.sub(r"(?<=[a-z])([A-Z])", r"_\1", hidden[1].replace("Of", "_of")).lower() + hidden[2]
        if it not in new or (answers and "-" in it and m.start() and text[m.start() - 1] == "."):
            return it
        return new[it]

    return TOKEN.sub(word, text)


def main(root="."):
    new, left = table(root)
    changed = 0
    for path in paths(root, "crates/*/specs/**/*.antt", "crates/*/proofs/**/*.antt", "crates/*/src/**/*.rt", "crates/*/must-fail/*.edit"):
        old = read(path)
        text = respelled(old, new, os.path.basename(path) in ANSWERS)
        if text != old:
            changed += 1
            with open(path, "w", encoding="utf-8") as file:
                file.write(text)
    print(f"{len(new)} names respelled in {changed} files; {len(left)} left: " + ", ".join(f"{a} ({b} is taken)" for a, b in left))


if __name__ == "__main__":
    sys.exit(main())
