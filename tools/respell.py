#!/usr/bin/env python3
"""Spells this repository's own names of definitions, lemmas, fields and variables in snake case, as today's Rattle does.

usage: tools/respell.py [--check] [FOLDER]      after the kit's port.py, once; FOLDER is the repository, else this one

A name of antt that begins with a small letter and has a capital in it (`abortCoros`, `yieldKv-agree`) gets underscores (`abort_coros`,
`yield_kv-agree`), in crates/*/specs, crates/*/proofs, in the clauses and comments of crates/*/src and in crates/*/must-fail. Types, modules and
constructors keep their capitals; functions of src/ and what is printed keep their names. LEMMAS has those that would meet another name.
--check writes nothing, and lists new names that meet another in a file.
"""
import collections
import os
import re
import sys

# A lemma that would have the name of the definition that it is about gets `_lem`: where it is declared, and its name after port.py.
LEMMAS = {
    "linked_switch/proofs/Yields.antt": "left_in",
    "linked_switch/proofs/Resuming.antt": "in_frame",
    "claims_model/proofs/Entry.antt": "in_frame",
    "claims_sheet/proofs/Yields.antt": "bits_in",
    "claims_sheet/proofs/Words.antt": "not_a",
    "claims_sheet/proofs/Makings.antt": "held_by",
    "claims_sheet/proofs/AnswerWords.antt": "new_word",
}
TOKEN = re.compile(r"[^\s(){}.;,@\"«»]+")
# in comments, edits and clauses a name also ends at these
LOOSE = re.compile(r"(?<![A-Za-z0-9_'·-])[a-z][A-Za-z0-9_'-]*")


def is_camel(w):
    return re.match(r"[a-z]", w) and re.search(r"[a-z0-9][A-Z]", w) and re.fullmatch(r"[A-Za-z0-9_'-]+", w)


def snake(w):
    return re.sub(r"([a-z0-9])([A-Z])", lambda m: m[1] + "_" + m[2].lower(), w)


def antt_files(root):
    for kind in ("specs", "proofs"):
        for folder, dirs, files in os.walk(os.path.join(root, "crates")):
            dirs[:] = sorted(d for d in dirs if d != "out")
            if f"/{kind}" in folder + "/":
                for f in sorted(files):
                    if f.endswith(".antt") and re.search(rf"/crates/[^/]+/{kind}(/|$)", folder):
                        yield os.path.join(folder, f)


def others(root, ending, part):
    for folder, dirs, files in os.walk(os.path.join(root, "crates")):
        dirs[:] = sorted(d for d in dirs if d != "out")
        if re.search(rf"/crates/[^/]+/{part}(/|$)", folder):
            for f in sorted(files):
                if f.endswith(ending):
                    yield os.path.join(folder, f)


def mark_lemmas(root):
    for place, name in LEMMAS.items():
        path = os.path.join(root, "crates", place)
        if not os.path.exists(path):
            continue
        crate, module = place.split("/")[0], os.path.basename(place)[: -len(".antt")]
        word = rf"(?<![^\s(){{}},;]){name}(?![^\s(){{}}.,;])"
        for p in antt_files(root):
            with open(p, encoding="utf-8") as f:
                t = f.read()
            uses = re.search(rf"(?m)^ *use Rattle\.{crate}\.proofs\.{module}\.\{{([^}}]*)\}}", t)
            if p == path or uses and name in [x.strip() for x in uses[1].split(",")]:
                with open(p, "w", encoding="utf-8") as f:
                    f.write(re.sub(word, name + "_lem", t))


def main(argv):
    check = "--check" in argv
    rest = [a for a in argv if a != "--check"]
    root = os.path.abspath(rest[0]) if rest else os.path.dirname(os.path.dirname(os.path.abspath(__file__)))
    if not check:
        mark_lemmas(root)
    names = collections.Counter()
    texts = {}
    for p in antt_files(root):
        with open(p, encoding="utf-8") as f:
            texts[p] = f.read()
        body = re.sub(r"--.*", "", texts[p])
        for w in TOKEN.findall(body):
            if is_camel(w):
                names[w] += 1
    table = {w: snake(w) for w in names}
    if check:
        for p, t in texts.items():
            body = re.sub(r"--.*", "", t)
            there = set(TOKEN.findall(body))
            for w in sorted(there & set(table)):
                if table[w] in there:
                    print(f"{os.path.relpath(p, root)}: {w} meets {table[w]}")
        new = collections.defaultdict(set)
        for w, v in table.items():
            new[v].add(w)
        for v, ws in new.items():
            if len(ws) > 1:
                print(f"{ws} fall together in {v}")
        for p in others(root, ".rt", "src"):
            with open(p, encoding="utf-8") as f:
                t = f.read()
            there = set(LOOSE.findall(t))
            for w in sorted(there & set(table)):
                if re.search(rf"(?<![\w.]){table[w]}: ?[A-Z&a-z\[(]|\blet (mut )?{table[w]}\b", t):
                    print(f"{os.path.relpath(p, root)}: {w} meets a parameter or variable {table[w]}")
        return 0

    def turned(t):
        return LOOSE.sub(lambda m: table.get(m[0], m[0]), t)

    n = 0
    for p in [*texts, *others(root, ".rt", "src"), *others(root, ".edit", "must-fail")]:
        with open(p, encoding="utf-8") as f:
            t = f.read()
        if p.endswith(".rt"):
            # no text between quotes
            u = "".join(part if k % 2 else turned(part) for k, part in enumerate(re.split(r'("(?:[^"\\\n]|\\.)*")', t)))
        else:
            u = turned(t)
        if u != t:
            n += 1
            with open(p, "w", encoding="utf-8") as f:
                f.write(u)
    print(f"respell: {len(table)} names, {n} files")
    return 0


if __name__ == "__main__":
    raise SystemExit(main(sys.argv[1:]))
