"""The must-fail edits: what each changes, which facts it names, and what refused it.

tests/edits                    after ./test's `rt ci`: by what that printed (target/ci.log) each edit was refused, none is bad, none only because a file of proofs/ names
                               what it took away, and none only by a limit; every public function is named by two wrong answers or more; and each fact was refused
                               itself: of the edits that tests/edits.txt doesn't have with the files that are here, and of those of SAMPLE crates, it tries the facts
tests/edits facts [CRATE..]    tries the edits of these crates, or of all, again, over what `rt check` kept in out/ or else what `rt ci` left there; leaves all that the
                               prover says of each in target/must-fail/CRATE/EDIT.log; and looks up each fact there that a `refutes:` line names. It has to be refused
                               itself. An edit of which all facts are gets its line in tests/edits.txt, and another loses it

A fact is FOLDER/Answers:GOAL, a goal of the function whose proof stands in proofs/FOLDER (also where the prover finds that proof by itself); FOLDER, any of its
goals; or FILE:NAME, a theorem of the crate's FILE.antt. It does not count that something under it was refused, that the edit took a point of the code away by which
the proof finds its facts, or moved it, or that the prover came to no verdict: LOST."""
import functools
import hashlib
import os
import re
import runpy
import shutil
import subprocess
import sys
import time
from concurrent.futures import ThreadPoolExecutor
from pathlib import Path
from types import SimpleNamespace

sys.dont_write_bytecode = True
ROOT = Path(__file__).resolve().parent.parent
TARGET = ROOT / "target"
RECORD = ROOT / "tests" / "edits.txt"
HEAD = """# The edits of which every fact was seen refused itself, by `tests/edits facts`, which writes this file: crate and edit, its facts, and the sum of all that this rests on:
# the toolchain's name, the edit, the files of its crate and of those below, and how a fact is looked up (page/edits.py, tests/over). Where a sum differs, tests/edits
# tries the edit again.
"""
# how many crates are tried though the record has their edits; but none of LONG, whose edits take eight minutes each
SAMPLE, LONG = 3, {"memory_step", "claims_linked"}
LOST = re.compile(r"was not admitted|antt ran out of|outgrew the memory limit|stopped at the step limit|expected an expression|declarations? that depends? on|has no (?:field )?`|is not in scope(?! here, so what is shown)|expected type `(?:tie|[^ `]*\.Lts)\.[A-Za-z0-9·-]+|but this has type `(?:lts|[^ `]*\.Lts)\.|one has `[^ `]*\.Lts\.[A-Za-z0-9·-]+` *\(expected\)")
SAID = re.compile(r"^rt: must-fail (\w+)/(\S+)\.edit: (refused, as it must be|[A-Z ]+)(.*)$")


class Edit:
    """An edit: its crate, its name, what is wrong, and the facts that it must break."""

    def __init__(self, path):
        self.path, self.crate, self.name = path, path.parts[-3], path.stem
        self.text = path.read_text()
        self.told = " ".join(self.text.partition("refutes:")[0].split())
        self.facts = " ".join(re.findall(r"^refutes: (.*)$", self.text, re.M)).replace("[+]", "+").split()
        self.log = TARGET / "must-fail" / self.crate / f"{self.name}.log"

    def rows(self):
        """What the prover said, a message that goes on in indented lines as one row; or None."""
        return re.sub(r"\n {2,}", " ", self.log.read_text(errors="replace")).splitlines()[1:] if self.log.exists() else None

    def is_tried(self):
        """Whether its log is of a try with the files that are here: its first line is their sum."""
        return self.log.exists() and self.log.read_text(errors="replace").split("\n", 1)[0] == tried_with(self)

    def changes(self):
        """What it changes: file, the text before, the text after."""
        file, old = "", ""
        for key, value in re.findall(r"^(file|old|new): ?(.*)$", self.text, re.M):
            if key == "file":
                file = value
            elif key == "old":
                old = value.strip()
            else:
                yield file, old, value.strip()


def edits():
    return [Edit(path) for path in sorted(ROOT.glob("crates/*/must-fail/*.edit"))]


def printed():
    """What `rt ci` printed of each edit: whether it refused it, and the rest of the line."""
    log = TARGET / "ci.log"
    return {(hit[1], hit[2]): (hit[3], hit[4].strip()) for hit in map(SAID.match, log.read_text(errors="replace").splitlines()) if hit} if log.exists() else None


def refused_at(crate, fact, rows):
    """What a log says at a fact: the first error that is about it, else the first that only says that its proof names a place which is gone, or
    another than stands there. Line, name, text, and whether it is about the fact."""
    place, _, name = fact.partition(":")
    folder = re.sub(r"/(?:Answers|Invariants|Proof)$", "", place)
    is_theorem = bool(name) and place.startswith(("proofs/", "specs/"))
    files = rf"{re.escape(place)}" if is_theorem else rf"proofs/{re.escape(folder)}/(?:Answers|Invariants|Proof)"
    function = "::".join(one for one in [crate, *folder.split("/")])
    unfit = None
    for row in rows or []:
        if found := re.match(rf"(?:note: )?(?:\./)?{files}\.antt:(\d+):\d+: error: `([^`]+)`: (.*)$", row):
            line, where, text = found.groups()
            if name and where != name:
                continue
            if LOST.search(text) or not name and where.endswith("-spec"):
                unfit = unfit or (line, where, text, False)
            else:
                return line, where, text, True
        elif found := re.match(rf"fn {re.escape(function)}: no proof: (.*`search` did not prove (.*))$", row):
            if not name or f"`{name}`" in found[2]:
                return None, name or "no proof", found[1], True
    return unfit


def functions():
    """Every public function: its crate, its file, and how the facts of its proof begin, or end where it is a method, `TYPE/NAME`."""
    for path in sorted(ROOT.glob("crates/*/src/**/*.rt")):
        crate, kind = path.parts[len(ROOT.parts) + 1], ""
        module = [one for one in path.relative_to(ROOT / "crates" / crate / "src").with_suffix("").parts if one not in ("lib", "main")]
        for row in path.read_text().splitlines():
            if found := re.match(r"impl(?:<[^>]*>)? (?:\S+ for )?(\w+)", row):
                kind = found[1]
            elif row.startswith("}"):
                kind = ""
            if found := re.search(r'pub (?:extern "C" )?fn ([a-z0-9_]+)', row):
                yield crate, path.relative_to(ROOT), f"{kind}/{found[1]}" if kind else "/".join([*module, found[1]]), bool(kind)


def unnamed():
    """Public functions that fewer than two wrong answers name. A static library has only exports that call the function of the same name with its clauses (tests/rules compares them)."""
    named = {}
    for one in edits():
        for fact in one.facts:
            named.setdefault(one.crate, []).append(re.sub(r"/(?:Answers|Invariants|Proof)(?::.*)?$|:.*$", "", fact))
    for crate, file, place, is_method in functions():
        wanted = rf"(?:.*/)?{re.escape(place)}" if is_method else re.escape(place)
        if not listed()[crate][1] and sum(1 for one in named.get(crate, []) if re.fullmatch(wanted, one)) < 2:
            yield f"{file}: {place.split('/')[-1]} is named by fewer than two wrong answers"


def as_printed():
    said = printed()
    if said is None:
        yield "target/ci.log is not there: ./test leaves it"
        return
    wanted = {(one.crate, one.name) for one in edits()}
    for crate, name in sorted(wanted - said.keys()):
        yield f"{crate}/{name}: rt ci says nothing of it"
    for crate, name in sorted(said.keys() - wanted):
        yield f"{crate}/{name}: rt ci tried it, and it is not there"
    for (crate, name), (verdict, rest) in sorted(said.items()):
        if verdict != "refused, as it must be" or rest.startswith("("):
            yield f"{crate}/{name}: {verdict}{rest and ' ' + rest[:300]}"


@functools.cache
def listed():
    """The crates of crates.txt: what each uses, and whether it is a static library."""
    rows = re.findall(r"(?m)^(\w+)( staticlib)?:([^#\n]*)", (ROOT / "crates.txt").read_text())
    return {name: (uses.split(), bool(is_static)) for name, is_static, uses in rows}


@functools.cache
def with_below(crate):
    """The crate and all that it rests on."""
    if crate not in listed():
        sys.exit(f"edits: {crate} is not in crates.txt")
    return frozenset({crate}).union(*map(with_below, listed()[crate][0]))


@functools.cache
def sum_of(crate):
    """The sum of the crate's own files that the prover reads."""
    read = hashlib.sha256()
    folder = ROOT / "crates" / crate
    for path in sorted(one for part in ("src", "specs", "proofs") for one in (folder / part).rglob("*") if one.is_file()):
        read.update(f"{path.relative_to(folder)} {hashlib.sha256(path.read_bytes()).hexdigest()}\n".encode())
    return read.hexdigest()


def tried_with(edit):
    """The sum of all that the prover reads in a try of the edit."""
    read = hashlib.sha256((ROOT / "toolchain").read_bytes() + edit.path.read_bytes())
    for crate in sorted(with_below(edit.crate)):
        read.update(f"{crate} {sum_of(crate)}\n".encode())
    return read.hexdigest()


def line_of(edit):
    """The line of an edit in the record."""
    judge = Path(__file__).read_bytes() + (ROOT / "tests" / "over").read_bytes()
    return f"{edit.crate}/{edit.name} {len(edit.facts)} {hashlib.sha256(judge + tried_with(edit).encode()).hexdigest()}"


def lines():
    """The lines that edits have with the files that are here, by crate and edit."""
    sum_of.cache_clear()
    return {f"{one.crate}/{one.name}": line_of(one) for one in edits()}


def recorded():
    """The lines of the record, by crate and edit."""
    return {row.split()[0]: row for row in RECORD.read_text().splitlines() if row and row[0] != "#"} if RECORD.exists() else {}


def to_try():
    """The crates of the edits that the record has not as they are, and SAMPLE others, which the sum of all lines chooses: other files, another choice."""
    kept, here = recorded(), lines()
    stale = {name.split("/")[0] for name in here if kept.get(name) != here[name]}
    order = hashlib.sha256("".join(sorted(here.values())).encode()).hexdigest()
    others = sorted({one.crate for one in edits()} - stale - LONG, key=lambda crate: hashlib.sha256((order + crate).encode()).hexdigest())
    return stale, others[:SAMPLE]


def record(crate, before, failed):
    """Writes the record's lines of a crate that was tried. An edit gets one if each of its facts was refused, and its files are those of before the try."""
    kept, here = recorded(), lines()
    for name in sorted(kept.keys() | here.keys()):
        if name not in here or name.split("/")[0] == crate:
            kept.pop(name, None)
            if name in here and here[name] == before.get(name) and not any(text.startswith(f"{name} ") for text in failed):
                kept[name] = here[name]
    RECORD.write_text(HEAD + "".join(f"{kept[name]}\n" for name in sorted(kept)))


def try_edits(tool, rt, of):
    """Tries the edits of a crate, but those of which a log is kept, with the kit's own check of an edit, and keeps all that it says."""
    begun = time.monotonic()
    found = [one for one in edits() if one.crate == of.name and not one.is_tried()]
    if not found:
        return
    tool.build_below([of])
    kept = f"{of.folder}/out/incremental"
    room = rt.seeded(of, ["--jobs", "2"], kept if os.path.isdir(kept) else None)
    if not room:
        sys.exit(f"edits: {of.name} is not proved as it stands")

    def one(at, edit):
        wanted = tried_with(edit)
        texts, why = rt.read_edit(str(edit.path), of.folder)
        if texts:
            copy = f"{room}/{at}"
            rt.linked(f"{room}/seed", copy)
            why = rt.checked(of, texts, ["--jobs", "1"], copy).stdout
            shutil.rmtree(copy, ignore_errors=True)
        sum_of.cache_clear()
        edit.log.parent.mkdir(parents=True, exist_ok=True)
        edit.log.write_text(f"{wanted if wanted == tried_with(edit) else 'changed meanwhile'}\n{why}")

    at_once = max(1, min(rt.processors(), int(0.85 * rt.free() / rt.need(of))))
    try:
        with ThreadPoolExecutor(at_once) as pool:
            list(pool.map(one, range(len(found)), found))
    finally:
        shutil.rmtree(room, ignore_errors=True)
    print(f"edits: {of.name}: {len(found)} tried, {time.monotonic() - begun:.0f} s", flush=True)


def not_refuted(crate):
    """The facts of a crate's edits that the prover did not refuse itself."""
    for one in edits():
        if one.crate != crate:
            continue
        if not one.facts:
            yield f"{crate}/{one.name} names no fact"
        rows = one.rows()
        for fact in one.facts:
            hit = refused_at(crate, fact, rows)
            if not (hit and hit[3]):
                yield f"{crate}/{one.name} did not refute {fact}{': ' + hit[2][:200] if hit else ''} (see {one.log.relative_to(ROOT)})"


def of_facts(tried):
    """Tries the edits of the crates, looks up their facts, tells which were not refused, and writes the record; returns whether all were."""
    wanted, found = (ROOT / "toolchain").read_text().strip(), subprocess.run(["rt", "version"], stdout=subprocess.PIPE, text=True).stdout.strip()
    if wanted != found:
        sys.exit(f"edits: this is {found}; the file toolchain names {wanted}")
    # the kit's rt as a module, over libraries that stand built
    tool = SimpleNamespace(**runpy.run_path(str(ROOT / "tests" / "over")))
    rt = tool.load()
    known = tool.crates_of(rt, str(ROOT))
    rt.rtlib.guarded()
    all_failed = []
    for crate in tried:
        before = lines()
        try_edits(tool, rt, known[crate])
        failed = [*not_refuted(crate)]
        record(crate, before, failed)
        all_failed += failed
        for text in failed:
            print(f"edits: {text}", flush=True)
    print(f"edits: {sum(len(one.facts) for one in edits() if one.crate in tried)} facts looked up in what the prover says of the edits of {' '.join(tried)}, {len(all_failed)} not refused")
    return not all_failed


def main(words):
    with_edits = sorted({one.crate for one in edits() if with_below(one.crate)}, key=[*listed()].index)
    if words[:1] == ["facts"]:
        if unknown := [one for one in words[1:] if one not in with_edits]:
            sys.exit(f"edits: no edits of {' '.join(unknown)}")
        return 0 if of_facts(words[1:] or with_edits) else 1
    if words:
        sys.exit(__doc__)
    failed = [*as_printed(), *unnamed()]
    for text in failed:
        print(f"edits: {text}")
    print(f"edits: {len(edits())} edits, of {sum(len(one.facts) for one in edits())} facts, and {len([*functions()])} public functions looked up in what rt ci printed, {len(failed)} not as they should be")
    stale, others = to_try()
    print(f"edits: tried now, as tests/edits.txt has other files: {' '.join(sorted(stale)) or 'none'}; beside: {' '.join(others)}", flush=True)
    return 0 if of_facts([one for one in with_edits if one in stale.union(others)]) and not failed else 1


if __name__ == "__main__":
    sys.exit(main(sys.argv[1:]))
