#!/usr/bin/env python3
"""Checks the documents against the sources, so that none can rot.
RULES: each file and name of a row is there; what is no statement in its column "theorem" is the fault sheet's; a sentence is marked as quoted exactly if a comment of its
definition's file quotes it; every quotation in a comment of crates/ is 01's, or is listed as another's.
ASSURANCE, STATEMENTS: places and sums are those of today. TESTING, README: counts and sizes are. CONTRIBUTING: the layout is that of crates.txt.
Every document: each name `FILE: name`, each `Record.field`, each file, each folder and each link is there.
Sources: what claims_linked says of a linked function is what its contract cites; what a wrong edit changes stands once in its file, and it says what is wrong;
no file of specs/ or src/ cites one of proofs/. `page/rules.py mend` writes places, sums, counts and marks."""
import re
import sys
from pathlib import Path

sys.dont_write_bytecode = True
sys.path.insert(0, str(Path(__file__).resolve().parent))
import closure

ROOT = closure.ROOT
RULES = ROOT / "docs/rules/RULES.md"
PLACED = ("docs/ASSURANCE.md", "docs/STATEMENTS.md")
LAYOUT = "docs/CONTRIBUTING.md"
PAPERS = [ROOT / "README.md", ROOT / "host/README.md", ROOT / "oracle/README.md", *sorted(ROOT.glob("docs/**/*.md"))]
failed = []


def say(text):
    failed.append(text)
    print("rules: " + text)


def plain(text):
    """The words of a text, without marks."""
    return re.findall(r"[^\s`\"()\[\]{},;:.*?!]+", text.lower().replace("\\_", "_"))


def rows_of(page):
    """The rows of RULES: section, number, sentence, quoted or not, the two cells with names; a heading within a section has number 0."""
    section = ""
    for row in page.read_text().splitlines():
        if row.startswith("## "):
            section = row[3:]
        if row.startswith("### "):
            yield section, 0, row[4:], False, []
        cells = [one.strip() for one in row.strip("|").split(" | ")]
        if row.startswith("| ") and cells[0].strip().isdigit():
            yield section, int(cells[0]), cells[1], cells[2] == "”", cells[3:]


def path_of(name):
    return Path("crates", name.removeprefix("crates/")) if "/" in name else Path("crates/model/specs", name)


def has(path, name):
    text = (ROOT / path).read_text()
    if path.suffix == ".rt":
        return re.search(rf"pub(?:\(crate\))? (?:fn|struct|enum) {re.escape(name)}\b", text)
    return re.search(rf"^\s*(?:(?:unfoldable|abbrev|pub)\s+)*(?:record |data )?{re.escape(name)} ", text, re.M)


def comments_of(path):
    """The comments of a file, lines that stand together as one: line and text."""
    mark = "--" if path.suffix == ".antt" else "//"
    found, start = [], 0
    for number, row in enumerate(path.read_text().splitlines() + [""], 1):
        row = row.strip()
        if row.startswith(mark):
            start = start or number
            found.append(row[len(mark):].strip())
        elif found:
            yield start, " ".join(found)
            found, start = [], 0


def in_order(words, text):
    """Whether the words stand in the text in this order, each at most six words after the last."""
    for start in [at for at, one in enumerate(text) if one == words[0]]:
        at = start
        for word in words[1:]:
            after = text[at + 1:at + 8]
            if word not in after:
                break
            at += 1 + after.index(word)
        else:
            return True
    return False


def shares(quotation, sentence):
    """Whether a quotation has four words in a row of a sentence, or all of a shorter one."""
    few = min(4, len(sentence), len(quotation))
    runs = {tuple(sentence[at:at + few]) for at in range(len(sentence) - few + 1)}
    return any(tuple(quotation[at:at + few]) in runs for at in range(len(quotation) - few + 1))


def quotes(quotation, sentence):
    """Whether a quotation of four words or more, or of all of them, is one of the sentence."""
    return (len(quotation) >= 4 or quotation == sentence) and shares(quotation, sentence)


def is_definition(path, name):
    """Whether a file declares the name as a definition that is no statement: a field or a record is one, and what ends in Type."""
    made = closure.file_of(path).declared.get(name) if path.suffix == ".antt" else None
    if made is None or made.kind != "definition":
        return False
    head = [row for row in made.code() if not row.startswith("module ")][0]
    return head.startswith(("abbrev", "unfoldable")) and not re.search(r"(?:→|:) Type \d$", head)


def check_judged(number, cell, table, now, mend):
    """In the column "theorem" a definition has the mark °, and is one that the table's theorem rests on."""
    for file, name, mark in re.findall(r"`([A-Za-z0-9_/]+\.(?:antt|rt)): ([A-Za-z0-9_-]+)`( °)?", cell):
        path = path_of(file)
        wanted = (ROOT / path).exists() and is_definition(path, name)
        if wanted and (str(path), name) not in table:
            say(f"docs/rules/RULES.md, {number}: {name} of {path} is a definition, and no part of the fault sheet")
        elif wanted != bool(mark) and mend:
            place = f"`{file}: {name}`"
            fixed = cell.replace(place + " °", place) if mark else cell.replace(place, place + " °")
            now, cell = now.replace(f"| {cell} |", f"| {fixed} |"), fixed
        elif wanted != bool(mark):
            say(f"docs/rules/RULES.md, {number}: {name} {'has no' if wanted else 'has a'} mark °")
    return now


def check_rules(mend):
    names = quoted = 0
    table = {one.key for one in closure.closure(closure.find("claims_sheet/specs/Sheet.antt:FaultSheet"))[0]}
    page = now = RULES.read_text()
    sections, quotations = {}, {}
    for path in sorted((ROOT / "crates").rglob("*")):
        if path.suffix in (".antt", ".rt") and "out" not in path.relative_to(ROOT).parts:
            for line, text in comments_of(path):
                for one in re.findall(r'"([^"]+)"', text):
                    quotations.setdefault(path.relative_to(ROOT), []).append((line, one))
    expected = 1
    for section, number, sentence, marked, cells in rows_of(RULES):
        sections.setdefault(section, plain(section)).extend(plain(sentence))
        if number == 0:
            continue
        if number != expected:
            say(f"docs/rules/RULES.md: {number} stands where {expected} should")
        expected = number + 1
        places = re.findall(r"`([A-Za-z0-9_/]+\.(?:antt|rt)): ([A-Za-z0-9_-]+)`", " ".join(cells))
        for file, name in places:
            names += 1
            path = path_of(file)
            if not (ROOT / path).exists() or not has(path, name):
                say(f"docs/rules/RULES.md, {number}: no {name} in {path}")
        now = check_judged(number, cells[1].removesuffix(" |"), table, now, mend) if len(cells) > 1 else now
        files = [path_of(file) for file in re.findall(r"`([A-Za-z0-9_/]+\.(?:antt|rt)): ", cells[0])]
        found = [plain(one) for file in files for _, one in quotations.get(file, [])]
        quoted += marked
        if marked and not any(shares(one, plain(sentence)) for one in found):
            say(f"docs/rules/RULES.md, {number}: is quoted no more in {', '.join(map(str, files))}")
        if not marked and any(quotes(one, plain(sentence)) for one in found):
            if mend:
                now = now.replace(f"| {number} | {sentence} |   |", f"| {number} | {sentence} | ” |")
            else:
                say(f"docs/rules/RULES.md, {number}: is quoted in {', '.join(map(str, files))}, and has no mark")
    if now != page:
        RULES.write_text(now)
    others = [plain(one) for one in re.findall(r'^- "([^"]+)"', page, re.M)]
    count = 0
    for path, found in quotations.items():
        for line, one in found:
            count += 1
            parts = [words for words in map(plain, re.split(r"\.\.|\[[^\]]*\]", one)) if words]
            if plain(one) not in others and not any(all(in_order(words, text) for words in parts) for text in sections.values()):
                say(f"{path}:{line}: not 01's: \"{one}\"")
    print(f"rules: {expected - 1} sentences, {names} names, {quoted} quoted at their definition; {count} quotations in crates/")
    return expected > 150 and names > 250


def check_places(page, mend):
    """A place is `NAME`, `crates/FILE:LINE`; a length is `crates/FILE` (N lines); a sum is a row of a table: statements, lines, declarations.
    `mend` writes what is so today."""
    text = now = (ROOT / page).read_text()
    places = set(re.findall(r"`([A-Za-z0-9_-]+)`, `(crates/[A-Za-z0-9_/]+\.(?:antt|rt)):(\d+)`", text))
    for name, file, line in places:
        rows = (ROOT / file).read_text().splitlines() if (ROOT / file).exists() else []
        head = re.compile(rf"(?:(?:unfoldable|abbrev|pub|extern \"C\")\s+)*(?:record |data |fn |struct |enum )?{re.escape(name)}[ (:]")
        here = [at for at, row in enumerate(rows, 1) if head.match(row)][:1]
        if mend and here:
            now = now.replace(f"`{name}`, `{file}:{line}`", f"`{name}`, `{file}:{here[0]}`")
        elif here != [int(line)]:
            say(f"{page}: {name} stands at {file}:{here[0] if here else '(nowhere)'}, not at {line}")
    lengths = set(re.findall(r"`(crates/[A-Za-z0-9_/]+\.(?:antt|rt))` \((\d+) lines\)", text))
    for file, length in lengths:
        rows = len((ROOT / file).read_text().splitlines()) if (ROOT / file).exists() else 0
        if mend and rows:
            now = now.replace(f"`{file}` ({length} lines)", f"`{file}` ({rows} lines)")
        elif rows != int(length):
            say(f"{page}: {file} has {rows} lines, not {length}")
    sums = re.findall(r"^(\|[^|]*\| (`[^|]+`) \|) ([0-9,]+) \| ([0-9,]+) \|$", text, re.M)
    for row, statements, lines, count in sums:
        found, _ = closure.closure(*map(closure.find, re.findall(r"`([^`]+)`", statements)))
        today = f"{closure.lines(found):,} | {len(found):,}"
        if mend:
            now = now.replace(f"{row} {lines} | {count} |", f"{row} {today} |")
        elif today != f"{lines} | {count}":
            say(f"{page}: {statements}: {today}, not {lines} | {count}")
    if now != text:
        (ROOT / page).write_text(now)
    print(f"rules: {len(places)} places, {len(lengths)} lengths and {len(sums)} sums of {page}")
    return len(places) > 8 and len(sums) > 2


def check_layout():
    """The drawing of who may use whom, and whom in turn, is crates.txt's, and the table has every crate."""
    text = (ROOT / LAYOUT).read_text()
    text = text[text.index("## Layout"):]
    uses = {}
    for row in (ROOT / "crates.txt").read_text().splitlines():
        row = row.split("#")[0]
        if ":" in row:
            uses[row.split(":")[0].split()[0]] = set(row.split(":")[1].split())
    drawn = {}
    for row in text.split("```")[1].splitlines():
        for chain in re.split(r"\s{2,}", row[15:].strip()):
            links = [one.split(", ") for one in chain.strip().split(" → ")]
            for above, below in zip(links, links[1:]):
                for one in above:
                    drawn.setdefault(one, set()).update(below)

    def all_of(one, graph):
        return set().union(*({below} | all_of(below, graph) for below in graph.get(one, ())))

    for crate in uses:
        found, wanted = all_of(crate, drawn), all_of(crate, uses) & uses.keys()
        if found != wanted:
            say(f"{LAYOUT}, Layout: {crate} may use {', '.join(sorted(wanted ^ found))}: drawn otherwise than crates.txt says")
        if f"| `{crate}` |" not in text:
            say(f"{LAYOUT}, Layout: no row for {crate}")
    print(f"rules: {len(uses)} crates of the layout")


def check_names():
    """Every `FILE: name` of a document is there."""
    count = 0
    for page in PAPERS:
        if page == RULES:
            continue  # its rows are checked one by one
        for file, name in re.findall(r"`([A-Za-z0-9_/]+\.(?:antt|rt)): ([A-Za-z0-9_-]+)`", page.read_text()):
            count += 1
            if not (ROOT / path_of(file)).exists() or not has(path_of(file), name):
                say(f"{page.relative_to(ROOT)}: no {name} in {path_of(file)}")
    print(f"rules: {count} names in the documents")


def check_paths():
    """Every file and folder that a document names in full is there, and every link leads to one."""
    count = links = 0
    for page in PAPERS:
        text = page.read_text()
        for path in set(re.findall(r"`((?:\.ci|crates|docs|host|oracle|page|tests)/[A-Za-z0-9_/.-]*[A-Za-z0-9_/])", text)):
            count += 1
            if not (ROOT / path).exists() and not (page.parent / path).exists():
                say(f"{page.relative_to(ROOT)}: no {path}")
        for link in set(re.findall(r"\]\(([^)\s]+)\)", text)):
            if re.match(r"[a-z]+:", link):
                continue
            links += 1
            file, _, anchor = link.partition("#")
            to = (page.parent / file).resolve() if file else page
            if not to.exists():
                say(f"{page.relative_to(ROOT)}: no {link}")
            elif anchor and anchor not in {heading(one) for one in re.findall(r"^#+ (.*)$", to.read_text(), re.M)}:
                say(f"{page.relative_to(ROOT)}: no heading {link}")
    print(f"rules: {count} paths and {links} links in {len(PAPERS)} documents")


def heading(text):
    """The anchor of a heading."""
    return re.sub(r"\s", "-", re.sub(r"[^\w\s-]", "", text.lower()))


def check_fields():
    """Every `Name.field` of a document is a field of a record, a case of a data type, or a name of a file."""
    known = {}
    for path in list(ROOT.glob("crates/*/specs/*.antt")) + list(ROOT.glob("crates/*/proofs/*.antt")):
        record = None
        for row in path.read_text().splitlines():
            if found := re.match(r"\s*(?:pub )?(?:record|data) (\S+)", row):
                record = found.group(1)
            elif record and (found := re.match(r"\s+(?:pub )?([A-Za-z0-9_-]+) :", row)):
                known.setdefault(record, set()).add(found.group(1))
            elif found := re.match(r"(?:(?:abbrev|unfoldable|pub) )*([A-Za-z0-9_-]+) :", row):
                known.setdefault(path.stem, set()).add(found.group(1))
    count = 0
    for page in PAPERS:
        for record, field in set(re.findall(r"`([A-Z][A-Za-z0-9-]*)\.([a-z][A-Za-z0-9_-]*)`", page.read_text())) - {(one, "antt") for one in known}:
            count += 1
            if field not in known.get(record, ()) and field not in ("antt", "md", "rs", "toml"):
                say(f"{page.relative_to(ROOT)}: no {record}.{field}")
    print(f"rules: {count} fields named in the documents")


def check_cited():
    """What a contract or a definition says rests on no file of proofs/."""
    count = 0
    for path in [*ROOT.glob("crates/*/specs/**/*.antt"), *ROOT.glob("crates/*/src/**/*.rt")]:
        count += 1
        if found := re.search(r"^(?:pub |ghost )?use Rattle\.(?!std\.)\w+\.proofs\..*$", path.read_text(), re.M):
            say(f"{path.relative_to(ROOT)} cites proofs/: {found.group()}")
    print(f"rules: {count} files of specs/ and src/ cite none of proofs/" if not failed else f"rules: {count} files of specs/ and src/")


def wrong_machines():
    """The refutations of claims_model/specs/Wrong*.antt: the fields that say of a wrong machine that it has not a record, or not a field of one. One machine may stand in several."""
    text = "".join(path.read_text() for path in sorted(ROOT.glob("crates/claims_model/specs/Wrong*.antt")))
    return re.findall(r"^  pub ([a-z0-9_-]+) : (?:.* → ⊥|\w*Refuted\w* .*)$", text, re.M)


def check_edits():
    """What an edit of must-fail/ changes stands once in its file, and the edit says what is wrong and which proof refuses it: ./evidence shows both, and each wrong machine."""
    count = 0
    for path in sorted(ROOT.glob("crates/*/must-fail/*.edit")):
        file, crate, text, now, old = None, path.parts[-3], path.read_text(), {}, ""
        if len(plain(text.partition("refutes:")[0])) < 3 or "refutes:" not in text:
            say(f"{path.relative_to(ROOT)}: does not say what is wrong, or what refuses it")
        for key, text in re.findall(r"^(file|old|new): (.*)$", text, re.M):
            if key == "file":
                file = ROOT / "crates" / crate / text
                now.setdefault(file, file.read_text() if file.is_file() else "")
            elif key == "old":
                count, old = count + 1, text
                if now[file].count(text) != 1:
                    say(f"{path.relative_to(ROOT)}: not once in its file, as the changes before leave it: {text}")
            else:
                now[file] = now[file].replace(old, text, 1)
    machines = wrong_machines()
    if len(machines) < 50:
        say("crates/claims_model/specs/Wrong*.antt have lost their machines")
    print(f"rules: {count} texts that edits change, {len(machines)} refutations by a wrong machine")


def check_definitions():
    """What an entry of tests/wrong-definitions.txt changes stands once in its module, and a theorem by hand that refuses it is there."""
    count, title, old = 0, "", ""
    for row in (ROOT / "tests/wrong-definitions.txt").read_text().splitlines():
        if row.startswith("- "):
            old = row[2:].replace("\\n", "\n")
        elif row.startswith("= "):
            count += 1
            crate, _, module = ("model/" + title if "/" not in title.split(":")[0] else title).split(":")[0].partition("/")
            path = ROOT / f"crates/{crate}/specs/{module}.antt"
            if not path.is_file() or path.read_text().count(old) != 1:
                say(f"tests/wrong-definitions.txt: {title}: not once in its module: {old}")
            if found := re.fullmatch(r"= (Calls|Ranges):(\S+)", row):
                if not re.search(rf"^(?:pub )?{re.escape(found.group(2))} :", (ROOT / f"tests/{found.group(1)}.theorems").read_text(), re.M):
                    say(f"tests/wrong-definitions.txt: {title}: no theorem {row[2:]}")
        elif row and row[0] not in "+":
            title = row
    print(f"rules: {count} wrong definitions, each of a text that stands once")


def counts():
    """What the documents count, as it is today: the words before the number's row, and the number."""
    crates = [row for row in (ROOT / "crates.txt").read_text().splitlines() if ":" in row.split("#")[0]]
    edits = [path.read_text() for path in ROOT.glob("crates/*/must-fail/*.edit")]
    return {
        "crates": len(crates),
        "files of wrong edits": len(edits),
        "facts that an edit must break": sum(len(row.split()) for text in edits for row in re.findall(r"^refutes: (.*)$", text, re.M)),
        "texts that an edit changes": sum(len(re.findall(r"^old: ", text, re.M)) for text in edits),
        "refutations by a wrong machine": len(wrong_machines()),
        "wrong definitions": len(re.findall(r"^= ", (ROOT / "tests/wrong-definitions.txt").read_text(), re.M)),
        "recorded sequences": int((ROOT / "oracle/recorded/answers.txt").read_text()[:40].split()[1]),
        "sentences of 01": sum(1 for _, number, *_ in rows_of(RULES) if number),
    }


def check_counts(mend):
    """The table "Counted from the sources" of TESTING, and the sizes that README gives, within a tenth."""
    page = ROOT / "docs/TESTING.md"
    text = now = page.read_text()
    for name, today in counts().items():
        row = re.search(rf"^\| {re.escape(name)} \| ([0-9,]+) \|", text, re.M)
        if not row:
            say(f"docs/TESTING.md: no row for {name}")
        elif mend:
            now = now.replace(row.group(), f"| {name} | {today:,} |")
        elif row.group(1) != f"{today:,}":
            say(f"docs/TESTING.md: {today:,} {name}, not {row.group(1)}")
    if now != text:
        page.write_text(now)
    size = re.search(r"([0-9,]+) lines of code, ([0-9,]+) of definitions and statements, ([0-9,]+) of proofs", (ROOT / "README.md").read_text())
    if not size:
        say("README.md: no sizes")
    for told, folder in zip(size.groups() if size else (), ("src", "specs", "proofs")):
        today = sum(len(path.read_text().splitlines()) for path in ROOT.glob(f"crates/*/{folder}/**/*") if path.suffix in (".rt", ".antt"))
        if abs(today - int(told.replace(",", ""))) > today / 10:
            say(f"README.md: {today:,} lines of {folder}, not {told}")
    told = re.search(r"all (\d+) crates", (ROOT / "README.md").read_text())
    if not told or int(told.group(1)) != counts()["crates"]:
        say(f"README.md: not all {counts()['crates']} crates")
    if f"`{(ROOT / 'toolchain').read_text().strip()}`" not in (ROOT / "README.md").read_text():
        say("README.md does not name the toolchain of the file toolchain")
    print(f"rules: {len(counts())} counts of docs/TESTING.md, the sizes of README.md and its toolchain")


def check_linked():
    """For each linked function that changes a word, `left_by` of claims_linked/specs/Linked.antt has the definition that its contract cites. And each export
    of a crate NAME_c has the parameters and the clauses of the function of its name that it calls."""
    rows = re.findall(r"^left_by h \(bvm-(\S+) .*?\) = (.*)$", (ROOT / "crates/claims_linked/specs/Linked.antt").read_text(), re.M)
    contracts, whole = {}, {}
    for path in [*ROOT.glob("crates/linked_calls/src/*.rt"), *ROOT.glob("crates/linked_switch/src/*.rt"), *ROOT.glob("crates/linked_batch/src/*.rt")]:
        for name, text in re.findall(r"pub fn bvm_(\w+)(.*?)^\{", path.read_text(), re.M | re.S):
            contracts[name] = text[text.index("ensures"):]
            whole[name] = " ".join(text.split())
    exports = {}
    for path in sorted(ROOT.glob("crates/linked_*_c/src/lib.rt")):
        for name, text, body in re.findall(r"pub extern \"C\" fn bvm_(\w+)(.*?)^\{(.*?)^\}", path.read_text(), re.M | re.S):
            exports[name] = " ".join(text.split())
            called = re.fullmatch(r"\s*\w+::\w+::bvm_(\w+)\(([\w\s,]*)\)\s*", body)
            if not called or called[1] != name or re.findall(r"\w+", called[2]) != re.findall(r"(?:^|[(,])\s*(\w+): ", text.partition(")")[0]):
                say(f"{path.relative_to(ROOT)}: bvm_{name} is not the call of the library's function with its own arguments")
    for name in whole.keys() | exports.keys():
        if whole.get(name) != exports.get(name):
            say(f"bvm_{name}: the export has not the parameters and the clauses of the library's function")
    linked = {"switch": ("try_resume_unchecked", "try_yield_unchecked"), "run": ("run", "batch")}
    # by way of a record, whose equations are the definition's; what kept_in leaves is do_words written back over the host's words
    records = {"grant": ("linked_calls/specs/Host.antt", "Granted", "call_in"), "switch": ("linked_switch/specs/Switch.antt", "Switched", "kept_in")}
    if len(rows) < 6:
        say("crates/claims_linked/specs/Linked.antt: left_by has lost its rows")
    for name, right in rows:
        definition = re.search(r"(?:\w+_in|run_host|do_words)\b", right).group()
        if name in records:
            file, record, within = records[name]
            body = re.search(rf"^pub record {record} .*?(?=^\S|\Z)", (ROOT / "crates" / file).read_text(), re.M | re.S)
            if not body or within not in body.group() or definition not in (within, "do_words"):
                say(f"crates/{file}: {record} does not say {within}")
            definition = record
        for function in linked.get(name, (name.replace("-", "_"),)):
            if not re.search(rf"\b{definition}\b", contracts.get(function, "")):
                say(f"bvm_{function} has not the definition that Linked.antt gives it: {definition}")
    print(f"rules: {len(rows)} linked functions have the contract that Linked.antt says, {len(exports)} exports that of the function that they call")


mending = sys.argv[1:] == ["mend"]
check_cited()
check_edits()
check_definitions()
check_linked()
check_layout()
check_names()
check_paths()
check_fields()
check_counts(mending)
if not check_rules(mending):
    say("docs/rules/RULES.md has lost its rows")
for placed in PLACED:
    if not check_places(placed, mending):
        say(f"{placed} has lost its places or its sums")
sys.exit(1 if failed else 0)
