"""The fields of what is promised, and what refutes each: see tests/fields."""
import pathlib
import re
import sys

ROOT = pathlib.Path(__file__).resolve().parent.parent
failed = 0


def say(text):
    global failed
    failed += 1
    print(f"fields: {text}")


def declared(folder):
    """The records of a folder: name -> {field: type}; and the text of every other declaration with a capital letter: name -> text."""
    records, others = {}, {}
    for path in sorted((ROOT / folder).glob("*.antt")):
        name, field, inside = None, None, None
        for row in path.read_text().splitlines():
            if row.strip().startswith("--"):
                continue
            if found := re.match(r"pub record (\S+) ", row):
                name, field, inside = found.group(1), None, None
                if name in records:
                    say(f"{path.relative_to(ROOT)}: a second record {name}")
                records[name] = {}
            elif name and (found := re.match(r"  pub (\S+) : (.*)", row)):
                field = found.group(1)
                records[name][field] = found.group(2)
            elif name and field and row.startswith("      "):
                records[name][field] += " " + row.strip()
            elif name and re.match(r"  \S", row):
                say(f"{path.relative_to(ROOT)}: not a field of {name} as this test reads them: {row.strip()}")
            elif row and not row.startswith(" "):
                name = None
                found = re.match(r"(?:abbrev pub|pub data|unfoldable pub|pub) ([A-Z]\S*)", row)
                inside = found.group(1) if found else inside if re.match(rf"{inside} ", row) else None
                if inside:
                    others[inside] = others.get(inside, "") + " " + row
            elif inside:
                others[inside] += " " + row.strip()
    return records, others


def names(text):
    return set(re.findall(r"(?<![\w.·-])[A-Z][\w-]*", text))


def used(crate, roots):
    """The files of a crate's specs that have the roots, and those that they use."""
    folder = ROOT / f"crates/{crate}/specs"
    files, ahead = set(), [path for path in folder.glob("*.antt") if re.search(rf"^pub record (?:{'|'.join(roots)}) ", path.read_text(), re.M)]
    while ahead:
        path = ahead.pop()
        if path not in files:
            files.add(path)
            ahead += [folder / f"{name}.antt" for name in re.findall(rf"^use Rattle\.{crate}\.specs\.(\w+)", path.read_text(), re.M) if (folder / f"{name}.antt").is_file()]
    return sorted(files)


def defined(files):
    """Every definition of the files that is no record: name -> its text. A definition and its clauses stand in one block, without an empty line."""
    found = {}
    for path in files:
        inside, record = None, False
        for row in path.read_text().splitlines():
            if row.strip().startswith("--"):
                continue
            record = bool(re.match(r"pub record ", row)) or (record and (not row or row.startswith(" ")))
            if record or not row or re.match(r"use |module |pub mod ", row):
                inside = None
            elif start := re.match(r" *(?:(?:abbrev|unfoldable) (?:pub )?|pub (?:data )?)([^\s:]+) ", row):
                inside = start.group(1)
                found[inside] = found.get(inside, "") + " " + row.strip()
            elif inside:
                found[inside] += " " + row.strip()
    return found


def promised(records, others, roots=("Promise",), every=False):
    """What the roots reach: by names with a capital letter, or by every name."""
    reached, ahead = set(), list(roots)
    while ahead:
        one = ahead.pop()
        if one not in reached and one != "Engine" and (one in records or one in others):
            reached.add(one)
            text = " ".join(records[one].values()) if one in records else others[one]
            ahead += re.findall(r"(?<![\w.·'-])[A-Za-z][\w'-]*", text) if every else names(text)
    return reached


def is_data(text):
    """A field that holds a thing, and says nothing: a state, a call, a number, a frame, a list of such."""
    return re.fullmatch(r"(?:e\.(?:State|Call)|ℕ|Bool|Frame|Driver|Sent|Seen|(?:List|Option) (?:\w+|\([^→≡]*\)))", text)


# Records that are premises of claims: a premise that says less makes no claim say less. Where such a record is a conclusion too (`Enters`, `Suspends`,
# `Returns`, `Fails` of `Events`), a field less makes of the premise one under which `step` has not what is claimed.
PREMISES = {"Enters", "Suspends", "Stops", "Restarts", "Returns", "Fails", "Roomy", "IntFits"}

def arguments(text):
    """The words of an application, brackets as one word."""
    words, depth, word = [], 0, ""
    for letter in text:
        if letter == " " and not depth:
            words += [word] if word else []
            word = ""
            continue
        depth += (letter in "([{") - (letter in ")]}")
        word += letter
    return words + [word]


# How a refutation is stated (specs/Refuted.antt). In each the field stands alone, but for its ground: the things of its record that it speaks of.
FORMS = {"Refuted": 4, "RefutedAt": 4, "RefutedAtFrame": 3, "RefutedOn": 6, "RefutedIn": 6}


def of_engines():
    specs = "crates/claims_model/specs"
    records, others = declared(specs)
    reached = promised(records, others)
    # a record or a type has a statement if it says an equation or an order, or names a record or a type that has one
    claims, more = set(), True
    while more:
        more = False
        for one in reached - claims:
            text = " ".join(records[one].values()) if one in records else others[one]
            if re.search(r"≡|⊥|⊎|≤|<", text) or names(text) & claims:
                claims.add(one)
                more = True
    refuted = {name[len("Refuted"):]: fields for name, fields in records.items() if name.startswith("Refuted") and len(name) > len("Refuted")}
    texts = {path.stem: path.read_text() for path in (ROOT / specs).glob("*.antt")}
    proofs = "".join(path.read_text() for path in (ROOT / "crates/claims_model/proofs").glob("Wrong*.antt"))
    count, seconds, engines, forms = 0, 0, set(), dict.fromkeys(FORMS, 0)
    for one in sorted(reached & records.keys() & claims - PREMISES):
        statements = [field for field, text in records[one].items() if not is_data(text)]
        table = refuted.get(one, {})
        if not re.search(rf"^pub refuted-\S+ : (?:W\.)?Refuted{one}$", proofs, re.M):
            say(f"Refuted{one} is not proved in crates/claims_model/proofs/Wrong*.antt")
        # a second engine of a field, for another part of what it says: `under-frames` of `under`
        halves = {name: max((field for field in statements if name.startswith(field + "-")), key=len, default="") for name in table.keys() - set(statements)}
        for name, field in [(field, field) for field in statements] + sorted(halves.items()):
            if not field:
                say(f"Refuted{one}.{name}: {one} has no such statement")
                continue
            words = arguments(table.get(name, ""))
            found = re.fullmatch(r"\(λ [^.]*\. .*?\.([\w-]+)\)", words[-2]) if len(words) == FORMS.get(words[0]) else None
            if not found:
                say(f"{one}.{field} refutes no engine: Refuted{one} of {specs}/Wrong*.antt has no such field, or {name} is not of a form of Refuted.antt")
                continue
            how, of, engine = words[0], words[1], words[-1]
            if name == field:
                count += 1
                forms[how] += 1
            else:
                seconds += 1
            engines.add(engine)
            if found.group(1) != field:
                say(f"Refuted{one}.{name} is of the field {found.group(1)}")
            if how in ("Refuted", "RefutedIn") and of != one:
                say(f"Refuted{one}.{name} is of the record {of}")
            if how in ("RefutedAt", "RefutedOn") and one not in names(re.search(rf"^{of} e a = (.*)$", texts["Refuted"], re.M).group(1)):
                say(f"Refuted{one}.{name} is of another record: {of} of {specs}/Refuted.antt")
    for one in refuted.keys() - (reached & claims):
        say(f"Refuted{one}: no record {one} is promised")
    each = ", each refutes one" if not failed else ""
    ground = forms["RefutedOn"] + forms["RefutedIn"] + forms["RefutedAtFrame"]
    print(f"fields: {count} statements of {len(reached & records.keys() & claims - PREMISES)} records of an engine{each} of {len(engines)} engines, {count - ground} alone and {ground} on their ground, with {seconds} refutations more of another part of a field; {len(PREMISES)} records of premises")
    return count > 100


# Records that are of no engine: of the fault sheet, of lent words, of linked calls.
RECORDS = {
    "claims_sheet": [
        "FaultSheet", "Sentences", "Answers", "Queue", "SetUps", "Fresh", "Mistakes", "Paid", "Runs", "Keeps",
        "Send", "Throw", "Close", "Next", "Yields", "Yielding", "Comes", "Ending", "Handlers", "Closing", "Deletion", "Later", "Escaped", "Missed",
    ],
    "claims_memory": ["Claim", "AnyFuel", "Stacked", "RestoredStack", "UntouchedStack"],
    "claims_linked": ["Library", "Passes", "HasRoom", "Begins", "NoRoom", "Untested", "Beyond", "Linked", "Between", "BatchCalls", "Batch"],
}


def of_records():
    """Each field of RECORDS has a row of tests/fields.txt, which quotes it and names what refuses a wrong one."""
    rows, found = {}, {}
    for row in (ROOT / "tests/fields.txt").read_text().splitlines():
        if row and not row.startswith("#"):
            place, by, words = row.split(" | ", 2)
            rows[place] = (by, words)
    for crate, wanted in RECORDS.items():
        records, _ = declared(f"crates/{crate}/specs")
        for one in wanted:
            if one not in records:
                say(f"crates/{crate}/specs: no record {one}")
            for field, text in records.get(one, {}).items():
                found[f"{crate} {one}.{field}"] = text
    for place, text in found.items():
        if place not in rows:
            say(f"tests/fields.txt: no row for {place}")
            continue
        by, words = rows[place]
        crate, field = place.split(" ")[0], place.split(".")[1]
        if text != words:
            say(f"{place} does not say any more: {words}")
        for name in by.split(", ") if by != "-" else []:
            if theorem := re.fullmatch(r"(\w+)/(\w+):([\w-]+)", name):
                path = ROOT / f"crates/{theorem.group(1)}/proofs/{theorem.group(2)}.antt"
                if not path.is_file() or not re.search(rf"\.{re.escape(field)}(?![\w-])", path.read_text()) or not re.search(rf"(?<![\w-]){re.escape(theorem.group(3))}(?![\w-])", path.read_text()):
                    say(f"{place}: {name} does not rest on it")
            elif not (ROOT / f"crates/{crate}/must-fail/{name}.edit").is_file():
                say(f"{place}: no {name} of crates/{crate}/must-fail")
    for place in rows.keys() - found.keys():
        say(f"tests/fields.txt: no field {place}")
    without = sum(by == "-" for by, _ in rows.values())
    print(f"fields: {len(found)} fields of {sum(map(len, RECORDS.values()))} records that are of no engine: {len(rows) - without} with a wrong answer or a theorem that rests on them, {without} quoted alone")
    return len(found) > 100


# What is quoted word for word, and from where on: crate -> the records that are stated. Records of RECORDS are quoted field by field in tests/fields.txt.
ROOTS = {"claims_model": ["Promise"], "claims_memory": ["Claim", "AnyFuel"], "claims_linked": ["Library", "Linked", "Batch"]}


def quoted():
    """What is promised, word for word: a row of tests/promise.txt for each field of a record that the roots reach, and for each definition, small ones
    too. A statement, or a definition that it cites, can say less and refute its engine still; then it is not what stands there. `tests/fields mend`
    writes the rows anew."""
    rows = []
    for crate, roots in ROOTS.items():
        records, _ = declared(f"crates/{crate}/specs")
        others = defined(used(crate, roots))
        for one in sorted(promised(records, others, roots, every=True)):
            if one not in records:
                rows.append(f"{crate} {one} | {others[one].strip()}")
            elif one not in RECORDS.get(crate, []):
                rows += [f"{crate} {one}.{field} | {text}" for field, text in records[one].items()]
    path = ROOT / "tests/promise.txt"
    if sys.argv[1:] == ["mend"]:
        path.write_text("# What the records of crates/claims_model, claims_memory and claims_linked say, word for word: see tests/fields.\n" + "\n".join(rows) + "\n")
    written = [row for row in path.read_text().splitlines() if not row.startswith("#")]
    for row in [row for row in written if row not in rows]:
        say(f"the promise does not say any more: {row}")
    for row in [row for row in rows if row not in written]:
        say(f"tests/promise.txt does not have: {row}")
    print(f"fields: {len(rows)} rows of tests/promise.txt, word for word")
    return len(rows) > 300


if not of_engines() or not of_records() or not quoted():
    say("records have lost their fields")
sys.exit(1 if failed else 0)
