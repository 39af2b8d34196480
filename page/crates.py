#!/usr/bin/env python3
"""crates.txt lists what each crate uses, and nothing else. A crate uses another if a file of its own, or a wrong edit of it, names the other (`Rattle.NAME` in definitions and proofs,
`NAME::..` in code), or if code of its own reaches a value of a type that the other declares: a parameter or result of a function that it names, or a field of such a value. What the others
rest on in turn the toolchain finds by itself.
crates         compares, both ways
crates mend    writes the lines anew"""
import re
import sys
from pathlib import Path

ROOT = Path(__file__).resolve().parent.parent
LIST = ROOT / "crates.txt"
KIT = {"bytes", "check"}


def listed():
    """The crates in order, each with what its line lists; what stands behind a # is a comment."""
    rows = (row.split("#")[0] for row in LIST.read_text().splitlines())
    return {row.split(":")[0].split()[0]: row.split(":")[1].split() for row in rows if ":" in row}


def plain(text):
    """Code without its comments and without what is only proved."""
    text = re.sub(r"//.*", "", text)
    return re.sub(r"(?s)\bghost use [^;]*;", "", text)


def brought(text):
    """What the `use` lines of code bring: paths, groups in braces taken apart."""
    for head, names, one in re.findall(r"(?ms)^(?:pub )?use (?:([A-Za-z0-9_:]+)::\{([^{}]*)\}|([A-Za-z0-9_:]+));", text):
        for name in names.split(",") if head else [one]:
            if name.strip():
                yield f"{head}::{name.split(' as ')[0].strip()}" if head else name


def whole(crate, path):
    """A path of code as crate and item: `a::b::item`, `crate::b::item`, `a::b::Type::Case`."""
    first, *rest = path.split("::")
    for at, one in enumerate(rest):
        if one[0].isupper():
            rest = rest[: at + 1]
            break
    return (crate if first == "crate" else first, *rest)


class Code:
    """The items of all code: for each the types that its declaration names."""

    def __init__(self, crates):
        self.types = {}
        for crate in crates:
            for file in (ROOT / "crates" / crate / "src").rglob("*.rt"):
                self.read(crate, file)

    def read(self, crate, file):
        text = plain(file.read_text())
        module = tuple(one for one in file.relative_to(ROOT / "crates" / crate / "src").with_suffix("").parts if one not in ("lib", "main"))
        known = {path.split("::")[-1]: whole(crate, path) for path in brought(text)}
        for name in re.findall(r"(?m)^(?:pub(?:\(crate\))? )?(?:struct|enum) ([A-Za-z0-9_]+)", text):
            known[name] = (crate, *module, name)
        ends = r"(?s)(?:struct|enum) ([A-Za-z0-9_]+)(.*?)(?:^}|;$)|fn ([a-z0-9_]+)(.*?)(?:requires|ensures|^\{|\{$)"
        for found in re.finditer(ends, text, re.M):
            name, body = found[1] or found[3], found[2] or found[4]
            named = {known[one] for one in re.findall(r"(?<![:A-Za-z0-9_])[A-Z][A-Za-z0-9_]*", body) if one in known}
            named |= {whole(crate, one) for one in re.findall(r"[a-z_]+(?:::[a-z_]+)+::[A-Z][A-Za-z0-9_]*", body)}
            self.types.setdefault((crate, *module, name), set()).update(named)

    def reached(self, items):
        """The crates that declare a type which one of the items names, or a field of it, and so on."""
        seen, todo, crates = set(), list(items), set()
        while todo:
            item = todo.pop()
            if item in seen:
                continue
            seen.add(item)
            for one in self.types.get(item, ()):
                crates.add(one[0])
                todo.append(one)
        return crates


def used(crate, crates, code):
    names, items = set(), set()
    for file in (ROOT / "crates" / crate).rglob("*"):
        if file.suffix not in (".rt", ".antt", ".edit") or "out" in file.relative_to(ROOT / "crates" / crate).parts:
            continue
        text = file.read_text()
        names |= set(re.findall(r"Rattle\.([a-z0-9_]+)\.", re.sub(r"(?m)^\s*(?://|--).*", "", text)))
        if file.suffix == ".rt":
            items |= {whole(crate, one) for one in [*brought(plain(text)), *re.findall(r"(?<![A-Za-z0-9_:])[a-z_]+(?:::[A-Za-z0-9_]+)+", plain(text))]}
        elif file.suffix == ".edit":
            new = "\n".join(row[4:] for row in text.splitlines() if row.startswith("new:"))
            items |= {whole(crate, one) for one in re.findall(r"(?<![A-Za-z0-9_:])[a-z_]+(?:::[A-Za-z0-9_]+)+", new)}
    names |= {item[0] for item in items} | code.reached(items)
    return (names & (set(crates) | KIT)) - {crate}


def main():
    crates = listed()
    code = Code(crates)
    failed = 0
    lines = {}
    for crate, found in crates.items():
        wanted = used(crate, crates, code)
        kept = [one for one in dict.fromkeys(found) if one in wanted]
        lines[crate] = " ".join([crate + ":", *kept, *(one for one in [*crates, *sorted(KIT)] if one in wanted - set(kept))])
        unused, missing = [one for one in found if one not in wanted or found.count(one) > 1], sorted(wanted - set(found))
        if unused:
            print(f"crates: {crate} does not use, or lists twice: {' '.join(unused)}")
        if missing:
            print(f"crates: {crate} uses, and does not list: {' '.join(missing)}")
        failed += len(unused) + len(missing)
    if sys.argv[1:] == ["mend"]:
        rows = LIST.read_text().splitlines()
        heads = {row.split(":")[0].split()[0]: row.split(":")[0] for row in rows if ":" in row.split("#")[0]}
        LIST.write_text("".join(heads.get(name, name) + lines[name].removeprefix(name) + "\n" if (name := (row.split(":")[0].split() or [""])[0]) in lines and not row.startswith("#") else row + "\n" for row in rows))
        failed = 0
    print(f"crates: {len(crates)} crates, {sum(map(len, crates.values()))} uses, {failed} not as listed")
    return 1 if failed else 0


sys.exit(main())
