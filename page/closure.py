#!/usr/bin/env python3
"""What a reader has to believe for a statement: the definitions that it rests on, each with its file and line.

    page/closure.py CRATE/specs/FILE.antt:NAME ..     or  CRATE/src/FILE.rt:FUNCTION, of which the contract is read
    page/closure.py -q ..                             the sums only

From the statement's own text on, each name is followed to where it is declared: a definition, a record or a data type of some crate's
specs/, a struct or an enum of its src/. Names of the toolchain's libraries are not followed; they are listed. A name counts although a
variable may hide it, so the sum is rather too large than too small. Lines are those of the declarations, without comments and imports."""
import re
import sys
from pathlib import Path

ROOT = Path(__file__).resolve().parent.parent
MARKS = r"(?:(?:unfoldable|abbrev|axiom|pub)\s+)*"
WORD = re.compile(r"[^\s(){}\[\];,λ→]+")


class Declaration:
    """A declaration: its file (from the root), its line, its name, its text, and the comment right above it."""

    def __init__(self, file, line, name, kind, text, comment):
        self.file, self.line, self.name, self.kind, self.text, self.comment = file, line, name, kind, text, comment

    @property
    def key(self):
        return (str(self.file), self.name)

    @property
    def place(self):
        return f"{self.file}:{self.line}"

    def code(self):
        return [row for row in self.text.splitlines() if row.strip() and not row.strip().startswith(("--", "//"))]


class File:
    """A file of specs/ or src/: what it declares, and where each name that it uses comes from."""

    def __init__(self, path):
        self.path, self.declared, self.inner, self.uses, self.aliases, self.passed, self.ghost = path, {}, {}, {}, {}, {}, {}
        text = (ROOT / path).read_text()
        (self.read_antt if path.suffix == ".antt" else self.read_rt)(text.splitlines())

    def add(self, line, name, kind, rows, comment):
        made = self.declared[name] = Declaration(self.path, line, name, kind, "\n".join(rows), "\n".join(comment))
        if kind == "data":
            for row in rows[1:]:
                if found := re.match(r"\s+(\S+) :", row):
                    self.inner[found.group(1)] = made

    def read_use(self, row):
        found = re.match(r"(pub )?use (\S+?)(?:\.\{(.*)\}| as (\S+))?$", row)
        if not found:
            return False
        public, module, names, alias = found.groups()
        if alias:
            self.aliases[alias] = module
        for one in filter(None, (names or "").split(",")):
            name, _, other = one.strip().partition(" as ")
            (self.passed if public else self.uses)[(other or name).strip("◌")] = (module, name)
        return True

    def read_antt(self, rows):
        """A declaration begins at the margin, of the file or of a section (`module _ .. where`), and goes on to the next; its comment stands right above it."""
        comment, section, margin, open_ = [], [], "", None
        for number, row in enumerate(rows + ["end : "], 1):
            if row.strip() and not row.startswith(margin):
                section, margin = [], ""
            row = row[len(margin):]
            if re.match(r"module _ .* where$", row):
                section, margin, comment = [row], "  ", []
            elif not row.strip() or row.startswith("-- ----"):
                comment = []
            elif row.startswith("--"):
                comment.append(row)
            elif self.read_use(row):
                comment = []
            elif found := re.match(MARKS + r"(?:(record|data) (\S+)|([^\s:]+) : )", row):
                if open_:
                    self.add(*open_)
                kind, name, other = found.groups()
                open_ = (number, name or other, kind or "definition", section + [row], comment)
                comment = []
            elif open_:
                open_[3].append(row)

    def read_rt(self, rows):
        for module, names in re.findall(r"^(?:pub )?use ([A-Za-z0-9_:]+)::\{([^{}]*)\};", "\n".join(rows), re.M):
            for one in filter(None, map(str.strip, names.split(","))):
                self.uses[one] = (f"{module}::{one}", one)
        at = 0
        comment = []
        while at < len(rows):
            row = rows[at]
            if found := re.match(r"(?:ghost )?use (\S+?)(?:\.\{(.*)\})?;$", row):
                module, names = found.groups()
                if names is not None:
                    # a clause means what its ghost imports name, though a function may have the same name
                    for one in names.split(","):
                        (self.ghost if row.startswith("ghost ") else self.uses)[one.strip()] = (module, one.strip())
                elif "::" in module:
                    self.uses[module.split("::")[-1]] = (module, module.split("::")[-1])
            if row.startswith("//"):
                comment.append(row)
                at += 1
                continue
            found = re.match(r"pub (?:struct|enum) (\w+)", row)
            function = re.match(r'(?:#\[.*\] )?pub (?:extern "C" )?fn (\w+)', row)
            if found or function:
                end = at
                if found:
                    while not (rows[end].startswith("}") or rows[end].rstrip().endswith((";", "}"))):
                        end += 1
                    self.add(at + 1, found.group(1), "type", rows[at:end + 1], comment)
                else:
                    while rows[end] != "{":
                        end += 1
                    self.add(at + 1, function.group(1), "contract", rows[at:end], comment)
                at = end
            comment = []
            at += 1


FILES = {}


def file_of(path):
    if path not in FILES:
        FILES[path] = File(path) if (ROOT / path).exists() else None
    return FILES[path]


def crate_of(path):
    return path.parts[1]


def from_module(module, name, here):
    """The declaration that a `use` line names, or None for one of the toolchain's."""
    if found := re.match(r"Rattle\.(\w+)\.(specs|proofs)\.(.+)$", module):
        crate, folder, rest = found.groups()
        if rest.startswith("declared."):
            parts = rest.split(".")
            file = file_of(Path("crates", crate, "src", parts[1] + ".rt"))
            return file and file.declared.get(parts[2])
        file = file_of(Path("crates", crate, folder, rest.replace(".", "/") + ".antt"))
        if file and name in file.declared:
            return file.declared[name]
        if file and name in file.inner:
            return file.inner[name]
        if file and name in file.passed:
            return from_module(*file.passed[name], file)
        return None
    if "::" in module:
        parts = module.split("::")
        crate = crate_of(here.path) if parts[0] == "crate" else parts[0]
        file = file_of(Path("crates", crate, "src", "/".join(parts[1:-1]) + ".rt"))
        return file and file.declared.get(name)
    return None


def resolve(file, word):
    """What a word of a file names: a declaration, or (None, the name) of the toolchain's libraries, or nothing."""
    head, _, tail = word.partition(".")
    if head in file.aliases and tail:
        return from_module(file.aliases[head], tail.split(".")[0], file), None
    if head in file.ghost:
        one = from_module(*file.ghost[head], file)
        return one, None if one else ".".join(file.ghost[head])
    if head in file.declared:
        return file.declared[head], None
    if head in file.inner:
        return file.inner[head], None
    use = file.uses.get(head) or file.passed.get(head)
    if use:
        one = from_module(*use, file)
        return one, None if one else use[0] + "." + use[1]
    return None, None


def words_of(file, row):
    """The words of a row of code, each with where it begins."""
    for token in WORD.finditer(re.sub(r"--.*$|//.*$", "", row)):
        if file.path.suffix == ".rt":
            for part in re.finditer(r"[^:<>&|'\"`«»]+", token.group()):
                yield token.start() + part.start(), part.group().strip(".")
        elif not token.group().startswith("."):
            yield token.start(), token.group()


def rests_on(declaration):
    """The declarations that this one names, and the names that it takes from the toolchain's libraries."""
    file = file_of(declaration.file)
    found, outside = {}, set()
    for row in declaration.code():
        for _, word in words_of(file, row):
            one, name = resolve(file, word)
            if name:
                outside.add(name)
            elif one is not None and one is not declaration:
                found[one.key] = one
    return found, outside


def closure(*roots):
    """Every declaration that the roots rest on, themselves first, in the order in which they are met; and the toolchain's names."""
    todo, seen, outside = list(roots), {}, set()
    while todo:
        one = todo.pop(0)
        if one.key in seen:
            continue
        seen[one.key] = one
        more, names = rests_on(one)
        outside |= names
        todo += more.values()
    return list(seen.values()), outside


def find(place):
    """CRATE/specs/FILE.antt:NAME as a declaration."""
    path, _, name = place.removeprefix("crates/").rpartition(":")
    if not (ROOT / "crates" / path).is_file():
        raise SystemExit(f"closure: no file for {place}\n\n{__doc__}")
    file = file_of(Path("crates", path))
    if file is None or name not in file.declared:
        raise SystemExit(f"closure: no {name} in crates/{path}")
    return file.declared[name]


def lines(declarations):
    return sum(len(one.code()) for one in declarations)


def by_crate(declarations):
    sums = {}
    for one in declarations:
        crate = crate_of(one.file)
        count, rows = sums.get(crate, (0, 0))
        sums[crate] = (count + 1, rows + len(one.code()))
    return sums


def main(words):
    quiet = words[:1] == ["-q"]
    places = words[1:] if quiet else words
    if not places:
        raise SystemExit(__doc__)
    found, outside = closure(*[find(place) for place in places])
    if not quiet:
        for one in sorted(found, key=lambda d: (str(d.file), d.line)):
            print(f"{len(one.code()):6} {one.place} {one.name}")
        print("of the toolchain's libraries: " + ", ".join(sorted(outside)))
    for crate, (count, rows) in by_crate(found).items():
        print(f"{rows:6} lines in {count} declarations of {crate}")
    print(f"{lines(found):6} lines in {len(found)} declarations in all")


if __name__ == "__main__":
    main(sys.argv[1:])
