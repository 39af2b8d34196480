#!/usr/bin/env python3
"""Makes target/evidence.html from the sources, the documents and what the last `./test` left in target/. Every statement, count and time on
the page is read from there; what the run did not produce is absent, and the page says so. `wake` also writes the picture of README, docs/wake.svg; without it the picture is
only compared."""
import re
import shutil
import subprocess
import sys
import tempfile
from datetime import datetime, timezone
from html import escape
from pathlib import Path

sys.dont_write_bytecode = True
sys.path.insert(0, str(Path(__file__).resolve().parent))
import closure
import drawing
import edits

ROOT = closure.ROOT
TARGET = ROOT / "target"
HERE = Path(__file__).resolve().parent


# ---- the documents

def inline(text):
    """Markdown within a line."""
    text = escape(text, quote=False)
    text = re.sub(r"`([^`]+)`", r"<code>\1</code>", text)
    text = re.sub(r"\[([^\]]+)\]\([^)]+\)", r"\1", text)
    return re.sub(r"\*\*([^*]+)\*\*", r"<b>\1</b>", text)


def table_after(page, heading):
    """The cells of the first table after a heading of a document."""
    text = (ROOT / page).read_text()
    rows = []
    for row in text[text.index(heading):].splitlines()[1:]:
        if row.startswith("|"):
            rows.append([one.strip() for one in row.strip().strip("|").split("|")])
        elif rows:
            break
    return rows[:1] + rows[2:]


def breaking(text):
    """Names may be broken between their parts."""
    return re.sub(r"<code>[^<]*</code>", lambda code: re.sub(r"::|/|: ", lambda mark: mark.group() + "<wbr>", code.group()[6:-7]).join(("<code>", "</code>")), text)


def promises():
    """The numbered promises of README: number and text."""
    text = (ROOT / "README.md").read_text()
    text = text[text.index("## What is proved"):]
    text = text[:text.index("\n## ", 5)]
    for number, body in re.findall(r"^(\d)\. (.*?)(?=^\d\. |^\[|\Z)", text, re.M | re.S):
        yield number, " ".join(re.sub(r"\n\s+- ", " • ", body).split())


def bullets_after(page, heading):
    """The list after a heading of a document, up to the next heading."""
    text = (ROOT / page).read_text()
    text = text[text.index(heading) + len(heading):].partition("\n## ")[0]
    return [" ".join(one.split()) for one in re.findall(r"^- (.*(?:\n(?!-|\n).*)*)", text, re.M)]


def html_table(rows, numbers=(), kind=""):
    head = "".join(f"<th{' class=n' if at in numbers else ''}>{inline(one)}</th>" for at, one in enumerate(rows[0]))
    body = "".join("<tr>" + "".join(f"<td{' class=n' if at in numbers else ''}>{breaking(inline(one))}</td>" for at, one in enumerate(row)) + "</tr>\n" for row in rows[1:])
    return f"<div class=scroll><table{kind}><thead><tr>{head}</tr></thead><tbody>{body}</tbody></table></div>"


# ---- statements and definitions

def anchor(declaration):
    return "d-" + re.sub(r"[^A-Za-z0-9]+", "-", f"{declaration.file}-{declaration.name}".removeprefix("crates/"))


def line(row, body):
    """A line of code that keeps its indentation where it is wrapped."""
    return f'<span class=row style="--i:{len(row) - len(row.lstrip())}">{body}</span>'


def linked(declaration, known):
    """The text of a declaration, each name that is shown on the page a link to it."""
    file = closure.file_of(declaration.file)
    mark = "--" if file.path.suffix == ".antt" else "//"
    out = []
    for row in declaration.text.splitlines():
        if row.strip().startswith(mark):
            out.append(line(row, f"<i>{escape(row.strip())}</i>"))
            continue
        at, made = 0, []
        for start, word in closure.words_of(file, row):
            one, _ = closure.resolve(file, word)
            if one is None or one is declaration or one.key not in known:
                continue
            start = row.index(word, max(at, start))
            made.append(escape(row[at:start]) + f'<a href="#{anchor(one)}">{escape(word)}</a>')
            at = start + len(word)
        out.append(line(row, ("".join(made) + escape(row[at:])).strip()))
    return "".join(out)


def sums(declarations):
    rows = [["crate", "definitions", "lines"]]
    for crate, (count, lines) in sorted(closure.by_crate(declarations).items(), key=lambda one: -one[1][1]):
        rows.append([f"`{crate}`", f"{count:,}", f"{lines:,}"])
    return html_table(rows + [["all", f"{len(declarations):,}", f"{closure.lines(declarations):,}"]], (1, 2))


def statements():
    """The demands, then the linked functions: what each claims, its statement, and the name of its proof, from docs/ASSURANCE.md and docs/STATEMENTS.md; each statement once."""
    told = set()
    for claim, statement, proof in (table_after("docs/ASSURANCE.md", "## Which theorem says it")[1:]
                                    + table_after("docs/STATEMENTS.md", "## From the claim to linked code")[1:]):
        name, file = re.search(r"`([^`]+)`, `(crates/[^:`]+)", statement).groups()
        if (name, file) not in told:
            told.add((name, file))
            yield claim, closure.find(f"{file}:{name}"), proof


# ---- the run

def crates():
    """The crates in the order of crates.txt, each with what `rt ci` printed of it: proved, the prover's verdict, its functions, what is assumed. A crate of which an
    earlier run here proved the same files is kept: then there is no verdict of this run."""
    log = TARGET / "ci.log"
    text = log.read_text(errors="replace") if log.exists() else ""
    # what stands between a crate's heading and the line that it is proved
    told = {name: said for name, said in re.findall(r"^== (\w+)\n(.*?)^rt: \1 proved$", text, re.M | re.S)}
    found = []
    for row in (ROOT / "crates.txt").read_text().splitlines():
        if row.startswith("#") or ":" not in row:
            continue
        name = row.split(":")[0].split()[0]
        verdict = re.search(r"^logic=proved .*$", told.get(name, ""), re.M)
        kept = re.search(rf"^rt: {name} is kept: ", text, re.M)
        functions = re.search(r" functions=(\d+)", verdict.group()) if verdict else None
        found.append((name, verdict.group() if verdict else kept and "kept", functions and int(functions.group(1)), re.findall(r"^axioms .*$", told.get(name, ""), re.M)))
    return found


def wrong_edits():
    """Every must-fail edit: crate, name, what is wrong, for each fact that it must break what its log says there (`tests/edits facts` leaves it), and what `rt ci` printed of it."""
    said = edits.printed() or {}
    for one in edits.edits():
        rows = one.rows()
        yield one, [(fact, edits.refused_at(one.crate, fact, rows)) for fact in one.facts], rows is not None, said.get((one.crate, one.name))


def example(wrong):
    """One wrong answer that was refused at a fact: another sleeper's registers, at the entry; else the first of an edit's changes, with its first fact."""
    others = []
    for it, facts, _, _ in wrong:
        for file, old, new in it.changes():
            for place, (fact, hit) in enumerate(facts):
                if not (hit and hit[3]):
                    continue
                if it.crate == "coro_enter" and "enter_stack(" in old and fact.startswith("enter/move_in"):
                    return it.crate, it.name, (file, old, new), fact, hit
                if place == 0 and not others:
                    others.append((it.crate, it.name, (file, old, new), fact, hit))
    return others[0] if others else None


def shown_example(one):
    """The change of an example, and what the prover said."""
    if one is None:
        return ""
    crate, name, (file, old, new), fact, hit = one
    return (f"<h3>One of them, open</h3><p>A change of the edit <code>{escape(name)}</code> in <code>crates/{crate}/{escape(file)}</code>:</p>"
            f"<pre>- {escape(old)}{chr(10)}+ {escape(new)}</pre>"
            f"<p>The prover refuses it in the proof of <code>{escape(fact)}</code>, at <code>{escape(hit[1])}</code>{f', line {hit[0]}' if hit[0] else ''}:</p><pre>{escape(hit[2][:600])}</pre>")


def summary(rows):
    """The line of a test that counts: the last that has a number."""
    counted = [row.strip() for row in rows if re.search(r"\d", row)]
    return counted[-1][:220] if counted else (rows[-1].strip()[:220] if rows else "")


def machines():
    """The wrong machines: file, the field or the statement that refuses it, and the machine as it is defined."""
    for path in sorted((ROOT / "crates/claims_model/specs").glob("Wrong*.antt")):
        record, comment = "", []
        for row in re.sub(r"\n {6,}", " ", path.read_text()).splitlines():
            if found := re.match(r"pub record (\w+)", row):
                record, comment = found.group(1), []
            elif found := re.match(r"\s*-- (.*)", row):
                comment.append(found.group(1))
            elif found := re.match(r"  pub ([a-z0-9_-]+) : (?:\w*Refuted\w* .*\(λ [a-z ]+\. \w+(?:\.[\w-]+)+\) (.*)|(.*) → ⊥)$", row):
                name, engine, statement = found.groups()
                yield path.name, f"{record.removeprefix('Refuted')}.{name}", " ".join(comment), engine or statement
                comment = []
            else:
                comment = []


def wrong_definitions():
    """The wrong definitions of tests/wrong-definitions.txt, counted by file of definitions and by what refuses them."""
    kinds = ["a recorded call", "a state at an edge", "a theorem by hand", "a statement"]
    found = {}
    for module, theorem in re.findall(r"^([\w/]+): .*(?:\n[-+ ].*)*\n= (\S+)", (ROOT / "tests/wrong-definitions.txt").read_text(), re.M):
        kind = 0 if re.match(r"[taw]\d+-\d+$", theorem) else 1 if re.match(r"[a-z]\d+$", theorem) else 2 if re.match(r"(?:Ranges|Calls):", theorem) else 3
        found.setdefault(module if "/" in module else f"model/{module}", [0, 0, 0, 0])[kind] += 1
    rows = [[f"`{module}`", str(sum(counts)), *(str(one) if one else "" for one in counts)] for module, counts in sorted(found.items())]
    whole = [sum(counts[at] for counts in found.values()) for at in range(4)]
    return [["definitions", "wrong ones", *(f"refused by {kind}" for kind in kinds)], *rows, ["all", str(sum(whole)), *map(str, whole)]]


def said():
    """What `./test` printed: for each test of its own its lines; the commit; the last line."""
    log = TARGET / "test.log"
    if not log.exists():
        return None
    tests, current, commit = [], None, None
    rows = log.read_text(errors="replace").splitlines()
    for row in rows:
        if found := re.match(r"test: commit (\S+)(.*)", row):
            commit = found.groups()
        elif found := re.match(r"test: begins: (.*)", row):
            current = [found.group(1), [], None]
            tests.append(current)
        elif found := re.match(r"test: (passed|FAILED)(?:, (\d+) s)?: (.*)", row):
            if current:
                current[2] = (found.group(1), found.group(2))
            current = None
        elif current and row.strip(" .") and not re.match(r"running \d+ tests?$|test result: ok\. 0 passed", row):
            current[1].append(row)
    return commit, tests, rows[-1] if rows else ""


def of_c(archive):
    """The functions that an archive takes from elsewhere, by `nm`."""
    names = re.findall(r"^\s+U (\w+)$", "\n" + printed("nm", "-u", str(archive)), re.M) if archive.exists() else []
    return ", ".join(f"`{name}`" for name in sorted(set(names)))


def wake():
    """The words of a wake, from a program over the compiled library; or why there are none."""
    library = TARGET / "staticlib" / "libhumdelzi.a"
    if not library.exists():
        return None, "target/staticlib/libhumdelzi.a is not there"
    if not shutil.which("cc"):
        return None, "there is no C compiler (cc)"
    with tempfile.TemporaryDirectory() as folder:
        program = Path(folder, "wake")
        built = subprocess.run(["cc", "-std=c99", "-O1", "-I", ROOT / "host/include", HERE / "wake.c", library, "-o", program], capture_output=True, text=True)
        if built.returncode:
            return None, "page/wake.c was not built: " + built.stderr.strip()[:200]
        run = subprocess.run([program], capture_output=True, text=True)
        return (run.stdout, None) if run.returncode == 0 else (None, run.stderr.strip())


def printed(*words):
    """What a command prints, or nothing where it is not there or fails."""
    if not shutil.which(words[0]):
        return ""
    run = subprocess.run(words, cwd=ROOT, capture_output=True, text=True)
    return run.stdout.strip() if run.returncode == 0 else ""


def git(*words):
    return printed("git", *words)


# ---- the page

def tile(number, text, kind=""):
    return f"<div class=tile><b class='{kind}'>{number}</b><span>{text}</span></div>"


def absent(text):
    return f"<p class=faint>Not on this page: {escape(text)}.</p>"


def main():
    proved, wrong, run = crates(), list(wrong_edits()), said()
    demands = list(statements())
    every, _ = closure.closure(*[one for _, one, _ in demands])
    known = {one.key for one in every}
    commit, changed = git("rev-parse", "--short=12", "HEAD"), git("status", "--porcelain", "--untracked-files=no")
    parts, sections = [], []

    def section(key, title):
        sections.append((key, title))
        parts.append(f"<h2 id={key}>{title}</h2>")

    # what was run
    done = [one for one in proved if one[1]]
    refused = sum(1 for *_, said_of in wrong if said_of and said_of[0] == "refused, as it must be")
    exact = sum(1 for _, facts, there, _ in wrong if there and facts and all(found and found[3] for _, found in facts))
    logs = sum(1 for _, _, there, _ in wrong if there)
    tiles = [tile(f"{len(done)} of {len(proved)}", "crates proved", "good" if len(done) == len(proved) else "bad")]
    if kept := sum(1 for one in done if one[1] == "kept"):
        tiles.append(tile(f"{kept}", "of them kept from an earlier run of the same files"))
    if any(one[2] for one in done):
        tiles.append(tile(f"{sum(one[2] or 0 for one in done):,}", "functions proved in this run to meet their contracts"))
    if done:
        tiles.append(tile(f"{refused} of {len(wrong)}", "wrong edits refused" + (f", {exact} of the {logs} that were looked up wholly at facts" if logs else ""), "good" if refused == len(wrong) else "bad"))
    if run:
        tiles.append(tile(escape(run[2]), "the last line of <code>./test</code>", "good" if run[2].endswith(" 0 failed") else "bad"))
    head = f"<p class=faint>Made from the sources at commit <code>{commit}</code>{' with files changed since' if changed else ''}"
    if run and run[0] and run[0][0].startswith(commit) and not changed and not run[0][1]:
        head += ", which is the commit of the run"
    elif run and run[0]:
        head += f"; <span class=bad>the run is of commit <code>{escape(run[0][0][:12])}</code>{escape(run[0][1])}</span>"
    else:
        head += "; <span class=bad>what is in target/ is no whole run of <code>./test</code></span>"
    head += f". {datetime.now(timezone.utc):%d %B %Y, %H:%M} UTC.</p>"

    section("promise", "What is promised")
    there = {name for name, verdict, *_ in proved if verdict}
    rows = [["", "Promise", "In this run"]]
    where = {row[0]: re.findall(r"`(\w+)`", row[1]) for row in table_after("docs/STATEMENTS.md", "### Where each promise is proved")[1:]}
    for number, promise in promises():
        lacking = [name for name in where[number] if name not in there]
        shown = ", ".join(f"`{name}`" for name in lacking or where[number])
        rows.append([number, promise, f"not proved: {shown}" if lacking else f"proved: {shown}"])
    parts.append(html_table(rows))
    parts.append("<p>That the definitions are the original's is compared, and not proved.</p>")

    section("wake", "A script sleeps, and is woken at another height")
    words, why = wake()
    picture = ROOT / "docs/wake.svg"
    if words and sys.argv[1:] == ["wake"]:
        picture.write_text(drawing.alone(words))
    stale = bool(words) and (not picture.exists() or picture.read_text() != drawing.alone(words))
    if words:
        parts.append(f"<figure class=scroll>{drawing.picture(words)}<figcaption>The stack, from the bottom up, as a C program over the compiled library found it; "
                     "a box is a frame, its number the index of its first register. Blue is the script; its words go to its row and come back, all moved by one distance. "
                     "A word that differs from the moment before, or from its row when it is woken, has another colour.</figcaption></figure>")
    else:
        parts.append(absent("the picture, " + why))

    section("demands", "The demands, as they stand in the files")
    for number, (claim, one, proof) in enumerate(demands, 1):
        own, names = closure.closure(one)
        comment = " ".join(row.lstrip("- /") for row in one.comment.splitlines())
        parts.append(f"<h3 id=s{number}>{inline(claim)}</h3><p class=place>{one.place}; proof: {inline(proof)}</p>")
        if comment:
            parts.append(f"<p>{inline(comment)}</p>")
        parts.append(f"<pre>{linked(one, known)}</pre>")
        parts.append(f"<details><summary>It rests on {len(own) - 1:,} definitions, {closure.lines(own):,} lines with its own</summary><div>{sums(own)}<p>"
                     + ", ".join(f'<a href="#{anchor(d)}">{escape(d.name)}</a>' for d in own[1:])
                     + f"</p><p class=faint>And on the toolchain's libraries: {', '.join(f'<code>{escape(name)}</code>' for name in sorted(names))}.</p></div></details>")

    section("trusted", "What has to be trusted, and what is not claimed")
    for title, heading in (("The trusted base, beside the definitions below", "The rest of the trusted base:"), ("Not claimed", "## What is not claimed")):
        parts.append(f"<h3>{title}</h3><ul>" + "".join(f"<li>{breaking(inline(one))}</li>" for one in bullets_after("docs/ASSURANCE.md", heading)) + "</ul>")
    parts.append("<h3>What was proved, and what was tested</h3>" + html_table(table_after("docs/ASSURANCE.md", "## What is proved, and what is tested")))
    parts.append("<h3>What the prover's logs say is assumed</h3>")
    if done:
        rows = [["", "assumed"]] + [[f"`{name}`", "; ".join(axioms)] for name, _, _, axioms in proved if axioms]
        report = TARGET / "staticlib" / "linked_calls.report"
        library = report.read_text() if report.exists() else ""
        if verdict := re.search(r"^logic=proved .*$", library, re.M):
            rows.append(["the static library", "; ".join(re.findall(r"^axioms .*$", library, re.M)) or "nothing: `" + verdict.group() + "`"])
        none = [name for name, verdict, _, axioms in proved if verdict and verdict != "kept" and not axioms and "foreign=" not in verdict]
        parts.append("<p>A crate's log names the functions that are not Rattle's and that it declares (<code>foreign=</code>), a program's and a static library's those that it reaches "
                     f"(<code>axioms</code>): their contracts are taken as they stand. {len(none)} of the {sum(1 for one in done if one[1] != 'kept')} crates that were proved in this run have none.</p>")
        if taken := of_c(TARGET / "staticlib" / "libhumdelzi.a"):
            rows.append(["the static library, of C", taken])
        if len(rows) > 1:
            parts.append(html_table(rows))
        if kit := printed("rt", "version"):
            parts.append(f"<p>The toolchain here is <code>{escape(kit)}</code>; its logic's sum stands in each verdict.</p>")
        parts.append("<p class=faint>The line of the verdict, as the logs have it, without counts:</p><pre>" + "\n".join(sorted({escape(re.sub(r"functions=\d+ (axioms=\d+ )?", "", one[1])) for one in done if one[1] != "kept"})) + "</pre>")
    else:
        parts.append(absent("what is assumed, as target/ci.log is not there"))

    section("calls", "The calls")
    parts.append(html_table(table_after("docs/STATEMENTS.md", "# Each call"), kind=" class=calls"))

    section("wrong", "Wrong edits, and what refused them")
    parts.append(shown_example(example(wrong)))
    parts.append(f"<p>{len(wrong)} edits of code, definitions and statements; each names the facts that it must break. Beside each edit stands what <code>rt ci</code> printed of it: the first thing that does not hold any more. "
                 "Where <code>tests/edits facts</code> was run, each fact has beside it what refused it there. Where the code is another, a proof may only fail to fit: then it is said that it names a place that is gone, which shows less.</p>")
    by = {}
    for one in wrong:
        by.setdefault(one[0].crate, []).append(one)
    for crate, found in by.items():
        body = []
        for it, facts, there, told in found:
            cells = "".join(f"<tr><td><code>{escape(fact)}</code></td><td>" + (f"<code>{escape(hit[1])}</code>{f', line {hit[0]}' if hit[0] else ''}: {'' if hit[3] else 'the proof names a place that is gone: '}<span class=faint>{escape(hit[2][:180])}</span>" if hit else
                            "<span class=bad>not shown by the log</span>" if there else "<span class=faint>not looked up</span>") + "</td></tr>" for fact, hit in facts)
            shown = f"<p>{'' if told[0] == 'refused, as it must be' else '<span class=bad>'}{escape(' '.join(told))}{'' if told[0] == 'refused, as it must be' else '</span>'}</p>" if told else "<p class=faint>Not tried in this run.</p>"
            body.append(f"<h3>{escape(it.name)}</h3><p>{inline(it.told)}</p>{shown}<table class=facts><thead><tr><th>fact</th><th>what refused it</th></tr></thead><tbody>{cells}</tbody></table>")
        parts.append(f"<details><summary><code>{crate}</code>: {len(found)} edits</summary><div>{''.join(body)}</div></details>")

    section("machines", "Wrong machines, wrong definitions")
    rows = [["file", "refused by", "the machine"]] + [[f"`{file}`", f"`{name}`", f"{told} `{text}`".strip()] for file, name, told, text in machines()]
    parts.append(f"<p>{len(rows) - 1} machines that are wrong, nearly all in one thing, are proved not to have what is promised. What each does is defined in its file, under crates/claims_model/specs.</p>"
                 f"<details><summary>All {len(rows) - 1}</summary><div>{html_table(rows)}</div></details>")

    rows = wrong_definitions()
    parts.append(f"<p>{rows[-1][1]} wrong definitions (tests/wrong-definitions.txt) are each refused by a theorem.</p><details><summary>By file</summary><div>{html_table(rows, (1, 2, 3, 4, 5))}</div></details>")

    section("tests", "What the tests counted")
    parts.append("<p>Measured runs, larger than those of <code>./test</code>, from docs/TESTING.md:</p>" + html_table(table_after("docs/TESTING.md", "## What is compared")))
    parts.append("<p>Counted from the sources:</p>" + html_table(table_after("docs/TESTING.md", "## Would a wrong answer be noticed?"), (1,)))
    if run and run[1]:
        rows = [["test of this run", "verdict", "seconds", "its last count"]]
        rows += [[f"`{name}`", verdict[0] if verdict else "not ended", verdict[1] if verdict and verdict[1] else "", summary(lines)] for name, lines, verdict in run[1]]
        parts.append("<p>This run of <code>./test</code>:</p>" + html_table(rows, (2,)))
        for name, lines, verdict in run[1]:
            shown = lines if len(lines) <= 60 else lines[:20] + [f".. {len(lines) - 50} lines .."] + lines[-30:]
            parts.append(f"<details><summary><code>{escape(name)}</code>: all that it printed</summary><div><pre>{escape(chr(10).join(shown))}</pre></div></details>")
    else:
        parts.append(absent("what this run counted, as target/test.log is not there: ./test leaves it"))

    section("definitions", "The definitions")
    parts.append(f"<p>All {len(every):,} that the demands rest on, {closure.lines(every):,} lines, by file. Each name is a link.</p>")
    by = {}
    for one in sorted(every, key=lambda d: (str(d.file), d.line)):
        by.setdefault(one.file, []).append(one)
    for file, found in by.items():
        body = "".join(f"<div class=definition id={anchor(one)}><span class=place>{one.place}</span><pre>"
                       + "".join(line(row, f"<i>{escape(row)}</i>") for row in one.comment.splitlines()) + f"{linked(one, known)}</pre></div>" for one in found)
        parts.append(f"<details class=file><summary><code>{file}</code>, {len(found)} definitions, {closure.lines(found)} lines</summary><div>{body}</div></details>")

    bar = "".join(f'<a href="#{key}">{title}</a>' for key, title in sections)
    page = f"""<!DOCTYPE html>
<html lang=en><head><meta charset=utf-8><meta name=viewport content="width=device-width, initial-scale=1"><title>Humdelzi: evidence</title>
<style>{(HERE / 'style.css').read_text()}</style></head>
<body><header><h1>How it is known that a woken script gets its own registers</h1>{head}<div class=tiles>{''.join(tiles)}</div></header>
<nav><div>{bar}</div></nav><main>{chr(10).join(parts)}<p class=faint style="margin:3rem 0">Made by <code>./evidence</code>.</p></main>
<script>
function show() {{ const it = location.hash && document.getElementById(location.hash.slice(1)); for (let d = it && it.closest('details'); d; d = d.parentElement.closest('details')) d.open = true; if (it) it.scrollIntoView(); }}
addEventListener('hashchange', show); show();
</script></body></html>
"""
    TARGET.mkdir(exist_ok=True)
    (TARGET / "evidence.html").write_text(page)
    for it, facts, there, _ in wrong:
        less = [fact for fact, found in facts if not (found and found[3])]
        if there and less:
            print(f"evidence: {it.crate}/{it.name}: not shown at a fact: {' '.join(less)}")
    print(f"evidence: target/evidence.html, {len(page) // 1024} kB: {len(done)} of {len(proved)} crates proved, {refused} of {len(wrong)} wrong edits refused, {exact} of {logs} that were looked up at facts,"
          f" {len(every)} definitions, {'a run' if run else 'no run'} of ./test")
    if stale:
        print("evidence: docs/wake.svg is not what the library does; `./evidence wake` writes it")
    return 1 if stale else 0


sys.exit(main())
