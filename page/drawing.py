"""The picture of a wake, as SVG, from the words that page/wake.c prints: the stack at each moment, a box for each frame."""
from html import escape

CELL, WIDE, GAP = 24, 118, 82
REFERENCE, INTEGER = 1 << 48, 0xFFFE << 48


def moments(text):
    """The names of the functions, and for each moment its text and its words by slice."""
    names, found = [], []
    for row in text.splitlines():
        key, _, rest = row.partition(" ")
        if key == "function":
            names.append(rest)
        elif key == "moment":
            found.append((rest, {}))
        else:
            found[-1][1][key] = [int(one) for one in rest.split()]
    return names, found


def shown(word):
    """A word as a person reads it: a reference by its slot, an inline integer by its value."""
    if REFERENCE <= word < 2 * REFERENCE:
        return f"→ slot {word % (1 << 32)}"
    if word >= INTEGER and word < INTEGER + REFERENCE:
        bits = word % REFERENCE
        return str(bits if bits < 1 << 47 else bits - REFERENCE)
    return str(word)


def frames_of(words):
    rows = words["frames"]
    return [dict(zip(("function", "pc", "base", "closure", "cont", "register"), rows[at:at + 6])) for at in range(0, len(rows), 6)]


def earlier(last, at, base):
    """The word that stood here at the moment before: for a script that is woken, the word of its row."""
    if last is None:
        return None
    if base is not None and not last["chain"] and any(last["saved"]):
        return last["saved"][at - base]
    return last["stack"][at] if at < len(last["stack"]) else None


def picture(text):
    names, found = moments(text)
    most = max(len(words["stack"]) for _, words in found)
    floor = 64 + most * CELL
    across = 40 + len(found) * (WIDE + GAP)
    out = [f'<svg viewBox="0 0 {across} {floor + 92}" role="img" aria-label="The stack at {len(found)} moments" class="wake">']
    last = None
    for column, (title, words) in enumerate(found):
        x = 34 + column * (WIDE + GAP)
        out.append(f'<text x="{x + WIDE / 2}" y="20" class="moment">{escape(title)}</text>')
        frames, stack = frames_of(words), words["stack"]
        running = {words["chain"][at + 1] for at in range(0, len(words["chain"]), 6)}
        inside = False
        for number, frame in enumerate(frames):
            inside = inside or number in running
            end = frames[number + 1]["base"] if number + 1 < len(frames) else len(stack)
            top, height = floor - end * CELL, (end - frame["base"]) * CELL
            kind = "coroutine" if inside else "frame"
            for at in range(frame["base"], end):
                y = floor - (at + 1) * CELL
                before = earlier(last, at, frame["base"] if inside else None)
                changed = " changed" if before is not None and before != stack[at] else ""
                out.append(f'<rect x="{x}" y="{y}" width="{WIDE}" height="{CELL}" class="{kind}{changed}"/>')
                out.append(f'<text x="{x + WIDE / 2}" y="{y + 16}" class="word">{shown(stack[at])}</text>')
                if at == frame["base"]:
                    out.append(f'<text x="{x - 6}" y="{y + 16}" class="index">{at}</text>')
            out.append(f'<rect x="{x}" y="{top}" width="{WIDE}" height="{height}" class="edge {kind}-edge"/>')
            out.append(f'<text x="{x + 4}" y="{top - 5}" class="name">{escape(names[frame["function"]])}, pc {frame["pc"]}</text>' if number + 1 == len(frames) else "")
            if number + 1 < len(frames):
                out.append(f'<text x="{x + WIDE + 5}" y="{top + 14}" class="side">{escape(names[frame["function"]])}</text>')
                out.append(f'<text x="{x + WIDE + 5}" y="{top + 26}" class="side">pc {frame["pc"]}</text>')
        if any(words["saved"]) and not words["chain"]:
            out.append(f'<text x="{x + WIDE / 2}" y="{floor + 26}" class="moment">its row</text>')
            for at, word in enumerate(words["saved"]):
                left = x + at * WIDE / 3
                out.append(f'<rect x="{left}" y="{floor + 34}" width="{WIDE / 3}" height="{CELL}" class="saved"/>')
                out.append(f'<text x="{left + WIDE / 6}" y="{floor + 50}" class="word">{shown(word)}</text>')
            out.append(f'<text x="{x + WIDE / 2}" y="{floor + 76}" class="side middle">pc {words["savedframe"][1]}, base {words["savedframe"][2]}</text>')
        last = words
    out.append(f'<line x1="20" y1="{floor}" x2="{across - 10}" y2="{floor}" class="ground"/></svg>')
    return "\n".join(one for one in out if one)


# The picture as a file of its own, for README: the colours of page/style.css on white.
STYLE = """svg { font-family: "DejaVu Sans Mono", Menlo, Consolas, monospace; background: #fff; }
.moment { fill: #1d2430; font-size: 12.5px; text-anchor: middle; font-weight: 600; } .word { fill: #1d2430; font-size: 11.5px; text-anchor: middle; }
.index { fill: #68707d; font-size: 10px; text-anchor: end; } .name { fill: #1d2430; font-size: 11px; } .side { fill: #68707d; font-size: 10px; } .middle { text-anchor: middle; }
rect.frame { fill: #e8ebf0; stroke: #fff; } rect.coroutine, rect.saved { fill: #cfe2f9; stroke: #fff; } rect.changed { fill: #f7d99b; }
rect.edge { fill: none; stroke-width: 1.6; } .frame-edge { stroke: #8d97a6; } .coroutine-edge { stroke: #2f6fbf; } .ground { stroke: #c9ced6; stroke-width: 1.2; }"""


def alone(text):
    head, body = picture(text).split("\n", 1)
    return head.replace("<svg ", '<svg xmlns="http://www.w3.org/2000/svg" ') + f"\n<style>{STYLE}</style>\n<rect width=\"100%\" height=\"100%\" fill=\"#fff\"/>\n{body}\n"
