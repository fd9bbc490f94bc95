#!/usr/bin/env python3
"""Makes one HTML page of a list: for each line what the cache did and why, and a picture of both tables, flash and disk. Reads the output of
`states --full --explain` from standard input and writes the page to standard output. The page has no script and needs no other file. An argument gives
the page's title.
A page has at most 5,000,000 bytes: of a longer list it shows the first lines and the sums, and says so, on standard error too.
The page is in UTF-8 whatever the locale is. The exit status is 1 where it cannot be written, and a message says why."""
import html
import sys

MOST_BYTES = 5_000_000

HEAD = """<!DOCTYPE html>
<html lang="en">
<head>
<meta charset="utf-8">
<meta name="viewport" content="width=device-width, initial-scale=1">
<title>{title}</title>
<style>
body {{ font: 20px/1.35 "DejaVu Sans", Verdana, Arial, sans-serif; color: #111; background: #fff; margin: 1.2em auto; max-width: 1240px; padding: 0 1em; }}
h1 {{ font-size: 1.7em; margin: 0 0 0.4em; }}
.key {{ font-size: 0.85em; color: #333; margin: 0 0 1.2em; }}
section {{ border-top: 4px solid #333; padding: 0.5em 0 1em; break-inside: avoid; }}
h2 {{ font-size: 1.35em; margin: 0; }}
h2 code {{ background: #eee; padding: 0 0.3em; border-radius: 4px; }}
.said {{ margin: 0.15em 0 0.5em; }}
.why {{ font-size: 0.85em; margin: 0 0 0.6em; padding-left: 1.4em; }}
.refused {{ color: #a00000; font-weight: bold; }}
.parts {{ display: flex; flex-wrap: wrap; gap: 0.6em 2em; align-items: flex-start; }}
.part h3 {{ font-size: 0.85em; margin: 0 0 0.25em; color: #333; }}
.cells {{ display: flex; flex-wrap: wrap; gap: 9px; }}
.cell {{ min-width: 3.4em; text-align: center; border: 2px solid #555; border-radius: 6px; background: #fff; }}
.cell .top {{ display: block; font-size: 0.72em; background: rgba(255, 255, 255, 0.75); border-radius: 4px 4px 0 0; padding: 0 0.2em; }}
.cell b {{ display: block; font-size: 1.35em; padding: 0.05em 0.3em; }}
.free {{ border-style: dashed; border-color: #999; color: #777; }}
.dirty {{ border-color: #c00000; box-shadow: 0 0 0 3px #c00000; }}
.without {{ border-style: dotted; background-image: repeating-linear-gradient(45deg, rgba(255, 255, 255, 0.9) 0 6px, rgba(255, 255, 255, 0.25) 6px 12px); }}
.changed .top {{ background: #111; color: #fff; }}
.sums {{ font-weight: bold; }}
</style>
</head>
<body>
<h1>{title}</h1>
<p class="key">{box}<br>
Equal contents have one colour. A red frame and <b>*</b>: a dirty address, flash is newer than disk there. A dashed cell: a free row or slot.
A hatched cell with a dotted frame: an address without its block, or a block without an address. A black label: changed by this line.</p>
"""

WORDS = {
    "hit": "the address is held and its block is in flash",
    "miss": "the block comes from disk",
    "same": "the content was in flash already",
    "new": "the content was not in flash",
    "cache": "the block is in flash",
    "disk": "the block is on disk",
    "done": "no address is dirty now",
}
CALLS = {"R": "Read address", "L": "Look at address", "T": "Write through to address", "B": "Write back to address", "I": "Write invalidate to address"}
REFUSALS = {
    "1": "B, P, m or d is outside its set",
    "3": "there is no such address",
    "4": "the line is not of the form",
    "5": "the box is more than a replay takes",
}


class State:
    """A box as the last lines after an answer give it."""

    def __init__(self, lines=()):
        self.held, self.rows = [], []
        self.slots, self.flash, self.disk = (line.split()[1:] for line in lines[1:]) if lines else ([], [], [])
        if lines:
            held, _, blocks = lines[0].partition("; blocks ")
            self.held = [] if held == "none" else [part.split(":") for part in held.split(" ")]
            self.rows = blocks.split(" ")

    def contents(self):
        return [content.rstrip("*") for _, content in self.held]


class Step:
    """A line of the replay's output, the line of the list that it answers, and the lines after it: what was done and why, then, where there is
    a box, four lines of its state."""

    def __init__(self, asked, answer):
        self.asked, self.answer, self.lines = asked, answer, []

    def why(self):
        """The reasons; the first stands behind the line of the list, which the page has already."""
        reasons = self.lines[:-4] if self.asked is not None else self.lines if self.answer and self.answer.startswith("0 ") else []
        return [line.removeprefix(f"{self.asked}: ") for line in reasons]

    def state(self):
        return State(self.lines[-4:] if len(self.lines) >= 4 else ())


def read(lines):
    """The box's numbers, and the steps: the first has the state before the first call."""
    box, steps = None, []
    for line in lines:
        text = line.rstrip("\n")
        if not text.startswith("    "):
            # The line of the list stands before its answer; line 1 and the sums have none.
            has_line = steps and not text.startswith("reads")
            steps.append(Step(steps[-1].lines.pop().removeprefix("asked ") if has_line else None, text))
        elif steps:
            steps[-1].lines.append(text[4:])
        elif text.startswith("    box "):
            box = text.split()[1:]
            steps.append(Step(None, None))
        else:
            sys.exit(f"page.py: this is not the output of `states --full --explain`: {text}")
    return box, steps


def colour(content):
    """A light colour for a content: twelve hues, far apart for contents that are near, then the same ones greyer or lighter."""
    turn, k = divmod(int(content), 12)
    return f"background-color: hsl({k * 5 % 12 * 30}, {80 - turn % 3 * 22}%, {74 + turn // 3 % 3 * 6}%)"


def cell(top, content, classes, painted=True):
    style = f' style="{colour(content.rstrip("*"))}"' if painted else ""
    return f'<div class="cell {" ".join(classes)}"{style}><span class="top">{top}</span><b>{html.escape(content)}</b></div>'


def part(title, cells):
    return f'<div class="part"><h3>{title}</h3><div class="cells">{"".join(cells)}</div></div>'


def addresses(now, before, m):
    old = [tuple(row) for row in before.held]
    cells = []
    for row in now.held:
        address, content = row
        classes = ["dirty"] if content.endswith("*") else []
        classes += ["without"] if content.rstrip("*") not in now.rows else []
        classes += ["changed"] if tuple(row) not in old else []
        cells.append(cell(f"address {address}", content, classes))
    free = m - len(now.held)
    shown = min(free, 8)
    cells += [cell("free", "–", ["free"], False)] * shown
    cells += [f"and {free - shown} more free"] if free > shown else []
    return part("Address table, oldest use first", cells)


def blocks(now, before):
    cells = []
    for content, slot in zip(now.rows, now.slots):
        if content == "-":
            cells.append(cell(f"slot {slot}", "–", ["free"], False))
            continue
        classes = ["without"] if content not in now.contents() else []
        classes += ["changed"] if content not in before.rows else []
        cells.append(cell(f"slot {slot}", content, classes))
    return part("Block table: free rows, then oldest use first", cells)


def flash(now, before):
    used = {slot: content for content, slot in zip(now.rows, now.slots) if content != "-"}
    cells = []
    for k, content in enumerate(now.flash):
        if str(k) not in used:
            cells.append(cell(f"slot {k}", "–", ["free"], False))
            continue
        cells.append(cell(f"slot {k}", content, ["changed"] if before.flash[k:k + 1] != [content] else []))
    return part("Flash", cells)


def disk(now, before):
    dirty = {address for address, content in now.held if content.endswith("*")}
    cells = []
    for k, content in enumerate(now.disk):
        classes = ["dirty"] if str(k) in dirty else []
        classes += ["changed"] if before.disk[k:k + 1] != [content] else []
        cells.append(cell(f"block {k}", content, classes))
    return part("Disk (a red frame: flash is newer)", cells)


def plural(count, what):
    return f"{count} {what}" + ("" if count == "1" else "s")


def said(step):
    """An answer in words."""
    words = step.answer.split(" ")
    if words[1] == "refused":
        after = "the run ends" if words[0] == "0" else "nothing changes"
        return f'<span class="refused">Refused with {words[2]}: {REFUSALS.get(words[2], "see docs/FORMATS.md")}; {after}.</span>'
    if words[0] == "reads":
        return f'{plural(words[1], "read")}, {plural(words[3], "hit")}, {plural(words[5], "flash write")}, {plural(words[7], "primary write")}'
    _, letter, address, word, flash_writes, primary_writes = words
    call = "Flush" if letter == "F" else f"{CALLS[letter]} {address}"
    content = f", content {int(step.asked.split(' ')[2], 16)}" if letter in "TBI" else ""
    return f'{call}{content}. <b>{word}</b>: {WORDS[word]}. {plural(flash_writes, "flash write")}, {plural(primary_writes, "primary write")}.'


def why(step):
    """What the cache did and why, or the rule that a refused line breaks."""
    reasons = "".join(f"<li>{html.escape(reason)}</li>" for reason in step.why())
    return f'<ul class="why">{reasons}</ul>' if reasons else ""


def section(step, before, m):
    if step.answer is None:
        title, text = "At the start", "The box is fresh: no address is held and every block row is free."
    elif step.answer.startswith("reads"):
        return f'<section><h2>The sums</h2><p class="said sums">{said(step)}</p></section>\n'
    else:
        asked = "line 1" if step.asked is None else step.asked or "an empty line"
        title, text = f"{step.answer.split(' ')[0]} &nbsp;<code>{html.escape(asked)}</code>", said(step)
    head = f'<h2>{title}</h2><p class="said">{text}</p>{why(step)}'
    now = step.state()
    if not now.rows:
        return f"<section>{head}</section>\n"
    parts = [addresses(now, before, m), blocks(now, before), flash(now, before), disk(now, before)]
    return f'<section>{head}<div class="parts">{"".join(parts)}</div></section>\n'


def put(text):
    """Writes the page to standard output."""
    try:
        with open(1, "w", encoding="utf-8") as out:
            out.write(text)
    except OSError as error:
        sys.exit(f"page.py: the page cannot be written: {error.strerror}")


def main():
    box, steps = read(sys.stdin)
    if not steps:
        sys.exit("page.py: standard input is empty; it takes the output of `states --full --explain`")
    title = html.escape(sys.argv[1] if len(sys.argv) > 1 else "A list of requests, line by line")
    numbers = "The box line is refused." if box is None else "Blocks of {} bytes, {} disk blocks, at most {} addresses held, {} cached blocks.".format(*box)
    m = int(box[2]) if box else 0
    out = [HEAD.format(title=title, box=numbers)]
    # What comes after the last picture has room in any case: the sums, and how many lines are left out.
    last = steps[-1]
    room = MOST_BYTES - len(out[0].encode()) - len(section(last, last.state(), m).encode()) - 1_000
    before, shown = steps[0].state(), 0
    for step in steps[:-1]:
        text = section(step, before, m)
        room -= len(text.encode())
        if room < 0:
            break
        out.append(text)
        before, shown = step.state(), shown + 1
    left = len(steps) - 1 - shown
    if left:
        what = f"a page has at most {MOST_BYTES:,} bytes, so the last {left} lines of the list are left out"
        out.append(f'<section><p class="said refused">{what.capitalize()}.</p></section>\n')
        print(f"page.py: {what}", file=sys.stderr)
    out.append(section(last, before, m))
    out.append("</body>\n</html>\n")
    put("".join(out))


if __name__ == "__main__":
    main()
