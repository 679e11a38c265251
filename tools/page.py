#!/usr/bin/env python3
"""Makes a page that shows what a script does, step by step.

usage: tools/page.py SCRIPT [--program PROGRAM] [--why PROGRAM] > page.html

The page is one file without dependencies that opens from disk. All that it shows of paints, items, pictures and refusals
are the program's own lines: the script is replayed with a dump after each paint, and rendered up to each paint. Why a leaf
is above another is what `rd_why` answers to the script up to a paint. The page has the first 300 commands at most, ends
where a tree has more than 1,000 boxes or the pictures more than 200 million pixels, tells why of at most 10,000 stacks of
leaves, and says where it was cut. docs/WHY.md says how to read it.
"""
import argparse
import base64
import html
import json
import os
import subprocess
import sys
from collections import deque
from copy import deepcopy

TOP = os.path.dirname(os.path.dirname(os.path.abspath(__file__)))
sys.path.insert(0, os.path.join(TOP, "examples"))
sys.dont_write_bytecode = True
from page_why import OtherLeaves, Why, leaves_of  # noqa: E402
from png import png_bytes, read_p6  # noqa: E402

MOST_STEPS = 300
MOST_BOXES = 1_000
MOST_PIXELS = 200_000_000
MOST_PROBES = 15_000
EDITS = ("insert", "remove", "move", "style", "rect", "shift", "scroll")
CHANGES = (*EDITS, "undo")
MOST_UNDOS = 100
CLIPPING = ("hidden", "scroll", "auto")

# ---------------------------------------------------------------------------------------------------------------------
# The program


class Program:
    """Runs the program on a script's boxes with other commands."""

    def __init__(self, path, script):
        self.path, self.script = path, script

    def output(self, word, commands):
        """What it writes; where it ends otherwise than well, so does this."""
        text = json.dumps({**self.script, "script": commands}).encode()
        done = subprocess.run([self.path, word], input=text, capture_output=True)
        if done.returncode != 0:
            sys.exit(f"page.py: {self.path} {word} ended with status {done.returncode}: {done.stderr.decode().strip()}")
        return done.stdout

    def lines(self, commands):
        return self.output("replay", commands).decode().splitlines()

    def picture(self, commands):
        """What is painted after some commands, as a PNG that stands in a page."""
        png = png_bytes(*read_p6(self.output("render", commands)))
        return "data:image/png;base64," + base64.b64encode(png).decode()


class Lines:
    """The lines of a run, taken one command after another."""

    def __init__(self, lines):
        self.lines, self.next = lines, 0

    def line(self):
        self.next += 1
        return self.lines[self.next - 1]

    def paint_before(self, command):
        """The line of the paint that a question causes; None where it causes none."""
        is_paint = self.next < len(self.lines) and self.lines[self.next].startswith("paint ")
        return self.line() if is_paint and command["do"] != "paint" else None

    def dump(self):
        """The lines of a dump: groups come before what is in them, so it ends with its last item."""
        head = self.line()
        entries, items = [], 0
        while items < int(head.split()[1]):
            entries.append(self.line().split())
            items += entries[-1][0] == "item"
        return head, entries


def with_dumps(commands):
    """The commands with a dump after each that may paint, and the places of those commands; a dump needs none after it."""
    told, places, may_paint = [], set(), True
    for place, command in enumerate(commands):
        told.append(command)
        if command["do"] in CHANGES:
            may_paint = True
            continue
        if command["do"] != "dump" and (may_paint or command["do"] == "paint"):
            told.append({"do": "dump"})
            places.add(place)
        may_paint = False
    return told, places


# ---------------------------------------------------------------------------------------------------------------------
# The tree: what edits that the program did make of the script's boxes


class Tree:
    """The boxes by id, each with its parent, its children in their order, its rectangle, its style and how far it is scrolled."""

    def __init__(self, boxes):
        self.boxes = {}
        for box in boxes:
            self.put(box, None)
        self.root = boxes[0]["id"]

    def put(self, box, before):
        own = {"rect": list(box["rect"]), "style": dict(box.get("style", {})), "scroll": [0, 0]}
        self.boxes[box["id"]] = {"children": [], **own}
        self.hang(box["id"], box["parent"], before)

    def hang(self, name, parent, before):
        self.boxes[name]["parent"] = parent
        if parent is not None:
            children = self.boxes[parent]["children"]
            children.insert(children.index(before) if before else len(children), name)

    def unhang(self, name):
        self.boxes[self.boxes[name]["parent"]]["children"].remove(name)

    def below(self, name, depth=0):
        """A box and all below it in tree order, each with its depth."""
        waiting = [(name, depth)]
        while waiting:
            name, depth = waiting.pop()
            yield name, depth
            waiting += [(child, depth + 1) for child in reversed(self.boxes[name]["children"])]

    def do(self, edit):
        """Does an edit of which the program said `ok`."""
        name, kind = edit["id"], edit["do"]
        if kind == "insert":
            self.put(edit, edit.get("before"))
        elif kind == "remove":
            self.unhang(name)
            for gone in [each for each, _ in self.below(name)]:
                del self.boxes[gone]
        elif kind == "move":
            self.unhang(name)
            self.hang(name, edit["parent"], edit.get("before"))
        elif kind == "style":
            self.boxes[name]["style"].update(edit["style"])
        elif kind == "rect":
            self.boxes[name]["rect"] = list(edit["rect"])
        elif kind == "scroll":
            self.boxes[name]["scroll"] = [edit["x"], edit["y"]]
        else:
            self.shift(name, edit["dx"], edit["dy"])

    def clips(self, name):
        """Neither the root clips, nor an inline box that stands in the flow (docs/DEFINITIONS.md)."""
        style = self.boxes[name]["style"]
        is_out = style.get("position") in ("absolute", "fixed") or style.get("float", "none") != "none"
        is_blocky = is_out or style.get("display", "block") != "inline"
        return name != self.root and is_blocky and style.get("overflow", "visible") in CLIPPING

    def chain(self, name):
        """The containing block of a box, the one of that, and so on."""
        position = self.boxes[name]["style"].get("position", "static")
        name = None if position == "fixed" else self.boxes[name]["parent"]
        while position == "absolute" and name is not None and self.boxes[name]["style"].get("position", "static") == "static":
            name = self.boxes[name]["parent"]
        return [] if name is None else [name, *self.chain(name)]

    def at(self, name):
        """Where a box is drawn: its border box less the scroll offsets of the boxes that clip it."""
        x, y, w, h = self.boxes[name]["rect"]
        offsets = [self.boxes[each]["scroll"] for each in self.chain(name) if self.clips(each)]
        return [x - sum(dx for dx, _ in offsets), y - sum(dy for _, dy in offsets), w, h]

    def shown(self, name):
        """What the page tells of a box."""
        return {"id": name, "at": self.at(name), **{key: self.boxes[name][key] for key in ("rect", "scroll", "style")}}

    def shift(self, name, dx, dy):
        for each, _ in self.below(name):
            x, y, w, h = self.boxes[each]["rect"]
            self.boxes[each]["rect"] = [x + dx, y + dy, w, h]


# ---------------------------------------------------------------------------------------------------------------------
# In words

REFUSALS = {
    1: "no box has this id",
    2: "no box has the parent's id",
    3: "it is the root",
    4: "the parent is the box or below it",
    5: "the box to stand before is no child of the parent",
    6: "a box has this id",
    7: "a box would be deeper than 256",
    8: "there are 20,000 boxes",
    9: "a rectangle or a scroll offset would break the limits",
}
QUESTIONS = {"paint": "paint", "dump": "what is in the list?", "shot": "which digest has the picture?"}


def value_in_words(value):
    if isinstance(value, list):
        return " ".join(map(str, value))
    return "none" if value is None else str(value)


def style_in_words(style):
    return ", ".join(f"{name} {value_in_words(value)}" for name, value in style.items()) or "nothing"


def place_in_words(edit):
    before = edit.get("before")
    return f"below `{edit['parent']}`, " + (f"before `{before}`" if before else "as its last child")


def in_words(command):
    """What a command asks; names stand between grave accents."""
    kind, name = command["do"], command.get("id")
    if kind in ("hit", "pixel"):
        return f"which {'box is hit' if kind == 'hit' else 'colour is'} at {command['x']}, {command['y']}?"
    if kind in QUESTIONS:
        return QUESTIONS[kind]
    if kind == "undo":
        return "the latest edit is taken back"
    if kind == "rect":
        x, y, w, h = command["rect"]
        return f"`{name}` gets the border box {w} × {h} at {x}, {y}"
    return {
        "insert": lambda: f"`{name}` comes {place_in_words(command)}",
        "remove": lambda: f"`{name}` goes with all below it",
        "move": lambda: f"`{name}` goes {place_in_words(command)}",
        "style": lambda: f"`{name}` gets {style_in_words(command['style'])}",
        "shift": lambda: f"`{name}` and all below it shift by {command['dx']}, {command['dy']}",
        "scroll": lambda: f"what `{name}` clips is scrolled to {command['x']}, {command['y']}",
    }[kind]()


def answer_in_words(line):
    """What the program said of a command, in a few words."""
    kind, *rest = line.split()
    if kind == "ok":
        return "done"
    if kind == "refused":
        return f"refused: {REFUSALS[int(rest[0])]}"
    if kind == "undone":
        return f"done, by {rest[0]} edit{'' if rest[0] == '1' else 's'}"
    if kind == "undo":
        return "there is none to take back"
    if kind == "paint":
        return f"{int(rest[2]):,} built, {int(rest[4]):,} kept, {int(rest[6]):,} pixels"
    if kind == "dump":
        return f"{int(rest[0]):,} items"
    if kind == "hit":
        return "no box" if rest == ["none"] else f"`{rest[0]}`"
    return f"#{rest[0]}" if kind == "pixel" and rest != ["none"] else rest[0][:16]


# ---------------------------------------------------------------------------------------------------------------------
# Areas: rectangles of pixels as [x, y, w, h]


def spans_of(rects):
    """The columns of some rectangles of one row, as spans that rise and do not touch."""
    spans = []
    for left, right in sorted((x, x + w) for x, _, w, _ in rects):
        if spans and left <= spans[-1][1]:
            spans[-1][1] = max(spans[-1][1], right)
        else:
            spans.append([left, right])
    return spans


def joined(rects):
    """The same pixels in rectangles without a common pixel, row for row from the top."""
    rects = [r for r in set(map(tuple, rects)) if r[2] > 0 and r[3] > 0]
    edges = sorted({y for _, y, _, h in rects for y in (y, y + h)})
    bands = []
    for top, bottom in zip(edges, edges[1:]):
        spans = spans_of(across(rects, top, bottom))
        if bands and bands[-1][2] == spans and bands[-1][1] == top:
            bands[-1][1] = bottom
        elif spans:
            bands.append([top, bottom, spans])
    return [[left, top, right - left, bottom - top] for top, bottom, spans in bands for left, right in spans]


def size_of(rects):
    return sum(w * h for _, _, w, h in rects)


def across(rects, top, bottom):
    return [r for r in rects if r[1] <= top and bottom <= r[1] + r[3]]


def cells(rects, told):
    """The rectangles that the edges of some cut each other into, each wholly in one of them or out of it; without those
    that lie in rectangles of which it is told already."""
    rows = sorted({edge for _, y, _, h in rects for edge in (y, y + h)})
    for top, bottom in zip(rows, rows[1:]):
        here = across(rects, top, bottom)
        columns = sorted({edge for x, _, w, _ in here for edge in (x, x + w)})
        inside, known = spans_of(here), spans_of(across(told, top, bottom))
        for left, right in zip(columns, columns[1:]):
            is_in, is_known = (any(a <= left and right <= b for a, b in spans) for spans in (inside, known))
            if is_in and not is_known:
                yield [left, top, right - left, bottom - top]


# ---------------------------------------------------------------------------------------------------------------------
# Lists


class List:
    """The items of a dump, each with the groups round it, and the entries of the dump in their order."""

    def __init__(self, entries):
        self.entries, self.items = entries, {}
        groups = []
        for kind, depth, *rest in entries:
            del groups[int(depth) :]
            if kind == "group":
                groups.append((rest[0], rest[1], *rest[3:]))
            else:
                self.items[rest[0], rest[1]] = (tuple(groups), rest[2:-1]), list(map(int, rest[2:6])), int(rest[-1])

    def visible(self, key):
        return self.items[key][1]

    def built(self, number):
        return {key for key, item in self.items.items() if item[2] == number}


def differing(old, new):
    """Where an item came, went, or is not as it was."""
    keys = old.items.keys() | new.items.keys()
    changed = [key for key in keys if old.items.get(key, "")[:1] != new.items.get(key, "")[:1]]
    return joined(which.visible(key) for key in changed for which in (old, new) if key in which.items)


def candidates(old, new, number):
    """Rectangles of which the invalid area is made: those of items that were built, as they are and as they were, and
    those of items that went."""
    built = new.built(number)
    went = [key for key in old.items if key not in new.items or key in built]
    return list(map(list, {tuple(r) for r in [new.visible(key) for key in built] + [old.visible(key) for key in went]}))


class Probes:
    """Asks the program where a paint painted anew: a clear box comes over each cell before the paint before it, on top and
    without hits, and the paint then keeps the items of those that do not meet its area."""

    def __init__(self, program, boxes):
        self.program = program
        self.name = "probe"
        while any(self.name in text for text in (json.dumps(boxes), json.dumps(program.script["script"]))):
            self.name += "-"
        self.root = boxes[0]["id"]

    def box(self, number, rect):
        style = {"position": "fixed", "z-index": 2**31 - 1, "pointer-events": "none"}
        return {"do": "insert", "id": f"{self.name}{number}", "parent": self.root, "rect": rect, "style": style}

    def met(self, before, since, found):
        """Which of some rectangles meet the area of a paint: `before` are the commands before the paint before it, `since`
        those from that paint to this one. With an undo among those none is told of, since it may take back a probe."""
        if len(found) > MOST_PROBES or any(command["do"] == "undo" for command in since):
            return []
        edits = [command for command in since if command["do"] in EDITS]
        probes = [self.box(each, rect) for each, rect in enumerate(found)]
        lines = self.program.lines(before + probes + [{"do": "paint"}] + edits + [{"do": "paint"}, {"do": "dump"}])
        paint = [line for line in lines if line.startswith("paint ")][-1].split()[1]
        items = [line.split() for line in lines if line.startswith("item ")]
        missed = {item[2] for item in items if item[18] != paint}
        return [rect for each, rect in enumerate(found) if f"{self.name}{each}" not in missed]


# ---------------------------------------------------------------------------------------------------------------------
# The story: what each step of the page shows


class Table:
    """Values with their numbers: each is written into the page once."""

    def __init__(self):
        self.values, self.numbers = [], {}

    def number(self, value):
        text = json.dumps(value)
        if text not in self.numbers:
            self.numbers[text] = len(self.values)
            self.values.append(json.loads(text))
        return self.numbers[text]


class Stacks:
    """The answers of `rd_why` to the stacks of leaves of a tree, with their leaves, places and reasons written once."""

    def __init__(self, why):
        self.why = why
        self.places, self.leaves, self.reasons = Table(), Table(), Table()
        self.answers, self.numbers = [], {}

    def told(self, tree, number, entries, commands):
        """The number of the answers about a tree, which the paint of a number showed; None where that is not told of."""
        answers = None if tree in self.numbers else self.why.answers(number, leaves_of(entries), commands)
        if answers is not None:
            self.numbers[tree] = len(self.answers)
            self.answers.append([[self.leaf(**leaf) for leaf in answer["leaves"]] for answer in answers])
        return None if self.why.silence else self.numbers[tree]

    def leaf(self, way, above_next, **rest):
        """A leaf as it is in the page: its number, and that of why it is above the next."""
        leaf = self.leaves.number({**rest, "way": list(map(self.places.number, way))})
        return [leaf, None if above_next is None else self.reasons.number(self.reason(**above_next))]

    def reason(self, by, **places):
        return {"by": by, **{which: self.places.number(place) for which, place in places.items()}}

    def data(self):
        tables = {"places": self.places, "leaves": self.leaves, "reasons": self.reasons}
        return {**{key: table.values for key, table in tables.items()}, "stacks": self.answers}


class Story:
    """Follows the lines of a run, command by command."""

    def __init__(self, program, why, script):
        self.program, self.why, self.script = program, why, script
        self.commands = script["script"][:MOST_STEPS]
        commands, self.dumped = with_dumps(self.commands)
        self.lines = Lines(program.lines(commands))
        self.tree, self.tree_now = Tree(script["boxes"]), None
        self.before = deque(maxlen=MOST_UNDOS if any(command["do"] == "undo" for command in self.commands) else 0)
        self.probes = Probes(program, script["boxes"])
        self.items, self.boxes, self.trees, self.pictures = Table(), Table(), Table(), Table()
        self.stacks = Stacks(why)
        self.paints, self.lists, self.places, self.is_pending = [], [], [], True
        self.steps = [self.step("The script is read: nothing is painted yet", None, [])]
        self.cut = None

    def tell(self):
        """All steps, or those until there is too much to show."""
        for place, command in enumerate(self.commands):
            self.cut = self.too_much()
            if self.cut:
                break
            self.steps.append(self.told(place, command))
        total = len(self.script["script"])
        if not self.cut and len(self.commands) < total:
            self.cut = f"a page has at most {MOST_STEPS:,} commands"
        if self.cut:
            self.cut = f"{self.cut}: the first {len(self.steps) - 1:,} of {total:,} commands are shown"

    def too_much(self):
        """Why the next command is not shown; None where it is."""
        canvas = self.script["canvas"]
        if len(self.tree.boxes) > MOST_BOXES:
            return f"a page has at most {MOST_BOXES:,} boxes"
        if (len(self.paints) + 1) * canvas["w"] * canvas["h"] > MOST_PIXELS:
            return f"a page has at most {MOST_PIXELS // 1_000_000} million pixels of pictures"
        return None

    def told(self, place, command):
        """One command with its lines."""
        if command["do"] in CHANGES:
            line = self.lines.line()
            if self.changed(command, line):
                self.tree_now, self.is_pending = None, True
            return self.step(in_words(command), command, [line])
        lines, paint, entries = self.answered(place, command)
        if entries is not None and paint is not None:
            self.painted(place, paint, entries)
        self.is_pending = False
        return self.step(in_words(command), command, lines, paint is not None)

    def changed(self, command, line):
        """Does what the program said that it did: an edit, or an undo, after which the boxes are as before the latest edit."""
        if line == "ok":
            if self.before.maxlen:
                self.before.append(deepcopy(self.tree.boxes))
            self.tree.do(command)
        elif line.startswith("undone "):
            self.tree.boxes = self.before.pop()
        else:
            return False
        return True

    def answered(self, place, command):
        """The lines of a command that is no edit, that of its paint, and the entries of the dump after it."""
        paint = self.lines.paint_before(command)
        lines, entries = [paint] if paint else [], None
        if command["do"] == "dump":
            head, entries = self.lines.dump()
            return lines + [head], paint, entries
        lines.append(self.lines.line())
        if command["do"] == "paint":
            paint = lines[0]
        if place in self.dumped:
            entries = self.lines.dump()[1]
        return lines, paint, entries

    def painted(self, place, line, entries):
        """Keeps what a paint did: its numbers, its list, its picture and its area."""
        number, built, kept, area = map(int, line.split()[1::2])
        self.lists = self.lists[-1:] + [List(entries)]
        self.places = self.places[-1:] + [place]
        rects = self.area(number, area)
        commands = self.commands[: place + 1]
        picture = self.pictures.number(self.program.picture(commands))
        self.paints.append(
            {
                **{"number": number, "built": built, "kept": kept, "area": area, "rects": rects, "picture": picture},
                "shown": size_of(rects),
                "list": [self.entry(entry) for entry in entries],
                "stacks": self.stacks.told(self.tree_number(), number, entries, commands),
            }
        )

    def area(self, number, size):
        """The rectangles of an area: all of the canvas at first; then those of items that are not as they were, with those
        beside them of which the program tells, where they are not all of it. No item that was kept meets it."""
        canvas = self.script["canvas"]
        if number == 1:
            return [[0, 0, canvas["w"], canvas["h"]]]
        found = differing(*self.lists)
        if size_of(found) == size:
            return found
        before, now = self.places
        kept = [item[1] for item in self.lists[1].items.values() if item[2] != number]
        unknown = list(cells(candidates(*self.lists, number), found + kept))
        asked = joined(found + self.probes.met(self.commands[:before], self.commands[before + 1 : now + 1], unknown))
        return asked if size_of(asked) == size else found

    def entry(self, words):
        """A group as it is in the page, or the number of an item."""
        kind, depth, name, *rest = words
        if kind == "group":
            return {"depth": int(depth), "id": name, "opacity": int(rest[0]), "mode": (rest[2:] or ["normal"])[0]}
        numbers = list(map(int, rest[1:13]))
        item = {"depth": int(depth), "id": name, "part": rest[0], "color": rest[13], "hits": rest[14] == "auto"}
        rects = {"visible": numbers[:4], "outer": numbers[4:8], "inner": numbers[8:]}
        return self.items.number({**item, **rects, "made": int(rest[15])})

    def tree_number(self):
        """The number of the tree as it is now."""
        if self.tree_now is None:
            boxes = self.tree.below(self.tree.root)
            self.tree_now = self.trees.number([[self.boxes.number(self.tree.shown(name)), depth] for name, depth in boxes])
        return self.tree_now

    def step(self, words, command, lines, is_paint=False):
        """One row of the page."""
        kind = command["do"] if command else "start"
        step = {"words": words, "kind": kind, "lines": lines, "answers": list(map(answer_in_words, lines))}
        step.update(tree=self.tree_number(), paint=len(self.paints) - 1, paints=is_paint, pending=self.is_pending)
        if command and kind in EDITS:
            step["box"] = command["id"]
        if kind in ("hit", "pixel"):
            step["pixel"] = [command["x"], command["y"]]
        return step

    def data(self, name):
        canvas = self.script["canvas"]
        values = {"items": self.items, "boxes": self.boxes, "trees": self.trees, "pictures": self.pictures}
        about = {"name": name, "version": self.script["version"], "canvas": [canvas["w"], canvas["h"]]}
        cuts = [text for text in (self.cut, self.why.cut) if text]
        told = {"steps": self.steps, "paints": self.paints, "cuts": cuts, "silence": self.why.silence}
        return {**about, **told, **self.stacks.data(), **{key: table.values for key, table in values.items()}}


# ---------------------------------------------------------------------------------------------------------------------
# The page


def part(name):
    with open(os.path.join(TOP, "tools", name), encoding="utf-8") as file:
        return file.read()


def page(data):
    """The page of a story: the four files of tools/ and the data in one."""
    text = json.dumps(data, separators=(",", ":")).replace("<", "\\u003c")
    page = part("page.html")
    for name in ("page.css", "page_why.js", "page.js"):
        page = page.replace(f"/* {name} */", part(name))
    return page.replace("PAGE_NAME", html.escape(data["name"])).replace("PAGE_DATA", text)


def main():
    words = argparse.ArgumentParser(description="Makes a page that shows what a script does, step by step.")
    words.add_argument("script")
    words.add_argument("--program", default=os.path.join(TOP, "pouncelilac"))
    words.add_argument("--why", metavar="PROGRAM", default=os.path.join(TOP, "crates", "rd_why", "out", "rd_why"))
    given = words.parse_args()
    with open(given.script, "rb") as file:
        text = file.read()
    checked = subprocess.run([given.program, "replay"], input=text, capture_output=True)
    if checked.returncode != 0:
        sys.exit(f"page.py: {given.script}: {checked.stderr.decode().strip()}")
    script = json.loads(text)
    if len(script["boxes"]) > MOST_BOXES:
        sys.exit(f"page.py: {given.script} has {len(script['boxes']):,} boxes; a page has at most {MOST_BOXES:,}")
    why = Why(given.why, script)
    if why.silence:
        print(f"page.py: {given.why} is not there: clicks do not tell why", file=sys.stderr)
    story = Story(Program(given.program, script), why, script)
    try:
        story.tell()
    except OtherLeaves as other:
        sys.exit(f"page.py: {given.why}: {other}")
    for cut in filter(None, (story.cut, why.cut)):
        print(f"page.py: {cut}", file=sys.stderr)
    print(page(story.data(os.path.basename(given.script))))


if __name__ == "__main__":
    main()
