#!/usr/bin/env python3
"""Makes a script of a page: `tools/capture.py [--size W H] [--picture FILE] URL_OR_FILE > SCRIPT`.

Headless Chromium lays the page out in a viewport of W by H pixels, 800 by 600 unless said otherwise. The script has a box for
each element that has one and for each line of its text, with the computed style, and one paint. What the format cannot tell is
listed in notes on standard error; docs/CAPTURE.md says what they mean. With --picture Chromium's screenshot is kept.
"""
import argparse
import json
import math
import os
import pathlib
import re
import sys

sys.dont_write_bytecode = True
sys.path.insert(0, os.path.dirname(os.path.abspath(__file__)))
import browser  # noqa: E402

SIDES = ("top", "right", "bottom", "left")
CORNERS = ("top-left", "top-right", "bottom-right", "bottom-left")
MODES = ("normal", "multiply", "screen", "darken", "lighten")
FARTHEST, MOST_WIDTH, MOST_BOXES, MOST_LEVELS, MOST_Z = 1_000_000, 1_000, 20_000, 256, 2**31 - 1
UNKNOWN = "#c0c0c0"
PLAIN = {"overflow": "visible", "display": "block", "position": "static", "z-index": "auto", "float": "none"}

# the notes: each kind with what it says of the boxes that are named
MEANINGS = {
    "text": "each line of text is a box of the text's colour",
    "image": f"a picture or an embedded page is content of {UNKNOWN}",
    "background": f"a gradient is its mean colour, and another background picture {UNKNOWN}",
    "control": "what a form control draws is not told beyond its box",
    "pseudo": "a ::before, an ::after or a marker is left out",
    "transform": "a transformed box is the rectangle round it",
    "effect": "a filter, a mask or a clip path is left out",
    "shadow": "a shadow is left out",
    "rounded": "corners are square",
    "border": "all sides have the colour of the first that shows, and are solid",
    "outline": "an outline is solid and lies at the border edge",
    "fraction": "edges between pixels were rounded",
    "lines": "an inline box of several lines is a box for each line",
    "columns": "a block in several pieces is the rectangle round them",
    "clip": "a clip other than that of overflow in both directions is left out",
    "context": "a box that makes a stacking context without saying so has level 0",
    "reversed": "items of a reversed flexible box are painted in the order of the tree",
    "sticky": "a sticky box is a relative one where it stands now, of level 0 if it has none",
    "fixed": "a fixed box in a transformed one is an absolute box",
    "top-layer": "a box of the top layer is the last child of the root, fixed, of the highest level",
    "blend": "a blend mode that the format does not have is normal",
    "scrolled": "contents stand where they are scrolled to now",
    "root": "the canvas takes the background, the viewport the overflow of the body",
    "limits": "a box beyond the limits of the format is left out or cut",
}


class Notes:
    """What cannot be told: for each kind the boxes of which it is noted."""

    def __init__(self):
        self.boxes = {}

    def add(self, kind, name):
        names = self.boxes.setdefault(kind, [])
        if name not in names:
            names.append(name)

    def lines(self):
        for kind, meaning in MEANINGS.items():
            names = self.boxes.get(kind, [])
            if names:
                more = f" and {len(names) - 6} more" if len(names) > 6 else ""
                yield f"note: {kind}: {meaning}: {', '.join(names[:6])}{more}"


# ---------------------------------------------------------------------------------------------------------------------
# Values


def rounded(value):
    return math.floor(value + 0.5)


def pixels(text):
    """The number of a length in pixels."""
    return float(text[:-2]) if text.endswith("px") else 0.0


def channels(text):
    """Red, green, blue and alpha from 0 to 255 of `rgb(..)` or `rgba(..)`."""
    red, green, blue, *alpha = (float(v) for v in re.findall(r"[\d.]+", text))
    return tuple(rounded(v) for v in (red, green, blue, 255 * (alpha[0] if alpha else 1)))


def color_text(color):
    red, green, blue, alpha = color
    if alpha == 0:
        return "transparent"
    return "#" + bytes((red, green, blue, alpha) if alpha < 255 else (red, green, blue)).hex()


def over(above, below):
    """A colour laid over another one, neither premultiplied."""
    high, low = above[3] / 255, below[3] / 255
    alpha = high + low * (1 - high)
    if alpha == 0:
        return (0, 0, 0, 0)
    mixed = (rounded((a * high + b * low * (1 - high)) / alpha) for a, b in zip(above[:3], below[:3]))
    return (*mixed, rounded(255 * alpha))


def mean_of_stops(image):
    """The mean of the colours of a gradient; None where it names none."""
    stops = [channels(text) for text in re.findall(r"rgba?\([^)]*\)", image)]
    return tuple(rounded(sum(c) / len(stops)) for c in zip(*stops)) if stops else None


def hull(rects):
    lefts, tops, rights, bottoms = zip(*rects)
    return [min(lefts), min(tops), max(rights), max(bottoms)]


def whole_rect(edges):
    """The rectangle of the nearest whole edges, as Chromium rounds them when it paints."""
    left, top, right, bottom = map(rounded, edges)
    return [left, top, right - left, bottom - top]


def rect_round(edges):
    """The least rectangle of whole pixels round some edges."""
    left, top = map(math.floor, edges[:2])
    right, bottom = map(math.ceil, edges[2:])
    return [left, top, right - left, bottom - top]


def within_limits(rect):
    x, y, w, h = rect
    place = [max(-FARTHEST, min(FARTHEST, v)) for v in (x, y)]
    return place + [max(0, min(FARTHEST, v)) for v in (w, h)]


# ---------------------------------------------------------------------------------------------------------------------
# What elements are


def names_any(text, *words):
    return any(word in re.split(r"[\s,]+", text) for word in words)


def is_replaced(fact):
    return fact["kind"] == "replaced"


def is_plain_inline(fact):
    return fact["style"]["display"] == "inline" and not is_replaced(fact)


def is_block_in_flow(fact):
    style = fact["style"]
    is_out = style["position"] in ("absolute", "fixed") or style["float"] != "none"
    return not is_out and display_of(fact, None) == "block"


def is_item(fact, parent):
    """Is it an item of a flexible box or of a grid?"""
    in_flow = fact["style"]["position"] not in ("absolute", "fixed")
    return parent is not None and in_flow and names_any(parent["style"]["display"], *BOXES_OF_ITEMS)


BOXES_OF_ITEMS = ("flex", "inline-flex", "grid", "inline-grid")
TRANSFORMS = ("transform", "translate", "rotate", "scale", "perspective")
FILTERS = ("filter", "backdrop-filter")
MASKS = ("clip-path", "mask-image")


def has_any(fact, names):
    return any(fact["style"].get(name, "none") != "none" for name in names)


def contains_fixed(fact):
    """Is it the containing block of the absolute and fixed boxes in it, whatever its position?"""
    style = fact["style"]
    if is_plain_inline(fact):
        return False
    return (
        has_any(fact, TRANSFORMS + FILTERS)
        or names_any(style["contain"], "paint", "layout", "strict", "content")
        or names_any(style["will-change"], *TRANSFORMS, *FILTERS, "contain")
    )


def is_silent_context(fact):
    """Does it make a stacking context by a property that the format does not have?"""
    style = fact["style"]
    watched = (*MASKS, "opacity", "mix-blend-mode", "isolation", "z-index", "position", "mask")
    return has_any(fact, MASKS) or names_any(style["will-change"], *watched) or style["mix-blend-mode"] not in MODES


# ---------------------------------------------------------------------------------------------------------------------
# Styles: each function tells some members of the style of an element, and notes what it cannot tell


def display_of(fact, parent):
    word = fact["style"]["display"]
    if is_item(fact, parent):
        return "inline-block"
    if word in ("inline-block", "inline-flex", "inline-grid", "inline-table") or word == "inline flow-root":
        return "inline-block"
    if word == "inline" or word.startswith("ruby"):
        return "inline-block" if is_replaced(fact) else "inline"
    return "block"


def place_members(fact, parent, in_container):
    """Display, position, level and float."""
    style = fact["style"]
    position, level = style["position"], style["z-index"]
    item = is_item(fact, parent)
    level = "auto" if level == "auto" or position == "static" and not item else int(level)
    if position == "sticky" or (position == "fixed" and in_container):
        position = "relative" if position == "sticky" else "absolute"
        level = 0 if level == "auto" else level
    elif contains_fixed(fact):
        position = "relative" if position == "static" else position
        level = 0 if level == "auto" else level
    elif item and level != "auto" and position == "static":
        position = "relative"
    float_side = "none" if item else style["float"].replace("inline-start", "left").replace("inline-end", "right")
    return {"display": display_of(fact, parent), "position": position, "z-index": level, "float": float_side}


def note_place(fact, parent, in_container, note):
    position = fact["style"]["position"]
    if position == "sticky":
        note("sticky")
    if position == "fixed" and in_container:
        note("fixed")
    is_layered_item = is_item(fact, parent) and fact["style"]["z-index"] != "auto" and position == "static"
    if contains_fixed(fact) or is_silent_context(fact) or is_layered_item:
        note("context")
    if has_any(fact, TRANSFORMS) and not is_plain_inline(fact):
        note("transform")
    if has_any(fact, FILTERS + MASKS):
        note("effect")


def group_members(fact, place, note):
    """Opacity, blend mode and isolation."""
    style = fact["style"]
    mode = style["mix-blend-mode"]
    if mode not in MODES:
        note("blend")
        mode = "normal"
    opacity = rounded(255 * float(style["opacity"]))
    members = {"opacity": opacity, "mix-blend-mode": mode, "isolation": style["isolation"]}
    if is_silent_context(fact) and not (place["position"] != "static" and place["z-index"] != "auto"):
        members["isolation"] = "isolate"
    return members


def overflow_of(fact, note):
    style = fact["style"]
    across, along = style["overflow-x"], style["overflow-y"]
    if style["clip"] != "auto" and style["position"] in ("absolute", "fixed"):
        note("clip")
    if names_any(style["contain"], "paint", "strict", "content") and not is_plain_inline(fact):
        return "hidden"
    is_part = style["display"].startswith("table-") and style["display"] not in ("table-cell", "table-caption")
    if is_replaced(fact) or is_part:
        return "visible"
    if "visible" in (across, along):
        if across != along:
            note("clip")
        return "visible"
    return "hidden" if along == "clip" else along


def background_of(fact, note):
    style = fact["style"]
    color = channels(style["background-color"])
    if style["background-clip"] != "border-box" or set(style["background-blend-mode"].split(", ")) != {"normal"}:
        note("background")
    if style["background-image"] == "none":
        return color
    note("background")
    mean = mean_of_stops(style["background-image"]) or channels("rgb(192, 192, 192)")
    return over(mean, color)


def border_members(fact, note):
    """Four widths and one colour, that of the first side that shows."""
    style = fact["style"]
    widths = [min(MOST_WIDTH, rounded(pixels(style[f"border-{side}-width"]))) for side in SIDES]
    shown = [side for side, width in zip(SIDES, widths) if width > 0]
    if not shown:
        return {}
    looks = {(style[f"border-{side}-color"], style[f"border-{side}-style"]) for side in shown}
    if len(looks) > 1 or any(kind != "solid" for _, kind in looks) or style["border-image-source"] != "none":
        note("border")
    if style["border-collapse"] == "collapse" and style["display"].startswith("table"):
        note("border")
    return {"border-width": widths, "border-color": color_text(channels(style[f"border-{shown[0]}-color"]))}


def outline_members(fact, note):
    style = fact["style"]
    if style["outline-style"] == "none" or pixels(style["outline-width"]) == 0:
        return {}
    if style["outline-style"] != "solid" or pixels(style["outline-offset"]) != 0:
        note("outline")
    width = min(MOST_WIDTH, rounded(pixels(style["outline-width"])))
    return {"outline-width": width, "outline-color": color_text(channels(style["outline-color"]))}


def note_looks(fact, note):
    """Notes of what is left out of how an element looks."""
    style = fact["style"]
    if names_any(style["display"], "flex", "inline-flex") and style["flex-direction"].endswith("reverse"):
        note("reversed")
    if any(pixels(part) > 0 for corner in CORNERS for part in style[f"border-{corner}-radius"].split()):
        note("rounded")
    if style["box-shadow"] != "none" or style["text-shadow"] != "none":
        note("shadow")
    shows_marker = style["list-style-type"] != "none" or style["list-style-image"] != "none"
    if any(name != "::marker" or shows_marker for name in fact["pseudos"]):
        note("pseudo")
    if fact["kind"] == "control" or (fact["tag"] == "button" and style["appearance"] != "none"):
        note("control")
    if is_replaced(fact):
        note("image")


def style_of(fact, parent, in_container, note):
    """The style of an element, all members."""
    style = fact["style"]
    place = place_members(fact, parent, in_container)
    note_place(fact, parent, in_container, note)
    note_looks(fact, note)
    takes_none = fact["inert"] or style["pointer-events"] == "none"
    return {
        **place,
        **group_members(fact, place, note),
        "overflow": overflow_of(fact, note),
        "background": color_text(background_of(fact, note)),
        **border_members(fact, note),
        "content": UNKNOWN if is_replaced(fact) else None,
        **outline_members(fact, note),
        "visibility": style["visibility"],
        "pointer-events": "none" if takes_none else "auto",
    }


DEFAULTS = {
    **PLAIN,
    "opacity": 255,
    "mix-blend-mode": "normal",
    "isolation": "auto",
    "background": "transparent",
    "border-width": [0, 0, 0, 0],
    "content": None,
    "outline-width": 0,
    "visibility": "visible",
    "pointer-events": "auto",
}


def without_defaults(style):
    return {name: value for name, value in style.items() if name not in DEFAULTS or value != DEFAULTS[name]}


# ---------------------------------------------------------------------------------------------------------------------
# Names: an element's own id where it is one of the format and the first of its kind


class Names:
    """Ids that all differ; those that elements have are set aside."""

    def __init__(self, facts):
        self.own = {fact["id"] for fact in facts if fact.get("id")}
        self.taken = set()
        self.counts = {}

    def of(self, fact):
        name = fact["id"]
        if re.fullmatch(r"[A-Za-z0-9_.:-]{1,64}", name) and name not in self.taken:
            self.taken.add(name)
            return name
        return self.counted(re.sub(r"[^A-Za-z0-9_.-]", "-", fact["tag"])[:40])

    def counted(self, front):
        """The front with the next number that gives a free name."""
        front = front[:54]
        while True:
            self.counts[front] = self.counts.get(front, 0) + 1
            name = f"{front}{self.counts[front]}"
            if name not in self.taken and name not in self.own:
                self.taken.add(name)
                return name


def owner_of(name):
    """The element's name in the name of a box: those of lines of text, fragments and backdrops have more after a colon."""
    return name.split(":")[0]


# ---------------------------------------------------------------------------------------------------------------------
# The boxes


class Capture:
    """Puts the boxes of a page together, from the facts of `walk.js`."""

    def __init__(self, facts, width, height):
        self.facts, self.width, self.height = facts, width, height
        self.notes = Notes()
        self.names = Names(facts)
        self.boxes = []
        self.name_of = {}
        self.children = {}
        self.level_of = {None: 0}
        self.on_top = []
        for number, fact in enumerate(facts):
            if fact.get("onTop") and fact["parent"] is not None:
                self.on_top.append(number)
            else:
                self.children.setdefault(fact["parent"], []).append(number)

    def add(self, name, parent, rect, style):
        """One box, unless there would be too many or it would be too deep."""
        level = self.level_of.get(parent, MOST_LEVELS) + 1
        fits = level <= MOST_LEVELS and len(self.boxes) < MOST_BOXES
        if not fits or within_limits(rect) != rect:
            self.notes.add("limits", name)
        if fits:
            self.level_of[name] = level
            box = {"id": name, "parent": parent, "rect": within_limits(rect)}
            shown = without_defaults(style)
            self.boxes.append({**box, "style": shown} if shown else box)

    def run(self):
        self.element(0, None, False)
        for number in self.on_top:
            self.top_element(number)
        return self.boxes

    def element(self, number, parent, in_container, more=None):
        """The box of an element with all that is below it."""
        fact = self.facts[number]
        name = self.name_of[number] = self.names.of(fact)
        outer = None if fact["parent"] is None or more else self.facts[fact["parent"]]
        style = style_of(fact, outer, in_container, lambda kind: self.notes.add(kind, name))
        style = {**style, **(more or {})}
        if parent is None:
            style = self.root_style(style)
        elif fact["tag"] == "body" and self.is_viewport_body(fact):
            style = {**style, **self.body_members(fact)}
        self.own_boxes(number, name, parent, style)
        if parent is not None and any(fact["scroll"]):
            self.notes.add("scrolled", name)
        for child in self.in_order(number):
            if self.facts[child].get("text"):
                self.text(self.facts[child], name)
            else:
                self.element(child, name, in_container or contains_fixed(fact))

    def in_order(self, number):
        """The children in the order in which they are painted: items by their `order`."""
        parent = self.facts[number]

        def order(child):
            fact = self.facts[child]
            return 0 if fact.get("text") or not is_item(fact, parent) else int(fact["style"]["order"])

        return sorted(self.children.get(number, []), key=order)

    def without_captions(self, number, edges):
        """The edges of a table without its captions, which are round it (CSS 2.2 section 17.4)."""
        left, top, right, bottom = edges
        for fact in (self.facts[child] for child in self.children.get(number, [])):
            if not fact.get("text") and fact["style"]["display"] == "table-caption" and fact["rects"]:
                if fact["style"]["caption-side"] == "bottom":
                    bottom = min(bottom, fact["rects"][0][1])
                else:
                    top = max(top, fact["rects"][0][3])
        return [left, top, right, bottom]

    def own_boxes(self, number, name, parent, style):
        """The box of an element; of an inline one in several lines the first, with the others in it."""
        fact = self.facts[number]
        rects = [edges for edges in fact["rects"] if edges[0] < edges[2] or edges[1] < edges[3]] or fact["rects"][:1]
        if fact["style"]["display"] in ("table", "inline-table"):
            rects = [self.without_captions(number, edges) for edges in rects]
        if any(v != int(v) for edges in rects for v in edges):
            self.notes.add("fraction", name)
        if len(rects) < 2:
            self.add(name, parent, whole_rect(rects[0]) if rects else [0, 0, 0, 0], style)
        elif not is_plain_inline(fact):
            self.notes.add("columns", name)
            self.add(name, parent, whole_rect(hull(rects)), style)
        else:
            self.notes.add("lines", name)
            self.fragments(name, parent, self.lines_of(number, rects), style)

    def lines_of(self, number, rects):
        """The rectangles of an inline box that are of lines: those of blocks in it have other heights than the first."""
        first, rest = rects[0], [edges for edges in rects[1:] if edges[0] < edges[2]]
        if self.has_block(number):
            rest = [edges for edges in rest if abs((edges[3] - edges[1]) - (first[3] - first[1])) < 0.5]
        return [first, *rest]

    def has_block(self, number):
        """Is a block in flow in it, or in an inline box in it?"""
        children = [child for child in self.children.get(number, []) if not self.facts[child].get("text")]
        return any(
            is_block_in_flow(self.facts[child]) or (is_plain_inline(self.facts[child]) and self.has_block(child))
            for child in children
        )

    def fragments(self, name, parent, rects, style):
        """A box for each line, each in the first one, so that they share its group and come before what is in it."""
        widths = style.get("border-width", [0, 0, 0, 0])
        top, right, bottom, left = widths
        last = len(rects) - 1
        looks = ("background", "border-color", "outline-width", "outline-color", "visibility", "pointer-events")
        for place, edges in enumerate(rects):
            its = style if place == 0 else {"display": "inline", **{key: style[key] for key in looks if key in style}}
            if any(widths):
                sides = [top, right if place == last else 0, bottom, left if place == 0 else 0]
                its = {**its, "border-width": sides}
            its_name = name if place == 0 else self.names.counted(f"{name}:")
            self.add(its_name, parent if place == 0 else name, whole_rect(edges), its)

    def text(self, fact, parent):
        """An inline box for each line of a text."""
        style = fact["style"]
        its = {"display": "inline", "background": color_text(channels(style["color"]))}
        its.update({"visibility": style["visibility"], "pointer-events": style["pointer-events"]})
        its["pointer-events"] = "none" if its["pointer-events"] == "none" else "auto"
        for edges in joined_lines(fact["rects"]):
            self.notes.add("text", parent)
            self.add(self.names.counted(f"{parent}:t"), parent, rect_round(edges), its)

    def top_element(self, number):
        """A box of the top layer, over its backdrop."""
        fact, root = self.facts[number], self.boxes[0]["id"]
        position = {"position": "fixed", "z-index": MOST_Z, "float": "none", "display": "block"}
        at_once = len(self.boxes)
        self.element(number, root, False, position)
        name = self.name_of[number]
        self.notes.add("top-layer", name)
        if fact["backdrop"] is not None:
            below = self.boxes[at_once:]
            del self.boxes[at_once:]
            color = color_text(channels(fact["backdrop"]["color"]))
            hits = "none" if fact["backdrop"]["pointer-events"] == "none" else "auto"
            its = {"position": "fixed", "z-index": MOST_Z, "background": color, "pointer-events": hits}
            self.add(self.names.counted(f"{name}:backdrop"), root, [0, 0, self.width, self.height], its)
            self.boxes += below

    # the root and the body (CSS 2.2 sections 11.1.1 and 14.2)

    def body_number(self):
        return next((n for n, f in enumerate(self.facts) if f.get("tag") == "body" and f["parent"] == 0), None)

    def gives_background(self):
        """Does the body give its background to the canvas?"""
        root, body = self.facts[0], self.body_number()
        has_none = channels(root["style"]["background-color"])[3] == 0 and root["style"]["background-image"] == "none"
        return body is not None and has_none

    def is_viewport_body(self, fact):
        return fact["parent"] == 0 and (self.gives_background() or self.gives_overflow())

    def gives_overflow(self):
        """Does the body give its overflow to the viewport?"""
        style = self.facts[0]["style"]
        return style["overflow-x"] == "visible" and style["overflow-y"] == "visible"

    def root_style(self, style):
        if not self.gives_background():
            return style
        body = self.facts[self.body_number()]
        background = color_text(background_of(body, lambda kind: None))
        return {**style, "background": background}

    def body_members(self, fact):
        members = {}
        if self.gives_background():
            members["background"] = "transparent"
            if channels(fact["style"]["background-color"])[3] > 0 or fact["style"]["background-image"] != "none":
                self.notes.add("root", self.name_of[self.body_number()])
        if self.gives_overflow():
            members["overflow"] = "visible"
            if (fact["style"]["overflow-x"], fact["style"]["overflow-y"]) != ("visible", "visible"):
                self.notes.add("root", self.name_of[self.body_number()])
        return members


def joined_lines(rects):
    """The rectangles of a text, those joined that touch in one line."""
    lines = []
    for left, top, right, bottom in rects:
        if lines and lines[-1][1] == top and lines[-1][3] == bottom and abs(lines[-1][2] - left) < 0.5:
            lines[-1][2] = right
        else:
            lines.append([left, top, right, bottom])
    return lines


# ---------------------------------------------------------------------------------------------------------------------
# The script


def scroll_commands(page, notes):
    """The commands that tell how far boxes are scrolled: none, since the format has no scroll offsets; a note instead."""
    if any(page["page"]):
        notes.add("scrolled", "the page")
    return []


def script_of(page, width, height):
    """The script of the facts of a page, its notes, and the names of the boxes by their numbers."""
    capture = Capture(page["facts"], width, height)
    boxes = capture.run()
    new = any(name in box.get("style", {}) for box in boxes for name in ("mix-blend-mode", "isolation"))
    commands = [*scroll_commands(page, capture.notes), {"do": "paint"}]
    script = {"version": 2 if new else 1, "canvas": {"w": width, "h": height}, "boxes": boxes, "script": commands}
    return script, capture.notes, capture.name_of


def script_text(script):
    """A script with a line for each box."""
    boxes = ",\n".join("  " + json.dumps(box) for box in script["boxes"])
    rest = {key: json.dumps(script[key]) for key in ("version", "canvas", "script")}
    head = f'{{"version": {rest["version"]}, "canvas": {rest["canvas"]}, "boxes": [\n'
    return f'{head}{boxes}\n], "script": {rest["script"]}}}\n'


def read_page(page, step=20):
    """The facts of an open page, with what is hit at the points of a grid."""
    here = os.path.dirname(os.path.abspath(__file__))
    with open(os.path.join(here, "walk.js"), encoding="utf-8") as text:
        return json.loads(page.value(text.read().replace("STEP", str(step))))


def url_of(word):
    if re.match(r"[a-z][a-z0-9+.-]*:", word):
        return word
    path = pathlib.Path(word).resolve()
    if not path.is_file():
        sys.exit(f"capture.py: no file {word}")
    return path.as_uri()


def command_line():
    parser = argparse.ArgumentParser(description="Makes a script of a page.")
    parser.add_argument("page", metavar="URL_OR_FILE")
    parser.add_argument("--size", nargs=2, type=int, default=(800, 600), metavar=("W", "H"))
    parser.add_argument("--picture", metavar="FILE", help="keep Chromium's screenshot, a PNG")
    words = parser.parse_args()
    if not all(1 <= side <= 4096 for side in words.size):
        parser.error("a canvas is from 1 to 4096 pixels wide and high")
    return words


def main():
    words = command_line()
    url = url_of(words.page)
    try:
        with browser.Browser(is_offline=url.startswith("file:")) as chromium:
            page = chromium.open(url, *words.size)
            facts = read_page(page)
            picture = page.screenshot() if words.picture else None
    except browser.BrowserFault as fault:
        sys.exit(f"capture.py: {fault}")
    script, notes, _ = script_of(facts, *words.size)
    if picture is not None:
        pathlib.Path(words.picture).write_bytes(picture)
    sys.stdout.write(script_text(script))
    sys.stderr.writelines(line + "\n" for line in notes.lines())


if __name__ == "__main__":
    main()
