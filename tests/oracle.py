"""What the program has to answer, worked out once more, slowly and plainly.

This is a second writing of the rules of docs/DEFINITIONS.md and docs/FORMATS.md, in their order and in their words. It
shares no code with the program and none of its ways: it keeps no list from paint to paint, no graph of orders, no index
and no hull; each paint goes over all boxes, and each pixel over all leaves.

    answer(script_bytes)             what `replay` writes: standard output in parts, standard error, exit status
    picture_answer(script_bytes)     what `render` writes
    first_difference(parts, text)    the first line of a text that is no such output; None where it is one

The one freedom that the rules leave is the order of leaves that share no pixel in a kept list, so a dump is a part of its
own (Dump), which is compared as the definition of `StandsFor` compares lists.
"""
import collections
import hashlib
import json
import re

# ---------------------------------------------------------------------------------------------------------------------
# Limits

MOST_BOXES = 20_000
MOST_COMMANDS = 1_000_000
MOST_LEVELS = 256
MOST_SIDE = 4_096
FARTHEST = 1_000_000
MOST_WIDTH = 1_000
MOST_DISTANCE = 2_000_000
MOST_UNDOS = 100
MOST_NESTED = 127
MOST_BYTES = 67_108_864

# ---------------------------------------------------------------------------------------------------------------------
# Rectangles: the columns x to x + w - 1 and the rows y to y + h - 1

Rect = collections.namedtuple("Rect", "x y w h")
NO_PIXELS = Rect(0, 0, 0, 0)


def has_none(r):
    return r.w <= 0 or r.h <= 0


def holds(r, x, y):
    return r.x <= x < r.x + r.w and r.y <= y < r.y + r.h


def spanning(left, top, right, bottom):
    if left < right and top < bottom:
        return Rect(left, top, right - left, bottom - top)
    return NO_PIXELS


def meet(a, b):
    return spanning(max(a.x, b.x), max(a.y, b.y), min(a.x + a.w, b.x + b.w), min(a.y + a.h, b.y + b.h))


def meets(a, b):
    return not has_none(meet(a, b))


def inset(r, top, right, bottom, left):
    return spanning(r.x + left, r.y + top, r.x + r.w - right, r.y + r.h - bottom)


def outset(r, n):
    return Rect(r.x - n, r.y - n, r.w + 2 * n, r.h + 2 * n)


def pixels_of(r):
    return {(x, y) for y in range(r.y, r.y + r.h) for x in range(r.x, r.x + r.w)}


def is_allowed(r):
    """May a box have this rectangle?"""
    return all(-FARTHEST <= v <= FARTHEST for v in (r.x, r.y)) and all(0 <= v <= FARTHEST for v in (r.w, r.h))


# ---------------------------------------------------------------------------------------------------------------------
# Colours: channels of 8 bits, premultiplied where pixels are composed

TRANSPARENT = (0, 0, 0, 0)
BLACK = (0, 0, 0, 255)
WHITE = (255, 255, 255, 255)
CLEAR = (0, 0, 0, 0)


def times(a, b):
    return (a * b + 127) // 255


def premultiplied(color):
    red, green, blue, alpha = color
    return (times(red, alpha), times(green, alpha), times(blue, alpha), alpha)


def laid_over(source, backdrop):
    return tuple(s + times(b, 255 - source[3]) for s, b in zip(source, backdrop))


def scaled(pixel, opacity):
    return tuple(times(channel, opacity) for channel in pixel)


# of a blend mode: a channel of a source and one of its backdrop, mixed at the opacities of both
MIXTURES = {
    "multiply": lambda s, b, above, below: times(s, b) + times(s, 255 - below) + times(b, 255 - above),
    "screen": lambda s, b, above, below: s + b - times(s, b),
    "darken": lambda s, b, above, below: s + b - max(times(s, below), times(b, above)),
    "lighten": lambda s, b, above, below: s + b - min(times(s, below), times(b, above)),
}


def blended(mode, source, backdrop):
    """A source put onto its backdrop (CSS Compositing 1 section 10.1): no channel is more than the opacity."""
    if mode == "normal":
        return laid_over(source, backdrop)
    above, below = source[3], backdrop[3]
    opacity = above + times(below, 255 - above)
    mixed = (MIXTURES[mode](s, b, above, below) for s, b in zip(source[:3], backdrop[:3]))
    return (*(min(channel, opacity) for channel in mixed), opacity)


def hexadecimal(channels):
    return "".join(f"{channel:02x}" for channel in channels)


# ---------------------------------------------------------------------------------------------------------------------
# Reading a script


class NotJson(Exception):
    """The bytes are no JSON."""


class Broken(Exception):
    """The first rule of the format that is broken, and where, once this is known."""

    def __init__(self, rule, place=None):
        super().__init__(rule)
        self.rule, self.place = rule, place


def owed(test, rule):
    if not test:
        raise Broken(rule)


def at(place, read, *args):
    """What is read; a rule that is broken there is broken at this place."""
    try:
        return read(*args)
    except Broken as broken:
        raise Broken(broken.rule, broken.place or place) from None


def json_integer(text):
    """A whole number of 64 bits; any other number is a double, one beyond the doubles is no JSON."""
    digits = text.lstrip("-")
    if len(digits) <= 19 and text != "-0" and -(2**63) <= int(text) < 2**63:
        return int(text)
    return json_double(text)


def json_double(text):
    value = float(text)
    if value in (float("inf"), float("-inf")):
        raise NotJson
    return value


def has_lone_surrogate(value):
    """Of a string or an array; an object was asked when it was made."""
    if isinstance(value, str):
        return any("\ud800" <= c <= "\udfff" for c in value)
    return isinstance(value, list) and any(map(has_lone_surrogate, value))


def json_object(pairs):
    """Of members of one name the last one counts."""
    if any(has_lone_surrogate(name) or has_lone_surrogate(value) for name, value in pairs):
        raise NotJson
    return dict(pairs)


def no_constant(text):
    raise NotJson


def nested_levels(text):
    levels = most = 0
    for bracket in re.findall(r"[][{}]", re.sub(r'"(?:[^"\\]|\\.)*"', "", text, flags=re.DOTALL)):
        levels += 1 if bracket in "[{" else -1
        most = max(most, levels)
    return most


def json_value(script_bytes):
    try:
        text = script_bytes.decode("utf-8")
        if nested_levels(text) > MOST_NESTED:
            raise NotJson
        value = json.loads(
            text,
            parse_int=json_integer,
            parse_float=json_double,
            parse_constant=no_constant,
            object_pairs_hook=json_object,
        )
    except ValueError:
        raise NotJson from None
    if has_lone_surrogate(value):
        raise NotJson
    return value


def object_of(value):
    owed(isinstance(value, dict), "Kind")
    return value


def only_members(value, names):
    owed(all(name in names for name in value), "Unknown")


def member(value, name):
    owed(name in value, "Missing")
    return value[name]


def string_of(value):
    owed(isinstance(value, str), "Kind")
    return value


def array_of(value):
    owed(isinstance(value, list), "Kind")
    return value


def whole_number(value):
    owed(type(value) is int, "Kind")
    return value


def within(low, high, number):
    owed(low <= number <= high, "Range")
    return number


def number_from(low, high):
    return lambda value: within(low, high, whole_number(value))


def four_numbers(value):
    owed(len(array_of(value)) == 4, "Kind")
    return [whole_number(v) for v in value]


def rect_of(value):
    x, y, w, h = four_numbers(value)
    return Rect(
        within(-FARTHEST, FARTHEST, x),
        within(-FARTHEST, FARTHEST, y),
        within(0, FARTHEST, w),
        within(0, FARTHEST, h),
    )


def sides_of(value):
    return tuple(within(0, MOST_WIDTH, v) for v in four_numbers(value))


def color_of(value):
    text = string_of(value)
    if text == "transparent":
        return TRANSPARENT
    owed(re.fullmatch(r"#([0-9a-fA-F]{6}|[0-9a-fA-F]{8})", text), "Color")
    channels = tuple(bytes.fromhex(text[1:]))
    return channels if len(channels) == 4 else channels + (255,)


def content_of(value):
    return None if value is None else color_of(value)


def z_of(value):
    return "auto" if value == "auto" else number_from(-(2**31), 2**31 - 1)(value)


def word_of(*words):
    def read(value):
        owed(string_of(value) in words, "Kind")
        return value

    return read


# the members of a style in their order: how each is read, and its default
STYLE = {
    "position": (word_of("static", "relative", "absolute", "fixed"), "static"),
    "z-index": (z_of, "auto"),
    "opacity": (number_from(0, 255), 255),
    "overflow": (word_of("visible", "hidden", "scroll", "auto"), "visible"),
    "display": (word_of("block", "inline", "inline-block"), "block"),
    "float": (word_of("none", "left", "right"), "none"),
    "background": (color_of, TRANSPARENT),
    "border-width": (sides_of, (0, 0, 0, 0)),
    "border-color": (color_of, BLACK),
    "content": (content_of, None),
    "outline-width": (number_from(0, MOST_WIDTH), 0),
    "outline-color": (color_of, BLACK),
    "visibility": (word_of("visible", "hidden", "collapse"), "visible"),
    "pointer-events": (word_of("auto", "none"), "auto"),
    "mix-blend-mode": (word_of("normal", *MIXTURES), "normal"),
    "isolation": (word_of("auto", "isolate"), "auto"),
}
PLAIN = {name: default for name, (_, default) in STYLE.items()}

# the members that version 1 does not have
SINCE_2 = ("mix-blend-mode", "isolation")


def change_of(value, version):
    only_members(object_of(value), [name for name in STYLE if version == 2 or name not in SINCE_2])
    return {name: read(value[name]) for name, (read, _) in STYLE.items() if name in value}


def style_in(value, version):
    return {**PLAIN, **(change_of(value["style"], version) if "style" in value else {})}


def is_id(text):
    return re.fullmatch(r"[A-Za-z0-9_.:-]{1,64}", text) is not None


def id_of(value):
    owed(is_id(string_of(value)), "Range")
    return value


def id_at(name):
    return lambda value, version: id_of(member(value, name))


def before_in(value, version):
    return None if value.get("before") is None else id_of(value["before"])


def new_id_in(value, depths):
    name = id_of(member(value, "id"))
    owed(name not in depths, "Duplicate")
    return name


def parent_in(value, depths):
    """The parent's id: none of the first box, and that of an earlier one of every other."""
    name = member(value, "parent")
    if name is None:
        owed(not depths, "Parent")
        return None
    owed(string_of(name) in depths, "Parent")
    owed(depths[name] < MOST_LEVELS, "Depth")
    return name


def box_of(value, depths, version):
    only_members(object_of(value), ("id", "parent", "rect", "style"))
    name = new_id_in(value, depths)
    parent = parent_in(value, depths)
    return {"id": name, "parent": parent, "rect": rect_at(value, version), "style": style_in(value, version)}


def rect_at(value, version):
    return rect_of(member(value, "rect"))


def change_at(value, version):
    return change_of(member(value, "style"), version)


def number_at(name, most):
    return lambda value, version: number_from(-most, most)(member(value, name))


PIXEL = {"x": number_at("x", FARTHEST), "y": number_at("y", FARTHEST)}

# the members of each command beside `do`, in their order, and how each is read in a script of a version
COMMANDS = {
    "insert": {
        "id": id_at("id"),
        "parent": id_at("parent"),
        "before": before_in,
        "rect": rect_at,
        "style": style_in,
    },
    "remove": {"id": id_at("id")},
    "move": {"id": id_at("id"), "parent": id_at("parent"), "before": before_in},
    "style": {"id": id_at("id"), "style": change_at},
    "rect": {"id": id_at("id"), "rect": rect_at},
    "shift": {"id": id_at("id"), "dx": number_at("dx", MOST_DISTANCE), "dy": number_at("dy", MOST_DISTANCE)},
    "scroll": {"id": id_at("id"), "x": number_at("x", MOST_DISTANCE), "y": number_at("y", MOST_DISTANCE)},
    "paint": {},
    "hit": PIXEL,
    "pixel": PIXEL,
    "dump": {},
    "shot": {},
    "undo": {},
}

# the commands that version 1 does not have
COMMANDS_SINCE_2 = ("scroll", "undo")
EDITS = ("insert", "remove", "move", "style", "rect", "shift", "scroll")


def command_of(value, version):
    name = string_of(member(object_of(value), "do"))
    owed(name in COMMANDS and (version == 2 or name not in COMMANDS_SINCE_2), "Command")
    only_members(value, ("do", *COMMANDS[name]))
    return {"do": name, **{key: read(value, version) for key, read in COMMANDS[name].items()}}


def canvas_of(value):
    only_members(object_of(value), ("w", "h"))
    side = number_from(1, MOST_SIDE)
    return Rect(0, 0, side(member(value, "w")), side(member(value, "h")))


def version_of(value):
    only_members(object_of(value), ("version", "canvas", "boxes", "script"))
    return number_from(1, 2)(member(value, "version"))


def array_at(value, name, low, high):
    array = array_of(member(value, name))
    owed(low <= len(array) <= high, "Count")
    return array


def boxes_of(array, version):
    boxes, depths = [], {}
    for number, value in enumerate(array):
        box = at(f"box {number}", box_of, value, depths, version)
        depths[box["id"]] = 1 if box["parent"] is None else depths[box["parent"]] + 1
        boxes.append(box)
    return boxes


def read_script(script_bytes):
    """The canvas, the boxes and the commands."""
    value = json_value(script_bytes)
    version = at("top", version_of, value)
    canvas = at("canvas", canvas_of, at("top", member, value, "canvas"))
    boxes = boxes_of(at("top", array_at, value, "boxes", 1, MOST_BOXES), version)
    commands = at("top", array_at, value, "script", 0, MOST_COMMANDS)
    return canvas, boxes, [at(f"command {n}", command_of, c, version) for n, c in enumerate(commands)]


# ---------------------------------------------------------------------------------------------------------------------
# Trees: a box is itself and no other, whatever its id, so that an id may come back with another box


class Box:
    def __init__(self, name, parent, rect, style):
        self.id, self.parent, self.rect, self.style = name, parent, rect, style
        self.scroll = (0, 0)
        self.children = []
        self.touched = False

    def subtree(self):
        """The box and all below it, in tree order."""
        return [self] + [box for child in self.children for box in child.subtree()]

    def below(self):
        return self.subtree()[1:]

    def above(self):
        """The boxes above it, the nearest first."""
        boxes, box = [], self.parent
        while box is not None:
            boxes.append(box)
            box = box.parent
        return boxes

    def next_id(self):
        """The id of its next sibling; None where it has none."""
        later = self.parent.children[self.parent.children.index(self) + 1 :]
        return later[0].id if later else None

    def depth(self):
        return 1 + len(self.above())

    def levels(self):
        """How many levels it has with all that is below it."""
        return 1 + max((child.levels() for child in self.children), default=0)


def is_root(box):
    return box.parent is None


def put(box, parent, before):
    box.parent = parent
    place = parent.children.index(before) if before else len(parent.children)
    parent.children.insert(place, box)


def touch(boxes):
    for box in boxes:
        box.touched = True


def touch_context_of(box, is_asked):
    """Where it is asked, the nearest stacking context above a box with all that is below it; but not the root's."""
    context = next((b for b in box.above() if is_context(b)), None)
    if is_asked and context is not None and not is_root(context):
        touch(context.subtree())


def has_blended(box):
    """Is it or a box below it blended? The root is no such box, whatever its mode."""
    return any(is_blended(b) and not is_root(b) for b in box.subtree())


# the members from which classes, levels and clips follow, but for the border widths of a box that clips
MAY_MOVE_LAYERS = ("position", "z-index", "opacity", "overflow", "display", "float", "mix-blend-mode", "isolation")


class Tree:
    def __init__(self, canvas, boxes):
        self.canvas = canvas
        self.root = Box(boxes[0]["id"], None, boxes[0]["rect"], boxes[0]["style"])
        for box in boxes[1:]:
            parent = self.find(box["parent"])
            put(Box(box["id"], parent, box["rect"], box["style"]), parent, None)
        self.undos = []

    def boxes(self):
        return self.root.subtree()

    def find(self, name):
        return next((box for box in self.boxes() if box.id == name), None)

    def refusal(self, edit):
        """The number of the first test that refuses the edit; None where none does."""
        box, parent, before = (self.find(edit.get(key)) for key in ("id", "parent", "before"))
        is_placed = edit["do"] in ("insert", "move")
        is_moved = edit["do"] == "move"
        if edit["do"] != "insert" and box is None:
            return 1
        if is_placed and parent is None:
            return 2
        if edit["do"] in ("remove", "move") and is_root(box):
            return 3
        if is_moved and parent in box.subtree():
            return 4
        if is_placed and edit["before"] is not None and (before is None or before.parent is not parent):
            return 5
        if is_moved and before is box:
            return 5
        if edit["do"] == "insert" and box is not None:
            return 6
        if is_placed and parent.depth() + (box.levels() if is_moved else 1) > MOST_LEVELS:
            return 7
        if edit["do"] == "insert" and len(self.boxes()) >= MOST_BOXES:
            return 8
        if edit["do"] == "shift" and not all(is_allowed(shifted(b.rect, edit)) for b in box.subtree()):
            return 9
        if edit["do"] == "scroll" and max(abs(edit["x"]), abs(edit["y"])) > FARTHEST:
            return 9
        return None

    def edit(self, edit):
        """The number of the test that refuses the edit; None where it is done, and what undoes it is kept."""
        refusal = self.refusal(edit)
        if refusal is None:
            self.undos = [*self.undos, self.inverse(edit)][-MOST_UNDOS:]
            getattr(self, edit["do"])(edit)
        return refusal

    def undo(self):
        """How many edits take back the latest edit that is not taken back; None where none is kept."""
        if not self.undos:
            return None
        return sum(self.takes(edit) for edit in self.undos.pop())

    def takes(self, edit):
        """Is the edit done? What undoes it is not kept."""
        is_done = self.refusal(edit) is None
        if is_done:
            getattr(self, edit["do"])(edit)
        return is_done

    def inverse(self, edit):
        """What undoes an edit that is accepted, told before it is done."""
        box = self.find(edit["id"])
        if edit["do"] == "remove":
            return put_back(box)
        back = {
            "insert": lambda: {"do": "remove"},
            "move": lambda: {"parent": box.parent.id, "before": box.next_id()},
            "style": lambda: {"style": {name: box.style[name] for name in edit["style"]}},
            "rect": lambda: {"rect": box.rect},
            "shift": lambda: {"dx": -edit["dx"], "dy": -edit["dy"]},
            "scroll": lambda: dict(zip("xy", box.scroll)),
        }
        return [{"do": edit["do"], "id": edit["id"], **back[edit["do"]]()}]

    def insert(self, edit):
        box = Box(edit["id"], None, edit["rect"], edit["style"])
        put(box, self.find(edit["parent"]), self.find(edit["before"]))
        touch([box])
        touch_context_of(box, has_blended(box))

    def remove(self, edit):
        box = self.find(edit["id"])
        touch(box.subtree())
        touch_context_of(box, has_blended(box))
        box.parent.children.remove(box)

    def move(self, edit):
        box, parent, before = (self.find(edit[key]) for key in ("id", "parent", "before"))
        touch(box.subtree())
        touch_context_of(box, has_blended(box))
        box.parent.children.remove(box)
        put(box, parent, before)
        touch_context_of(box, has_blended(box))

    def style(self, edit):
        box, change = self.find(edit["id"]), edit["style"]
        names_class = any(name in change for name in MAY_MOVE_LAYERS)
        had_blended = has_blended(box)
        if names_class or ("border-width" in change and clips(box)):
            touch(box.subtree())
        elif change:
            touch([box])
        box.style = {**box.style, **change}
        touch_context_of(box, names_class and (had_blended or has_blended(box)))

    def rect(self, edit):
        box = self.find(edit["id"])
        touch(box.subtree() if clips(box) else [box])
        box.rect = edit["rect"]

    def shift(self, edit):
        for box in self.find(edit["id"]).subtree():
            touch([box])
            box.rect = shifted(box.rect, edit)

    def scroll(self, edit):
        box = self.find(edit["id"])
        box.scroll = edit["x"], edit["y"]
        touch(box.below() if clips(box) else [])


def put_back(box):
    """A box and all below it in tree order: the box before its next sibling, the others last, and then the scroll offsets."""
    boxes = box.subtree()
    inserted = [
        {
            "do": "insert",
            "id": b.id,
            "parent": b.parent.id,
            "before": b.next_id() if b is box else None,
            "rect": b.rect,
            "style": b.style,
        }
        for b in boxes
    ]
    return inserted + [{"do": "scroll", "id": b.id, **dict(zip("xy", b.scroll))} for b in boxes if b.scroll != (0, 0)]


def shifted(r, edit):
    return Rect(r.x + edit["dx"], r.y + edit["dy"], r.w, r.h)


# ---------------------------------------------------------------------------------------------------------------------
# Classes and levels


def is_positioned(box):
    return box.style["position"] != "static"


def is_out_of_flow(box):
    return box.style["position"] in ("absolute", "fixed")


def is_translucent(box):
    return box.style["opacity"] < 255


def is_blended(box):
    return box.style["mix-blend-mode"] != "normal"


def is_put_as_a_whole(box):
    """Does its style ask that it comes onto what is below it as one?"""
    return is_translucent(box) or is_blended(box) or box.style["isolation"] == "isolate"


def does_float(box):
    return box.style["float"] != "none" and not is_out_of_flow(box) and not is_root(box)


def is_blocky(box):
    """Is it laid out as a block?"""
    return is_root(box) or box.style["display"] != "inline" or does_float(box) or is_out_of_flow(box)


def clips(box):
    return not is_root(box) and is_blocky(box) and box.style["overflow"] != "visible"


def class_of(box):
    if not is_root(box) and (is_positioned(box) or is_put_as_a_whole(box)):
        return "layer"
    if does_float(box):
        return "float"
    if is_root(box) or box.style["display"] == "block":
        return "block"
    return "atom" if box.style["display"] == "inline-block" else "inline"


def level_of(box):
    """The level of the root or of a layer: a number, or `auto`; None of any other box."""
    if is_root(box):
        return 0
    if class_of(box) != "layer":
        return None
    if not is_positioned(box):
        return 0
    if box.style["z-index"] == "auto" and (is_put_as_a_whole(box) or box.style["position"] == "fixed"):
        return 0
    return box.style["z-index"]


def is_context(box):
    """Does it make a stacking context?"""
    return level_of(box) not in (None, "auto")


# ---------------------------------------------------------------------------------------------------------------------
# What may be seen

# the owner is a box; a leaf covers the pixels of `outer` that are not in `inner` and lie in `visible`
Leaf = collections.namedtuple("Leaf", "owner part visible outer inner color hits")
PARTS = ("back", "border", "content", "outline")


def containing_chain(box):
    """Its containing block, the one of that, and so on: the boxes that clip it, and scroll it, where they clip."""
    if box.style["position"] == "fixed" or is_root(box):
        return []
    block = box.parent
    if box.style["position"] == "absolute":
        block = next((b for b in box.above() if is_positioned(b)), None)
    return [] if block is None else [block] + containing_chain(block)


def drawn_at(box):
    """Where its border box is drawn: its rectangle less the scroll offsets of the boxes that clip it."""
    offsets = [block.scroll for block in containing_chain(box) if clips(block)]
    return Rect(box.rect.x - sum(x for x, _ in offsets), box.rect.y - sum(y for _, y in offsets), box.rect.w, box.rect.h)


def padding_box(box):
    return inset(drawn_at(box), *box.style["border-width"])


def clip_of(box, canvas):
    clip = canvas
    for block in containing_chain(box):
        if clips(block):
            clip = meet(clip, padding_box(block))
    return clip


def shape_of(box, part, canvas):
    """The outer and the inner rectangle and the colour of a part; None where the box has no such part."""
    style, drawn = box.style, drawn_at(box)
    if part == "back":
        return (canvas if is_root(box) else drawn), NO_PIXELS, style["background"]
    if part == "border" and any(style["border-width"]):
        return drawn, padding_box(box), style["border-color"]
    if part == "content" and style["content"] is not None:
        return padding_box(box), NO_PIXELS, style["content"]
    if part == "outline" and style["outline-width"] > 0:
        inner = NO_PIXELS if has_none(drawn) else drawn
        return outset(drawn, style["outline-width"]), inner, style["outline-color"]
    return None


def leaves(box, part, canvas):
    """The leaf of a part of a box, or none."""
    shape = shape_of(box, part, canvas)
    if box.style["visibility"] != "visible" or shape is None:
        return []
    outer, inner, color = shape
    visible = meet(outer, clip_of(box, canvas))
    if has_none(visible):
        return []
    return [Leaf(box, part, visible, outer, inner, color, box.style["pointer-events"] == "auto")]


def covers(leaf, x, y):
    return holds(leaf.visible, x, y) and holds(leaf.outer, x, y) and not holds(leaf.inner, x, y)


# ---------------------------------------------------------------------------------------------------------------------
# The painting order (CSS 2.2 Appendix E.2)

# a list has leaves and groups, from bottom to top; the owner of a group is a box
Group = collections.namedtuple("Group", "owner opacity mode entries")


def between(e, x):
    """The boxes strictly between e and a box x below it."""
    above = x.above()
    return above[: above.index(e)]


def is_local(e, x):
    return all(class_of(b) in ("block", "inline") for b in between(e, x))


def is_layer_of(e, x):
    return class_of(x) == "layer" and not any(is_context(b) for b in between(e, x))


def is_grouped(x):
    """Is it one group? A blended layer makes one of the stacking context that it is in, so that it blends with that alone;
    but not of the root."""
    has_blended_layer = any(is_blended(y) and is_layer_of(x, y) for y in x.below())
    return is_context(x) and (is_translucent(x) or is_blended(x) or (not is_root(x) and has_blended_layer))


def is_in_line_of(c, x):
    return (
        class_of(x) in ("inline", "atom")
        and c in x.above()
        and all(class_of(b) == "inline" for b in between(c, x))
    )


class Painter:
    def __init__(self, canvas):
        self.canvas = canvas

    def part(self, box, *parts):
        return [leaf for part in parts for leaf in leaves(box, part, self.canvas)]

    def content_and_line(self, c, local):
        entries = self.part(c, "content")
        for x in (x for x in local if is_in_line_of(c, x)):
            entries += self.steps(x) if class_of(x) == "atom" else self.part(x, "back", "border", "content")
        return entries

    def layers(self, e, test):
        """The layers of a stacking context whose levels pass a test, the lowest first, then in tree order."""
        if not is_context(e):
            return []
        number = {x: 0 if level_of(x) == "auto" else level_of(x) for x in e.below() if is_layer_of(e, x)}
        chosen = [x for x in number if test(number[x])]
        return [entry for x in sorted(chosen, key=number.get) for entry in self.entry(x)]

    def steps(self, e):
        """All that e paints, from bottom to top."""
        local = [x for x in e.below() if is_local(e, x)]
        blocks = [x for x in local if class_of(x) == "block"]
        entries = []
        # 1 and 2: the background of the root; of a block its background and border
        if is_root(e) or is_blocky(e):
            entries += self.part(e, "back", "border")
        # 3: the layers of negative level
        entries += self.layers(e, lambda level: level < 0)
        # 4: the backgrounds and borders of the blocks
        for x in blocks:
            entries += self.part(x, "back", "border")
        # 5: the floats, each with all that it paints
        for x in local:
            if class_of(x) == "float":
                entries += self.steps(x)
        # 6: of an inline box its background, border, content and line
        if not is_blocky(e):
            entries += self.part(e, "back", "border") + self.content_and_line(e, local)
        # 7: of a block its content and line; then those of the blocks below
        if is_blocky(e):
            entries += self.content_and_line(e, local)
        for x in blocks:
            entries += self.content_and_line(x, local)
        # 8 and 9: the layers of level auto or 0, and those of positive level
        entries += self.layers(e, lambda level: level == 0)
        entries += self.layers(e, lambda level: level > 0)
        # 10: the outlines
        entries += self.part(e, "outline")
        for x in local:
            if class_of(x) in ("block", "inline"):
                entries += self.part(x, "outline")
        return entries

    def entry(self, box):
        """What a layer or the root paints, in a group of its own where it is grouped."""
        entries = self.steps(box)
        if flat(entries) and is_grouped(box):
            return [Group(box, box.style["opacity"], box.style["mix-blend-mode"], entries)]
        return entries


def fresh_list(tree):
    return Painter(tree.canvas).entry(tree.root)


def flat(entries):
    """The leaves from bottom to top, out of their groups."""
    return [leaf for entry in entries for leaf in (flat(entry.entries) if isinstance(entry, Group) else [entry])]


# ---------------------------------------------------------------------------------------------------------------------
# Pixels and hits


def composed(entries, x, y, backdrop):
    for entry in entries:
        if isinstance(entry, Group):
            source = scaled(composed(entry.entries, x, y, CLEAR), entry.opacity)
            backdrop = blended(entry.mode, source, backdrop)
        elif covers(entry, x, y):
            backdrop = laid_over(premultiplied(entry.color), backdrop)
    return backdrop


def pixel(entries, x, y):
    return composed(entries, x, y, WHITE)[:3]


def hit(entries, x, y):
    """The box of the topmost leaf that is hit; None where there is none."""
    for leaf in reversed(flat(entries)):
        if covers(leaf, x, y) and leaf.part != "outline" and leaf.hits:
            return leaf.owner
    return None


def picture(entries, canvas):
    head = f"P6\n{canvas.w} {canvas.h}\n255\n".encode()
    return head + bytes(c for y in range(canvas.h) for x in range(canvas.w) for c in pixel(entries, x, y))


# ---------------------------------------------------------------------------------------------------------------------
# The machine


class Dump:
    """The list of a tree with the number of each leaf's item; the ids are those of the moment."""

    def __init__(self, entries, made):
        self.root = [self.named(entry, made) for entry in entries]

    def named(self, entry, made):
        if isinstance(entry, Group):
            inner = [self.named(e, made) for e in entry.entries]
            return Group(entry.owner.id, entry.opacity, entry.mode, inner)
        return (leaf_words(entry, made[entry.owner, entry.part]), entry.visible)


def words(*values):
    return " ".join(str(value) for value in values)


def leaf_words(leaf, made):
    """The line of a leaf without `item` and its depth."""
    inner = NO_PIXELS if has_none(leaf.inner) else leaf.inner
    return words(
        leaf.owner.id,
        leaf.part,
        *leaf.visible,
        *leaf.outer,
        *inner,
        hexadecimal(leaf.color),
        "auto" if leaf.hits else "none",
        made,
    )


class Machine:
    """From one command to the next: the tree, the list of the last paint, whether it is pending, items' numbers, totals."""

    def __init__(self, canvas, boxes):
        self.tree = Tree(canvas, boxes)
        self.painted = []
        self.paints = 0
        self.pending = True
        self.made = {}
        self.totals = dict.fromkeys(("accepted", "refused", "built", "area"), 0)

    def invalid_area(self, now):
        """The pixels to be painted anew: all the first time, and later those where a touched box shows or showed."""
        if self.paints == 0:
            return pixels_of(self.tree.canvas)
        touched = [leaf.visible for leaf in flat(self.painted) + flat(now) if leaf.owner.touched]
        return set().union(*(pixels_of(visible) for visible in touched))

    def paint(self):
        """Paints, and answers the line of the paint."""
        now = fresh_list(self.tree)
        area = self.invalid_area(now)
        built = [leaf for leaf in flat(now) if not area.isdisjoint(pixels_of(leaf.visible))]
        self.paints += 1
        anew = {(leaf.owner, leaf.part): self.paints for leaf in built}
        keys = [(leaf.owner, leaf.part) for leaf in flat(now)]
        self.made = {key: anew.get(key) or self.made.get(key, 0) for key in keys}
        self.painted, self.pending = now, False
        self.totals["built"] += len(built)
        self.totals["area"] += len(area)
        for box in self.tree.boxes():
            box.touched = False
        return words("paint", self.paints, "built", len(built), "kept", len(flat(now)) - len(built), "area", len(area))

    def asked(self, command):
        """The answer to a question, by the list of the last paint."""
        if command["do"] == "dump":
            return Dump(self.painted, self.made)
        if command["do"] == "shot":
            return words("shot", hashlib.sha256(picture(self.painted, self.tree.canvas)).hexdigest())
        x, y = command["x"], command["y"]
        if command["do"] == "hit":
            box = hit(self.painted, x, y)
            return words("hit", "none" if box is None else box.id)
        is_on = holds(self.tree.canvas, x, y)
        return words("pixel", hexadecimal(pixel(self.painted, x, y)) if is_on else "none")

    def do(self, command):
        """The parts of the output of one command."""
        if command["do"] in EDITS:
            refusal = self.tree.edit(command)
            self.totals["accepted" if refusal is None else "refused"] += 1
            self.pending = self.pending or refusal is None
            return ["ok" if refusal is None else words("refused", refusal)]
        if command["do"] == "undo":
            done = self.tree.undo()
            self.pending = self.pending or bool(done)
            return ["undo none" if done is None else words("undone", done)]
        if command["do"] == "paint":
            return [self.paint()]
        first = [self.paint()] if self.pending else []
        return first + [self.asked(command)]


# what a run writes: the parts of standard output under `replay` and its bytes under `render`, standard error, the status
Answer = collections.namedtuple("Answer", "out err status")


def answered(script_bytes, run):
    """What a run of a script writes; off the form it writes nothing but its line."""
    if len(script_bytes) > MOST_BYTES:
        return Answer(None, "input too large\n", 7)
    try:
        return Answer(run(*read_script(script_bytes)), "", 0)
    except NotJson:
        return Answer(None, "not json\n", 2)
    except Broken as broken:
        return Answer(None, f"form: {broken.place}: {broken.rule}\n", 3)


def answer(script_bytes):
    def run(canvas, boxes, commands):
        machine = Machine(canvas, boxes)
        return [part for command in commands for part in machine.do(command)]

    return answered(script_bytes, run)


def picture_answer(script_bytes):
    def run(canvas, boxes, commands):
        machine = Machine(canvas, boxes)
        for command in commands:
            machine.do(command)
        return picture(fresh_list(machine.tree), canvas)

    return answered(script_bytes, run)


# ---------------------------------------------------------------------------------------------------------------------
# Comparing


def dump_lines(dump):
    """A dump with its list in the order of the fresh one."""
    lines = []

    def add(entries, depth):
        for entry in entries:
            if isinstance(entry, Group):
                mode = () if entry.mode == "normal" else (entry.mode,)
                lines.append(words("group", depth, entry.owner, entry.opacity, len(entry.entries), *mode))
                add(entry.entries, depth + 1)
            else:
                lines.append(words("item", depth, entry[0]))

    add(dump.root, 0)
    leaf_count = sum(line.startswith("item") for line in lines)
    return [words("dump", leaf_count)] + lines


def lines_of(parts):
    return [line for part in parts for line in (dump_lines(part) if isinstance(part, Dump) else [part])]


class Nested:
    """Reads the entries of a dump out of its lines."""

    def __init__(self, lines):
        self.lines, self.next = lines, 0

    def entries(self, depth, count):
        """So many entries at a depth, or all: groups, and words of leaves with their visible rectangles."""
        entries = []
        while self.next < len(self.lines) and (count is None or len(entries) < count):
            kind, at_depth, rest = self.lines[self.next].split(" ", 2)
            owed(kind in ("item", "group") and at_depth == str(depth), self.next)
            self.next += 1
            entries.append(self.group(rest, depth) if kind == "group" else self.leaf(rest))
        owed(count is None or len(entries) == count, self.next)
        return entries

    def group(self, rest, depth):
        owner, opacity, count, *mode = rest.split(" ")
        owed(int(count) > 0 and len(mode) <= 1 and all(word in MIXTURES for word in mode), self.next)
        return Group(owner, int(opacity), mode[0] if mode else "normal", self.entries(depth + 1, int(count)))

    def leaf(self, rest):
        return (rest, Rect(*map(int, rest.split(" ")[2:6])))


def routes(entries, path=()):
    """The words and the visible rectangle of each leaf, with the groups round it from the outside in."""
    for entry in entries:
        if isinstance(entry, Group):
            yield from routes(entry.entries, path + ((entry.owner, entry.opacity, entry.mode),))
        else:
            yield path, entry


def groups(entries):
    inner = [entry for entry in entries if isinstance(entry, Group)]
    return [g.owner for g in inner] + [owner for g in inner for owner in groups(g.entries)]


def stands_for(kept, fresh):
    """Are the leaves the same, in the same groups, and those that share a visible pixel in the same order?"""
    old, new = list(routes(kept)), list(routes(fresh))
    if sorted(old) != sorted(new) or len(set(groups(kept))) != len(groups(kept)):
        return False
    place = {route: number for number, route in enumerate(old)}
    return all(
        place[a] < place[b] for n, a in enumerate(new) for b in new[n + 1 :] if meets(a[1][1], b[1][1])
    )


def dump_length(part):
    return len(dump_lines(part))


def is_dump(dump, lines):
    """May the lines be those of the dump?"""
    expected = dump_lines(dump)
    try:
        return lines[:1] == expected[:1] and stands_for(Nested(lines[1:]).entries(0, None), dump.root)
    except (Broken, ValueError, TypeError):
        return False


def first_difference(parts, text):
    """The number of the first line, from 1, where the text is none that the parts allow; None where it is one."""
    lines = text.split("\n")
    at_line = 0
    for part in parts:
        count = dump_length(part) if isinstance(part, Dump) else 1
        given = lines[at_line : at_line + count]
        if not (is_dump(part, given) if isinstance(part, Dump) else given == [part]):
            return at_line + 1
        at_line += count
    return None if lines[at_line:] == [""] else at_line + 1
