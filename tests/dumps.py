"""Reads dumps, and says what `check` has to say of one beside a script: a second writing of `docs/CHECKING.md`.

The order of leaves is found by a comparison of all pairs; nothing is kept in blocks.
"""
import collections
import re

import oracle

MOST = 2**64
FARTHEST = 10**9
PARTS = ("back", "border", "content", "outline")
ID = r"[A-Za-z0-9_.:-]{1,64}"
NATURAL = r"(?:0|[1-9][0-9]*)"
WHOLE = rf"(?:0|-?[1-9][0-9]*)"
RECT = rf"({WHOLE}) ({WHOLE}) ({WHOLE}) ({WHOLE})"
HEAD = re.compile(rf"dump ({NATURAL})")
ITEM = re.compile(rf"item ({NATURAL}) ({ID}) ({'|'.join(PARTS)}) {RECT} {RECT} {RECT} ([0-9a-f]{{8}}) (auto|none) ({NATURAL})")
GROUP = re.compile(rf"group ({NATURAL}) ({ID}) ({NATURAL}) ({NATURAL})( multiply| screen| darken| lighten)?")

# an entry by its line: its id, a part and values or an opacity, a mode and a number of entries; and the groups round it
Item = collections.namedtuple("Item", "id part values visible round")
Head = collections.namedtuple("Head", "id opacity mode entries round")


class NoDump(Exception):
    pass


def owed(test):
    if not test:
        raise NoDump


def number(text, most):
    owed(int(text) < most)
    return int(text)


def rect(words):
    x, y, w, h = map(int, words)
    owed(w >= 0 and h >= 0 and x >= -FARTHEST and y >= -FARTHEST and x + w <= FARTHEST and y + h <= FARTHEST)
    return oracle.Rect(x, y, w, h)


def item_of(words, round_):
    visible, outer, inner = (rect(words[at : at + 4]) for at in (3, 7, 11))
    color, hits, made = words[15:]
    number(made, MOST)
    return Item(words[1], words[2], (visible, outer, inner, color, hits), visible, round_)


def entry_of(line, round_):
    """The entry of a line below these groups."""
    item, head = ITEM.fullmatch(line), GROUP.fullmatch(line)
    owed(item or head)
    words = (item or head).groups()
    owed(number(words[0], MOST) == len(round_))
    if item:
        return item_of(words, round_)
    owed(len(round_) < 256 and int(words[3]) > 0)
    number(words[3], MOST)
    return Head(words[1], number(words[2], 256), (words[4] or " normal")[1:], int(words[3]), round_)


def read(data):
    """The entries of a dump in the order of their lines; NoDump where the bytes are none."""
    try:
        text = data.decode("ascii")
    except UnicodeDecodeError:
        raise NoDump from None
    owed(text.endswith("\n"))
    first, *lines = text[:-1].split("\n")
    told = HEAD.fullmatch(first)
    owed(told)
    entries, wanted, round_ = [], [], []
    for line in lines:
        while wanted and wanted[-1] == 0:
            wanted.pop()
            round_.pop()
        entry = entry_of(line, tuple(round_))
        if wanted:
            wanted[-1] -= 1
        if isinstance(entry, Head):
            wanted.append(entry.entries)
            round_.append((entry.id, entry.opacity, entry.mode))
        entries.append(entry)
    owed(not any(wanted))
    owed(number(told[1], MOST) == sum(isinstance(entry, Item) for entry in entries))
    return entries


def name(entry):
    return (entry.id, entry.part if isinstance(entry, Item) else None)


def fresh_items(entries, round_=()):
    """The leaves of a fresh list of the oracle, with the groups round each."""
    for entry in entries:
        if isinstance(entry, oracle.Group):
            yield from fresh_items(entry.entries, round_ + ((entry.owner.id, entry.opacity, entry.mode),))
        else:
            words = oracle.leaf_words(entry, 0).split(" ")
            visible, outer, inner = (oracle.Rect(*map(int, words[at : at + 4])) for at in (2, 6, 10))
            yield Item(words[0], words[1], (visible, outer, inner, words[14], words[15]), visible, round_)


def first(entries, test):
    return next((place for place, entry in enumerate(entries) if test(place, entry)), None)


def first_crossed(entries, place):
    """The least second, and with it the least first, of two leaves that meet and stand the other way."""
    for j, upper in enumerate(entries):
        for i, lower in enumerate(entries[:j]):
            both = isinstance(lower, Item) and isinstance(upper, Item)
            if both and place[name(lower)] > place[name(upper)] and oracle.meets(lower.visible, upper.visible):
                return i, j
    return None


def verdict(entries, tree):
    """What is said of the entries of a dump beside a tree."""
    fresh = list(fresh_items(oracle.fresh_list(tree)))
    by_name = {name(item): item for item in fresh}
    place = {name(item): at for at, item in enumerate(fresh)}
    names = [name(entry) for entry in entries]
    leaf = [isinstance(entry, Item) for entry in entries]
    tests = {
        "unknown": lambda i, e: tree.find(e.id) is None,
        "twice": lambda i, e: names[i] in names[:i],
        "extra": lambda i, e: leaf[i] and names[i] not in by_name,
        "differs": lambda i, e: leaf[i] and by_name[names[i]].values != e.values,
        "wrapped": lambda i, e: leaf[i] and by_name[names[i]].round != e.round,
    }
    for word, test in tests.items():
        at = first(entries, test)
        if at is not None:
            return f"no {word} {at}"
    absent = first(fresh, lambda i, item: name(item) not in names)
    if absent is not None:
        return f"no missing {fresh[absent].id} {fresh[absent].part}"
    crossed = first_crossed(entries, place)
    return "yes" if crossed is None else "no order %d %d" % crossed


def edited_tree(canvas, boxes, commands):
    """The tree at the end of a script of which the edits and the undos are done, and nothing else."""
    tree = oracle.Tree(canvas, boxes)
    for command in commands:
        if command["do"] in oracle.EDITS:
            tree.edit(command)
        elif command["do"] == "undo":
            tree.undo()
    return tree


def answer(data):
    """What `check` writes of these bytes, a dump and a script behind it."""
    at = data.find(b"{")
    dump, script = (data, b"") if at < 0 else (data[:at], data[at:])

    def run(canvas, boxes, commands):
        return verdict(read(dump), edited_tree(canvas, boxes, commands)) + "\n"

    if len(data) > oracle.MOST_BYTES:
        return oracle.Answer(None, "input too large\n", 7)
    try:
        return oracle.answered(script, run)
    except NoDump:
        return oracle.Answer(None, "bad dump\n", 9)
