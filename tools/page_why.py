"""Why each leaf of a painted list is above the next, as `rd_why` tells it.

The leaves over a pixel are a stack, and many pixels have the same one. So of a paint each stack is asked about once, at one
pixel that has it. tools/page.py puts the answers into its page.
"""
import json
import os
import shutil
import subprocess
from concurrent.futures import ThreadPoolExecutor
from typing import NamedTuple

MOST_STACKS = 10_000
MOST_LEAVES = 100_000

# ---------------------------------------------------------------------------------------------------------------------
# Stacks


class Leaf(NamedTuple):
    """A box and its part, and as [x, y, w, h] what may be seen of it and the inner rectangle, which it does not cover."""

    box: str
    part: str
    visible: list
    inner: list


def leaves_of(entries):
    """The leaves of a dump, from bottom to top."""
    items = [entry[2:] for entry in entries if entry[0] == "item"]
    return [Leaf(box, part, list(map(int, rest[:4])), list(map(int, rest[8:12]))) for box, part, *rest in items]


def spans_in(leaves, row):
    """The columns that leaves cover in a row of pixels: the first, the one behind the last, and the number of the leaf."""
    for number, leaf in enumerate(leaves):
        x, y, w, h = leaf.visible
        left, top, width, height = leaf.inner
        if not y <= row < y + h:
            continue
        is_hollow = top <= row < top + height
        parts = ((x, min(x + w, left)), (max(x, left + width), x + w)) if is_hollow else ((x, x + w),)
        yield from ((first, last, number) for first, last in parts if first < last)


def stacks(leaves):
    """Each stack that some pixel has, as the numbers of its leaves with the topmost first, and the first pixel that has it.
    The edges of the leaves cut the canvas into cells, and all pixels of a cell have one stack."""
    rects = [rect for leaf in leaves for rect in (leaf.visible, leaf.inner)]
    rows, told = set(), set()
    for row in sorted({edge for _, y, _, h in rects for edge in (y, y + h)}):
        spans = tuple(spans_in(leaves, row))
        if spans in rows:
            continue
        rows.add(spans)
        for column in sorted({edge for first, last, _ in spans for edge in (first, last)}):
            stack = tuple(number for first, last, number in reversed(spans) if first <= column < last)
            if stack and stack not in told:
                told.add(stack)
                yield stack, (column, row)


# ---------------------------------------------------------------------------------------------------------------------
# Asking


class Why:
    """Asks `rd_why` of the paints of a script, one after another, until there are too many stacks or it refuses.

    `silence` says why the paints from some one on are not told of, and is None while all are; `cut` is the same, but None
    where the program is not there at all.
    """

    def __init__(self, path, script):
        self.path, self.script = path, script
        self.stacks = self.leaves = 0
        self.silence = self.cut = None
        if shutil.which(path) is None:
            self.silence = "clicks do not tell why: `rd_why` was not there when this page was made"

    def answers(self, number, leaves, commands):
        """What is answered to each stack of the paint of a number, in any order, after the commands up to it; None where it is
        not told of."""
        if self.silence:
            return None
        found = self.found(leaves)
        if found is None:
            return self.fall_silent(number, f"a page has at most {MOST_STACKS:,} stacks of leaves, with {MOST_LEAVES:,} leaves")
        text = json.dumps({**self.script, "script": commands}).encode()
        with ThreadPoolExecutor(os.cpu_count()) as pool:
            runs = list(pool.map(lambda pixel: self.run(text, pixel), found.values()))
        for run in runs:
            if run.returncode != 0:
                line = run.stderr.decode().strip()
                return self.fall_silent(number, f"`rd_why` ended with status {run.returncode}, {line or 'and said nothing'}")
        answers = [json.loads(run.stdout) for run in runs]
        for stack, answer in zip(found, answers):
            check([leaves[each] for each in stack], answer)
        return answers

    def found(self, leaves):
        """The stacks with their pixels; None where the page would have too many."""
        found = {}
        for stack, pixel in stacks(leaves):
            found[stack] = pixel
            self.stacks += 1
            self.leaves += len(stack)
            if self.stacks > MOST_STACKS or self.leaves > MOST_LEAVES:
                return None
        return found

    def run(self, text, pixel):
        return subprocess.run([self.path, *map(str, pixel), "--json"], input=text, capture_output=True)

    def fall_silent(self, number, cause):
        how = "clicks do not tell why" if number == 1 else f"clicks tell why before paint {number} alone"
        self.silence = self.cut = f"{how}: {cause}"


class OtherLeaves(Exception):
    """`rd_why` tells of other leaves than the list has, so the two programs are not of the same sources."""


def check(stack, answer):
    """Is an answer that to a stack?"""
    told = [(leaf["box"], leaf["part"]) for leaf in answer["leaves"]]
    if told != [(leaf.box, leaf.part) for leaf in stack]:
        raise OtherLeaves(f"at {answer['x']}, {answer['y']} the list has other leaves than `rd_why` tells")
