#!/usr/bin/env python3
"""What one edit with its paint costs: `python3 bench/paints.py [--instructions|--cost|--long] PROGRAM [NAME=PROGRAM ..]`.

Each scene is painted once, and then a paint follows each edit, or every tenth. A scene comes with K and with 2K edits,
the first K of them the same, and the difference of the two runs over K is the cost of one edit with its paint, or a tenth
of a paint, without start, reading and the first paint. It prints processor time (the least of three runs); with --instructions also what callgrind of
valgrind counts, which is the same on every run. With --cost it prints what cachegrind of valgrind counts in place of time:
instructions, first-level misses of both caches, and the cost, which is the instructions and ten times the misses.
Any program that reads the same scripts may stand beside.
With --long it prints what an edit with its paint costs in each of five stretches of 2,000 paints, from one run each.
Run by hand; nothing in the gate looks at time.
"""
import json
import os
import random
import re
import resource
import subprocess
import sys
import tempfile

WIDTH, HEIGHT = 1280, 800


def box(key, parent, rect, style):
    return {"id": key, "parent": parent, "rect": rect, "style": style}


def ink(rng):
    return "#%06x" % rng.randrange(1 << 24)


def flat(count, rng):
    """All boxes on the same ten pixels."""
    return [10, 10], [box(f"b{i}", "b0", [i % 10, 0, 1, 1], {}) for i in range(1, count)]


def spread(count, rng):
    """Boxes without nesting, all over the canvas."""
    return [WIDTH, HEIGHT], [
        box(f"b{i}", "b0", [rng.randrange(WIDTH - 16), rng.randrange(HEIGHT - 12), 16, 12], {"background": ink(rng)})
        for i in range(1, count)
    ]


def even(count, rng):
    """The same on a canvas that grows with the boxes, so that as many lie on each pixel: 5,000 are all over one of 1280 by 800."""
    side = (count / 5000) ** 0.5
    w, h = round(WIDTH * side), round(HEIGHT * side)
    return [w, h], [
        box(f"b{i}", "b0", [rng.randrange(w - 16), rng.randrange(h - 12), 16, 12], {"background": ink(rng)})
        for i in range(1, count)
    ]


def divide(found, parent, rect, count, depth, rng):
    """Boxes below a box, side by side or one above another, each with its share of what is left of them."""
    fan = min(count, rng.randint(3, 8)) if depth < 12 else count
    shares = [1 + (count - fan) * i // fan - (count - fan) * (i - 1) // fan for i in range(1, fan + 1)]
    x, y, w, h = rect
    across = w > 2 * h
    for i, share in enumerate(shares):
        part = [x + w * i // fan, y, max(w // fan, 6), h] if across else [x, y + h * i // fan, w, max(h // fan, 5)]
        key = f"b{len(found) + 1}"
        style = {"background": ink(rng)} if rng.random() < 0.4 else {"content": ink(rng)}
        if rng.random() < 0.1:
            style["border-width"] = [1, 1, 1, 1]
            style["border-color"] = ink(rng)
        if rng.random() < 0.05:
            style["position"] = rng.choice(("relative", "absolute"))
        if share > 1 and rng.random() < 0.01:
            style["opacity"] = rng.randrange(60, 255)
        found.append(box(key, parent, part, style))
        if share > 1:
            divide(found, key, part, share - 1, depth + 1, rng)


def page(count, rng):
    """Nested boxes of many styles, as a page has them."""
    found = []
    divide(found, "b0", [0, 0, WIDTH, HEIGHT], count - 1, 0, rng)
    return [WIDTH, HEIGHT], found


def contexts(count, rng):
    """A page of which the positioned boxes and those at depth 4 make stacking contexts."""
    size, found = page(count, rng)
    depth = {"b0": 1}
    for it in found:
        depth[it["id"]] = depth[it["parent"]] + 1
        if "position" in it["style"] or depth[it["id"]] == 4:
            it["style"] = {"position": "relative", **it["style"], "z-index": 0}
    return size, found


def blended(count, rng):
    """The same page, of which one stacking context in twenty is blended."""
    size, found = contexts(count, rng)
    made = [it["style"] for it in found if "z-index" in it["style"] or "opacity" in it["style"]]
    for number, style in enumerate(made[10::20]):
        style["mix-blend-mode"] = ("multiply", "screen", "darken", "lighten")[number % 4]
    return size, found


def nested(count, rng):
    """A chain of groups, each in the one before."""
    return [WIDTH, HEIGHT], [
        box(f"b{i}", f"b{i - 1}", [i, i, 300, 300], {"background": ink(rng), "opacity": 200}) for i in range(1, count)
    ]


def chain(count, rng):
    """A chain of boxes, each in the one before."""
    return [WIDTH, HEIGHT], [
        box(f"b{i}", f"b{i - 1}", [i, i, 300, 300], {"background": ink(rng)}) for i in range(1, count)
    ]


def tinted(found, number, rng):
    """Another background of a box."""
    return {"do": "style", "id": found[rng.randrange(len(found))]["id"], "style": {"background": ink(rng)}}


def mixed(found, number, rng):
    """An edit of any kind: half of them styles, and of the rest rectangles and shifts most."""
    one, other = (found[rng.randrange(len(found))] for _ in range(2))
    x, y, w, h = one["rect"]
    kind = rng.random()
    if kind < 0.5:
        return tinted(found, number, rng)
    if kind < 0.7:
        rect = [x + rng.randint(-9, 9), y + rng.randint(-9, 9), max(w + rng.randint(-9, 9), 0), h]
        return {"do": "rect", "id": one["id"], "rect": rect}
    if kind < 0.8:
        return {"do": "shift", "id": one["id"], "dx": rng.randint(-8, 8), "dy": rng.randint(-8, 8)}
    if kind < 0.9:
        new = [x + rng.randrange(max(w, 1)), y + rng.randrange(max(h, 1)), 40, 30]
        style = {"background": ink(rng)}
        return {"do": "insert", "id": f"n{number}", "parent": one["id"], "rect": new, "style": style}
    if kind < 0.95:
        return {"do": "remove", "id": one["id"]}
    return {"do": "move", "id": one["id"], "parent": other["id"]}


def scrolled(found, number, rng):
    """The largest subtree goes up by three pixels."""
    below = {box["id"]: 1 for box in found}
    for box in reversed(found):
        if box["parent"] in below:
            below[box["parent"]] += below[box["id"]]
    return {"do": "shift", "id": max(below, key=below.get), "dx": 0, "dy": -3}


def scene(kind, count, edits, edit=tinted, each=1):
    """A tree, a paint, and so many edits, a paint after as many of them each time."""
    (w, h), found = kind(count, random.Random(1))
    root = {"id": "b0", "parent": None, "rect": [0, 0, w, h], "style": {"background": "#ffffff"}}
    rng = random.Random(2)
    commands = [{"do": "paint"}]
    for number in range(edits):
        commands.append(edit(found, number, rng))
        if (number + 1) % each == 0:
            commands.append({"do": "paint"})
    version = 2 if any("mix-blend-mode" in it["style"] for it in found) else 1
    return json.dumps({"version": version, "canvas": {"w": w, "h": h}, "boxes": [root] + found, "script": commands})


SCENES = [
    (name, kind, count, edits, edit, each)
    for name, kind, sizes, edits, edit, each in (
        ("page", page, (1000, 5000, 20000), 200, tinted, 1),
        ("page, mixed edits", page, (1000, 5000, 20000), 200, mixed, 1),
        ("page, mixed edits, a paint after ten", page, (1000, 5000, 20000), 200, mixed, 10),
        ("page, scrolled", page, (1000, 5000, 20000), 20, scrolled, 1),
        ("page of contexts", contexts, (5000,), 200, tinted, 1),
        ("page of contexts, blended", blended, (5000,), 200, tinted, 1),
        ("page of contexts, mixed edits", contexts, (5000,), 200, mixed, 1),
        ("page of contexts, mixed edits, blended", blended, (5000,), 200, mixed, 1),
        ("flat", flat, (1000, 5000, 20000), 50, tinted, 1),
        ("spread", spread, (1000, 5000, 20000), 200, tinted, 1),
        ("spread evenly", even, (1250, 5000, 20000), 200, tinted, 1),
        ("nested", nested, (64, 128, 250), 10, tinted, 1),
    )
    for count in sizes
]


def seconds(program, path, runs=3):
    least = None
    for _ in range(runs):
        before = resource.getrusage(resource.RUSAGE_CHILDREN)
        with open(path, "rb") as text:
            subprocess.run([program, "replay"], stdin=text, stdout=subprocess.DEVNULL, check=True)
        after = resource.getrusage(resource.RUSAGE_CHILDREN)
        took = after.ru_utime + after.ru_stime - before.ru_utime - before.ru_stime
        least = took if least is None else min(least, took)
    return least


def instructions(program, path):
    words = ["valgrind", "--tool=callgrind", "--callgrind-out-file=/dev/null", program, "replay"]
    with open(path, "rb") as text:
        run = subprocess.run(words, stdin=text, stdout=subprocess.DEVNULL, stderr=subprocess.PIPE, check=True)
    return int(run.stderr.split(b"Collected :")[1].split()[0])


def costs(program, path):
    """Instructions, first-level misses, and the cost, which is the instructions and ten times the misses."""
    words = ["valgrind", "--tool=cachegrind", "--cache-sim=yes", "--cachegrind-out-file=/dev/null", program, "replay"]
    with open(path, "rb") as text:
        run = subprocess.run(words, stdin=text, stdout=subprocess.DEVNULL, stderr=subprocess.PIPE, check=True)
    said = run.stderr.decode().replace(",", "")
    instructions = int(re.search(r"I +refs: +(\d+)", said).group(1))
    # a line for the first cache of instructions and one for that of data
    misses = sum(int(count) for count in re.findall(r"[ID]1 +misses: +(\d+)", said))
    return instructions, misses, instructions + 10 * misses


def written(folder, name, text):
    path = os.path.join(folder, name)
    with open(path, "w", encoding="utf-8") as file:
        file.write(text)
    return path


def long_runs(programs):
    """Whether a paint becomes dearer the more paints there were."""
    print("| Scene, boxes, program | " + " | ".join(f"to {2000 * k}, ms" for k in range(1, 6)) + " |")
    print("|---|" + "---|" * 5)
    for name, kind, count in (("page", page, 1000), ("spread", spread, 1000)):
        with tempfile.TemporaryDirectory() as folder:
            paths = [written(folder, str(k), scene(kind, count, 2000 * k)) for k in range(6)]
            for title, program in programs:
                took = [seconds(program, path, 1) for path in paths]
                cells = [f"{(after - before) / 2:.3f}" for before, after in zip(took, took[1:])]
                print(f"| {name}, {count}, {title} | " + " | ".join(cells) + " |", flush=True)


def main():
    flags = [word for word in sys.argv[1:] if word.startswith("--")]
    words = [word for word in sys.argv[1:] if not word.startswith("--")]
    if not words or not set(flags) <= {"--instructions", "--cost", "--long"}:
        sys.exit(__doc__)
    programs = [word.split("=", 1) if "=" in word else ["this program", word] for word in words]
    if "--long" in flags:
        return long_runs(programs)
    counts, is_cost = "--instructions" in flags, "--cost" in flags
    units = ["ms"] + (["thousand instructions"] if counts else [])
    if is_cost:
        units = ["thousand instructions", "thousand misses", "thousand of cost"]
    columns = [f"{name}, {unit}" for name, _ in programs for unit in units]
    print("| Scene, boxes | " + " | ".join(columns) + " |")
    print("|---|" + "---|" * len(columns))
    for name, kind, count, edits, edit, each in SCENES:
        with tempfile.TemporaryDirectory() as folder:
            paths = [written(folder, str(k), scene(kind, count, k * edits, edit, each)) for k in (1, 2)]
            cells = []
            for _, program in programs:
                if is_cost:
                    pairs = zip(*(costs(program, path) for path in paths))
                    cells += [f"{(second - first) / edits / 1000:.1f}" for first, second in pairs]
                    continue
                first, second = (seconds(program, path) for path in paths)
                cells.append(f"{1000 * (second - first) / edits:.3f}")
                if counts:
                    first, second = (instructions(program, path) for path in paths)
                    cells.append(f"{(second - first) / edits / 1000:.0f}")
        print(f"| {name}, {count} | " + " | ".join(cells) + " |", flush=True)


if __name__ == "__main__":
    main()
