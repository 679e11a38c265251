"""The scripts of storms, and what `storm` writes of them, worked out once more: docs/FORMATS.md, 'Generated scripts'."""
import hashlib

import oracle


class Draw:
    """A state of 64 bits, at first the seed."""

    def __init__(self, seed):
        self.state = seed

    def below(self, n):
        self.state = (self.state * 6364136223846793005 + 1442695040888963407) % 2**64
        return (self.state >> 33) % n

    def rect(self):
        x, y = self.below(288) - 32, self.below(288) - 32
        return [x, y, self.below(65), self.below(65)]

    def color(self):
        channels = [self.below(256) for _ in range(3)]
        alpha = self.below(256) if self.below(4) == 0 else 255
        return "#" + oracle.hexadecimal(channels + [alpha])

    def level(self):
        return self.below(5) - 2

    def style(self):
        kind = self.below(16)
        style = {
            6: {"display": "inline"},
            7: {"display": "inline-block"},
            8: {"float": "left"},
            9: {"position": "relative"},
            10: {"position": "relative"},
            11: {"position": "absolute"},
            13: {"overflow": "hidden"},
            14: {"border-width": [2, 2, 2, 2]},
            15: {"outline-width": 2, "outline-color": "#ff00ff", "content": "#808080"},
        }.get(kind, {})
        if kind == 10:
            style["z-index"] = self.level()
        if kind == 12:
            style["opacity"] = 64 + self.below(128)
        style["background"] = self.color()
        return style


def boxes_of(draw, count):
    boxes = [{"id": "b0", "parent": None, "rect": [0, 0, 256, 256], "style": {"background": "#ffffff"}}]
    depths = [1]
    for number in range(1, count):
        drawn = draw.below(number)
        parent = 0 if depths[drawn] >= 64 else drawn
        depths.append(depths[parent] + 1)
        boxes.append({"id": f"b{number}", "parent": f"b{parent}", "rect": draw.rect(), "style": draw.style()})
    return boxes


def last_kind(draw, box):
    if draw.below(8) == 0:
        return {"do": "remove", "id": box}
    return {"do": "style", "id": box, "style": {"visibility": "hidden" if draw.below(2) == 0 else "visible"}}


def edit_of(draw, count, number):
    box, kind = f"b{draw.below(count)}", draw.below(8)
    if kind == 0:
        return {"do": "style", "id": box, "style": {"background": draw.color()}}
    if kind == 1:
        return {"do": "rect", "id": box, "rect": draw.rect()}
    if kind == 2:
        return {"do": "shift", "id": box, "dx": draw.below(33) - 16, "dy": draw.below(33) - 16}
    if kind == 3:
        return {"do": "move", "id": box, "parent": f"b{draw.below(count)}"}
    if kind == 4:
        return {"do": "style", "id": box, "style": {"z-index": draw.level()}}
    if kind == 5:
        return {"do": "style", "id": box, "style": {"opacity": 64 + draw.below(192)}}
    if kind == 6:
        new = {"rect": draw.rect(), "style": {"background": draw.color()}}
        return {"do": "insert", "id": f"n{number}", "parent": box, **new}
    return last_kind(draw, box)


def script(seed, boxes, edits):
    draw = Draw(seed)
    value = {"version": 1, "canvas": {"w": 256, "h": 256}, "boxes": boxes_of(draw, boxes), "script": [{"do": "paint"}]}
    for number in range(edits):
        value["script"].append(edit_of(draw, boxes, number))
        if number % 10 == 9:
            value["script"].append({"do": "paint"})
    value["script"].append({"do": "paint"})
    return value


def summary(seed, boxes, edits):
    """The four lines of a storm."""
    value = script(seed, boxes, edits)
    machine = oracle.Machine(oracle.canvas_of(value["canvas"]), oracle.boxes_of(value["boxes"], value["version"]))
    for command in value["script"]:
        machine.do(oracle.command_of(command, value["version"]))
    totals = machine.totals
    digest = hashlib.sha256(oracle.picture(machine.painted, machine.tree.canvas)).hexdigest()
    return (
        f"storm seed {seed} boxes {boxes} edits {edits}\n"
        f"accepted {totals['accepted']} refused {totals['refused']}\n"
        f"paints {machine.paints} built {totals['built']} area {totals['area']}\n"
        f"final {digest}\n"
    )
