#!/usr/bin/env python3
"""What it costs to write and to read the wire form: `python3 bench/wires.py PROGRAM [LEAVES]`.

It makes a page of LEAVES (80,000) leaves, a quarter as many boxes with all four parts on a canvas of one pixel, so that
painting costs next to nothing. What `wire` takes more than `render` of that script is the encoding. `compose` of the wire
is run beside `compose` of a wire of one leaf; the difference is reading, telling names apart and one pixel. Beside them: a
copy of the same bytes in memory, and Python's `json` reading the lines of a dump as an array of strings and numbers. Each is
the least of five runs, in processor time; for the program's runs the most memory that was held is told too.
Run by hand; nothing in the gate looks at time.
"""
import json
import os
import subprocess
import sys
import tempfile
import time

from measure import script

STYLE = {
    "background": "#336699",
    "border-width": [1, 1, 1, 1],
    "border-color": "#112233",
    "content": "#445566",
    "outline-width": 1,
}


def page(count):
    """So many boxes, each with four parts on the one pixel of the canvas."""
    boxes = [
        {"id": f"b{i}", "parent": "b0" if i else None, "rect": [-2, -2, 5, 5], "style": STYLE} for i in range(count)
    ]
    value = json.loads(script(boxes, []))
    value["canvas"] = {"w": 1, "h": 1}
    return json.dumps(value).encode()


def run(program, word, data):
    """Processor seconds, the most memory in MiB, and standard output, of the least of five runs."""
    best = None
    for _ in range(5):
        with tempfile.TemporaryFile() as file, tempfile.TemporaryFile() as out:
            file.write(data)
            file.seek(0)
            child = subprocess.Popen([program, word], stdin=file, stdout=out)
            _, status, used = os.wait4(child.pid, 0)
            child.returncode = os.waitstatus_to_exitcode(status)
            if child.returncode != 0:
                sys.exit(f"bench/wires.py: {word} ends with {child.returncode}")
            out.seek(0)
            here = used.ru_utime + used.ru_stime, used.ru_maxrss / 1024, out.read()
        best = here if best is None or here[0] < best[0] else best
    return best


def least(work):
    times = []
    for _ in range(5):
        begun = time.process_time()
        work()
        times.append(time.process_time() - begun)
    return min(times)


def main(program, leaves=80_000):
    text = page(leaves // 4)
    painted, _, _ = run(program, "render", text)
    written, held, wire = run(program, "wire", text)
    _, _, one = run(program, "wire", page(1))
    nothing, _, _ = run(program, "compose", one)
    read, held_reading, _ = run(program, "compose", wire)
    copied = least(lambda: bytearray(wire))
    lines = subprocess.run([program, "replay"], input=text[:-2] + b'{"do":"dump"}]}', capture_output=True).stdout.decode()
    dump = json.dumps([[int(w) if w.isdigit() else w for w in line.split()] for line in lines.splitlines()])
    parsed = least(lambda: json.loads(dump))
    print(f"{leaves} leaves, {len(wire)} bytes")
    print(f"encode: {1000 * (written - painted):.1f} ms (wire {1000 * written:.1f}, render {1000 * painted:.1f}), {held:.0f} MiB held")
    print(f"decode: {1000 * (read - nothing):.1f} ms (compose {1000 * read:.1f}, of one leaf {1000 * nothing:.1f}), {held_reading:.0f} MiB held")
    print(f"a copy of the bytes: {1000 * copied:.2f} ms; Python's json of a dump of {len(dump)} bytes: {1000 * parsed:.1f} ms")


if __name__ == "__main__":
    if len(sys.argv) not in (2, 3):
        sys.exit(__doc__.splitlines()[0])
    main(sys.argv[1], *map(int, sys.argv[2:]))
