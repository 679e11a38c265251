#!/usr/bin/env python3
"""Answers where the proved program is not built, or is older than its sources; `pouncelilac` calls this.

usage: tools/first_answer.py WORD ..                 proves and builds the program, and then becomes it
       tools/first_answer.py --unproved WORD ..      runs the same sources without a proof, and says so

What is said goes to standard error. The exit status is the program's, or 70 where there is no answer of it.
"""
import os
import re
import select
import shutil
import signal
import subprocess
import sys
import tempfile
import time

TOP = os.path.dirname(os.path.dirname(os.path.abspath(__file__)))
NAME = "rd_cli"
FOLDER = f"{TOP}/crates/{NAME}"
PROGRAM = f"{FOLDER}/out/{NAME}"
NO_ANSWER = 70
# bytes of memory for each check that runs beside others
ROOM = 3 << 30
# lines that a check gets through in a minute: a first guess, which counts as much as GUESSED minutes of what is seen
PACE, GUESSED = 1400, 3
# seconds after which a line is said again
QUIET = 60
# of an unproved run: the bytes of input from which on rt cuts it, and the seconds that it has
TOO_LONG, SECONDS = 1 << 26, 600
ENDS = (signal.SIGINT, signal.SIGTERM, signal.SIGHUP)
# the lines that `rt try` writes below the program's own standard error where the program ended
ENDED = re.compile(rb"^(?:(?:interpreter|checked|races): .*\n)+run=ended status=(\d+) .*proved=no\n\Z", re.M)


def say(text):
    print(f"pouncelilac: {text}", file=sys.stderr, flush=True)


def stop(text):
    say(text)
    sys.exit(NO_ANSWER)


def start(words, **how):
    """Starts rt, and has each signal that is to end this program end rt, and all that it started, before."""
    try:
        rt = subprocess.Popen(words, cwd=FOLDER, start_new_session=True, **how)
    except FileNotFoundError:
        stop("rt, the command of the Rattle kit, is not on the PATH")
    for number in ENDS:
        if signal.getsignal(number) != signal.SIG_IGN:
            signal.signal(number, lambda number, _: end(rt, number))
    return rt


def end(rt, number):
    rt.send_signal(number)
    rt.wait()
    signal.signal(number, signal.SIG_DFL)
    os.kill(os.getpid(), number)


# ---------------------------------------------------------------------------------------------------------------------
# How far the proof is


def uses():
    """Gives for each crate of crates.txt those of the repository that it uses."""
    with open(f"{TOP}/crates.txt", encoding="utf-8") as text:
        lines = [line.split("#")[0].split(":") for line in text if ":" in line.split("#")[0]]
    named = {line[0].split()[0]: line[1].split() for line in lines}
    return {name: [each for each in used if each in named] for name, used in named.items()}


def below(used, name):
    """Gives the crates that a crate stands on, and itself."""
    return {name}.union(*(below(used, each) for each in used[name]))


def lines_of(name):
    """Counts the lines of the crate that a check reads: sources, definitions and proofs."""
    count = 0
    for part in ("src", "specs", "proofs"):
        for folder, _, files in os.walk(f"{TOP}/crates/{name}/{part}"):
            for file in files:
                with open(f"{folder}/{file}", "rb") as text:
                    count += text.read().count(b"\n")
    return count


def at_once():
    """Gives how many checks processors and memory allow."""
    with open("/proc/meminfo", encoding="utf-8") as text:
        free = 1024 * int(re.search(r"MemAvailable:\s+(\d+)", text.read())[1])
    return max(1, min(len(os.sched_getaffinity(0)), free // ROOM))


class Way:
    """The crates that the program needs, and those of them that are left to prove."""

    def __init__(self):
        used = uses()
        self.used = {name: used[name] for name in below(used, NAME)}
        self.lines = {name: lines_of(name) for name in self.used}
        self.left, self.jobs = set(self.used), at_once()
        self.begun = self.last = time.monotonic()
        self.whole = self.length()

    def end(self, name):
        """Notes that a crate is done."""
        self.left.remove(name)
        self.last = time.monotonic()

    def length(self):
        """Gives the lines that are left for one of the checks side by side: the longest chain's, or its share of all."""
        longest = {}

        def chain(name):
            if name not in longest:
                longest[name] = self.lines[name] * (name in self.left) + max(map(chain, self.used[name]), default=0)
            return longest[name]

        return max(chain(NAME), sum(self.lines[name] for name in self.left) / self.jobs)

    def minutes(self):
        """Says the minutes so far, and an estimate of those that are left."""
        rest, then, since = self.length(), (self.last - self.begun) / 60, (time.monotonic() - self.last) / 60
        pace = (self.whole - rest + PACE * GUESSED) / (then + GUESSED)
        # (what runs since then has come on, but nothing tells how far)
        to_go = max(rest / pace - since, rest / pace / 4)
        return f"{then + since:.0f} min so far, about {to_go:.0f} to go"


# ---------------------------------------------------------------------------------------------------------------------
# The proof


def lines_told(pipe):
    """Gives the lines that come through a pipe, and None where none came for a while."""
    rest = b""
    while True:
        if not select.select([pipe], [], [], QUIET)[0]:
            yield None
            continue
        more = os.read(pipe.fileno(), 1 << 16)
        if not more:
            return
        *lines, rest = (rest + more).split(b"\n")
        yield from (line.decode(errors="replace") for line in lines)


def not_proved(name):
    stop(f"the program is not proved, so it is not run: 'rt check' in crates/{name} says why ('--unproved' runs it without)")


def prove_crates():
    """Proves the crates that the program needs, and says how far it is. Where one fails, all is stopped."""
    way, name = Way(), NAME
    count = len(way.used)
    say(f"reading all sources, then proving the {count} crates of the program, at most {way.jobs} at a time; {way.minutes()}")
    words = ["rt", "all", "check", "--jobs", str(way.jobs)]
    rt = start(words, stdin=subprocess.DEVNULL, stdout=subprocess.PIPE, stderr=subprocess.STDOUT)
    for line in lines_told(rt.stdout):
        said = re.fullmatch(r"== (\w+)", line or "")
        if said and said[1] in way.left:
            name = said[1]
            way.end(name)
        elif line is None:
            say(f"{count - len(way.left)} of {count} crates are done; {way.minutes()}")
        elif line.startswith("rt: ") and " waiting for " in line:
            say(line[4:])
        elif line.startswith("logic=proved"):
            say(f"crate {count - len(way.left)} of {count} is proved, {name}; {way.minutes()}")
        elif line.startswith("logic="):
            rt.terminate()
            not_proved(name)
        elif re.fullmatch(r"\w+: failed \(.*\)", line):
            not_proved(line.split(":")[0])
    if rt.wait():
        not_proved(NAME)


def build():
    """Proves and builds the program, and runs it once. It is dated back to when the proof began, and so older than what was edited since."""
    began = time.time()
    prove_crates()
    once = ["--", "storm", "--seed", "1", "--boxes", "1", "--edits", "1"]
    rt = start(["rt", "run", *once], stdin=subprocess.DEVNULL, stdout=subprocess.DEVNULL, stderr=subprocess.DEVNULL)
    if rt.wait():
        not_proved(NAME)
    os.utime(PROGRAM, (began, began))
    say(f"the program is proved and built, after {(time.time() - began) / 60:.0f} min")


# ---------------------------------------------------------------------------------------------------------------------
# Without a proof


def input_for(words, file):
    """Takes the whole input of a run that reads one, since rt waits no longer than two seconds for more."""
    if words[:1] in (["replay"], ["render"]):
        shutil.copyfileobj(sys.stdin.buffer, file)
    if file.tell() >= TOO_LONG:
        stop(f"an unproved run takes less than {TOO_LONG} bytes of input")
    file.seek(0)
    return file


def run_unproved(words):
    """Compiles and runs the sources as they are. Gives the exit status of the program."""
    say("nothing was proved: the answers are those of the sources as they are, once they are compiled (some minutes)")
    with tempfile.TemporaryFile() as file:
        given = input_for(words, file)
        rt = start(["rt", "try", "--seconds", str(SECONDS), "--", *words], stdin=given, stderr=subprocess.PIPE)
        said = rt.stderr.read()
        rt.wait()
    ended = ENDED.search(said)
    sys.stderr.buffer.write(said[: ended.start()] if ended else said)
    sys.stderr.flush()
    if not ended:
        stop(f"no answer: an unproved run writes at most 1 MiB in {SECONDS} seconds, and only of sources that compile")
    return int(ended[1])


def main(words):
    if signal.getsignal(signal.SIGINT) is signal.default_int_handler:
        signal.signal(signal.SIGINT, signal.SIG_DFL)
    if words[:1] == ["--unproved"]:
        return run_unproved(words[1:])
    build()
    for number in (signal.SIGPIPE, signal.SIGXFSZ):
        # (which Python ignores, and the program would inherit that)
        signal.signal(number, signal.SIG_DFL)
    os.execv(PROGRAM, [PROGRAM, *words])


if __name__ == "__main__":
    sys.exit(main(sys.argv[1:]))
