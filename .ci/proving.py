"""Proves crates by `rt ci` in a copy of them, and shows how far it is."""

import glob
import math
import os
import queue
import re
import shutil
import subprocess
import sys
import threading
import time

from programs import TOP, read, read_crates, sources_of, start, write

# What `rt ci` says of a crate, when it is done with it.
KEPT = re.compile(r"rt: (\w+) is kept: ")
PROVED = re.compile(r"rt: (\w+) proved$")
FUNCTIONS = re.compile(r"logic=proved functions=(\d+) ")

# The processor seconds that a line of a crate takes, roughly. It serves until the first crate is proved.
SECONDS_A_LINE = 0.15
# Where standard error is no terminal, it has a line in so many seconds.
PAUSE = 30

# What `rt ci` runs a program on, beside its sources.
OF_PROGRAM = ("args", "stdin", "stdout", "status", "data")


def lay(crates, room):
    """Lays copies of crates in a folder, with their lines of crates.txt and what their programs are run on, as a repository of its own."""
    lines = read_crates()
    for crate in crates:
        for part in ("src", "specs", "proofs", *OF_PROGRAM):
            source, to = f"{TOP}/crates/{crate}/{part}", f"{room}/crates/{crate}/{part}"
            if os.path.isdir(source):
                shutil.copytree(source, to)
            elif os.path.isfile(source):
                shutil.copyfile(source, to)
    write(f"{room}/crates.txt", "".join(f"{it}: {' '.join(lines[it])}\n" for it in crates).encode())
    write(f"{room}/HANDLES", read(f"{TOP}/HANDLES"))


class Proving:
    """How far `rt ci` is with the crates in a folder."""

    def __init__(self, crates, room):
        self.crates, self.room, self.begun = crates, room, time.monotonic()
        self.lines = {it: sum(read(file).count(b"\n") for file in sources_of([it])) for it in crates}
        self.kept, self.proved, self.functions, self.shown = set(), set(), 0, -PAUSE

    def hear(self, line):
        """Takes a line that `rt ci` printed. Whether a crate is done by it."""
        counted, kept, proved = FUNCTIONS.match(line), KEPT.match(line), PROVED.match(line)
        self.functions += int(counted[1]) if counted else 0
        self.kept |= {kept[1]} if kept else set()
        self.proved |= {proved[1]} & {*self.crates} if proved else set()
        return bool(kept or proved)

    def done(self):
        return self.kept | self.proved

    def under_way(self):
        """The crates that `rt ci` has begun: each has a folder out/ by then."""
        return [it for it in self.crates if it not in self.done() and os.path.isdir(f"{self.room}/crates/{it}/out")]

    def minutes_left(self):
        """An estimate, as if nothing more were kept: by the lines of the crates that are left, and by the time that those took which
        were proved. Of the crates under way half is taken to be done."""
        half = sum(self.lines[it] for it in self.under_way()) / 2
        left = sum(self.lines[it] for it in self.crates if it not in self.done()) - half
        behind = sum(self.lines[it] for it in self.proved) + half
        measured = (time.monotonic() - self.begun) / behind if behind else 0
        guessed = SECONDS_A_LINE / min(4, os.cpu_count() or 1)
        return math.ceil(left * (measured if self.proved else max(measured, guessed)) / 60)

    def text(self):
        now, left = ", ".join(self.under_way()[:4]), self.minutes_left()
        kept = f" ({len(self.kept)} kept from earlier)" if self.kept else ""
        parts = [f"{len(self.done())} of {len(self.crates)} crates are done{kept}", f"{self.functions} functions proved now"]
        parts += [f"under way: {now}"] if now else []
        parts += [f"about {left} minute{'s' if left > 1 else ''} left"] if left > 0 else []
        return "; ".join([*parts, "%d:%02d gone by" % divmod(int(time.monotonic() - self.begun), 60)])

    def show(self, always=False):
        """Prints the line of the present state: on a terminal in the place of the last, and else one now and then."""
        turns, now = sys.stderr.isatty(), time.monotonic()
        if always or now > self.shown + (1 if turns else PAUSE):
            self.shown = now
            begin, end = ("\r\033[K", "\n" if always else "") if turns else ("", "\n")
            print(f"{begin}build: {self.text()}", end=end, file=sys.stderr, flush=True)


def lines_of(stream):
    """The lines of a stream, and None each second in which there is none."""
    lines = queue.Queue()

    def pass_on():
        for line in stream:
            lines.put(line)
        lines.put("")

    threading.Thread(target=pass_on, daemon=True).start()
    line = None
    while line != "":
        try:
            line = lines.get(timeout=1)
        except queue.Empty:
            line = None
        if line != "":
            yield line


def prove(crates, room, jobs):
    """Proves crates, which are laid in a folder, where their proofs aren't kept on this machine. Whether that is done, and all that
    was said."""
    proving, said = Proving(crates, room), []
    environment = {**os.environ, **({"RT_JOBS": jobs} if jobs else {})}
    how = {"stdin": subprocess.DEVNULL, "stdout": subprocess.PIPE, "stderr": subprocess.STDOUT, "env": environment}
    with start(["rt", "ci"], room, text=True, errors="replace", **how) as ran:
        for line in lines_of(ran.stdout):
            said += [line] if line else []
            is_news = bool(line) and proving.hear(line)
            proving.show(always=is_news and not sys.stderr.isatty())
    if sys.stderr.isatty():
        proving.show(always=True)
    return ran.returncode == 0, "".join(said)


def take(program, room, made, begun):
    """Puts the program that `rt ci` built in its place. A source that was changed since the proof began is newer than it."""
    own = f"{made}.{os.getpid()}"
    os.makedirs(os.path.dirname(made), exist_ok=True)
    shutil.copyfile(f"{room}/crates/{program}/out/{program}", own)
    os.chmod(own, 0o755)
    os.utime(own, (begun, begun))
    os.replace(own, made)
    for it in glob.glob(f"{glob.escape(os.path.dirname(made))}/unproved"):
        shutil.rmtree(it, ignore_errors=True)
