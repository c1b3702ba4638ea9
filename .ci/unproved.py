"""Programs that aren't proved: what `rt try` compiles is linked and kept.

`rt try` compiles a program with checks and runs it, and keeps no file. While it does, the folder of its temporary files has the
program's LLVM bitcode, module.bc, with the checks of indices, overflow and unwrapping. The kit's compiler and linker make a program of
that, as they make the proved one, and then `rt try` is ended. The program is kept in the crate's out/unproved, under the checksum of
all that it was made of.
"""

import fcntl
import glob
import os
import shutil
import subprocess
import sys
import tempfile
import time

from programs import SAID, TOP, Wrong, kit, read_crates, start, sum_of

# The seconds between two looks at the temporary files of `rt try`.
PAUSE = 0.1

# Programs of small inputs, which aren't optimized: so the first answer comes no later than by `rt try`. The others are, since a load
# into a table took a hundred times as long, but are made in about twice the time.
QUICK = ("dynamo_tool", "dynamo_derive")

# How `rt try` calls clang, but for its checks of addresses.
FLAGS = """--target=x86_64-unknown-linux-gnu -march=x86-64 -mllvm -no-trap-after-noreturn -ffunction-sections -fdata-sections
-mllvm -trap-unreachable -mllvm -no-x86-call-frame-opt -mllvm -disable-machine-licm -mllvm -disable-postra-machine-licm
-mllvm -sink-common-insts=false --no-default-config -no-canonical-prefixes -fPIE -c -x ir""".split()


class Unmade(Exception):
    """This kit's `rt try` runs the program, but no program can be made of what it compiles."""


class Crate:
    """A crate of a program: its name, its folder, the crates.txt that lists it, the folder of all crates there, and where the unproved
    program is kept."""

    def __init__(self, folder):
        if not kit():
            raise Wrong("there is no `rt`: put Rattle's kit on the path")
        self.folder = os.path.realpath(folder)
        self.name, self.crates = os.path.basename(self.folder), os.path.dirname(self.folder)
        tops = [self.crates, os.path.dirname(self.crates)]
        self.list = next((f"{it}/crates.txt" for it in tops if os.path.isfile(f"{it}/crates.txt")), "")
        if self.name not in read_crates(self.list):
            raise Wrong(f"{folder}: no crates.txt has a line of a crate {self.name}")
        if not os.path.isfile(f"{self.folder}/src/main.rt"):
            raise Wrong(f"{folder}: the crate has no src/main.rt, so it is no program")

        self.made = self.place()

    def place(self):
        """Where the unproved program of the present sources is kept."""
        return f"{self.folder}/out/unproved/{sum_of(self.name, self.list, self.crates)[:32]}/{self.name}"


def unproved(program):
    """The crate of a program of this repository."""
    return Crate(f"{TOP}/crates/{program}")


def how_long(name):
    """How long it takes to make the program of a crate, in words."""
    return "a minute or two" if name in QUICK else "some minutes"


def is_made(crate):
    """Whether the unproved program of the sources is kept."""
    return os.access(crate.made, os.X_OK)


def stop_if_unmade(crate):
    """Stops where it is known that this kit can't make the program."""
    if not can_link() or os.path.exists(f"{os.path.dirname(crate.made)}/none"):
        raise Unmade("no unproved program can be made by this kit")


def can_link():
    """Whether the kit has what makes a program of bitcode."""
    return all(os.path.exists(f"{kit()}/{it}") for it in ("toolchain/bin/clang", "bin/rattle-link", "c/libos_c.a", "c/liblibc_c.a"))


def run_tool(folder, words, room):
    """Runs a tool from a folder of the kit: its status, and what it printed. LLVM's tools are one file, which goes by its name."""
    how = {"stdin": subprocess.DEVNULL, "stdout": subprocess.PIPE, "stderr": subprocess.DEVNULL}
    file = "clang" if words[0].startswith("llvm-") else words[0]
    ran = start(words, room, executable=f"{kit()}/{folder}/{file}", **how)
    printed = ran.communicate()[0]
    return ran.returncode, printed


def is_program(bitcode, room):
    """Whether a copy of this file, which `rt try` may be writing, is the whole bitcode of a program."""
    try:
        shutil.copyfile(bitcode, f"{room}/module.bc")
    except OSError:
        return False
    status, names = run_tool("toolchain/bin", ["llvm-nm", "--defined-only", "module.bc"], room)
    return status == 0 and b" T main\n" in names


def take_bitcode(crate, room):
    """Runs `rt try` until it has the bitcode of a program. Whether that is copied to module.bc, and what `rt try` said."""
    os.makedirs(f"{room}/try")
    with open(f"{room}/said", "w+b") as said:
        how = {"stdin": subprocess.DEVNULL, "stdout": subprocess.DEVNULL, "stderr": said, "env": {**os.environ, "TMPDIR": f"{room}/try"}}
        tried, seen, found = start(["rt", "try", "--seconds", "1800"], crate.folder, **how), {}, False
        while not found and tried.poll() is None:
            time.sleep(PAUSE)
            for file in glob.glob(f"{room}/try/*/*/module.bc"):
                size = os.path.getsize(file) if os.path.exists(file) else None
                if size and seen.get(file) != size and not found:
                    seen[file], found = size, is_program(file, room)
        # `rt try` ends what it started.
        tried.terminate()
        tried.wait()
        said.seek(0)
        return found, said.read().decode(errors="surrogateescape")


def link(name, room):
    """Makes a program of the bitcode, as `rt run` does of its own: the program, None if that fails."""
    compiler = ["clang", *FLAGS, "-O0" if name in QUICK else "-O1", "module.bc", "-o", "module.o"]
    linker = ["rattle-link", "--target", "x86_64-unknown-linux-gnu", "--toolchain", f"{kit()}/toolchain", "-o", "program", "module.o"]
    linker += [f"{kit()}/c/libos_c.a", f"{kit()}/c/liblibc_c.a"]
    is_made = run_tool("toolchain/bin", compiler, room)[0] == 0 and run_tool("bin", linker, room)[0] == 0
    return f"{room}/program" if is_made else None


def keep(program, made):
    """Keeps a program in the place of those of other sources."""
    folder = os.path.dirname(os.path.dirname(made))
    others = [it for it in glob.glob(f"{glob.escape(folder)}/*/") if os.path.realpath(it) != os.path.dirname(made)]
    os.makedirs(os.path.dirname(made), exist_ok=True)
    # A launcher never meets half of it.
    own = f"{made}.{os.getpid()}"
    shutil.copyfile(program, own)
    os.chmod(own, 0o755)
    os.replace(own, made)
    for it in others:
        shutil.rmtree(it, ignore_errors=True)


def make(crate):
    """Makes the unproved program of a crate, if it isn't kept, and returns where it is. Another script that makes the same is waited for.
    Raises `Wrong` if `rt try` refuses the sources, and `Unmade` if nothing can be made by this kit."""
    stop_if_unmade(crate)
    if is_made(crate):
        return crate.made
    folder = os.path.dirname(os.path.dirname(crate.made))
    os.makedirs(folder, exist_ok=True)
    with open(f"{folder}/lock", "w") as lock, tempfile.TemporaryDirectory() as room:
        fcntl.flock(lock, fcntl.LOCK_EX)
        if is_made(crate):
            return crate.made
        found, said = take_bitcode(crate, room)
        if not found:
            stop_without(said, crate.made)
        program = link(crate.name, room)
        if not program:
            raise Unmade("the kit's compiler makes no program of what `rt try` compiled")
        if crate.place() != crate.made:
            raise Wrong("its sources changed while it was made: run this again")
        keep(program, crate.made)
        return crate.made


def make_and_tell(crate, how):
    """The same, and a line on standard error: that the program isn't proved, and how to prove it."""
    stop_if_unmade(crate)
    first = f". An unproved program is made first, in {how_long(crate.name)}, and kept for the next run"
    print(f"{crate.name}: this run isn't proved{'' if is_made(crate) else first}; {how}", file=sys.stderr, flush=True)
    return make(crate)


def stop_without(said, made):
    """Stops where `rt try` ended, and no bitcode of a program was found."""
    if SAID.search(said):
        # The next script doesn't look for it again.
        os.makedirs(os.path.dirname(made), exist_ok=True)
        with open(f"{os.path.dirname(made)}/none", "w"):
            raise Unmade("this kit's `rt try` leaves nothing that a program can be made of")
    sys.stderr.buffer.write(said.encode(errors="surrogateescape"))
    raise Wrong("`rt try` has no answer")
