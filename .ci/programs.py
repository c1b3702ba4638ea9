"""The repository's crates and its programs, for the scripts that run, build and copy them."""

import hashlib
import os
import re
import shutil
import signal
import subprocess
import sys
import tempfile

TOP = os.path.dirname(os.path.dirname(os.path.realpath(__file__)))

# The programs that the repository's top has a launcher of.
PROGRAMS = ["dynamo_tool", "dynamo_table", "dynamo_derive"]

# What `rt try` says behind the standard error of the program that it ran.
SAID = re.compile(r"((?:^(?:checked|interpreter|races): .*\n)*)^run=ended status=(\d+) .*proved=no\n\Z", re.M)


# The commands that were started.
RUNNING = []


class Wrong(Exception):
    """What is wrong, in a sentence."""


def help_if_asked(words, usage):
    """Prints the usage of a script of the repository's top and ends it, if a word asks for that. It is the doc comment behind its title."""
    if {"--help", "-h"} & {*words}:
        print(usage.split("\n\n", 1)[1], end="")
        sys.exit(0)


def refuse(script, wrong):
    """Says which word is wrong, and how to get help. The status."""
    print(f"{script}: {wrong}; ./{script} --help prints the usage", file=sys.stderr)
    return 2


def read(file):
    """The bytes of a file, None where there is no such file."""
    if not os.path.isfile(file):
        return None
    with open(file, "rb") as it:
        return it.read()


def write(file, content):
    """Writes a file, with the folders above it."""
    os.makedirs(os.path.dirname(file), exist_ok=True)
    with open(file, "wb") as it:
        it.write(content)


def read_crates(file=f"{TOP}/crates.txt"):
    """The lines of a crates.txt: each crate with its libraries, lowest first in this repository's."""
    lines = (read(file) or b"").decode().splitlines()
    rows = [line.partition("#")[0].partition(":") for line in lines]
    return {name.split()[0]: below.split() for name, _, below in rows if name.strip()}


def with_below(names, file=f"{TOP}/crates.txt"):
    """These crates of a repository and all crates below them, lowest first if its crates.txt has them so."""
    crates, wanted, found = read_crates(file), list(names), set()
    unknown = sorted({*wanted} - {*crates})
    if unknown:
        raise Wrong(f"no crates of this repository: {' '.join(unknown)}")
    while wanted:
        name = wanted.pop()
        if name in crates and name not in found:
            found.add(name)
            wanted += crates[name]
    return [name for name in crates if name in found]


def lay_crates(room):
    """Lays copies of the crates in a folder, with their crates.txt, so that another crate can be laid beside them."""
    for crate in read_crates():
        for part in ("src", "specs", "proofs"):
            if os.path.isdir(f"{TOP}/crates/{crate}/{part}"):
                shutil.copytree(f"{TOP}/crates/{crate}/{part}", f"{room}/crates/{crate}/{part}")
    write(f"{room}/crates.txt", read(f"{TOP}/crates.txt"))


def add_line(file, crate, libraries):
    """Adds the line of a crate that is only tried to a crates.txt, with `anyhow` twice. Beside each try `rt try` checks the names of the
    crate, which takes minutes of a processor and says what a proof would refuse. A library that is there twice ends that check at once,
    and doesn't stop the try."""
    write(file, read(file) + f"{crate}: {' '.join(dict.fromkeys([*libraries, 'anyhow']))} anyhow\n".encode())


def sources_of(names, crates=f"{TOP}/crates"):
    """The sources, the specs and the proofs of these crates, whose folders are in the given one."""
    found = []
    for name in names:
        for part in ("src", "specs", "proofs"):
            for at, _, files in os.walk(f"{crates}/{name}/{part}"):
                found += [f"{at}/{file}" for file in files if file.endswith((".rt", ".antt"))]
    return sorted(found)


def kit():
    """The folder of Rattle's kit, None if there is no `rt` on the path."""
    found = shutil.which("rt")
    return found and os.path.dirname(os.path.dirname(os.path.realpath(found)))


def kit_line():
    """What `rt version` prints, which is a file of the kit's too."""
    return read(f"{kit()}/KIT-ID") or subprocess.run(["rt", "version"], capture_output=True).stdout


def sum_of(crate, file=f"{TOP}/crates.txt", crates=f"{TOP}/crates"):
    """The checksum of all that a program or a proof of a crate is made of: the kit's name, and the lines of crates.txt and the sources
    of the crate and of all below it."""
    below, lines = with_below([crate], file), read_crates(file)
    found = hashlib.sha256(kit_line())
    for it in below:
        found.update(f"{it}: {' '.join(lines[it])}\n".encode())
    for it in sources_of(below, crates):
        found.update(f"{os.path.relpath(it, crates)} {hashlib.sha256(read(it)).hexdigest()}\n".encode())
    return found.hexdigest()


def built(program):
    """Where the proved program is built."""
    return f"{TOP}/crates/{program}/out/{program}"


def is_built(program):
    """Whether the proved program is built and none of its sources is newer."""
    return os.access(built(program), os.X_OK) and is_newer(built(program), program)


def is_proved(crate):
    """Whether the crate's library is built, which only a proved one is, and none of its sources is newer."""
    made = f"{TOP}/crates/{crate}/out/rlib/{crate}.rlib"
    return os.path.exists(made) and is_newer(made, crate)


def is_newer(made, crate):
    """Whether what was made is newer than the sources of this crate and of all below it."""
    return all(os.path.getmtime(made) > os.path.getmtime(it) for it in [f"{TOP}/crates.txt", *sources_of(with_below([crate]))])


def start(words, folder, **how):
    """Starts a command in a folder, which a signal ends with this script, if `end_by_signals` was called."""
    RUNNING.append(subprocess.Popen(words, cwd=folder, **how))
    return RUNNING[-1]


def end_by_signals():
    """Has a signal that ends this script end the commands that it started, too."""

    def end(number, _):
        for it in RUNNING:
            it.terminate()
        sys.exit(128 + number)

    for number in (signal.SIGINT, signal.SIGTERM, signal.SIGHUP):
        signal.signal(number, end)


def try_program(folder, words, given=subprocess.DEVNULL, flags=()):
    """Runs a program by `rt try`, for ten minutes at most, with this file as its input: what it printed, what it or else `rt try`
    said on standard error, and the status that it ended with, None where there is no answer."""
    how = {"stdin": given, "stdout": subprocess.PIPE, "stderr": subprocess.PIPE}
    printed, said = start(["rt", "try", "--seconds", "1800", *flags, "--", *words], folder, **how).communicate()
    said = said.decode(errors="surrogateescape")
    found = SAID.search(said)
    return (printed, said[: found.start()], int(found[2])) if found else (printed, said, None)


def run_all(words, folder):
    """Runs a command without input: its status, and all that it said."""
    how = {"stdin": subprocess.DEVNULL, "stdout": subprocess.PIPE, "stderr": subprocess.STDOUT}
    ran = start(words, folder, text=True, errors="replace", **how)
    said = ran.communicate()[0]
    return ran.returncode, said


def lay_out(code):
    """The code of a file, laid out by `rt fmt`."""
    with tempfile.TemporaryDirectory() as crate:
        file = f"{crate}/src/lib.rt"
        write(file, code)
        try:
            status, said = run_all(["rt", "fmt"], crate)
        except OSError as wrong:
            raise Wrong(f"`rt fmt` can't be run ({wrong.strerror})") from wrong
        if status != 0:
            raise Wrong(f"`rt fmt` ended with status {status}: {' '.join(said.replace(f'{crate}/', '').split())}")
        return read(file)


def build(program, command, folder, status):
    """Proves and builds a program, and runs it without words, where it isn't built yet or a source is newer.

    `rt ci` leaves its programs, and no libraries that a build afterwards could use, so one would prove them all again."""
    sources = [f"{TOP}/crates.txt", *sources_of(read_crates())]
    if os.path.isfile(program) and os.path.getmtime(program) > max(map(os.path.getmtime, sources)):
        return
    ran = subprocess.run(command, cwd=folder, stdin=subprocess.DEVNULL, capture_output=True, text=True)
    if ran.returncode != status:
        raise Wrong(f"{' '.join(command)} in {folder} ended with status {ran.returncode}:\n{ran.stdout}{ran.stderr}")


def build_preloaded(source, folder):
    """Compiles a C file of .ci that is preloaded to programs, by the machine's compiler or else by the kit's."""
    kit = os.path.dirname(os.path.dirname(os.path.realpath(shutil.which("rt"))))
    compiler = ["cc"] if shutil.which("cc") else [f"{kit}/toolchain/bin/clang", "-nostdlib", "-fuse-ld=lld"]
    made = f"{folder}/{source}.so"
    subprocess.run([*compiler, "-O2", "-shared", "-fPIC", "-o", made, f"{TOP}/.ci/{source}"], check=True)
    return made
