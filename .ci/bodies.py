"""Leaves bodies out of a copy of a crate, so that a check of its other functions proves those alone.

In the place of a body that is left out is a loop without an end, and in the place of its proof a hole. The function's contract stays,
and the proof of a caller reads nothing else of it. It takes `rattle check --allow-holes`, by which a hole is no error.
"""

import os
import re
import shutil
from collections import Counter

from programs import read, write

# The line that a function begins with: its columns and its name. The body of a `const fn` stays, since a crate may need its value.
FUNCTION = re.compile(r"( *)(?:pub(?:\([\w:]+\))? )?(?:final )?fn (\w+)")
# The line that an `impl` or a trait begins with, and a line that ends one, or begins another item.
BLOCK = re.compile(r"(?:unsafe )?impl\b|(?:pub(?:\([\w:]+\))? )?trait\b")
NO_BLOCK = re.compile(r"(?!where\b)[\w}]")
# The declaration of a type.
TYPE = re.compile(r"(?m)^(?:pub.*? )?(?:struct|enum) (\w+)")
# A comment, a string or a character.
LITERAL = re.compile(r"//[^\n]*|r(#*)\".*?\"\1|\"(?:\\.|[^\"\\])*\"|'(?:\\.|[^\\'\n])'", re.S)
# The file in the place of a proof.
HOLE = "use {module}.Statement.{{statement}}\n\npub {name}_spec : {{M : Type 1}} → statement M\n{name}_spec = ?\n"


class Function:
    """A function with a body: its path below the crate, its cycle of calls, if it has one, and its lines, from its attributes and the
    line at whose end the body begins to the one that ends it."""

    def __init__(self, file, path, cycle, first, body, last):
        self.file, self.path, self.cycle = file, path, cycle
        self.first, self.body, self.last = first, body, last

    def leave_out(self, lines, proofs, crate):
        """Leaves the body out of the lines of its file, with the attributes, and the proof out of this folder."""
        for at in range(self.first, self.last + 1):
            if at > self.body or lines[at].lstrip().startswith("#["):
                lines[at] = None
        lines[self.body] = re.sub(r"\{[^{]*$", "{ loop {} }", lines[self.body])
        *above, name = self.path.split("::")
        for folder in (name, f"+{name}"):
            shutil.rmtree("/".join([proofs, *above, folder]), ignore_errors=True)
        module = ".".join(["Rattle", crate, "proofs", *above, name])
        write("/".join([proofs, *above, name, "Proof.antt"]), HOLE.format(module=module, name=name).encode())


def leave_out(room, crate, is_kept):
    """Leaves out each body of the crate in this folder that isn't kept, by the function's path. The bodies of a cycle of calls have one
    proof, and stay if one of them is kept. What a macro writes stays, too, and what isn't the only function with its path."""
    files = sorted(f"{at}/{name}" for at, _, names in os.walk(f"{room}/src") for name in names if name.endswith(".rt"))
    # A function of a type's own has its path below the type, whichever file it is in.
    types = [(name, module_of(room, file)) for file in files for name in TYPE.findall(read(file).decode())]
    found = [it for file in files for it in functions_of(file, module_of(room, file), types)]
    cycles = {it.cycle for it in found if it.cycle and is_kept(it.path)}
    counts = Counter(it.path for it in found)
    for file in files:
        lines = read(file).decode().split("\n")
        for it in found:
            if it.file == file and not is_kept(it.path) and it.cycle not in cycles and counts[it.path] == 1:
                it.leave_out(lines, f"{room}/proofs", crate)
        write(file, "\n".join(it for it in lines if it is not None).encode())


def module_of(room, file):
    """The path of a file's module."""
    path = os.path.relpath(file, f"{room}/src").removesuffix(".rt").split("/")
    return [] if path in (["lib"], ["main"]) else path


def functions_of(file, module, types):
    """The functions with bodies of a file that are in its module itself, in an `impl` or in a trait. `rt fmt` has laid the file out."""
    # The lines of a string may look like code.
    lines = LITERAL.sub(lambda it: re.sub(r"[^\n]", "_", it[0]) if "\n" in it[0] else it[0], read(file).decode()).split("\n")
    block, first, found = "", 0, []
    for at, line in enumerate(lines):
        if BLOCK.match(line):
            block = block_name(" ".join(lines[at : head_end(lines, at) + 1]))
        elif NO_BLOCK.match(line):
            block = ""
        head = FUNCTION.match(line)
        if head and len(head[1]) == (4 if block else 0):
            body = body_of(lines, at, head[1])
            if body is not None:
                cycle = re.search(r"#\[cycle\((\w+)\)\]", "\n".join(lines[first:at]))
                homes = [home for name, home in types if name == block]
                home = module if module in homes or not homes else homes[0]
                path = "::".join([*home, *[block] * bool(block), head[2]])
                found.append(Function(file, path, cycle and cycle[1], first, body, body_end(lines, body, head[1])))
        if not line.lstrip().startswith(("#[", "//")):
            first = at + 1
    return found


def head_end(lines, at):
    """The line at whose end the braces of an `impl` or a trait open that begins at this line."""
    return next(it for it in range(at, len(lines)) if lines[it].endswith(("{", "{}")))


def body_of(lines, at, columns):
    """The line at whose end the body begins of the function at this line, or that has all of it, None where there is none."""
    for it in range(at, len(lines)):
        if lines[it].endswith(";"):
            return None
        # What is further in is a parameter or a clause.
        if lines[it].endswith(("{", "}")) and not (it > at and lines[it].startswith(f"{columns} ")):
            return it
    return None


def body_end(lines, body, columns):
    """The line that ends the body that begins at this line."""
    return body if lines[body].endswith("}") else lines.index(f"{columns}}}", body)


def block_name(head):
    """What paths call an `impl` or a trait: the words of the type, and those of the trait that it implements. An `impl` for a parameter
    has no name here, and its bodies stay."""
    head = re.sub(r" *(?:\{|\bwhere\b).*$", "", head)
    declared = re.search(r"\btrait (\w+)", head)
    if declared:
        return declared[1]
    parameters, head = parameters_of(re.sub(r"^(?:unsafe )?impl ?", "", head))
    of_trait, _, of_type = head.rpartition(" for ")
    if not of_trait:
        return words(re.sub(r"<.*", "", of_type), parameters)
    name = words(of_type, parameters)
    return name and name + words(of_trait, parameters)


def parameters_of(head):
    """The names of the parameters that an `impl` begins with, and the rest of it."""
    depth, names = 0, ""
    for at, letter in enumerate(head):
        depth += {"<": 1, ">": -1}.get(letter, 0)
        if depth == 0:
            return set(re.findall(r"[<,]\s*(\w+)", names)), head[at:].lstrip("> ")
        if depth == 1:
            names += letter
    return set(), head


def words(text, parameters):
    """The words of a type or a trait, without its paths, lifetimes and parameters."""
    text = re.sub(r"'\w+,? ?|\w+::", "", text.strip())
    text = re.sub(r"^\((.*)\)$", lambda it: f"Tuple{it[1].count(',') + 1} {it[1]}" if it[1] else "Unit", text)
    text = text.replace("&mut ", "RefMut ").replace("&", "Ref ")
    return "".join(it[0].upper() + it[1:] for it in re.findall(r"\w+", text) if it not in parameters)
