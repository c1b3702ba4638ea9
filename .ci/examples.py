"""The first examples of the crates that users take, which ./add_to copies the crates for."""

import re
from collections import namedtuple

from programs import TOP, read

README = "README.md"
TYPES = "docs/OWN_TYPES.md"
TABLES = "docs/TABLES.md"

# The crates that users take: the page of each, what the page's first example of it uses beside `anyhow`, and a whole example, if there is
# one.
EXAMPLES = {
    "serde_dynamo": (README, "dynamo_serde serde serde_dynamo", README),
    "dynamo_serde": (TYPES, "dynamo_serde serde serde_dynamo", README),
    "dynamo_record": (TYPES, "dynamo_record serde_dynamo dynamo_value dynamo_shape serde_json", "examples/described_type.rs"),
    "table_memory": (TABLES, "table_memory serde_dynamo", "examples/service_test.rs"),
    "table_typed": (TABLES, "table_typed table_memory dynamo_serde dynamo_value serde", "examples/service_test.rs"),
    "table_store": (TABLES, "table_store table_keys serde_dynamo", "examples/table_in_file.rs"),
    "table_typed_store": (TABLES, "table_typed_store sqlite table_typed table_memory dynamo_serde dynamo_value serde", None),
    "exports": (TABLES, "exports", "examples/export_check.rs"),
}

# The line of an example for crates.txt, at its head.
HEAD = re.compile(r"(?m)^//! In crates\.txt: `\w+: (.*)`$")


def line_of(names, is_bare=False):
    """The crates that the line of a crate over these names: what the first examples of their pages use."""
    used = [it for name in names for it in (name if is_bare or name not in EXAMPLES else EXAMPLES[name][1]).split()]
    return [*dict.fromkeys(used), "anyhow"]


# A whole example: its text, its file in src/, the crates that it uses, and what it prints, None of a library.
Example = namedtuple("Example", "text file uses printed")


def example_of(names):
    """The whole example of the first of these crates that has one. None if none has one."""
    file = next((EXAMPLES[it][2] for it in names if it in EXAMPLES and EXAMPLES[it][2]), None)
    if file is None:
        return None
    text = read(f"{TOP}/{file}").decode()
    if file == README:
        program, printed = re.search(r"(?ms)^```rust\n(.*?)^```$.*?^```text\n(.*?)^```$", text).groups()
        return Example(program, "main.rt", EXAMPLES["serde_dynamo"][1].split(), printed.encode())
    printed = read(f"{TOP}/{file.removesuffix('.rs')}.stdout")
    return Example(text, "lib.rt" if printed is None else "main.rt", HEAD.search(text)[1].split(), printed)
