"""The register of the crates, register.toml: reads it and writes it. Each crate of crates.txt has one entry, in the
order of crates.txt: its layer, what it holds and what is proved of it, and the processor seconds of its proof, of its tests
and of its must-fail edits."""
import os
import tomllib

TOP = os.path.dirname(os.path.dirname(os.path.abspath(__file__)))
PATH = f"{TOP}/register.toml"
TEXTS = ("layer", "holds", "proved", "contract", "shown")
NUMBERS = ("proof", "tests", "edits")
NEW = {"layer": "", "holds": "", "proof": 60, "tests": 0, "edits": 0}
HEAD = """# Each crate once, in the order of crates.txt. `bin/files` makes docs/CRATES.md and the tables of docs/MAP.md and docs/GATE.md
# of it, and `bin/build` plans by its seconds.
#
# layer      where it stands in docs/MAP.md
# holds      what it holds, in one sentence
# proved     what is proved of its code, in plain words; left out where nothing is, as of definitions alone
# contract   the functions and types whose contracts say so
# shown      what only tests and cases show
# proof, tests, edits   the processor seconds of its proof, of that of its tests and of its must-fail edits, each from
#            nothing with the crates below it built; 0 where there is none, 60 for a proof that wasn't measured yet.
#            `bin/costs` writes them
"""


def listed():
    """The crates that crates.txt lists, in its order, each with the crates of the repository that it uses."""
    named = libraries()
    return {name: [it for it in below if it in named] for name, below in named.items()}


def libraries():
    """The crates that crates.txt lists, in its order, each with all libraries that it uses."""
    with open(f"{TOP}/crates.txt", encoding="utf-8") as it:
        lines = [line.split("#")[0] for line in it]
    return {line.split(":")[0].split()[0]: line.split(":")[1].split() for line in lines if line.strip()}


def read():
    """The entries, by the crates' names."""
    with open(PATH, "rb") as it:
        return tomllib.load(it)


def quoted(text):
    return '"' + text.replace("\\", "\\\\").replace('"', '\\"') + '"'


def lines_of(entry):
    """The lines of an entry: its texts, those that aren't empty, and its numbers."""
    yield from (f"{key} = {quoted(entry[key])}\n" for key in TEXTS if entry.get(key) or key in NEW)
    yield from (f"{key} = {entry[key]}\n" for key in NUMBERS)


def write(crates):
    """Writes the entries, those of crates that crates.txt lists, in its order."""
    text = HEAD
    for name in listed():
        text += f"\n[{name}]\n" + "".join(lines_of({**NEW, **crates.get(name, {})}))
    with open(f"{PATH}.new", "w", encoding="utf-8") as it:
        it.write(text)
    os.replace(f"{PATH}.new", PATH)
