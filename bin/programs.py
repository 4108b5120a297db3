#!/usr/bin/env python3
"""The programs that the repository makes for whoever runs it: what each is made of, and which one fits the sources as they
stand. `bin/programs.py NAME` prints the path of a program that fits, and builds one where there is none.

A program's sum is the SHA-256 over its line of crates.txt and each file of its src/, specs/ and proofs/, and over those of
all crates below it: each line and each file's name behind its length, the files by their names. A program that was built
here has the sum of the sources that it was built from beside it, in crates/NAME/out/NAME.sources; the release has the sum of
both programs in release/SOURCES. So neither a file's time nor a checkout's place counts, and all sources are read at each
start (a tenth of a second).

KILANDRU_BIN names a folder whose programs are taken in the place of all these, KILANDRU_BUILD=1 leaves the release out."""
import functools
import hashlib
import os
import re
import subprocess
import sys

TOP = os.path.dirname(os.path.dirname(os.path.realpath(__file__)))
sys.path.insert(0, f"{TOP}/bin")
sys.dont_write_bytecode = True
import register  # noqa: E402

RELEASE = f"{TOP}/release"
PROGRAMS = ("wiki", "wk_probe")
# Where the version stands, of which `wiki --version`, the package and the man page have it.
VERSION = "crates/wk_words/src/options.rt", r'const VERSION: &str = "(.*?)";'
# The machine that the release is for.
MACHINE = "Linux", "x86_64"


# What a program is made of


@functools.cache
def lines():
    """The lines of crates.txt, by the crates that they list, without comments."""
    with open(f"{TOP}/crates.txt", encoding="utf-8") as it:
        found = [" ".join(line.split("#")[0].split()) for line in it]
    return {line.split(":")[0].split()[0]: line for line in found if line}


def below(names):
    """The crates of which these programs are made, they themselves too, by their names."""
    each, found, left = register.listed(), set(), [*names]
    while left:
        name = left.pop()
        if name not in found:
            found.add(name)
            left += each[name]
    return sorted(found)


def files(crate):
    """The files of a crate that a build of it reads, by their names."""
    found, folders = [], [f"{TOP}/crates/{crate}/{it}" for it in ("src", "specs", "proofs")]
    while folders:
        folder = folders.pop()
        for it in os.scandir(folder) if os.path.isdir(folder) else ():
            if it.is_dir(follow_symlinks=False):
                folders.append(it.path)
            elif it.name.endswith((".rt", ".antt")):
                found.append(it.path)
    return sorted(found)


@functools.cache
def sum_of_crate(crate):
    """The sum over a crate's line of crates.txt and its files."""
    found = hashlib.sha256()

    def add(data):
        found.update(b"%d\n" % len(data))
        found.update(data)

    add(lines()[crate].encode())
    for path in files(crate):
        add(path.removeprefix(f"{TOP}/crates/").encode())
        with open(path, "rb") as it:
            add(it.read())
    return found.digest()


def sum_of(*names):
    """The sum over all that these programs are made of, as hexadecimal digits."""
    return hashlib.sha256(b"".join(map(sum_of_crate, below(names)))).hexdigest()


def version():
    """The version of the programs."""
    name, pattern = VERSION
    with open(f"{TOP}/{name}", encoding="utf-8") as it:
        return re.search(pattern, it.read())[1]


def stripped(path):
    """The bytes of a program without its symbols, by binutils' `strip`."""
    import tempfile  # noqa: PLC0415 (a start of a program has no time for it)

    with tempfile.TemporaryDirectory(prefix="kilandru-strip-") as room:
        subprocess.run(["strip", "-o", f"{room}/program", path], check=True)
        with open(f"{room}/program", "rb") as it:
            return it.read()


# What stands


def stamp(name):
    """Where the sum stands of the sources that the program was built from."""
    return f"{TOP}/crates/{name}/out/{name}.sources"


def built(name):
    """Where a program stands that was built here, whatever it was built from."""
    return f"{TOP}/crates/{name}/out/{name}"


def put_stamp(name, value):
    """Says that the program that stands was built from the sources of this sum."""
    with open(f"{stamp(name)}.new", "w", encoding="utf-8") as it:
        it.write(f"{value}\n")
    os.replace(f"{stamp(name)}.new", stamp(name))


def is_built(name):
    """Whether a program stands that was built here from the present sources."""
    try:
        with open(stamp(name), encoding="utf-8") as it:
            of = it.read().strip()
    except OSError:
        return False
    # (a program that was put in its place since has no stamp)
    is_older = os.access(built(name), os.X_OK) and os.stat(built(name)).st_mtime <= os.stat(stamp(name)).st_mtime
    return is_older and of == sum_of(name)


def release():
    """What release/SOURCES says, nothing where there is none."""
    try:
        with open(f"{RELEASE}/SOURCES", encoding="utf-8") as it:
            pairs = [line.split(":", 1) for line in it if ":" in line]
    except OSError:
        return {}
    return {name.strip(): value.strip() for name, value in pairs}


def fits():
    """Whether the release is of the present sources."""
    return release().get("sources") == sum_of(*PROGRAMS)


def why_no_release(name):
    """Why the release's program isn't taken, None where it can be."""
    if os.environ.get("KILANDRU_BUILD") == "1":
        return "KILANDRU_BUILD is 1"
    if name not in PROGRAMS or not os.access(f"{RELEASE}/{name}", os.X_OK):
        return f"there is no release of {name}"
    if (os.uname().sysname, os.uname().machine) != MACHINE:
        return f"the release is for {' and '.join(MACHINE)}"
    return None if fits() else "the release is of older sources than these"


def found(name):
    """Where a program stands that fits the present sources, and why there is none, one of both None."""
    given = os.path.abspath(os.environ.get("KILANDRU_BIN") or "/dev/null")
    if os.access(f"{given}/{name}", os.X_OK):
        return f"{given}/{name}", None
    if is_built(name):
        return built(name), None
    why = why_no_release(name)
    return (None, why) if why else (f"{RELEASE}/{name}", None)


@functools.cache
def path_of(name):
    """Where a program stands that fits the present sources; it is built where there is none, which a line says."""
    path, why = found(name)
    if path is None:
        print(f"build: {why}, so {name} is proved and built, which takes an hour or two where nothing was built before", file=sys.stderr, flush=True)
        if subprocess.run([f"{TOP}/bin/build", name], stdin=subprocess.DEVNULL).returncode:
            raise SystemExit(1)
        path = built(name)
    return path


if __name__ == "__main__":
    print(path_of(sys.argv[1]))
