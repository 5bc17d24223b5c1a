"""What the program was built from, and whether a run is one of the proved program."""
import os

from door.place import HERE, IS_RELEASE, PROGRAM

try:
    # (hashlib takes as long as Python itself to begin; this is what it has for machines without OpenSSL.)
    from _sha256 import sha256
except ImportError:
    from hashlib import sha256

PARTS = ("src", "specs", "proofs")


def read(name):
    """The bytes of a file."""
    with open(name, "rb", buffering=0) as file:
        return file.read()


def checksum(name):
    """The checksum of a file."""
    return sha256(read(name)).hexdigest()


def crate_lines():
    """The lines of crates.txt for the program and all that it stands on, by name, each after the crates that it names."""
    lines, found = {}, {}
    for line in read(f"{HERE}/crates.txt").decode("utf-8", "surrogateescape").split("\n"):
        line = line.partition("#")[0].replace(":", " ", 1)
        if line.split():
            lines[line.split()[0]] = line

    def visit(name):
        """Adds a crate behind those that it names."""
        if name in lines and name not in seen:
            seen.add(name)
            for it in lines[name].split()[1:]:
                visit(it)
            found[name] = lines[name]

    seen = set()
    visit("osp")
    return found


def files_in(folder, found, folders):
    """Adds the files below a folder, and it and the folders below it, by their paths as bytes."""
    folders.append(folder)
    with os.scandir(folder) as entries:
        for it in entries:
            if it.is_dir(follow_symlinks=False):
                files_in(it.path, found, folders)
            elif it.is_file(follow_symlinks=False):
                found.append(it.path)


def source_files(crates, folders=None):
    """The files that the crates of these names are built from, in the order of their bytes, by their names from the top. The folders in
    which they are come to `folders`."""
    found, inside, top = [], [], os.fsencode(HERE)
    for crate in crates:
        for part in PARTS:
            folder = f"{HERE}/crates/{crate}/{part}"
            if os.path.isdir(folder):
                files_in(os.fsencode(folder), found, inside)
    if folders is not None:
        folders += [it[len(top) + 1 :] for it in inside]
    return sorted(it[len(top) + 1 :] for it in found)


def sums():
    """The checksum of each file that the program is built from, and of its lines of crates.txt, a line each, as sha256sum writes it."""
    crates, top = crate_lines(), os.fsencode(HERE)
    text = "".join(f"{it}\n" for it in crates.values()).encode("utf-8", "surrogateescape")
    files = [f"{checksum(os.path.join(top, it))}  {os.fsdecode(it)}" for it in source_files(crates)]
    return [f"{sha256(text).hexdigest()}  crates.txt", *files]


def recorded():
    """The lines that were written beside the program when it was built: how, its own checksum, and those of its sources."""
    try:
        return os.fsdecode(read(f"{PROGRAM}.sums")).split("\n")[:-1]
    except OSError:
        return []


def sum_of_sums():
    """One checksum of all of these; of a release, that of the sources from which its program was proved."""
    lines = recorded()[2:] if IS_RELEASE else sums()
    return sha256(os.fsencode("".join(f"{it}\n" for it in lines))).hexdigest()


def is_whole():
    """Whether the program is the one that its sums were written for."""
    return os.access(PROGRAM, os.X_OK) and os.path.isfile(PROGRAM) and recorded()[1:2] == [checksum(PROGRAM)]


def changed():
    """The files that aren't as they were when the program was built, or None where that isn't known."""
    from door import seen

    return seen.edited()


def code_of(names):
    """Of files those that hold code."""
    return [it for it in names if "/specs/" not in it and "/proofs/" not in it]


def judged():
    """Why a run isn't one of the proved program, or ""; and which files were edited since it was proved."""
    if IS_RELEASE:
        return "" if is_whole() else "the program is not the one of this release", []
    edits = changed()
    if edits is not None:
        code = code_of(edits)
        return f"{code[0]} isn't as it was when the program was proved" if code else "", edits
    if os.access(PROGRAM, os.X_OK):
        return "nothing says of which sources the program in crates/osp/out was built", []
    return "the program isn't built", []
