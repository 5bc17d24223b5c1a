"""./osp install: puts the proved program with all that belongs to it on this machine.

One folder holds what runs: the script, door/, desk/, the program with its sums, and the file RELEASE, by which the script knows that there
are no sources. Another holds the documents. In the tarball both are one.
"""
import errno
import os
import shutil

from door import building, completion, manual, saying, sources
from door.place import HERE, PROGRAM
from door.running import KEPT
from door.saying import fail, shown, tell

# The folders in which it installs, of those that a prefix has, and the files in folders of others.
FOLDERS = ("lib/osp", "share/doc/osp")
FILES = ("share/man/man1/osp.1", "share/bash-completion/completions/osp")
MACHINE = os.uname().machine


def need_proved(what):
    """Ends the script where what would be given away isn't proved."""
    why, edits = sources.judged()
    why = why or (f"{edits[0]} was edited since the program was proved" if edits else "")
    if why:
        fail(f"{what}, since {why}: ./osp build proves and builds it")


def copy_file(mode, start, end):
    """Copies a file, with these permissions. Raises OSError."""
    shutil.copyfile(start, end)
    os.chmod(end, mode)


def write(name, text):
    """Writes a new file. Raises OSError."""
    with open(name, "wb") as file:
        file.write(saying.encoded(text))
    os.chmod(name, 0o644)


def copy_folder(start, end):
    """Copies the files of a folder, of a repository or of what was made of it, without what other programs left there. A program can be run
    still. Raises OSError."""
    os.makedirs(end, exist_ok=True)
    for name in sorted(os.listdir(start)):
        if name == "__pycache__" or name.startswith(".") or name.endswith(("~", ".pyc")):
            continue
        if os.path.isdir(f"{start}/{name}"):
            copy_folder(f"{start}/{name}", f"{end}/{name}")
        else:
            is_program = name == "osp" and os.access(f"{start}/{name}", os.X_OK)
            copy_file(0o755 if is_program else 0o644, f"{start}/{name}", f"{end}/{name}")


def program_for(machine):
    """The file of the program for a machine, as `uname -m` names it."""
    return PROGRAM if machine == MACHINE else f"{PROGRAM}.{machine}"


def sums_for(machine):
    """Its sums: how it came to be, its checksum, and the checksums of its sources."""
    how, own, *rest = sources.recorded()
    if machine != MACHINE:
        how = f"{how}, and for {machine} from the same module of LLVM (tried in an emulator alone)"
        own = sources.checksum(program_for(machine))
    return "".join(f"{it}\n" for it in (how, own, *rest))


def put_web(program):
    """The program as a module of WebAssembly, where it is built. Its sums tie it to the program beside it, which may be that for another
    machine."""
    if building.is_made("wasm"):
        copy_file(0o644, f"{PROGRAM}.wasm", f"{program}.wasm")
        write(f"{program}.wasm.sums", f"{sources.checksum(program)}\n{sources.checksum(f'{program}.wasm')}\n")


def put_program(to, machine):
    """What runs on a machine. Raises OSError."""
    os.makedirs(f"{to}/program")
    copy_file(0o755, program_for(machine), f"{to}/program/osp")
    write(f"{to}/program/osp.sums", sums_for(machine))
    copy_file(0o755, f"{HERE}/osp", f"{to}/osp")
    for name in ("door", "desk"):
        copy_folder(f"{HERE}/{name}", f"{to}/{name}")
    for name in ("VERSION", "KIT", "GATE"):
        copy_file(0o644, f"{HERE}/{name}", f"{to}/{name}")
    put_web(f"{to}/program/osp")
    write(f"{to}/RELEASE", f"version {building.version()}\ncommit {building.commit()}\n")


def put_documents(to):
    """The documents. Raises OSError."""
    for name in ("docs", "examples"):
        copy_folder(f"{HERE}/{name}", f"{to}/{name}")
    for name in sorted(it for it in os.listdir(HERE) if it.endswith(".md") or it == "COPYING"):
        copy_file(0o644, f"{HERE}/{name}", f"{to}/{name}")


def put_share(to, documents):
    """The page for man, and completion, for documents in the folder that is named last. Raises OSError."""
    for name in ("man/man1", "bash-completion/completions"):
        os.makedirs(f"{to}/{name}", exist_ok=True)
    write(f"{to}/man/man1/osp.1", manual.manual_text(documents, building.day()))
    write(f"{to}/bash-completion/completions/osp", completion.completion_text())


# ---- the places


class Places:
    """Puts what stands in a folder at its place below a prefix: all of it, or nothing. What is new stands beside what was there, up to the
    moment when all of it is whole."""

    def __init__(self, prefix):
        self.prefix, self.made, self.new = prefix, [], []

    def folder(self, name):
        """Makes a folder, and notes each that wasn't there. Raises OSError."""
        if not os.path.isdir(name):
            self.folder(os.path.dirname(name))
            os.mkdir(name)
            self.made.append(name)

    def beside(self, name):
        """The name beside a place for what is new, which is free then. Raises OSError."""
        end = f"{self.prefix}/{name}"
        self.folder(os.path.dirname(end))
        new = f"{end}.new"
        remove(new)
        self.new.append((new, end))
        return new

    def put(self, room):
        """Puts all of it at its place. Raises OSError."""
        try:
            for name in FOLDERS:
                copy_folder(f"{room}/{name}", self.beside(name))
            for name in FILES:
                copy_file(0o644, f"{room}/{name}", self.beside(name))
            os.symlink("../lib/osp/osp", self.beside("bin/osp"))
        except BaseException:
            self.drop()
            raise
        for new, end in self.new:
            exchange(new, end)

    def drop(self):
        """Takes away what is new."""
        for new, _ in self.new:
            remove(new)
        for it in reversed(self.made):
            try:
                os.rmdir(it)
            except OSError:
                pass


def remove(name):
    """Removes a file, a link or a folder, if it is there. Raises OSError."""
    if os.path.isdir(name) and not os.path.islink(name):
        shutil.rmtree(name)
    elif os.path.lexists(name):
        os.unlink(name)


def exchange(new, end):
    """Lets what is new take the place of what was there. Raises OSError."""
    if os.path.isdir(new) and os.path.isdir(end):
        remove(f"{end}.old")
        os.rename(end, f"{end}.old")
    os.rename(new, end)
    remove(f"{end}.old")


def see_places(prefix):
    """Ends the script where something of others stands at a place."""
    for name in FOLDERS:
        if os.path.lexists(f"{prefix}/{name}") and not os.path.isfile(f"{prefix}/lib/osp/RELEASE"):
            fail(f"nothing was installed: {prefix}/{name} is there, and osp didn't put it there")
    if os.path.lexists(f"{prefix}/bin/osp") and not os.path.islink(f"{prefix}/bin/osp"):
        fail(f"nothing was installed: {prefix}/bin/osp is there, and osp didn't put it there")


def install_at(given):
    """Installs at a prefix, and says how to remove it."""
    need_proved("nothing was installed")
    if not os.path.isdir(f"{HERE}/docs"):
        fail("nothing was installed: this is an installation; ./osp install runs in a checkout, or an unpacked package")
    prefix = os.path.realpath(given)
    see_places(prefix)
    room = KEPT.make_room()
    os.umask(0o022)
    try:
        put_program(f"{room}/lib/osp", MACHINE)
        put_documents(f"{room}/share/doc/osp")
        put_share(f"{room}/share", f"{prefix}/share/doc/osp")
    except OSError:
        fail("nothing was installed: a file is lacking here, or the folder for temporary files is full")
    try:
        Places(prefix).put(room)
    except OSError as why:
        if why.errno == errno.ENOSPC:
            fail(f"nothing was installed: there is no room left in {shown(prefix)}")
        fail(f"{shown(prefix)} cannot be written: run it as its owner, or give another folder, as in ./osp install ~/.local")
    say_installed(prefix)


def say_installed(prefix):
    """Says what was installed, and how it is removed."""
    names = " ".join(shown(f"{prefix}/{it}") for it in ("bin/osp", *FOLDERS, *FILES))
    saying.write(f"osp {building.version()} is installed: {prefix}/bin/osp\nto remove it: rm -r {names}\n")
    if f"{prefix}/bin" not in os.environ.get("PATH", "").split(":"):
        tell(f"osp: {prefix}/bin isn't on the PATH")
