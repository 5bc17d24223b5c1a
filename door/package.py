"""./osp release: writes a tarball and a Debian package of the proved program, and a page to plan in."""
import datetime
import email.utils
import hashlib
import os
import re
import shutil
import subprocess
import sys

from door import building, sources, table
from door.installing import MACHINE, need_proved, program_for, put_documents, put_program, put_share
from door.place import HERE, IS_RELEASE
from door.running import KEPT
from door.saying import fail, shown, write

# A machine as Debian names it.
ARCHITECTURES = {"x86_64": "amd64", "aarch64": "arm64"}
# The libraries that the package of the C library has, and that of the compiler.
KNOWN = re.compile(r"(ld-linux.*|lib(c|m|dl|rt|pthread|gcc_s)\.so.*)\Z")
NEEDED = re.compile(r"\(NEEDED\).*\[(.*)\]$", re.M)
SYMBOLS = re.compile(rb"GLIBC_(2\.[0-9]+(?:\.[0-9]+)?)")
CONTROL = """\
Package: osp
Version: {version}
Architecture: {architecture}
Maintainer: {maintainer}
Depends: {depends}, python3 (>= 3.11)
Suggests: python3-geographiclib, python3-netcdf4
Section: science
Priority: optional
Installed-Size: {size}
Description: plans a search for somebody who drifts, and proves no plan is better
 Somebody is lost on the water and drifts. A boat, a drone or an aircraft goes
 from cell to cell and looks. This program writes the path that is likeliest to
 find them within so many periods, its exact chance, and records that show why
 no path is better; and it checks such plans. That its plans are the best and
 its checks are right is proved.
"""


class Broken(Exception):
    """A program that is needed failed: the last line of what it said."""


def called(*words, **how):
    """What a program writes. Raises Broken where it fails."""
    done = subprocess.run(words, stdout=subprocess.PIPE, stderr=subprocess.PIPE, check=False, **{"stdin": subprocess.DEVNULL, **how})
    if done.returncode:
        raise Broken((os.fsdecode(done.stderr).strip().splitlines() or [f"{words[0]} failed"])[-1])
    return done.stdout


def machines():
    """The machines that a release is for: this one, and aarch64 where the program was made for that, too."""
    return [MACHINE, *(["aarch64"] if building.is_made("aarch64") else [])]


def architecture(machine):
    """A machine as Debian names it."""
    return ARCHITECTURES.get(machine, machine)


def libraries(program):
    """The libraries that a program needs, if any."""
    return NEEDED.findall(building.quiet("readelf", "-dW", program, env={**os.environ, "LC_ALL": "C"}))


def needed_packages(program):
    """The Debian packages that these are in: the C library of the newest version whose symbols are named, and the library of the compiler,
    on which the C library's package stands, too."""
    versions = {it.decode("ascii") for it in SYMBOLS.findall(sources.read(program))}
    newest = max(versions, key=lambda it: tuple(map(int, it.split("."))), default="")
    more = ", libgcc-s1" if "libgcc_s.so.1" in libraries(program) else ""
    return f"libc6{f' (>= {newest})' if newest else ''}{more}"


def other_libraries(program):
    """The libraries that it needs besides these."""
    return " ".join(it for it in libraries(program) if not KNOWN.match(it))


def control_text(to, machine):
    """What Debian is told of the package of a machine, whose tree is in a folder."""
    size = called("du", "-sk", to).split()[0].decode("ascii")
    how = {"version": building.version(), "architecture": architecture(machine), "maintainer": table.MAINTAINER, "size": size}
    text = CONTROL.format(depends=needed_packages(program_for(machine)), **how)
    return text if machine == MACHINE else f"{text} For {machine} it was tried in an emulator alone.\n"


def debian_changes():
    """What changed in this version, as Debian wants it, as bytes."""
    version, rows, is_within = building.version(), [], False
    for line in sources.read(f"{HERE}/CHANGELOG.md").decode("utf-8").splitlines():
        if line.startswith("## "):
            is_within = line.startswith(f"## {version}")
        if is_within and line.startswith("- "):
            rows.append(f"  * {line[2:].replace('**', '').replace('`', '')}\n")
    folded = called("fold", "-s", "-w", "76", input="".join(rows).encode("utf-8"), stdin=None).decode("utf-8").splitlines()
    told = "".join(f"{it if it.startswith(' ') else f'    {it}'}".rstrip(" ") + "\n" for it in folded)
    when = email.utils.format_datetime(datetime.datetime.fromtimestamp(building.moment(), datetime.timezone.utc))
    return f"osp ({version}) unstable; urgency=medium\n\n{told}\n -- {table.MAINTAINER}  {when}\n".encode("utf-8")


def put(name, text):
    """Writes a file (bytes), readable to all."""
    with open(name, "wb") as file:
        file.write(text)
    os.chmod(name, 0o644)


def zipped(text):
    """Bytes as gzip writes them, without a name or a time."""
    return called("gzip", "-9n", input=text, stdin=None)


def md5sums(to):
    """The sums of the files of a tree, as dpkg wants them."""
    found = []
    for at, _, names in os.walk(f"{to}/usr"):
        found += [os.path.relpath(os.path.join(at, it), to) for it in names if not os.path.islink(os.path.join(at, it))]
    digest = lambda name: hashlib.md5(sources.read(f"{to}/{name}"), usedforsecurity=False).hexdigest()
    return os.fsencode("".join(f"{digest(it)}  {it}\n" for it in sorted(found, key=os.fsencode)))


def put_debian(to, machine):
    """The tree of the Debian package of a machine."""
    doc, page = f"{to}/usr/share/doc/osp", f"{to}/usr/share/man/man1/osp.1"
    put_program(f"{to}/usr/lib/osp", machine)
    put_documents(doc)
    put_share(f"{to}/usr/share", "/usr/share/doc/osp")
    os.makedirs(f"{to}/usr/bin")
    os.makedirs(f"{to}/DEBIAN")
    os.symlink("../lib/osp/osp", f"{to}/usr/bin/osp")
    os.rename(f"{doc}/COPYING", f"{doc}/copyright")
    put(f"{page}.gz", zipped(sources.read(page)))
    os.unlink(page)
    put(f"{doc}/changelog.gz", zipped(debian_changes()))
    put(f"{to}/DEBIAN/md5sums", md5sums(to))
    put(f"{to}/DEBIAN/control", control_text(f"{to}/usr", machine).encode("utf-8"))


def names_for(machine):
    """The names of the archive and of the Debian package of a machine."""
    version = building.version()
    return [f"osp-{version}-{machine}.tar.gz", f"osp_{version}_{architecture(machine)}.deb"]


def put_packages(room, machine, time):
    """Puts both into the room."""
    base, at = f"osp-{building.version()}", f"{room}/for {machine}"
    archive, package = names_for(machine)
    put_program(f"{at}/{base}", machine)
    put_documents(f"{at}/{base}")
    put_share(f"{at}/{base}/share", "the folder of the package")
    owner = ["--sort=name", "--owner=0", "--group=0", "--numeric-owner", f"--mtime=@{time}"]
    put(f"{room}/{archive}", zipped(called("tar", *owner, "-C", at, "-cf", "-", base)))
    put_debian(f"{at}/debian", machine)
    called("dpkg-deb", "--root-owner-group", "-b", f"{at}/debian", f"{room}/{package}", env={**os.environ, "SOURCE_DATE_EPOCH": str(time)})


def put_page(name):
    """A page to plan in, with the program in it, where that is built as WebAssembly. Answers whether there is one."""
    if not building.is_made("wasm"):
        return False
    put(name, called(sys.executable, "-I", "-B", f"{HERE}/desk/__main__.py", "page"))
    return True


def put_out(room, folder, name):
    """Puts a file that was made in the room into the folder, whole, and says so."""
    try:
        os.makedirs(folder, exist_ok=True)
        shutil.copyfile(f"{room}/{name}", f"{folder}/.{name}.new")
        os.replace(f"{folder}/.{name}.new", f"{folder}/{name}")
    except OSError:
        if os.path.isfile(f"{folder}/.{name}.new"):
            os.unlink(f"{folder}/.{name}.new")
        fail(f"{shown(folder)} cannot be written")
    write(f"{folder}/{name}\n")


def see_all():
    """Ends the script where no release can be made."""
    if IS_RELEASE:
        fail("nothing was released: a release is made from a checkout")
    need_proved("nothing was released")
    if f"## {building.version()}".encode() not in sources.read(f"{HERE}/CHANGELOG.md"):
        fail(f"nothing was released: CHANGELOG.md has nothing on version {building.version()}")
    lacking = next((it for it in ("dpkg-deb", "tar", "gzip", "readelf") if not shutil.which(it)), None)
    if lacking:
        fail(f"nothing was released: {lacking} is lacking")
    for machine in machines():
        other = other_libraries(program_for(machine))
        if other:
            fail(f"nothing was released: the program needs more than the C library: {other}")


def made_in(room):
    """Makes all files in the room, and answers their names."""
    made, time, page = [], building.moment(), f"osp-{building.version()}.html"
    for machine in machines():
        put_packages(room, machine, time)
        made += names_for(machine)
    made += [page] if put_page(f"{room}/{page}") else []
    put(f"{room}/SHA256SUMS", "".join(f"{sources.checksum(f'{room}/{it}')}  {it}\n" for it in made).encode("ascii"))
    return [*made, "SHA256SUMS"]


def release_to(folder):
    """Writes all files of a release to a folder."""
    see_all()
    room = KEPT.make_room()
    os.umask(0o022)
    try:
        names = made_in(room)
    except (Broken, OSError) as why:
        fail(f"nothing was released: {why}")
    for name in names:
        put_out(room, folder, name)
