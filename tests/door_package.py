"""Packages and installations, the page for man, completion, and the files VERSION, KIT and GATE."""
import hashlib
import os
import re
import shutil
import subprocess
import tarfile
import tempfile
import unittest

from door import package as package_of_door
from door import table
from tests.answers import MADE, is_built
from tests.house import EXAMPLES, FAILED, TOP, InHouse, read, run
from tests.words import ROWS

# The folders of the system alone: neither the kit nor an osp is there.
SYSTEM = {"PATH": "/usr/bin:/bin", "LANG": "C.UTF-8"}
COMMANDS = ["plan", "check", "report", "convert", "replan", "map", "duo", "make", "drill"]
HELPERS = ["draft", "trial", "vary", "next", "show", "brief", "chart", "page", "split", "join", "explain"]


def version():
    return read(f"{TOP}/VERSION").decode().strip()


def files_of(place):
    found = {}
    for at, _, names in os.walk(place):
        for name in names:
            path = os.path.join(at, name)
            found[os.path.relpath(path, place)] = os.readlink(path) if os.path.islink(path) else hashlib.sha256(read(path)).hexdigest()
    return found


def statuses_of_commands():
    text = read(f"{TOP}/docs/COMMANDS.md").decode().split("## Exit statuses")[1].split("\n## ")[0]
    return re.findall(r"^\| (\d+) \|", text, re.M)


def lines_of(name):
    return [it.split() for it in read(f"{TOP}/{name}").decode().splitlines() if it and not it.startswith("#")]


def of_gate():
    """Whether the sources that stand here are those that last passed the merge gate as a whole."""
    gate = dict(lines_of("GATE"))
    if run([f"{TOP}/osp", "--sums"]).out.strip() == gate["sum"]:
        return f"GATE is of these sources: {gate['kit']}, {gate['date']}"
    return f"GATE is of other sources, those of {gate['commit'][:12]}; after a whole pass ./osp --gate prints its lines for these"


class Furnished(InHouse):
    """Cases in a house that can have the documents, and their packages."""

    def furnished(self):
        """A house with the documents, whose program was built from its sources."""
        for name in ("README.md", "CONTRIBUTING.md", "CHANGELOG.md", "SECURITY.md", "COPYING", "GATE", "VERSION"):
            shutil.copy(f"{TOP}/{name}", self.house.at)
        shutil.copytree(f"{TOP}/docs", f"{self.house.at}/docs")
        self.house.write("desk/part.py", "")
        self.house.write("desk/__pycache__/part.pyc", "")
        self.house.write("docs/FORMATS.md~", "")
        self.house.built()

    def released(self, folder="out of here"):
        """A release of a furnished house, and what it wrote: the tarball and the Debian package."""
        at = f"{self.house.at}/{folder}"
        machine = os.uname().machine
        lines = self.house.run("release", at, with_rt=False).gives(0, None, "").out.splitlines()
        names = [f"osp-{version()}-{machine}.tar.gz", f"osp_{version()}_{ {'x86_64': 'amd64', 'aarch64': 'arm64'}.get(machine, machine) }.deb", "SHA256SUMS"]
        self.assertEqual(lines, [f"{at}/{it}" for it in names])
        self.assertEqual(sorted(os.listdir(at)), sorted(names))
        return f"{at}/{names[0]}", f"{at}/{names[1]}"

    def unpacked(self, package):
        """A package in an empty place, and the script there."""
        place = tempfile.mkdtemp(prefix="an empty place ", dir=os.path.dirname(self.house.at))
        if package.endswith(".deb"):
            subprocess.run(["dpkg-deb", "-x", package, place], check=True)
            return place, f"{place}/usr/bin/osp"
        with tarfile.open(package) as file:
            file.extractall(place, filter="tar") if hasattr(tarfile, "tar_filter") else file.extractall(place)
        return place, f"{place}/osp-{version()}/osp"

    def everything_runs(self, script, place, sums):
        """Each command and helper of an unpacked or installed package runs, where there is no kit; build and release don't."""
        before = files_of(place)
        elsewhere = {"env": {**SYSTEM, "TMPDIR": self.house.tmp, "HOUSE": self.house.at}, "cwd": self.house.tmp}
        self.house.write("lake", "the scenario\n")
        for words in [it.words for it in ROWS if not it.wrong]:
            wanted = {"plan": (0, f"words {' '.join(f'<{it}>' for it in words)}\ntext\n", ""), "check": (3, "", "bad scenario: line 3 BadNumber\n")}
            status, out, err = wanted.get(words[0], (2, "", "usage: osp ..\n"))
            ran = run([script, *words], b"text\n", **elsewhere).gives(status, out)
            self.assertEqual(ran.err, err)
        run([script, "plan", f"{self.house.at}/lake", "-o", f"{self.house.tmp}/new"], **elsewhere).gives(0, "", "")
        self.assertWritten(f"{self.house.tmp}/new", "words <plan>\nthe scenario\n")
        os.remove(f"{self.house.tmp}/new")
        for name in HELPERS:
            out = run([script, name, "a b"], **elsewhere).gives(0, None, "").out
            self.assertEqual(out.splitlines()[0], f"{name}|a b")
        lines = run([script, "--version"], **elsewhere).gives(0, None, "").out.splitlines()
        self.assertTrue(lines[0] == f"osp {version()}" and lines[1] == "commit unknown" and lines[2].startswith("proved and built by made-kit on "), lines)
        run([script, "fly"], **elsewhere).gives(2, "", "fly is no command")
        run([script, "build"], **elsewhere).fails("proved and built already")
        run([script, "release"], **elsewhere).fails("a release is made from a checkout")
        total = run([script, "--sums"], **elsewhere).gives(0, None, "").out
        self.assertEqual(total, sums)
        for words in (["--record", total.strip()], ["--gate"]):
            run([script, *words], **elsewhere).gives(1, "", "")
        self.assertEqual(files_of(place), before, "a run changed the package")


class Packages(Furnished):
    """Releases and installations."""

    def test_made_of_what_is_proved(self):
        """a release is made of a program that is proved from these sources alone, and of a version that CHANGELOG.md has"""
        out = f"{self.house.at}/released"
        self.house.run("release", out).fails("nothing was released, since the program isn't built")
        self.furnished()
        self.house.write("crates/low/proofs/Lib.antt", "another\n")
        self.house.run("release", out).fails("was edited since the program was proved")
        self.house.write("crates/low/src/lib.rt", "another\n")
        self.house.run("release", out).fails("isn't as it was when the program was proved")
        self.house.run("install", out).fails("nothing was installed, since")
        self.house.built()
        self.house.write("VERSION", "7.7.7\n")
        self.house.run("release", out).fails("CHANGELOG.md has nothing on version 7.7.7")
        self.assertFalse(os.path.exists(out), "something was written")

    def test_same_sources_same_packages(self):
        """the same sources give the same packages, and SHA256SUMS is right"""
        self.furnished()
        first = self.released("first")
        os.utime(f"{self.house.at}/docs/FORMATS.md")
        os.umask(os.umask(0o077))
        second = self.released("second")
        for one, two in zip(first, second):
            self.assertEqual(read(one), read(two), f"{one} differs")
        subprocess.run(["sha256sum", "--quiet", "-c", "SHA256SUMS"], cwd=f"{self.house.at}/first", check=True)
        self.house.leaves_nothing()

    def test_tarball(self):
        """the tarball, unpacked where there is nothing and no kit, runs every command and helper"""
        self.furnished()
        tarball, _ = self.released()
        place, script = self.unpacked(tarball)
        sums = self.house.run("--sums").out
        shutil.rmtree(f"{self.house.at}/crates")
        self.assertEqual(os.listdir(place), [f"osp-{version()}"])
        inside = sorted(files_of(place))
        self.assertFalse([it for it in inside if re.search(r"__pycache__|\.pyc|~$", it)], "what others left there is packed")
        for name in ("README.md", "CHANGELOG.md", "SECURITY.md", "COPYING", "docs/FORMATS.md", "examples/one-cell.plan", "share/man/man1/osp.1", "desk/part.py"):
            self.assertIn(f"osp-{version()}/{name}", inside, f"{name} isn't packed")
        self.everything_runs(script, place, sums)
        self.assertIn("\n  ./osp plan", run([script, "--help"], env=SYSTEM).out, "the help names another script")
        with open(f"{place}/osp-{version()}/program/osp", "a", encoding="utf-8") as file:
            file.write("# changed\n")
        run([script, "plan"], b"text\n", env=SYSTEM).fails("not the one of this release")
        self.assertIn("\nunproved: ", run([script, "--version"], env=SYSTEM).out, "a changed program counts as proved")

    def test_debian_package(self):
        """the Debian package, unpacked likewise, runs every command and helper, and needs the C library and Python alone"""
        self.furnished()
        _, package = self.released()
        place, script = self.unpacked(package)
        sums = self.house.run("--sums").out
        shutil.rmtree(f"{self.house.at}/crates")
        self.assertEqual(sorted(os.listdir(place)), ["usr"])
        self.everything_runs(script, place, sums)
        doc = f"{place}/usr/share/doc/osp"
        shown = run([script, "--help"], env=SYSTEM).out
        self.assertTrue("\n  osp plan" in shown and "./osp" not in shown and f"{doc}/docs/FORMATS.md has" in shown, "the help names another script, or other documents")
        field = lambda name: subprocess.run(["dpkg-deb", "-f", package, name], capture_output=True, check=True).stdout.decode().strip()
        self.assertEqual((field("Package"), field("Version"), field("Depends")), ("osp", version(), "libc6, python3 (>= 3.11)"))
        self.assertEqual(field("Suggests"), "python3-geographiclib, python3-netcdf4")
        control = f"{self.house.at}/control"
        subprocess.run(["dpkg-deb", "-e", package, control], check=True)
        subprocess.run(["md5sum", "--quiet", "-c", f"{control}/md5sums"], cwd=place, check=True)
        listed = {it.split("  ", 1)[1] for it in read(f"{control}/md5sums").decode().splitlines()}
        self.assertEqual(listed, {it for it in files_of(place) if it != "usr/bin/osp"}, "md5sums names other files")
        changes = subprocess.run(["gzip", "-dc", f"{doc}/changelog.gz"], capture_output=True, check=True).stdout.decode()
        parsed = run(["dpkg-parsechangelog", "-l-", "-S", "Version"], changes.encode()) if shutil.which("dpkg-parsechangelog") else None
        self.assertTrue(parsed is None or (parsed.out.strip() == version() and parsed.err == ""), parsed)
        newest = read(f"{TOP}/CHANGELOG.md").decode().split("\n## ")[1]
        self.assertEqual(changes.count("\n  * "), newest.count("\n- "), changes)
        self.assertEqual(read(f"{doc}/copyright"), read(f"{TOP}/COPYING"))

    def test_needed_libraries(self):
        """which C library the package needs, and that a program that needs more isn't packed"""
        ask = lambda program, what: getattr(package_of_door, what)(program)
        newest = max(re.findall(rb"GLIBC_2\.(\d+)", read("/bin/true")), key=int).decode()
        self.assertEqual(ask("/bin/true", "needed_packages"), f"libc6 (>= 2.{newest})")
        self.assertEqual(ask("/bin/true", "other_libraries"), "")
        # (In the place of `readelf`, which says what the program needs.)
        says = lambda *names: self.house.write("bin/readelf", "#!/bin/sh\n" + "".join(f"echo ' 0x01 (NEEDED)  Shared library: [{it}]'\n" for it in names), 0o755)
        self.furnished()
        says("libc.so.6", "libm.so.6", "libgcc_s.so.1", "ld-linux-x86-64.so.2")
        package = self.house.run("release", f"{self.house.at}/out").gives(0).out.splitlines()[1]
        depends = subprocess.run(["dpkg-deb", "-f", package, "Depends"], capture_output=True, check=True).stdout
        self.assertEqual(depends, b"libc6, libgcc-s1, python3 (>= 3.11)\n")
        says("libc.so.6", "libodd.so.3")
        self.house.run("release", f"{self.house.at}/out").fails("more than the C library: libodd.so.3")

    def test_another_machine(self):
        """a program for aarch64 that is made of the program has its own tarball and Debian package; any other one has none"""
        self.furnished()
        out, program = f"{self.house.at}/out", f"{self.house.at}/crates/osp/out/osp"
        sums = lambda *files: "".join(f"{hashlib.sha256(read(it)).hexdigest()}\n" for it in files)
        self.house.write("crates/osp/out/osp.aarch64", "#!/bin/sh\nexec echo for aarch64\n")
        self.house.write("crates/osp/out/osp.aarch64.sums", f"unknown\n{sums(f'{program}.aarch64')}")
        self.assertEqual(len(self.house.run("release", out).gives(0, None, "").out.splitlines()), 3)
        self.house.write("crates/osp/out/osp.aarch64.sums", sums(program, f"{program}.aarch64"))
        names = [os.path.basename(it) for it in self.house.run("release", out).gives(0, None, "").out.splitlines()]
        self.assertEqual(names[2:], [f"osp-{version()}-aarch64.tar.gz", f"osp_{version()}_arm64.deb", "SHA256SUMS"])
        subprocess.run(["sha256sum", "--quiet", "-c", "SHA256SUMS"], cwd=out, check=True)
        field = lambda name: subprocess.run(["dpkg-deb", "-f", f"{out}/{names[3]}", name], capture_output=True, check=True).stdout.decode()
        self.assertEqual(field("Architecture"), "arm64\n")
        self.assertTrue(field("Description").endswith(" For aarch64 it was tried in an emulator alone.\n"))
        for name in names[2:4]:
            _, script = self.unpacked(f"{out}/{name}")
            run([script, "plan"], b"text\n", env=SYSTEM).gives(0, "for aarch64\n", "")
            lines = run([script, "--version"], env=SYSTEM).gives(0, None, "").out.splitlines()
            self.assertRegex(lines[2], "^proved and built by made-kit on .*, and for aarch64 from the same module of LLVM ")
            self.assertEqual(run([script, "--sums"], env=SYSTEM).out, self.house.run("--sums").out)

    def test_installation(self):
        """an installation runs every command by its name from the PATH, is replaced whole, and removed by the words that it says"""
        self.furnished()
        prefix = f"{self.house.at}/a pre fix"
        for _ in range(2):
            ran = self.house.run("install", prefix, with_rt=False).gives(0, None, "isn't on the PATH")
            self.assertTrue(ran.out.startswith(f"osp {version()} is installed: {prefix}/bin/osp\nto remove it: rm -r "), ran.out)
            self.assertFalse(os.path.exists(f"{prefix}/lib/osp/older"), "an older file is left")
            self.house.write("a pre fix/lib/osp/older", "")
        os.remove(f"{prefix}/lib/osp/older")
        sums = self.house.run("--sums").out
        os.rename(f"{self.house.at}/crates", f"{self.house.at}/crates elsewhere")
        self.everything_runs(f"{prefix}/bin/osp", prefix, sums)
        run(["osp", "plan"], b"text\n", env={**SYSTEM, "PATH": f"{prefix}/bin:/usr/bin:/bin"}).gives(0, "words <plan>\ntext\n", "")
        run([f"{prefix}/bin/osp", "install", f"{self.house.at}/another"], env=SYSTEM).fails("this is an installation")
        os.rename(f"{self.house.at}/crates elsewhere", f"{self.house.at}/crates")
        self.house.run("install", prefix).gives(0)
        subprocess.run(["sh", "-c", ran.out.splitlines()[1].removeprefix("to remove it: ")], check=True)
        self.assertEqual(files_of(prefix), {})
        self.house.leaves_nothing()

    def test_installation_from_a_tarball(self):
        """an unpacked tarball installs, too"""
        self.furnished()
        tarball, _ = self.released()
        place, script = self.unpacked(tarball)
        sums = self.house.run("--sums").out
        shutil.rmtree(f"{self.house.at}/crates")
        prefix = f"{self.house.at}/prefix"
        run([script, "install", prefix], env={**SYSTEM, "TMPDIR": self.house.tmp}).gives(0)
        self.everything_runs(f"{prefix}/bin/osp", prefix, sums)
        self.assertTrue(read(f"{prefix}/share/man/man1/osp.1").decode().count(f"{prefix}/share/doc/osp".replace("-", "\\-")) >= 2, "the page names other documents")

    def test_no_name(self):
        """an installation, or a release, in a folder without a name is refused, and nothing is written"""
        self.furnished()
        before = sorted(os.listdir(self.house.tmp))
        self.house.run("install", "").refuses("'' is no folder: it is spelled ./osp install [PREFIX]")
        self.house.run("release", "").refuses("'' is no folder: it is spelled ./osp release [FOLDER]")
        self.assertEqual(sorted(os.listdir(self.house.tmp)), before)

    def test_full_disk(self):
        """an installation on a full disk leaves nothing, or what was there as it was: one line, status 70"""
        if os.geteuid() != 0 or subprocess.run(["unshare", "-m", "true"], capture_output=True, check=False).returncode:
            self.skipTest("a small disk can be made by root alone")
        self.furnished()
        disk = f"{self.house.at}/disk"
        os.makedirs(disk)
        # What is done before, and then what is installed and its status, and what is left.
        line = 'mount -t tmpfs -o size=%s none "$0" && { %s; } && { "$@"; status=$?; cd "$0" && find . | sort | tail -n +2; exit $status; }'
        tell = lambda size, before: run(["unshare", "-m", "sh", "-c", line % (size, before), disk, self.house.script, "install", f"{disk}/a prefix"], **self.house.how())
        # (The smallest has room for a few files, the next ones for more and more of them, and the last for all.)
        said = "nothing was installed: there is no room left in"
        for size in ("16k", "100k", "200k", "300k", "400k"):
            tell(size, "true").gives(FAILED, "", said)
        self.assertIn("./a prefix/lib/osp/program/osp\n", tell("64m", "true").gives(0).out)
        older = 'mkdir -p "$0/a prefix/lib/osp" && echo older > "$0/a prefix/lib/osp/RELEASE"'
        for size in ("40k", "400k"):
            tell(size, older).gives(FAILED, "./a prefix\n./a prefix/lib\n./a prefix/lib/osp\n./a prefix/lib/osp/RELEASE\n", said)
        self.assertIn("./a prefix/lib/osp/program/osp\n", tell("64m", older).gives(0).out)
        self.house.leaves_nothing()

    def test_files_of_others(self):
        """an installation replaces nothing of others, and is refused where it can't be written: one line, status 70"""
        self.furnished()
        for name in ("lib/osp/theirs", "share/doc/osp/theirs", "bin/osp"):
            prefix = f"{self.house.at}/prefix"
            self.house.write(f"prefix/{name}", "theirs\n")
            self.house.run("install", prefix).fails("osp didn't put it there")
            self.assertEqual(list(files_of(prefix)), [name])
            shutil.rmtree(prefix)
        os.makedirs(f"{self.house.at}/shut", mode=0o555)
        run([self.house.script, "install", f"{self.house.at}/shut"], **self.as_nobody()).fails("cannot be written")
        self.assertEqual(files_of(f"{self.house.at}/shut"), {}, "something was written")
        self.house.run("install", "/dev/full").fails("cannot be written")
        self.house.run("release", "/dev/full").fails("cannot be written")
        self.house.leaves_nothing()


class Pages(Furnished):
    """The page for man, and completion."""

    def installed(self):
        """The folder of an installation of a furnished house."""
        self.furnished()
        self.house.run("install", f"{self.house.at}/prefix").gives(0)
        return f"{self.house.at}/prefix"

    def completed(self, script, *words):
        """What completion makes of the words behind osp, of which the last is being typed."""
        body = '. "$1"; shift; COMP_WORDS=(osp "$@"); COMP_CWORD=$#; "$(complete -p osp | sed -n "s/.*-F \\([^ ]*\\) .*/\\1/p")" && printf "%s\\n" "${COMPREPLY[@]}"'
        ran = run(["bash", "--norc", "-c", body, "bash", script, *words], env=SYSTEM)
        self.assertEqual(ran.err, "")
        return ran.out.split()

    @unittest.skipUnless(shutil.which("man"), "there is no man")
    def test_manual(self):
        """the page for man renders without a warning, and has each command, helper, value and status"""
        page = f"{self.installed()}/share/man/man1/osp.1"
        how = {"env": {**SYSTEM, "MANWIDTH": "200", "MAN_KEEP_FORMATTING": "", "MANROFFOPT": "-ww"}}
        ran = run(["man", "--warnings=w", "-E", "UTF-8", "-l", page], **how).gives(0, None, "")
        text = re.sub(r"\x1b\[[0-9;]*m|.\x08", "", ran.out)
        rows = [*table.COMMANDS, *table.HELPERS, *table.OWN, *table.VALUES]
        self.assertGreater(len(rows), 30)
        for words, *_ in rows:
            self.assertTrue(re.search(rf"^ +{re.escape(words.split(' ')[0])}\b", text, re.M), f"the page lacks {words}")
        for status in statuses_of_commands():
            self.assertTrue(re.search(rf"^ +{status} ", text.split("EXIT STATUS")[1], re.M), f"the page lacks status {status}")
        self.assertTrue(read(page).count(b"\n.TP\n") >= 30 and "osp \N{HYPHEN}" not in text, "hyphens can't be copied")
        if shutil.which("lexgrog"):
            run(["lexgrog", page], **how).gives(0, f'{page}: "osp - plans a search for somebody who drifts, and shows why no plan is better"\n')

    def test_statuses(self):
        """the table of statuses is that of docs/COMMANDS.md"""
        self.assertEqual([str(it) for it, _ in table.STATUSES], statuses_of_commands(), "they differ")

    def test_completion(self):
        """completion completes commands, options and their values, and leaves files to bash"""
        script = f"{self.installed()}/share/bash-completion/completions/osp"
        firsts = self.completed(script, "")
        self.assertTrue(set(firsts) >= {*COMMANDS, *HELPERS, "build", "install", "release", "--version", "--help"}, firsts)
        for words, wanted in (
            (["pl"], ["plan"]),
            (["re"], ["report", "replan", "release"]),
            (["d"], ["duo", "drill", "draft"]),
            (["replan", "lake", "--"], ["--workers", "--nodes"]),
            (["duo", "-"], ["--workers", "--nodes", "-o"]),
            (["map", "-"], ["-o"]),
            (["replan", "--nodes", ""], []),
            (["map", "lake", "flown", ""], []),
            (["--v"], ["--version"]),
            (["plan", "--"], ["--workers", "--nodes", "--seconds", "--minutes", "--json"]),
            (["plan", "-"], ["--workers", "--nodes", "--seconds", "--minutes", "--json", "-o"]),
            (["plan", "lake", "--w"], ["--workers"]),
            (["report", "--j"], ["--json"]),
            (["report", "--json", ""], ["yes"]),
            (["check", "--"], []),
            (["next", "a", "b", "--f"], ["--flown"]),
            (["plan", ""], []),
            (["plan", "--workers", ""], []),
            (["plan", "-o", "-"], []),
            (["check", "a lake", ""], []),
            (["fly", "-"], []),
        ):
            self.assertEqual(self.completed(script, *words), wanted, words)
        # (-o default: where it offers nothing, bash completes files.)
        ran = run(["bash", "--norc", "-c", '. "$1"; complete -p osp ./osp', "bash", script], env=SYSTEM)
        self.assertEqual(ran.out, "complete -o default -F _osp osp\ncomplete -o default -F _osp ./osp\n")
        self.assertEqual(self.house.run("--completion").out.encode(), read(script), "a checkout completes otherwise")


class Versions(InHouse):
    """The files VERSION, KIT and GATE."""

    def test_version(self):
        """CHANGELOG.md begins with the version of VERSION, and the package's documents have no link to what isn't packed"""
        heads = re.findall(r"^## (\S+)", read(f"{TOP}/CHANGELOG.md").decode(), re.M)
        self.assertTrue(re.fullmatch(r"\d+\.\d+\.\d+", version()) and heads[0] == version(), f"{heads} and {version()}")
        packed = {*os.listdir(TOP)} & {*(it for it in os.listdir(TOP) if it.endswith(".md")), "docs", "examples", "COPYING"}
        for name in sorted(it for it in packed if it.endswith(".md")):
            for link in re.findall(r"\]\(([^)#:]+)[^):]*\)", read(f"{TOP}/{name}").decode()):
                self.assertTrue(link.split("/")[0] in packed and os.path.exists(f"{TOP}/{link}"), f"{name}: {link}")

    def test_form(self):
        """KIT and GATE have the form that they say, and --gate prints it"""
        for row in lines_of("KIT"):
            self.assertTrue(re.fullmatch(r"rattle-kit-\w+", row[0]) and re.fullmatch(r"[0-9a-f]{7,}", row[1]) and re.fullmatch(r"\d{4}-\d\d-\d\d", row[2]), row)
        gate = dict(lines_of("GATE"))
        self.assertEqual(list(gate), ["kit", "date", "commit", "sum"])
        self.assertIn(gate["kit"], [it[0] for it in lines_of("KIT")], f"{gate['kit']} isn't in KIT")
        printed = dict(it.split(" ", 1) for it in self.house.run("--gate").gives(0, None, "").out.splitlines())
        self.assertTrue(list(printed) == list(gate) and printed["kit"] == "made-kit" and printed["sum"] == self.house.run("--sums").out.strip(), printed)

    def test_sum_of_the_gate(self):
        """the sum of GATE is that of its commit, and the commits of KIT are there"""
        git = lambda *words: subprocess.run(["git", "-C", TOP, *words], capture_output=True, check=False)
        gate = dict(lines_of("GATE"))
        if git("cat-file", "-e", f"{gate['commit']}^{{commit}}").returncode:
            self.skipTest("there is no git, or it has a part of the history alone")
        for row in lines_of("KIT"):
            self.assertEqual(git("cat-file", "-e", f"{row[1]}^{{commit}}").returncode, 0, f"no commit {row[1]}")
        folder = f"{self.house.at}/of gate"
        os.makedirs(folder)
        with subprocess.Popen(["git", "-C", TOP, "archive", gate["commit"], "crates", "crates.txt"], stdout=subprocess.PIPE) as archive:
            subprocess.run(["tar", "x", "-C", folder], stdin=archive.stdout, check=True)
        shutil.copy(f"{TOP}/osp", folder)
        shutil.copytree(f"{TOP}/door", f"{folder}/door")
        self.assertEqual(run([f"{folder}/osp", "--sums"]).out.strip(), gate["sum"], f"it is {run([f'{folder}/osp', '--sums']).out.strip()}")


@unittest.skipUnless(is_built(), "the program isn't built")
class RealPackage(unittest.TestCase):
    """The real program, as it stands in its packages."""

    def test_examples(self):
        """the real program, from both packages, answers the examples"""
        # (With the folders of the system alone it plans, checks and reports the examples that stand in the package.)
        with tempfile.TemporaryDirectory(prefix="front-door-") as room:
            how = {"env": {**SYSTEM, "TMPDIR": room}, "cwd": room}
            done = run([f"{TOP}/osp", "release", f"{room}/released"], **how).gives(0, None, "")
            subprocess.run(["tar", "xf", done.out.splitlines()[0], "-C", room], check=True)
            subprocess.run(["dpkg-deb", "-x", done.out.splitlines()[1], f"{room}/debian"], check=True)
            for script, examples in ((f"{room}/osp-{version()}/osp", f"{room}/osp-{version()}/examples"), (f"{room}/debian/usr/bin/osp", f"{room}/debian/usr/share/doc/osp/examples")):
                self.assertEqual(sorted(os.listdir(examples)), sorted(os.listdir(EXAMPLES)), "examples are lacking")
                for name in sorted(it.removesuffix(".scenario") for it in os.listdir(examples) if it.endswith(".scenario")):
                    scenario, plan = f"{examples}/{name}.scenario", f"{examples}/{name}.plan"
                    run([script, "plan", scenario, "--workers", "1", "-o", f"{room}/plan"], **how).gives(0, "", "")
                    self.assertEqual(read(f"{room}/plan"), read(plan), f"the plan of {name} is another")
                    run([script, "check", scenario, plan], **how).gives(0, "accepted\n", "")
                    run([script, "report", scenario, plan], **how).gives(0, read(f"{examples}/{name}.report").decode(), "")
                    run([script, "convert", scenario, plan], **how).gives(0, read(plan).decode(), "")
                for name, (command, of, names) in MADE.items():
                    run([script, *command.split(), f"{examples}/{of}.scenario", "-o", f"{room}/made", *names.split()], **how).gives(0, "", "")
                    self.assertEqual(read(f"{room}/made"), read(f"{examples}/{name}"), f"{name} is another")
                run([script, "make", "7"], **how).gives(0, None, "")
                self.assertTrue(run([script, "drill", "7"], **how).gives(0, None, "").out.endswith("accepted\n"), "the drill isn't accepted")
                run([script, "--version"], **how).gives(0, None, "")
