"""Tests of the program as a module of WebAssembly: how it is made of LLVM's module, the functions of door/web/host.c, and that it answers
as the program for Linux does. `python3 -m unittest tests.desk_web`, or tests/desk."""
import json
import os
import random
import re
import shutil
import subprocess
import sys
import tempfile
import unittest
from unittest import mock

sys.dont_write_bytecode = True
sys.path.insert(0, os.path.dirname(os.path.realpath(__file__)))

from tests import answers, made, pages, web  # noqa: E402
from tests.carrying import Carrying  # noqa: E402
from tests.web import TOP, Answer, Case  # noqa: E402

from desk import carried, page as planned_page, planner  # noqa: E402

sys.path.insert(0, os.path.join(TOP, "door", "web"))
import build  # noqa: E402
import narrow  # noqa: E402

HEAD = f'target datalayout = "{narrow.LAYOUT}"\ntarget triple = "{narrow.TRIPLE}"\n'
NEW_HEAD = f'target datalayout = "{narrow.NEW_LAYOUT}"\ntarget triple = "{narrow.NEW_TRIPLE}"\n'

# Lines of LLVM's text, and what they become.
NARROWED = [
    ("  %r1 = alloca ptr, align 8", "  %r1 = alloca i64, align 8"),
    ("  %r1 = alloca [24 x i8], align 8", None),
    ("  %r2 = load ptr, ptr %r1, align 8, !noundef !1", None),
    ("  store ptr %r2, ptr %r1, align 8", "  store ptr %r2, ptr %r1, align 8\n  %w2 = getelementptr i8, ptr %r1, i64 4\n  store i32 0, ptr %w2"),
    ("  store i64 -1, ptr %r1, align 8", None),
    ("  %r3 = load { i8, i64 }, ptr %r1, align 8", None),
    (
        "  %r3 = load { i8, ptr }, ptr %r1, align 8",
        "  %w2.a = load i8, ptr %r1\n  %w2.g = getelementptr i8, ptr %r1, i64 8\n  %w2.b = load ptr, ptr %w2.g\n"
        "  %w2.i = insertvalue { i8, ptr } poison, i8 %w2.a, 0\n  %r3 = insertvalue { i8, ptr } %w2.i, ptr %w2.b, 1",
    ),
    (
        "  store { ptr, i64 } %r3, ptr %r1, align 8",
        "  %w2.a = extractvalue { ptr, i64 } %r3, 0\n  %w2.b = extractvalue { ptr, i64 } %r3, 1\n  %w2.g = getelementptr i8, ptr %r1, i64 8\n"
        "  store ptr %w2.a, ptr %r1\n  %w2.a.u = getelementptr i8, ptr %r1, i64 4\n  store i32 0, ptr %w2.a.u\n  store i64 %w2.b, ptr %w2.g",
    ),
    ("  %r4 = ptrtoaddr ptr %r1 to i64", "  %r4 = ptrtoint ptr %r1 to i64"),
    ("  call void @llvm.x86.sse2.pause()", ""),
    (
        '@static.1 = private constant <{ [8 x i8], ptr, [2 x i8] }> <{ [8 x i8] zeroinitializer, ptr getelementptr (i8, ptr @static.1, i64 16), [2 x i8] c", " }>, align 16',
        "@static.1 = private constant <{ [8 x i8], ptr, [4 x i8], [2 x i8] }> <{ [8 x i8] zeroinitializer, "
        'ptr getelementptr (i8, ptr @static.1, i64 16), [4 x i8] zeroinitializer, [2 x i8] c", " }>, align 16',
    ),
    ('@static.2 = private constant [5 x i8] c" ptr ", align 1', None),
    (
        'attributes #0 = { nounwind "frame-pointer"="all" "probe-stack"="inline-asm" "stack-probe-size"="3072" "target-cpu"="x86-64" }',
        'attributes #0 = { nounwind "frame-pointer"="all" }',
    ),
]

# Lines that aren't known to mean the same, so that nothing is made of a module that has one.
REFUSED = [
    'target triple = "x86_64-unknown-linux-musl"',
    'target datalayout = "e-m:e-i64:64"',
    "attributes #0 = { nounwind sspstrong }",
    'attributes #0 = { nounwind "target-abi"="x" }',
    "@static.1 = private constant [2 x ptr] [ptr @a, ptr @b], align 8",
    "@static.1 = private constant { i8, ptr } { i8 1, ptr @static.2 }, align 8",
    "  %r1 = alloca { ptr, i64 }, align 8",
    "  %r1 = alloca [2 x ptr], align 8",
    "  %r1 = load <2 x ptr>, ptr %r0, align 16",
    "  %r1 = load { ptr, { i8, i8 } }, ptr %r0, align 8",
    "  %r1 = load { i8, i64, ptr }, ptr %r0, align 8",
    "  store { ptr, float } %r1, ptr %r0, align 8",
    "  %r1 = getelementptr ptr, ptr %r0, i64 1",
    "  %r1 = getelementptr { i64, ptr }, ptr %r0, i64 0, i32 1",
    "  store ptr getelementptr (i64, ptr @static.1, i64 1), ptr %r0, align 8",
    "  %r1 = inttoptr i64 %r0 to ptr",
    "  store ptr inttoptr (i64 8 to ptr), ptr %r0, align 8",
    "  %r1 = cmpxchg ptr %r0, ptr %r2, ptr %r3 seq_cst seq_cst, align 8",
    "  %r1 = atomicrmw xchg ptr %r0, ptr %r2 seq_cst, align 8",
    "  %r1 = va_arg ptr %r0, i64",
    "  %r1 = call i64 @f(ptr byval([16 x i8]) %r0)",
    "declare void @f(ptr sret([16 x i8]))",
    "module asm \"nop\"",
    "  %r1 = call <16 x i8> @llvm.x86.sse41.pblendvb(<16 x i8> %r0, <16 x i8> %r2, <16 x i8> %r3)",
    "%struct.a = type { ptr, i8 }",
]

ROUND = 2**128
# The pages that the module has from the start, and what it answers where it has too few.
FIRST = build.FIRST >> 16
NO_MEMORY = Answer(7, b"", b"no memory\n")


def bits(rng):
    """A number of 128 bits, with many of its bits alike, or few."""
    return rng.choice([0, 1, 2, 3, 10, 2**32, 2**63, 2**64, 2**127, ROUND - 1, rng.randrange(2**rng.randrange(1, 129))]) ^ rng.choice([0, 0, 1])


def arithmetic(rng):
    """Calls of 128-bit functions, with what comes of them."""
    made = []
    for _ in range(3000):
        a, b, by = bits(rng), bits(rng), rng.randrange(128)
        made += [("__multi3", a, b, a * b % ROUND), ("__ashlti3", a, by, (a << by) % ROUND), ("__lshrti3", a, by, a >> by)]
        if b:
            made += [("__udivti3", a, b, a // b), ("__umodti3", a, b, a % b)]
    return made


class Making(unittest.TestCase):
    """LLVM's text for x86-64, and for wasm32."""

    def test_lines(self):
        for line, wanted in NARROWED:
            with self.subTest(line):
                made = narrow.narrowed(f"{HEAD}{line}\n")
                self.assertEqual(made, f"{NEW_HEAD}{line if wanted is None else wanted}\n".replace(f"{NEW_HEAD}\n", NEW_HEAD))

    def test_refused(self):
        for line in REFUSED:
            with self.subTest(line), self.assertRaises(narrow.Unknown):
                narrow.narrowed(f"{line}\n")

    def test_calls(self):
        """A module that declares another function, or one with other types, is refused."""
        main = 'define internal void @f() {\n}\n\ndefine i32 @main() #0 {\n  %r0 = call i64 @__sysv_signal(i32 13, i64 1)\n  %r1 = call i32 @"+threads::entry"()\n  ret i32 %r1\n}\n'
        known = f"declare noundef i64 @read(i32 noundef, ptr noundef, i64 noundef) #3\ndeclare void @llvm.trap() #4\n{main}"
        self.assertEqual(build.declared(known), {"read": "i64 (i32, ptr, i64)"})
        build.same_calls(known)
        self.assertEqual(
            build.without_main(known), known.split("\ndefine i32 @main")[0] + '\ndefine i32 @osp() {\n  %r0 = call i32 @"+threads::entry"()\n  ret i32 %r0\n}\n'
        )
        for text in (known.replace("@read", "@pread"), known.replace("i64 noundef)", "i32 noundef)")):
            with self.subTest(text), self.assertRaises(build.Stop):
                build.same_calls(text)
        for text in (known.replace("@main", "@start"), known.replace("@__sysv_signal", "@setup"), known.replace("threads::entry", "threads::start")):
            with self.subTest(text), self.assertRaises(build.Stop):
                build.without_main(text)


@unittest.skipUnless(web.NODE, "node isn't installed (Debian's package nodejs)")
class Host(unittest.TestCase):
    """Each function of door/web/host.c, compiled as it is for the module."""

    ARITHMETIC = ["__multi3", "__udivti3", "__umodti3", "__ashlti3", "__lshrti3"]
    # Four pages are there from the start, of which one is the stack, and eight may be.
    SIZES = ["-z", "stack-size=65536", f"--initial-memory={4 << 16}", f"--max-memory={8 << 16}"]

    @classmethod
    def setUpClass(cls):
        cls.room = tempfile.TemporaryDirectory()
        cls.addClassCleanup(cls.room.cleanup)
        try:
            tools = f"{build.kit()}/toolchain/bin"
        except build.Stop as why:
            raise unittest.SkipTest(str(why)) from None
        made, linked = f"{cls.room.name}/host.o", f"{cls.room.name}/host.wasm"
        names = [*cls.ARITHMETIC, *build.MEMORY]
        build.call([f"{tools}/clang", *build.TARGET, *build.HOST_FLAGS, "-Werror", "--no-default-config", "-c", f"{TOP}/door/web/host.c", "-o", made])
        build.call([f"{tools}/ld.lld", "-flavor", "wasm", "--no-entry", "--stack-first", *cls.SIZES, *(f"--export={it}" for it in names), made, "-o", linked])

    def asked(self, calls):
        given = [[name, *(str(it) if name in self.ARITHMETIC else it for it in more)] for name, *more in calls]
        words = [web.NODE, f"{TOP}/tests/host_in_node.mjs", f"{self.room.name}/host.wasm"]
        done = subprocess.run(words, input=json.dumps(given), stdout=subprocess.PIPE, text=True, check=True)
        return json.loads(done.stdout)

    def test_arithmetic(self):
        """All five functions, against Python's numbers."""
        rows = arithmetic(random.Random(7))
        for (name, a, b, wanted), told in zip(rows, self.asked([it[:3] for it in rows]), strict=True):
            self.assertEqual(int(told), wanted, (name, a, b))

    def test_blocks(self):
        """Blocks are aligned, lie apart, and keep their bytes, in a random order of all calls; what was given back is used again."""
        rng, calls, sizes, live = random.Random(11), [], [], {}
        for at in range(4000):
            old = rng.choice(sorted(live)) if live else None
            if old is None or len(live) < 12 and rng.random() < 0.5:
                old, size = len(sizes), rng.choice([0, 1, 15, 16, 17, 100, 1000, 5000])
                calls.append(rng.choice([("alloc", size, rng.choice([1, 2, 4, 8, 16])), ("malloc", size)]))
                sizes.append(size)
            elif rng.random() < 0.4:
                calls += [("bytes", old, live[old][0]), (rng.choice(["dealloc", "free"]), old)]
                del live[old]
                continue
            else:
                size = rng.choice([0, 3, 16, 40, 700, 6000])
                kept = min(size, live[old][0])
                calls += [("realloc", old, kept, size), ("bytes", old, kept)]
            calls.append(("fill", old, size, at % 251))
            live[old] = (size, at % 251)
        self.follow(calls, self.asked(calls))

    def follow(self, calls, told):
        """Holds what was answered to the calls against a list of the blocks."""
        blocks, number = {}, 0
        for (name, *given), said in zip(calls, told, strict=True):
            if name in ("alloc", "malloc", "realloc"):
                self.assertIsNotNone(said, "no memory")
                block, size = (given[0], given[2]) if name == "realloc" else (number, given[0])
                number += name != "realloc"
                self.assertEqual(said % 16, 0)
                before = blocks.pop(block, (0, 0, None))
                self.assertFalse([it for it in blocks.values() if said < it[0] + it[1] and it[0] < said + size], (name, given))
                blocks[block] = (said, size, before[2])
            elif name == "fill":
                blocks[given[0]] = (*blocks[given[0]][:2], given[2])
            elif name == "bytes":
                self.assertLessEqual(set(said), {blocks[given[0]][2]})
            else:
                del blocks[given[0]]

    def test_refused_memory(self):
        """Of seven pages and less the first five blocks of 64 KiB have each their head; then there is none, and a block stays as it is."""
        asks = [("alloc", 65_536, 8)] * 8 + [("fill", 0, 65_536, 5), ("realloc", 0, 65_536, 70_000), ("bytes", 0, 65_536), ("malloc", 2**40), ("alloc", 8, 32)]
        told = self.asked([*asks, ("dealloc", 0), ("alloc", 65_000, 8), ("free", None)])
        given = [it for it in told[:8] if it is not None]
        self.assertTrue(5 <= len(given) <= 6, given)
        self.assertEqual(told[len(given) : 8], [None] * (8 - len(given)))
        self.assertEqual(told[8:13], [None, None, [5], None, None])
        self.assertEqual(told[13:], [None, given[0], None])


@unittest.skipIf(web.lacking(), web.lacking())
class Answers(unittest.TestCase):
    """The module answers as the program for Linux does, byte for byte."""

    def same(self, cases):
        self.assertFalse(web.differing(cases, [it.answer for it in web.in_node(cases)]))

    def test_module(self):
        """The module of the built program, which calls what is known here and nothing else."""
        script = "const m = new WebAssembly.Module(fs.readFileSync(process.argv[1])); console.log(JSON.stringify([WebAssembly.Module.imports(m), WebAssembly.Module.exports(m)]))"
        done = subprocess.run([web.NODE, "-e", script, web.MODULE], stdout=subprocess.PIPE, check=True)
        asked, given = json.loads(done.stdout)
        self.assertLessEqual({(it["module"], it["kind"], it["name"]) for it in asked}, {("env", "function", it) for it in build.CALLS} | {("env", "memory", "memory")})
        self.assertEqual(given, [{"name": "osp", "kind": "function"}])

    def test_rows(self):
        """Every row of the tests of the front door. Where several workers search, which here is one, the records may be others."""
        rows = [*answers.texts_of_rows()[0], *answers.texts_of_examples()[0], *answers.texts_of_made()[0], *answers.texts_of_limits(), *answers.texts_of_documents()[0]]
        rows = [it for it in rows if not answers.is_the_scripts(it)]
        by_one = lambda words: "--workers" in words or words[:1] not in (["plan"], ["gap"], ["replan"], ["duo"])
        self.assertGreater(len(rows), 100)
        self.same([Case(it.words, it.given) for it in rows if by_one(it.words)])
        others = [it for it in rows if not by_one(it.words)]
        told = zip(others, web.in_node([Case(it.words, it.given) for it in others]), strict=True)
        for row, taken in told:
            there = web.native([Case([*row.words[:1], "--workers", "1", *row.words[1:]], row.given)])[0]
            self.assertEqual(taken.answer, there, row.name)

    def test_words(self):
        """Words that spell no command, names that are no ASCII, and an input that isn't UTF-8."""
        texts = [["plan", "--workers", "17"], [], ["check", "x"], ["map", "flown", "größe"], ["replan", "flown", *["a"] * 40], ["make", "7"], ["drill", "3", "--workers", "1"]]
        self.same([Case(words, given) for words in texts for given in (b"", b"\xff\xfe\n", answers.LAKE)])

    def test_memory(self):
        """However few pages there are, it ends with status 7 and writes nothing, or answers as it does with enough of them."""
        row = answers.texts_of_limits()[0]
        for words, given in ((["plan", "--workers", "1"], row.given), (["check"], row.given + row.out.encode())):
            told = [it.answer for it in web.in_node([Case(words, given, FIRST + more) for more in (0, 1, 3, 6, 10, 20, 40, 60, 80, 95, 99, 120)])]
            whole = web.native([Case(words, given)])[0]
            self.assertEqual((told[0], told[-1], whole.status), (NO_MEMORY, whole, 0))
            self.assertLessEqual(set(told), {whole, NO_MEMORY})


def embedded(page, name, content):
    """A page with other bytes in one of its templates."""
    return re.sub(f'(<template id="carried-{name}">)[^<]*', lambda it: it[1] + carried.packed(content), page)


def forged(page, name, content):
    """The page of somebody who makes it of other bytes: with their checksum, and a policy that allows the script with that."""
    made = embedded(page, name, content)
    last = made.rindex("checked.begin(")
    script = re.sub(rf'("{name}": )"\w+"', rf'\1"{carried.sum_of(content)}"', made[last:])
    its = [planned_page.checksum(it.removesuffix("</script>\n")) for it in (made[last:], script)]
    return made[:last].replace(*its) + script


def turned(content, at, bit):
    """Bytes with one bit the other way round."""
    return content[:at] + bytes([content[at] ^ 1 << bit]) + content[at + 1 :]


def less(plan):
    """A plan whose chance is one less."""
    return re.sub(rb"(?m)^chance (\d+)", lambda it: b"chance %d" % (int(it[1]) - 1), plan)


class Pages(Carrying):
    """Where pages carry the program, and where they don't."""

    def test_a_release_has_the_page_to_plan_in(self):
        """It stands beside the archive with its checksum; the unpacked program makes the same page, and its pages of show carry the module."""
        subprocess.run([f"{TOP}/osp", "release", self.room], check=True, capture_output=True)
        sums = dict(reversed(it.split("  ")) for it in pages.read(f"{self.room}/SHA256SUMS").decode().splitlines())
        (name,), (archive,) = ([it for it in sums if it.endswith(end)] for end in (".html", f"{os.uname().machine}.tar.gz"))
        made = pages.read(f"{self.room}/{name}")
        self.assertEqual(sums[name], carried.sum_of(made))
        subprocess.run(["tar", "-xzf", archive], cwd=self.room, check=True)
        ran = lambda *words: subprocess.run(["./osp", *words], cwd=f"{self.room}/{name[:-5]}", check=True, capture_output=True).stdout
        self.assertEqual(ran("page"), made)
        self.assertIn(b'id="carried-program"', ran("show", "examples/one-cell.scenario", "examples/one-cell.plan"))

    def test_without_a_module(self):
        """Where the module isn't built, or isn't the program's, the page is that of before."""
        with mock.patch.object(carried, "PLACES", []):
            plain = self.page(*self.files("two-cells"))
        self.assertNotIn("carried", plain)
        self.assertNotIn("wasm", plain)
        for name, content in (("osp", b"another program"), ("osp.wasm", b"another module"), ("osp.wasm.sums", b"unknown\n")):
            with tempfile.TemporaryDirectory() as folder:
                for each in ("osp", "osp.wasm", "osp.wasm.sums"):
                    shutil.copy(os.path.join(os.path.dirname(web.MODULE), each), folder)
                with open(f"{folder}/{name}", "wb") as file:
                    file.write(content)
                self.assertIsNone(carried.beside(os.path.relpath(f"{folder}/osp", TOP)), name)


class InBrowser:
    """Pages that carry the program and check themselves, in a browser without a window: the cases of each browser."""

    def made(self):
        """The pages by name: as they are made, of a plan that isn't accepted or a module that is none, and for a browser without WebAssembly."""
        grid, cells = (self.page(*self.files(it)) for it in ("drifting-grid", "two-cells"))
        plan, few, both = pages.example("drifting-grid")[1], f"{pages.EXAMPLES}/two-cells.gap", f"{pages.EXAMPLES}/night-two.made"
        gap, pair = self.page(f"{pages.EXAMPLES}/two-cells.scenario", few), self.page(both, "--of", f"{pages.EXAMPLES}/night.scenario")
        return {
            "grid": grid,
            "gap": gap,
            "low": forged(gap, "plan", pages.read(few).replace(b"ceiling 12", b"ceiling 11")),
            "pair": pair,
            "worse": forged(pair, "plan", less(pages.read(both).split(b"\nend\n", 1)[1])),
            "edges": self.page(f"{pages.EXAMPLES}/swath.scenario", f"{pages.EXAMPLES}/swath.gap"),
            "better": forged(grid, "plan", plan.replace(b"chance 2", b"chance 3")),
            "lacking": forged(cells, "plan", pages.read(f"{pages.EXAMPLES}/two-cells-lacking.plan")),
            "unread": forged(grid, "plan", plan.replace(b"nodes", b"node")),
            "scenario": forged(grid, "scenario", b"scenario 3\n"),
            "broken": forged(grid, "program", b"\0asm"),
            "without": grid,
        }

    # What stands in a page of which nothing is checked, and in one that was changed; and the colours of what is accepted, and of what is wrong.
    NOT_YET, DAMAGED = "Not checked yet", "This page is damaged: do not fly by it"
    GOOD, WRONG = "rgb(16, 96, 59)", "rgb(163, 21, 31)"

    def tampered(self, made):
        """Changes of a page that somebody made or a line lost, by name: what the page says then, and what stands beside that."""
        stays, scenario = "Where these words stay, the browser runs no script, or a part of the page is missing.", pages.example("drifting-grid")[0]
        parts = lambda name: f"Changed since it was made: {name}."
        main = re.search(r"script-src '(sha256-[^']+)'", made)[1]
        program = pages.read(web.MODULE)
        packed = re.search('<template id="carried-scenario">([^<]*)', made)[1]
        return {
            "half": (made[: len(made) // 2], self.NOT_YET, stays),
            "thirds": (made[: len(made) * 2 // 3], self.NOT_YET, stays),
            "nearly": (made[:-2], self.NOT_YET, stays),
            "begins": (made[: made.index("checked.begin(")], self.NOT_YET, stays),
            "refused": (made.replace(main, f"sha256-{'A' * 43}="), self.NOT_YET, stays),
            "none": (re.sub("script-src [^;]*;", "script-src 'none';", made), self.NOT_YET, stays),
            "script": (made.replace("[10, 11]", "[10, 12]"), self.NOT_YET, stays),
            "sum": (re.sub(r'("plan": ")(\w)', lambda it: it[1] + ("0" if it[2] != "0" else "1"), made), self.NOT_YET, stays),
            "workers": (made.replace("worker-src blob:", "worker-src 'none'"), self.NOT_YET, "Nothing is checked here: the browser stopped it ("),
            "data": (made.replace(packed, packed[:50] + ("A" if packed[50] != "A" else "B") + packed[51:]), self.DAMAGED, parts("the scenario")),
            "letters": (made.replace(packed, packed[:50] + "!" + packed[51:]), self.DAMAGED, parts("the scenario")),
            "digit": (made.replace("them: 17.557 %", "them: 97.557 %"), self.DAMAGED, parts("the plan as text")),
            "flipped": (embedded(made, "program", turned(program, len(program) // 2, 3)), self.DAMAGED, parts("the program")),
            "comment": (embedded(made, "scenario", b"# another title\n" + scenario), self.DAMAGED, parts("the scenario")),
            "known": (embedded(made, "known", b"{}"), self.DAMAGED, parts("what is known besides")),
        }

    def test_tampering(self):
        """Nothing green, no chance in the head and no map where the page isn't as it was made, or its script doesn't run; what can be told is told
        in red. Of a page that is forged as a whole, a changed comment is told by the scenario's checksum, and not to be covered by any proof."""
        made, other = self.page(*self.files("drifting-grid")), b"# another title\n" + pages.example("drifting-grid")[0]
        cases = self.tampered(made)
        for name, (text, _, _) in cases.items():
            self.assertNotEqual(text, made, name)
        texts = {f"tampered-{name}": text for name, (text, _, _) in cases.items()}
        seen = self.visit({**texts, "tampered-no": made, "tampered-title": forged(made, "scenario", other)})
        for name, (_, said, by) in cases.items():
            with self.subTest(name):
                self.is_unchecked(seen[f"tampered-{name}"], said, by)
        for name, scenario in (("no", pages.example("drifting-grid")[0]), ("title", other)):
            it = seen[f"tampered-{name}"]
            self.assertEqual((it["said"], it["colours"], it["console"]), ("Accepted: no path is better.", [self.GOOD] * 2, []))
            self.assertIn(f"SHA-256 of the scenario\n{carried.sum_of(scenario)}", it["body"])
            self.assertEqual(it["body"].count("Titles, times and places come from comments of the scenario, which no proof covers."), 1)

    def is_unchecked(self, it, said, by):
        """A page that says so, and shows no more than its title, and, where it isn't known to be wrong, the plan as text."""
        self.assertEqual((it["said"], it["maps"]), (said, 0))
        self.assertIn(by, it["by"])
        begins = "SEARCH PLAN drifting-grid.scenario\nNot checked yet.\nChance to find them: 17.557 %, 8 looks, from r0c0\n"
        self.assertEqual(it["text"] and it["text"][: len(begins)], None if said == self.DAMAGED else begins)
        self.assertTrue(it["body"].startswith("Search plan drifting-grid.scenario\n"))
        self.assertNotIn("%", it["head"])
        self.assertNotIn("Accepted", it["body"])
        self.assertEqual((self.GOOD in it["colours"], self.WRONG in it["colours"]), (False, said == self.DAMAGED))

    def visit(self, made):
        return super().visit("web_in_browser.py", made)

    def test_verdicts(self):
        """The verdict on opening, and nothing asked of a network, nor said on the console."""
        seen = self.visit(self.made())
        # (A chance that is greater by 10 ** 16 or more isn't that of the path; of the plan that lacks a node, docs/FORMATS.md has the reason.)
        wanted = {
            "grid": ("Accepted: no path is better.", None),
            "gap": ("Accepted: no path finds more.", None),
            "low": ("Rejected: line 4 of the plan, CeilingWrong.", None),
            "pair": ("Accepted: no pair of paths is better.", None),
            "worse": ("Rejected: line 3 of the plan, ValueWrong.", None),
            "edges": ("Accepted: no path finds more than 59.647 %.", None),
            "better": ("Rejected: line 3 of the plan, ValueWrong.", None),
            "lacking": ("Rejected: line 8 of the plan, MissingChild.", None),
            "unread": ("Not accepted: bad plan: line 4 BadLine.", None),
            "scenario": ("Not accepted: bad scenario: line 1 BadLine.", None),
            "broken": (self.NOT_YET, "Nothing is checked here: the browser stopped it ("),
            "without": (self.NOT_YET, "Nothing is checked here: this browser runs no WebAssembly."),
        }
        for name, (said, by) in wanted.items():
            for screen in ("desktop", "tablet"):
                with self.subTest(name, screen=screen):
                    told = seen[name][screen]
                    self.assertEqual((told["said"], told["wide"]), (said, 0))
                    if by is None:
                        self.assertRegex(told["by"], self.HERE)
                    else:
                        self.assertTrue(told["by"].startswith(by), told["by"])
                    is_good = said.startswith("Accepted")
                    self.assertEqual(told["colours"].count(self.GOOD), 2 * is_good)
                    self.assertEqual(told["colours"].count(self.WRONG), 2 * (said.startswith(("Rejected", "Not accepted"))))
                    self.assertEqual((told["maps"] > 0) * is_good, told["maps"] > 0)
                    if is_good:
                        self.assertIn(carried.sum_of(pages.read(web.MODULE)), told["worth"])
                    else:
                        self.assertNotIn("Accepted", told["body"])
                        self.assertNotIn("%", told["head"])
                        self.assertEqual(told["text"] is not None, said == self.NOT_YET)
            self.assertEqual(seen[name]["console"], [], name)
            self.assertEqual([it for it in seen[name]["asked"] if not it.startswith(("file://", "blob:null/"))], [], name)

    def test_planner(self):
        """What a page to plan in plans is what `plan --workers 1` writes, `gap` where the records run out, and wrong texts are told."""
        status, out, err = self.run_helper(planner.main, [])
        self.assertEqual((status, err), (0, ""))
        scenario = pages.example("two-cells")[0]
        few = web.native([Case(["gap", "--workers", "1", "--nodes", "1"], scenario)])[0].out
        files = {name: self.files(it) for name, it in (("states", "situations/harbour-and-dinghy"), ("night", "night"))}
        files |= {name: [f"{pages.EXAMPLES}/{it}.made"] for name, it in (("flown", "drifting-grid-flown"), ("both", "night-two"))}
        files["pair"] = [self.write("pair", made.paired(made.GRID, "r2c3"))]
        opened = {f"{name}.scenario": it[0] for name, it in files.items()}
        opened |= {"two.scenario": self.files("two-cells")[0], "two.plan": f"{pages.EXAMPLES}/two-cells-lacking.plan"}
        for name, source in opened.items():
            shutil.copy(source, os.path.join(self.folder, name))
        shown = {"example": self.files("drifting-grid"), "few": [opened["two.scenario"], self.write("few", few)], **files}
        seen = self.visit({"osp": out, **{f"shown-{name}": self.page(*its) for name, its in shown.items()}})
        for name in shown:
            self.assertEqual(seen["osp"][name]["markup"], seen[f"shown-{name}"]["markup"], name)
            self.assertEqual(seen["osp"][name]["styles"], seen[f"shown-{name}"]["styles"], name)
        self.check_planned(seen["osp"])
        self.check_keys(seen["osp"]["keys"])
        self.assertEqual(pages.read(os.path.join(self.folder, "two.gap")), few)

    def check_planned(self, seen):
        """What is said of plans and of wrong texts, and what is saved."""
        self.assertEqual(seen["nothing"]["said"], "There is no scenario: open one, paste it, or take an example.")
        written = seen["example"]
        self.assertEqual(written["files"], ["drifting-grid.plan", "drifting-grid.report", "drifting-grid.made"])
        self.assertEqual(pages.read(os.path.join(self.folder, "drifting-grid.plan")), pages.example("drifting-grid")[1])
        self.assertEqual(pages.read(os.path.join(self.folder, "drifting-grid.made")), b"".join(pages.example("drifting-grid")))
        self.assertEqual(pages.read(os.path.join(self.folder, "drifting-grid.report")), pages.read(f"{pages.EXAMPLES}/drifting-grid.report"))
        self.assertRegex(written["verdict"], f"^Accepted: no path is better\\. {self.HERE.pattern}$")
        self.assertEqual(written["chance"], "17.557\N{NO-BREAK SPACE}% chance to find them in 8 looks")
        self.assertIn("<dd>22473449177088000 of 128000000000000000</dd>", written["markup"])
        # (The chances are those of README.md. The first three looks find nothing, since nobody is there.)
        flown, both = "The first 3 looks are flown. If these found nothing, those to come find them: 16.296 %.", "Positions have numbers here: --of SCENARIO has their names."
        self.assertEqual([seen[it]["about"] for it in ("example", "states", "flown", "both")], ["", "", flown, both])
        self.assertEqual([seen[it]["said"] for it in ("flown", "both")], ["The plan behind the scenario is accepted."] * 2)
        self.assertEqual([seen[it]["chance"][:8] for it in ("flown", "both")], ["16.296\N{NO-BREAK SPACE}%", "95.900\N{NO-BREAK SPACE}%"])
        self.assertRegex(seen["both"]["verdict"], "^Accepted: no pair of paths is better\\. ")
        self.assertEqual((seen["checked"]["said"], seen["checked"]["found"], seen["checked"]["markup"]), ("Not accepted: rejected 8 MissingChild.", False, ""))
        self.assertRegex(seen["few"]["verdict"], "^Accepted: no path finds more\\. ")
        self.assertEqual((seen["wrong"]["said"], seen["wrong"]["found"]), ("Nothing is planned: bad scenario: line 2 BadNumber: horizon two", False))
        self.assertEqual((seen["console"], seen["wide"]), ([], [0, 0]))
        self.assertEqual([it for it in seen["asked"] if not it.startswith(("file://", "blob:null/"))], [])

    def check_keys(self, seen):
        """The periods that keys go to, of eight; what stands in a square changes with what numbers are to say."""
        self.assertEqual({it: (seen[it]["maps"], seen[it]["slider"]) for it in ("end", "left", "text", "row")}, {
            "end": (["after-8"], "8"), "left": (["after-7"], "7"), "text": (["after-7"], "7"), "row": (["after-2"], "2"),
        })
        self.assertEqual(seen["letter"], 2)
        told = web.native([Case(["map", "flown", "r0c1", "r0c2"], pages.example("drifting-grid")[0])])[0].out.decode().split("period ")[2]
        left = [it.split()[2:] for it in told.splitlines() if it.startswith("left")]
        self.assertEqual(seen["row"]["shares"], ["0" if mass == "0" else share for mass, share in left])
        missed = sum(int(mass) for mass, _ in left)
        thousandths = [int(mass) * 100_000 // missed for mass, _ in left]
        self.assertEqual(seen["of_left"]["shares"], ["0" if mass == "0" else f"{it // 1000}.{it % 1000:03}" for it, (mass, _) in zip(thousandths, left)])


class InChromium(InBrowser, Carrying):
    BROWSER = "chromium"


class InFirefox(InBrowser, Carrying):
    BROWSER = "firefox"
