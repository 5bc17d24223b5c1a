"""Tests of the program for aarch64: what it is told from, the functions of door/arm/host.c, and that it answers in Debian's emulator as the
program for x86-64 does. `python3 -m unittest tests.desk_arm`, or tests/desk."""
import ctypes
import os
import random
import shutil
import subprocess
import sys
import tempfile
import unittest

sys.dont_write_bytecode = True
sys.path.insert(0, os.path.dirname(os.path.realpath(__file__)))

from tests import answers, web  # noqa: E402
from tests.asking import module_of  # noqa: E402
from tests.web import TOP, Answer, Case  # noqa: E402

sys.path[:0] = [os.path.join(TOP, "door"), os.path.join(TOP, "door", "arm")]
import alike  # noqa: E402
import handed  # noqa: E402

PROGRAM = f"{web.PROGRAM}.aarch64"
EMULATOR = shutil.which("qemu-aarch64") or shutil.which("qemu-aarch64-static")
LIBRARIES = "/usr/aarch64-linux-gnu"
arm_build = module_of("arm_build", f"{TOP}/door/arm/build.py")
NO_MEMORY = Answer(7, b"", b"no memory\n")

# A module for x86-64 as the kit hands it over, in small, and what it hands over for aarch64.
X86 = f'''; a comment
target datalayout = "{handed.LAYOUT}"
target triple = "{handed.TRIPLE}"

@static.0 = private constant [3 x i8] c" #0", align 1

; Function Attrs: nounwind
define internal void @"a::wait"(ptr noundef %a0) #0 {{
start:
  call void @llvm.x86.sse2.pause()
  %r1 = call <16 x i8> @llvm.x86.ssse3.pshuf.b.128(<16 x i8> %r0, <16 x i8> %r0)
  %r2 = call i64 @"+threads::syscall"(i64 202, ptr %a0, i64 128)
  ret void
}}

define internal void @"a::alloc"(ptr noundef %a0, i64 noundef %a2, i64 noundef %a3) #1 {{
start:
  %r0 = call {{ i64, i64 }} @rattle_alloc(i64 %a2, i64 %a3)
  %r1 = alloca [16 x i8], align 8
  store {{ i64, i64 }} %r0, ptr %r1, align 8
  %r2 = load i64, ptr %r1, align 8
  store i64 %r2, ptr %a0, align 8
  %r3 = getelementptr i8, ptr %r1, i64 8
  %r4 = load i64, ptr %r3, align 8
  %r5 = getelementptr i8, ptr %a0, i64 8
  store i64 %r4, ptr %r5, align 8
  ret void
}}

define internal i1 @"a::any"(<32 x i8> %a0) #0 {{
start:
  %r0 = icmp slt <32 x i8> %a0, zeroinitializer
  %r1 = bitcast <32 x i1> %r0 to i32
  %r2 = icmp eq i32 %r1, 0
  ret i1 %r2
}}

define i32 @main() #2 {{
start:
  %r0 = call i64 @__sysv_signal(i32 13, i64 1)
  %r1 = call ptr @__x86_get_cpuid_feature_leaf(i32 0)
  br i1 true, label %run, label %refuse
run:
  %r2 = call i32 @"+threads::entry"()
  ret i32 %r2
refuse:
  %r3 = call i64 @__write(i32 2, ptr %r1, i64 134)
  ret i32 127
}}

declare i64 @__sysv_signal(i32, i64) #3
declare ptr @__x86_get_cpuid_feature_leaf(i32) #3
declare i64 @__write(i32, ptr, i64) #3
declare {{ i64, i64 }} @rattle_alloc(i64 noundef, i64 noundef) #3
declare <16 x i8> @llvm.x86.ssse3.pshuf.b.128(<16 x i8>, <16 x i8>) #3
declare void @llvm.x86.sse2.pause() #3
attributes #0 = {{ nounwind "probe-stack"="inline-asm" "target-cpu"="x86-64-v2" }}
attributes #1 = {{ noinline nounwind "target-cpu"="x86-64-v2" }}
attributes #2 = {{ nounwind "target-cpu"="x86-64" }}
attributes #3 = {{ nounwind }}
'''
ARM = '''; another comment
target datalayout = "e-m:e-p270:32:32-p271:32:32-p272:64:64-i8:8:32-i16:16:32-i64:64-i128:128-n32:64-S128-Fn32"
target triple = "aarch64-unknown-linux-gnu"
@static.0 = private constant [3 x i8] c" #0", align 1
define internal void @"a::wait"(ptr noundef %a0) #0 {
start:
  call void @llvm.aarch64.isb(i32 15)
  %r1 = call <16 x i8> @llvm.aarch64.neon.tbl1.v16i8(<16 x i8> %r0, <16 x i8> %r0)
  %r2 = call i64 @"+threads::syscall"(i64 98, ptr %a0, i64 128)
  ret void
}
define internal void @"a::alloc"(ptr noundef %a0, i64 noundef %a2, i64 noundef %a3) #1 {
start:
  %r0 = call [2 x i64] @rattle_alloc(i64 %a2, i64 %a3)
  store [2 x i64] %r0, ptr %a0, align 8
  ret void
}
define internal i1 @"a::any"(<32 x i8> %a0) #0 {
start:
  %r0 = icmp slt <32 x i8> %a0, zeroinitializer
  %r1 = sext <32 x i1> %r0 to <32 x i8>
  %r2 = bitcast <2 x i64> splat (i64 -9205322385119247871) to <16 x i8>
  %r3 = shufflevector <32 x i8> %r1, <32 x i8> zeroinitializer, <16 x i32> <i32 0, i32 1, i32 2, i32 3, i32 4, i32 5, i32 6, i32 7, i32 8, i32 9, i32 10, i32 11, i32 12, i32 13, i32 14, i32 15>
  %r4 = shufflevector <32 x i8> %r1, <32 x i8> zeroinitializer, <16 x i32> <i32 16, i32 17, i32 18, i32 19, i32 20, i32 21, i32 22, i32 23, i32 24, i32 25, i32 26, i32 27, i32 28, i32 29, i32 30, i32 31>
  %r5 = and <16 x i8> %r3, %r2
  %r6 = and <16 x i8> %r4, %r2
  %r7 = call <16 x i8> @llvm.aarch64.neon.addp.v16i8(<16 x i8> %r5, <16 x i8> %r6)
  %r8 = call <16 x i8> @llvm.aarch64.neon.addp.v16i8(<16 x i8> %r7, <16 x i8> %r7)
  %r9 = call <16 x i8> @llvm.aarch64.neon.addp.v16i8(<16 x i8> %r8, <16 x i8> %r8)
  %r10 = bitcast <16 x i8> %r9 to <4 x i32>
  %r11 = extractelement <4 x i32> %r10, i32 0
  %r12 = icmp eq i32 %r11, 0
  ret i1 %r12
}
define i32 @main() #0 {
start:
  %r0 = call i64 @__sysv_signal(i32 13, i64 1)
  %r1 = call i32 @"+threads::entry"()
  ret i32 %r1
}
declare i64 @__sysv_signal(i32, i64) #2
declare [2 x i64] @rattle_alloc(i64 noundef, i64 noundef) #2
declare <16 x i8> @llvm.aarch64.neon.tbl1.v16i8(<16 x i8>, <16 x i8>) #3
declare void @llvm.aarch64.isb(i32) #4
attributes #0 = { nounwind "frame-pointer"="non-leaf" "probe-stack"="inline-asm" "target-cpu"="generic" }
attributes #1 = { noinline nounwind "frame-pointer"="non-leaf" "target-cpu"="generic" }
attributes #2 = { nounwind }
attributes #3 = { nounwind memory(none) }
attributes #4 = { nofree nounwind willreturn }
'''
# Changes of the module for aarch64 that are refused.
OTHER = [
    ("aarch64-unknown-linux-gnu", "aarch64-unknown-linux-musl"),
    ("i64 98, ", "i64 202, "),
    ("ptr %a0, i64 128", "ptr %a0, i64 129"),
    ("isb(i32 15)", "isb(i32 14)"),
    ("addp.v16i8(<16 x i8> %r5, <16 x i8> %r6)", "addp.v16i8(<16 x i8> %r5, <16 x i8> %r5)"),
    ("icmp eq i32 %r11, 0", "icmp eq i32 %r10, 0"),
    ('c" #0"', 'c" #1"'),
    ("  ret void\n}\ndefine internal i1", "}\ndefine internal i1"),
    ("  ret i32 %r1\n", "  ret i32 0\n"),
    ("@rattle_alloc(i64 %a2, i64 %a3)", "@rattle_alloc(i64 %a3, i64 %a2)"),
    ("declare [2 x i64] @rattle_alloc(", "declare [2 x i64] @rattle_alloc(ptr, "),
    ('{ noinline nounwind "frame', '{ nounwind "frame'),
    ('"target-cpu"="generic" }', '"target-cpu"="generic" "target-abi"="x" }'),
    ("declare i64 @__sysv", "declare void @another()\ndeclare i64 @__sysv"),
]


class Making(unittest.TestCase):
    """The module for aarch64 is told from the one for x86-64."""

    def test_same(self):
        alike.compare(X86, ARM)

    def test_other(self):
        """A module that has another line, one line less or one more is refused, and so is another `main`."""
        for old, new in OTHER:
            with self.subTest(old), self.assertRaises(handed.Stop):
                self.assertIn(old, ARM)
                alike.compare(X86, ARM.replace(old, new, 1))
        with self.assertRaises(handed.Stop):
            alike.compare(X86.replace("@__write(i32 2", "@another(i32 2"), ARM)


class Tried(ctypes.Structure):
    """What is answered where memory is asked for."""

    _fields_ = [("ok", ctypes.c_uint64), ("at", ctypes.c_void_p)]


class Host(unittest.TestCase):
    """The functions of door/arm/host.c, compiled for this machine, beside those of the kit's own C."""

    # It asks a library's function for each word and each size of room, and writes what it answers and the bytes that it wrote.
    ASKING = """
        import ctypes, json, sys
        it, told = ctypes.CDLL(sys.argv[1]), []
        it.rattle_arg.argtypes, it.rattle_arg.restype = [ctypes.c_size_t, ctypes.c_char_p, ctypes.c_size_t], ctypes.c_ssize_t
        it.rattle_arg_count.restype = ctypes.c_size_t
        for number in range(12):
            for room in (0, 1, 2, 3, 5, 1000):
                to = ctypes.create_string_buffer(b"?" * 1000, 1000)
                told.append([it.rattle_arg(number, to, room), to.raw.hex()])
        print(json.dumps([it.rattle_arg_count(), told]))"""

    @classmethod
    def setUpClass(cls):
        try:
            parts = [f"{handed.kit()}/c/{it}" for it in ("libos_c.a", "liblibc_c.a")]
        except handed.Stop as why:
            raise unittest.SkipTest(str(why)) from None
        if not shutil.which("cc"):
            raise unittest.SkipTest("cc isn't installed (Debian's package gcc)")
        room = tempfile.TemporaryDirectory()
        cls.addClassCleanup(room.cleanup)
        cls.ours, cls.kits = f"{room.name}/ours.so", f"{room.name}/kits.so"
        subprocess.run(["cc", "-O2", "-fwrapv", "-fPIC", "-shared", f"{TOP}/door/arm/host.c", "-o", cls.ours], check=True)
        subprocess.run(["cc", "-shared", "-Wl,--whole-archive", *parts, "-Wl,--no-whole-archive", "-o", cls.kits], check=True)

    def test_words(self):
        """Every word, into every size of room, and what isn't a word."""
        asking = "\n".join(it[8:] for it in self.ASKING.splitlines())
        words = [[sys.executable, "-c", asking, it, "", "x", "abc", "größe", "long " * 50, "-"] for it in (self.ours, self.kits)]
        # (The name of the library is a word, too: both have a path of the same length, and the first letter of its last part is another.)
        ours, kits = (subprocess.run(it, capture_output=True, check=True, text=True).stdout for it in words)
        self.assertEqual(ours.replace(b"ours.so".hex(), ""), kits.replace(b"kits.so".hex(), ""))
        self.assertIn("-2", ours)

    def test_memory(self):
        """A random order of calls: both answer alike, blocks keep their bytes, and what is too much is refused and changes nothing."""
        for path in (self.ours, self.kits):
            with self.subTest(os.path.basename(path)):
                self.follow(ctypes.CDLL(path), random.Random(3))

    def follow(self, it, rng):
        for name in ("rattle_alloc", "rattle_realloc"):
            getattr(it, name).restype = Tried
        size = ctypes.c_size_t
        live = []
        for at in range(2000):
            if live and rng.random() < 0.5:
                where, bytes_, fill = live.pop(rng.randrange(len(live)))
                self.assertEqual(ctypes.string_at(where, bytes_), bytes([fill]) * bytes_)
                if rng.random() < 0.5:
                    it.rattle_dealloc(ctypes.c_void_p(where))
                    continue
                refused = it.rattle_realloc(ctypes.c_void_p(where), size(bytes_), size(2**62), size(8))
                self.assertEqual((refused.ok, bool(refused.at)), (0, True))
                new = rng.choice([0, 1, 40, 3000])
                got = it.rattle_realloc(ctypes.c_void_p(where), size(bytes_), size(new), size(8))
                self.assertEqual(ctypes.string_at(got.at, min(bytes_, new)), bytes([fill]) * min(bytes_, new))
            else:
                new = rng.choice([0, 1, 15, 16, 100, 5000])
                got = it.rattle_alloc(size(new), size(rng.choice([1, 8, 16])))
            self.assertEqual((got.ok, got.at % 16), (1, 0))
            self.assertNotIn(got.at, [block for block, *_ in live])
            ctypes.memset(got.at, at % 251, new)
            live.append((got.at, new, at % 251))
        self.assertEqual(it.rattle_alloc(size(2**62), size(8)).ok, 0)

    def test_errors(self):
        """The number of the last error is kept, and told."""
        for path in (self.ours, self.kits):
            it = ctypes.CDLL(path)
            it.rattle_set_errno(12)
            self.assertEqual(it.rattle_errno(), 12)


def lacking():
    """What the answers for aarch64 can't be had for, if they can't."""
    if not EMULATOR:
        return "qemu-aarch64 isn't installed (Debian's package qemu-user)"
    if not os.path.exists(f"{LIBRARIES}/lib/libc.so.6"):
        return "the C library for aarch64 isn't installed (Debian's package libc6-dev-arm64-cross)"
    if not os.path.exists(PROGRAM):
        return "the program for aarch64 isn't built: door/arm/build.py crates/osp/out/osp.aarch64"
    return None


@unittest.skipIf(lacking(), lacking())
class Answers(unittest.TestCase):
    """The program for aarch64 answers in the emulator as the program for x86-64 does, byte for byte."""

    EMULATED = [EMULATOR, "-L", LIBRARIES]

    def ask(self, cases):
        return web.answers_of([*self.EMULATED, PROGRAM], cases)

    def test_rows(self):
        """The rows of the tests of the front door that search nothing or little, and the plans of the smaller examples."""
        rows = [*answers.texts_of_rows()[0], *answers.texts_of_examples()[0], *answers.texts_of_made()[0], *answers.texts_of_limits()]
        by_one = [Case(it.words, it.given) for it in rows if it.words[0] not in ("plan", "duo", "replan") or len(it.given) < 1500]
        self.assertGreater(len(by_one), 50)
        self.assertEqual({it.words[0] for it in by_one}, {"plan", "check", "report", "replan", "map", "duo"})
        self.assertFalse(web.differing(by_one, self.ask(by_one)))

    def test_words(self):
        """Words that spell no command, names that are no ASCII, and an input that isn't UTF-8."""
        texts = [["plan", "--workers", "17"], [], ["check", "x"], ["map", "flown", "größe"], ["make", "7"], ["drill", "3", "--workers", "1"]]
        cases = [Case(words, given) for words in texts for given in (b"", b"\xff\xfe\n", answers.LAKE)]
        self.assertFalse(web.differing(cases, self.ask(cases)))

    def test_workers(self):
        """Several workers, on threads, find the best path, with records that the program for x86-64 accepts."""
        for name in ("two-cells", "drifting-grid"):
            scenario, plan = (answers.read(f"{answers.EXAMPLES}/{name}.{it}") for it in ("scenario", "plan"))
            for workers in ("2", "4", "16"):
                with self.subTest(name, workers=workers):
                    (told,) = self.ask([Case(["plan", "--workers", workers], scenario)])
                    self.assertEqual((told.status, told.out.splitlines()[:3]), (0, plan.splitlines()[:3]), told.err)
                    self.assertEqual(web.native([Case(["check"], scenario + told.out)])[0], Answer(0, b"accepted\n", b""))

    def test_files(self):
        """It reads from a file and writes to one; where the output is full or closed it ends as the program for x86-64 does."""
        example = f"{answers.EXAMPLES}/two-cells"
        with tempfile.TemporaryDirectory() as room:
            with open(f"{example}.scenario", "rb") as given, open(f"{room}/plan", "wb") as out:
                subprocess.run([*self.EMULATED, PROGRAM, *answers.PLAN], stdin=given, stdout=out, check=True)
            self.assertEqual(answers.read(f"{room}/plan"), answers.read(f"{example}.plan"))
        for more in ({"stdout": "/dev/full"}, {"stdout": None}, {"stdin": None}):
            told = [self.with_streams(program, f"{example}.scenario", **more) for program in ([*self.EMULATED, PROGRAM], [web.PROGRAM])]
            self.assertEqual(told[0], told[1], more)
            self.assertNotEqual(told[0][0], 0, more)

    def test_memory(self):
        """Where memory is refused, each growth in its turn, it ends with status 7 and writes nothing, or answers as it does else."""
        refusals = module_of("refusals", f"{TOP}/bench/refusals")
        with tempfile.TemporaryDirectory() as room:
            with open(f"{room}/refusing.c", "w", encoding="utf-8") as file:
                file.write(refusals.LIBRARY)
            included = [word for it in arm_build.INCLUDED for word in ("-isystem", it)]
            flags = [f"--target={alike.NEW_TRIPLE}", "--no-default-config", "-O1", "-fPIC", "-mno-outline-atomics", "-shared", "-nostdlib", "-nostdinc", "-fuse-ld=lld", *included]
            handed.call([f"{handed.kit()}/toolchain/bin/clang", *flags, f"{room}/refusing.c", f"{LIBRARIES}/lib/libc.so.6", "-o", f"{room}/refusing.so"])
            program = [*self.EMULATED, "-E", f"LD_PRELOAD={room}/refusing.so", PROGRAM]
            for words, given in (("plan --workers 1", refusals.SCENARIO), ("check", refusals.SCENARIO + refusals.PLAN)):
                whole = web.native([Case(words.split(), given)])[0]
                ran = refusals.run(program, words, given, 0, {})
                self.assertEqual(refusals.answer(ran), whole)
                told = [Answer(*refusals.answer(refusals.run(program, words, given, it, {}))) for it in range(1, ran.growths + 1)]
                # (Where there is none for the words of the command themselves, no line is said.)
                self.assertLessEqual({*told}, {whole, NO_MEMORY, NO_MEMORY._replace(err=b"")})
                self.assertGreater(told.count(NO_MEMORY), 4)

    def with_streams(self, program, scenario, stdin="/dev/stdin", stdout="/dev/null"):
        """The status of a plan of a scenario, and what is said of it, where a stream is another one, or closed for None."""
        behind = " ".join(f"{sign}{name or '&-'}" for sign, name in (("<", stdin and scenario), (">", stdout)))
        done = subprocess.run(["sh", "-c", f'exec "$@" {behind}', "sh", *program, *answers.PLAN], capture_output=True, check=False)
        return done.returncode, done.stderr


if __name__ == "__main__":
    unittest.main()
