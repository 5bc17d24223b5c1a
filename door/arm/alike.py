"""What the kit hands to clang for aarch64, told from what it hands over for x86-64: line by line the same, but for what is named here.

So the module for aarch64 needn't be believed to be that of the proved program: it is compared. A line that is another one, and isn't
named here, is refused.
"""
import itertools
import re

import handed
from handed import CHOICE, LAYOUT, PAUSE, TRIPLE

NEW_TRIPLE = "aarch64-unknown-linux-gnu"
NEW_LAYOUT = "e-m:e-p270:32:32-p271:32:32-p272:64:64-i8:8:32-i16:16:32-i64:64-i128:128-n32:64-S128-Fn32"
# The same instructions there. (A choice is asked for by numbers below 16, and by those from 128 on, which choose 0: for others the kit's
# `swizzle_dyn_within` isn't defined.)
NEW_PAUSE, NEW_CHOICE = "@llvm.aarch64.isb(i32 15)", "@llvm.aarch64.neon.tbl1.v16i8"
# What adds neighbours, which x86-64 needs no counterpart of.
NEW_ADDED = "@llvm.aarch64.neon.addp.v16i8"
# How the kernel of each machine numbers the call by which threads wait for each other, futex.
WAIT, NEW_WAIT = '@"+threads::syscall"(i64 202, ', '@"+threads::syscall"(i64 98, '
# What attributes say of the processor, its stack, and its frames.
ATTRIBUTES = re.compile(r' "(?:target-cpu|target-features|tune-cpu|probe-stack|stack-probe-size|frame-pointer)"="[^"]*"')
GROUP = re.compile(r"^attributes (#\d+) = \{(.*) \}$", re.M)
# Two numbers of a call are two registers on both, which for x86-64 are stored one by one.
PAIR = re.compile(
    r"  %r0 = call \{ i64, i64 \} (?P<call>@rattle_(?:re)?alloc\(.*)\n  %r1 = alloca \[16 x i8\], align 8\n  store \{ i64, i64 \} %r0, ptr %r1, align 8\n"
    r"  %r2 = load i64, ptr %r1, align 8\n  store i64 %r2, ptr %a0, align 8\n  %r3 = getelementptr i8, ptr %r1, i64 8\n"
    r"  %r4 = load i64, ptr %r3, align 8\n  %r5 = getelementptr i8, ptr %a0, i64 8\n  store i64 %r4, ptr %r5, align 8\n"
)
NEW_PAIR = r"  %r0 = call [2 x i64] \g<call>\n  store [2 x i64] %r0, ptr %a0, align 8\n"
# Of a mask of 16, 32 or 64 lanes x86-64 has the bits in one step. aarch64 leaves of each lane its bit of a byte, and adds neighbours.
LANE = "splat (i64 -9205322385119247871)"
BITS = re.compile(rf"^  %r(?P<at>\d+) = sext <(?P<lanes>16|32|64) x i1> (?P<mask>%r\d+) to <(?P=lanes) x i8>\n  %r\d+ = bitcast <2 x i64> {re.escape(LANE)} .*\n", re.M)
# Of 32 or 64 lanes x86-64 may have them 16 by 16, shifted to their places.
PARTS = re.compile(r"^  %r(?P<at>\d+) = shufflevector <(?P<lanes>32|64) x i8> (?P<of>%r\d+), <(?P=lanes) x i8> zeroinitializer, <16 x i32> .*\n", re.M)
NEW_MAIN = f"""define i32 @main() {{ nounwind}} {{
start:
  %r0 = call i64 @__sysv_signal(i32 13, i64 1)
  %r1 = call i32 @{handed.ENTRY}()
  ret i32 %r1
}}"""
# What one of the two may declare alone, or in another way: what `main` calls, and the instructions above.
DECLARED = [*handed.OF_MAIN, *(it.split("(")[0].removeprefix("@") for it in (PAUSE, NEW_PAUSE, CHOICE, NEW_CHOICE, NEW_ADDED))]
DECLARATION = re.compile(rf"^declare [^\n]*@(?:{'|'.join(map(re.escape, DECLARED))})\([^\n]*\n", re.M)
MEMORY = re.compile(r"^declare \{ i64, i64 \} (?=@rattle_(?:re)?alloc\()", re.M)


def sixteens(lanes, of):
    """What takes each 16 lanes of so many, the first ones first."""
    numbers = [", ".join(f"i32 {it}" for it in range(first, first + 16)) for first in range(0, lanes, 16)]
    return [f"shufflevector <{lanes} x i8> {of}, <{lanes} x i8> zeroinitializer, <16 x i32> <{it}>" for it in numbers]


class Lines:
    """Lines that define registers one after the other, from this number on."""

    def __init__(self, at):
        self.at, self.lines = at, []

    def put(self, value):
        """The register of one more value."""
        self.lines.append(f"  %r{self.at + len(self.lines)} = {value}\n")
        return f"%r{self.at + len(self.lines) - 1}"


def bits(lanes, mask, at):
    """The lines by which aarch64 has the bits of a mask, the first of which defines the register of this number."""
    told = Lines(at)
    wide, lane = told.put(f"sext <{lanes} x i1> {mask} to <{lanes} x i8>"), told.put(f"bitcast <2 x i64> {LANE} to <16 x i8>")
    parts = [told.put(it) for it in sixteens(lanes, wide)] if lanes > 16 else [wide]
    parts = [told.put(f"and <16 x i8> {it}, {lane}") for it in parts]
    for _ in range(3):
        pairs = list(zip(parts[::2], parts[1::2])) or [parts * 2]
        parts = [told.put(f"call <16 x i8> {NEW_ADDED}(<16 x i8> {one}, <16 x i8> {two})") for one, two in pairs]
    whole = told.put(f"bitcast <16 x i8> {parts[0]} to <{128 // lanes} x i{lanes}>")
    told.put(f"extractelement <{128 // lanes} x i{lanes}> {whole}, i32 0")
    return told.lines


def signs(lanes, of, at):
    """The lines by which x86-64 has the signs of more than 16 lanes as bits, the first of which defines the register of this number."""
    told, whole = Lines(at), None
    for which, part in enumerate([told.put(it) for it in sixteens(lanes, of)]):
        sixteen = told.put(f"bitcast <16 x i1> {told.put(f'icmp slt <16 x i8> {part}, zeroinitializer')} to i16")
        wide = told.put(f"zext i16 {sixteen} to i64")
        whole = wide if which == 0 else told.put(f"or i64 {whole}, {told.put(f'shl i64 {wide}, {16 * which}')}")
    return told.lines


def in_one_step(text, pattern, lines_of, step):
    """The text in which one step stands in the place of the lines that are made of each match of a pattern, where these stand there."""
    told, behind = [], 0
    for found in pattern.finditer(text):
        lines = lines_of(found)
        if found.start() >= behind and text.startswith("".join(lines), found.start()):
            told += [text[behind : found.start()], step(found, lines[-1].split(" = ")[0].strip())]
            behind = found.start() + len("".join(lines))
    return "".join([*told, text[behind:]])


def masked(text):
    """The text for aarch64, with one step for the bits of each mask."""
    lines = lambda it: bits(int(it["lanes"]), it["mask"], int(it["at"]))
    return in_one_step(text, BITS, lines, lambda it, made: f"  {made} = bitcast <{it['lanes']} x i1> {it['mask']} to i{it['lanes']}\n")


def signed(text):
    """The text for x86-64, with the signs of more than 16 lanes as aarch64 has them: what is below 0, and the bits of that, as 64 bits."""

    def step(found, made):
        lanes, at = int(found["lanes"]), int(found["at"])
        below = f"  %r{at} = icmp slt <{lanes} x i8> {found['of']}, zeroinitializer\n"
        if lanes == 64:
            return f"{below}  {made} = bitcast <64 x i1> %r{at} to i64\n"
        return f"{below}  %r{at + 1} = bitcast <32 x i1> %r{at} to i32\n  {made} = zext i32 %r{at + 1} to i64\n"

    return in_one_step(text, PARTS, lambda it: signs(int(it["lanes"]), it["of"], int(it["at"])), step)


def numbered(lines):
    """The lines, with the registers of each function numbered in the order in which they come."""
    told, numbers = [], {}
    for line in lines:
        if line.startswith("define "):
            numbers = {}
        told.append(re.sub(r"%r\d+\b", lambda it: f"%r{numbers.setdefault(it[0], len(numbers))}", line))
    return told


def plain(text):
    """The lines of LLVM's text that say something, with the attributes themselves in the place of the numbers of their groups."""
    groups = {number: "{" + ATTRIBUTES.sub("", told) + "}" for number, told in GROUP.findall(text)}
    text = re.sub(r" (#\d+)(?=(?: \{)?$)", lambda it: f" {groups[it[1]]}", GROUP.sub("", text), flags=re.M)
    return DECLARATION.sub("", re.sub(r"^(?:;.*)?\n", "", text, flags=re.M)).splitlines()


def armed(text):
    """The lines of the module for aarch64, from the text of the module for x86-64. Raises handed.Stop where its `main` isn't known."""
    text = signed(handed.with_main(text, NEW_MAIN))
    for old, new in ((LAYOUT, NEW_LAYOUT), (TRIPLE, NEW_TRIPLE), (PAUSE, NEW_PAUSE), (f"{CHOICE}(", f"{NEW_CHOICE}("), (WAIT, NEW_WAIT)):
        text = text.replace(old, new)
    return numbered(plain(MEMORY.sub("declare [2 x i64] ", PAIR.sub(NEW_PAIR, text))))


def compare(text, there):
    """Raises handed.Stop, with the first line, where the module for aarch64, whose text is `there`, isn't the one that `armed` tells of."""
    for at, (wanted, line) in enumerate(itertools.zip_longest(armed(text), numbered(plain(masked(there))), fillvalue="nothing"), 1):
        if wanted != line:
            raise handed.Stop(f"line {at} of the module for aarch64 isn't known here: {line.strip()[:200]}, and not {wanted.strip()[:200]}")
