"""The text of LLVM's module for x86-64 as one that means the same for wasm32: its pointers have 4 bytes, and keep their places of 8.

A place of a pointer in memory holds the address as a number of 8 bytes, as it does on x86-64: a store writes the upper half as zero, and
a load reads the lower half alone. So sizes, offsets and copies stay as they are, also where a place is read or copied as a number. What
isn't known here to mean the same is refused: memory is read and written by the forms below alone, and addresses are counted in bytes.
"""
import re

from handed import CHOICE, LAYOUT, PAUSE, TRIPLE

# What the module becomes one of. (The layout of wasm32 is what clang says of an empty file.)
NEW_TRIPLE = "wasm32-unknown-unknown"
NEW_LAYOUT = "e-m:e-p:32:32-p10:8:8-p20:8:8-i64:64-i128:128-n32:64-S128-ni:1:10:20"
# What attributes say of the processor, of its stack, and of who made a function: none of it is said of a module of WebAssembly.
ATTRIBUTES = re.compile(r' "(?:target-cpu|target-features|tune-cpu|probe-stack|stack-probe-size|rattle-sig)"="[^"]*"')
# A function in the place of the choice of bytes. (A pause is nothing there.)
NEW_CHOICE = "@osp.choice"
# Instructions that touch no memory, or whose operands are numbers.
PLAIN = frozenset(
    "add and ashr bitcast br call extractelement extractvalue fadd fcmp fdiv fence fmul freeze fsub icmp insertelement insertvalue lshr mul or phi "
    "ptrtoint ret sdiv select sext shl shufflevector srem sub switch trunc udiv uitofp unreachable urem xor zext".split()
)
NUMBER = r"(?:i(?:1|8|16|32|64|128)|double|<\d+ x i\d+>)"
PLACE = r"ptr (?P<place>%[\w.]+|@[\w.]+)"
PAIR = r"\{ (?P<first>\w+), (?P<second>\w+) \}"
HOW = r"(?:atomic )?(?:volatile )?"
LOAD = re.compile(rf"  (?P<to>%[\w.]+) = load {HOW}(?:{NUMBER}|ptr), {PLACE}[ ,].*")
LOAD_PAIR = re.compile(rf"  (?P<to>%[\w.]+) = load {PAIR}, {PLACE}, align \d+")
STORE = re.compile(rf"  store {HOW}{NUMBER} .+, {PLACE}[ ,].*")
STORE_POINTER = re.compile(rf"  store (?:atomic )?ptr (?:%[\w.]+|@[\w.]+|@\"[^\"]+\"|null|getelementptr \(i8, ptr @[\w.]+, i64 \d+\)), {PLACE}[ ,].*")
STORE_PAIR = re.compile(rf"  store {PAIR} (?P<value>%[\w.]+), {PLACE}, align \d+")
ROOM = re.compile(rf"  %[\w.]+ = alloca (?:{NUMBER}|\[\d+ x i8\]), align \d+")
ROOM_OF_POINTER = re.compile(r"  %[\w.]+ = alloca ptr, align 8")
STEP = re.compile(r"  %[\w.]+ = getelementptr (?:inbounds )?(?:nuw )?i8, ptr \S+, i64 \S+")
CHANGE = re.compile(r"  %[\w.]+ = (?:atomicrmw \w+|cmpxchg(?: weak)?) ptr %[\w.]+, i(?:8|16|32|64) .*")
ADDRESS = re.compile(r"  %[\w.]+ = ptrtoaddr ptr \S+ to i64")
OPERATION = re.compile(r"  (?:%[\w.]+ = )?(?:(?:tail|musttail|notail) )?(?P<name>\w+)\b.*")
# Lines of a switch, labels, and what stands between functions.
AROUND = re.compile(r"(?:    i\d+ -?\d+, label %[\w.]+|  \]|[\w.]+:.*|\"[^\"]+\":.*|\}|;.*|source_filename = .*|!.*|)")
# The attributes that may be left: none says how anything stands in memory.
LEFT = re.compile(
    r"attributes #\d+ = \{(?: (?:nounwind|noinline|alwaysinline|inlinehint|nobuiltin|cold|noreturn|nocallback|nofree|nosync|willreturn|speculatable|nocreateundeforpoison"
    r'|memory\([\w: ,]*\)|"frame-pointer"="all"))* \}'
)
# What isn't known: arguments with a form in memory, numbers as pointers, and addresses that are counted in other units than bytes.
NEVER = re.compile(
    r"\b(?:byval|sret|inalloca|preallocated|elementtype|addrspace)\(|\binttoptr\b|getelementptr (?:inbounds |nuw )*\((?!i8, )| x ptr\b"
    r"|@llvm\.x86\.(?!sse2\.pause\(|ssse3\.pshuf\.b\.128\()"
)
STATIC = re.compile(r"(?P<head>@[\w.]+ = [\w ]+ (?:constant|global)) <\{ (?P<types>[^}]*) \}> <\{ (?P<parts>.*) \}>(?P<tail>, align \d+)")
PART = re.compile(r'(?:\[\d+ x i8\] (?:zeroinitializer|c"[^"]*")|ptr (?:@[\w.]+|getelementptr \(i8, ptr @[\w.]+, i64 \d+\)))(?:, |$)')


class Unknown(Exception):
    """A line of the module that isn't known to mean the same for wasm32."""


def static(line):
    """A static: bytes alone, or bytes and pointers without gaps, each of which gets four bytes of zero behind it."""
    if " ptr" not in line.split(' c"')[0]:
        return line
    found = STATIC.fullmatch(line)
    parts = [it.removesuffix(", ") for it in PART.findall(found["parts"])] if found else []
    types = found["types"].split(", ") if found else []
    if not found or ", ".join(parts) != found["parts"] or [it.split(" ")[0] if it[0] == "p" else re.match(r"\[\d+ x i8\]", it)[0] for it in parts] != types:
        raise Unknown(line)
    wide = lambda it, zero: f"{it}, [4 x i8]{zero}" if it.startswith("ptr") else it
    types, parts = [wide(it, "") for it in types], [wide(it, " zeroinitializer") for it in parts]
    return f"{found['head']} <{{ {', '.join(types)} }}> <{{ {', '.join(parts)} }}>{found['tail']}"


def half(kind, value, place, at):
    """Stores one part of a pair at its place."""
    lines = [f"  store {kind} {value}, ptr {place}"]
    return lines + upper_half(place, f"{at}.u") if kind == "ptr" else lines


def upper_half(place, name):
    """Stores zero as the upper half of a pointer's place."""
    return [f"  {name} = getelementptr i8, ptr {place}, i64 4", f"  store i32 0, ptr {name}"]


def load_pair(found, name):
    """Loads a pair with a pointer in it: its second part stands 8 bytes behind its first."""
    first, second, place, to = found["first"], found["second"], found["place"], found["to"]
    return [
        f"  {name}.a = load {first}, ptr {place}",
        f"  {name}.g = getelementptr i8, ptr {place}, i64 8",
        f"  {name}.b = load {second}, ptr {name}.g",
        f"  {name}.i = insertvalue {{ {first}, {second} }} poison, {first} {name}.a, 0",
        f"  {to} = insertvalue {{ {first}, {second} }} {name}.i, {second} {name}.b, 1",
    ]


def store_pair(found, name):
    """Stores a pair with a pointer in it, its second part 8 bytes behind its first."""
    first, second, place, value = found["first"], found["second"], found["place"], found["value"]
    return [
        f"  {name}.a = extractvalue {{ {first}, {second} }} {value}, 0",
        f"  {name}.b = extractvalue {{ {first}, {second} }} {value}, 1",
        f"  {name}.g = getelementptr i8, ptr {place}, i64 8",
        *half(first, f"{name}.a", place, f"{name}.a"),
        *half(second, f"{name}.b", f"{name}.g", f"{name}.b"),
    ]


def is_wide(found):
    """Whether a pair has a pointer in it. Raises Unknown for a part that is neither a number nor a pointer."""
    kinds = found["first"], found["second"]
    if not all(re.fullmatch("ptr|i8|i16|i32|i64", it) for it in kinds):
        raise Unknown(found[0])
    return "ptr" in kinds


def instruction(line, name):
    """The lines for an instruction; `name` begins the names of what they need between."""
    operation = OPERATION.fullmatch(line)
    if not operation or NEVER.search(line):
        raise Unknown(line)
    if operation["name"] in PLAIN:
        return [] if PAUSE in line else [line]
    if ROOM_OF_POINTER.fullmatch(line):
        return [line.replace("alloca ptr", "alloca i64")]
    if ADDRESS.fullmatch(line):
        return [line.replace(" ptrtoaddr ", " ptrtoint ")]
    if found := STORE_POINTER.fullmatch(line):
        return [line, *upper_half(found["place"], name)]
    for form, made in ((LOAD_PAIR, load_pair), (STORE_PAIR, store_pair)):
        if found := form.fullmatch(line):
            return made(found, name) if is_wide(found) else [line]
    if any(it.fullmatch(line) for it in (LOAD, STORE, ROOM, STEP, CHANGE)):
        return [line]
    raise Unknown(line)


def other(line):
    """The lines for what is no instruction."""
    if line.startswith("target datalayout = "):
        wanted, new = f'target datalayout = "{LAYOUT}"', f'target datalayout = "{NEW_LAYOUT}"'
    elif line.startswith("target triple = "):
        wanted, new = f'target triple = "{TRIPLE}"', f'target triple = "{NEW_TRIPLE}"'
    elif line.startswith("@"):
        wanted, new = line, static(line)
    elif line.startswith(("declare ", "define ")) and not NEVER.search(line):
        wanted, new = line, line
    else:
        new = ATTRIBUTES.sub("", line)
        wanted = line if AROUND.fullmatch(line) or LEFT.fullmatch(new) else None
    if line != wanted:
        raise Unknown(line)
    return [] if PAUSE in line or line.startswith("declare ") and CHOICE in line else [new]


def choice():
    """The lines of a function that chooses bytes of its first argument, as the instruction of x86-64 does."""
    told = [f"define internal <16 x i8> {NEW_CHOICE}(<16 x i8> %from, <16 x i8> %by) {{"]
    for at in range(16):
        told += [
            f"  %n{at} = extractelement <16 x i8> %by, i32 {at}",
            f"  %i{at} = and i8 %n{at}, 15",
            f"  %z{at} = icmp slt i8 %n{at}, 0",
            f"  %c{at} = extractelement <16 x i8> %from, i8 %i{at}",
            f"  %b{at} = select i1 %z{at}, i8 0, i8 %c{at}",
            f"  %v{at} = insertelement <16 x i8> {f'%v{at - 1}' if at else 'zeroinitializer'}, i8 %b{at}, i32 {at}",
        ]
    return [*told, "  ret <16 x i8> %v15", "}", ""]


def narrowed(text):
    """The text of the module for wasm32. Raises Unknown at the first line that isn't known."""
    told = []
    for at, line in enumerate(text.split("\n")):
        is_instruction = line.startswith("  ") and not AROUND.fullmatch(line)
        told += instruction(line, f"%w{at}") if is_instruction else other(line)
    return "\n".join(told + (choice() if CHOICE in text else [])).replace(f"{CHOICE}(", f"{NEW_CHOICE}(")
