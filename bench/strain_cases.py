"""The hostile cases of bench/strained: texts, jobs that read them, and by kind what is done to them, as a random.Random draws it."""
import json
import os
import re
import shlex
import signal
import subprocess
import tempfile

from bench.runs import TOP, Stopped
from bench.strain_room import CANARY, OSP, STATUSES, Case, put

# A situation that has every table, small enough to be drafted at once.
LAKE = b"""title = "Lake"
[search]
begins = "2026-08-22 19:40Z"
minutes = 15
periods = 3
[area]
cell_size = 500
rows = 4
columns = 4
land = ["r0c0"]
edge = "lost"
north_west = [57.725, 10.58]
[[report]]
at = [900, 1200]
radius = 200
weight = 2
time = "2026-08-22 18:50"
until = "2026-08-22 18:55"
[[report]]
cell = "r2c1"
probable_error = 100
time = "2026-08-22 19:15"
[[current]]
knots = 0.3
towards = 45
[[wind]]
knots = 10
from = 270
[drift]
spread = 60
leeway = 0.02
wind_error = 1
divergence = 15
jibing = 0.04
[searcher]
start = "r3c1"
speed = 8
sweep_width = 100
search_minutes = 12
reaches = 4
stays = true
[light]
sunset = "2026-08-22 20:05"
night = 0.4
[[visibility]]
factor = 0.9
[parts]
first = 20
drift = 10
look = 10
[tracks]
count = 1000
seed = 1
finer = 1
"""
# The same over tracks of a file.
ENSEMBLE = LAKE.split(b"[[report]]")[0] + b'[searcher]\nstart = "r3c1"\nspeed = 8\nsweep_width = 100\n[tracks]\nfile = "tracks.csv"\n'
ROWS = (f"{at},2026-08-22T{time}:00Z,{900 + at},{1200 + at}\n" for at in range(40) for time in ("19:30", "20:00", "20:40"))
TRACKS = f"id,time,x,y\n{''.join(ROWS)}".encode()
# Jobs by name: their words, which are names of TEXTS where they name a file.
JOBS = {
    "plan": "plan grid",
    "gap": "gap --nodes 20 grid",
    "check": "check grid grid.plan",
    "checkgap": "checkgap swath swath.gap",
    "report": "report grid grid.plan",
    "convert": "convert grid grid.plan",
    "make": "make 7",
    "drill": "drill 7",
    "map": "map grid flown r0c1",
    "replan": "replan grid flown r0c1",
    "duo": "duo night start landing",
    "timed": "plan --seconds 9 two",
    "draft": "draft lake.toml",
    "draft of tracks": "draft ensemble.toml",
    "trial": "trial lake.toml lake.plan --of lake",
    "trial over tracks": "trial lake.toml lake.plan --tracks tracks.csv",
    "vary": "vary lake.toml lake.plan --nodes 1",
    "next": "next grid grid.plan --flown 2",
    "show": "show two.made --of night",
    "brief": "brief lake lake.plan --trial lake.json",
    "chart": "chart lake lake.plan --form gpx",
    "geojson": "chart lake lake.plan --form geojson",
    "split": "split 1 two folder",
    "join": "join parts",
    "explain": "explain grid grid.plan",
    "explain names": "explain grid flown r0c1",
    "explain made": "explain flown.made flown r0c1",
}
# What a job reads that its words don't name.
READ_TOO = {"ensemble.toml": ["tracks.csv"], "parts": ["parts/parts/1", "parts/scenario", "parts/depth"]}
# Values for keys of a situation.
VALUES = [
    *"nan inf -1 0 1e308 1e-320 9223372036854775808 -0.0 true [] {} 0x10 1_0 24:00:00 [1e300,-1e300] [nan,inf] [90,180] [89.99999,0]".split(),
    *"0001-01-01T00:00:00Z 0001-01-01T00:00:00+14:00 9999-12-31T23:59:59-12:00 1979-05-27T07:32:00.123456+14:00".split(),
    *(f'"{it}"' for it in ("", "2026-02-29 12:00", "9999-12-31 23:59", "\\u202e\\u0007x", f"$(touch {CANARY})", "A" * 900, "90N 180E")),
    *('"r0c0..r99999999999c99999999999"', '"r-1c-1"', '["r0c0..r3c3"]', "[-90.0, -180.0]", "'''\nx'''"),
    *("9" * 400, "[" * 80 + "]" * 80, "{a=" * 90 + "1" + "}" * 90),
]
# Numbers in the place of those of a text.
NUMBERS = [b"0", b"-1", b"9" * 50, b"9" * 400, b"1e9", b"1e400", b"00", b"1.5", b"18446744073709551616", b"nan", b"NaN", b"\xd9\xa3"]
# Bytes that are put in.
BYTES = b"\0\n\r\t \x1b\xff\xc2\x9b\"'[]{}=#.,0-9e\\"
# Names of files, as inputs and behind -o.
NAMES = [
    *"a'b a\"b ./-x ./--help \u00e9 * a\\b ~ a=b %s%n {a,b} \u202eabc ./flown ./start a&b <x ! (".split(),
    *(f"$(touch {CANARY})", f"`touch {CANARY}`", f"a;touch {CANARY}", "a b", "a\nb", "x\n", "\n", "\udcff", "a\x1b[31mb"),
    *("n" * 240, "\t", " ", "\u2028", "d\n/x"),
]
# What stands in the place of a file that is read, and of one that is written.
NO_FILES = [*"missing dir /dev/null /dev/full /dev/zero /proc/self/mem empty zeros loop dangling two/under /dev/fd/9 pipe.csv/x".split(), "x" * 300]
NO_TARGETS = [*"dir missing/x /dev/full pipe two/x loop dir/ new/ /proc/x".split(), "", "o" * 256]
# Words that stand anywhere.
WORDS = [
    *"--seconds --minutes --workers --nodes --json yes -o out two grid.plan -- - flown start a -1 0 99999999999999999999 1e3 nan".split(),
    *"--of --of= --flown --flown=a,,b --horizon 33 --from 25:00 --from=2026-02-30 --minutes=0 --trial --pattern all --count --help".split(),
    *"--form xml --path --path=, --seed / . /dev/null --jobs --tracks --= -oo --nodes=5 *".split(),
    *("", "\u0663", "--flown=" + "a," * 5000, "\x1b[2J", "\u202e", "a" * 20000, "\udcff", f"$(touch {CANARY})"),
]
COMMANDS = [*STATUSES, "alone", "plna", "", "-", "--", "--version", "-V", "help"]
STREAMS = [">&-", "<&-", "2>&-", ">&- 2>&- <&-", "> /dev/full", "2> /dev/full", "> /dev/full 2>&1", "| :"]
LIMITS = ["-f 0", "-f 1", "-n 8", "-v 45000", "-v 60000", "-v 120000", "-v 300000", "-t 1"]
ENVIRONMENTS = [
    *({"LC_ALL": it} for it in ("C", "POSIX", "tr_TR.UTF-8", "xx_YY.broken", "../../../tmp")),
    *({"TMPDIR": it} for it in ("/nonexistent/x", "", "two")),
    *({"TZ": it} for it in ("../../etc/passwd", "A" * 5000)),
    {"PYTHONPATH": ".", "PYTHONSTARTUP": "evil.py", "PYTHONINSPECT": "1", "PYTHONHOME": "/nonexistent"},
    {"PYTHONOPTIMIZE": "2", "PYTHONDEVMODE": "1", "PYTHONWARNINGS": "error"},
    *(dict([it.split("=")]) for it in "PYTHONIOENCODING=ascii:strict CDPATH=.:/tmp IFS=/sop. POSIXLY_CORRECT=1 HOME=/nonexistent".split()),
    *(dict([it.split("=")]) for it in "ENV=evil.sh BASH_ENV=/nonexistent OSP= FUNCNEST=2".split()),
    {"COLUMNS": "1", "LINES": "-1", "TERM": "\x1b"},
    {"half": "two", "target": "two", "program": "/bin/false", "here": "/tmp", "files": "two", "words": "x", "GLOBIGNORE": "*"},
    {"python": f"touch {CANARY}", "PROMPT_COMMAND": f"touch {CANARY}"},
]
LOADED = "evil.py json.py tomllib.py argparse.py sitecustomize.py desk/__init__.py desk/__main__.py netCDF4.py".split()
EVIL = {it: f"open('{CANARY}', 'w').close()\n".encode() for it in LOADED}
# What stands for a number that Python doesn't write.
MARK = "xxxxxxxx"
TIMES = ["9999-12-31 23:50Z", "0001-01-01 00:00Z", "0000-00-00 00:00", "25:99", "2199-12-31 23:59Z", "1900-01-01 00:00", "2026-02-29 12:00Z", "\u0661\u0669:\u0664\u0660"]
# What netCDF files have of another shape: lines of Python over `data`, an open file as OpenDrift writes it, and `numpy`.
COUNTS, SCALES = ("[]", "[1., 2., 3.]"), ("add_offset", "scale_factor", "valid_max", "valid_range")
OTHERS = ("'i4', ()", "str, ('time',)", "data.createVLType('f8', 'many'), ('time',)")
SHAPES = [
    *(f"data['status'].flag_values = {it}" for it in ("1.5", "numpy.array([0.5, 1.5])", "'0b 1b'", "numpy.array([], 'i4')")),
    *(f"data['{name}'].{its} = numpy.array({it})" for name in ("lon", "lat", "time") for its in SCALES for it in COUNTS),
    *(f"data.renameVariable('{name}', 'old'); data.createVariable('{name}', {its})" for name in ("lon", "status", "time") for its in OTHERS),
    *("data['lon'].add_offset = 'x'", "data['time'].units = 'x since y'", "data['time'].units = numpy.array([1])"),
    *("data['time'].calendar = '360_day'", "data['status'].flag_meanings = numpy.array([1])"),
    "data.renameVariable('lon', 'old'); data.createVariable('lon', data.createVLType('f8', 'many'), ('trajectory', 'time'))",
]
# The texts by the names that they have in a folder: examples, what ./osp makes of the lake, and those of `fill`.
EXAMPLES = {
    **{"grid": "drifting-grid.scenario", "grid.plan": "drifting-grid.plan", "two": "two-cells.scenario", "two.plan": "two-cells.plan"},
    **{"swath": "swath.scenario", "swath.gap": "swath.gap", "night": "night.scenario"},
    **{"two.made": "night-two.made", "flown.made": "drifting-grid-flown.made"},
}
MADE = {"lake": "draft lake.toml", "lake.plan": "plan lake", "lake.json": "trial lake.toml lake.plan --json yes"}
RUN_JOBS = 'while read -r it; do sh -c "$it"; done < jobs'
TEXTS = {}


def ran(folder, *words):
    """What ./osp answers in a folder."""
    done = subprocess.run([OSP, *words], cwd=folder, stdin=subprocess.DEVNULL, capture_output=True, check=False)
    if done.returncode:
        raise Stopped(f"osp {' '.join(words)} ended with status {done.returncode}: {done.stderr.decode('utf-8', 'replace')[:300]}")
    return done.stdout


def read(*names):
    with open(os.path.join(*names), "rb") as file:
        return file.read()


def fill():
    """Makes TEXTS: those of examples, what the lake gives, and the folder of a plan in parts. Raises Stopped."""
    TEXTS.update({"lake.toml": LAKE, "ensemble.toml": ENSEMBLE, "tracks.csv": TRACKS})
    TEXTS.update({name: read(TOP, "examples", its) for name, its in EXAMPLES.items()})
    with tempfile.TemporaryDirectory() as folder:
        put(folder, Case("", [], TEXTS))
        for name, words_of in MADE.items():
            TEXTS[name] = ran(folder, *words_of.split())
            put(folder, Case("", [], {name: TEXTS[name]}))
        ran(folder, "split", "1", "two", "parts")
        subprocess.run(["sh", "-c", RUN_JOBS], cwd=f"{folder}/parts", check=True, capture_output=True)
        paths = [os.path.join(top, it) for top, _, names_of in os.walk(f"{folder}/parts") for it in names_of]
        TEXTS.update({os.path.relpath(it, folder): read(it) for it in paths})


def job(rng, *names):
    """The words of a job, drawn of these or of all."""
    return JOBS[rng.choice(names or list(JOBS))].split()


def inputs(words):
    """The places of the words that name files that are read."""
    return [at for at, it in enumerate(words) if it in TEXTS]


def made(words):
    """What a job of these words makes."""
    return tuple(it for it in words if it == "folder")


def written(words, name):
    """The words of a job with -o and a name; those of `split`, which takes a folder, with the name in its place."""
    if words[0] == "split":
        return [it if it != "folder" else name for it in words]
    return [words[0], "-o", name, *words[1:]]


def changed(rng, text):
    """A text with one to eight random changes."""
    for _ in range(rng.choice((1, 1, 2, 3, 8))):
        at, other, lines = rng.randrange(len(text) + 1), rng.randrange(len(text) + 1), text.split(b"\n")
        one, two = rng.randrange(len(lines)), rng.randrange(len(lines))
        numbers = list(re.finditer(rb"\d+", text)) or [re.match(b"", text)]
        it = rng.choice(numbers)
        text = rng.choice((
            text[:at] + bytes([rng.randrange(256)]) + text[at + 1 :],
            text[:at] + bytes([rng.choice(BYTES)]) + text[at:],
            text[:at] + text[at + rng.choice((1, 2, 10, 100)) :],
            text[:at] + text[other : other + rng.choice((1, 20, 200))] + text[at:],
            b"\n".join([*lines[:one], lines[two], *lines[one:]]),
            b"\n".join([*lines[:one], *lines[one + 1 :]]),
            text[: it.start()] + rng.choice(NUMBERS) + text[it.end() :],
            text[:at],
        ))  # fmt: skip
    return text


# ---- the kinds


def values(rng):
    """A value of a situation is another one, in its file or in the comments of the scenario that was drafted."""
    name = rng.choice(("lake.toml", "lake"))
    words = job(rng, "draft", "trial", "vary") if name == "lake.toml" else job(rng, "brief", "chart", "geojson", "trial")
    keys = list(re.finditer(rb"(?m)^(?:# \| )?(\w+ = )(.*)$", TEXTS[name]))
    it, value = rng.choice(keys), rng.choice(VALUES).encode("utf-8", "surrogateescape")
    text = TEXTS[name]
    return Case("values", words, {**TEXTS, name: text[: it.start(2)] + value + text[it.end(2) :]})


def texts(rng):
    """A text that is read has random changes."""
    words = job(rng)
    found = [*(words[at] for at in inputs(words)), *(each for it in words for each in READ_TOO.get(it, []))]
    if not found:
        return texts(rng)
    name = rng.choice(found)
    return Case("texts", words, {**TEXTS, name: changed(rng, TEXTS[name])}, made=made(words))


def words(rng):
    """Words that spell little."""
    found = [rng.choice(COMMANDS), *(rng.choice(WORDS) for _ in range(rng.randrange(6)))]
    # What may be made is the file behind -o and the folder of split, whatever their names.
    names = tuple(it for it in found[1:] if it and "/" not in it and it not in TEXTS)
    return Case("words", found, dict(TEXTS), given=b"", made=names, more=frozenset(range(2, 14)))


def names(rng):
    """Files of odd names, which are read and written."""
    found, name, target = job(rng), rng.choice(NAMES), rng.choice(NAMES)
    files = {**TEXTS, "d\n/keep": b"", "x": b"precious"}
    at = rng.choice(inputs(found) or [None])
    if at is not None:
        files[name] = TEXTS[found[at]]
        found[at] = name
    end = ".gpx" if found[0] == "chart" else "2" if name == target else ""
    target += end
    return Case("names", written(found, target), files, made=(os.path.normpath(target) if target.strip() else target,))


def same(rng):
    """A file that is read is written, too: by name, by a link, as standard output."""
    found = job(rng)
    places = [*(found[at] for at in inputs(found)), *(each for it in found for each in READ_TOO.get(it, []))]
    if not places or found[0] == "split":
        return same(rng)
    name, how = rng.choice(places), rng.choice(("name", "hard", "link", "./", "1<>", ">>"))
    if how in ("1<>", ">>"):
        return Case("same", found, dict(TEXTS), line=f'"$0" "$@" {how} {name}', wanted=frozenset({70}))
    target = {"name": name, "hard": "hard", "link": "link", "./": f"./{name}"}[how]
    links, hard = {"link": name} if how == "link" else {}, {"hard": name} if how == "hard" else {}
    if found[0] == "chart":
        found = [it for it in found if it not in ("--form", "gpx", "geojson")] + ["--form", "kml"]
    return Case("same", written(found, target), dict(TEXTS), links=links, hard=hard, wanted=frozenset({2, 70}))


def streams(rng):
    """Standard streams that are closed, full, or that nobody reads."""
    found, how = job(rng), rng.choice(STREAMS)
    return Case("streams", found, dict(TEXTS), line=f'"$0" "$@" {how}', made=made(found), more=frozenset({0}))


def no_files(rng):
    """What is read is a folder, a device, a link to nowhere, empty, or nothing."""
    found, name = job(rng), rng.choice(NO_FILES)
    at = rng.choice([*inputs(found), *(at for at, it in enumerate(found) if it == "parts")] or [None])
    if at is None:
        return no_files(rng)
    found[at] = name
    files = {**TEXTS, "dir/x": b"", "empty": b"", "zeros": bytes(5000)}
    links, wanted = {"loop": "loop", "dangling": "nowhere"}, STATUSES[Case("", found, {}).command] - {0}
    return Case("no files", found, files, links=links, pipes=("pipe.csv",), made=made(found), wanted=wanted)


def no_targets(rng):
    """What is to be written goes nowhere."""
    found = job(rng)
    name = rng.choice(NO_TARGETS)
    if found[0] == "split":
        return no_targets(rng)
    return Case("no targets", written(found, name), {**TEXTS, "dir/x": b""}, links={"loop": "loop"}, pipes=("pipe",), wanted=frozenset({2, 6, 70}))


def pipes(rng):
    """An input comes by a pipe, or as standard input; where a helper takes it, it ends as with a file."""
    found = job(rng)
    places = inputs(found)
    if not places:
        return pipes(rng)
    at, how = rng.choice(places), rng.choice(("<(cat {})", "- < {}", "/dev/stdin < {}", "<(head -c 9 {})"))
    line = " ".join(shlex.quote(it) if place != at else how.split(" < ")[0].format(it) for place, it in enumerate(found))
    line += f" < {found[at]}" if " < " in how else ""
    return Case("pipes", found, dict(TEXTS), line=f'"$0" {line}', made=made(found))


def limits(rng):
    """Little memory, few files, small files, little time."""
    found, most = job(rng), rng.choice(LIMITS)
    out = None if found[0] == "split" else "out"
    words_of = written(found, "out") if out else found
    files = {**TEXTS, **({"out": b"old"} if out else {})}
    ends = {"-t": {-9, -24}, "-f": {-25}}.get(most[:2], set())
    line, more = f'ulimit {most}; exec "$0" "$@"', frozenset({0, 6, 7, 70, *ends})
    return Case("limits", words_of, files, line=line, out=out, made=made(found), more=more)


def environments(rng):
    """Variables that steer bash, Python and the C library; files of the folder that would be loaded."""
    found = job(rng)
    files, drop = {**TEXTS, **EVIL, "evil.sh": f"touch {CANARY}\n".encode()}, rng.choice(((), ("HOME",), ("LANG",)))
    return Case("environments", found, files, env=rng.choice(ENVIRONMENTS), drop=drop, made=made(found))


def signals(rng):
    """A signal some time in a run: what is written is whole or as before, and nothing goes on."""
    found, number = job(rng), rng.choice((signal.SIGINT, signal.SIGTERM, signal.SIGHUP))
    out = None if found[0] == "split" else "out"
    words_of = written(found, "out") if out else found
    files = {**TEXTS, **({"out": b"old"} if out else {})}
    sent, more = (int(number), rng.uniform(0.02, 1.5)), frozenset({-int(number), 128 + number})
    return Case("signals", words_of, files, out=out, made=made(found), signal=sent, more=more)


def times(rng):
    """Times of comments and of words at the ends of the calendar, and none."""
    time = rng.choice(TIMES)
    found = job(rng, "brief", "chart", "geojson", "next")
    if rng.random() < 0.5:
        return Case("times", [*found, f"--from={time}", "--minutes", rng.choice(("15", "1440", "0", "9" * 30))], dict(TEXTS))
    told = f"# 3 periods of {rng.choice(('15', '1440', '0', '9999.99'))} minutes from {time} to {time}; "
    told += f"a look counts at the end of its period, the first at {time}\n"
    at = next(it for it in found if it in ("lake", "grid"))
    bare = re.sub(rb"(?m)^# \d+ periods? of .*\n", b"", TEXTS[at])
    return Case("times", found, {**TEXTS, at: bare.replace(b"scenario ", told.encode() + b"scenario ", 1)})


def trials(rng):
    """Numbers and texts of a trial's JSON, behind --trial."""
    told, long = json.loads(TEXTS["lake.json"]), int("9" * 400)
    value = rng.choice((long, -1, 0, 1.5, 1e300, None, True, [], {}, MARK, [[None]], [[[long, 1]]], [[[0]]], "\u202e"))
    where = rng.choice((told, told["flown"][0]))
    where[rng.choice(list(where))] = value
    text = json.dumps(told).replace(f'"{MARK}"', rng.choice(("1e400", "NaN", "9" * 5000, '"\\ud800"')))
    return Case("trials", [rng.choice(("brief", "show")), "lake", "lake.plan", "--trial", "lake.json"], {**TEXTS, "lake.json": text.encode()})


def shapes(rng):
    """Files of tracks as netCDF of another shape than OpenDrift's. Debian's Python makes them, which has the package."""
    change = rng.choice(SHAPES)
    make = f"import sys; sys.path.insert(0, {TOP!r}); from tests import opendrift; import netCDF4, numpy\n"
    make += "times = [opendrift.epoch(f'2026-08-22T{it}') for it in ('19:30', '20:00', '20:40')]\n"
    make += f"opendrift.write('tracks.nc', times, [[(10.59, 57.72, 0)] * 3] * 9)\nwith netCDF4.Dataset('tracks.nc', 'a') as data:\n    {change}"
    with tempfile.TemporaryDirectory() as folder:
        done = subprocess.run(["/usr/bin/python3", "-c", make], cwd=folder, capture_output=True, check=False)
        if done.returncode:
            return Case("shapes", job(rng, "draft of tracks"), {**TEXTS, "tracks.csv": changed(rng, TRACKS)})
        text = read(folder, "tracks.nc")
    if rng.random() < 0.3:
        text = changed(rng, text)
    situation = ENSEMBLE.replace(b"tracks.csv", b"tracks.nc")
    return Case("shapes", ["draft", "ensemble.toml"], {**TEXTS, "ensemble.toml": situation, "tracks.nc": text})


KINDS = (values, texts, words, names, same, streams, no_files, no_targets, pipes, limits, environments, signals, times, trials, shapes)
