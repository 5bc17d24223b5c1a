"""All faults of the text of a scenario: a reader that goes on after a wrong line, and doesn't tell again what follows from it."""
import dataclasses
import difflib
import functools

from desk import forms, limits, quoting, rounding, wording
from desk.wording import KEPT, UNKNOWN, split

# The order of the kinds of fault, for those at one line (docs/FORMATS.md).
ORDER = ["EarlyEnd", "NotText", *wording.KINDS, "MissingRow", "TooWide", "Rest"]
# What stands where: lines with a smaller number before those with a greater one.
RANK = {b"scenario": 0, b"horizon": 1, b"parts": 2, b"cell": 3, b"grid": 3, b"position": 4, b"start": 5, b"first": 6, b"end": 8}
ROWS = {version: rows[:-1] for version, rows in forms.ScenarioReader.ROWS.items()}
# The lines of each version before its rows, each of which is needed.
HEAD = {
    1: [b"scenario", b"horizon", b"parts", b"cell", b"start", b"first"],
    2: [b"scenario", b"horizon", b"parts", b"cell", b"position", b"start", b"first"],
}
# The keywords that only one version has.
OWN = {1: {b"grid", b"spread", b"rate", b"overlook"}, 2: {b"position", b"driftin", b"look", b"lookin"}}
# A sort of row: where it is kept, what it is called, whether cells have it, and what to write for one and for all.
NEEDED = {
    1: (
        ("moves", "moves", "moves {0} {0}", None),
        ("drift", "drift", "drift {0} {0} {1}", "spread PART"),
        ("looks", "overlook", "overlook {0} PART", "rate PART"),
    ),
    2: (("moves", "moves", "moves {0} {0}", None), ("drift", "drift", "drift {0} {0} {1}", None), ("looks", "look", "look {0} CELL PART", None)),
}
# How often a line is read again after a repair, and from how many faults on no spelling is looked for.
TRIES = 5
MOST_GUESSES = 500
# For how many unknown names a name is looked for that is spelled like them.
MOST_NEAR = 100


@dataclasses.dataclass
class Fault:
    """A fault: its line, counted from 1, its kind of docs/FORMATS.md, and what it is and what to write. `more` are later lines
    of which the same holds."""

    line: int
    kind: str
    says: str
    more: list = dataclasses.field(default_factory=list)


def rank(word):
    """The place of a keyword in the order of lines."""
    return RANK.get(word, 7)


@functools.lru_cache(maxsize=1024)
def keyword_near(word):
    """The keyword that is spelled most like a word, or None."""
    if word.lower() in wording.USAGE:
        return word.lower()
    names = [it.decode("ascii") for it in wording.USAGE]
    found = difflib.get_close_matches(word[:24].decode("ascii", "replace").lower(), names, 1, 0.75)
    return found[0].encode("ascii") if found else None


def text_alone(line):
    """A line without the bytes that no text has: a mark at its front goes, what looks like a blank becomes one, and other bytes
    become `_`, so that a name with a foreign letter stays one name."""
    line = line.removeprefix(b"\xef\xbb\xbf").replace(b"\xc2\xa0", b" ")
    return bytes(it if it in forms.TEXT else 32 if it < 32 else 95 for it in line)


def finest_part(horizon, parts, at):
    """The greatest number in the place `at` (0 to 2: A, D, G) of the denominators with which the horizon fits, or 0."""
    return rounding.greatest(limits.MOST_PART, lambda it: forms.is_narrow(horizon, (*parts[:at], it, *parts[at + 1 :])))


class Survey(forms.ScenarioReader):
    """Reads all lines of a scenario's text, and keeps all their faults.

    What a wrong line would have given is guessed where it can be, and else unknown: `open` says that not all names are known, so
    that any is taken; `forgiven` are names that a wrong line may have given, and `unsure` those that were taken without a right
    line of their own: their rows aren't missed. Behind the beginning of a second scenario (`second`) only `end` counts.
    """

    def __init__(self, lines):
        super().__init__()
        self.lines, self.at, self.ended_at, self.version = lines, 0, None, 1
        self.found, self.by_words = [], {}
        self.rows_at, self.once_at, self.unplaced = {}, {}, []
        self.second, self.open, self.forgiven, self.unsure, self.late, self.behind = False, False, set(), set(), set(), []
        self.grid_size = None
        self.guesses = {}
        self.sc.parts, self.sc.horizon, self.sc.first, self.sc.start = (UNKNOWN,) * 3, UNKNOWN, [], 0
        words = [split(it) for it in lines]
        self.word_at = {}
        for at, it in enumerate(words, 1):
            if it:
                self.word_at.setdefault(it[0], []).append(at)

    # ---- telling

    def tell(self, kind, says, at=None):
        """Notes a fault at a line, the present one where none is given. What was said before isn't said again."""
        at = at or self.at
        known = self.by_words.get((kind, says))
        if known is None:
            known = self.by_words[kind, says] = Fault(at, kind, says)
            self.found.append(known)
        elif at not in (known.line, *known.more[-1:]):
            known.more.append(at)
        return known

    # ---- reading on

    def survey(self):
        """The faults of all lines, in the order of lines and kinds."""
        if not any(it in self.word_at for it in wording.USAGE):
            return self.no_scenario()
        for self.at, line in enumerate(self.lines, 1):
            if not self.ended:
                self.take_on(line)
            elif line.strip(b" \t\r"):
                self.behind.append((self.at, line))
        self.at_end()
        return sorted(self.found, key=lambda it: (it.line, ORDER.index(it.kind)))

    def no_scenario(self):
        """The fault of a text without a keyword."""
        first = next((at for at, it in enumerate(self.lines, 1) if split(it)), None)
        if first is None:
            return [Fault(len(self.lines) + 1, "EarlyEnd", "the text says nothing: a scenario begins with `scenario 1`")]
        is_text = forms.TEXT.issuperset(self.lines[first - 1].strip(b" \t\r"))
        words = split(self.lines[first - 1])
        says = "this isn't the text of a scenario, which begins with `scenario 1`"
        if words[0] == b"plan":
            says = "this is a plan, and a scenario is wanted first"
        elif b"\0" in words[0]:
            says += ": is it saved as UTF-16? Save it as UTF-8 without BOM"
        return [Fault(first, "BadLine" if is_text else "NotText", says)]

    def take_on(self, line):
        """Takes a line, again after each repair, until it is right or given up."""
        if self.second and split(line) != [b"end"]:
            return
        for _ in range(TRIES):
            try:
                self.take(line)
                return
            except forms.Wrong as wrong:
                line = self.mended(line, str(wrong))
                if line is None:
                    return

    def take(self, line):
        super().take(line)
        words = split(line)
        if words:
            self.once_at.setdefault(words[0], self.at)
            self.note_rows(words[0], words[1:])

    def note_rows(self, word, fields):
        """Notes by which line rows are given."""
        if word in (b"spread", b"rate", b"grid"):
            rows = {b"spread": "drift", b"rate": "looks", b"grid": "moves"}[word]
            for place in getattr(self.sc, rows):
                self.rows_at.setdefault((rows, place), self.at)
        elif word in KEPT:
            place = self.place(word, wording.shape(self.sc, word, fields).row)
            self.rows_at.setdefault((KEPT[word], place), self.at)
        if word == b"grid":
            self.grid_size = self.grid

    def place(self, word, row):
        """Where a row is kept, by the fields that say it; None where they don't say it, or the line has no such row."""
        if not row:
            return None
        names = self.numbers if word in (b"drift", b"driftin", b"overlook") else self.places
        number = names.get(row[-1])
        if len(row) == 1 or number is None:
            return number
        return (int(row[0]), number) if wording.is_number(row[0], 1) and len(row[0]) < 8 else None

    def near(self, name, names):
        """The name that is spelled most like another one, or None. Many are looked for no more."""
        if name not in self.guesses and len(self.guesses) < MOST_NEAR:
            self.guesses[name] = wording.near(name, names)
        return self.guesses.get(name)

    def known(self, positions, cells):
        """As in the reader; names that a wrong line may have given are taken."""
        for names, listed, fields in ((self.places, self.sc.positions, positions), (self.numbers, self.sc.names, cells)):
            for it in fields:
                if it not in names and (self.open or it in self.forgiven):
                    self.unsure.add(it)
                    names[it] = len(listed)
                    listed.append(it)
        return super().known(positions, cells)

    # ---- repairs

    def mended(self, line, kind):
        """Tells the faults of a line, and answers the line to be read in its place, or None."""
        if kind == "NotText":
            return self.mended_bytes(line)
        word, *fields = split(line)
        if word not in wording.USAGE:
            return self.mended_keyword(word, fields)
        if word in OWN[3 - self.version]:
            return self.mended_version(word, fields)
        if word not in self.due:
            return self.mended_place(word, fields)
        if not self.FIELDS[word](len(fields)):
            return self.mended_count(word, fields)
        self.tell_fields(word, fields, kind)
        return None

    def mended_bytes(self, line):
        if line.startswith(b"\xef\xbb\xbf"):
            self.tell("NotText", "a byte order mark stands before the line: save the file as UTF-8 without BOM")
        else:
            bad = next(it for it in line.strip(b" \t\r") if it not in forms.TEXT)
            what = "a letter that isn't ASCII" if bad >= 128 else f"the byte {bad}"
            self.tell("NotText", f"the line holds {what}: outside of comments there are letters a to z, digits and signs alone")
        return text_alone(line)

    def mended_keyword(self, word, fields):
        meant = keyword_near(word) if len(self.found) < MOST_GUESSES else None
        if meant and self.FIELDS[meant](len(fields)):
            self.tell("BadLine", f"no line begins with {quoting.field(word)}: write `{meant.decode('ascii')}`")
            return b" ".join([meant, *fields])
        if word == b"plan":
            self.tell("BadLine", "a plan begins here, and `end` has to close the scenario before it")
        elif word.startswith((b"//", b";", b"--", b"/*", b'"')):
            self.tell("BadLine", "a comment begins with `#`")
        else:
            said = f"no line begins with {quoting.field(word)}" if len(self.found) < MOST_GUESSES else "no line begins so"
            self.tell("BadLine", f"{said}: a comment would begin with `#`")
        return None

    def mended_version(self, word, fields):
        """A keyword of the other version: the version is changed where the whole text looks like it, else the line is left out."""
        here, other = self.version, 3 - self.version
        name = word.decode("ascii")
        others = OWN[here] & set(self.word_at)
        if not others and (other == 1 or b"position" in self.word_at):
            at = self.once_at.get(b"scenario")
            where = f"line {at} has to be" if at else "the first line has to be"
            self.tell("BadLine", f"`{name}` is a line of version {other}: {where} `scenario {other}`")
            self.change_version(other)
            return b" ".join([word, *fields])
        hint = {
            b"grid": "write a `cell` line for each cell",
            b"spread": "write a `drift` line for each cell",
            b"rate": "write a `look` line for each position",
            b"overlook": "write `look` and the position, then the cell and the part",
        }.get(word, "`scenario 2` has it, with a `position` line for each place of the searcher, and `look` in place of `overlook`")
        self.tell("BadLine", f"`{name}` is a line of version {other} alone: {hint}")
        self.give_up(word, fields)
        return None

    def change_version(self, version):
        """Goes on as if the text were of the other version."""
        self.version = version
        if version == 1:
            self.places, self.sc.positions = self.numbers, self.sc.names
        else:
            self.places, self.sc.positions = {}, []
        stage = max(map(rank, self.due))
        self.due = {3: [b"cell", b"grid"] if version == 1 else [b"cell"], 4: [b"cell", b"start"]}.get(stage, self.due)
        if stage >= 7:
            self.due = self.ROWS[version]
        elif stage == 5 and version == 2:
            self.due = [b"cell", b"position"]

    def mended_place(self, word, fields):
        """A keyword that isn't due: lines before it are missing, or it comes too late."""
        if rank(word) <= max(map(rank, self.due)):
            return self.came_late(word, fields)
        first = max(map(rank, self.due))
        missing = [it for it in HEAD[self.version] if first <= rank(it) < rank(word)]
        for it in missing:
            self.lack(it)
        said = ", ".join(f"`{wording.USAGE[it]}`" for it in missing)
        moved = [at for it in missing for at in self.word_at.get(it, []) if at > self.at][:1]
        hint = f" ({quoting.lines(moved)} has to stand before it)" if moved else ""
        self.tell("BadLine", f"before this line {said} {'is' if len(missing) == 1 else 'are'} missing{hint}")
        self.late |= {it for it in missing if it in self.word_at and self.word_at[it][-1] > self.at}
        self.due = self.ROWS[self.version] if rank(word) >= 7 else [word]
        return b" ".join([word, *fields])

    def lack(self, word):
        """Goes on without a line that is needed."""
        if word == b"scenario":
            self.guess_version()
        elif word in (b"cell", b"position"):
            self.open = True

    def guess_version(self):
        self.change_version(2 if OWN[2] & set(self.word_at) and not OWN[1] & set(self.word_at) else 1)

    def came_late(self, word, fields):
        """A line that stands behind its place."""
        name = word.decode("ascii")
        if word in self.late:
            self.take_late(word, fields)
        elif word == b"scenario":
            self.tell("BadLine", f"a second scenario begins here: line {self.once_at.get(word, 1)} begins one already, and a file holds one")
            self.second = True
        elif word in (b"cell", b"grid") and b"grid" in self.once_at and not (word == b"grid" and b"cell" not in self.once_at):
            self.tell("BadLine", "a scenario has one `grid` line, or `cell` lines, and not both")
            self.take_late(word, fields)
        elif word == b"grid":
            self.tell("BadLine", "a scenario has one `grid` line, or `cell` lines, and not both")
            self.give_up(word, fields)
        elif word in (b"cell", b"position") and fields and fields[0] in (self.numbers if word == b"cell" else self.places):
            self.tell("BadLine", f"the {name} is named already: take this line away")
        elif word in (b"cell", b"position"):
            self.tell("BadLine", f"`{name}` lines stand together, before the next sort of line")
            self.take_late(word, fields)
        else:
            at = self.once_at.get(word)
            self.tell("BadLine", f"a second `{name}` line: line {at} is one already" if at else f"`{name}` stands further up in the text")
        return None

    def take_late(self, word, fields):
        """Takes what a line gives that stands in a wrong place."""
        due = self.due
        if word == b"scenario":
            return
        if self.FIELDS[word](len(fields)) and not (word == b"grid" and self.sc.names):
            try:
                getattr(self, "take_" + word.decode("ascii"))(fields)
            except forms.Wrong as wrong:
                self.tell_fields(word, fields, str(wrong))
        self.due = due

    def mended_count(self, word, fields):
        """A line with a wrong number of fields."""
        cut = next((at for at, it in enumerate(fields) if it.startswith(b"#")), None)
        if cut is not None and self.FIELDS[word](cut):
            self.tell("BadLine", "a comment has a line of its own, which begins with `#`")
            return b" ".join([word, *fields[:cut]])
        self.tell("BadLine", self.wrong_count(word, fields))
        self.forgiven |= set(fields) | {b"-".join(fields), b"_".join(fields), b"".join(fields)} if word in (b"cell", b"position") else set()
        self.give_up(word, fields)
        return None

    def wrong_count(self, word, fields):
        """What is said of a wrong number of fields."""
        usage = f"the line is written `{wording.USAGE[word]}`"
        if word in (b"cell", b"position") and len(fields) > 1:
            return f"{usage}: a name has no blanks"
        if word in (b"horizon", b"parts", b"grid", b"spread", b"rate", b"overlook", b"start", b"scenario", b"end"):
            return f"{usage}, and {quoting.counted(len(fields), 'field')} {'stands' if len(fields) == 1 else 'stand'} behind the keyword"
        names = {b"first": 0, b"drift": 1, b"look": 1, b"driftin": 2, b"lookin": 2}.get(word)
        pairs = fields[names:] if names is not None else []
        lone = next((one for one, other in zip(pairs[::2], [*pairs[1::2], None]) if other is None or other in self.numbers), None)
        if lone is not None and len(fields) > (names or 0):
            return f"{usage}: behind {quoting.field(lone)} its part is missing"
        return f"{usage}: something is missing"

    def tell_fields(self, word, fields, kind):
        """Tells what is wrong with the fields of a line, and goes on with what can be guessed of it."""
        told = wording.Words(self, word, fields).all()
        if kind not in (it for it, _ in told):
            told.insert(0, (kind, f"the program says {kind} of this line"))
        faults = [self.tell(*it) for it in told]
        self.give_up(word, fields, next((it for it in faults if it.kind == "UnknownName"), None))

    def give_up(self, word, fields, fault=None):
        """Goes on behind a wrong line: what it would have given counts as given."""
        if word in (b"horizon", b"parts", b"scenario", b"cell", b"position", b"grid", b"start", b"first"):
            getattr(self, "give_up_" + word.decode("ascii"))(fields)
            self.once_at.setdefault(word, self.at)
        elif word in (b"spread", b"rate", b"grid"):
            self.give_all({b"spread": "drift", b"rate": "looks"}[word])
        elif word in KEPT:
            row = wording.shape(self.sc, word, fields).row if self.FIELDS[word](len(fields)) else fields[:1]
            place = self.place(word, row)
            if place is not None and word not in OWN[3 - self.version]:
                getattr(self.sc, KEPT[word]).setdefault(place, {})
                self.rows_at.setdefault((KEPT[word], place), self.at)
            elif KEPT[word] in ("moves", "drift", "looks"):
                self.unplaced.append((KEPT[word], row[0] if row else b"", fault))

    def give_all(self, rows):
        """All cells count as having their row."""
        for it in range(len(self.sc.names)):
            getattr(self.sc, rows).setdefault(it, {})
            self.rows_at.setdefault((rows, it), self.at)

    def give_up_scenario(self, _):
        self.guess_version()
        self.due = [b"horizon"]

    def give_up_horizon(self, _):
        self.sc.horizon = UNKNOWN
        self.due = [b"parts"]

    def give_up_parts(self, fields):
        taken = [*fields, b"", b"", b""][:3]
        fit = (wording.is_number(it, 1) and not wording.over(it, limits.MOST_PART) and len(fields) == 3 for it in taken)
        self.sc.parts = tuple(int(it) if right else UNKNOWN for it, right in zip(taken, fit))
        self.due = [b"cell", b"grid"] if self.version == 1 else [b"cell"]

    def give_up_cell(self, fields):
        self.declare(fields, self.numbers, self.sc.names)
        self.due = [b"cell", b"start" if self.version == 1 else b"position"]

    def give_up_position(self, fields):
        self.declare(fields, self.places, self.sc.positions)
        self.due = [b"position", b"start"]

    def declare(self, fields, numbers, names):
        """Takes the name of a wrong line where it is one field."""
        if len(fields) == 1 and fields[0] not in numbers:
            self.unsure.add(fields[0])
            numbers[fields[0]] = len(names)
            names.append(fields[0])

    def give_up_grid(self, _):
        self.open, self.grid = True, self.grid or (1, 1)
        self.due = [b"start"] if b"first" not in self.once_at else self.due

    def give_up_start(self, _):
        self.due = [b"first"]

    def give_up_first(self, _):
        self.due = self.ROWS[self.version]

    # ---- the end

    def take_end(self, fields):
        self.ended, self.ended_at = True, self.at

    def at_end(self):
        """The faults that are told at `end`, and of what stands behind it."""
        at = self.ended_at or len(self.lines) + 1
        if not self.ended:
            needed = [it for it in HEAD[self.version] if rank(it) >= max(map(rank, self.due))]
            before = f" behind {', '.join(f'`{wording.USAGE[it]}`' for it in needed)} and the rows" if needed else ""
            self.tell("EarlyEnd", f"the text ends without `end`: write it as the last line{before}", at)
        moved = self.missing_rows(at) if not self.open and not self.second else []
        self.too_wide(at)
        if len(self.behind) > len(moved) and not (moved and self.only_comments(moved)):
            self.rest([it for it in self.behind if it[0] not in moved])

    def only_comments(self, moved):
        """Whether all that stands behind `end` besides rows that belong before it is comments and another `end`."""
        return all(split(line) in (None, [b"end"]) for at, line in self.behind if at not in moved)

    def missing_rows(self, at):
        """Tells which rows are missing. Answers the lines of those that stand behind `end`."""
        places = {"moves": self.sc.positions, "drift": self.sc.names, "looks": self.sc.positions}
        lacking = {rows: [it for number, it in enumerate(names) if number not in getattr(self.sc, rows)] for rows, names in places.items()}
        lacking = {rows: [it for it in names if it not in self.unsure] for rows, names in lacking.items()}
        self.attribute(lacking)
        moved = []
        for line, text in self.behind:
            word, *fields = split(text) or [b""]
            if word in ROWS[self.version] and word in KEPT and self.FIELDS[word](len(fields)):
                names = lacking[KEPT[word]] if KEPT[word] in lacking else []
                moved += [line]
                if fields[0] in names:
                    names.remove(fields[0])
            elif word in (b"spread", b"rate") and self.version == 1:
                moved += [line]
                lacking[{b"spread": "drift", b"rate": "looks"}[word]].clear()
        lost = any(number not in getattr(self.sc, rows) for rows, names in places.items() for number in range(len(names)))
        if moved and lost:
            self.tell("MissingRow", f"`end` stands before rows in {quoting.lines(moved)}: it is the last line of the text", at)
        for rows, word, one, all_of_them in NEEDED[self.version]:
            self.missing_row(at, word, lacking[rows], len(places[rows]), one, all_of_them)
        return moved if lost else []

    def missing_row(self, at, word, names, count, one, all_of_them):
        """Tells that some names lack a row of a sort."""
        if not names:
            return
        written = "`" + one.format(quoting.name(names[0]), self.sc.parts[1] if self.sc.parts[1] is not UNKNOWN else "D") + "`"
        if len(names) == 1:
            says = f"{quoting.name(names[0])} has no {word} row: such as {written}"
        else:
            who = quoting.listed([quoting.name(it) for it in names])
            says = f"{len(names)} of {count} have no {word} row: {who}: such as {written}"
        if all_of_them and len(names) == count:
            says += f", or `{all_of_them}` for all of them"
        self.tell("MissingRow", says, at)

    def attribute(self, lacking):
        """A row with an unknown name is most likely that of a name that lacks one, which then isn't told as missing, too."""
        for rows, name, fault in self.unplaced:
            names = lacking.get(rows, [])
            meant = wording.near(name, names) if len(self.found) < MOST_NEAR else None
            if meant is None and names:
                meant = names[0] if len(names) == 1 else None
            if meant is not None:
                names.remove(meant)

    def too_wide(self, at):
        """Tells a scenario that doesn't fit into 128 bits, and what would fit."""
        parts, horizon = self.sc.parts, self.sc.horizon
        if horizon is UNKNOWN or any(it is UNKNOWN for it in parts) or forms.is_narrow(horizon, parts):
            return
        fit = rounding.most_periods(parts)
        said = f"{quoting.counted(horizon, 'period')} with parts {' '.join(map(str, parts))} don't fit into 128 bits: "
        said += f"{quoting.counted(fit, 'period')} would fit" if fit else "no horizon fits"
        finest = [(letter, finest_part(horizon, parts, at)) for at, letter in enumerate("ADG")]
        others = [f"{letter} of at most {most:,}" for letter, most in finest if most]
        self.tell("TooWide", said + (f", or {' or '.join(others)}" if others else ""), at)

    def rest(self, behind):
        """Tells what stands behind `end`."""
        at, line = behind[0]
        if (split(line) or [b""])[0] == b"plan":
            says = "a plan begins behind the scenario: give it as a file of its own (`check < FILE`, `show FILE` and `brief FILE` read both)"
        elif all(split(it) is None for _, it in behind):
            says = "a comment stands behind `end`: put it before"
        else:
            says = f"{quoting.lines([it for it, _ in behind])} {'stands' if len(behind) == 1 else 'stand'} behind `end`, which is the last line"
        self.tell("Rest", says, at)


def lines_of(text):
    """The lines of a text, as they are counted."""
    lines = text.split(b"\n")
    return lines if lines[-1] else lines[:-1]


def survey(text):
    """All faults of a text that should be that of a scenario alone, in order."""
    return Survey(lines_of(text)).survey()
