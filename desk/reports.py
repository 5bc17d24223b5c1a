"""Reads the texts of reports and of maps, as docs/FORMATS.md has them under "Report text"."""
import dataclasses
import re

from desk import percent

NAME = r"([A-Za-z0-9_-]{1,24})"
NUMBER = r"(0|[1-9][0-9]{0,38})"
SHARE = NUMBER + r" ([0-9]{1,3}\.[0-9]{3})"
LEFT = f"left {NAME} {SHARE}"


class NoReport(Exception):
    """The text isn't a report, or a map. It says the line, counted from 1."""


@dataclasses.dataclass
class Row:
    """A line of a report or a map: the position of a period or a cell, its number out of W, and the same in percent as it is printed."""

    name: str
    value: int
    percent: str


@dataclasses.dataclass
class Report:
    """What an accepted plan finds, V out of W and in percent; a row for each period, and one for each cell with what is left."""

    value: int
    weight: int
    percent: str
    periods: list
    left: list


@dataclasses.dataclass
class Look:
    """What a map says of a period: the position that was looked from, and a row for each cell with what is left."""

    name: str
    left: list


class Lines:
    """The lines of a text, one after another."""

    def __init__(self, text):
        self.lines = text.decode("ascii", "replace").split("\n")
        self.at = 0

    def take(self, form):
        """The groups of the next line, or None where it has another form."""
        found = re.fullmatch(form, self.lines[self.at]) if self.at < len(self.lines) else None
        self.at += found is not None
        return found and found.groups()

    def need(self, form):
        """The groups of the next line, which has to have this form."""
        found = self.take(form)
        if found is None:
            raise NoReport(f"line {self.at + 1} isn't as docs/FORMATS.md says")
        return found

    def rows(self, form):
        """The rows of the next lines that have this form."""
        found = []
        while row := self.take(form):
            found.append(Row(row[0], int(row[1]), row[2]))
        return found

    def ends(self):
        """Whether the line `end` comes, and nothing behind it."""
        self.need("end")
        self.need("")
        return self.at == len(self.lines)


def read(text):
    """The report that a text (bytes) is. Raises NoReport at another text, also where its shares aren't those of its numbers."""
    lines = Lines(text)
    lines.need("report 1")
    value, weight, share = lines.need(f"chance {NUMBER} {SHARE}")
    report = Report(int(value), int(weight), share, [], [])
    while row := lines.take(f"period {len(report.periods) + 1} {NAME} {SHARE}"):
        report.periods.append(Row(row[0], int(row[1]), row[2]))
    report.left = lines.rows(LEFT)
    if not lines.ends() or not shares_hold(report):
        raise NoReport("the report's shares aren't those of its numbers")
    return report


def of_frames(value, weight, path, cells, frames):
    """The report of a path that is known to find so much of the whole weight: `path` are its positions and `cells` all cells, by name,
    and `frames` those of desk.masses."""
    periods = [Row(name, it.so_far, percent.cut(it.so_far, weight)) for name, it in zip(path, frames[1:])]
    left = [Row(name, mass, percent.cut(mass, weight)) for name, mass in zip(cells, frames[-1].left)]
    return Report(value, weight, percent.cut(value, weight), periods, left)


def read_map(text, whole):
    """The looks of the map that a text (bytes) is, of a scenario with this whole weight. Raises NoReport at another text, also where its
    shares aren't those of its numbers."""
    lines, looks = Lines(text), []
    lines.need("map 1")
    while row := lines.take(f"period {len(looks) + 1} {NAME}"):
        looks.append(Look(row[0], lines.rows(LEFT)))
    rows = [row for it in looks for row in it.left]
    if not lines.ends() or not looks or not are_cut(rows, whole):
        raise NoReport("the map's shares aren't those of its numbers, or it has no period")
    return looks


def are_cut(rows, whole):
    """Whether the percent of each row are those of its number out of the whole weight."""
    return all(it.percent == percent.cut(it.value, whole) for it in rows)


def shares_hold(report):
    """Whether each share is its number out of W, and the numbers belong together: what is left and V sum to W."""
    if report.weight == 0 or report.value + sum(it.value for it in report.left) != report.weight:
        return False
    return are_cut([Row("", report.value, report.percent), *report.periods, *report.left], report.weight)
