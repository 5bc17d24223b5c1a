"""brief SCENARIO [PLAN] [--of SCENARIO] [--trial FILE] [--from HH:MM --minutes N]: writes an accepted plan as plain text for a radio or a
tasking form."""
import re
import textwrap

from desk import accepted, clock, comments, earth, geometry, masses, percent, running, sentences, steering, tried
from desk.markup import filled

WORDS = clock.words_of("brief", "writes the same as plain text, for a radio or a tasking form")
# How wide the text is where names allow it, in columns.
WIDTH = 60
# How many squares are told at the end.
MOST_LEFT = 5
# The columns whose cells stand to the left, and the sign of a way around land.
TEXTS = ("begins", "look from", "first from", "second from", "middle")
AROUND = "*"
# A number with its unit.
UNIT = re.compile(r"(\d) (m|NM|knots|minutes)\b")


def row(cells, widths):
    """A line of a table: texts to the left where the width is negative, numbers to the right where it is positive."""
    return "  ".join(text.ljust(-width) if width < 0 else text.rjust(width) for text, width in zip(cells, widths)).rstrip()


def rows_of(lines, is_text):
    """Lines of a table, each column as wide as its widest text."""
    widths = [max(len(it) for it in column) * (-1 if text else 1) for column, text in zip(zip(*lines), is_text)]
    return [row(it, widths) for it in lines]


def share(part, whole):
    """A share in percent with its sign."""
    return filled("brief_share", share=percent.cut(part, whole))


def wrapped(sentence):
    """A sentence as lines, none of which ends between a number and its unit."""
    bound = UNIT.sub("\\1\N{NO-BREAK SPACE}\\2", sentence)
    return [it.replace("\N{NO-BREAK SPACE}", " ") for it in textwrap.wrap(bound, WIDTH)]


def looked_from(search, frame):
    """Where each searcher looks from in a period; behind the last of them it says whether that is flown."""
    *most, last = search.seats.names[frame.position]
    return [*most, filled("brief_flown", name=last) if frame.period <= search.seats.flown else last]


def begins(frame, times):
    """When a period begins, as a list of one cell or none."""
    return [times.at(frame.period)] if times else []


def heads_of_periods(count, times):
    """The heads of the table of periods of so many searchers."""
    heads = ["look from", "finds"] if count == 1 else ["first from", "second from", "find"]
    return ["period", *(["begins"] if times else []), *heads, "so far"]


def periods(search, times):
    """A line for each period: when it begins, where the searchers look from, what these looks find, what is found so far."""
    whole, lines = search.report.weight, [heads_of_periods(search.seats.count, times)]
    for it in search.frames[1:]:
        lines.append([str(it.period), *begins(it, times), *looked_from(search, it), share(it.found, whole), share(it.so_far, whole)])
    return rows_of(lines, [head in TEXTS for head in lines[0]])


def course_of(leg):
    """The true course of a leg, as in 045°."""
    return f"{round(leg.course) % 360:03}°"


def miles_of(leg):
    """The length of a leg, as in 0.38 NM; around land with a star."""
    return f"{AROUND if leg.around else ''}{(leg.around or leg.metres) / geometry.NAUTICAL_MILE:.2f} NM"


def place_of(stop):
    """The middle of a stop's square on the earth; a dash where it isn't known."""
    return earth.told(*stop.on_earth) if stop.on_earth else "-"


def cells_of(leg):
    """The course and the length of a leg, as cells."""
    if leg is None or leg.is_stay:
        return ["-" if leg is None else "stay", ""]
    return [course_of(leg), miles_of(leg)]


def head_of_ways(count, who):
    """What stands above the table of where one of so many searchers goes."""
    return "Where to go:" if count == 1 else f"Where the {('first', 'second')[who]} searcher goes:"


def heads_of_ways(told):
    """The heads of that table."""
    return ["period", *(["begins"] if told.times else []), "look from", *(["middle"] if told.frame else []), "course", "way"]


def steered(search, told, who):
    """Where a searcher goes, a line for each period behind an empty one and a head: when it begins, where the searcher looks from, the
    middle of that on the earth, course and length of the way there. No lines where no place is known."""
    stops = steering.stops(search, told, who)
    if all(it.metres is None for it in stops[1:]):
        return []
    lines = [heads_of_ways(told)]
    for frame, before, it in zip(search.frames[1:], stops, stops[1:]):
        middle = [place_of(it)] if told.frame else []
        lines.append([str(it.period), *begins(frame, told.times), looked_from(search, frame)[who], *middle, *cells_of(steering.leg(before, it, told.given))])
    return ["", head_of_ways(search.seats.count, who), *rows_of(lines, [it in TEXTS for it in lines[0]])]


def about_searching(search, told):
    """How squares are searched, and what is to say of courses, as lines behind an empty one; none where nothing is known."""
    said, stops = steering.searching(told, search.sc.horizon), [steering.stops(search, told, it) for it in range(search.seats.count)]
    legs = [it for its in stops for ends in zip(its, its[1:]) if (it := steering.leg(*ends, told.given))]
    if any(not it.is_stay for it in legs):
        said.append(filled("brief_courses"))
    if any(it.around for it in legs):
        said.append(filled("brief_around"))
    return ["", *(line for it in said for line in wrapped(it))] if said else []


def heads_of_left(search):
    """The heads of the table of what is left."""
    return [search.squares.noun, "of all", "of what is left"]


def left(search):
    """Where they are if nothing was found: the squares that hold most, as a share of all and of what is left."""
    last, whole, names = search.frames[-1], search.report.weight, search.squares.texts
    sums = search.squares.sums(last.left)
    order = masses.greatest(sums)
    if not order:
        return [filled("brief_nowhere")]
    head, lines = filled("brief_left", period=last.period), [heads_of_left(search)]
    lines += [[names[it], share(sums[it], whole), share(sums[it], last.missed)] for it in order[:MOST_LEFT]]
    more = len(order) - MOST_LEFT
    rest = sum(sums[it] for it in order[MOST_LEFT:])
    return [head, *rows_of(lines, [True, False, False]), *([filled("brief_more", count=more, share=percent.cut(rest, whole))] if more > 0 else [])]


def chance(search):
    """The name of what says the chance, and what it says besides: of how many looks, and from where."""
    slots = {"looks": sentences.plural(search.sc.horizon, "look"), "start": search.seats.where(search.sc.start)}
    return "brief_chance" if search.seats.count == 1 else "brief_chance_each", slots


def text_of(search, told):
    """The whole text."""
    return text_with(search, told, sentences.verdict(search), search.checked_by)


def unchecked_text(search, told):
    """The whole text, but for what accepted the plan: for a page, which has that checked where it is read."""
    return text_with(search, told, f"{filled('unchecked')}.")


def text_with(search, told, *verdict):
    """The whole text, with these lines for its verdict."""
    name, slots = chance(search)
    lines = [
        filled("brief_title", name=search.name),
        *verdict,
        filled(name, share=search.report.percent, **slots),
        *(line for it in sentences.about_trial(search) for line in textwrap.wrap(it, WIDTH)),
        *(told.times.about() if told.times else []),
        *sentences.about_flown(search),
        *sentences.about_names(search),
        "",
        *periods(search, told.times),
        *(line for who in range(search.seats.count) for line in steered(search, told, who)),
        *about_searching(search, told),
        "",
        *left(search),
        "",
        filled("brief_cut"),
        *([] if search.ceiling is None else [filled("brief_up")]),
        filled("brief_sum", begin=search.scenario_sum[:32], rest=search.scenario_sum[32:]),
    ]
    return "\n".join(lines) + "\n"


def brief_of(given):
    """The text of what the words say, and what the program said on standard error. Raises accepted.Refused."""
    search = tried.with_trial(accepted.load(given.files, given.of), given.trial)
    told, said = comments.read(search, given.times)
    # Of a gap plan the program makes no report, and so its map is asked.
    return text_of(search if search.ceiling is None else accepted.mapped(search), told), running.noted(search.note, "brief", said)


def main(words):
    """Runs `osp brief` with these words, and answers its exit status."""
    return clock.run(WORDS, brief_of, words)
