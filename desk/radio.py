"""What a page carries so that it can write the brief of what is flown and planned in it (radio.js): the words, the times and the ways of
desk.brief, as JSON can have them."""
from desk import brief, sentences, steering
from desk.markup import filled

# How much of a way a page has to know: nothing, that it is none, that it is straight, or that it leads around land.
UNKNOWN, STAY, STRAIGHT, AROUND = range(4)


def kind_of(leg):
    """What kind of way a leg is."""
    if leg is None:
        return UNKNOWN
    if leg.is_stay:
        return STAY
    return AROUND if leg.around else STRAIGHT


def way(leg):
    """The cells of a brief's table for the way of a leg, and its kind."""
    return [*brief.cells_of(leg), kind_of(leg)]


def ways(search, told, stops):
    """From each place the ways to those that a move leads to, by number."""
    moves = search.seats.of.moves
    return [{to: way(steering.leg(stops[at], stops[to], told.given)) for to in sorted(moves[at])} for at in range(len(stops))]


def words(search):
    """What a brief says of a search in which looks are flown, but for what isn't known yet."""
    return {
        "checked": search.checked_by,
        "chance": brief.chance(search),
        "names": sentences.about_names(search),
        "left": brief.heads_of_left(search),
        "most": brief.MOST_LEFT,
        "width": brief.WIDTH,
        "unknown": way(None),
        "texts": brief.TEXTS,
    }


def data(search, told):
    """All that a page carries for briefs: words, heads of tables, times by period, and places and ways by the numbers of positions."""
    count, periods = search.seats.count, range(1, search.sc.horizon + 1)
    names = [it.decode("ascii") for it in search.seats.of.positions]
    stops = [steering.stop(search, told, at, name) for at, name in enumerate(names)]
    return words(search) | {
        "about": told.times.about() if told.times else [],
        "begins": [told.times.at(it) for it in periods] if told.times else None,
        "periods": brief.heads_of_periods(count, told.times),
        "going": [brief.head_of_ways(count, it) for it in range(count)],
        "ways": brief.heads_of_ways(told),
        "known": [it.metres is not None for it in stops],
        "middles": [brief.place_of(it) for it in stops] if told.frame else None,
        "legs": ways(search, told, stops),
        "searching": [line for it in steering.searching(told, search.sc.horizon) for line in brief.wrapped(it)],
        "courses": brief.wrapped(filled("brief_courses")),
        "around": brief.wrapped(filled("brief_around")),
    }
