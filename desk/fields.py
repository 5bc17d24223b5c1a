"""What a netCDF file has that isn't one of tracks: currents, winds or waves, by the standard names of the conventions for such files (CF
Standard Name Table), or by the names that models give their variables."""
import re

from desk import quoting

# What files have, in words; which standard names say so, the first that fits; and by which names variables without one are known.
KINDS = (
    ("waves", re.compile("sea_surface_(wave|swell|wind_wave|primary|secondary)"), ("hs", "swh", "VHM0")),
    ("currents", re.compile("(sea_water|ocean_current).*(velocity|speed)"), ("uo", "vo", "water_u", "water_v", "u_surf", "v_surf")),
    ("winds", re.compile("(^|_)wind($|_speed|_from_direction|_to_direction)"), ("u10", "v10", "10u", "10v", "uwnd", "vwnd")),
)
# Where a situation has them.
ROWS = {"currents": "[[current]] with knots = 0.6 and towards = 45", "winds": "[[wind]] with knots = 12 and from = 270"}


def told(data):
    """What a file (netCDF4.Dataset) without tracks has, and where that is written, in words; "" where it has tracks, or nothing that is
    known."""
    found = {} if "trajectory" in data.dimensions else by_kind(data.variables)
    if not found:
        return ""
    has = " and ".join(f"{kind} ({quoting.listed(names)})" for kind, names in found.items())
    rows = " and ".join(ROWS[it] for it in found if it in ROWS)
    return f"it has {has}, and no tracks" + (f"; they are written as rows, as in {rows}" if rows else "")


def by_kind(variables):
    """The names of variables by what they have, in the order of KINDS."""
    kinds = {name: kind_of(name, str(getattr(it, "standard_name", ""))) for name, it in variables.items()}
    found = {kind: [quoting.name(it.encode("utf-8", "replace")) for it in kinds if kinds[it] == kind] for kind, *_ in KINDS}
    return {kind: names for kind, names in found.items() if names}


def kind_of(name, standard):
    """What a variable of a name and a standard name has; None where neither says so."""
    return next((kind for kind, form, names in KINDS if (form.search(standard) if standard else name in names)), None)
