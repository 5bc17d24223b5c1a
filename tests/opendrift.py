"""Makes files of tracks for tests, in the shape that OpenDrift documents for its netCDF output."""
import datetime

from desk import packages

MEANINGS = ("active", "stranded", "outside")


def epoch(text):
    """Seconds since 1970 of a time in UTC, as 2026-07-04T12:00."""
    return datetime.datetime.fromisoformat(text).replace(tzinfo=datetime.timezone.utc).timestamp()


def write(path, times, tracks, *, is_turned=False, has_status=True, units="seconds since 1970-01-01 00:00:00", values=None, meanings=MEANINGS):
    """Writes a file of tracks at times (in its units). A track is a list of (longitude, latitude, status), or None where it is masked. It
    may be turned: time before trajectory."""
    netcdf = packages.module("netCDF4", "python3-netcdf4", "this file needs the package")
    numpy = packages.module("numpy", "python3-numpy", "this file needs the package")
    with netcdf.Dataset(path, "w") as data:
        data.Conventions, data.featureType = "CF-1.6", "trajectory"
        data.createDimension("trajectory", len(tracks))
        data.createDimension("time", None if times else 0)
        ids = data.createVariable("trajectory", "i4", ("trajectory",))
        ids.cf_role = "trajectory_id"
        ids[:] = range(1, len(tracks) + 1)
        time = data.createVariable("time", "f8", ("time",))
        time.units, time.standard_name = units, "time"
        time[:] = times
        for at, (name, kind) in enumerate((("lon", "f8"), ("lat", "f8"), ("status", "i4"))):
            if name == "status" and not has_status:
                continue
            dimensions = ("time", "trajectory") if is_turned else ("trajectory", "time")
            variable = data.createVariable(name, kind, dimensions, fill_value=9.96921e36 if at < 2 else -999)
            if name == "status":
                variable.flag_values = numpy.array(range(len(meanings)) if values is None else values, dtype="i4")
                variable.flag_meanings = " ".join(meanings)
            if tracks and times:
                mask = [[it is None for it in track] for track in tracks]
                table = numpy.ma.array([[0 if it is None else it[at] for it in track] for track in tracks], mask=mask, dtype=kind)
                variable[:] = table.T if is_turned else table
