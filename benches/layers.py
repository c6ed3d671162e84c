#!/usr/bin/env python3
"""Times commands of `python -m polyover` on layers of the world beside the same task by shapely, and compares answers.

    apt-get install gmt-gshhg-low gmt-gshhg-high python3-cartopy    (the layers, and libnetcdf, which reads them)
    /usr/bin/python3 benches/layers.py --land l [--only clip overlay ..]    prints a table in Markdown

The layers are the rivers of GSHHG in high resolution, the land in the resolution that is named, cut at 180 degrees, and
the lakes in low resolution, with properties. Each task is a process by itself, that reads GeoJSON and writes it. That
of shapely takes its tree of boxes and prepared polygons: what lies within is kept without an overlay.
"""

import argparse
import json
import os
import subprocess
import sys
import tempfile
import time
from pathlib import Path

from build import ROOT
from gshhg import DATA, rings_in, rivers_in
from run import table_row

PYTHON = "/usr/bin/python3"
LAKES = "/usr/share/cartopy/data/shapefiles/gshhs/l/GSHHS_l_L2.shp"
PEER = Path(__file__).resolve().with_name("layers_peer.py")
# of each task the command's words, and the layers that it is asked of
TASKS = {
    "clip": (["clip"], "land", "rivers"),
    "overlay": (["overlay", "--rule", "intersect", "--keep"], "lakes", "land"),
    "both": (["overlay", "--rule", "intersect", "--keep", "both"], "lakes", "land"),
    "locate": (["locate"], "land", "mouths"),
    "relate": (["relate"], "land", "lakes"),
    "slice": (["slice"], "land", "rivers"),
}


# ---- layers


def feature(kind, coordinates, **properties):
    """A feature of GeoJSON."""
    return {"type": "Feature", "properties": properties, "geometry": {"type": kind, "coordinates": coordinates}}


def land_of(path):
    """The land as features, cut at 180 degrees."""
    from shapely.affinity import translate
    from shapely.geometry import Polygon, box, mapping

    world, found = box(-180, -90, 180, 90), []
    for number, ring in enumerate(rings_in(path), 1):
        whole = Polygon(ring)
        whole = whole if whole.is_valid else whole.buffer(0)
        for move in (-360, 0) if whole.area else ():
            part = translate(whole, move)
            part = part if world.contains(part) else part.intersection(world)
            pieces = [each for each in getattr(part, "geoms", [part]) if each.area > 0]
            found += [feature("Polygon", mapping(each)["coordinates"], number=number) for each in pieces]
    return found


def lakes():
    """The lakes as features, with all of their properties."""
    import shapefile

    shapefile.VERBOSE = False
    with shapefile.Reader(LAKES) as shapes:
        records = [(each.shape.__geo_interface__, each.record.as_dict()) for each in shapes.iterShapeRecords()]
    return [feature(shape["type"], shape["coordinates"], **record) for shape, record in records]


def write_layers(given, folder):
    """Writes the layers, and tells of each how many features and points it has."""
    rivers = rivers_in(given.data / "binned_river_h.nc")
    layers = {
        "land": land_of(given.data / f"binned_GSHHS_{given.land}.nc"),
        "lakes": lakes(),
        "rivers": [feature("LineString", path, level=level) for level, path in rivers],
        "mouths": [feature("Point", path[-1], level=level) for level, path in rivers],
    }
    for name, features in layers.items():
        folder.joinpath(f"{name}.geojson").write_text(json.dumps({"type": "FeatureCollection", "features": features}))
        print(f"{name}: {len(features)} features, {count(features)} points", flush=True)


def count(features):
    """How many points features have."""
    return sum(counted(each["geometry"]["coordinates"]) for each in features)


def counted(coordinates):
    """How many points are in lists of lists."""
    return 1 if isinstance(coordinates[0], (int, float)) else sum(map(counted, coordinates))


# ---- runs


def timed(words):
    """The seconds by the clock and of the processor, and the MiB, that a process takes."""
    began = time.monotonic()
    child = subprocess.Popen(words, env={**os.environ, "PYTHONPATH": str(ROOT / "python")})
    _, status, usage = os.wait4(child.pid, 0)
    if status:
        raise SystemExit(f"{' '.join(map(str, words))} failed")
    return time.monotonic() - began, usage.ru_utime + usage.ru_stime, usage.ru_maxrss / 1024


def run_task(task, given, folder):
    """Runs a task by both, and prints a row of the table."""
    words, *layers = TASKS[task]
    files = [folder / f"{name}.geojson" for name in layers]
    ours, theirs = folder / f"{task}_ours.geojson", folder / f"{task}_theirs.geojson"
    command = [words[0], *files, *words[1:], "--out", ours, "--quiet"]
    found = [timed([PYTHON, "-m", "polyover", *command])]
    cells = [f"`{' '.join([words[0], *layers, *words[1:]])}`"]
    if not given.alone:
        found.append(timed([PYTHON, PEER, task, *files, theirs]))
    for seconds, used, size in found:
        cells += [f"{used:.1f}", f"{seconds:.1f}", f"{size:.0f}"]
    same = "" if given.alone else subprocess.check_output([PYTHON, PEER, "compare", ours, theirs], text=True).strip()
    print(table_row([*cells, same]), flush=True)


def main():
    parser = argparse.ArgumentParser(description=__doc__, formatter_class=argparse.RawDescriptionHelpFormatter)
    parser.add_argument("--data", type=Path, default=DATA, metavar="FOLDER", help=f"the files of GSHHG ({DATA})")
    parser.add_argument("--land", choices=list("clih"), default="i", help="the resolution of the land (i)")
    parser.add_argument("--only", nargs="*", choices=list(TASKS), help="these tasks")
    parser.add_argument("--alone", action="store_true", help="run no shapely")
    parser.add_argument("--folder", type=Path, help="where the layers and answers go, and layers are taken from")
    given = parser.parse_args()
    with tempfile.TemporaryDirectory() as made:
        folder = given.folder or Path(made)
        folder.mkdir(exist_ok=True)
        if not folder.joinpath("mouths.geojson").exists():
            write_layers(given, folder)
        titles = ["Command", "Processor", "Clock", "MiB", "shapely: processor", "clock", "MiB", "Answers"]
        titles = [*titles[:4], ""] if given.alone else titles
        print(table_row(titles), table_row("---" for _ in titles), sep="\n", flush=True)
        for task in given.only or TASKS:
            run_task(task, given, folder)


if __name__ == "__main__":
    sys.exit(main())
