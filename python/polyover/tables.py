"""Tables of features, GeoPackage and Shapefile: read and written by fiona, where that is installed."""

from __future__ import annotations

import os
from contextlib import contextmanager
from importlib import import_module
from pathlib import Path
from tempfile import TemporaryDirectory
from typing import Any, Iterator, Sequence

from .checks import shown
from .content import Content, File
from .errors import BadInput
from .formats import GEOPACKAGE, SHAPEFILE, Format, layer_in
from .holding import NUMBERS, Holding
from .interrupts import let_in
from .leaving import is_plain
from .systems import DEGREES, crs_of, number_in, words_for
from .told import counted
from .wkt import has_height

DRIVERS = {GEOPACKAGE: "GPKG", SHAPEFILE: "ESRI Shapefile"}
TIMES = ("date", "time", "datetime")
# the name of ids in a GeoPackage, and names of columns that are its own
ID, TAKEN = "fid", ("fid", "geom")
LONGEST_NAME, LONGEST = 10, 2**63 - 1
# the kinds of geometries that a Shapefile has for those of answers, and that of an empty answer
SIMPLE = {"MultiPolygon": "Polygon", "MultiLineString": "LineString", "Point": "Point", "MultiPoint": "MultiPoint"}
OF_NOTHING = {"run_clip": "LineString", "run_locate": "Point"}
# files that stand beside a Shapefile, and tell of its former state
BESIDE = (".prj", ".cpg", ".qix", ".sbn", ".sbx")
KINDS = {bool: "bool", int: "int64", float: "float", str: "str"}
KINDS_OF_SHAPEFILE = {int: "int:18", float: "float:24.15", str: "str:254"}


def library_for(form: Format) -> Any:
    """The module of fiona."""
    try:
        return import_module("fiona")
    except ImportError:
        raise BadInput(f"{form.name} takes fiona (Debian's python3-fiona), which is not installed") from None


# ---- in


def layer_of(fiona: Any, path: str, layer: str | None) -> str:
    """The layer of a file that is read."""
    with open(path, "rb"):
        layers = fiona.listlayers(path)
    if layer is None and len(layers) > 1:
        raise BadInput(f"it has the layers {', '.join(layers)}: name one, as {path}:{layers[0]}")
    if layer is not None and layer not in layers:
        raise BadInput(f"it has no layer {layer}, but {', '.join(layers)}")
    return layer or str(layers[0])


def system_of(source: Any) -> str | None:
    """The system of coordinates of a layer: its code, or its text where it has none."""
    text = source.crs_wkt
    if not text or '"Undefined' in text[:40]:
        return None
    number = source.crs.to_epsg()
    return f"EPSG:{number}" if number else str(text)


def geometry_of(found: Any) -> dict[str, Any] | None:
    """A geometry as GeoJSON has it."""
    if found is None:
        return None
    if found["type"] == "GeometryCollection":
        return {"type": found["type"], "geometries": list(map(geometry_of, found["geometries"]))}
    return {"type": found["type"], "coordinates": found["coordinates"]}


def feature_in(form: Format, number: int, each: Any) -> dict[str, Any]:
    """A feature of a layer as GeoJSON has it; of a GeoPackage with its number as its id."""
    properties = dict(each["properties"])
    bad = next((name for name, value in properties.items() if isinstance(value, bytes)), None)
    if bad is not None:
        raise BadInput(f"feature {number}: the property {bad!r} has bytes, which are not taken")
    ids = {"id": int(each["id"])} if form is GEOPACKAGE else {}
    return {"type": "Feature", **ids, "properties": properties, "geometry": geometry_of(each["geometry"])}


def content_of(name: str, form: Format) -> Content:
    """What a layer has."""
    fiona = library_for(form)
    path, layer = layer_in(name)
    with fiona.open(path, layer=layer_of(fiona, path, layer)) as source:
        system = system_of(source)
        things = [(0, feature_in(form, number, each)) for number, each in enumerate(source, 1)]
        columns = {str(column): str(kind) for column, kind in source.schema["properties"].items()}
    members = {"crs": crs_of(system)} if system and number_in(system) and system not in DEGREES else {}
    return Content(things, members, system, columns=columns)


# ---- out


class Table:
    """An answer as a layer, in a format that holds some of it."""

    def __init__(self, given: Any, form: Format, features: Sequence[dict[str, Any]], file: File) -> None:
        self.form, self.features, self.file = form, list(features), file
        self.path, layer = layer_in(given.out)
        self.holding = Holding(form, given.out, given.drop)
        name = file.members.get("name")
        is_named = form is GEOPACKAGE and isinstance(name, str) and bool(name)
        self.layer = layer or (name if is_named else None) or Path(self.path).stem
        for member in file.members:
            if member != "crs" and not (member == "name" and is_named):
                self.holding.leave_out(f"the member {member!r}")
        for number, each in enumerate(self.features, 1):
            for member in each:
                if member not in ("type", "geometry", "properties", "id"):
                    self.holding.leave_out(f"the member {member!r}", place_of(number))
        self.columns = {name: kind for name, kind in self.kinds().items() if kind}
        self.has_ids = self.keeps_ids()
        self.kind = self.geometries(OF_NOTHING.get(given.run.__name__, "Polygon"))

    def kinds(self) -> dict[str, str | None]:
        """The kind of each property; of one that is not held none."""
        values: dict[str, list[Any]] = {}
        for each in self.features:
            for name, value in (each.get("properties") or {}).items():
                values.setdefault(name, []).append(value)
        found: dict[str, str | None] = {}
        for name, its in values.items():
            wrong = self.wrong_name(name, found)
            kind = None if wrong else self.kind_of(name, its)
            if kind is None:
                self.holding.leave_out(f"the property {name!r}{wrong or ', whose values are of no kind that it has'}")
            found[name] = kind
        return found

    def wrong_name(self, name: str, others: dict[str, str | None]) -> str | None:
        """Why a name can't be that of a column."""
        if not name or name.lower() in map(str.lower, others):
            return ", whose name is that of another" if name else ", whose name is empty"
        if self.form is GEOPACKAGE and name.lower() in TAKEN:
            return ", whose name is that of a column of its own"
        if self.form is SHAPEFILE and len(name.encode()) > LONGEST_NAME:
            return f", whose name is longer than {LONGEST_NAME} bytes"
        return None

    def kind_of(self, name: str, values: Sequence[Any]) -> str | None:
        """The kind of a column; none where it holds no such values."""
        given = self.file.columns.get(name, "").partition(":")[0]
        types = {type(value) for value in values if value is not None}
        if given in TIMES and types <= {str}:
            return given
        if types == {int, float}:
            types = {float}
        if int in types and any(abs(value) > LONGEST for value in values if value is not None):
            return None
        known = KINDS if self.form is GEOPACKAGE else KINDS_OF_SHAPEFILE
        if not types:
            return next((kind for kind in known.values() if given and kind.startswith(given)), known[str])
        return known.get(types.pop()) if len(types) == 1 else None

    def keeps_ids(self) -> bool:
        """Whether features keep their ids: whole numbers from 0 on, which come once."""
        ids = [each["id"] for each in self.features if "id" in each]
        if not ids:
            return False
        are_whole = all(type(each) is int and 0 <= each <= LONGEST for each in ids)
        if self.form is GEOPACKAGE and are_whole and len(set(ids)) == len(self.features):
            self.features.sort(key=lambda each: int(each["id"]))
            return True
        if self.file.is_table and are_whole:
            self.holding.told.add(counted(f"# {NUMBERS} given anew"), place_of(1), len(ids))
        else:
            once = ", which are no whole numbers that come once" if self.form is GEOPACKAGE else ""
            self.holding.leave_out(f"the ids of features{once}", place_of(1))
        return False

    def geometries(self, otherwise: str) -> str:
        """The kind of the geometries."""
        found = [each["geometry"] for each in self.features if each["geometry"]]
        kinds: set[str] = {each["type"] for each in found} or {f"Multi{otherwise}"}
        heights = {has_height(each["coordinates"]) for each in found}
        if self.form is GEOPACKAGE:
            return "Unknown" if len(kinds) > 1 or heights != {False} else kinds.pop()
        if len(kinds) > 1 or len(heights) > 1:
            raise BadInput(f"{self.holding.told.source}: Shapefile holds geometries of one kind: the answer has points"
                           " and lists of them, or points with and without heights")
        return "3D " * (True in heights) + SIMPLE[kinds.pop()]

    def system(self) -> dict[str, str]:
        """The system of coordinates, in words of fiona."""
        system = self.file.system
        if system in DEGREES or number_in(system):
            return {"crs": "EPSG:4326" if system in DEGREES else str(system)}
        if system is not None and ":" not in system[:5]:
            return {"crs_wkt": system}
        if system is not None or "crs" in self.file.members:
            self.holding.leave_out(words_for(system))
        return {}

    def rows(self) -> Iterator[dict[str, Any]]:
        """The features by their columns alone."""
        for each in self.features:
            given = each.get("properties") or {}
            properties = {name: given.get(name) for name in self.columns}
            ids = {ID: each["id"]} if self.has_ids else {}
            yield {"type": "Feature", "geometry": each["geometry"], "properties": {**ids, **properties}}

    def write(self, path: str) -> None:
        """Writes the layer to a new file, and reads it again: each value that is another one is not held."""
        fiona = library_for(self.form)
        schema = {"geometry": self.kind, "properties": {**({ID: "int64"} if self.has_ids else {}), **self.columns}}
        how = {"layer": self.layer} if self.form is GEOPACKAGE else {"encoding": "utf-8"}
        with fiona.open(path, "w", driver=DRIVERS[self.form], schema=schema, **self.system(), **how) as target:
            target.writerecords(self.rows())
        with fiona.open(path) as source:
            count = 0
            for count, (row, found) in enumerate(zip(self.rows(), source), 1):
                self.compare(count, row["properties"], found)
            if count < len(self.features) or len(source) != len(self.features):
                raise BadInput(f"{self.path}: {len(source)} features were written, and not {len(self.features)}")

    def compare(self, number: int, row: dict[str, Any], found: Any) -> None:
        """That a feature is read as it was to be written."""
        for name in self.columns:
            value, other = row[name], found["properties"][name]
            if value != other and not (value != value and other != other):
                self.holding.leave_out(f"the value {shown(value)} of the property {name!r}", place_of(number))
        if self.has_ids and int(found["id"]) != row[ID]:
            self.holding.leave_out(f"the id {row[ID]}", place_of(number))


def place_of(number: int) -> str:
    """The place of a feature of the answer."""
    return f"feature {number} of the answer"


def check_other_layers(path: str, layer: str, form: Format) -> None:
    """That a GeoPackage that is there has no other layers, which would go."""
    if form is GEOPACKAGE and os.path.exists(path):
        try:
            others = [each for each in library_for(form).listlayers(path) if each != layer]
        except ValueError:
            # (it is none)
            return
        if others:
            raise BadInput(f"{path}: it has other layers, which would go: {', '.join(others)}")


def check_target(given: Any, form: Format) -> None:
    """That an answer can be written at all, before it is asked for."""
    library_for(form)
    path, _ = layer_in(given.out)
    if not is_plain(path):
        raise BadInput(f"{path}: {form.name} goes to a plain file alone")


@contextmanager
def made(table: Table) -> Iterator[list[tuple[Path, str]]]:
    """The files of an answer, in a folder beside their places, and these; the folder goes at the end."""
    form, target = table.form, Path(os.path.realpath(table.path))
    check_other_layers(table.path, table.layer, form)
    with TemporaryDirectory(prefix=f".{target.name[:100]}.", dir=target.parent) as folder:
        with let_in():
            try:
                table.write(os.path.join(folder, target.name))
            except ValueError as fault:
                raise fault if isinstance(fault, BadInput) else BadInput(f"{table.path}: {fault}") from None
        files = sorted(Path(folder).iterdir())
        yield [(each, str(target.with_name(each.name))) for each in files]
        for end in BESIDE if form is SHAPEFILE else ():
            beside = target.with_suffix(end)
            if beside.name not in {each.name for each in files}:
                beside.unlink(missing_ok=True)
    table.holding.told.say()
