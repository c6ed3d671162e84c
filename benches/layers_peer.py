#!/usr/bin/env python3
"""A task of layers.py by shapely 1.8, from files of GeoJSON to a file of GeoJSON, or a comparison of two answers."""

import json
import sys
from pathlib import Path

from shapely.geometry import mapping, shape
from shapely.ops import polygonize, unary_union
from shapely.prepared import prep
from shapely.strtree import STRtree


def features_in(file):
    """The features of a file."""
    return json.loads(Path(file).read_text())["features"]


def feature(geometry, properties):
    """A feature of GeoJSON."""
    return {"type": "Feature", "properties": properties, "geometry": mapping(geometry)}


class Layer:
    """Geometries with their properties, in a tree of boxes, and prepared as they are asked for."""

    def __init__(self, file):
        features = features_in(file)
        self.geometries = [valid(shape(each["geometry"])) for each in features]
        self.properties = [each["properties"] for each in features]
        self.numbers = {id(each): number for number, each in enumerate(self.geometries)}
        self.tree, self.prepared = STRtree(self.geometries), {}

    def near(self, geometry):
        """The numbers of the geometries whose boxes meet that of a geometry."""
        return sorted(self.numbers[id(each)] for each in self.tree.query(geometry))

    def ready(self, number):
        """A geometry, prepared."""
        if number not in self.prepared:
            self.prepared[number] = prep(self.geometries[number])
        return self.prepared[number]

    def parts(self, geometry):
        """The parts of a geometry in those of the layer, each with the number of that."""
        for number in self.near(geometry):
            ready = self.ready(number)
            if ready.contains(geometry):
                yield number, geometry
            elif ready.intersects(geometry):
                yield number, geometry.intersection(self.geometries[number])


def valid(geometry):
    """A geometry, made valid where it is not."""
    return geometry if geometry.is_valid else geometry.buffer(0)


def of_dimension(parts, dimension):
    """The parts, of parts of collections too, that have a dimension."""
    singles = [single for part in parts for single in getattr(part, "geoms", [part])]
    wanted = {1: ("LineString", "LinearRing"), 2: ("Polygon",)}[dimension]
    return [single for single in singles if single.geom_type in wanted and not single.is_empty]


def kept(first, second, dimension):
    """For each feature of the first layer one of its parts in the second."""
    answers = []
    for geometry, properties in zip(first.geometries, first.properties):
        parts = of_dimension([part for _, part in second.parts(geometry)], dimension)
        if parts:
            answers.append(feature(unary_union(parts) if len(parts) > 1 else parts[0], properties))
    return answers


def clip(land, rivers):
    """The parts of rivers in the land."""
    return kept(Layer(rivers), Layer(land), 1)


def overlay(lakes, land):
    """The parts of lakes in the land."""
    return kept(Layer(lakes), Layer(land), 2)


def both(lakes, land):
    """The pieces of lakes and land."""
    first, second, answers = Layer(lakes), Layer(land), []
    for geometry, properties in zip(first.geometries, first.properties):
        for number, part in second.parts(geometry):
            parts = of_dimension([part], 2)
            if parts:
                answers.append(feature(unary_union(parts), {**properties, **second.properties[number]}))
    return answers


def locate(land, mouths):
    """Where points lie."""
    first, second, answers = Layer(land), Layer(mouths), []
    for point, properties in zip(second.geometries, second.properties):
        word = "outside"
        for number in first.near(point):
            if first.ready(number).contains(point):
                word = "inside"
            elif word == "outside" and first.ready(number).intersects(point):
                word = "boundary"
        answers.append(feature(point, {**properties, "location": word}))
    return answers


def relate(land, lakes):
    """Relations of what two layers cover."""
    one, other = (unary_union(Layer(file).geometries) for file in (land, lakes))
    matrix = one.relate(other)
    found = {"intersects": matrix[:2] + matrix[3:5] != "FFFF", "interiors_intersect": matrix[0] != "F"}
    found["touches"] = found["intersects"] and not found["interiors_intersect"]
    found["within"] = matrix[0] != "F" and matrix[2] == "F"
    found["covers"] = matrix[0] != "F" and matrix[6] == "F"
    return {**found, "disjoint": not found["intersects"]}


def slices(land, rivers):
    """The pieces into which rivers cut the land."""
    first, second, answers = Layer(land), Layer(rivers), []
    for number, (geometry, properties) in enumerate(zip(first.geometries, first.properties)):
        lines = [second.geometries[at] for at in second.near(geometry)]
        lines = [line for line in lines if first.ready(number).intersects(line)]
        pieces = [geometry]
        if lines:
            nodes = unary_union([geometry.boundary, *lines])
            pieces = [each for each in polygonize(nodes) if geometry.contains(each.representative_point())]
        answers += [feature(each, properties) for each in pieces]
    return answers


def measure(answer):
    """How large an answer is: its features, and their areas, or lengths."""
    shapes = [shape(each["geometry"]) for each in answer]
    kind = "area" if any(each.area for each in shapes) else "length"
    return len(shapes), kind, sum(getattr(each, kind) for each in shapes)


def compare(ours, theirs):
    """In words how two answers differ."""
    one, other = (json.loads(Path(file).read_text()) for file in (ours, theirs))
    if "features" not in one:
        return "equal" if all(one[name] == told for name, told in other.items()) else f"{one} and {other}"
    one, other = one["features"], other["features"]
    if one and "location" in one[0]["properties"]:
        off = sum(a["properties"] != b["properties"] for a, b in zip(one, other)) + abs(len(one) - len(other))
        return f"{len(one)} points, {off} otherwise"
    (count, kind, size), (number, _, wanted) = measure(one), measure(other)
    counts = f"{count} features" if count == number else f"{count} and {number} features"
    return f"{counts}, {kind} {size:.4f}, less {wanted:.4f}: {size - wanted:.1e}"


def main():
    """Runs a task."""
    task, one, other, *target = sys.argv[1:]
    if task == "compare":
        print(compare(one, other))
        return
    answer = {"slice": slices}.get(task) or globals()[task]
    found = answer(one, other)
    whole = found if isinstance(found, dict) else {"type": "FeatureCollection", "features": found}
    Path(target[0]).write_text(json.dumps(whole))


if __name__ == "__main__":
    main()
