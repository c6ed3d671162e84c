"""Features of GeoJSON, and files of them, for tests."""

from __future__ import annotations

import contextlib
import io
import json
import tempfile
from pathlib import Path

from polyover.__main__ import main


def square(left, low, right, high):
    """A ring round a rectangle."""
    return [[left, low], [right, low], [right, high], [left, high], [left, low]]


def feature(kind, coordinates, **properties):
    """A feature of GeoJSON."""
    return {"type": "Feature", "properties": properties, "geometry": {"type": kind, "coordinates": coordinates}}


def collection(*features, **members):
    """A collection of features."""
    return {"type": "FeatureCollection", **members, "features": list(features)}


def ran(command, *things, words=(), raw=None):
    """The status of a command over things in files, what it leaves as JSON, what it says, and the files that are
    there."""
    with tempfile.TemporaryDirectory() as name:
        files = [Path(name, f"{letter}.geojson") for letter in "ab"[: len(things)]]
        for file, thing in zip(files, things):
            file.write_text(raw if thing is None else json.dumps(thing))
        out, said = Path(name, "out.json"), io.StringIO()
        with contextlib.redirect_stderr(said):
            status = main([command, *map(str, files), "--out", str(out), *words])
        left = json.loads(out.read_text()) if out.exists() else None
        there = sorted(each.name for each in Path(name).iterdir())
        return status, left, said.getvalue().replace(f"{name}/", ""), there


def in_folder(test):
    """A folder that is there for one test."""
    folder = tempfile.TemporaryDirectory()
    test.addCleanup(folder.cleanup)
    return Path(folder.name)


def told(*words):
    """The status of a command, and what it says, with the last part of each path alone."""
    said = io.StringIO()
    with contextlib.redirect_stderr(said):
        status = main(list(map(str, words)))
    folders = {str(word.parent) for word in words if isinstance(word, Path)}
    text = said.getvalue()
    for folder in folders:
        text = text.replace(f"{folder}/", "")
    return status, text
