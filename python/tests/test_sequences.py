"""Sequences of GeoJSON: they are read and written line by line, and their faults name the line."""

import io
import json
import signal
import subprocess
import sys
import unittest
from unittest import mock

from polyover.sequences import texts_in, values_in

from .features import collection, feature, in_folder, square, told
from .test_streams import begun, environment

AREA = collection(feature("Polygon", [square(0, 0, 4, 4)]))
ROADS = [
    {**feature("LineString", [[-1, 1], [5, 1]], name="é", lanes=2), "id": "r1", "more": [1]},
    feature("LineString", [[9, 9], [8, 8]], name="out"),
    {"type": "Feature", "properties": None, "geometry": None},
    feature("LineString", [[2, 2], [2, 9]], name=None),
]
# the parts inside, by hand
INSIDE = [[[[0, 1], [4, 1]]], None, [[[2, 2], [2, 4]]]]


def lines(things):
    """Things in lines of JSON."""
    return "".join(f"{json.dumps(each, ensure_ascii=False)}\n" for each in things)


def parted(text):
    """The texts in the lines of a text."""
    return list(texts_in(enumerate(io.StringIO(text), 1)))


class Texts(unittest.TestCase):
    """The texts of a sequence, each with its line."""

    def test_lines(self):
        self.assertEqual(parted("1\n\n  \n2\r\n3"), [(1, "1\n"), (4, "2\r\n"), (5, "3")])

    def test_record_separators(self):
        self.assertEqual(parted("\x1e1\n\x1e\n\x1e[2,\n3]\n\x1e4\x1e5"),
                         [(1, "1\n"), (3, "[2,\n3]\n"), (5, "4"), (5, "5")])
        self.assertEqual([value for _, value in values_in(enumerate(["\x1e{\n", '"a": 1}\n'], 1))], [{"a": 1}])

    def test_nothing(self):
        self.assertEqual(parted(""), [])


class Files(unittest.TestCase):
    """Sequences as files of a command."""

    def setUp(self):
        self.folder = in_folder(self)
        self.area = self.folder / "area.geojson"
        self.area.write_text(json.dumps(AREA))
        self.roads, self.out = self.folder / "roads.geojsonl", self.folder / "out.geojsonl"
        self.roads.write_text(lines(ROADS))

    def clipped(self, *words, roads=None, out=None):
        """The status of a clip, and what it says."""
        return told("clip", self.area, roads or self.roads, "--out", out or self.out, *words)

    def left(self):
        """What the sequence of the answer has."""
        return [json.loads(line.removeprefix("\x1e")) for line in self.out.read_text().split("\n")[:-1]]

    def test_each_way_of_reading(self):
        with_separators = "".join(f"\x1e{json.dumps(each, indent=1)}\n" for each in ROADS)
        for text in (lines(ROADS), "\ufeff" + lines(ROADS).replace("\n", "\r\n\n"), with_separators):
            self.roads.write_text(text)
            self.assertEqual(self.clipped(), (0, ""))
            coordinates = [each["geometry"] and each["geometry"]["coordinates"] for each in self.left()]
            self.assertEqual(coordinates, INSIDE)
        first, null, _ = self.left()
        self.assertEqual({name: first[name] for name in ("id", "more", "properties")},
                         {"id": "r1", "more": [1], "properties": {"name": "é", "lanes": 2}})
        self.assertEqual(null, ROADS[2])

    def test_each_way_of_writing(self):
        collected = self.folder / "out.geojson"
        self.assertEqual(self.clipped(out=collected), (0, ""))
        self.assertEqual(self.clipped(), (0, ""))
        self.assertEqual(self.left(), json.loads(collected.read_text())["features"])
        self.out = self.folder / "out.geojsons"
        self.assertEqual(self.clipped(), (0, ""))
        self.assertEqual([line[0] for line in self.out.read_text().split("\n")[:-1]], ["\x1e"] * 3)
        self.assertEqual(self.left(), json.loads(collected.read_text())["features"])

    def test_with_a_picture(self):
        picture = self.folder / "out.svg"
        self.assertEqual(self.clipped("--svg", picture), (0, ""))
        self.assertEqual((len(self.left()), picture.read_text()[:4]), (3, "<svg"))

    def test_each_command(self):
        areas, one, fence = (self.folder / each for each in ("areas.geojsonl", "one.geojsons", "fence.geojsonl"))
        fence.write_text(lines(ROADS[:1]))
        areas.write_text(lines([feature("Polygon", [square(x, 0, x + 2, 2)], at=x) for x in (0, 4)]))
        one.write_text("\x1e" + json.dumps(feature("Point", [1, 1])))
        for words, found in (
            (("tiles", areas, 1, 1), [0] * 4 + [4] * 4),
            (("simplify", areas), [0, 4]),
            (("slice", areas, fence), [0, 0, 4]),
            (("overlay", areas, self.area, "--rule", "intersect", "--keep"), [0]),
            (("overlay", areas, self.area, "--rule", "difference", "--keep"), [4]),
        ):
            self.assertEqual(told(*words, "--out", self.out), (0, ""), words)
            self.assertEqual([each["properties"]["at"] for each in self.left()], found, words)
        self.assertEqual(told("locate", areas, one, "--out", self.out), (0, ""))
        self.assertEqual(self.left()[0]["properties"], {"location": "inside"})
        self.assertEqual(told("overlay", areas, areas, "--out", self.out), (0, ""))
        self.assertEqual([each["properties"] for each in self.left()], [{"rule": "union"}])

    def test_faults_name_file_and_line(self):
        good = lines(ROADS[:1])
        self.out.write_text("before")
        for text, fault in (
            (good + "\n{\n", "line 3: Expecting property name"),
            (good + "[1, \n\n", "line 2: Expecting value"),
            (good + '{"type": "Feature", "a": 1, "a": 2}', "line 2: the member 'a' comes twice in one object"),
            (good + "5\n", "line 2: 5 is no feature"),
            (good + lines([AREA]), "line 2: 'FeatureCollection' in the place of LineString"),
            ("\n" + lines([feature("LineString", [[0, 0], [1, None]])]), "line 2, line 1, point 2: [1, None] is no"),
            ("\n" + lines([feature("LineString", [[0, 0]])]), "line 2, line 1: 1 points: a line takes"),
            ("\x1e{\n\x1e1\n", "line 1: Expecting property name"),
            (f"\x1e{json.dumps(ROADS[0])}\n\x1e{{\n'a'}}\n", "line 3: Expecting property name"),
            (good + lines([feature("LineString", [[0, 0], [1e300, 0]])]), "line 2, line 1, point 2: (1"),
            (good + "[" * 100_000, "line 2: too many lists"),
            (lines([feature("Point", [0, 0])] * 2), "line 1: Point in the place of LineString"),
        ):
            self.roads.write_text(text)
            status, said = self.clipped()
            self.assertEqual(status, 1, text[:99])
            self.assertIn(f"polyover: roads.geojsonl: {fault}", said)
            self.assertEqual(self.out.read_text(), "before")
        self.roads.write_bytes(good.encode() + b"\xff\n")
        self.assertIn("roads.geojsonl: line 2: 'utf-8' codec can't decode", self.clipped()[1])
        self.assertEqual(sorted(each.name for each in self.folder.iterdir()),
                         ["area.geojson", "out.geojsonl", "roads.geojsonl"])

    def test_what_is_left_out_is_told_once(self):
        self.roads.write_text(lines([feature("LineString", [[0, 0]]), *ROADS, feature("LineString", [[0, 0], [0, 0]])]))
        told_of_both = ("polyover: roads.geojsonl: 1 ring or line with too few points is skipped (the first: line 1,"
                        " line 1)\npolyover: roads.geojsonl: 1 line collapses to a point, and is left out (the first: "
                        "line 6, line 1)\n")
        self.assertEqual(self.clipped("--skip-invalid"), (0, told_of_both))

    def test_what_is_not_held(self):
        crs = {"type": "name", "properties": {"name": "urn:ogc:def:crs:EPSG::3857"}}
        roads = self.folder / "roads.geojson"
        for members, what in (({"name": "roads"}, "the member 'name'"), ({"bbox": [0, 0, 1, 1]}, "the member 'bbox'"),
                              ({"crs": crs}, "the system of coordinates EPSG:3857"),
                              ({"crs": None}, "the system of coordinates that the member crs states")):
            roads.write_text(json.dumps(collection(*ROADS, **members)))
            said = (f"polyover: {self.out.name}: GeoJSONSeq does not hold {what} (the collection); --drop leaves it"
                    " out, with a warning\n")
            self.assertEqual(self.clipped(roads=roads), (1, said))
            self.assertFalse(self.out.exists())
        status, said = self.clipped("--drop", roads=roads)
        self.assertEqual((status, len(self.left())), (0, 3))
        self.assertIn("out.geojsonl: the system of coordinates that the member crs states: left out once", said)
        crs["properties"]["name"] = "urn:ogc:def:crs:OGC:1.3:CRS84"
        roads.write_text(json.dumps(collection(*ROADS, crs=crs)))
        self.assertEqual(self.clipped(roads=roads), (0, ""))

    def test_a_system_that_features_state(self):
        names = "EPSG:3857", "EPSG:4326", "EPSG:32633"
        metres, degrees, other = ({"type": "name", "properties": {"name": name}} for name in names)
        stated = [{**each, "crs": metres} for each in ROADS]
        answer = self.folder / "out.geojson"
        self.area.write_text(json.dumps({**AREA, "crs": metres}))
        for things in (stated, [stated[0], *ROADS[1:]]):
            self.roads.write_text(lines(things))
            self.assertEqual(self.clipped(out=answer), (0, ""))
            left = json.loads(answer.read_text())
            self.assertEqual((left["crs"], ["crs" in each for each in left["features"]]), (metres, [False] * 3))
        self.area.write_text(json.dumps({**AREA, "crs": other}))
        self.assertIn("roads.geojsonl state different systems", self.clipped(out=answer)[1])
        for things, line in (([*stated[:2], {**ROADS[2], "crs": other}], 3), ([ROADS[0], stated[1]], 2)):
            self.roads.write_text(lines(things))
            said = f"polyover: roads.geojsonl: line {line}: its member crs is another than that before it"
            self.assertIn(said, self.clipped(out=answer)[1])
        # (longitudes and latitudes, as where nothing is stated)
        self.roads.write_text(lines([ROADS[0], {**ROADS[3], "crs": degrees}]))
        self.area.write_text(json.dumps(AREA))
        self.assertEqual(self.clipped(), (0, ""))
        self.assertEqual(["crs" in each for each in self.left()], [False, False])

    def test_a_disk_that_is_full(self):
        self.out.write_text("before")
        with mock.patch("polyover.leaving.TemporaryFile", side_effect=OSError(28, "No space left on device")):
            self.assertEqual(self.clipped(), (1, "polyover: out.geojsonl: No space left on device\n"))
        self.assertEqual(self.out.read_text(), "before")


class Streamed(unittest.TestCase):
    """Lines that come while a command runs."""

    def setUp(self):
        self.folder = in_folder(self)
        self.area = self.folder / "area.geojson"
        self.area.write_text(json.dumps(AREA))

    def begun(self, *words):
        """A clip that reads standard input."""
        how = {"stdin": subprocess.PIPE, "stdout": subprocess.PIPE}
        return begun(["clip", self.area, "-", "--format", "geojsonl", *words], **how)

    def test_each_is_answered_as_it_comes(self):
        command = self.begun()
        for at in (1, 2, 3):
            command.stdin.write(lines([feature("LineString", [[-1, at], [9, at]], at=at)]).encode())
            command.stdin.flush()
            answer = json.loads(command.stdout.readline())
            self.assertEqual((answer["properties"], answer["geometry"]["coordinates"]),
                             ({"at": at}, [[[0, at], [4, at]]]))
        written, said = command.communicate()
        self.assertEqual((command.returncode, written, said), (0, b"", b""))

    def test_interrupted(self):
        out = self.folder / "out.geojsonl"
        out.write_text("before")
        command = self.begun("--out", out)
        command.stdin.write(lines(ROADS).encode())
        command.stdin.flush()
        # (the file without a name is there once a feature was answered)
        while "deleted" not in subprocess.run(["ls", "-l", f"/proc/{command.pid}/fd"], capture_output=True, text=True,
                                              check=False).stdout and command.poll() is None:
            pass
        command.send_signal(signal.SIGINT)
        self.assertEqual((command.wait(), command.stderr.read()), (-signal.SIGINT, b""))
        for stream in (command.stdin, command.stdout, command.stderr):
            stream.close()
        self.assertEqual((out.read_text(), sorted(each.name for each in self.folder.iterdir())),
                         ("before", ["area.geojson", "out.geojsonl"]))

    def test_a_pipe_that_is_closed(self):
        many = lines([feature("LineString", [[-1, 1], [9, 1]])] * 4000)
        (self.folder / "roads.geojsonl").write_text(many)
        words = ["clip", self.area, self.folder / "roads.geojsonl", "--format", "geojsonl", "--quiet"]
        command = begun(words, stdout=subprocess.PIPE)
        command.stdout.readline()
        command.stdout.close()
        said = command.stderr.read()
        command.stderr.close()
        self.assertEqual((command.wait(), said), (1, b"polyover: standard output: Broken pipe\n"))

    def test_peak_of_memory(self):
        """A sequence takes no more memory where it is many times as long."""
        script = (
            "import sys; from polyover.__main__ import main; status = main(sys.argv[1:]);"
            " print(status, *(line.split()[1] for line in open('/proc/self/status') if line.startswith('VmHWM')))"
        )
        ring, peaks = [[at / 100, at % 2 / 9] for at in range(200)] + [[0, 4]], []
        for count in (100, 2000):
            areas = self.folder / "areas.geojsonl"
            areas.write_text(lines([feature("Polygon", [ring])]) * count)
            words = [sys.executable, "-c", script, "simplify", areas, "--out", self.folder / "out.geojsonl", "--quiet"]
            done = subprocess.run(list(map(str, words)), capture_output=True, text=True, check=True,
                                  env=environment(""))
            status, peak = done.stdout.split()
            self.assertEqual(status, "0", done.stderr)
            peaks.append(int(peak))
        # (2,000 features of 201 points take tens of MB where all are kept)
        self.assertLess(peaks[1] - peaks[0], 4000, peaks)


if __name__ == "__main__":
    unittest.main()
