"""What must hold of the program's answers to one input: properties that need no second implementation."""

from collections import Counter

from families import grid_lines
from plane import (FILL_RULES, FILLED, HOLDS, LARGEST, OVERLAY_RULES, area_of, is_off, is_on, is_resolved, meet_wrongly,
                   samples, sides_at, steps_along, steps_of, winding)


class Wrong(Exception):
    """A property that an answer does not have."""


def must(holds, what):
    """Stops where a property does not hold."""
    if not holds:
        raise Wrong(what)


# ---- the texts of answers


def path_of(line):
    """The points of a line of numbers."""
    numbers = [int(it) for it in line.split()]
    return list(zip(numbers[::2], numbers[1::2]))


def shapes_of(text):
    """The shapes of an answer, each a list of contours; links are left out."""
    shapes = []
    for line in text.splitlines():
        if line == "shape":
            shapes.append([])
        elif not line.startswith("link"):
            shapes[-1].append(path_of(line))
    return shapes


def fills_of(text):
    """The fills of an arrangement's edges."""
    rows = [[int(it) for it in line.split()[1:]] for line in text.splitlines()]
    return {((ax, ay), (bx, by)): fill for ax, ay, bx, by, fill in rows}


def contours_in(shapes):
    """All contours of all shapes."""
    return [contour for shape in shapes for contour in shape]


def steps_in(contours):
    """The steps of all contours."""
    return [step for contour in contours for step in steps_of(contour)]


def begun_anew(shapes):
    """The same shapes, each contour begun anew where its points come first: dropped points may have moved its start."""
    return [[min(it[at:] + it[:at] for at in range(len(it))) for it in shape] for shape in shapes]


def area_in(shapes):
    """Twice the area of all shapes."""
    return sum(area_of(it) for it in contours_in(shapes))


# ---- the checks


def check_arrangement(text, fills, given, fill_rule, figures, random, halves):
    """Edges in order that meet in ends alone; fills that fit one another and, far from steps, the contours given."""
    edges = list(fills)
    must(edges == sorted(edges) and len(edges) == len(text.splitlines()), "edges are not in order")
    must(all(a < b for a, b in edges), "an edge does not begin at its smaller end")
    if len(edges) <= 80:
        must(not any(meet_wrongly(e, f) for i, e in enumerate(edges) for f in edges[:i]), "edges meet in no end")
    for a, b in random.sample(edges, min(len(edges), 40)):
        subject, clip = sides_at(fills, (a[0] + b[0], a[1] + b[1], 2))
        must((bool(fills[a, b] & 2), bool(fills[a, b] & 8)) == (subject, clip), f"the fill below {a} {b}")
    subject, clip = given
    for point in samples(random, subject + clip, 12) if subject + clip else []:
        if figures.is_exact or is_far(subject + clip, point, halves):
            wanted = tuple(FILLED[fill_rule](winding(it, point)) for it in given)
            must(sides_at(fills, point) == wanted, f"the sides at {point}")


def is_far(steps, point, reach):
    """Whether the point is further away than the reach from each step's line, or from its box."""
    x, y, d = point
    for (ax, ay), (bx, by) in steps:
        beside = max(min(ax, bx) * d - x, x - max(ax, bx) * d, min(ay, by) * d - y, y - max(ay, by) * d)
        if beside > reach * d:
            continue
        cross = (bx - ax) * (y - ay * d) - (by - ay) * (x - ax * d)
        if cross * cross <= (reach * d) ** 2 * ((bx - ax) ** 2 + (by - ay) ** 2):
            return False
    return True


def check_area(area, fine, scale, steps, halves):
    """An area, doubled, is near that of the same contours on a grid that is `scale` times as fine, by snap rounding.

    A chain stays within `halves` half units of its edge, in x and in y. Off these strips no winding changes."""

    def strips(side, times):
        """The area of all points within `side` of a step in x and in y, on a grid that is `times` as fine."""
        return sum(side * times * (abs(bx - ax) + abs(by - ay)) + side * side for (ax, ay), (bx, by) in steps)

    most = 2 * (strips(halves, 1) * scale**2 + strips(1, scale))
    must(abs(area * scale**2 - fine) <= most, f"the area {area} / 2, and not {fine / scale**2} / 2")


def check_shapes(shapes, fills, rule, sign, random):
    """Contours that wind once where the rules hold, and those of each shape by itself never twice."""
    steps = steps_in(contours_in(shapes))
    if not fills:
        must(not shapes, "shapes of no edges")
        return
    alone = [steps_in(shape) for shape in shapes]
    for point in samples(random, list(fills), 20):
        wanted = sign if HOLDS[rule](*sides_at(fills, point)) else 0
        must(winding(steps, point) == wanted, f"the winding at {point}")
        must(all(winding(it, point) in (0, sign) for it in alone), f"a shape's winding at {point}")


def check_simple(shapes):
    """No contour visits a point twice."""
    must(all(len(set(it)) == len(it) for it in contours_in(shapes)), "a contour visits a point twice")


def check_in_cells(shapes, width, height):
    """The points of each contour lie in one cell of the grid, with its border."""
    for contour in contours_in(shapes):
        for numbers, side in zip(zip(*contour), (width, height)):
            must(max(numbers) <= (min(numbers) // side + 1) * side, "a contour that leaves its cell")


def check_links(text, shapes):
    """Each shape is in a hole of another at most once, and then inside that hole."""
    links = [[int(it) for it in line.split()[1:]] for line in text.splitlines() if line.startswith("link")]
    owners = [(number, place) for number, shape in enumerate(shapes) for place in range(len(shape))]
    contours = contours_in(shapes)
    must(links == sorted(links), "links are not in order")
    must(len({child for _, _, child in links}) == len(links), "a shape in two holes")
    parents = {child: (parent, contour) for parent, contour, child in links}
    for number, shape in enumerate(shapes):
        (ax, ay), (bx, by) = steps_of(shape[0])[0]
        point = (ax + bx, ay + by, 2)
        if not is_off(steps_in(it for at, it in enumerate(contours) if owners[at][0] != number), point):
            continue
        holes = [at for at, (owner, place) in enumerate(owners) if place and owner != number]
        round_it = [at for at in holes if winding(steps_of(contours[at]), point)]
        must((number in parents) == bool(round_it), f"whether shape {number} lies in a hole")
        if round_it:
            inner = min(round_it, key=lambda at: abs(area_of(contours[at])))
            must(parents[number] == (owners[inner][0], inner), f"the hole round shape {number}")


def check_relations(told, swapped, areas, fills):
    """The relations are those of the edges' fills and of the overlays' areas."""
    both = any(fill & 3 and fill & 12 for fill in fills.values())
    ends = {}
    for (a, b), fill in fills.items():
        alone = [(1 if fill & 3 else 0) | (2 if fill & 12 else 0)] if fill in (1, 2, 4, 8) else []
        for end in (a, b):
            for bits in alone:
                ends[end] = ends.get(end, 0) | bits
    shared = 3 in ends.values()
    wanted = {
        "intersects": both or shared,
        "interiors_intersect": areas["Intersect"] > 0,
        "touches": (both or shared) and areas["Intersect"] == 0,
        "point_intersects": not both and shared,
        "within": areas["Subject"] > 0 and areas["Difference"] == 0,
        "disjoint": not (both or shared),
        "covers": swapped["within"],
    }
    must(told == wanted, f"relations {told} and not {wanted}")


def check_pieces(inside, outside):
    """Clips inside and outside with the boundary and without have the same pieces on it, each once."""
    counts = [Counter(step for path in it for step in steps_along(path)) for pair in (inside, outside) for it in pair]
    must(all(number == 1 for count in counts for number in count.values()), "a piece twice")
    sets = [set(it) for it in counts]
    must(sets[0] <= sets[1] and sets[2] <= sets[3], "a piece is lost where the boundary is asked for")
    must(sets[1] - sets[0] == sets[3] - sets[2], "the pieces on the boundary")
    must(not sets[0] & sets[2], "a piece inside and outside")


def locations_in(contours, points):
    """Where points lie, by the steps of contours."""
    found = []
    for x, y in points:
        steps = [steps_of(it) for it in contours]
        if any(is_on(a, b, (x, y, 1)) for it in steps for a, b in it):
            found.append("boundary")
        else:
            found.append("inside" if sum(winding(it, (x, y, 1)) for it in steps) % 2 else "outside")
    return found


def first_unresolved(figures):
    """The line of the first subject that is not resolved; none where all are."""
    return next((place for place, it in enumerate(figures.subject, 1) if not is_resolved(it)), None)


# ---- the grammar


def is_number(word):
    """Whether the word is a number."""
    digits = word[1:] if word.startswith("-") else word
    return bool(digits) and all(it in "0123456789" for it in digits)


def is_good_query(words):
    """Whether the words after `run` are a command with its arguments."""
    name, rest = words[0], words[1:]
    if name in ("contains", "locate"):
        return not rest
    if name in ("edges", "relate", "slice"):
        return len(rest) == 1 and rest[0] in FILL_RULES
    if name == "tiles":
        return len(rest) == 3 and rest[0] in FILL_RULES and all(is_number(it) for it in rest[1:])
    if name == "clip":
        parts = set(rest[1:])
        return bool(rest) and rest[0] in FILL_RULES and len(parts) == len(rest) - 1 and parts <= {"invert", "boundary"}
    if name not in ("overlay", "hierarchy") or len(rest) < 2:
        return False
    return rest[0] in OVERLAY_RULES and rest[1] in FILL_RULES and are_good_options(rest[2:])


def are_good_options(rest):
    """Whether the words are options of an overlay, each at most once."""
    seen, place = set(), 0
    while place < len(rest):
        word = rest[place]
        if word in seen or word not in ("ogc", "clockwise", "keep", "min"):
            return False
        seen.add(word)
        place += 1
        if word == "min":
            if place == len(rest) or not is_number(rest[place]) or not 0 <= int(rest[place]) < 2**127:
                return False
            place += 1
    return True


def is_good_line(words):
    """Whether the words, at least one, are a line of the grammar."""
    name, rest = words[0], words[1:]
    if name == "run":
        return bool(rest) and is_good_query(rest)
    good = all(is_number(it) and -LARGEST <= int(it) <= LARGEST for it in rest)
    if name == "point":
        return good and len(rest) == 2
    return name in ("subject", "clip", "line") and good and len(rest) % 2 == 0


def lines_of_words(data):
    """The words of each line of the input."""
    lines = data.split(b"\n")
    if not lines[-1]:
        lines.pop()
    for number, line in enumerate(lines, 1):
        is_last = number == len(lines) and not data.endswith(b"\n")
        text = line[:-1] if line.endswith(b"\r") and not is_last else line
        yield [it for it in text.split(b" ") if it]


def first_bad_line(data):
    """The first line of the input that is bad by the grammar; none where all are good."""
    has_run, number = False, 0
    for number, words in enumerate(lines_of_words(data), 1):
        if not words:
            continue
        try:
            if has_run or not is_good_line([it.decode() for it in words]):
                return number
        except UnicodeDecodeError:
            return number
        has_run = words[0] == b"run"
    return None if has_run else number + 1


def line_of_misfit(data):
    """The line of the command, all lines being good, where it is one for tiles of a grid that does not fit."""
    rows = list(enumerate(lines_of_words(data), 1))
    subject = [path_of(b" ".join(words[1:])) for _, words in rows if words and words[0] == b"subject"]
    number, words = next(it for it in rows if it[1] and it[1][0] == b"run")
    if words[1] != b"tiles" or grid_lines(subject, *(int(it) for it in words[3:])) is not None:
        return None
    return number
