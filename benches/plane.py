"""Points, contours and rules of overlays, as whole numbers: what `fuzz.py` holds answers against."""

from itertools import pairwise
from random import Random

LARGEST = 2**62 - 1
FILL_RULES = ("EvenOdd", "NonZero", "Positive", "Negative")
OVERLAY_RULES = ("Subject", "Clip", "Intersect", "Union", "Difference", "InverseDifference", "Xor")
HOLDS = {
    "Subject": lambda s, c: s,
    "Clip": lambda s, c: c,
    "Intersect": lambda s, c: s and c,
    "Union": lambda s, c: s or c,
    "Difference": lambda s, c: s and not c,
    "InverseDifference": lambda s, c: c and not s,
    "Xor": lambda s, c: s != c,
}
FILLED = {
    "EvenOdd": lambda w: w % 2 == 1,
    "NonZero": lambda w: w != 0,
    "Positive": lambda w: w > 0,
    "Negative": lambda w: w < 0,
}


def steps_of(contour):
    """The steps of a closed contour; equal neighbours give none."""
    return [(a, b) for a, b in zip(contour, contour[1:] + contour[:1]) if a != b]


def steps_along(path):
    """The steps of an open path."""
    return [(a, b) for a, b in pairwise(path) if a != b]


def side(a, b, point):
    """Twice the area of the triangle from a to b to a point (x, y, d), scaled: positive on the left."""
    x, y, d = point
    return (b[0] - a[0]) * (y - a[1] * d) - (b[1] - a[1]) * (x - a[0] * d)


def is_below(a, b, point):
    """Whether the edge from its smaller end a to b lies strictly below the point."""
    return a[0] * point[2] <= point[0] < b[0] * point[2] and side(a, b, point) > 0


def is_on(a, b, point):
    """Whether the point lies on the edge."""
    x, y, d = point
    return (
        side(a, b, point) == 0
        and min(a[0], b[0]) * d <= x <= max(a[0], b[0]) * d
        and min(a[1], b[1]) * d <= y <= max(a[1], b[1]) * d
    )


def winding(steps, point):
    """How often the steps wind round the point, counted along the ray down from it."""
    return sum((1 if a < b else -1) for a, b in steps if is_below(min(a, b), max(a, b), point))


def is_off(steps, point):
    """Whether the point lies on none of the steps."""
    return not any(is_on(a, b, point) for a, b in steps)


def area_of(contour):
    """Twice the signed area."""
    return sum(a[0] * b[1] - a[1] * b[0] for a, b in steps_of(contour))


def is_higher(e, f, point):
    """Whether the edge e runs above f at the point's x, or higher just right of it; both span that x."""
    d = point[2]
    heights = []
    for a, b in (e, f):
        width = b[0] - a[0]
        heights.append((a[1] * d * width + (b[1] - a[1]) * (point[0] - a[0] * d), width, b[1] - a[1]))
    (h, w, r), (k, v, s) = heights
    return (h * v, r * v) > (k * w, s * w)


def highest_below(edges, point):
    """The highest of the edges that lie strictly below the point; none where there is none."""
    found = None
    for edge in edges:
        if is_below(edge[0], edge[1], point) and (found is None or is_higher(edge, found, point)):
            found = edge
    return found


def sides_at(fills, point):
    """Whether subject and clip fill the point, by the fill bits of an arrangement's edges."""
    below = highest_below(fills, point)
    bits = fills[below] if below else 0
    return bool(bits & 1), bool(bits & 4)


def meet_wrongly(e, f):
    """Whether two different edges have a common point that is not an end of both."""
    (a, b), (c, d) = e, f
    if {a, b} == {c, d}:
        return True
    for point, other, ends in ((a, f, (c, d)), (b, f, (c, d)), (c, e, (a, b)), (d, e, (a, b))):
        if point not in ends and is_on(*other, (*point, 1)):
            return True
    at = [side(a, b, (*c, 1)), side(a, b, (*d, 1)), side(c, d, (*a, 1)), side(c, d, (*b, 1))]
    return at[0] * at[1] < 0 and at[2] * at[3] < 0


def is_resolved(contour):
    """Whether no two steps at different places share a point that is not an end of both."""
    steps = [(min(it), max(it)) for it in steps_of(contour)]
    return not any(meet_wrongly(e, f) for place, e in enumerate(steps) for f in steps[:place])


def samples(random: Random, steps, count):
    """Points near the ends and the middles of steps, and between them, off all of them."""
    found = []
    for _ in range(3 * count):
        (a, b), (c, d) = random.choice(steps), random.choice(steps)
        how = random.randrange(4)
        if how == 0:
            point = (a[0] + c[0], a[1] + c[1], 2)
        elif how == 1:
            point = (2 * (a[0] + b[0]) + random.randint(-1, 1), 2 * (a[1] + b[1]) + random.randint(-1, 1), 4)
        elif how == 2:
            point = (8 * a[0] + random.randint(-3, 3), 8 * a[1] + random.randint(-3, 3), 8)
        else:
            point = (a[0] + b[0] + d[0], a[1] + b[1] + d[1], 3)
        if is_off(steps, point):
            found.append(point)
    return found[:count]
