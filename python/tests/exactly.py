"""Relations of two shapes as they are given, by their definition: an arrangement in fractions, in which no point moves;
and where points lie in a shape.

A shape is the closure of the points off its contours that its rule fills. Contours are cut at all their meeting points.
Off the pieces the plane falls into faces, and each face has a side of some piece: so windings at one point beside each
side of each piece tell of all faces.
"""

from fractions import Fraction
from functools import cmp_to_key
from itertools import combinations

FILLED = {
    "evenodd": lambda w: w % 2 == 1,
    "nonzero": lambda w: w != 0,
    "positive": lambda w: w > 0,
    "negative": lambda w: w < 0,
}


def turn(o, p, q):
    """Positive where q lies to the left of the way from o to p."""
    return (p[0] - o[0]) * (q[1] - o[1]) - (p[1] - o[1]) * (q[0] - o[0])


def steps_of(contours):
    """The steps of closed contours between different points."""
    return [(p, q) for each in contours for p, q in zip(each, each[1:] + each[:1]) if p != q]


def point_between(p, q, part):
    """The point that part of the way from p to q."""
    return p[0] + (q[0] - p[0]) * part, p[1] + (q[1] - p[1]) * part


def common_points(e, f):
    """The only common point of two edges, or the ends of what they share."""
    (a, b), (c, d) = e, f
    at_a, at_b = turn(c, d, a), turn(c, d, b)
    if at_a == at_b == 0:
        low, high = max(a, c), min(b, d)
        return {low, high} if low <= high else set()
    if at_a * at_b > 0 or turn(a, b, c) * turn(a, b, d) > 0:
        return set()
    return {point_between(a, b, Fraction(at_a, at_a - at_b))}


def pieces_of(edges):
    """What lies between the meeting points of the edges, smaller end first, each once."""
    points = {edge: {*edge} for edge in edges}
    for e, f in combinations(edges, 2):
        met = common_points(e, f)
        points[e] |= met
        points[f] |= met
    return {piece for found in map(sorted, points.values()) for piece in zip(found, found[1:])}


def clear_part(p, q, edges):
    """Some part of the way from p to q on which no edge across it is met, but for those through p."""
    clear = Fraction(2)
    for a, b in edges:
        at_p, at_q = turn(a, b, p), turn(a, b, q)
        if turn(p, q, a) * turn(p, q, b) <= 0 and at_p != at_q:
            part = Fraction(at_p, at_p - at_q)
            clear = min(clear, part) if part > 0 else clear
    return clear / 2


def points_beside(piece, edges):
    """A point of the face on each side of a piece."""
    p, q = piece
    middle, across = point_between(p, q, Fraction(1, 2)), (p[1] - q[1], q[0] - p[0])
    ways = [(middle[0] + sign * across[0], middle[1] + sign * across[1]) for sign in (1, -1)]
    return [point_between(middle, way, clear_part(middle, way, edges)) for way in ways]


def winding(steps, p):
    """How often steps wind round a point that lies on none: the signs of those that a ray straight down crosses."""
    total = 0
    for q, r in steps:
        (a, b), sign = ((q, r), 1) if q < r else ((r, q), -1)
        total += sign * (a[0] <= p[0] < b[0] and turn(a, b, p) > 0)
    return total


def windings_beside(subject, clip):
    """The pieces of both shapes' contours, each with the windings of the subject and of the clip on its two sides."""
    both = steps_of(subject), steps_of(clip)
    edges = sorted({(min(step), max(step)) for steps in both for step in steps})
    return {
        piece: [tuple(winding(steps, p) for steps in both) for p in points_beside(piece, edges)]
        for piece in pieces_of(edges)
    }


def relations(pieces, fill):
    """The relations that the windings beside pieces tell."""
    filled = FILLED[fill]
    faces, at_pieces, at_points = set(), set(), {}
    for piece, sides in pieces.items():
        told = {(filled(subject), filled(clip)) for subject, clip in sides}
        faces |= told
        closed = tuple(map(any, zip(*told)))
        at_pieces.add(closed)
        for end in piece:
            at_points.setdefault(end, []).append(closed)
    meets_at_a_point = any(all(map(any, zip(*found))) for found in at_points.values())
    meets_along = (True, True) in at_pieces
    interiors = (True, True) in faces
    return {
        "intersects": meets_at_a_point,
        "interiors_intersect": interiors,
        "touches": meets_at_a_point and not interiors,
        "point_intersects": meets_at_a_point and not meets_along,
        "within": interiors and (True, False) not in faces,
        "disjoint": not meets_at_a_point,
        "covers": interiors and (False, True) not in faces,
    }


def angle_order(u, v):
    """Whether a direction comes before another: counterclockwise, from that to the right on."""
    is_low, is_other_low = (y < 0 or (y == 0 and x < 0) for x, y in (u, v))
    return is_low - is_other_low or turn((0, 0), v, u)


def directions_between(steps, p):
    """Directions from p into each of the parts in which steps through p, and lines along the axes, leave a small disc
    round it."""
    ways = [(1, 0), (0, 1), (-1, 0), (0, -1)]
    for q, r in steps:
        if turn(q, r, p) == 0 and min(q, r) <= p <= max(q, r):
            ways += [(end[0] - p[0], end[1] - p[1]) for end in (q, r) if end != p]
    ways.sort(key=cmp_to_key(angle_order))
    for u, v in zip(ways, ways[1:] + ways[:1]):
        if angle_order(u, v):
            yield u[0] + v[0], u[1] + v[1]


def location(contours, fill, p):
    """Where a point lies in a shape: inside where all points near it off the contours are filled, outside where none
    is, and on the boundary where there are both however near."""
    steps, seen = steps_of(contours), set()
    for x, y in directions_between(steps, p):
        way = p[0] + x, p[1] + y
        seen.add(FILLED[fill](winding(steps, point_between(p, way, clear_part(p, way, steps)))))
    return "boundary" if len(seen) == 2 else "inside" if True in seen else "outside"
