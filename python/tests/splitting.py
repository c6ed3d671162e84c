"""Splitting in rounds, as its definition says: it tells how many rounds move a meeting point."""

from fractions import Fraction
from math import floor

MOST = 64


def cross(o, p, q):
    """Positive where q lies to the left of the way from o to p."""
    return (p[0] - o[0]) * (q[1] - o[1]) - (p[1] - o[1]) * (q[0] - o[0])


def thinned(contour):
    """A contour without points that are collinear with their neighbours."""
    points = list(contour)
    at = 0
    while at < len(points):
        if cross(points[at - 1], points[at], points[(at + 1) % len(points)]) == 0:
            del points[at]
            at = 0
        else:
            at += 1
    return points


def edges_of(contours):
    """The edges of some contours, smaller end first, each with how often it is passed, less how often back."""
    edges = {}
    for contour in map(thinned, contours):
        for p, q in zip(contour, contour[1:] + contour[:1]):
            if p != q:
                edge = (min(p, q), max(p, q))
                edges[edge] = edges.get(edge, 0) + (1 if p < q else -1)
    return edges


def merged(edges):
    """Edges of a subject and of a clip, without those that neither passes."""
    return {edge: counts for edge, counts in sorted(edges.items()) if counts != (0, 0)}


def meetings(e, f):
    """The points in which two different edges meet: at most one, or the two ends of what they share."""
    (a, b), (c, d) = e, f
    at_a, at_b, at_c, at_d = cross(c, d, a), cross(c, d, b), cross(a, b, c), cross(a, b, d)
    if at_a == at_b == 0:
        low, high = max(a, c), min(b, d)
        return [] if low > high else [low] if low == high else [low, high]
    if at_a * at_b > 0 or at_c * at_d > 0:
        return []
    t = Fraction(at_a, at_a - at_b)
    return [(a[0] + (b[0] - a[0]) * t, a[1] + (b[1] - a[1]) * t)]


def rounded(point):
    """The whole point nearest a point; a half goes up."""
    return tuple(floor(z + Fraction(1, 2)) for z in point)


def cut(edges, points):
    """The edges, each led through whole points."""
    after = {}
    for edge, counts in edges.items():
        chain = [edge[0], *map(rounded, sorted(points[edge])), edge[1]]
        for p, q in zip(chain, chain[1:]):
            if p != q:
                sign = 1 if p < q else -1
                held = after.get((min(p, q), max(p, q)), (0, 0))
                after[min(p, q), max(p, q)] = (held[0] + sign * counts[0], held[1] + sign * counts[1])
    return after


def moving_rounds(subject, clip):
    """How many rounds move some point, of the edges of two lists of contours; None where these are not settled."""
    ours, theirs = edges_of(subject), edges_of(clip)
    edges = merged({edge: (ours.get(edge, 0), theirs.get(edge, 0)) for edge in {*ours, *theirs}})
    moving = 0
    for _ in range(MOST + 1):
        points = {e: {p for f in edges if f != e for p in meetings(e, f)} for e in edges}
        if all(p in e for e, found in points.items() for p in found):
            return moving
        moving += any(rounded(p) != p for found in points.values() for p in found)
        edges = merged(cut(edges, points))
    return None
