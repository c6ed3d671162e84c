"""Made polygons of floats on a grid, and their relations by shapely."""

from math import cos, pi, sin

# (floats are whole numbers over it, so that Scaled(GRID) takes each as it is)
GRID = 1 << 12
SIZES = (3, 12, 50, 1000, 20_000, 1 << 20)


def expected(a, b):
    """The relations of two polygons by GEOS, which tells them exactly."""
    common = a.intersects(b) and not a.relate_pattern(b, "T********") and not a.relate_pattern(b, "****1****")
    return {
        "intersects": a.intersects(b),
        "interiors_intersect": a.relate_pattern(b, "T********"),
        "touches": a.touches(b),
        "point_intersects": common,
        "within": a.within(b),
        "disjoint": a.disjoint(b),
        "covers": a.covers(b),
    }


def made_ring(chance, size):
    """The corners of a triangle, or round a point, on the grid."""
    if chance.random() < 0.4:
        return [(chance.randint(-size, size) / GRID, chance.randint(-size, size) / GRID) for _ in range(3)]
    x, y = (chance.randint(-size, size) for _ in range(2))
    turns = sorted(chance.uniform(0, 2 * pi) for _ in range(chance.randint(4, 12)))
    reach = [chance.uniform(size / 4, size) for _ in turns]
    return [(round(x + r * cos(turn)) / GRID, round(y + r * sin(turn)) / GRID) for turn, r in zip(turns, reach)]


def made_pair(chance, polygon):
    """Two valid polygons of one size; some second ones have a corner of the first, or corners of it alone."""
    size, found = chance.choice(SIZES), []
    while len(found) < 2:
        ring = made_ring(chance, size)
        if found and chance.random() < 0.3:
            (x, y), (u, v) = chance.choice(found[0].exterior.coords), ring[0]
            ring = [(a - u + x, b - v + y) for a, b in ring]
        elif found and chance.random() < 0.2:
            corners = found[0].exterior.coords[:-1]
            ring = [corners[at] for at in sorted(chance.sample(range(len(corners)), chance.randint(3, len(corners))))]
        made = polygon(ring)
        if made.is_valid and made.area:
            found.append(made)
    return found
