"""The points of what two squares have in common."""

import polyover

left = [(0, 0), (4, 0), (4, 4), (0, 4)]
right = [(2, 2), (6, 2), (6, 6), (2, 6)]
print(polyover.overlay([left], [right], "intersect"))
