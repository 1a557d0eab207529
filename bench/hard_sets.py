#!/usr/bin/env python3
"""Writes the point sets of the table "Enumeration" of bench/TABLES.md, one file each, into a folder.

They are hard for an enumeration of edges and triangles: many points on one line, far apart or round one another,
coordinates of very different sizes, and sets that are too dense. It is no part of the gate.
Usage: bench/hard_sets.py FOLDER
"""
import math
import random
import sys

N = 10_000
HALF = 900_000_000
draw = random.Random(7)


def uniform(count, size=1_000_000):
    return [(draw.randrange(size), draw.randrange(size)) for _ in range(count)]


def disc(x, y, radius, count):
    points = []
    while len(points) < count:
        u, v = draw.uniform(-radius, radius), draw.uniform(-radius, radius)
        if u * u + v * v <= radius * radius:
            points.append((x + u, y + v))
    return points


def clusters(count, each, side=10_000):
    corners = [(draw.randrange(10**9), draw.randrange(10**9)) for _ in range(count)]
    return [(x + draw.randrange(side), y + draw.randrange(side)) for x, y in corners for _ in range(each)]


def around(radius, angle):
    return radius * math.cos(angle), radius * math.sin(angle)


def arch(k):
    x, y = around((1_000 + k % 50 * 10) * 10_000, math.pi * k / N)
    return x * (1 + 0.3 * k / N), y * (1 + 0.3 * k / N)


def any_size():
    return (10**9) ** draw.random() * draw.choice((-1, 1))


def turn(k):
    return 2 * math.pi * k / N


# A column on the left, a bowed chain, a straight row above it and two points far away on the right: windows have all of
# the chain, and each of its points sees all others past those between, but few are neighbours.
def chain(length, column):
    step, rise = 1_990_000_000 // length, length * length // 1_000 + 2_000
    x = [step * i - 999_000_000 for i in range(length)]
    far = [(10**9, -2_000_005), (10**9, length * length + rise + 10**8)]
    return [(-(10**9), -k) for k in range(column)] + [(x[i], i * i) for i in range(length)] + [(x[i], length * i + rise) for i in range(length)] + far


# A bowed chain that stands upright at x, bulging to the right or to the left, and a straight row of as many points behind
# it, so that few of them are neighbours. From far away on the other side of the row all of the chain is seen.
def screen(count, x, bulge, behind):
    step, middle = 1_800_000_000 // count, count // 2
    sag = [(i - middle) * (i - middle + 1) // 2 for i in range(count)]
    y = [step * (i - middle) for i in range(count)]
    back = x + behind * (max(sag) + 1_000)
    return [(x - bulge * sag[i], y[i]) for i in range(count)] + [(back, y[i]) for i in range(count)]


def column(count, x, step):
    return [(x, step * i) for i in range(count)]


SETS = {
    "random_5000": lambda: uniform(5_000),
    "random_10000": lambda: uniform(N),
    "grid": lambda: [(i, j) for i in range(100) for j in range(100)],
    "skew": lambda: [(1_000 * i + 7 * j, 1_000 * j + 13 * i) for i in range(100) for j in range(100)],
    "spiral": lambda: [around(100_000 * math.sqrt(k), k * 2.399963) for k in range(N)],
    "normal": lambda: [(draw.gauss(0, 1e6), draw.gauss(0, 1e6)) for _ in range(N)],
    "normal_wide": lambda: [(draw.gauss(0, 1e8), draw.gauss(0, 1e2)) for _ in range(N)],
    "two_clusters": lambda: [(draw.randrange(10**5) + c * HALF, draw.randrange(10**5)) for c in (0, 1) for _ in range(4_900)],
    "two_discs": lambda: disc(0, 0, 1e6, 5_000) + disc(3e6, 0, 1e6, 5_000),
    "logarithmic": lambda: [(any_size(), any_size()) for _ in range(N)],
    "clusters_10": lambda: clusters(10, 1_000),
    "clusters_100": lambda: clusters(100, 100),
    "arch": lambda: [arch(k) for k in range(N)],
    "row_and_two": lambda: [(i, 0) for i in range(9_998)] + [(5_000, 10**6), (2_000, -(10**6))],
    "row_and_three": lambda: [(i, 0) for i in range(9_997)] + [(10**9, 10**9), (-(10**9), 10**9), (5_000, -(10**9))],
    "row_and_39": lambda: [(i, 0) for i in range(9_900)] + [(draw.randrange(9_900), 10**6 + draw.randrange(10**5)) for _ in range(39)],
    "nearly_a_row": lambda: [(i * 100_000 - 5 * 10**8, draw.randrange(3) - 1) for i in range(N)],
    "nearly_a_diagonal": lambda: [(i * 1_000, i * 1_000 + draw.randrange(-3, 4)) for i in range(N)],
    "parabola": lambda: [(i - 5_000, (i - 5_000) ** 2) for i in range(N)],
    "fan": lambda: [(0, 0)] + [(10**8 + i, (i - 5_000) * 20_000) for i in range(N - 1)],
    "circle": lambda: [around(HALF, turn(k)) for k in range(N)],
    "axes": lambda: [p for i in range(1, 2_501) for p in ((i, 0), (-i, 0), (0, i), (0, -i))],
    "ring": lambda: [around(HALF + draw.uniform(-1e3, 1e3), turn(draw.uniform(0, N))) for _ in range(N)],
    **{f"chain_{n}_{k}": lambda n=n, k=k: chain(n, k) for n in (500, 1_000, 2_000, 4_900) for k in (1, 5, 60)},
    "corner_of_4900": lambda: column(1, -(10**9), 0) + screen(4_900, 9 * 10**8, 1, 1),
    "corners_39_of_4900": lambda: column(39, -(10**9), 1_000) + screen(4_900, 9 * 10**8, 1, 1),
    "corners_39_bulged": lambda: column(39, -(10**9), 1_000) + screen(4_900, 9 * 10**8, -1, 1),
    "4900_see_2": lambda: screen(4_900, -9 * 10**8, 1, -1) + column(2, 10**9, 10**8),
    "4900_see_40": lambda: screen(4_900, -9 * 10**8, 1, -1) + column(40, 10**9, 10**6),
    "4900_see_40_bulged": lambda: screen(4_900, -9 * 10**8, -1, -1) + column(40, 10**9, 10**6),
    "1800_see_200": lambda: screen(1_800, -9 * 10**8, 1, -1) + column(200, 10**9, 10**6),
    "combs": lambda: [(1_000 * i + j, 10**6 * j * j) for i in range(100) for j in range(30)] + [(10**9, 10**8 * j) for j in range(-9, 10)],
    "two_rows": lambda: [(i * 1_000, 0) for i in range(5_000)] + [(i * 1_000 + draw.randrange(1_000), 10**6) for i in range(5_000)],
}


def write(folder, name, points):
    places = list(dict.fromkeys((int(x), int(y)) for x, y in points))
    with open(f"{folder}/{name}.tsp", "w") as out:
        out.write(f"NAME : {name}\nTYPE : TSP\nDIMENSION : {len(places)}\nNODE_COORD_SECTION\n")
        for number, (x, y) in enumerate(places, 1):
            out.write(f"{number} {x} {y}\n")
        out.write("EOF\n")


if __name__ == "__main__":
    if len(sys.argv) != 2:
        sys.exit(__doc__)
    for name, points in SETS.items():
        write(sys.argv[1], name, points())
