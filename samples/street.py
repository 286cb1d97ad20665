#!/usr/bin/env python3
"""Makes street.bin: a small street, in the survey program's input form, and a panel that looks for the morning sun.

x is east, y north, z up, in metres. Ground, three gabled houses on the south-east side and a wall stand in the light of
a panel on the ground's west side. From each of five points of the panel a ray goes towards the sun at eight hours of a morning arc.
A ray that misses is a point in the sun; a ray that hits is in the shade of the triangle that the report names.

usage: python3 samples/street.py > samples/street.bin
"""
import math
import struct
import sys

TRIANGLES = []


def cross(a, b):
    return (a[1] * b[2] - a[2] * b[1], a[2] * b[0] - a[0] * b[2], a[0] * b[1] - a[1] * b[0])


def triangle(a, b, c):
    n = cross([b[i] - a[i] for i in range(3)], [c[i] - a[i] for i in range(3)])
    size = math.sqrt(sum(x * x for x in n))
    TRIANGLES.append((*a, *b, *c, *(x / size for x in n)))


def quad(a, b, c, d):
    triangle(a, b, c)
    triangle(a, c, d)


def house(x, y, width, depth, eaves, ridge):
    """Four walls, two gables and two slopes; the ridge runs from south to north."""
    e, n, m = x + width, y + depth, x + width / 2
    quad((x, y, 0), (e, y, 0), (e, y, eaves), (x, y, eaves))
    quad((e, n, 0), (x, n, 0), (x, n, eaves), (e, n, eaves))
    quad((x, n, 0), (x, y, 0), (x, y, eaves), (x, n, eaves))
    quad((e, y, 0), (e, n, 0), (e, n, eaves), (e, y, eaves))
    triangle((x, y, eaves), (e, y, eaves), (m, y, ridge))
    triangle((e, n, eaves), (x, n, eaves), (m, n, ridge))
    quad((x, n, eaves), (x, y, eaves), (m, y, ridge), (m, n, ridge))
    quad((e, y, eaves), (e, n, eaves), (m, n, ridge), (m, y, ridge))


def ground(size, pieces):
    step = size / pieces
    for i in range(pieces):
        for j in range(pieces):
            x, y = i * step - size / 2, j * step - size / 2
            quad((x, y, 0), (x + step, y, 0), (x + step, y + step, 0), (x, y + step, 0))


ground(64.0, 2)
house(8.0, -4.0, 8.0, 10.0, 5.0, 8.0)
house(10.0, -20.0, 8.0, 9.0, 4.5, 7.0)
house(-6.0, -24.0, 9.0, 7.0, 6.0, 9.5)
quad((-4.0, -10.0, 0.0), (2.0, -10.0, 0.0), (2.0, -10.0, 2.0), (-4.0, -10.0, 2.0))

RAYS = []
for i in range(5):
    point = (-12.0 + 1.5 * i, -2.0, 1.0 + 0.25 * i)
    for hour in range(8):
        azimuth = math.radians(80 + 12 * hour)  # from north over east
        height = math.radians(8 + 6 * hour)
        sun = (math.sin(azimuth) * math.cos(height), math.cos(azimuth) * math.cos(height), math.sin(height))
        RAYS.append((*point, *sun))


def section(rows):
    return struct.pack("<I", len(rows)) + b"".join(struct.pack("<%dd" % len(r), *r) for r in rows)


sys.stdout.buffer.write(section(TRIANGLES) + section(RAYS))
