#!/usr/bin/env python3
"""Writes the pixels of a PNG picture, of 8 bits for each of three colours, as a raw Netpbm PPM."""
import struct
import sys
import zlib


def chunks(png):
    at = 8
    while at < len(png):
        (length,) = struct.unpack(">I", png[at : at + 4])
        yield png[at + 4 : at + 8], png[at + 8 : at + 8 + length]
        at += length + 12


def nearest(left, up, corner):
    """The filter of Paeth: which of the three is nearest to left + up - corner."""
    guess = left + up - corner
    return min((left, up, corner), key=lambda one: abs(guess - one))


def unfiltered(rows, width, height):
    stride, above = 3 * width, bytes(3 * width)
    for y in range(height):
        kind, row = rows[y * (stride + 1)], bytearray(rows[y * (stride + 1) + 1 : (y + 1) * (stride + 1)])
        for x in range(stride):
            left, corner = (row[x - 3], above[x - 3]) if x >= 3 else (0, 0)
            up = above[x]
            row[x] = (row[x] + (0, left, up, (left + up) // 2, nearest(left, up, corner))[kind]) % 256
        yield row
        above = row


def main():
    with open(sys.argv[1], "rb") as file:
        parts = list(chunks(file.read()))
    width, height, *form = struct.unpack(">IIBBBBB", dict(parts)[b"IHDR"])
    if form != [8, 2, 0, 0, 0]:
        sys.exit(f"{sys.argv[1]}: not of 8 bits for each of three colours")
    rows = zlib.decompress(b"".join(data for name, data in parts if name == b"IDAT"))
    out = sys.stdout.buffer
    out.write(b"P6\n%d %d\n255\n" % (width, height))
    out.writelines(unfiltered(rows, width, height))


main()
