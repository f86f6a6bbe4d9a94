#!/usr/bin/env python3
# SPDX-License-Identifier: Apache-2.0
"""Makes a database of an archive, the format of keys in checkouts before 0.2.0: import_archive.py ARCHIVE DB NAME,.. [SEPARATOR].

NAME,.. are the names of the parts of a key, which SEPARATOR (a TAB) divides in the archive.
"""
import struct
import sys
from zlib import crc32

from hll_sketches import Database, Sketch


def entries(stream):
    """Yields the keys and sketches of an archive, and checks their checksums and their order."""
    header = stream.read(16)
    if header[:8] != b"\x89HLLKEY\n" or struct.unpack("<II", header[8:]) != (1, crc32(header[:12])):
        sys.exit("it is no archive")
    number, before = 0, b""
    while True:
        record = stream.read(12)
        if len(record) < 12:
            sys.exit(f"it is cut after {number:,} keys")
        key_size, image_size, checksum = struct.unpack("<III", record)
        if key_size == 0xFFFFFFFF:
            return
        number += 1
        data = stream.read(key_size + image_size) if key_size <= 1 << 16 and image_size <= 1 << 24 else b""
        if crc32(data, crc32(record[:8])) != checksum or len(data) < key_size + image_size or data[:key_size] <= before:
            sys.exit(f"entry {number:,} is damaged")
        before = data[:key_size]
        yield before, Sketch.from_bytes(data[key_size:])


def main(archive, path, names, separator="\t"):
    names = names.split(",")
    with open(archive, "rb") as stream:
        pairs = [(key.split(separator.encode(), len(names) - 1), sketch) for key, sketch in entries(stream)]
    with Database(path, names, pairs[0][1].lg_k if pairs else 12) as database:
        database.update(pairs)


if __name__ == "__main__":
    main(*sys.argv[1:])
