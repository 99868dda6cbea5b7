#!/usr/bin/env python3
"""make_header.py PATH PAIRS BYTES: writes an Avro object container without blocks, whose metadata has so many pairs of so many
bytes each besides the codec and the schema."""
import sys

from make_manifest import header


def main():
    path, pairs, size = sys.argv[1], int(sys.argv[2]), int(sys.argv[3])
    with open(path, "wb") as out:
        out.write(header((f"note.{i}", "x" * size) for i in range(pairs)))


main()
