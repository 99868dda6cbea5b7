#!/usr/bin/env python3
"""Writes an Iceberg manifest list of so many manifests, as an Avro object container."""
import json
import sys

FIELDS = [
    ("manifest_path", "string", 500),
    ("manifest_length", "long", 501),
    ("partition_spec_id", "int", 502),
    ("content", "int", 517),
    ("sequence_number", "long", 515),
    ("min_sequence_number", "long", 516),
    ("added_snapshot_id", "long", 503),
    ("added_files_count", "int", 504),
    ("existing_files_count", "int", 505),
    ("deleted_files_count", "int", 506),
    ("added_rows_count", "long", 512),
    ("existing_rows_count", "long", 513),
    ("deleted_rows_count", "long", 514),
]

ROW = {
    "type": "record",
    "name": "manifest_file",
    "fields": [{"name": name, "type": kind, "field-id": id} for name, kind, id in FIELDS],
}


def number(n):
    z = (n << 1) ^ (n >> 63)
    out = bytearray()
    while z > 127:
        out.append(z & 127 | 128)
        z >>= 7
    out.append(z)
    return bytes(out)


def text(s):
    data = s.encode()
    return number(len(data)) + data


def row(i):
    path = f"/warehouse/db/table/metadata/0f5c51ab-{i:012d}-m0.avro"
    snapshot = 3_051_729_675_574_597_004 + i
    numbers = [7000 + i, 0, 0, i + 1, i + 1, snapshot, 300, 20, 0, 30_000 + i, 2000, 0]
    return text(path) + b"".join(number(n) for n in numbers)


def main():
    path, count = sys.argv[1], int(sys.argv[2])
    marker = bytes(range(16))
    head = b"Obj\x01" + number(2)
    head += text("avro.codec") + text("null")
    head += text("avro.schema") + text(json.dumps(ROW)) + number(0) + marker
    rows = b"".join(row(i) for i in range(count))
    block = number(count) + number(len(rows)) + rows + marker
    with open(path, "wb") as out:
        out.write(head + block)


main()
