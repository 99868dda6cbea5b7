#!/usr/bin/env python3
"""make_manifest.py PATH RECORDS [EACH]: writes an Avro object container of so many records like those of an Iceberg manifest,
so many in each block (all in one)."""
import json
import sys

MARKER = bytes(range(16))
ENTRY = {
    "type": "record",
    "name": "manifest_entry",
    "fields": [
        {"name": "status", "type": "int", "field-id": 0},
        {"name": "snapshot_id", "type": ["null", "long"], "field-id": 1},
        {"name": "sequence_number", "type": ["null", "long"], "field-id": 3},
        {"name": "file_sequence_number", "type": ["null", "long"], "field-id": 4},
        {
            "name": "data_file",
            "field-id": 2,
            "type": {
                "type": "record",
                "name": "r2",
                "fields": [
                    {"name": "content", "type": "int", "field-id": 134},
                    {"name": "file_path", "type": "string", "field-id": 100},
                    {"name": "file_format", "type": "string", "field-id": 101},
                    {
                        "name": "partition",
                        "field-id": 102,
                        "type": {
                            "type": "record",
                            "name": "r102",
                            "fields": [
                                {"name": "day", "type": ["null", "int"], "field-id": 1000}
                            ],
                        },
                    },
                    {"name": "record_count", "type": "long", "field-id": 103},
                    {"name": "file_size_in_bytes", "type": "long", "field-id": 104},
                ],
            },
        },
    ],
}


def number(n):
    z = (n << 1) ^ (n >> 63)
    out = bytearray()
    while z > 127:
        out.append(z & 127 | 128)
        z >>= 7
    out.append(z)
    return bytes(out)


def text(s):
    data = s.encode()
    return number(len(data)) + data


def entry(i):
    return b"".join(
        [
            number(1),
            number(1) + number(3_051_729_675_574_597_004 + i),
            number(0),
            number(1) + number(i % 1000),
            number(0),
            text(f"/warehouse/db/table/data/day={i % 365}/part-{i:010d}.parquet"),
            text("PARQUET"),
            number(1) + number(19_000 + i % 365),
            number(1000 + i),
            number(1_000_000 + 37 * i),
        ]
    )


def header(pairs):
    """The header of a container whose metadata has these pairs besides the codec and the schema."""
    pairs = [("avro.codec", "null"), *pairs, ("avro.schema", json.dumps(ENTRY))]
    return b"Obj\x01" + number(len(pairs)) + b"".join(text(k) + text(v) for k, v in pairs) + number(0) + MARKER


def block(records):
    entries = b"".join(map(entry, records))
    return number(len(records)) + number(len(entries)) + entries + MARKER


def main():
    path, count = sys.argv[1], int(sys.argv[2])
    each = int(sys.argv[3]) if len(sys.argv) > 3 else count
    with open(path, "wb") as out:
        out.write(header([]))
        for first in range(0, count, each):
            out.write(block(range(first, min(first + each, count))))


if __name__ == "__main__":
    main()
