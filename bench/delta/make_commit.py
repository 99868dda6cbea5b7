#!/usr/bin/env python3
"""Writes a first Delta commit with so many adds like those that Spark writes."""
import json
import sys
import uuid

FIELDS = [("id", "long"), ("price", "double"), ("name", "string"), ("day", "date"), ("country", "string")]
COUNTRIES = ["DE", "FR", "IT", "PL"]


def line(action):
    return json.dumps(action, separators=(",", ":")) + "\n"


def head():
    fields = [{"name": n, "type": t, "nullable": True, "metadata": {}} for n, t in FIELDS]
    schema = json.dumps({"type": "struct", "fields": fields}, separators=(",", ":"))
    info = {"timestamp": 1704456000000, "operation": "WRITE", "operationParameters": {"mode": "Append"}}
    meta = {
        "id": str(uuid.UUID(int=1)),
        "format": {"provider": "parquet", "options": {}},
        "schemaString": schema,
        "partitionColumns": ["day", "country"],
        "configuration": {},
        "createdTime": 1704456000000,
    }
    protocol = {"minReaderVersion": 1, "minWriterVersion": 2}
    return line({"commitInfo": info}) + line({"protocol": protocol}) + line({"metaData": meta})


def stats(i):
    low = {"id": 1000 * i, "price": 0.25 + i / 7, "name": f"a{i}"}
    high = {"id": 1000 * i + 999, "price": 999.5 + i / 3, "name": f"z{i}"}
    counts = {"id": 0, "price": 3, "name": 17}
    said = {"numRecords": 1000 + i % 50, "minValues": low, "maxValues": high, "nullCount": counts}
    return json.dumps(said, separators=(",", ":"))


def add(i):
    day = f"2024-{1 + i % 12:02}-{1 + i % 28:02}"
    country = COUNTRIES[i % 4]
    name = f"part-{i % 200:05}-{uuid.UUID(int=i * 0x9E3779B97F4A7C15 + 7)}.c000.snappy.parquet"
    return line(
        {
            "add": {
                "path": f"day={day}/country={country}/{name}",
                "partitionValues": {"day": day, "country": country},
                "size": 1_000_000 + 37 * i,
                "modificationTime": 1704456000000 + i,
                "dataChange": True,
                "stats": stats(i),
            }
        }
    )


def main():
    path, count = sys.argv[1], int(sys.argv[2])
    with open(path, "w") as out:
        out.write(head())
        for i in range(count):
            out.write(add(i))


main()
