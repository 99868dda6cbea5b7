"""Parses the same metadata by Python's json, goes over its snapshots and follows the parents."""
import json
import sys
import time

path, rounds = sys.argv[1], int(sys.argv[2])
with open(path, "rb") as file:
    text = file.read()


def rows_of(metadata):
    return [
        (
            row["snapshot-id"],
            row.get("parent-snapshot-id"),
            row.get("sequence-number", 0),
            row["timestamp-ms"],
            row["manifest-list"],
            row.get("schema-id"),
            row.get("summary", {}).get("operation"),
        )
        for row in metadata["snapshots"]
    ]


def ancestors_of(rows, current):
    by_id = {row[0]: row for row in rows}
    found = []
    while current in by_id:
        found.append(by_id[current])
        current = by_id[current][1]
    return found


start = time.monotonic()
for _ in range(rounds):
    rows = rows_of(json.loads(text))
read = time.monotonic()
for _ in range(rounds):
    metadata = json.loads(text)
    rows = rows_of(metadata)
    ancestors = ancestors_of(rows, metadata["current-snapshot-id"])
both = time.monotonic()
print(
    f"Python's json: {rounds} rounds, {len(rows)} snapshots {(read - start) * 1000:.0f} ms, "
    f"with {len(ancestors)} ancestors {(both - read) * 1000:.0f} ms"
)
