"""Writes Iceberg table metadata with so many snapshots, each the child of the one before it."""
import json
import sys

path, count = sys.argv[1], int(sys.argv[2])


def snapshot(number):
    snapshot = {
        "manifest-list": f"s3://bucket/table/metadata/snap-{number}-1-3e1f4c5a-7b7e-4c47-9d4e-0c1d7d2a9b10.avro",
        "schema-id": 0,
        "sequence-number": number,
        "snapshot-id": 3000000000000000000 + number * 7919,
        "summary": {
            "added-data-files": "4",
            "added-files-size": "4194304",
            "added-records": "100000",
            "changed-partition-count": "2",
            "operation": "append",
            "total-data-files": str(4 * number),
            "total-records": str(100000 * number),
        },
        "timestamp-ms": 1704456000000 + number * 60000,
    }
    if number > 1:
        snapshot["parent-snapshot-id"] = 3000000000000000000 + (number - 1) * 7919
    return snapshot


columns = ["day", "country", "user", "amount", "note"]
kinds = ["date", "string", "long", "decimal(12, 2)", "string"]
fields = [
    {"id": place + 1, "name": name, "required": False, "type": kind}
    for place, (name, kind) in enumerate(zip(columns, kinds))
]
day = {"field-id": 1000, "name": "day", "source-id": 1, "transform": "identity"}
metadata = {
    "current-schema-id": 0,
    "current-snapshot-id": 3000000000000000000 + count * 7919,
    "default-sort-order-id": 0,
    "default-spec-id": 0,
    "format-version": 2,
    "last-column-id": len(fields),
    "last-partition-id": 1000,
    "last-sequence-number": count,
    "last-updated-ms": 1704456000000 + count * 60000,
    "location": "s3://bucket/table",
    "partition-specs": [{"fields": [day], "spec-id": 0}],
    "properties": {"owner": "bench", "write.format.default": "parquet"},
    "refs": {"main": {"snapshot-id": 3000000000000000000 + count * 7919, "type": "branch"}},
    "schemas": [{"fields": fields, "schema-id": 0, "type": "struct"}],
    "snapshots": [snapshot(number) for number in range(1, count + 1)],
    "sort-orders": [{"fields": [], "order-id": 0}],
    "table-uuid": "9c12d441-03fe-4693-9a96-a0705ddf69c1",
}
with open(path, "w") as file:
    json.dump(metadata, file, separators=(",", ":"))
