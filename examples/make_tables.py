#!/usr/bin/env python3
"""make_tables.py [FOLDER]: writes a table of each format as its engine does, below FOLDER or beside this script.

Each holds the same orders by day, in three commits: two appends, and one that rewrites a file. The metadata is laid
out as Delta Lake 3 and Hudi 0.14 by Spark write it, and as Iceberg's Hadoop tables are, here with manifests that
aren't compressed. The Parquet files are stand-ins, and their sizes in the metadata are made up.
"""
import json
import os
import sys
import uuid

STAND_IN = "PAR1 (a stand-in: data files are never opened)\n"
# 2024-01-05 08:00 in UTC, and how much later the next commit is, in milliseconds.
BEGIN, STEP = 1704441600000, 3600000
# Each commit: the files that it adds, as name, day, records and bytes, and the names of those that it takes away.
COMMITS = [
    ([("a", "2024-01-04", 3, 1042), ("b", "2024-01-05", 2, 987)], []),
    ([("c", "2024-01-05", 4, 1101)], []),
    ([("d", "2024-01-05", 5, 1190)], ["c"]),
]
COLUMNS = [("order_id", "long"), ("customer", "string"), ("amount", "decimal(10,2)"), ("day", "date")]


def named(text):
    return str(uuid.uuid5(uuid.NAMESPACE_URL, f"lakebridge-examples:{text}"))


def put(path, content):
    os.makedirs(os.path.dirname(path), exist_ok=True)
    with open(path, "wb") as file:
        file.write(content if isinstance(content, bytes) else content.encode())


def compact(value):
    return json.dumps(value, separators=(",", ":"))


def added_at(name):
    return next(at for at, (added, _) in enumerate(COMMITS) if name in [file[0] for file in added])


def file_of(name):
    return next(file for added, _ in COMMITS for file in added if file[0] == name)


# Delta


def delta_path(name, day):
    return f"day={day}/part-0000{added_at(name)}-{named('delta' + name)}.c000.snappy.parquet"


def delta_add(name, day, records, size, time):
    first = ord(name)
    stats = {"numRecords": records, "minValues": {"order_id": first}, "maxValues": {"order_id": first + records - 1},
             "nullCount": {"order_id": 0, "customer": 0, "amount": 0}}
    return {"add": {"path": delta_path(name, day), "partitionValues": {"day": day}, "size": size,
                    "modificationTime": time, "dataChange": True, "stats": compact(stats)}}


def delta_remove(name, time):
    _, day, _, size = file_of(name)
    return {"remove": {"path": delta_path(name, day), "deletionTimestamp": time, "dataChange": True,
                       "extendedFileMetadata": True, "partitionValues": {"day": day}, "size": size}}


def delta_actions(version, added, removed):
    time = BEGIN + version * STEP
    operation = "UPDATE" if removed else "WRITE"
    yield {"commitInfo": {"timestamp": time, "operation": operation, "operationParameters": {},
                          "isolationLevel": "Serializable", "isBlindAppend": not removed,
                          "engineInfo": "Apache-Spark/3.5.1 Delta-Lake/3.2.0", "txnId": named(f"txn{version}")}}
    if version == 0:
        fields = [{"name": name, "type": kind, "nullable": True, "metadata": {}} for name, kind in COLUMNS]
        yield {"metaData": {"id": named("delta"), "format": {"provider": "parquet", "options": {}},
                            "schemaString": compact({"type": "struct", "fields": fields}),
                            "partitionColumns": ["day"], "configuration": {}, "createdTime": time}}
        yield {"protocol": {"minReaderVersion": 1, "minWriterVersion": 2}}
    yield from (delta_remove(name, time) for name in removed)
    yield from (delta_add(*file, time) for file in added)


def make_delta(folder):
    for version, (added, removed) in enumerate(COMMITS):
        lines = [compact(action) + "\n" for action in delta_actions(version, added, removed)]
        put(f"{folder}/_delta_log/{version:020}.json", "".join(lines))
        for name, day, _, _ in added:
            put(f"{folder}/{delta_path(name, day)}", STAND_IN)


# Hudi

HUDI_TIMES = ["20240105080000000", "20240105090000000", "20240105100000000"]
HUDI_PROPERTIES = """\
#Updated at 2024-01-05T08:00:00.000Z
#Fri Jan 05 08:00:00 UTC 2024
hoodie.table.precombine.field=order_id
hoodie.datasource.write.drop.partition.columns=false
hoodie.table.partition.fields=day
hoodie.table.type=COPY_ON_WRITE
hoodie.archivelog.folder=archived
hoodie.timeline.layout.version=1
hoodie.table.version=6
hoodie.table.recordkey.fields=order_id
hoodie.datasource.write.partitionpath.urlencode=false
hoodie.table.name=orders
hoodie.table.keygenerator.class=org.apache.hudi.keygen.SimpleKeyGenerator
hoodie.datasource.write.hive_style_partitioning=true
hoodie.populate.meta.fields=true
hoodie.table.base.file.format=PARQUET
hoodie.database.name=default
"""
AVRO_TYPES = {
    "long": "long", "string": "string", "date": {"type": "int", "logicalType": "date"},
    "decimal(10,2)": {"type": "fixed", "name": "fixed", "namespace": "hoodie.orders.orders_record.amount", "size": 5,
                      "logicalType": "decimal", "precision": 10, "scale": 2}}


def hudi_group(name):
    # The rewritten file stays in the file group of the one that it replaces.
    return named("hudi" + {"d": "c"}.get(name, name)) + "-0"


def hudi_path(name, day):
    at = added_at(name)
    return f"day={day}/{hudi_group(name)}_{at}-2{at}-3{at}_{HUDI_TIMES[at]}.parquet"


def hudi_stat(name, day, records, size):
    return {"fileId": hudi_group(name), "path": hudi_path(name, day), "cdcStats": None,
            "prevCommit": HUDI_TIMES[1] if name == "d" else "null", "numWrites": records, "numDeletes": 0,
            "numUpdateWrites": 1 if name == "d" else 0, "numInserts": records, "totalWriteBytes": size,
            "totalWriteErrors": 0, "tempPath": None, "partitionPath": f"day={day}", "totalLogRecords": 0,
            "fileSizeInBytes": size, "minEventTime": None, "maxEventTime": None}


def hudi_commit(added):
    stats = {}
    for name, day, records, size in added:
        stats.setdefault(f"day={day}", []).append(hudi_stat(name, day, records, size))
    fields = [{"name": name, "type": ["null", AVRO_TYPES[kind]], "default": None} for name, kind in COLUMNS]
    schema = {"type": "record", "name": "orders_record", "namespace": "hoodie.orders", "fields": fields}
    commit = {"partitionToWriteStats": stats, "compacted": False, "extraMetadata": {"schema": compact(schema)},
              "operationType": "UPSERT"}
    return json.dumps(commit, indent=2, separators=(",", " : "))


def make_hudi(folder):
    put(f"{folder}/.hoodie/hoodie.properties", HUDI_PROPERTIES)
    for time, (added, _) in zip(HUDI_TIMES, COMMITS):
        put(f"{folder}/.hoodie/{time}.commit.requested", "")
        put(f"{folder}/.hoodie/{time}.inflight", "")
        put(f"{folder}/.hoodie/{time}.commit", hudi_commit(added))
        for name, day, _, _ in added:
            put(f"{folder}/{hudi_path(name, day)}", STAND_IN)
            # The commit that makes a partition says so there.
            partition = f"{folder}/day={day}/.hoodie_partition_metadata"
            if not os.path.exists(partition):
                put(partition, f"#partition metadata\ncommitTime={time}\npartitionDepth=1\n")


# Iceberg

LOCATION = "file:/srv/lake/iceberg_orders"
SNAPSHOTS = [3051729675574597004, 3055729675574597004, 6536733823181975045]


def avro_long(number):
    number = (number << 1) ^ (number >> 63)
    out = b""
    while number >= 128:
        out += bytes([number & 127 | 128])
        number >>= 7
    return out + bytes([number])


def avro_bytes(text):
    content = text if isinstance(text, bytes) else text.encode()
    return avro_long(len(content)) + content


def avro_value(kind, value):
    """A value of an Avro type: one that may be null, a record, a whole number or a text."""
    if isinstance(kind, list):
        return avro_long(0) if value is None else avro_long(1) + avro_value(kind[1], value)
    if isinstance(kind, dict) and kind["type"] == "record":
        return b"".join(avro_value(field["type"], value[field["name"]]) for field in kind["fields"])
    return avro_bytes(value) if kind == "string" else avro_long(value)


def avro_container(schema, values, meta):
    pairs = {"avro.schema": compact(schema), "avro.codec": "null", **meta}
    head = avro_long(len(pairs)) + b"".join(avro_bytes(key) + avro_bytes(text) for key, text in pairs.items())
    marker = uuid.uuid5(uuid.NAMESPACE_URL, compact(meta)).bytes
    block = b"".join(avro_value(schema, value) for value in values)
    return b"Obj\x01" + head + avro_long(0) + marker + avro_long(len(values)) + avro_bytes(block) + marker


def field(name, kind, number, optional=False):
    shown = {"name": name, "type": ["null", kind] if optional else kind, "field-id": number}
    return {**shown, "default": None} if optional else shown


DAY = {"type": "int", "logicalType": "date"}
PARTITION = {"type": "record", "name": "r102", "fields": [field("day", DAY, 1000, True)]}
DATA_FILE = {"type": "record", "name": "r2", "fields": [
    field("content", "int", 134), field("file_path", "string", 100), field("file_format", "string", 101),
    field("partition", PARTITION, 102), field("record_count", "long", 103), field("file_size_in_bytes", "long", 104),
    field("sort_order_id", "int", 140, True)]}
ENTRY = {"type": "record", "name": "manifest_entry", "fields": [
    field("status", "int", 0), field("snapshot_id", "long", 1, True), field("sequence_number", "long", 3, True),
    field("file_sequence_number", "long", 4, True), field("data_file", DATA_FILE, 2)]}
COUNTS = [("added_files_count", "int", 504), ("existing_files_count", "int", 505), ("deleted_files_count", "int", 506),
          ("added_rows_count", "long", 512), ("existing_rows_count", "long", 513), ("deleted_rows_count", "long", 514)]
LISTED = {"type": "record", "name": "manifest_file", "fields": [
    field("manifest_path", "string", 500), field("manifest_length", "long", 501),
    field("partition_spec_id", "int", 502), field("content", "int", 517), field("sequence_number", "long", 515),
    field("min_sequence_number", "long", 516), field("added_snapshot_id", "long", 503),
    *(field(*count) for count in COUNTS)]}
SPEC = [{"name": "day", "transform": "identity", "source-id": 4, "field-id": 1000}]
SCHEMA = {"type": "struct", "schema-id": 0, "fields": [
    {"id": at + 1, "name": name, "required": False, "type": kind.replace(",", ", ")}
    for at, (name, kind) in enumerate(COLUMNS)]}


def iceberg_path(name, day):
    return f"data/day={day}/00000-{added_at(name)}-{named('iceberg' + name)}-0-00001.parquet"


def iceberg_entry(name, at, status):
    _, day, records, size = file_of(name)
    days = {"2024-01-04": 19726, "2024-01-05": 19727}[day]
    number = None if status == 1 else added_at(name) + 1
    return {"status": status, "snapshot_id": SNAPSHOTS[at], "sequence_number": number, "file_sequence_number": number,
            "data_file": {"content": 0, "file_path": f"{LOCATION}/{iceberg_path(name, day)}", "file_format": "PARQUET",
                          "partition": {"day": days}, "record_count": records, "file_size_in_bytes": size,
                          "sort_order_id": 0}}


def make_manifest(folder, at, number, names, status):
    """Writes a manifest of these files, all added (1) or all deleted (2), and gives its row in the list."""
    meta = {"schema": compact(SCHEMA), "partition-spec": compact(SPEC), "partition-spec-id": "0",
            "format-version": "2", "content": "data"}
    name = f"metadata/{named(f'commit{at}')}-m{number}.avro"
    content = avro_container(ENTRY, [iceberg_entry(file, at, status) for file in names], meta)
    put(f"{folder}/{name}", content)
    row = {count: 0 for count, _, _ in COUNTS}
    row["added_files_count" if status == 1 else "deleted_files_count"] = len(names)
    row["added_rows_count" if status == 1 else "deleted_rows_count"] = sum(file_of(file)[2] for file in names)
    return {"manifest_path": f"{LOCATION}/{name}", "manifest_length": len(content), "partition_spec_id": 0,
            "content": 0, "sequence_number": at + 1, "min_sequence_number": at + 1,
            "added_snapshot_id": SNAPSHOTS[at], "files": names, "status": status, **row}


def make_snapshot(folder, at, rows):
    parent = SNAPSHOTS[at - 1] if at else None
    name = f"metadata/snap-{SNAPSHOTS[at]}-1-{named(f'commit{at}')}.avro"
    meta = {"snapshot-id": str(SNAPSHOTS[at]), "parent-snapshot-id": str(parent or "null"),
            "sequence-number": str(at + 1), "format-version": "2"}
    put(f"{folder}/{name}", avro_container(LISTED, rows, meta))
    snapshot = {"sequence-number": at + 1, "snapshot-id": SNAPSHOTS[at], "timestamp-ms": BEGIN + at * STEP,
                "summary": {"operation": "overwrite" if COMMITS[at][1] else "append"},
                "manifest-list": f"{LOCATION}/{name}", "schema-id": 0}
    return {**snapshot, "parent-snapshot-id": parent} if parent else snapshot


def iceberg_metadata(snapshots):
    newest = snapshots[-1]
    return {"format-version": 2, "table-uuid": named("iceberg"), "location": LOCATION,
            "last-sequence-number": newest["sequence-number"], "last-updated-ms": newest["timestamp-ms"],
            "last-column-id": 4, "current-schema-id": 0, "schemas": [SCHEMA], "default-spec-id": 0,
            "partition-specs": [{"spec-id": 0, "fields": SPEC}], "last-partition-id": 1000,
            "default-sort-order-id": 0, "sort-orders": [{"order-id": 0, "fields": []}],
            "properties": {"owner": "spark"}, "current-snapshot-id": newest["snapshot-id"],
            "refs": {"main": {"snapshot-id": newest["snapshot-id"], "type": "branch"}}, "snapshots": snapshots,
            "statistics": [], "partition-statistics": [], "snapshot-log": [], "metadata-log": []}


def make_iceberg(folder):
    rows, snapshots = [], []
    for at, (added, removed) in enumerate(COMMITS):
        # What a manifest of files that are taken away has no more goes out of the list.
        rows = [row for row in rows if row["status"] == 1 and not set(row["files"]) & set(removed)]
        rows.append(make_manifest(folder, at, 0, [file[0] for file in added], 1))
        if removed:
            rows.append(make_manifest(folder, at, 1, removed, 2))
        snapshots.append(make_snapshot(folder, at, rows))
        put(f"{folder}/metadata/v{at + 1}.metadata.json", json.dumps(iceberg_metadata(snapshots), indent=2))
        for name, day, _, _ in added:
            put(f"{folder}/{iceberg_path(name, day)}", STAND_IN)
    put(f"{folder}/metadata/version-hint.text", str(len(snapshots)))


def main():
    folder = sys.argv[1] if len(sys.argv) > 1 else os.path.dirname(os.path.abspath(__file__))
    make_delta(f"{folder}/delta_orders")
    make_hudi(f"{folder}/hudi_orders")
    make_iceberg(f"{folder}/iceberg_orders")


main()
