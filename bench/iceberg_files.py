"""Iceberg's Avro files, as the scripts beside it write them: manifests and lists of manifests, not compressed."""
import json
import os

ENTRY = {"type": "record", "name": "manifest_entry", "fields": [
    {"field-id": 0, "name": "status", "type": "int"},
    {"field-id": 1, "name": "snapshot_id", "type": ["null", "long"]},
    {"field-id": 3, "name": "sequence_number", "type": ["null", "long"]},
    {"field-id": 4, "name": "file_sequence_number", "type": ["null", "long"]},
    {"field-id": 2, "name": "data_file", "type": {"type": "record", "name": "r2", "fields": [
        {"field-id": 134, "name": "content", "type": "int"},
        {"field-id": 100, "name": "file_path", "type": "string"},
        {"field-id": 101, "name": "file_format", "type": "string"},
        {"field-id": 102, "name": "partition", "type": {"type": "record", "name": "r102", "fields": []}},
        {"field-id": 103, "name": "record_count", "type": "long"},
        {"field-id": 104, "name": "file_size_in_bytes", "type": "long"}]}}]}
MANIFEST = {"type": "record", "name": "manifest_file", "fields": [
    {"field-id": number, "name": name, "type": kind} for number, name, kind in [
        (500, "manifest_path", "string"), (501, "manifest_length", "long"), (502, "partition_spec_id", "int"),
        (517, "content", "int"), (515, "sequence_number", "long"), (516, "min_sequence_number", "long"),
        (503, "added_snapshot_id", "long"), (504, "added_files_count", "int"), (505, "existing_files_count", "int"),
        (506, "deleted_files_count", "int"), (512, "added_rows_count", "long"), (513, "existing_rows_count", "long"),
        (514, "deleted_rows_count", "long")]]}
def varint(number):
    number = (number << 1) ^ (number >> 63)
    out = bytearray()
    while number > 127:
        out.append(number & 127 | 128)
        number >>= 7
    out.append(number)
    return bytes(out)


def text(value):
    return varint(len(value)) + value.encode()


def container(schema, objects):
    body, marker = b"".join(objects), b"lakebridge bench"
    meta = [("avro.schema", json.dumps(schema)), ("avro.codec", "null")]
    header = b"Obj\x01" + varint(len(meta)) + b"".join(text(key) + text(value) for key, value in meta) + b"\0" + marker
    return header + varint(len(objects)) + varint(len(body)) + body + marker


def entry(location, path, snapshot, is_added):
    kept = b"".join(b"\x02" + varint(snapshot) for _ in range(3))
    status = b"\x02\0\0\0" if is_added else b"\0" + kept
    return status + b"\0" + text(f"{location}/{path}") + text("PARQUET") + varint(4) + varint(100)


def write(path, content):
    os.makedirs(os.path.dirname(path), exist_ok=True)
    with open(path, "wb") as file:
        file.write(content)
    return len(content)


def manifest_row(path, length, snapshot, files):
    """The row of a list that names a manifest with so many files, which the snapshot added."""
    return text(path) + b"".join(varint(number) for number in [length, 0, 0, snapshot, snapshot, snapshot, files, 0, 0, 4 * files, 0, 0])
