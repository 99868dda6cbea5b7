#!/usr/bin/env python3
"""make_table.py FORMAT FOLDER COMMITS: makes a Delta or a Hudi table of so many commits, each of which adds one file.
It makes the metadata alone, since nothing reads a data file. On a table that is there it adds what is lacking."""
import json
import os
import sys

NOW = 1704456000000
FIELD = {"name": "id", "type": "long", "nullable": True, "metadata": {}}
SCHEMA = json.dumps({"type": "struct", "fields": [FIELD]})
AVRO_FIELD = {"name": "id", "type": ["null", "long"], "default": None}
AVRO_SCHEMA = json.dumps({"type": "record", "name": "r", "fields": [AVRO_FIELD]})
PROPERTIES = "hoodie.table.name=t\nhoodie.table.type=COPY_ON_WRITE\nhoodie.table.version=6\n"


def put(path, text):
    if not os.path.exists(path):
        with open(path, "w") as file:
            file.write(text)


def actions(version):
    yield {"commitInfo": {"timestamp": NOW + version, "operation": "WRITE"}}
    if version == 0:
        yield {"protocol": {"minReaderVersion": 1, "minWriterVersion": 2}}
        yield {"metaData": {
            "id": "0b1f6bd1-3f0a-4b5e-9d7c-2a7a3f2f1c55", "format": {"provider": "parquet", "options": {}},
            "schemaString": SCHEMA, "partitionColumns": [], "configuration": {}, "createdTime": NOW}}
    yield {"add": {
        "path": f"part-{version:05}-c000.parquet", "partitionValues": {}, "size": 1000 + version,
        "modificationTime": NOW + version, "dataChange": True, "stats": json.dumps({"numRecords": 1})}}


def make_delta(folder, commits):
    os.makedirs(f"{folder}/_delta_log", exist_ok=True)
    for version in range(commits):
        text = "".join(json.dumps(action) + "\n" for action in actions(version))
        put(f"{folder}/_delta_log/{version:020}.json", text)


def instant(number, time):
    stat = {"fileId": f"g{number}-0", "path": f"g{number}-0_0-1-1_{time}.parquet", "partitionPath": "",
            "numWrites": 1, "fileSizeInBytes": 1000 + number}
    return {"partitionToWriteStats": {"": [stat]}, "extraMetadata": {"schema": AVRO_SCHEMA}}


def make_hudi(folder, commits):
    os.makedirs(f"{folder}/.hoodie", exist_ok=True)
    put(f"{folder}/.hoodie/hoodie.properties", PROPERTIES)
    for number in range(commits):
        # A millisecond later each, within one minute.
        time = f"202401051200{number:05}"
        put(f"{folder}/.hoodie/{time}.commit.requested", "")
        put(f"{folder}/.hoodie/{time}.inflight", "")
        put(f"{folder}/.hoodie/{time}.commit", json.dumps(instant(number, time)))


def main():
    form, folder, commits = sys.argv[1], sys.argv[2], int(sys.argv[3])
    {"delta": make_delta, "hudi": make_hudi}[form](folder, commits)


main()
