#!/usr/bin/env python3
"""Writes what each process of the prover took: one line of JSON for each that ended, with its crate, its kind
(proof, tests or edit), CPU seconds, seconds by the clock and peak MB. Usage: meter.py LOG; it runs until it is killed."""
import json
import os
import sys
import time

TICK = os.sysconf("SC_CLK_TCK")
PAGE = os.sysconf("SC_PAGE_SIZE")


def begun(pid):
    """What a process of the prover is at work on, or None for any other process."""
    with open(f"/proc/{pid}/cmdline", "rb") as file:
        words = [it.decode(errors="replace") for it in file.read().split(b"\0")]
    if not words[0].endswith("/rattle") or "--crate-name" not in words:
        return None
    folder = os.readlink(f"/proc/{pid}/cwd")
    kind = "proof"
    if "rt-edit" in folder:
        kind = "edit"
    elif "--test" in words:
        kind = "tests"
    return {"crate": words[words.index("--crate-name") + 1], "kind": kind, "folder": folder}


def main():
    live = {}
    with open(sys.argv[1], "a", buffering=1, encoding="utf-8") as log:
        while True:
            now, seen = time.time(), set()
            for pid in filter(str.isdigit, os.listdir("/proc")):
                try:
                    if pid not in live:
                        row = begun(pid)
                        if row is None:
                            continue
                        live[pid] = {**row, "start": now, "cpu": 0, "mb": 0}
                    with open(f"/proc/{pid}/stat", encoding="utf-8") as file:
                        stat = file.read().rpartition(")")[2].split()
                    row = live[pid]
                    row["cpu"] = sum(map(int, stat[11:15])) / TICK
                    row["mb"] = max(row["mb"], int(stat[21]) * PAGE // 1_000_000)
                    row["end"] = now
                    seen.add(pid)
                except (OSError, ValueError):
                    pass
            for pid in [it for it in live if it not in seen]:
                log.write(json.dumps(live.pop(pid)) + "\n")
            time.sleep(0.5)


main()
