#!/usr/bin/env python3
"""Prints what a run of the gate cost, as a table of docs/GATE.md: CPU seconds of each crate's proof, tests and edits,
and the longest chain of crates that wait for each other. Usage: table.py LOG, at the top of the checkout."""
import collections
import json
import sys


def crates():
    """The crates of crates.txt, each with those that it stands on."""
    found = {}
    with open("crates.txt", encoding="utf-8") as file:
        for line in file:
            name, _, below = line.split("#")[0].partition(":")
            if name.strip():
                found[name.split()[0]] = below.split()
    return {name: [it for it in below if it in found] for name, below in found.items()}


def main():
    below = crates()
    costs = {name: collections.Counter() for name in below}
    memory, first, last = collections.Counter(), None, None
    with open(sys.argv[1], encoding="utf-8") as log:
        for row in map(json.loads, log):
            if row["crate"] not in costs:
                continue
            costs[row["crate"]][row["kind"]] += row["cpu"]
            memory[row["crate"]] = max(memory[row["crate"]], row["mb"])
            first = min(first or row["start"], row["start"])
            last = max(last or row["end"], row["end"])

    chains = {}

    def chain(name):
        """The dearest chain of proofs that ends with this crate: its seconds, and its crates."""
        if name not in chains:
            seconds, names = max((chain(it) for it in below[name]), default=(0, []))
            chains[name] = seconds + costs[name]["proof"], [*names, name]
        return chains[name]

    print("| Crate | Proof | Tests | Edits | Peak MB |")
    print("|---|---|---|---|---|")
    for name in sorted(below, key=lambda it: -sum(costs[it].values())):
        of = costs[name]
        print(f"| `{name}` | {of['proof']:.0f} | {of['tests']:.0f} | {of['edit']:.0f} | {memory[name]} |")
    sums = sum(costs.values(), collections.Counter())
    print(f"| all | {sums['proof']:.0f} | {sums['tests']:.0f} | {sums['edit']:.0f} | {max(memory.values(), default=0)} |")
    seconds, names = max(chain(it) for it in below)
    print(f"\nThe longest chain takes {seconds:.0f} CPU seconds: {', '.join(names)}.")
    if first:
        print(f"\nBy the clock the run took {(last - first) / 60:.0f} minutes.")


main()
