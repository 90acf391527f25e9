#!/usr/bin/env python3
"""How far nodes are, by the client library: python3 examples/watch.py [--every SECONDS] NODE..

A row for each node, which is named by its client port, its socket's path or its cluster file: how many commands of each
owner the node has delivered, with its distance where another is further, and its history's length; dashes where it
doesn't answer. `tools/tundelca_ctl.py status` says more.
"""
import argparse
import sys
import time

import built  # noqa: F401  before what lies in tools/
import tundelca


def seen(door):
    """The reach of each owner at the node, and the length of its history; None where it doesn't answer."""
    try:
        with tundelca.Client(door, patience=2.0) as node:
            return node.reaches(), node.length()
    except tundelca.Unreachable:
        return None


def look(doors):
    """Prints the table. Whether all nodes answer."""
    nodes = {door.short(): seen(door) for door in doors}
    reaches = [node[0] for node in nodes.values() if node]
    most = [max(column) for column in zip(*reaches)]
    print("  ".join([f"{'port':>6}", *(f"{f'owner {owner}':>14}" for owner in range(len(most))), f"{'history':>10}"]))
    for port, node in nodes.items():
        row, length = node or ([None] * len(most), None)
        cells = ["-" if reach is None else f"{reach:,}" + (f" (-{top - reach:,})" if top > reach else "")
                 for reach, top in zip(row, most)]
        last = "-" if node is None else f"{length:,}"
        print("  ".join([f"{port:>6}", *(f"{cell:>14}" for cell in cells), f"{last:>10}"]))
    return all(nodes.values())


def main():
    parser = argparse.ArgumentParser(description=__doc__, formatter_class=argparse.RawDescriptionHelpFormatter)
    parser.add_argument("--every", type=float, metavar="SECONDS", help="look again after so many seconds, for ever")
    parser.add_argument("nodes", nargs="+", type=tundelca.door, metavar="NODE", help="a port, a path or a file")
    words = parser.parse_args()
    is_well = look(words.nodes)
    while words.every is not None:
        time.sleep(words.every)
        print(flush=True)
        look(words.nodes)
    sys.exit(0 if is_well else 2)


if __name__ == "__main__":
    try:
        main()
    except KeyboardInterrupt:
        pass
