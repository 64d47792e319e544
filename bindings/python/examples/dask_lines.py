#!/usr/bin/env python3
"""Lines of JSON as a CBOR sequence (RFC 8742), by workers of Dask: each partition of the lines by one of them.

    dask_lines.py INPUT OUTPUT [--partitions N] [--scheduler ADDRESS]

Without an address it starts two workers on this machine. The workers of a scheduler need sval.py on their PYTHONPATH, and
SVAL_LIBRARY. It wants Debian's python3-distributed. A line that has no CBOR ends the run, with its number and its fault.
"""

import argparse
import pathlib
import sys

sys.path.insert(0, str(pathlib.Path(__file__).resolve().parent.parent))


def packed(lines, first):
    """The CBOR of each line, one behind the other. `first` is the number of the first line, counted from 1."""
    import sval

    items = []
    for number, line in enumerate(lines, first):
        try:
            items.append(sval.to_cbor(line))
        except sval.Error as error:
            raise ValueError(f"line {number}: {error}") from None
    return b"".join(items)


def partitions(lines, count):
    """The lines in at most `count` parts of about the same number, each with the number of its first line."""
    size = -(-len(lines) // count) or 1
    return [(lines[at : at + size], at + 1) for at in range(0, len(lines), size)]


def pack_all(client, lines, count):
    """What `packed` gives of all lines, by a client's workers."""
    futures = [client.submit(packed, part, first, pure=False) for part, first in partitions(lines, count)]
    return b"".join(client.gather(futures))


def main():
    parser = argparse.ArgumentParser(description=__doc__, formatter_class=argparse.RawDescriptionHelpFormatter)
    parser.add_argument("input", type=pathlib.Path)
    parser.add_argument("output", type=pathlib.Path)
    parser.add_argument("--partitions", type=int, default=8)
    parser.add_argument("--scheduler")
    words = parser.parse_args()
    # Only here, so that a worker takes nothing of Dask for a partition.
    from distributed import Client, LocalCluster

    lines = words.input.read_bytes().split(b"\n")
    if not lines[-1]:
        lines.pop()
    if words.scheduler:
        with Client(words.scheduler) as client:
            words.output.write_bytes(pack_all(client, lines, words.partitions))
        return
    # Processes are spawned and not forked: the library is not to be called in the forked child of a process with threads.
    with LocalCluster(n_workers=2, threads_per_worker=1, host="127.0.0.1", dashboard_address=None) as cluster, Client(cluster) as client:
        words.output.write_bytes(pack_all(client, lines, words.partitions))


if __name__ == "__main__":
    main()
