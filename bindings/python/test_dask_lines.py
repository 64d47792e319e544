#!/usr/bin/env python3
"""Two workers of Dask on the loopback write the bytes that one process writes, and find the same bad line."""

import json
import pathlib
import subprocess
import sys
import tempfile

HERE = pathlib.Path(__file__).resolve().parent
sys.path.insert(0, str(HERE / "examples"))
import dask_lines

COMMAND = [sys.executable, "-B", str(HERE / "examples/dask_lines.py")]


def run(lines, folder):
    """How the example ends over these lines, and what it writes."""
    source, target = folder / "lines.json", folder / "lines.cbor"
    source.write_bytes(b"".join(line + b"\n" for line in lines))
    target.unlink(missing_ok=True)
    ended = subprocess.run([*COMMAND, str(source), str(target), "--partitions", "7"], capture_output=True, text=True, timeout=300)
    return ended, target.read_bytes() if target.exists() else None


def main():
    lines = [json.dumps({"number": at, "tags": ["a", "é"] * (at % 3), "none": None}).encode() for at in range(1000)]
    with tempfile.TemporaryDirectory() as name:
        ended, written = run(lines, pathlib.Path(name))
        assert ended.returncode == 0, ended.stderr
        assert written == dask_lines.packed(lines, 1)
        lines[700] = b"[1,]"
        ended, written = run(lines, pathlib.Path(name))
        assert ended.returncode != 0 and written is None
        assert "line 701: invalid JSON at byte 3" in ended.stderr, ended.stderr
    print("dask: ok")


if __name__ == "__main__":
    main()
