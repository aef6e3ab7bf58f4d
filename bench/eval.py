#!/usr/bin/env python3
"""Times `col_tool eval` beside Python's own json module, on one large document.

    python3 bench/eval.py [--mixed] [--rows N] [--seed S] [--runs K] [--program PATH] [--beside]

It makes a document of three Int64 columns and one tree, `c0 c1 add c2 add`, from the seed; with
`--mixed` one of five columns of three types, with nulls and with numbers as texts, and four trees
of three steps. Then, in turn, it runs `col_tool eval` on it and loads the same file by `json.load`
in a process of its own. Of each it prints the least seconds of the runs, MB/s and the greatest
memory, and then the ratio of the seconds: below 1, `eval` is ahead. The seconds of `eval` are
those of the whole process, from its start to its end; those of `json` are of the call of `load`
alone.

With `--beside`, which does not go with `--mixed`, it also times, once each and where they are
installed, whole processes of jq on the same document, and of Miller and sqlite3 on the same table
as CSV, working out the same sums.

It stands on Python's standard library alone, and is no part of the tests. The program has to
be built first: `rt run` in crates/col_tool builds it.
"""
import argparse
import json
import os
import random
import shutil
import subprocess
import sys
import tempfile
import time

LOAD = """
import json, sys, time
with open(sys.argv[1], 'rb') as file:
    start = time.perf_counter()
    value = json.load(file)
    print(time.perf_counter() - start)
"""

TREES = [["c0", "c1", "add", "c2", "add"]]


def document(rows, seed):
    """The bytes of a document: sums stay in range, and each column has some nulls."""
    source = random.Random(seed)
    columns = []
    for width in (10**4, 10**6, 10**9):
        values = [None if source.random() < 0.02 else source.randrange(-width, width) for _ in range(rows)]
        columns.append({"type": "Int64", "values": values})
    return json.dumps({"columns": columns, "trees": TREES}, separators=(",", ":")).encode()


MIXED_TREES = [
    ["c0", "c1", "checked_mul", {"type": "Int64", "value": 100}, "div", "c1", "sub"],
    ["c2", "c3", "saturating_add", {"type": "UInt32", "value": 7}, "rem", "c3", "wrapping_mul"],
    ["c4", "c4", "checked_mul", "c4", "checked_add", {"type": "Int16", "value": 3}, "checked_div"],
    ["c0", {"type": "Int64", "value": 2}, "wrapping_mul", "c1", "saturating_sub", "c0", "checked_rem"],
]


def mixed(rows, seed):
    """The bytes of a document of three types, a tenth of its cells null, some columns as texts."""
    source = random.Random(seed)
    columns = []
    for name, least, greatest, is_text in (
        ("Int64", -(10**9), 10**9, False),
        ("Int64", -(10**6), 10**6, True),
        ("UInt32", 0, 2**32 - 1, False),
        ("UInt32", 0, 10**6, True),
        ("Int16", -(2**15), 2**15 - 1, False),
    ):
        values = [None if source.random() < 0.1 else source.randint(least, greatest) for _ in range(rows)]
        if is_text:
            values = [None if value is None else str(value) for value in values]
        columns.append({"type": name, "values": values})
    return json.dumps({"columns": columns, "trees": MIXED_TREES}, separators=(",", ":")).encode()


def table(rows, seed):
    """The same columns as CSV, a null as an empty field."""
    columns = [column["values"] for column in json.loads(document(rows, seed))["columns"]]
    lines = ["c0,c1,c2"]
    lines += [",".join("" if cell is None else str(cell) for cell in row) for row in zip(*columns)]
    return ("\n".join(lines) + "\n").encode()


def beside(folder, document_path, rows, seed):
    """Lines on other programs that work out the same sums."""
    csv = os.path.join(folder, "table.csv")
    make = [sys.executable, __file__, "--rows", str(rows), "--seed", str(seed), "--write-csv", csv]
    subprocess.run(make, check=True)
    sums = "[.columns[].values] | transpose | map(if any(.[]; . == null) then null else add end)"
    query = "select nullif(c0, '') + nullif(c1, '') + nullif(c2, '') from t;"
    programs = (
        ("jq", ["jq", "-c", sums, document_path]),
        ("Miller", ["mlr", "--icsv", "--ocsv", "put", "$s = $c0 + $c1 + $c2", "then", "cut", "-f", "s", csv]),
        ("sqlite3", ["sqlite3", ":memory:", "-cmd", f".import --csv {csv} t", query]),
    )
    for name, arguments in programs:
        if shutil.which(arguments[0]) is None:
            continue
        with open(os.path.join(folder, "beside"), "wb") as sink:
            seconds, memory, status = run(arguments, subprocess.DEVNULL, sink)
        yield f"{name:<18} {seconds:7.3f} s {memory:22.0f} MB at most, status {status}"


def run(arguments, stdin, stdout):
    """Seconds, greatest memory in MB, and status of one process."""
    start = time.perf_counter()
    process = subprocess.Popen(arguments, stdin=stdin, stdout=stdout)
    _, status, usage = os.wait4(process.pid, 0)
    seconds = time.perf_counter() - start
    process.returncode = os.waitstatus_to_exitcode(status)
    return seconds, usage.ru_maxrss / 1024, process.returncode


def main():
    here = os.path.dirname(os.path.abspath(__file__))
    program = os.path.join(here, "..", "crates", "col_tool", "out", "col_tool")
    parser = argparse.ArgumentParser(description=__doc__, formatter_class=argparse.RawDescriptionHelpFormatter)
    parser.add_argument("--rows", type=int, default=1_000_000)
    parser.add_argument("--seed", type=int, default=1)
    parser.add_argument("--runs", type=int, default=5)
    parser.add_argument("--program", default=program)
    parser.add_argument("--beside", action="store_true")
    parser.add_argument("--mixed", action="store_true")
    parser.add_argument("--write", metavar="PATH", help="only write the document there")
    parser.add_argument("--write-csv", metavar="PATH", help="only write the table there, as CSV")
    options = parser.parse_args()
    if options.mixed and (options.beside or options.write_csv):
        parser.error("--beside and --write-csv are for the document without --mixed")
    if options.write:
        with open(options.write, "wb") as file:
            make = mixed if options.mixed else document
            file.write(make(options.rows, options.seed))
        return
    if options.write_csv:
        with open(options.write_csv, "wb") as file:
            file.write(table(options.rows, options.seed))
        return
    if not os.path.exists(options.program):
        sys.exit(f"bench: no program at {options.program}")

    ours, theirs = [], []
    with tempfile.TemporaryDirectory() as folder:
        path = os.path.join(folder, "document.json")
        page = os.path.join(folder, "page")
        # in a process of its own: a process that starts another tells its own memory for it
        make = [sys.executable, __file__, "--rows", str(options.rows), "--seed", str(options.seed), "--write", path]
        make += ["--mixed"] if options.mixed else []
        subprocess.run(make, check=True)
        megabytes = os.path.getsize(path) / 1e6
        for _ in range(options.runs):
            with open(path, "rb") as source, open(page, "wb") as sink:
                seconds, memory, status = run([options.program, "eval"], source, sink)
            if status != 0:
                sys.exit(f"bench: eval ended with status {status}")
            ours.append((seconds, memory))
            with open(os.path.join(folder, "seconds"), "w+b") as told:
                _, memory, status = run([sys.executable, "-c", LOAD, path], subprocess.DEVNULL, told)
                told.seek(0)
                if status != 0:
                    sys.exit(f"bench: json ended with status {status}")
                theirs.append((float(told.read()), memory))
        written = os.path.getsize(page)
        others = list(beside(folder, path, options.rows, options.seed)) if options.beside else []

    print(f"{options.rows} rows, {megabytes:.1f} MB read, {written / 1e6:.1f} MB written, best of {options.runs}")
    for name, runs in (("col_tool eval", ours), ("python json.load", theirs)):
        seconds = min(run[0] for run in runs)
        print(f"{name:<18} {seconds:7.3f} s {megabytes / seconds:8.1f} MB/s {max(run[1] for run in runs):8.0f} MB at most")
    print(f"ratio of seconds   {min(run[0] for run in ours) / min(run[0] for run in theirs):7.2f}")
    for line in others:
        print(line)


if __name__ == "__main__":
    main()
