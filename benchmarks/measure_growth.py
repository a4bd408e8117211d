#!/usr/bin/env python3
"""How the time of each command grows: measure_growth.py [--format V]... ROUNDS CLPA SHAPE SMALL LARGE.

Each command runs on both logs, and on the archives made of them, one of each version, in turns. The median of
the rounds is shown for each size, the growth between them, and the most memory at the larger one.
"""
import os
import subprocess
import sys

from measure import Command, middle_of, others, packed_log, run, single
from measure_archive import SHORT, TEXTS, WHOLE, Bench, closed, in_segments, made, quarters
from versions import formats_of, minute


def ingests(bench):
    """The groups of what makes archives."""
    clpa, path, files, found = bench.clpa, bench.path, quarters(bench.path), []
    for name, kind, words in (("clpa ingest, 1 worker", "one", [path]), ("clpa ingest, 4 workers, 4 files", "four", ["--workers", "4", *files])):
        found.append([
            Command(name, it, [clpa, bench.archive(it, kind), "ingest", *words], lambda kind=kind, it=it: made(clpa, bench.archive(it, kind), it))
            for it in bench.versions
        ])
    return [*found, [Command("zstd -3 -T1", None, ["zstd", "-q", "-f", "-3", "-T1", path, "-o", bench.packed])]]


def searches(bench, shape):
    """The groups of searches, and of what one would search with otherwise."""
    path, (rare, part, common, wild, form), found = bench.path, TEXTS[shape], []
    if form:
        for it in bench.versions:
            in_segments(bench.clpa, bench.archive(it, "short"), SHORT, path, it)
        for kind, behind in (("one", ""), ("short", f" of {SHORT:,} messages")):
            found.append(bench.each(f"clpa search, word in one segment{behind}", ["search", single(path, form)], kind))
            found.append(bench.each(f"clpa search, {WHOLE}{behind}", ["search", closed(path, form)], kind))
    for name, text in (("rare word", rare), ("part of a word", part), ("common word", common), ("wildcard", wild)):
        found.append(bench.each(f"clpa search, {name}", ["search", text]))
        found.append(bench.each(f"clpa search, {name}, 4 workers", ["search", "--workers", "4", text]))
    for name, text, option in (("rare word", rare, "-aFc"), ("common word", common, "-aFn"), ("wildcard", wild, "-an")):
        found.append([Command(f"grep {option}, {name}", None, ["grep", option, text.replace("*", ".*"), path])])
        found += [[it._replace(name=f"{it.name}, {name}")] for it in others(text.split("*"), path, bench.packed, option == "-aFc")]
    return found


def groups(bench, shape):
    """The commands; those that differ by the version of their archive alone are a group."""
    return [
        *ingests(bench),
        bench.each("clpa decode", ["decode", "0"]),
        [Command("zstd -dc", None, ["zstd", "-dc", bench.packed])],
        bench.each("clpa check", ["check"]),
        bench.each("clpa files", ["files"]),
        bench.each("clpa search, one minute", lambda it: ["search", *minute(it), ""]),
        *searches(bench, shape),
    ]


def printed_rows(small, large, rounds, size):
    """Runs a group on both logs in turns and prints a row of each of its commands."""
    times = [([], []) for _ in small]
    for _ in range(rounds):
        for pair, found in zip(zip(small, large), times):
            for command, runs in zip(pair, found):
                command.before()
                runs.append(run(command.words))
                if runs[-1].status not in (0, 1):
                    sys.exit(f"{command.words} ended with {runs[-1].status}")
    for command, found in zip(small, times):
        (short, few), (long, many) = (middle_of(it) for it in found)
        peak = max(it.peak for runs in found for it in runs) / 1024
        print("| %s | %s | %.3f | %.3f | %.3f | %.3f | %.1f | %.0f | %.1f |" % (
            command.name, command.version or "-", short, few, long, many, long / short, size / long / 1e6, peak), flush=True)


def main():
    versions, words = formats_of(sys.argv[1:])
    rounds, clpa, shape = int(words[0]), words[1], words[2]
    benches = [Bench(clpa, it, packed_log(it), versions, rounds) for it in words[3:5]]
    sizes = [it.size() for it in benches]
    print(f"| command | version | {sizes[0] / 1e6:.0f} MB, s | processor | {sizes[1] / 1e6:.0f} MB, s | processor | growth | MB/s | peak MiB |")
    print("| --- " * 9 + "|")
    for small, large in zip(*(groups(it, shape) for it in benches)):
        printed_rows(small, large, rounds, sizes[1])
    print()
    failed = False
    for bench in benches:
        for it in versions:
            one = os.path.getsize(bench.archive(it))
            print(f"version {it}: archive of {bench.size()} bytes: {one}, {one / bench.size():.2f}; zstd -3: {os.path.getsize(bench.packed) / bench.size():.2f}")
    for it in versions:
        back = subprocess.run(f"'{clpa}' '{benches[1].archive(it)}' decode 0 | cmp - '{benches[1].path}'", shell=True, check=False)
        failed = failed or back.returncode != 0
        print(f"version {it}: decode of the larger one: {'byte for byte what went in' if back.returncode == 0 else 'OTHER BYTES'}")
    sys.exit(1 if failed else 0)


if __name__ == "__main__":
    main()
