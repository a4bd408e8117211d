#!/usr/bin/env python3
"""What an archive costs: measure_shapes.py [--format V]... ROUNDS FOLDER MEGABYTES SEED CLPA.

For each shape of log, each of two sizes and each version, which take turns: the bytes of the archive and of its dictionaries and heads
for a byte of log, the speed of `ingest` and `decode`, the time of opening (`files`), of a search for a
word that no line has, and of one for a whole word, closed on both sides, that one line has, in segments
of 65,536 and of 4,096 messages, and the most memory of each. Times are processor seconds, the least
of the rounds.
"""
import os
import struct
import subprocess
import sys

from measure import packed_log, run
from measure_archive import SHORT, TEXTS, closed, in_segments, made
from versions import formats_of, named

KINDS = {1: "names", 2: "types", 3: "words", 4: "segments"}
HEADER, FRAME = 32, 10


def records(path):
    """The bytes of each kind of record, with its gate, kind and length."""
    sizes = dict.fromkeys(KINDS.values(), 0)
    with open(path, "rb") as archive:
        at = archive.seek(HEADER)
        # behind the last record stands one byte, a closed gate
        while len(frame := archive.read(FRAME)) == FRAME:
            size = struct.unpack("<Q", frame[2:])[0]
            sizes[KINDS[frame[1]]] += FRAME + size
            at += FRAME + size
            archive.seek(at)
    return sizes


def cost(words):
    """Processor seconds, and peak memory in MiB."""
    it = run(words)
    if it.status != 0:
        sys.exit(f"{words} ended with {it.status}")
    return it.processor, it.peak / 1024


def least(rounds, commands, before=lambda version: None):
    """Of the command of each version, which take turns: the least seconds, and the most memory."""
    found = {version: [] for version in commands}
    for _ in range(rounds):
        for version, words in commands.items():
            before(version)
            found[version].append(cost(words))
    return {version: (min(it[0] for it in costs), max(it[1] for it in costs)) for version, costs in found.items()}


def whole_words(clpa, log, form, rounds, versions):
    """By version the times of a search for a whole word of one line, in segments of both sizes."""
    if not form:
        return {it: ("-", "-") for it in versions}
    words, found = closed(log, form), {it: [] for it in versions}
    for it in versions:
        in_segments(clpa, named(log, it, "short"), SHORT, log, it)
    for kind in ("one", "short"):
        times = least(rounds, {it: [clpa, named(log, it, kind), "search", words] for it in versions})
        for it in versions:
            found[it].append("%.3f" % times[it][0])
    for it in versions:
        os.remove(named(log, it, "short"))
    return found


def figures(clpa, log, form, rounds, versions):
    """By version the figures of one log, in the order of the columns."""
    def of(*words):
        return {it: [clpa, named(log, it, "one"), *words] for it in versions}

    size = os.path.getsize(log)
    into = least(rounds, of("ingest", log), lambda it: made(clpa, named(log, it, "one"), it))
    back, check, opened = (least(rounds, of(*words)) for words in (("decode", "0"), ("check",), ("files",)))
    search = least(rounds, of("search", "there-is-no-such-word"))
    whole, found = whole_words(clpa, log, form, rounds, versions), {}
    for it in versions:
        archive = named(log, it, "one")
        kinds = records(archive)
        found[it] = (
            os.path.getsize(archive) / size, (kinds["types"] + kinds["words"]) / size, size / into[it][0] / 1e6, into[it][1],
            size / back[it][0] / 1e6, check[it][0], opened[it][0], *search[it], *whole[it])
        os.remove(archive)
    return found


def main():
    versions, words = formats_of(sys.argv[1:])
    rounds, folder, megabytes, seed, clpa = int(words[0]), words[1], int(words[2]), words[3], words[4]
    print("| shape | MB | version | zstd -3 / log | archive / log | dictionaries / log | ingest MB/s | peak MiB | decode MB/s | check s | files s | search s | peak MiB | whole word s | in short segments s |")
    print("| --- " * 15 + "|")
    for shape in ("service", "stamped", "requests", "daemon", "real", "written"):
        for size in (megabytes // 10, megabytes):
            log = f"{folder}/clpa-{shape}-{size}-{seed}.log"
            packed = packed_log(log)
            share = os.path.getsize(packed) / os.path.getsize(log)
            os.remove(packed)
            for version, found in figures(clpa, log, TEXTS[shape][-1], rounds, versions).items():
                print("| %s | %d | %d | %.3f | %.3f | %.3f | %.0f | %.0f | %.0f | %.2f | %.3f | %.3f | %.0f | %s | %s |" % (
                    shape, size, version, share, *found), flush=True)
    print()
    print("seconds and MB/s: of processor time; search: for a word that no line has; whole word: closed on both sides, of one line,")
    print(f"in segments of 65,536 messages and of {SHORT:,}; `stamped` is `service` without the lines whose stamp is not read,")
    print("and `written` is `real` with the stamps that programs write, of which some are not read")


if __name__ == "__main__":
    main()
