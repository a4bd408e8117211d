#!/usr/bin/env python3
"""Times `ingest --watch` beside `ingest` of the same logs: measure_watch.py [--format V]... ROUNDS LOG CLPA [SHAPE].

The log is cut in four files, which are taken into an empty archive of each version: by four workers and by one, in
segments of 65,536 messages and of 4,096. In turns `--watch` has a rare word, is not there, has a word that many
lines have, and one that none has. Of the messages that are printed the lines that match are counted, and held
against the lines that `grep` finds in the logs; a difference fails the run. Then a line is written into a pipe each tenth of a second, and it is told how
long after that it was printed, in segments of one message. Times, ratios and memory are as in measure.py.
"""
import os
import statistics
import subprocess
import sys
import threading
import time

from measure import HEAD, Command, failing, table
from measure_archive import SHORT, TEXTS, made, quarters
from versions import complaint, formats_of, named, printed

ABSENT = "no-line-has-this"
# How many lines are written into the pipe.
SLOW_LINES = 50


def grepped(words, files):
    """How many lines `grep` finds in the files."""
    found = subprocess.run(["grep", "-aFch", words, *files], check=False, capture_output=True, env=dict(os.environ, LC_ALL="C"))
    return sum(int(it) for it in found.stdout.split())


def watching(clpa, archive, version, options, words, files):
    """The commands of one version: without `--watch` and with it, for each of the words."""
    begin, ingest = lambda: made(clpa, archive, version), [clpa, archive, "ingest", *options]
    commands = [Command(f"clpa ingest --watch {text}", version, [*ingest, "--watch", text, *files], begin) for text in words]
    return [commands[0], Command("clpa ingest", version, [*ingest, *files], begin), *commands[1:]]


def compared(bench, name, options, words):
    """Prints the rows of one way to take the logs in; whether something was not as it should be."""
    clpa, path, files, versions, rounds = bench
    commands = [command for it in versions for command in watching(clpa, named(path, it, "watch"), it, options, words, files)]
    failed, _ = table(name, commands, "clpa ingest", rounds, sum(os.path.getsize(it) for it in files))
    for command in commands:
        if "--watch" not in command.words:
            continue
        text = command.words[command.words.index("--watch") + 1]
        command.before()
        wrong = complaint(messages_in(printed(command.words), len(files)), files, [text], grepped(text, files), command.version)
        if wrong:
            failed = True
            print(failing(name, f"{command.name}: {wrong}"))
    return failed


def messages_in(out, files):
    """What is printed before the line of each file."""
    return b"".join(out.splitlines(keepends=True)[:-files])


def delays(clpa, archive, version):
    """How long after it was written into a pipe each line was printed, in seconds."""
    made(clpa, archive, version)
    words = [clpa, archive, "ingest", "--segment", "1", "--watch", "hit", "/dev/stdin"]
    found = []
    with subprocess.Popen(words, stdin=subprocess.PIPE, stdout=subprocess.PIPE) as child:
        # one that prints nothing is ended
        timer = threading.Timer(60, child.kill)
        timer.start()
        for number in range(SLOW_LINES):
            time.sleep(0.1)
            start = time.perf_counter()
            child.stdin.write(b"hit %d\n" % number)
            child.stdin.flush()
            if child.stdout.readline() != b"/dev/stdin:%d:hit %d\n" % (number + 1, number):
                break
            found.append(time.perf_counter() - start)
        child.stdin.close()
        child.stdout.read()
        timer.cancel()
    return found if child.returncode == 0 and len(found) == SLOW_LINES else []


def slowly(clpa, path, versions):
    """Tells of lines that come one by one; whether something was not as it should be."""
    failed = False
    for it in versions:
        archive = named(path, it, "watch")
        slow = delays(clpa, archive, it)
        os.remove(archive)
        if slow:
            print(f"version {it}: a line by itself, from the pipe to the output: {statistics.median(slow) * 1000:.1f} ms, at most {max(slow) * 1000:.1f}")
        else:
            failed = True
            print(f"version {it}: of a log that came slowly other lines were printed")
    return failed


def main():
    versions, words = formats_of(sys.argv[1:])
    rounds, path, clpa = int(words[0]), words[1], words[2]
    rare, _, common, _, _ = TEXTS[words[3] if len(words) > 3 else "service"]
    bench, failed = (clpa, path, quarters(path), versions, rounds), False
    print(HEAD)
    for name, options in (
        ("4 workers, 4 files", ["--workers", "4"]),
        ("1 worker, 4 files", ["--workers", "1"]),
        (f"4 workers, segments of {SHORT:,}", ["--workers", "4", "--segment", str(SHORT)]),
        (f"1 worker, segments of {SHORT:,}", ["--workers", "1", "--segment", str(SHORT)]),
    ):
        failed = compared(bench, name, options, (rare, common, ABSENT)) or failed
    print()
    failed = slowly(clpa, path, versions) or failed
    print("ratio: the speed beside `ingest` of the same logs in the same run, by the clock and by the processor; above 1 is faster")
    sys.exit(1 if failed else 0)


if __name__ == "__main__":
    main()
