#!/usr/bin/env python3
"""Times commands in interleaved rounds and prints a table: measure.py ROUNDS FILE CLPA.

Each command's output goes through a pipe to this script, which throws it away: a search that
sees that its output is the null device may stop at the first hit. The time of a command is that
from its start until its end, with its output read. Of each command the median over the rounds is
shown, with the bytes of the file a second, the ratio to the command that it stands beside, and
the most memory that it had, looked at every few milliseconds. Each row tells of which version its archive is;
`show` and `scan` make none.
"""
import os
import re
import resource
import select
import shutil
import statistics
import subprocess
import sys
import time
from typing import Callable, NamedTuple, Optional

RARE, COMMON, WILD = "quorum-lost", "heartbeat", "Task*SECONDS"


def peak_of(pid):
    """The most memory that a running process had so far, in KiB, or 0 where it has ended.

    What `wait4` tells would count the pages of this script, from which the process was forked.
    """
    try:
        with open(f"/proc/{pid}/status", encoding="ascii") as status:
            return next((int(line.split()[1]) for line in status if line.startswith("VmHWM")), 0)
    except OSError:
        return 0


class Run(NamedTuple):
    """One run of a command: seconds by the clock, those of the processor, the peak of memory in KiB, lines, status."""

    seconds: float
    processor: float
    peak: int
    lines: int
    status: int


def spent():
    """The processor seconds of all commands so far that have ended."""
    usage = resource.getrusage(resource.RUSAGE_CHILDREN)
    return usage.ru_utime + usage.ru_stime


def run(words, settings=None):
    """Runs a command with its output read and thrown away, with these settings in its environment."""
    start, before = time.perf_counter(), spent()
    with subprocess.Popen(words, stdout=subprocess.PIPE, stderr=subprocess.DEVNULL, env=dict(os.environ, LC_ALL="C", **(settings or {}))) as child:
        out = child.stdout.fileno()
        peak, lines, looked = 0, 0, 0.0
        while True:
            ready, _, _ = select.select([out], [], [], 0.005)
            if time.perf_counter() - looked > 0.005:
                peak = max(peak, peak_of(child.pid))
                looked = time.perf_counter()
            if ready:
                part = os.read(out, 1 << 20)
                if not part:
                    break
                lines += part.count(b"\n")
        status = child.wait()
    return Run(time.perf_counter() - start, spent() - before, peak, lines, status)


def middle_of(runs):
    """The medians of seconds by the clock and of the processor."""
    return statistics.median(it.seconds for it in runs), statistics.median(it.processor for it in runs)


class Command(NamedTuple):
    """A command of a table: its name, the version of its archive or None, its words, and what is done before it."""

    name: str
    version: Optional[int]
    words: list
    before: Callable = lambda: None


HEAD = "| what | command | version | seconds | processor | MB/s | ratio | by processor | peak MiB | lines out |\n" + "| --- " * 10 + "|"


def row(what, command, runs, beside, size):
    """A row of the table: a command beside the measure of its group."""
    seconds, processor = middle_of(runs)
    peak, first = max(it.peak for it in runs) / 1024, runs[0]
    note = "" if first.status in (0, 1) else f" (status {first.status})"
    ratios = beside[0] / seconds, beside[1] / max(processor, 0.001)
    return "| %s | %s%s | %s | %.3f | %.3f | %.0f | %.2f | %.2f | %.1f | %d |" % (
        what, command.name, note, command.version or "-", seconds, processor, size / seconds / 1e6, *ratios, peak, first.lines)


def failing(what, text):
    """A row that tells why the run fails."""
    return f"| {what} | {text} |" + " |" * 8


def table(what, commands, measure, rounds, size):
    """Runs the commands in turns and prints a row of each; whether one failed, and the lines of each that it printed.

    Each stands beside the command with the name `measure` that is of its version, or of none.
    """
    runs = [[] for _ in commands]
    for _ in range(rounds):
        for command, found in zip(commands, runs):
            command.before()
            found.append(run(command.words))
    for command, found in zip(commands, runs):
        place = next(n for n, it in enumerate(commands) if it.name == measure and it.version in (command.version, None))
        print(row(what, command, found, middle_of(runs[place]), size), flush=True)
    lines = {(command.name, command.version): found[0].lines for command, found in zip(commands, runs)}
    # only a search of another program says by 1 that there is nothing
    failed = any(it.status not in ((0,) if command.name.startswith("clpa") else (0, 1)) for command, found in zip(commands, runs) for it in found)
    return failed, lines


def packed_log(path):
    """The log compressed by `zstd -3`, beside it; None where zstd is not there."""
    if not shutil.which("zstd"):
        return None
    subprocess.run(["zstd", "-q", "-f", "-3", path, "-o", f"{path}.zst"], check=True)
    return f"{path}.zst"


def others(texts, path, packed, counting=False):
    """What one would search with otherwise, where it is there, for texts one behind the other.

    They are `rg` over the log, and `zstdgrep` and `rg -z` over the one that is compressed.
    """
    fixed, mode = len(texts) == 1, "-c" if counting else "-n"
    basic = ".*".join(it if fixed else re.sub(r"([][.*^$\\])", r"\\\1", it) for it in texts)
    full = ".*".join(it if fixed else re.sub(r"([][.*+?^$\\(){}|])", r"\\\1", it) for it in texts)
    flag = ["-F"] if fixed else []
    rg = ["rg", "--no-config", "-a", mode, "-j1", *flag]
    found = [(" ".join(["rg", *flag]), [*rg, "-e", full, path])]
    if packed:
        found.append(("zstdgrep", ["zstdgrep", "-a", mode, *flag, "-e", basic, packed]))
        found.append(("rg -z", [*rg, "-z", "-e", full, packed]))
    return [Command(name, None, words) for name, words in found if shutil.which(words[0])]


def single(path, form):
    """A text of this form from the middle of the log."""
    with open(path, "rb") as log:
        log.seek(os.path.getsize(path) // 2)
        return re.search(form, log.read(1 << 20)).group().decode()


def groups(clpa, path, packed):
    """Each group: its name, and its commands; the second is the measure."""
    found = [("show", [Command("clpa show", None, [clpa, "-", "show", path]), Command("cat", None, ["cat", path])])]
    whole = single(path, rb" blk_\d{9,} ")
    for name, text in (("whole word, closed on both sides,", whole), ("rare word", RARE), ("common word", COMMON)):
        scan, grep = [clpa, "-", "scan", text, path], ["grep", "-a", "-n", "-F", text, path]
        found.append((f"{name} `{text}`", [Command("clpa scan", None, scan), Command("grep -F", None, grep), *others([text], path, packed)]))
    scan, grep = [clpa, "-", "scan", WILD, path], ["grep", "-a", "-n", WILD.replace("*", ".*"), path]
    commands = [Command("clpa scan", None, scan), Command("grep", None, grep), *others(WILD.split("*"), path, packed)]
    return [*found, (f"wildcard `{WILD}`", commands)]


def main():
    rounds, path, clpa = int(sys.argv[1]), sys.argv[2], sys.argv[3]
    size = os.path.getsize(path)
    with open(path, "rb") as log:  # so that the first command does not pay for the disk
        while log.read(1 << 22):
            pass
    packed, failed = packed_log(path), False
    print(HEAD)
    for what, commands in groups(clpa, path, packed):
        wrong, lines = table(what, commands, commands[1].name, rounds, size)
        failed = failed or wrong
        if what != "show" and len(set(lines.values())) > 1:
            failed = True
            print(failing(what, f"the commands found different lines: {sorted(set(lines.values()))}"))
    if packed:
        os.remove(packed)
    print("\n`show` and `scan` read the log alone: they make no archive, and are of no version")
    print("ratio: the speed beside `cat` or `grep` on the same file in the same run, by the clock and by the processor; above 1 is faster")
    sys.exit(1 if failed else 0)


if __name__ == "__main__":
    main()
