#!/usr/bin/env python3
"""Times the commands over archives in interleaved rounds: measure_archive.py [--format V]... ROUNDS LOG CLPA [SHAPE].

The archives, one of each version, stand beside the log and are made anew in each round of `ingest`. What
`decode` gives back is held against the log. Of the messages that `search` prints, the lines that match are
counted, and held against the lines that `grep` finds; what `count` tells is held against the messages that
`search` prints. A difference fails the run. Times, ratios and memory are as in measure.py.
"""
import filecmp
import os
import re
import shutil
import subprocess
import sys
from typing import NamedTuple

from measure import HEAD, Command, failing, others, packed_log, run, single, table
from versions import complaint, formats_of, minute, named, printed

# Of each shape of log: a word in few lines of each segment, a part of a word, a common word, a wildcard,
# and what a word looks like that stands in one line.
TEXTS = {
    "service": ("quorum-lost", "task_1734", "heartbeat", "Task*SECONDS", rb"blk_\d{9,}"),
    "requests": ("user1234", "user199", "orders", "GET*orders", rb"[0-9a-f]{32}"),
    "daemon": ("612", "reload", "reloaded", "started*network", None),
    "real": ("user421", "page-199", "UPDATE", "GET /api*HTTP", rb"(?<=[?]session=)[0-9a-f]{32}"),
}
TEXTS["stamped"], TEXTS["written"] = TEXTS["service"], TEXTS["real"]
# A number that few lines have, open on both sides.
NUMBER = "0.335"
# A word in one line, with what stands beside it, in segments of 65,536 messages and in short ones.
WHOLE, SHORT = "whole word, closed on both sides, in one segment", 4096


def closed(path, form):
    """Such a word with the bytes before and behind it, so that only the whole word matches."""
    return single(path, rb"[ =](?:" + form + rb") ")


def bytes_read(words):
    """How many bytes a command reads of files, by strace; None where that is not there."""
    if not shutil.which("strace"):
        return None
    traced = subprocess.run(["strace", "-f", "-e", "trace=read,pread64", *words], check=False, stdout=subprocess.DEVNULL, stderr=subprocess.PIPE, text=True)
    return sum(int(it) for it in re.findall(r"= (\d+)$", traced.stderr, re.M))


def quarters(path):
    """The log in four files of whole lines, made once."""
    names = [f"{path}.{n}" for n in range(4)]
    if not all(os.path.exists(it) for it in names):
        size = os.path.getsize(path)
        with open(path, "rb") as log:
            for n, name in enumerate(names):
                want = size * (n + 1) // 4 - log.tell()
                with open(name, "wb") as out:
                    while want > 0:
                        part = log.read(min(want, 1 << 22))
                        out.write(part)
                        want -= len(part)
                    out.write(log.readline())
    return names


def made(clpa, archive, version=1):
    """An empty archive of this version."""
    if os.path.exists(archive):
        os.remove(archive)
    subprocess.run([clpa, archive, "create", "--format", str(version)], check=True)


def in_segments(clpa, archive, messages, path, version=1):
    """An archive of the log whose segments have so many messages at most."""
    made(clpa, archive, version)
    subprocess.run([clpa, archive, "ingest", "--segment", str(messages), path], check=True, stdout=subprocess.DEVNULL)


class Bench(NamedTuple):
    """What is measured: the program, the log and it compressed, the versions, and how often."""

    clpa: str
    path: str
    packed: str
    versions: list
    rounds: int

    def size(self):
        return os.path.getsize(self.path)

    def archive(self, version, kind="one"):
        return named(self.path, version, kind)

    def each(self, name, words, kind="one"):
        """The command over the archive of each version; `words` are those behind the archive, or give them by version."""
        of = words if callable(words) else lambda _: words
        return [Command(name, it, [self.clpa, self.archive(it, kind), *of(it)]) for it in self.versions]


def grepped(text, path):
    """How many lines `grep` finds."""
    found = subprocess.run(["grep", "-aFc", "-e", text, path], check=False, capture_output=True, env=dict(os.environ, LC_ALL="C"))
    return int(found.stdout)


def taken_in(bench):
    """The rows of `ingest` and `decode`; whether something was not as it should be."""
    clpa, path, files = bench.clpa, bench.path, quarters(bench.path)
    commands = []
    for it in bench.versions:
        one, four = bench.archive(it), bench.archive(it, "four")
        commands.append(Command("clpa ingest, 1 worker", it, [clpa, one, "ingest", path], lambda one=one, it=it: made(clpa, one, it)))
        words = [clpa, four, "ingest", "--workers", "4", *files]
        commands.append(Command("clpa ingest, 4 workers, 4 files", it, words, lambda four=four, it=it: made(clpa, four, it)))
    commands.append(Command("zstd -3 -T1", None, ["zstd", "-q", "-f", "-3", "-T1", path, "-o", bench.packed]))
    failed, _ = table("into an archive", commands, "zstd -3 -T1", bench.rounds, bench.size())
    for it in bench.versions:
        for archive in (bench.archive(it), bench.archive(it, "four")):
            failed = subprocess.run([clpa, archive, "check"], check=False, capture_output=True).returncode != 0 or failed
        with open(f"{path}.back", "wb") as back:
            subprocess.run([clpa, bench.archive(it), "decode", "0"], check=True, stdout=back)
        if not filecmp.cmp(path, f"{path}.back", shallow=False):
            failed = True
            print(failing("decode", f"version {it} gives other bytes than the log"))
        os.remove(f"{path}.back")
    commands = [*bench.each("clpa decode", ["decode", "0"]), Command("zstd -dc", None, ["zstd", "-dc", bench.packed])]
    return table("out of it", commands, "zstd -dc", bench.rounds, bench.size())[0] or failed


def searched(bench, name, pattern, kind="one", counting=True):
    """The rows of a search; whether it found other lines than `grep` does."""
    texts = pattern.split("*")
    option = "-an" if len(texts) > 1 else "-aFc" if counting else "-aFn"
    grep = Command(f"grep {option}", None, ["grep", option, "-e", ".*".join(texts), bench.path])
    commands = bench.each("clpa search", ["search", pattern], kind) + bench.each("clpa search, 4 workers", ["search", "--workers", "4", pattern], kind)
    commands += [grep, *others(texts, bench.path, bench.packed, option == "-aFc")]
    what = f"{name} `{pattern}`"
    failed, lines = table(what, commands, grep.name, bench.rounds, bench.size())
    wanted = lines[grep.name, None] if len(texts) > 1 else grepped(pattern, bench.path)
    for command in commands[: 2 * len(bench.versions)]:
        wrong = complaint(printed(command.words), [bench.path], texts, wanted, command.version)
        if wrong:
            failed = True
            print(failing(what, f"{command.name}: {wrong}"))
    return failed


def messages_of(bench, version, text):
    """How many messages a search prints, or the archive has where there is no text."""
    if not text:
        return int(printed([bench.clpa, bench.archive(version), "files"]).split(b" ")[1])
    return len(re.findall(rb"^%s:[0-9]+:" % re.escape(bench.path.encode()), printed([bench.clpa, bench.archive(version), "search", text]), re.M))


def counted(bench, common, rare):
    """The groups of `count`, held against the messages that `search` prints."""
    failed, some = False, f"{common[:3]}?{common[4:]}"
    for name, by, text in [("all", "type", ""), ("all", "minute", ""), ("common word", "type", common), ("common word", "minute", common), ("rare word", "minute", rare)]:
        grep = ["grep", "-aFc", text, bench.path] if text else ["grep", "-ac", "", bench.path]
        commands = [*bench.each(f"clpa count --by {by}", ["count", "--by", by, text]), Command(" ".join(grep[:2]), None, grep)]
        what = f"count by {by}, {name} `{text}`"
        failed = table(what, commands, commands[-1].name, bench.rounds, bench.size())[0] or failed
        for command in commands[:-1]:
            lines = (it.split(b" ") for it in printed(command.words).splitlines())
            at = 0 if by == "type" else 1
            # From version 2 on the text of a log type may have lines of its own.
            told = sum(int(it[at]) for it in lines if len(it) > at and it[at].isdigit())
            wanted = messages_of(bench, command.version, text)
            if told != wanted:
                failed = True
                print(failing(what, f"version {command.version} tells {told} messages, and has {wanted}"))
    pair = bench.each("clpa count --by type", ["count", "--by", "type", some]) + bench.each("clpa search", ["search", some])
    return table(f"count of a pattern that is expanded, `{some}`", pair, "clpa search", bench.rounds, bench.size())[0] or failed


def whole_archives(bench):
    """The rows of what reads an archive and nothing else; the bytes a second are those of each archive."""
    failed = False
    for it in bench.versions:
        only = bench._replace(versions=[it])
        commands = [*only.each("clpa check", ["check"]), Command("zstd -t", None, ["zstd", "-q", "-t", bench.packed]), *only.each("clpa files", ["files"])]
        failed = table("whole archive", commands, "zstd -t", bench.rounds, os.path.getsize(bench.archive(it)))[0] or failed
    print()
    for it in bench.versions:
        opened = bytes_read([bench.clpa, bench.archive(it), "files"])
        if opened:
            print(f"version {it}: `files` reads {opened} bytes: {opened / 1e9:.3f} s at 1 GB/s")
    for it in bench.versions:
        size = os.path.getsize(bench.archive(it))
        print(f"version {it}: archive: {size} bytes of {bench.size()}, {size / bench.size():.2f}; zstd -3: {os.path.getsize(bench.packed) / bench.size():.2f}")
    return failed


def main():
    versions, words = formats_of(sys.argv[1:])
    path, clpa = words[1], words[2]
    rare, part, common, wild, form = TEXTS[words[3] if len(words) > 3 else "service"]
    bench = Bench(clpa, path, packed_log(path), versions, int(words[0]))
    print(HEAD)
    failed = taken_in(bench)
    if form:
        for it in versions:
            in_segments(clpa, bench.archive(it, "short"), SHORT, path, it)
        for kind, behind in (("one", ""), ("short", f" of {SHORT:,} messages")):
            failed = searched(bench, f"word in one segment{behind}", single(path, form), kind) or failed
            failed = searched(bench, f"{WHOLE}{behind}", closed(path, form), kind) or failed
    for name, pattern, counting in (
        ("rare word", rare, True), ("number", NUMBER, True), ("part of a word", part, True), ("common word", common, False), ("wildcard", wild, False)):
        failed = searched(bench, name, pattern, counting=counting) or failed
    grep = Command("grep -aFc", None, ["grep", "-aFc", common, path])
    commands = [*bench.each("clpa search --from --to", lambda it: ["search", *minute(it), ""]), grep, *others([common], path, bench.packed, True)]
    failed = table("one minute", commands, grep.name, bench.rounds, bench.size())[0] or failed
    failed = counted(bench, common, rare) or failed
    failed = whole_archives(bench) or failed
    print("ratio: the speed beside `zstd`, `grep` or `search` in the same run, by the clock and by the processor; above 1 is faster")
    sys.exit(1 if failed else 0)


if __name__ == "__main__":
    main()
