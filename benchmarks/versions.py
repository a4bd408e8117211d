#!/usr/bin/env python3
"""What depends on the version of an archive: the option `--format`, the moments, and the lines of what is printed.

Each benchmark makes its archives in versions 1 and 2, or in those that `--format V` names, which may be given
more than once. In version 1 a message is a line. From version 2 on it is a line with a stamp and those without
one behind it, so that the messages that a search prints are fewer than the lines that `grep` finds.
"""
import os
import re
import subprocess
import sys

MINUTE = 1740790800000, 1740790859999


def formats_of(words):
    """The versions that are measured, and the words without their options."""
    versions, rest, words = [], [], list(words)
    while words:
        word = words.pop(0)
        if word != "--format" and not word.startswith("--format="):
            rest.append(word)
            continue
        value = word[len("--format=") :] if "=" in word else (words.pop(0) if words else "")
        if value not in ("1", "2", "3"):
            sys.exit(f"{os.path.basename(sys.argv[0])}: --format is 1, 2 or 3")
        versions.append(int(value))
    return sorted(set(versions)) or [1, 2], rest


def named(path, version, kind=""):
    """The name of an archive of this version that stands beside a log."""
    return f"{path}.{kind}{version}.clp"


def minute(version):
    """The options for one minute: milliseconds, and microseconds in version 3."""
    first, last = MINUTE
    if version == 3:
        first, last = first * 1000, last * 1000 + 999
    return "--from", str(first), "--to", str(last)


def printed(words):
    """What a command prints, untimed."""
    return subprocess.run(words, check=False, stdout=subprocess.PIPE, stderr=subprocess.DEVNULL, env=dict(os.environ, LC_ALL="C")).stdout


def lines_found(out, names, texts):
    """Of messages that were printed: how many lines match, how many messages there are, and how many do not match.

    A line matches where it has the texts one behind the other, as `grep` sees it; the name and the number in
    front of a message are no part of its first line. A message matches where it has them over its lines.
    """
    front = rb"^(?:%s):[0-9]+:" % b"|".join(re.escape(it.encode()) for it in names)
    messages = re.split(front, out, flags=re.M)[1:]
    form = b".*".join(re.escape(it.encode("latin-1")) for it in texts)
    line, whole = re.compile(form), re.compile(form, re.DOTALL)
    lines = sum(line.search(it) is not None for message in messages for it in message.split(b"\n")[: message.count(b"\n") or 1])
    return lines, len(messages), sum(whole.search(it) is None for it in messages)


def complaint(out, names, texts, wanted, version):
    """What is wrong with the messages that a search printed, where `grep` finds so many lines; None where nothing is."""
    lines, messages, others = lines_found(out, names, texts)
    if lines != wanted:
        return f"version {version} prints {lines} lines that match, and grep finds {wanted}"
    if others:
        return f"version {version} prints {others} messages that do not match"
    if version == 1 and messages != lines:
        return f"version 1 prints {messages} messages for {lines} lines"
    return None
