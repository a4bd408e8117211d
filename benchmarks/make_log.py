#!/usr/bin/env python3
"""Writes a log as services write it: make_log.py MEGABYTES SEED FILE [SHAPE].

The same size, seed and shape give the same bytes. Of the shape `service`, which is the default, most lines begin with a stamp, of one of several
kinds; each service keeps to one kind. The messages hold levels, task and container numbers,
addresses, decimals, paths and `key=value` pairs; some are followed by a stack trace of lines
without a stamp. Two words stand in it for the searches: `quorum-lost` in about one line of fifty
thousand, and `heartbeat` in about one line of twenty. Of the shape `requests` each line has an
identifier of 32 digits that no other line has, so that words are many. Of the shape `daemon` a few
dozen texts come again and again with small numbers in them, so that words are few. The shape `stamped` is
`service` without the service whose stamps, those of a traditional syslog, the program does not read.
The shapes `real` and `written` grow out of what real programs wrote (real/README.md).
"""
import random
import sys
from datetime import datetime, timedelta

from real.grow import real, written

LEVELS = ["INFO"] * 16 + ["DEBUG"] * 6 + ["WARN"] * 2 + ["ERROR"]
SERVICES = ["scheduler", "gateway", "billing", "indexer", "auth", "storage", "mailer", "metrics"]
CLASSES = ["TaskManager", "BlockStore", "RpcServer", "SessionPool", "Shuffle", "LeaseKeeper"]
TRADITIONAL = lambda t: t.strftime("%b %d %H:%M:%S")
STAMPS = [
    lambda t: "%04d-%02d-%02d %02d:%02d:%02d,%03d" % parts(t),
    lambda t: "%04d-%02d-%02d %02d:%02d:%02d.%03d" % parts(t),
    lambda t: "%04d-%02d-%02dT%02d:%02d:%02d.%03d" % parts(t),
    lambda t: "[%04d-%02d-%02d %02d:%02d:%02d,%03d]" % parts(t),
    lambda t: "%04d-%02d-%02d %02d:%02d:%02d" % parts(t)[:6],
    lambda t: "%04d-%02d-%02dT%02d:%02d:%02dZ" % parts(t)[:6],
    lambda t: "%02d/%02d/%02d %02d:%02d:%02d" % ((t.year % 100,) + parts(t)[1:6]),
    TRADITIONAL,
]


def parts(t):
    return (t.year, t.month, t.day, t.hour, t.minute, t.second, t.microsecond // 1000)


def address(r):
    return "10.%d.%d.%d:%d" % (r.randrange(4), r.randrange(64), r.randrange(1, 255), r.choice((80, 443, 8020, 9092, 50010)))


def message(r):
    kind = r.random()
    task = r.randrange(1, 40_000)
    if kind < 0.05:
        return "heartbeat from %s in %.3f ms, %d blocks" % (address(r), r.random() * 40, r.randrange(9_000))
    if kind < 0.25:
        return "Task task_%d assigned to container: [NodeAddress:%s, ContainerID:container_%d], operation took %.3f SECONDS" % (
            task, address(r), r.randrange(1, 2_000), r.random() * 5)
    if kind < 0.45:
        return "GET /api/v2/accounts/%d/orders?page=%d status=%d bytes=%d took=%.1fms client=%s" % (
            r.randrange(100_000), r.randrange(40), r.choice((200, 200, 200, 204, 304, 404, 500)), r.randrange(200_000), r.random() * 300, address(r))
    if kind < 0.60:
        return "Block blk_%d replicated to %s (%d of 3), checksum %08x" % (r.randrange(1 << 40), address(r), r.randrange(1, 4), r.randrange(1 << 32))
    if kind < 0.75:
        return "session=%08x user=user%d action=%s latency=%.2f ok=%s" % (
            r.randrange(1 << 32), r.randrange(5_000), r.choice(("login", "logout", "refresh", "purchase")), r.random() * 90, r.choice(("true", "true", "false")))
    if kind < 0.85:
        return "Compaction of /data/part-%05d finished: %d files, %d -> %d bytes, ratio %.4f" % (
            r.randrange(2_000), r.randrange(2, 40), r.randrange(1 << 30), r.randrange(1 << 28), r.random())
    if kind < 0.93:
        return "queue depth %d, waiting %d, oldest %.2f s" % (r.randrange(900), r.randrange(50), r.random() * 8)
    if kind < 0.99998:
        return "retry %d of 5 for task_%d after timeout of %d ms" % (r.randrange(1, 6), task, r.choice((250, 500, 1000, 2000)))
    return "quorum-lost on %s, term %d" % (address(r), r.randrange(4_000))


def trace(r):
    lines = ["java.io.IOException: connection to %s was reset" % address(r)]
    for _ in range(r.randrange(4, 12)):
        name = r.choice(CLASSES)
        lines.append("\tat com.example.%s.%s(%s.java:%d)" % (name.lower(), r.choice(("run", "call", "apply", "handle")), name, r.randrange(20, 900)))
    return lines


def lines_of(r, left_out=None):
    now = datetime(2025, 3, 1, 0, 0, 0)
    while True:
        now += timedelta(milliseconds=r.randrange(1, 40))
        service = r.randrange(len(SERVICES))
        level = r.choice(LEVELS)
        lines = ["%s %s [%s] %s: %s" % (STAMPS[service](now), level, SERVICES[service], r.choice(CLASSES), message(r))]
        if level == "ERROR" and r.random() < 0.3:
            lines += trace(r)
        if service != left_out:
            yield from lines


def stamped(r):
    return lines_of(r, STAMPS.index(TRADITIONAL))


def requests(r):
    now = datetime(2025, 3, 1, 0, 0, 0)
    while True:
        now += timedelta(milliseconds=r.randrange(1, 40))
        yield "%s %s request=%032x user=user%d %s /api/v2/%s/%d %d %.3f ms" % (
            STAMPS[2](now), r.choice(LEVELS), r.getrandbits(128), r.randrange(200_000), r.choice(("GET", "GET", "GET", "POST", "PUT")),
            r.choice(("accounts", "orders", "carts", "items")), r.randrange(1_000_000), r.choice((200, 200, 204, 404, 500)), r.random() * 200)


def daemon(r):
    now = datetime(2025, 3, 1, 0, 0, 0)
    texts = ["%s %s of %s" % (verb, what, whom) for verb in ("started", "stopped", "checked", "reloaded") for what in ("timer", "socket", "unit", "mount")
             for whom in ("cron", "network", "storage")]
    while True:
        now += timedelta(milliseconds=r.randrange(1, 900))
        yield "%s host systemd[%d]: %s, %d of %d done in %d ms" % (
            STAMPS[7](now), r.choice((1, 1, 1, 612, 733)), r.choice(texts), r.randrange(1, 5), 5, r.randrange(1, 400))


SHAPES = {"service": lines_of, "stamped": stamped, "requests": requests, "daemon": daemon, "real": real, "written": written}


def main():
    size, seed, path = int(sys.argv[1]) * 1_000_000, int(sys.argv[2]), sys.argv[3]
    lines = SHAPES[sys.argv[4] if len(sys.argv) > 4 else "service"]
    written, batch = 0, []
    with open(path, "w", encoding="ascii", newline="\n") as out:
        for line in lines(random.Random(seed)):
            batch.append(line)
            written += len(line) + 1
            if written >= size or len(batch) == 20_000:
                out.write("\n".join(batch) + "\n")
                batch.clear()
            if written >= size:
                return


if __name__ == "__main__":
    main()
