#!/usr/bin/env python3
"""Times `merge` and `upgrade` beside `ingest` of the same logs: measure_moves.py [--format V]... ROUNDS LOG CLPA.

The log is cut in four files. For `merge` the first two stand in an archive of each version and the last two in a
second one of the same; beside it the last two are ingested, by one worker, behind the first two, and each run
begins with a copy of the archive. For `upgrade` all four stand in an archive of each version below 3, and no new
archive is there when a run begins; beside it all four are ingested, by one worker, into an empty archive of
version 3. What `decode` gives back is held against the logs, and what `upgrade` makes against what `ingest`
does; a difference fails the run. Times, ratios and memory are as in measure.py.
"""
import filecmp
import os
import shutil
import subprocess
import sys

from measure import HEAD, Command, failing, table
from measure_archive import quarters
from versions import formats_of, named


def created(clpa, archive, version):
    """An empty archive of this version."""
    removed(archive)
    subprocess.run([clpa, archive, "create", "--format", str(version)], check=True)


def removed(archive):
    """Nothing is there."""
    if os.path.exists(archive):
        os.remove(archive)


def filled(clpa, archive, files, version):
    """An archive of this version with these files."""
    created(clpa, archive, version)
    subprocess.run([clpa, archive, "ingest", *files], check=True, stdout=subprocess.DEVNULL)


def gives_back(clpa, archive, files):
    """Whether the archive's files are these, byte for byte."""
    for number, file in enumerate(files):
        back = subprocess.run([clpa, archive, "decode", str(number)], check=True, capture_output=True)
        with open(file, "rb") as log:
            if back.stdout != log.read():
                return False
    return True


def merging(clpa, path, files, version):
    """The commands of one version; each begins with a copy of the archive that has the first files."""
    kept, first = named(path, version, "kept"), named(path, version, "first")
    filled(clpa, kept, files[:2], version)
    filled(clpa, f"{first}.new", files[2:], version)
    begin = lambda: shutil.copyfile(kept, first)
    return [
        Command("clpa merge", version, [clpa, first, "merge"], begin),
        Command("clpa ingest, 1 worker", version, [clpa, first, "ingest", *files[2:]], begin),
    ]


def merges(clpa, path, files, versions, rounds):
    """Prints the rows of `merge`; whether something was not as it should be."""
    commands = [command for it in versions for command in merging(clpa, path, files, it)]
    failed, _ = table("the files of a second archive", commands, "clpa ingest, 1 worker", rounds, sum(os.path.getsize(it) for it in files[2:]))
    for it in versions:
        kept, first = named(path, it, "kept"), named(path, it, "first")
        shutil.copyfile(kept, first)
        subprocess.run([clpa, first, "merge"], check=True, stdout=subprocess.DEVNULL)
        if not gives_back(clpa, first, files):
            failed = True
            print(failing("merge", f"version {it}: its files have other bytes than the logs"))
        for archive in (kept, first, f"{first}.new"):
            os.remove(archive)
    return failed


def upgrading(clpa, path, files, version):
    """The command that makes an archive of version 3 of one of this version."""
    old = named(path, version, "old")
    filled(clpa, old, files, version)
    return Command("clpa upgrade", version, [clpa, old, "upgrade"], lambda: removed(f"{old}.new"))


def upgrades(clpa, path, files, versions, rounds):
    """Prints the rows of `upgrade`; whether something was not as it should be."""
    beside, made = "clpa ingest into version 3, 1 worker", f"{path}.made.clp"
    commands = [upgrading(clpa, path, files, it) for it in versions]
    commands.append(Command(beside, None, [clpa, made, "ingest", *files], lambda: created(clpa, made, 3)))
    failed, _ = table("an archive as one of version 3", commands, beside, rounds, sum(os.path.getsize(it) for it in files))
    for it in versions:
        old = named(path, it, "old")
        if not filecmp.cmp(f"{old}.new", made, shallow=False) or not gives_back(clpa, f"{old}.new", files):
            failed = True
            print(failing("upgrade", f"version {it}: it makes another archive than ingest, or its files have other bytes than the logs"))
        removed(old)
        removed(f"{old}.new")
    removed(made)
    return failed


def main():
    versions, words = formats_of(sys.argv[1:])
    rounds, path, clpa = int(words[0]), words[1], words[2]
    files, earlier = quarters(path), [it for it in versions if it < 3]
    print(HEAD)
    failed = merges(clpa, path, files, versions, rounds)
    if earlier:
        failed = upgrades(clpa, path, files, earlier, rounds) or failed
    print()
    print("ratio: the speed beside `ingest` of the same logs in the same run, by the clock and by the processor; above 1 is faster")
    sys.exit(1 if failed else 0)


if __name__ == "__main__":
    main()
