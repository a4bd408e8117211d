"""Runs the two programs in turns and prints medians: measure.py COUNT ROUNDS BOOK RUST."""
import os
import statistics
import sys

TEXT_LEN = 20
LOOK_UPS = 5_000_000


def run(program, count):
    """What the program printed as numbers, and its peak memory in bytes."""
    with open("count", "w") as file:
        file.write(str(count))
    out, into = os.pipe()
    child = os.fork()
    if child == 0:
        os.dup2(into, 1)
        os.execv(program, [program])
    os.close(into)
    with os.fdopen(out) as file:
        numbers = [int(word) for word in file.read().split()]
    _, status, used = os.wait4(child, 0)
    if status != 0:
        sys.exit(f"{program} failed")
    return numbers, used.ru_maxrss * 1024


def main():
    count, rounds = int(sys.argv[1]), int(sys.argv[2])
    programs = {"book": sys.argv[3], "rust": sys.argv[4]}
    empty = {name: run(program, 0)[1] for name, program in programs.items()}
    runs = {name: [] for name in programs}
    for _ in range(rounds):
        for name, program in programs.items():
            runs[name].append(run(program, count))
    sums = {tuple(numbers[2:]) for of in runs.values() for numbers, _ in of}
    if len(sums) != 1:
        sys.exit("the programs found different numbers")
    middle = {}
    for name, of in runs.items():
        middle[name] = [
            statistics.median(numbers[0] for numbers, _ in of) / count,
            statistics.median(numbers[1] for numbers, _ in of) / LOOK_UPS,
            (statistics.median(peak for _, peak in of) - empty[name]) / count - TEXT_LEN,
        ]
    print(f"{count} texts of {TEXT_LEN} bytes, {rounds} rounds, medians")
    for place, what in enumerate(["ns to name a new text", "ns to look a known text up", "bytes a text, all in"]):
        ours, theirs = middle["book"][place], middle["rust"][place]
        print(f"{what}: book {ours:.0f}, Rust's HashMap {theirs:.0f}, ratio {ours / theirs:.2f}")


main()
