"""Runs the program and prints medians: measure.py TIMES ROUNDS PROGRAM."""
import statistics
import subprocess
import sys

ROWS = 65536


def main():
    times, rounds, program = int(sys.argv[1]), int(sys.argv[2]), sys.argv[3]
    with open("rounds", "w") as file:
        file.write(str(times))
    runs = []
    for _ in range(rounds):
        out = subprocess.run([program], capture_output=True, check=True).stdout
        runs.append([int(word) for word in out.split()])
    length, whole, paged = runs[0][0], runs[0][2], runs[0][4]
    if whole != times * ROWS or paged != times * ROWS:
        sys.exit("not all rows were read")
    print(f"one segment of {length // times} bytes, {times} times, {rounds} rounds, medians")
    for place, what in ((1, "written"), (3, "read whole"), (5, "read by pages")):
        took = statistics.median(run[place] for run in runs)
        print(f"{what}: {length / took:.2f} GB/s, {took / times / ROWS:.1f} ns a row")


main()
