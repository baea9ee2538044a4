#!/usr/bin/env python3
"""Times `corbelnib judge` and fc-solve on the same hands: beside.py COMMAND LAST, hands 1 to LAST. Prints the tables of docs/FC-SOLVE.md.

Each hand is a process of its own, read from the same text. Seconds are those of the processor, user and system. Memory is the most that was
resident, as /usr/bin/time tells it: what wait4 tells of a child has in it the program that started it, which is larger than fc-solve.
fc-solve's moves are counted as it writes them with -snx, where a run
moved at once is one move, as it is here; both write every card that goes home."""
import os
import statistics
import subprocess
import sys
import tempfile

CORBELNIB = [
    ("corbelnib, as it is", []),
    ("corbelnib, 64M", ["--memory", "64M"]),
    ("corbelnib, 64M, budget 20,000", ["--memory", "64M", "--budget", "20000"]),
]
FC_SOLVE = [
    ("fc-solve, as it is", []),
    ("fc-solve -l lg", ["-l", "lg"]),
    ("fc-solve -l gi", ["-l", "gi"]),
    ("fc-solve --method a-star", ["--method", "a-star"]),
]


def run(words):
    """What a command printed, its status, its processor seconds and its most resident memory in MB."""
    with tempfile.TemporaryFile() as out, tempfile.NamedTemporaryFile("r") as peak:
        timed = ["/usr/bin/time", "-q", "-o", peak.name, "-f", "%M", *words]
        child = subprocess.Popen(timed, stdout=out, stderr=subprocess.DEVNULL)
        _, status, usage = os.wait4(child.pid, 0)
        child.returncode = os.waitstatus_to_exitcode(status)
        out.seek(0)
        printed = out.read().decode("ascii", "replace")
        memory = int(peak.read().split()[-1]) / 1024
    return printed, child.returncode, usage.ru_utime + usage.ru_stime, memory


def ask_corbelnib(command, options, hand):
    printed, status, seconds, memory = run([command, "judge", hand, *options])
    if status not in (0, 1):
        sys.exit(f"corbelnib: status {status}")
    moves = None
    if status == 0:
        moves = int(printed.split("won in ")[1].split()[0])
    return moves, seconds, memory


def ask_fc_solve(options, hand):
    printed, _, seconds, memory = run(["fc-solve", "-p", "-t", "-snx", "-m", "-sel", *options, hand])
    if "solveable" not in printed:
        return None, seconds, memory
    line = printed.split("-=-=-=-=-=-=-=-=-=-=-=-")[1].split("This game")[0]
    return len(line.split()), seconds, memory


def row(name, answers):
    won = [moves for moves, _, _ in answers if moves is not None]
    seconds = sorted(s for _, s, _ in answers)
    memory = max(m for _, _, m in answers)
    print(f"| {name} | {len(won)} | {statistics.median(seconds):.3f} | {seconds[-1]:.2f} | {sum(seconds):.1f} | {memory:.1f} | "
          f"{statistics.median(won):.0f} | {min(won)} to {max(won)} |")
    sys.stdout.flush()


def both(first, second):
    """Lengths where both win."""
    pairs = [(a[0], b[0]) for a, b in zip(first, second) if a[0] is not None and b[0] is not None]
    shorter = sum(a < b for a, b in pairs)
    print(f"\nOf {len(pairs)} hands that both win as they are, corbelnib's line is the shorter in {shorter}, fc-solve's in "
          f"{sum(a > b for a, b in pairs)}.")


def main():
    command, last = sys.argv[1], int(sys.argv[2])
    os.environ["FREECELL_SOLVER_QUIET"] = "1"
    results = {}
    with tempfile.TemporaryDirectory() as folder:
        hands = []
        for number in range(1, last + 1):
            hands.append(os.path.join(folder, f"hand-{number}"))
            with open(hands[-1], "wb") as file:
                subprocess.run([command, "deal", str(number)], stdout=file, check=True)
        print("| command | won | seconds, median | longest | all together | most memory, MB | moves, median | from, to |")
        print("|---|---|---|---|---|---|---|---|")
        for name, options in FC_SOLVE:
            results[name] = [ask_fc_solve(options, hand) for hand in hands]
            row(name, results[name])
        for name, options in CORBELNIB:
            results[name] = [ask_corbelnib(command, options, hand) for hand in hands]
            row(name, results[name])
    both(results[CORBELNIB[0][0]], results[FC_SOLVE[0][0]])


if __name__ == "__main__":
    main()
