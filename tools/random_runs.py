#!/usr/bin/env python3
"""Runs the controllers of won games on random legal moves, and sees that every goal is reached again and again.

    tools/random_runs.py [--steps N] [--seed N] RULES..

Needs target/bin/solve and target/bin/run (tools/build makes them). For each rules file: solve writes the table, moves are drawn at random among the legal ones
while a reader of rules of this script's own follows the play, run answers them all, and each answer must be allowed and the log must have
the same steps. Then for each goal the longest time without it is printed, beside the longest time without each promise."""
import argparse, pathlib, random, subprocess, sys, tempfile

def value(f, at, s, e, a):
    """the value of the formula that begins at `at`, and where it ends"""
    b = f[at]
    if b < 2: return b == 1, at + 1
    if b == 2:
        x, at = value(f, at + 1, s, e, a)
        return not x, at
    if b < 6:
        x, at = value(f, at + 1, s, e, a)
        y, at = value(f, at, s, e, a)
        return (x and y, x or y, x == y)[b - 3], at
    return ((s, e, a)[b // 16 - 1] >> b % 16) & 1 == 1, at + 1

class Rules:
    def __init__(self, file):
        self.widths, at = file[:3], 3
        def take():
            nonlocal at
            n = file[at]
            at += 1 + n
            return file[at - n:at]
        self.moves, self.answers = take(), take()
        self.next = [take() for _ in range(self.widths[0])]
        def group():
            nonlocal at
            at += 1
            return [take() for _ in range(file[at - 1])]
        self.promises, self.goals = group(), group()
        self.starts = [int.from_bytes(file[at + 1 + 2 * k:at + 3 + 2 * k], "little") for k in range(file[at])]
    def legal(self, s): return [e for e in range(1 << self.widths[1]) if value(self.moves, 0, s, e, 0)[0]]
    def allows(self, s, e, a): return a < 1 << self.widths[2] and value(self.answers, 0, s, e, a)[0]
    def after(self, s, e, a): return sum(value(f, 0, s, e, a)[0] << i for i, f in enumerate(self.next))
    def holds(self, f, s): return value(f, 0, s, 0, 0)[0]

def longest_gap(times, end):
    """the longest stretch without one of the times, up to the end"""
    return max(b - a for a, b in zip([-1] + times, times + [end]))

def play(path, steps, rng):
    rules = Rules(path.read_bytes())
    with tempfile.TemporaryDirectory() as folder:
        table, log = f"{folder}/table", f"{folder}/log"
        subprocess.run(["target/bin/solve", path, "--table", table], check=True, stdout=subprocess.DEVNULL)
        rows, m = pathlib.Path(table).read_bytes(), 1 << rules.widths[1]
        state = start = rules.starts[0]
        goal, moves, states = 0, [], []
        for _ in range(steps):
            legal = rules.legal(state)
            if not legal: break
            e = rng.choice(legal)
            a = rows[((goal << rules.widths[0]) + state) * (4 + m) + 1 + e]
            if not rules.allows(state, e, a): sys.exit(f"{path}: a forbidden answer in state {state}")
            moves.append((e, a)); states.append(state)
            if rules.holds(rules.goals[goal], state): goal = (goal + 1) % len(rules.goals)
            state = rules.after(state, e, a)
        got = subprocess.run(["target/bin/run", path, table, "--log", log], input=bytes(e for e, _ in moves), capture_output=True)
        if got.returncode or [int(w) for w in got.stdout.split()] != [a for _, a in moves]: sys.exit(f"{path}: run answered otherwise")
        if pathlib.Path(log).read_bytes() != start.to_bytes(2, "little") + bytes(x for step in moves for x in step): sys.exit(f"{path}: another log")
    gaps = [[longest_gap([t for t, s in enumerate(states) if rules.holds(f, s)], len(states)) for f in fs] for fs in (rules.goals, rules.promises)]
    print(f"{path}: {len(moves)} steps; longest time without each goal {gaps[0]}, without each promise {gaps[1]}")

def main():
    p = argparse.ArgumentParser(description=__doc__.split("\n")[0])
    p.add_argument("--steps", type=int, default=10000)
    p.add_argument("--seed", type=int, default=random.randrange(1 << 32))
    p.add_argument("rules", nargs="+", type=pathlib.Path)
    args = p.parse_args()
    print(f"seed {args.seed}")
    rng = random.Random(args.seed)
    for path in args.rules: play(path, args.steps, rng)

main()
