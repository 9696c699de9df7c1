#!/usr/bin/env python3
"""How often the true count is within the bounds of `estimates`: bench/coverage_of_estimates.py prints the share of 1,000 simulated sketches.

A sketch of k nominal entries that was trimmed retains k hashes below the (k+1)th smallest of n random ones, which is drawn
from its distribution. A sketch below a fixed theta, as of an intersection, retains each of n hashes by chance. The bounds are
those of docs/verify/SPECIFICATION.md, "Bounds of a count".

Then the same of totals ("Bounds of a total"): 10,000 keys with amounts of some kind, of which a sketch of k nominal entries
retains k by chance.
"""
import math
import random

MAX_THETA = 2**63 - 1
SKETCHES = 1000


def ceil_sqrt(number):
    return math.isqrt(number - 1) + 1 if number else 0


def count_bounds(z, retained, theta):
    spread = z * z * (MAX_THETA - theta)
    scaled = retained * MAX_THETA
    reach = ceil_sqrt(spread) * ceil_sqrt(spread + 4 * scaled)
    middle = 2 * scaled + spread
    return max(max(middle - reach, 0) // (2 * theta), retained), -(-(middle + reach) // (2 * theta))


def trimmed(k, n):
    """What a trimmed sketch of n values retains, and its theta."""
    return (n, MAX_THETA) if n <= k else (k, max(1, int(random.betavariate(k + 1, n - k) * MAX_THETA)))


def below(p, n):
    """How many of n values are retained below a theta of p, and that theta."""
    return sum(random.random() < p for _ in range(n)), int(p * MAX_THETA)


def row(name, draw, n):
    """A line with the share of sketches whose true count is within one, two and three standard deviations."""
    within = [0, 0, 0]
    for _ in range(SKETCHES):
        retained, theta = draw(n)
        for z in (1, 2, 3):
            lower, upper = count_bounds(z, retained, theta)
            within[z - 1] += lower <= n <= upper
    print(f"| {name} | {n} | " + " | ".join(f"{100 * it / SKETCHES:.1f} %" for it in within) + " |")


def total_bounds(z, amounts, theta):
    held, squares = sum(amounts), sum(it * it for it in amounts)
    root = ceil_sqrt(squares) if squares < 2**128 - 1 else min(ceil_sqrt(held) * ceil_sqrt(max(amounts)), held)
    reach = z * -(-root * ceil_sqrt((MAX_THETA - theta) * MAX_THETA) // theta)
    return max(held * MAX_THETA // theta - reach, held), min(-(-held * MAX_THETA // theta) + reach, 2**128 - 1)


# The amount of the nth key: equal ones, uneven ones, and such that few keys have much or most of the total.
AMOUNTS = {
    "equal": lambda n: 100,
    "uniform, from 1 to 1000": lambda n: random.randint(1, 1000),
    "exponential, of mean 1000": lambda n: 1 + int(random.expovariate(1 / 1000)),
    "Pareto of shape 2": lambda n: int(100 * random.paretovariate(2)),
    "Pareto of shape 1.2": lambda n: int(100 * random.paretovariate(1.2)),
    "one key of 100 has 1000 times as much": lambda n: 100 if n % 100 else 100_000,
    "one key has a million times as much": lambda n: 100 if n else 100_000_000,
}


def row_of_totals(name, amount, k, n):
    """A line with the share of sketches of sums whose true total is within one, two and three standard deviations, and how wide
    the bounds for two are, as a part of the total, in the middle of the sketches."""
    within, reaches = [0, 0, 0], []
    for _ in range(SKETCHES):
        amounts = [amount(it) for it in range(n)]
        retained, theta = trimmed(k, n)
        held, total = random.sample(amounts, retained), sum(amounts)
        for z in (1, 2, 3):
            lower, upper = total_bounds(z, held, theta)
            within[z - 1] += lower <= total <= upper
            if z == 2:
                reaches.append((upper - lower) / 2 / total)
    middle = sorted(reaches)[SKETCHES // 2]
    print(f"| {name} | {k} | " + " | ".join(f"{100 * it / SKETCHES:.1f} %" for it in within) + f" | {100 * middle:.1f} % |", flush=True)


def main():
    random.seed(2026)
    print("| sketch | true count | 1 | 2 | 3 |\n|---|---|---|---|---|")
    for k in (16, 256, 4096, 65536):
        for n in (2 * k, 10_000, 100_000, 1_000_000, 100_000_000):
            if n > k:
                row(f"k {k}", lambda n, k=k: trimmed(k, n), n)
    for p, n in ((0.9, 1), (0.5, 10), (0.1, 10), (0.01, 10), (0.01, 100), (0.01, 1000), (0.9, 1000)):
        row(f"below {p} of the greatest theta", lambda n, p=p: below(p, n), n)
    print("\n| amounts of 10,000 keys | k | 1 | 2 | 3 | plus or minus, for 2 |\n|---|---|---|---|---|---|")
    for name, amount in AMOUNTS.items():
        for k in (64, 1024, 4096):
            row_of_totals(name, amount, k, 10_000)


main()
