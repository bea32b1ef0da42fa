"""Shares of functions at two rates."""

import collections
import math

from rvgprof_tools.running import readable
from rvgprof_doctor.profile import shares_of


def is_prime(number):
    return number > 1 and all(number % factor for factor in range(2, math.isqrt(number) + 1))


def next_prime(number):
    """The first prime from a number on."""
    while not is_prime(number):
        number += 1
    return number


def primes_near(every):
    """Primes by their distance from a number with which they have no factor in common."""
    for far in range(1, every + 1000):
        for number in (every - far, every + far):
            if is_prime(number) and every % number:
                yield number


def own_of(stacks):
    """The samples of each function by itself."""
    own = collections.Counter()
    for stack, samples in stacks:
        own[stack.rpartition(b";")[2]] += samples
    return own


def differing(first, second):
    """The names whose shares differ by more than chance lets them, those that differ most first, with both shares."""
    samples, others = sum(first.values()), sum(second.values())
    if samples < 10 or others < 10:
        return []
    found = []
    for name in first.keys() | second.keys():
        share, other = first[name] / samples, second[name] / others
        both = (first[name] + second[name]) / (samples + others)
        chance = 4 * math.sqrt(both * (1 - both) * (1 / samples + 1 / others))
        if abs(share - other) > max(0.05, chance):
            found.append((name, share, other))
    return sorted(found, key=lambda row: (-abs(row[1] - row[2]), row[0]))


def figures_of(rows, every):
    """What the shares are with a rate, and exactly."""
    said = [f"{readable(name)} {100 * share:.2f} % and exactly {100 * exact:.2f} %" for name, share, exact in rows[:3]]
    return f"with --every {every} " + ", ".join(said)


def rate_that_agrees(runs, every, exact):
    """A rate near one whose shares are those of all instructions, or none."""
    for number, _ in zip(primes_near(every), range(3)):
        if not differing(own_of(runs.stacks(number)), exact):
            return number
    return None


class Shares:
    """What a profile says of shares, and stacks at another rate, and all instructions where these two differ."""

    def __init__(self, program, profile, stacks, runs, every):
        self.every, self.exact, self.rows = every, None, []
        reported = shares_of(program, profile)
        if differing(reported, own_of(stacks)):
            self.exact = own_of(runs.stacks(1))
            self.rows = differing(reported, self.exact)

    def figures(self):
        """The shares that are wrong, behind a sentence."""
        return f": {figures_of(self.rows, self.every)}" if self.rows else ""
