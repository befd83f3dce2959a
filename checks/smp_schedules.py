#!/usr/bin/env python3
"""Computes what `smp BASE WORD N STEPS START` has to write, from the rule of its schedule and of its processors alone, and compares it with the cases
of `crates/s390x_tool_cases` that are answered; run by hand, from anywhere: checks/smp_schedules.py [N STEPS START].

The schedule: x is START at first; before each step x becomes (x * 1664525 + 1013904223) mod 2^32, and the processor of number (x / 65536) mod N goes.
Processors of even number run ARK %r4,%r2,%r3; CS %r2,%r4,0(%r5); BRCL 4 to the first; BR to the first. Those of odd number run LAAL %r4,%r3,0(%r5);
BR to the first. Processor I has I + 1 in %r3, and zero in %r2 and %r4. Ends with 1 if a case differs, or if a rule that is slightly another (a
multiplier or an increment off by two, a modulus of 2^31, another shift) writes the same for each of them.
"""
import pathlib
import re
import sys

ROOT = pathlib.Path(__file__).resolve().parent.parent
CASES = ROOT / "crates" / "s390x_tool_cases" / "stdin"
WORD = 2 ** 32
CASE = re.compile(r"^> smp \d+ \d+ (\d+) (\d+) (\d+)\n(?:[^<].*\n)*< 0\n((?:word|cpu) (?:.*\n(?:cpu .*\n)*))", re.M)

# Multiplier, increment, modulus, divisor: the rule, and what it is told apart from.
RULE = (1664525, 1013904223, WORD, 65536)
OTHERS = [
    (1664523, 1013904223, WORD, 65536), (1664527, 1013904223, WORD, 65536), (1664525, 1013904221, WORD, 65536), (1664525, 1013904225, WORD, 65536),
    (1664525, 1013904223, WORD // 2, 65536), (1664525, 1013904223, WORD, 32768), (1664525, 1013904223, WORD, 131072),
]


class Processor:
    """A processor that adds to the word for ever."""

    def __init__(self, number):
        self.locks, self.addend = number % 2 == 1, number + 1
        self.at, self.expected, self.sum, self.fails, self.stores = 0, 0, 0, False, 0

    def step(self, word):
        """One instruction; answers what the word is behind it."""
        if self.locks:
            return self.locked_step(word)
        if self.at == 0:
            self.sum = (self.expected + self.addend) % WORD
        elif self.at == 1:
            self.fails = self.expected != word
            if self.fails:
                self.expected = word
            else:
                self.stores, word = self.stores + 1, self.sum
        self.at = {0: 1, 1: 2, 2: 0 if self.fails else 3, 3: 0}[self.at]
        return word

    def locked_step(self, word):
        self.at = 1 - self.at
        if self.at == 1:
            self.stores, word = self.stores + 1, (word + self.addend) % WORD
        return word


def text(count, steps, start, rule=RULE):
    """What is written of so many processors and steps."""
    multiplier, increment, modulus, divisor = rule
    processors, word, drawn = [Processor(number) for number in range(count)], 0, start
    for _ in range(steps):
        drawn = (drawn * multiplier + increment) % modulus
        word = processors[drawn // divisor % count].step(word)
    return f"word {word}\n" + "".join(f"cpu {i} stores {each.stores}\n" for i, each in enumerate(processors))


def main():
    if len(sys.argv) > 1:
        print(text(*map(int, sys.argv[1:4])), end="")
        return
    cases = [(tuple(map(int, found.groups()[:3])), found[4]) for found in CASE.finditer(CASES.read_text())]
    wrong = [words for words, wanted in cases if text(*words) != wanted]
    same = [rule for rule in OTHERS if all(text(*words, rule) == wanted for words, wanted in cases)]
    print(f"{len(cases)} cases, {len(wrong)} differ; {len(OTHERS)} other rules, {len(same)} of them write the same")
    for each in wrong + same:
        print(*each)
    sys.exit(1 if wrong or same else 0)


if __name__ == "__main__":
    main()
