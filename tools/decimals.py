#!/usr/bin/env python3
"""Compares `multipleOf` with exact arithmetic: python3 tools/decimals.py PROGRAM [--seed N] [--count N]

PROGRAM is the built jsonschema_cli. Asked are the 10,000 prices from 0.01 to 100.00 by 0.01, which are all multiples, and for each of
DIVISORS so many decimals of at most 12 digits, three in ten of them multiples by the way they are made. What is wanted is the quotient of
the texts as fractions. It prints each number that is answered otherwise and how many were asked, and ends with 1 if one was.
"""

import argparse
import json
import os
import random
import subprocess
import sys
import tempfile
from fractions import Fraction

DIVISORS = ("0.1", "0.01", "0.001", "0.0001", "0.00001", "0.000001", "1e-7", "0.25", "0.3", "7", "1.5")


def answers(program, divisor, numbers):
    """What the program says of each number."""
    with tempfile.TemporaryDirectory() as folder:
        schema, lines = (os.path.join(folder, name) for name in ("schema.json", "lines.jsonl"))
        with open(schema, "w", encoding="utf-8") as file:
            file.write(f'{{"multipleOf": {divisor}}}')
        with open(lines, "w", encoding="utf-8") as file:
            file.write("".join(number + "\n" for number in numbers))
        words = [program, schema, "--lines", lines, "--output", "flag"]
        done = subprocess.run(words, capture_output=True, text=True, check=False)
    return [json.loads(line)["payload"]["valid"] for line in done.stdout.splitlines()]


def multiple(divisor):
    """A random multiple of the divisor, with at most 10 digits after the point."""
    text = f"{float(Fraction(divisor) * random.randint(0, 10**5)):.10f}".rstrip("0")
    return text + "0" if text.endswith(".") else text


def decimal():
    """A random decimal of at most 12 digits."""
    digits = random.randint(1, 12)
    after = random.randint(0, min(8, digits + 2))
    text = str(random.randint(0, 10**digits - 1)).rjust(after + 1, "0")
    return text[:-after] + "." + text[-after:] if after else text


def number_for(divisor):
    """A random number, of either sign."""
    text = multiple(divisor) if random.random() < 0.3 else decimal()
    return "-" + text if random.random() < 0.2 else text


def compared(program, divisor, numbers):
    """How many of the numbers are answered otherwise; each is printed."""
    found = answers(program, divisor, numbers)
    wrong = [n for n, says in zip(numbers, found, strict=True) if says != ((Fraction(n) / Fraction(divisor)).denominator == 1)]
    for number in wrong:
        print(f"{number} by {divisor} is answered otherwise")
    return len(wrong)


def main():
    parser = argparse.ArgumentParser(description=__doc__, formatter_class=argparse.RawDescriptionHelpFormatter)
    parser.add_argument("program", help="the built jsonschema_cli")
    parser.add_argument("--seed", type=int, default=1, help="of the random numbers")
    parser.add_argument("--count", type=int, default=1000, help="how many for each divisor")
    given = parser.parse_args()
    random.seed(given.seed)
    prices = [f"{k // 100}.{k % 100:02}" for k in range(1, 10001)]
    asked = [("0.01", prices), *((divisor, [number_for(divisor) for _ in range(given.count)]) for divisor in DIVISORS)]
    wrong = sum(compared(os.path.abspath(given.program), divisor, numbers) for divisor, numbers in asked)
    print(f"{sum(len(numbers) for _, numbers in asked)} numbers, {wrong} answered otherwise")
    sys.exit(1 if wrong else 0)


if __name__ == "__main__":
    main()
