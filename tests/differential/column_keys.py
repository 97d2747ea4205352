"""The model of docs/COSTS.md for the keys of columns: which slot a value marks, and how many different values so many marks are worth.

It is written by that page and knows nothing of the program's code.

usage: column_keys.py: how far the estimates for columns of 100, 1,000 and 20,000 different values lie from that, each value once and thrice
"""

import datetime
import random
import string

BITS = 2**64
HALF = 2**32


def number_of(value):
    """A value as a number of 64 bits."""
    if isinstance(value, int):
        return value % BITS
    number, text = 14695981039346656037, value.encode()
    whole = len(text) // 4 * 4
    for part in [int.from_bytes(text[place : place + 4], "little") for place in range(0, whole, 4)] + list(text[whole:]):
        number = (number * 1099511628211 + part) % BITS
    return number


def upper_half(product):
    return product % BITS // HALF


def mix(number):
    half = upper_half(number * 0x9E3779B97F4A7C15)
    return upper_half(half * half * 0xD6E8FEB86659FD93)


def estimated_keys(values):
    """The estimate for a column, by its values in all rows, Null being None."""
    slots = max(len(values), 1)
    there = [value for value in values if value is not None]
    marked = len({mix(number_of(value)) * slots // HALF for value in there})
    thousandths = sum(1000 * slots // (slots - j) for j in range(marked))
    return min(len(there), (thousandths + 500) // 1000)


def column_keys(values, unique=False):
    """How many different keys a column is said to have; exactly so where it alone is a unique list."""
    return sum(value is not None for value in values) if unique else estimated_keys(values)


def columns():
    """Columns of so many different values, by what they are like."""
    rng = random.Random(1)
    word = lambda: "".join(rng.choice(string.ascii_lowercase) for _ in range(rng.randint(5, 9)))
    day = lambda at: (datetime.date(1970, 1, 1) + datetime.timedelta(at)).isoformat()
    return {
        "0, 1, 2": lambda n: range(n),
        "strides of 8": lambda n: range(0, 8 * n, 8),
        "strides of a thousand": lambda n: range(7, 1000 * n, 1000),
        "multiples of 2^20": lambda n: range(0, n << 20, 1 << 20),
        "below 0": lambda n: range(0, -n, -1),
        "squares": lambda n: [at * at for at in range(n)],
        "hours in seconds": lambda n: range(1_600_000_000, 1_600_000_000 + 3600 * n, 3600),
        "random numbers": lambda n: rng.sample(range(2**62), n),
        "k0, k1, k2": lambda n: [f"k{at}" for at in range(n)],
        "padded numbers": lambda n: [f"{at:08}" for at in range(n)],
        "dates": lambda n: [day(at) for at in range(n)],
        "addresses": lambda n: [f"user{at}@example.com" for at in range(n)],
        "hexadecimal": lambda n: [f"{at * 7919:016x}" for at in range(n)],
        "words": lambda n: list(dict.fromkeys(word() for _ in range(2 * n)))[:n],
    }


def main():
    for name, values in columns().items():
        print(f"{name:22}", *(f"{estimated_keys(list(values(n)) * times) / n:.3f}" for n in (100, 1000, 20000) for times in (1, 3)))


if __name__ == "__main__":
    main()
