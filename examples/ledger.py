#!/usr/bin/env python3
"""Prints a ledger of 1,000 bookings as a sheet: the day, what it was, what came in, what went out, and the balance.

    python3 examples/ledger.py >ledger.csv

The bookings are drawn from a fixed number, so that each run prints the same. Below them stand the sums of both columns,
and what is left, which is the last balance.
"""

import random

BOOKINGS = 1_000
KINDS = ("Rent, flat", "Food", "Travel", "Books", "Wages", "Gift")


def booking(draw, row):
    """The line of a row of the sheet."""
    kind = draw.choice(KINDS)
    amount = draw.randint(1, 900)
    came, went = (amount * 3, 0) if kind in ("Wages", "Gift") else (0, amount)
    before = f"E{row - 1}+" if row > 2 else ""
    day = (row - 2) * 365 // BOOKINGS
    return f'"day {day + 1}","{kind}",{came},{went},={before}C{row}-D{row}'


def main():
    draw = random.Random(1)
    print("Day,What,In,Out,Balance")
    for row in range(2, BOOKINGS + 2):
        print(booking(draw, row))
    last = BOOKINGS + 1
    print(f",Sum,=SUM(C2:C{last}),=SUM(D2:D{last}),=C{last + 1}-D{last + 1}")


if __name__ == "__main__":
    main()
