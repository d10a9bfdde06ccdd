#!/usr/bin/env python3
"""The listing of a card, the equations of a disk and the undetermined disks of a loss by brute force, straight from the definitions of document
01 and, for the vector's length, the undetermined disks and the order of equations, of document 02.

It shares nothing with the engine: sets are tried one by one, and data words are compared on each disk. It is meant for
codes of some 12 disks at the most; the undetermined disks of one loss are found for any code.

    reference.py CARD          the text that the listing program prints for the card in the file CARD
    reference.py --write DIR   writes DIR/NAME.txt for each DIR/NAME.card
    reference.py --count CARD  how many minimal erasures the card has, by a rank for each data word; for any card
"""
import functools
import pathlib
import sys

ENTRIES = 16000  # what the listing program lends


def fault(card):
    """The number of the card's refusal, or 0."""
    if len(card) < 2:
        return 1
    k, m = card[0], card[1]
    if not 1 <= k <= 16:
        return 2
    if not 1 <= m <= 16:
        return 3
    if len(card) != 2 + 2 * m:
        return 4
    if any(not 1 <= c < 2**k for c in columns(card)):
        return 5
    return 0


def columns(card):
    return [card[2 + 2 * j] + 256 * card[3 + 2 * j] for j in range(card[1])]


def holds(k, cols, x, disk):
    """What a disk holds for the data word x: a data disk its own bit, a parity disk the XOR of the bits of its data disks."""
    if disk < k:
        return x >> disk & 1
    return sum(x >> i & 1 for i in range(k) if cols[disk - k] >> i & 1) % 2


def fatal(k, cols, lost):
    """Are there two different data words that agree on every disk that is not lost?"""
    survivors = [d for d in range(k + len(cols)) if not lost >> d & 1]
    seen = set()
    for x in range(2**k):
        left = tuple(holds(k, cols, x, d) for d in survivors)
        if left in seen:
            return True
        seen.add(left)
    return False


@functools.lru_cache
def words(k, cols):
    """What the disks hold for each data word, bit d for disk d."""
    return [sum(holds(k, cols, x, d) << d for d in range(k + len(cols))) for x in range(2**k)]


def undetermined(k, cols, lost):
    """The disks on which two data words differ that agree on every disk that is not lost. Words that agree are compared with the first of them:
    where two differ, one of them differs from it. This goes through the words alone, so it is for any code."""
    first, differing = {}, 0
    for word in words(k, tuple(cols)):
        differing |= word ^ first.setdefault(word & ~lost, word)
    return differing


def minimal_erasures(k, cols):
    n = k + len(cols)
    all_fatal = {s for s in range(2**n) if fatal(k, cols, s)}
    minimal = [s for s in all_fatal if not any(r != s and r & s == r for r in all_fatal)]
    return sorted(minimal, key=lambda s: (bin(s).count("1"), s % 2**k))


def is_equation(k, cols, disk, told_by):
    """The disk is not in the set, and for every data word holds the XOR of what the set's disks hold."""
    if told_by >> disk & 1:
        return False
    among = [i for i in range(k + len(cols)) if told_by >> i & 1]
    return all(sum(holds(k, cols, x, i) for i in among) % 2 == holds(k, cols, x, disk) for x in range(2**k))


def equations(k, cols, disk):
    every = [e for e in range(2 ** (k + len(cols))) if is_equation(k, cols, disk, e)]
    least = [e for e in every if not any(f != e and f & e == f for f in every)]
    return sorted(least, key=lambda e: (bin(e).count("1"), bin(e >> k).count("1"), e))


def listing(card):
    number = fault(card)
    if number:
        return f"refused {number}\n"
    k, m, cols = card[0], card[1], columns(card)
    entries = minimal_erasures(k, cols)
    if len(entries) > ENTRIES:
        return "refused 10\n"
    sizes = [bin(s).count("1") for s in entries]
    lines = [f"code {k} {m}"]
    lines += [f"{size} {s}" for size, s in zip(sizes, entries)]
    lines.append(" ".join(["vector"] + [str(sizes.count(i)) for i in range(1, m + 2)]))
    return "".join(line + "\n" for line in lines)


def rank(rows):
    """The rank of rows of bits, by elimination."""
    pivots = []
    for row in rows:
        for p in pivots:
            row = min(row, row ^ p)
        if row:
            pivots.append(row)
    return len(pivots)


def count(card):
    """A codeword is minimal where the data words that are 0 outside it are only its own and 0: where the generator's rows,
    cut down to the disks outside, have rank k - 1."""
    k, cols = card[0], columns(card)
    rows = [1 << i | sum(1 << k + j for j, c in enumerate(cols) if c >> i & 1) for i in range(k)]
    total = 0
    for x in range(1, 2**k):
        word = 0
        for i in range(k):
            if x >> i & 1:
                word ^= rows[i]
        total += rank(r & ~word for r in rows) == k - 1
    return total


def main(args):
    if len(args) == 2 and args[0] == "--count":
        print(count(pathlib.Path(args[1]).read_bytes()))
        return
    if len(args) == 2 and args[0] == "--write":
        for card in sorted(pathlib.Path(args[1]).glob("*.card")):
            card.with_suffix(".txt").write_text(listing(card.read_bytes()))
    elif len(args) == 1:
        sys.stdout.write(listing(pathlib.Path(args[0]).read_bytes()))
    else:
        sys.exit(__doc__)


if __name__ == "__main__":
    main(sys.argv[1:])
