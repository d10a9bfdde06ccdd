#!/usr/bin/env python3
"""What the test program calls_test must write: listings, verdicts and equations, by brute force (reference.py). That the chain code's
equations are the 24 that document 002 writes in IV-B is seen in rust/tests/papers.

    calls_test.py > crates/calls_test/stdout
"""
import reference

C1 = bytes([4, 3, 7, 0, 11, 0, 13, 0])
C3 = bytes([2, 2, 1, 0, 2, 0])
C6 = bytes([2, 1, 1, 0])  # data disk 1 is in no column
CHAIN = bytes([3, 3, 3, 0, 6, 0, 5, 0])
DENSE = bytes.fromhex("1010e652a7f29e261365a3a65c0c8b123fd22f8918189d5d3195d90ee2e8e781f636")

LISTED = [
    C1,
    C3,
    bytes([1, 2, 1, 0, 1, 0]),  # C4
    bytes([3, 1, 7, 0]),  # C5
    b"",  # 1
    bytes([2]),  # 1
    bytes([0, 1, 1, 0]),  # 2
    bytes([17, 0, 1, 0]),  # 2 before 3
    bytes([2, 17, 1, 0]),  # 3
    bytes([2, 1, 1]),  # 4
    bytes([2, 1, 0, 0]),  # 5
    bytes([2, 1, 4, 0]),  # 5
]

JUDGED = [
    (C3, 15),
    (C3, 3),
    (C1, 127),
    (C1, 7),
    (C1, 14),
    (C1, 128),
    (DENSE, 0x80000000),
    (DENSE, 0xFFFFFFFF),
    (DENSE, 0xFFFF0000),
    (DENSE, 0x8000FFFF),
    (C1, 15),  # disk 0 is determined, disks 1 to 3 are not
    (C6, 6),  # the parity is determined, disk 1 is not
]

FREE = 99  # what the test program puts in each slot first
SLOTS = 5

# card, disk, slots lent
TOLD = [(CHAIN, disk, SLOTS) for disk in range(6)]
TOLD += [(C1, disk, SLOTS) for disk in range(7)]
TOLD += [(C6, disk, SLOTS) for disk in range(6)]
TOLD += [(CHAIN, disk, 3) for disk in (0, 5, 6)]
TOLD += [(CHAIN, disk, SLOTS) for disk in (6, 64, 2**64 - 1)]
TOLD += [
    (b"", 0, SLOTS),  # 1
    (bytes([2]), 9, SLOTS),  # 1 before 9
    (bytes([0, 1, 1, 0]), 0, SLOTS),  # 2
    (bytes([2, 17, 1, 0]), 0, SLOTS),  # 3
    (bytes([2, 1, 1]), 0, SLOTS),  # 4
    (bytes([2, 2, 1, 0, 4, 0]), 9, SLOTS),  # 5 before 9
]


def verdict(card, lost):
    k, cols = card[0], reference.columns(card)
    if lost >> k + len(cols):
        return "refused 8"
    return f"undetermined {reference.undetermined(k, cols, lost)}"


def told(card, disk, lent):
    """The answer in words, and what is written."""
    number = reference.fault(card)
    if number == 5:
        bad = [j for j, c in enumerate(reference.columns(card)) if not 1 <= c < 2 ** card[0]]
        return f"refused 5 column {bad[0]}", []
    if number:
        return f"refused {number}", []
    k, cols = card[0], reference.columns(card)
    if disk >= k + len(cols):
        return "refused 9", []
    found = reference.equations(k, cols, disk)
    if len(found) > lent:
        return f"refused 10 count {len(found)}", []
    return f"count {len(found)}", found


def main():
    for card in LISTED:
        print(reference.listing(card), end="")
    # too large to list by brute force: by the count alone
    print("refused 10" if reference.count(DENSE) > reference.ENTRIES else "?")
    for card, lost in JUDGED:
        print(verdict(card, lost))
    for card, disk, lent in TOLD:
        said, written = told(card, disk, lent)
        print(said, *written, *[FREE] * (SLOTS - len(written)))


main()
