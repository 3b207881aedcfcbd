#!/usr/bin/env python3
"""Random scripts, run through the program and through the slow reference.

Every script follows from the seed and its number alone. Outputs are compared
byte for byte; the inputs of differing scripts are kept. The summary says how
often each outcome came up, so that one can judge what the run has covered.

    random_scripts.py --seed=1 --count=1000 --program crates/jelotsam/out/jelotsam
"""

import argparse
import collections
import pathlib
import random
import subprocess
import sys
import time

sys.dont_write_bytecode = True
sys.path.insert(0, str(pathlib.Path(__file__).resolve().parent))

import script_reference as reference  # noqa: E402

SIZE = reference.SIZE
ADDRESSES = 64 * SIZE
LIMIT = reference.INPUT_LIMIT

# Banks at the edges of the places' formulas come up more often than others.
EDGE_BANKS = [0, 1, 15, 16, 17, 30, 31, 32, 33, 47, 48, 62, 63]
CHECK_BANKS = [64, 65, 66, 67, 68, 69]


# Lines ----------------------------------------------------------------------


def line(*fields):
    return "\t".join(str(field) for field in fields).encode()


def fault(bank, index, byte, kind, mask, delay):
    return line("X", bank, index, byte, kind, "%02X" % mask, delay)


def some_bank(rng):
    return rng.choice(EDGE_BANKS) if rng.random() < 0.4 else rng.randrange(64)


def some_byte(rng):
    return rng.choice([0, 0, 1, 0x5A, 0xFF]) if rng.random() < 0.4 else rng.randrange(256)


def some_mask(rng):
    return 1 << rng.randrange(8) if rng.random() < 0.4 else rng.randrange(1, 256)


def some_kind(rng):
    return rng.choice("FFFOZ")


def some_delay(rng, kind):
    """A flip that acts at once dies in the format, so most flips wait."""
    if kind == "F":
        return rng.choice([0, 1, 1, 1, 1, 2, 2, 3])
    return rng.choice([0, 0, 0, 1, 2])


def fault_at(rng, bank, index, byte, kind=None, delay=None):
    kind = some_kind(rng) if kind is None else kind
    delay = some_delay(rng, kind) if delay is None else delay
    return fault(bank, index, byte, kind, some_mask(rng), delay)


def place_of_symbol(address, symbol, marked):
    """Bank, index and byte of a word's symbol, once these banks are marked."""
    places = reference.Places(marked)
    index, b = divmod(address, 64)
    if symbol < 64:
        return places.line(b), index, symbol
    if symbol < 68:
        bank, first = places.first_check(b)
        return bank, index, first + symbol - 64
    bank, first, count = places.second_check(b)
    return bank, index, first + min(symbol - 68, count - 1)


def some_symbol(rng):
    return rng.randrange(64) if rng.random() < 0.55 else rng.randrange(64, 70)


def faults_in_word(rng, address, count, marked):
    """Faults at different symbols of one word, at one common delay or not."""
    delay = rng.choice([None, None, 1, 1, 2])
    lines = []
    for symbol in {some_symbol(rng) for _ in range(count)}:
        place = place_of_symbol(address, symbol, marked)
        lines.append(fault_at(rng, *place, delay=delay))
    return lines


# Commands -------------------------------------------------------------------

EVEN = dict(R=8, W=8, N=3, C=1, S=3, M=1, P=3, T=2)


class Pool:
    """The few addresses and banks that a script keeps coming back to."""

    def __init__(self, rng, indexes, banks):
        self.indexes = rng.sample(range(SIZE), indexes)
        self.banks = [some_bank(rng) for _ in range(banks)]
        if rng.random() < 0.5:  # often all in one half
            half = 32 * rng.randrange(2)
            self.banks = [half + bank % 32 for bank in self.banks]

    def address(self, rng):
        return 64 * rng.choice(self.indexes) + rng.choice(self.banks)


def command(rng, pool, weights):
    letter = rng.choices(list(weights), weights.values())[0]
    address = pool.address(rng)
    if rng.random() < 0.1:  # a neighbour of the crowd
        address = 64 * (address // 64) + rng.randrange(64)
    if letter in "WN":
        return line(letter, address, "%02X" % some_byte(rng))
    if letter in "RCS":
        return line(letter, address)
    if letter == "M":
        return line("M", rng.choice(pool.banks) if rng.random() < 0.8 else some_bank(rng))
    return line(letter)


def commands(rng, pool, count, weights=None):
    return [command(rng, pool, weights or EVEN) for _ in range(count)]


def probe(rng, pool):
    """Commands that bring to light what the banks show: reads, and the counts
    of scrubs before and after a settle."""
    lines = [line("R", pool.address(rng)) for _ in range(rng.randrange(4))]
    if rng.random() < 0.5:
        lines.append(line("T"))
    for index in pool.indexes[:3]:
        for half in (0, 32):
            lines.append(line("S", 64 * index + half))
            if rng.random() < 0.3:
                lines.append(line("S", 64 * index + half))
    lines += [line("R", pool.address(rng)) for _ in range(rng.randrange(4))]
    if rng.random() < 0.4:
        lines.append(line("M", rng.choice(pool.banks)))
    return lines


def join(rng, lines):
    end = b"" if rng.random() < 0.1 else b"\n"
    return b"\n".join(lines) + end if lines else b""


# Styles ---------------------------------------------------------------------


def crowded(rng):
    """Few addresses, a few faults in their words."""
    pool = Pool(rng, rng.randint(1, 2), rng.randint(2, 5))
    marked = pool.banks[: rng.randrange(3)]
    lines = []
    for _ in range(rng.randrange(8)):
        lines += faults_in_word(rng, pool.address(rng), rng.choice([1, 1, 1, 2, 3]), marked)
    lines += commands(rng, pool, rng.randint(10, 35)) + probe(rng, pool)
    return join(rng, lines)


def dense(rng):
    """Many faults in the words of one group, its checks and its parity."""
    pool = Pool(rng, 1, rng.randint(2, 4))
    index = pool.indexes[0]
    marked = pool.banks[: rng.randrange(3)]
    lines = []
    for _ in range(rng.randint(2, 12)):
        choice = rng.random()
        if choice < 0.5:
            lines += faults_in_word(rng, pool.address(rng), rng.randint(1, 5), marked)
        elif choice < 0.7:
            lines.append(fault_at(rng, rng.choice(CHECK_BANKS), index, rng.randrange(64)))
        elif choice < 0.85:
            lines.append(fault_at(rng, rng.choice([69, 70, 71]), index, rng.randrange(64)))
        else:
            lines.append(fault_at(rng, some_bank(rng), index, rng.randrange(64)))
    rng.shuffle(lines)
    lines += commands(rng, pool, rng.randint(8, 25)) + probe(rng, pool)
    return join(rng, lines)


def same_place(rng):
    """Faults of all kinds one over the other, where their order counts."""
    pool = Pool(rng, 1, rng.randint(1, 3))
    marked = pool.banks[: rng.randrange(3)]
    lines = []
    for _ in range(rng.randint(1, 3)):
        place = place_of_symbol(pool.address(rng), some_symbol(rng), marked)
        for _ in range(rng.randint(2, 6)):
            kind = rng.choice("FFOZ")
            mask = rng.choice([0xFF, 0xF0, 0x3C, 0x0F, some_mask(rng)])
            lines.append(fault(*place, kind, mask, rng.choice([0, 1, 1, 2, 2])))
    if rng.random() < 0.5:
        rng.shuffle(lines)
    weights = dict(EVEN, P=8, R=14, S=5)
    lines += commands(rng, pool, rng.randint(10, 30), weights) + probe(rng, pool)
    return join(rng, lines)


def weighty(rng):
    """Damage near another codeword: Clean and Corrected with a wrong line,
    rebuilds that fail or give another line."""
    pool = Pool(rng, 1, 2)
    marked = pool.banks[: rng.randrange(3)]
    address = pool.address(rng)
    difference = bytearray(64)
    for _ in range(rng.randint(1, 3)):
        difference[rng.randrange(64)] = some_mask(rng)
    word = bytes(difference) + reference.check_of_line(bytes(difference))
    symbols = [s for s in range(70) if word[s]]
    left_out = rng.sample(symbols, rng.choice([0, 0, 1, 1, 2, 3]))
    if rng.random() < 0.5:
        left_out += [68, 69]
    lines = []
    for s in symbols:
        if s not in left_out:
            place = place_of_symbol(address, s, marked)
            lines.append(fault(*place, "F", word[s], 1))
    if rng.random() < 0.5:
        lines += faults_in_word(rng, pool.address(rng), 1, marked)
    if rng.random() < 0.3:  # the parity takes the same difference, or a part
        for s in range(64):
            if difference[s] and rng.random() < 0.8:
                bank = rng.choice([70, 70 + address % 64 // 32])
                lines.append(fault(bank, address // 64, s, "F", difference[s], 1))
    body = [line("W", address, "%02X" % some_byte(rng))] * rng.randrange(2)
    body += [line("M", bank) for bank in marked] + [line("T")] * rng.randrange(2)
    body += [line("P"), line("R", address)]
    body += commands(rng, pool, rng.randint(2, 12), dict(EVEN, M=2))
    return join(rng, lines + body + probe(rng, pool))


def rebuilds(rng):
    """At a chosen stage one word fails beyond correction, so that its line
    comes from the group; sometimes with more damage around it."""
    pool = Pool(rng, 1, rng.randint(3, 4))
    index = pool.indexes[0]
    marked = list(dict.fromkeys(pool.banks))[: rng.randrange(3)]
    address = pool.address(rng)
    symbols = rng.sample(range(64), rng.choice([2, 2, 3, 4, 10, 30, 50]))
    if rng.random() < 0.3:  # up to two check symbols too
        symbols += {rng.choice([64, 65, 66, 67, 68, 68, 69, 69]) for _ in range(rng.choice([1, 1, 2]))}
    lines = []
    for symbol in symbols:
        place = place_of_symbol(address, symbol, marked)
        lines.append(fault_at(rng, *place, kind=rng.choice("FFFFO"), delay=1))
    if rng.random() < 0.4:  # the parity
        bank = reference.Places(marked).parity(address % 64)
        for _ in range(rng.choice([1, 1, 2])):
            lines.append(fault_at(rng, bank, index, rng.randrange(64), delay=1))
    for _ in range(rng.choice([0, 0, 1, 3])):  # partners, mostly correctable
        partner = 64 * index + rng.randrange(64)
        lines += faults_in_word(rng, partner, rng.choice([1, 1, 1, 2]), marked)
    rng.shuffle(lines)
    body = commands(rng, pool, rng.randrange(4), dict(W=1))
    body += [line("M", bank) for bank in marked]
    body += commands(rng, pool, rng.randrange(4), dict(W=3, N=1))
    body += [line("T")] * rng.randrange(2) + [line("P")]
    if rng.random() < 0.5:
        body.append(line("R", address))
    if rng.random() < 0.5:
        body.append(line("W", address, "%02X" % some_byte(rng)))
    body += commands(rng, pool, rng.randint(2, 10), dict(EVEN, N=6, M=2))
    return join(rng, lines[:64] + body + probe(rng, pool))


def failed_bank(rng, bank, count, indexes, delay):
    """Faults all over a bank."""
    return [
        fault_at(rng, bank, rng.choice(indexes), rng.randrange(64), delay=delay)
        for _ in range(count)
    ]


def bank_failure(rng):
    """One or two whole banks fail and are marked, at any stage."""
    pool = Pool(rng, rng.randint(1, SIZE), rng.randint(3, 6))
    first, second = pool.banks[0], pool.banks[1]
    lines = failed_bank(rng, first, rng.randint(20, 40), pool.indexes, rng.choice([None, 1]))
    if rng.random() < 0.1:  # every byte of one index
        index = rng.choice(pool.indexes)
        lines = [fault_at(rng, first, index, byte, "F", 1) for byte in range(64)]
    if rng.random() < 0.6:
        late = rng.choice([1, 2, 2, 3])
        lines += failed_bank(rng, second, rng.randint(10, 30), pool.indexes, late)
    for _ in range(rng.randrange(4)):  # and some words with one wrong symbol
        lines += faults_in_word(rng, pool.address(rng), 1, pool.banks[: rng.randrange(3)])
    if rng.random() < 0.3:  # or a spare
        lines += failed_bank(rng, rng.choice([69, 71]), rng.randint(1, 4), pool.indexes, None)
    if rng.random() < 0.3:
        rng.shuffle(lines)
    body = commands(rng, pool, rng.randrange(8), dict(R=2, W=6, N=1, T=1))
    body += [line("P")] + commands(rng, pool, rng.randrange(6), dict(EVEN, M=0))
    body.append(line("M", first))
    body += commands(rng, pool, rng.randrange(10), dict(EVEN, M=0))
    body += [line("P")] * rng.randrange(2) + [line("M", second)]
    body += commands(rng, pool, rng.randrange(10), EVEN)
    if rng.random() < 0.4:
        body.append(line("M", rng.choice(pool.banks + [64])))
    return join(rng, lines + body + probe(rng, pool))


def spares(rng):
    """Faults in the spares and beside them, before and after the marks."""
    pool = Pool(rng, rng.randint(1, 3), 3)
    first, second = pool.banks[0], pool.banks[1]
    lines = []
    for _ in range(rng.randint(1, 8)):
        bank = rng.choice([68, 69, 69, 70, 71, 71, first, second])
        lines.append(fault_at(rng, bank, rng.choice(pool.indexes), rng.randrange(64)))
    quiet = dict(EVEN, M=0)
    body = commands(rng, pool, rng.randrange(8), quiet)
    for bank in (first, second):
        body.append(line("M", bank))
        body += commands(rng, pool, rng.randint(1, 10), quiet)
        # Read, overwrite and read again what lies in the spare.
        address = 64 * rng.choice(pool.indexes) + bank
        body += [line("R", address), line("W", address, "%02X" % some_byte(rng))]
        body += [line("R", address)] + [line("T")] * rng.randrange(2)
    return join(rng, lines + body + probe(rng, pool))


def marks(rng):
    """Marks of all sorts: repeated, third, too high, right after format."""
    pool = Pool(rng, rng.randint(1, 3), rng.randint(2, 4))
    lines = []
    for _ in range(rng.randrange(4)):
        lines += faults_in_word(rng, pool.address(rng), rng.randint(1, 3), pool.banks[:2])
    body = commands(rng, pool, rng.randrange(6), dict(EVEN, M=0))
    for _ in range(rng.randint(1, 6)):
        bank = rng.choice(pool.banks + [some_bank(rng), 63, 64, 71, 72, 99999, "00", "063"])
        body.append(line("M", bank))
        body += commands(rng, pool, rng.randrange(5), dict(EVEN, M=0))
    return join(rng, lines + body + probe(rng, pool))


def buffer_pressure(rng):
    """More than 16 lines for the write buffer, over faults that tell what is
    buffered and what went below."""
    pool = Pool(rng, rng.randint(4, SIZE), rng.randint(4, 8))
    lines = []
    for _ in range(rng.randint(5, 40)):
        bank = rng.choice([64, 65, 66, 67, 68, 69, 70, 70, 71, 71])
        lines.append(fault_at(rng, bank, rng.choice(pool.indexes), rng.randrange(64)))
    body = []
    halves = [64 * index + half for index in pool.indexes for half in (0, 32)]
    rng.shuffle(halves)
    lead = rng.random()
    for address in halves:
        letter = rng.choice("SCWW" if lead < 0.5 else "WWWN")
        if letter in "WN":
            within = rng.randrange(32)
            body.append(line(letter, address + within, "%02X" % some_byte(rng)))
        else:
            body.append(line(letter, address))
        if rng.random() < 0.05:
            body.append(line(rng.choice("PPT")))
    if rng.random() < 0.5:
        body.insert(rng.randrange(len(body) + 1), line("M", rng.choice(pool.banks)))
    if rng.random() < 0.3:
        body.insert(rng.randrange(len(body) + 1), line("M", rng.choice(pool.banks)))
    body += [line("P")] * rng.randrange(3)
    body += commands(rng, pool, rng.randint(3, 15), dict(EVEN, T=0, S=6))
    return join(rng, lines + body + probe(rng, pool))


def marks_over_buffer(rng):
    """Marks when some lines are buffered already: of the lines that a mark
    puts, the ones that went below show the faults there."""
    pool = Pool(rng, SIZE, 3)
    first, second = pool.banks[0], pool.banks[1]
    lines = []
    for index in pool.indexes:
        for bank in (68, 69, 70, 71):
            if rng.random() < 0.4:
                kind, delay = rng.choice([("O", 0), ("O", 1), ("F", 1), ("F", 2), ("Z", 0)])
                lines.append(fault_at(rng, bank, index, rng.randrange(64), kind, delay))
    body = []
    for bank in (first, second):
        for _ in range(rng.choice([0, 2, 5, 9, 14])):
            body.append(line("W", rng.randrange(ADDRESSES), "%02X" % some_byte(rng)))
        for _ in range(rng.choice([0, 0, 1, 3])):
            body.append(line(rng.choice("SC"), rng.randrange(ADDRESSES)))
        if rng.random() < 0.3:
            body.append(line("P"))
        if rng.random() < 0.3:
            body.append(line("T"))
        body += [line("M", bank)] + [line("P")] * rng.randrange(2)
        for index in range(SIZE):
            letter = rng.choice("RRRS")
            body.append(line(letter, 64 * index + bank))
    return join(rng, lines + body + probe(rng, pool))


def last_slot(rng):
    """The buffer fills up to its last slot, then a call puts more than one
    line: which one gets the slot goes by the order of its puts."""
    pool = Pool(rng, SIZE, 2)
    first, second = rng.sample(range(64), 2)
    marked = [first, second][: rng.choice([0, 1, 1, 2, 2, 2])]
    pool.banks = [first, second]
    lines = []
    for index in range(SIZE):
        for bank in range(64, 72):
            if rng.random() < (0.2 if bank < 69 else 0.5):
                kind, delay = rng.choice([("O", 0), ("O", 0), ("O", 1), ("F", 1)])
                lines.append(fault_at(rng, bank, index, rng.randrange(64), kind, delay))
    body = [line("M", bank) for bank in marked] + [line("T")]
    places = reference.Places(marked)
    buffered = set()
    for index in rng.sample(range(SIZE), SIZE):
        slots = reference.BUFFERED_LINES - len(buffered)
        letter = rng.choice("CSWWWWWW" if slots > 8 or not marked else "WWWW")
        banks = [first, second] if slots < 3 else [first, second, rng.randrange(64)]
        b = rng.choice(banks)
        if letter == "W":
            body.append(line("W", 64 * index + b, "%02X" % some_byte(rng)))
            put = [places.line(b), places.parity(b)]
        else:
            body.append(line(letter, 64 * index + b))
            put = places.whole_banks(b)
        buffered |= {(bank, index) for bank in put if bank >= 64}
        if rng.random() < 0.2:
            body.append(line("W", 64 * index + rng.randrange(64), "%02X" % some_byte(rng)))
    if len(marked) < 2 and rng.random() < 0.6:
        body.append(line("M", [first, second][len(marked)]))
    body += [line("P")] * rng.randrange(2)
    for index in range(SIZE):
        body.append(line(rng.choice("RRS"), 64 * index + rng.choice([first, second])))
    return join(rng, lines[:64] + body + probe(rng, pool))


def buffer_and_parts(rng):
    """One group after another is scrubbed or cleared, then its words are
    written in parts, with flips below that only a put removes."""
    pool = Pool(rng, rng.randint(2, 6), rng.randint(2, 4))
    lines = []
    for _ in range(rng.randint(4, 20)):
        symbol = rng.randrange(64, 70)
        bank, index, byte = place_of_symbol(pool.address(rng), symbol, [])
        kind = rng.choice("FFFO")
        lines.append(fault_at(rng, bank, index, byte, kind=kind, delay=rng.choice([1, 1, 2])))
    weights = dict(R=6, W=8, N=2, C=2, S=4, M=0, P=2, T=1)
    if rng.random() < 0.3:
        weights["M"] = 1
    body = commands(rng, pool, rng.randint(20, 45), weights)
    return join(rng, lines + body + probe(rng, pool))


EDGES = [0, 7, 8, 31, 32, 63, 64, 70, 71, 72, 255, 256, 447, 448, 510, 511, 512, 513, 65535, 65536]
ODD_NUMBERS = ["99999", "00000", "00511", "00512", "000511", "100000", "0", "00", "065536"]


def edge_number(rng):
    return rng.choice(EDGES) if rng.random() < 0.7 else rng.choice(ODD_NUMBERS)


def edge_fault(rng):
    """Every field mostly in range, so that each is wrong alone at times."""
    bank = edge_number(rng) if rng.random() < 0.3 else rng.randrange(72)
    index = edge_number(rng) if rng.random() < 0.3 else rng.randrange(8)
    byte = edge_number(rng) if rng.random() < 0.3 else rng.randrange(64)
    mask = 0 if rng.random() < 0.2 else some_mask(rng)
    delay = rng.choice([0, 0, 1, 1, 2, 254, 255, "000", "00255"])
    if rng.random() < 0.04:
        delay = rng.choice([256, 256, 257, 65536, 99999, "00256", "000001"])
    return fault(bank, index, byte, some_kind(rng), mask, delay)


def edges(rng):
    """Numbers at and past the ends of their ranges."""
    pool = Pool(rng, 2, 3)
    count = rng.choice([0, 3, 10, 63, 64, 65, 70]) if rng.random() < 0.5 else rng.randrange(12)
    lines = [edge_fault(rng) for _ in range(count)]
    for _ in range(rng.randint(5, 30)):
        letter = rng.choice("RWNCSMX")
        number = edge_number(rng)
        if letter in "WN":
            lines.append(line(letter, number, "%02X" % some_byte(rng)))
        elif letter == "X":
            lines.append(edge_fault(rng))
        else:
            lines.append(line(letter, number))
    if rng.random() < 0.2:  # a long wait
        lines += [line("P")] * rng.choice([253, 254, 255, 256])
    lines += commands(rng, pool, rng.randrange(10))
    return join(rng, lines + probe(rng, pool))


def full_table(rng):
    """Around 64 faults, with refused ones between them."""
    pool = Pool(rng, rng.randint(1, 4), 4)
    lines = []
    for _ in range(rng.randint(60, 68)):
        if rng.random() < 0.05:
            lines.append(edge_fault(rng))
        else:
            bank = rng.choice(pool.banks + [some_bank(rng), 64, 68, 70, 71])
            lines.append(fault_at(rng, bank, rng.choice(pool.indexes), rng.randrange(64)))
    for _ in range(rng.randrange(6)):  # wrong in up to three ways at once
        bank, mask = rng.choice([71, 71, 72]), rng.choice([0, 0, 1])
        lines.append(fault(bank, 7, rng.choice([63, 63, 64]), "O", mask, 0))
    lines += commands(rng, pool, rng.randint(5, 20)) + probe(rng, pool)
    return join(rng, lines)


def spoil(rng, text):
    """A readable line made unreadable, or nearly so."""
    fields = text.split(b"\t")
    at = rng.randrange(len(fields))
    choice = rng.randrange(17)
    if choice == 0:
        return b""
    if choice == 1:
        return text + b"\t"
    if choice == 2:
        return text + b"\r"
    if choice == 3:
        return text.lower()
    if choice == 4:
        return b"\t" + text
    if choice == 5:
        return b"\t".join(fields[:-1])
    if choice == 6:
        return text.replace(b"\t", b" ")
    if choice == 7:
        return text.replace(b"\t", b"\t\t", 1)
    if choice == 8:
        fields[at] = b""
    elif choice == 9:
        fields[at] += bytes([rng.randrange(0x80, 0x100)])
    elif choice == 10:
        fields[at] = rng.choice([b"+1", b"-1", b" 1", b"1 ", b"0x1", b"1.", b"1e1", b"\xd9\xa1", b"1_0"])
    elif choice == 11:
        fields[at] = rng.choice([b"A", b"AAA", b"0", b"000", b"a5", b"5a", b"G0", b"0G", b"0@", b":0", b"/0"])
    elif choice == 12:
        fields[0] = rng.choice([b"Q", b"x", b"?", b"RR", b"", b"R ", b" R", b"\x00", b"X\x00", b"\xd2"])
    elif choice == 13:
        fields[at] = rng.choice([b"F", b"O", b"Z", b"f", b"FF", b"Q", b"0"])
    elif choice == 14:
        fields[at] = b"0" * rng.randrange(1, 8) + fields[at]
    elif choice == 15:
        fields[-1] = rng.choice([b"a5", b"5a", b"aF", b"Fa", b"ff"])
    else:
        return text + b"\t" + rng.choice([b"0", b"00", b"F", b" "])
    return b"\t".join(fields)


def malformed(rng):
    """Unreadable lines among readable ones, before and after the format."""
    pool = Pool(rng, 1, 2)
    lines = []
    for _ in range(rng.randrange(6)):
        lines += faults_in_word(rng, pool.address(rng), 1, [])
    lines += commands(rng, pool, rng.randint(5, 30))
    if rng.random() < 0.5:
        lines.insert(rng.randrange(len(lines)), fault_at(rng, some_bank(rng), 0, 0))
    share = rng.choice([0.05, 0.3, 0.8])
    lines = [spoil(rng, text) if rng.random() < share else text for text in lines]
    return join(rng, lines)


def only_faults(rng):
    """No line but X, so that the format comes last."""
    return join(rng, [edge_fault(rng) for _ in range(rng.choice([1, 2, 5, 64, 65, 80]))])


def tiny(rng):
    """Empty and nearly empty inputs."""
    return rng.choice(
        [b"", b"\n", b"\n\n", b"\t", b"\t\n", b"\r\n", b"R", b"R\t", b"R\t0", b"P", b"P\n", b"P\t", b"T\n\n"]
        + [b"\x00", b"\xff", b"X\n", b"M\t0", b"M\t64"]
        + [b"P\nX\t0\t0\t0\tO\t01\t0\nR\t0\n", b"\nX\t0\t0\t0\tO\t01\t0"]
    )


def garbage(rng):
    """Bytes without sense, of an alphabet that sometimes makes some."""
    alphabet = rng.choice([b"RWNCSMPTX\t\n0123456789AFOZ", b"RPT\t\n01", bytes(range(256))])
    return bytes(rng.choice(alphabet) for _ in range(rng.randrange(400)))


def at_the_limit(rng):
    """Inputs just within and just past the longest length."""
    pool = Pool(rng, 2, 4)
    weights = dict(R=60, W=30, N=1, C=1, S=1, M=0.2, P=6, T=4)
    lines, total = [], 0
    for _ in range(rng.randrange(10)):
        lines += faults_in_word(rng, pool.address(rng), 1, [])
    total = sum(len(text) + 1 for text in lines)
    short = rng.random() < 0.5  # some inputs of many short lines, some of few long ones
    while total < LIMIT - 600:
        text = command(rng, pool, weights)
        if not short and rng.random() < 0.3:
            text = bytes(rng.choice(b"RX0\t ") for _ in range(rng.randrange(600)))
        lines.append(text)
        total += len(text) + 1
    data = b"\n".join(lines) + b"\n"
    length = LIMIT + rng.choice([-1, 0, 0, 0, 1, 1, 1, 2, 100, 60000])
    padding = length - len(data)
    if rng.random() < 0.5:
        return data + b"\n" * padding
    if rng.random() < 0.5:
        return data + b"P\n" * (padding // 2) + b"P" * (padding % 2)
    return data + b"R" * padding


STYLES = [
    (crowded, 14),
    (dense, 14),
    (same_place, 6),
    (weighty, 10),
    (rebuilds, 14),
    (bank_failure, 14),
    (spares, 10),
    (marks, 6),
    (buffer_pressure, 12),
    (marks_over_buffer, 8),
    (last_slot, 10),
    (buffer_and_parts, 8),
    (edges, 6),
    (full_table, 4),
    (malformed, 7),
    (only_faults, 1),
    (tiny, 2),
    (garbage, 2),
    (at_the_limit, 2),
]


def script(seed, position, style=None):
    """The script of this number: its style's name and its bytes."""
    rng = random.Random("%d/%d" % (seed, position))
    styles, weights = zip(*STYLES)
    chosen = rng.choices(styles, weights)[0]
    if style is not None:
        chosen = {known.__name__: known for known in styles}[style]
    return chosen.__name__, chosen(rng)


# Comparing ------------------------------------------------------------------


class Summary:
    def __init__(self):
        self.lines = 0
        self.styles = collections.Counter()
        self.outcomes = collections.Counter()  # (stage, letter, refusal or answer)

    def add(self, style, output):
        self.styles[style] += 1
        stage = 0
        for row in output.decode().splitlines():
            _, letter, refusal, answer, _ = row.split("\t")
            self.lines += 1
            if refusal != "0":
                what = "refused %2d" % int(refusal)
            elif letter in "RW":
                what = "finding %s" % answer
            elif letter == "S":
                what = "count " + count_range(int(answer))
            elif letter == "M":
                what = "spare %s" % answer
            else:
                what = "accepted"
            self.outcomes[stage, letter, what] += 1
            if what.startswith("spare"):
                stage += 1

    def table(self):
        """Rows of letter and outcome, a column for each stage."""
        kinds = sorted({(letter, what) for _, letter, what in self.outcomes})
        yield "%-24s %10s %10s %10s" % ("letter, outcome", "stage 0", "stage 1", "stage 2")
        for letter, what in kinds:
            counts = tuple(self.outcomes[stage, letter, what] for stage in range(3))
            yield "%-24s %10d %10d %10d" % ((letter + " " + what,) + counts)
        letters, refusals = collections.Counter(), collections.Counter()
        for (_, letter, what), count in self.outcomes.items():
            letters[letter] += count
            if what.startswith("refused"):
                refusals[int(what.split()[1])] += count
        yield "letters: " + ", ".join("%s %d" % pair for pair in sorted(letters.items()))
        yield "refusals: " + ", ".join("%d: %d" % pair for pair in sorted(refusals.items()))
        yield "styles: " + ", ".join("%s %d" % pair for pair in sorted(self.styles.items()))


def count_range(count):
    for top, name in [(0, "0"), (1, "1"), (9, "2-9"), (63, "10-63")]:
        if count <= top:
            return name
    return "64-"


def run_program(program, data):
    """The program's output, or a text that says how it failed."""
    try:
        done = subprocess.run([program], input=data, capture_output=True, timeout=60)
    except subprocess.TimeoutExpired:
        return b"(no end within 60 s)"
    if done.returncode != 0 or done.stderr:
        return done.stdout + b"(status %d) " % done.returncode + done.stderr
    return done.stdout


def first_difference(data, expected, given):
    """The first differing output line, with the input line it belongs to."""
    inputs = data.split(b"\n")
    a, b = expected.split(b"\n"), given.split(b"\n")
    for at in range(max(len(a), len(b))):
        x = a[at] if at < len(a) else None
        y = b[at] if at < len(b) else None
        if x != y:
            text = inputs[at] if at < len(inputs) else None
            return "line %d %r: reference %r, program %r" % (at + 1, text, x, y)
    return "none"


def main():
    options = argparse.ArgumentParser(description=__doc__.split("\n")[0])
    options.add_argument("--seed", type=int, default=1)
    options.add_argument("--count", type=int, default=1000)
    options.add_argument("--start", type=int, default=0, help="number of the first script")
    options.add_argument("--style", choices=[style.__name__ for style, _ in STYLES])
    options.add_argument("--program", default="crates/jelotsam/out/jelotsam")
    options.add_argument("--keep", type=pathlib.Path, default=pathlib.Path("/tmp"))
    options.add_argument("--print", action="store_true", help="only print the scripts")
    chosen = options.parse_args()

    summary, differences = Summary(), 0
    in_reference = in_program = 0.0
    for position in range(chosen.start, chosen.start + chosen.count):
        style, data = script(chosen.seed, position, chosen.style)
        if chosen.print:
            sys.stdout.buffer.write(data)
            continue
        begin = time.perf_counter()
        expected = reference.run(data)
        middle = time.perf_counter()
        given = run_program(chosen.program, data)
        in_reference += middle - begin
        in_program += time.perf_counter() - middle
        summary.add(style, expected)
        if given != expected:
            differences += 1
            chosen.keep.mkdir(parents=True, exist_ok=True)
            kept = chosen.keep / ("difference-%d-%d.script" % (chosen.seed, position))
            kept.write_bytes(data)
            print("difference (%s) in %s" % (style, kept))
            print("  " + first_difference(data, expected, given), flush=True)
    if chosen.print:
        return 0
    for row in summary.table():
        print(row)
    print("time: reference %.1f s, program %.1f s" % (in_reference, in_program))
    print(
        "scripts %d, lines %d, differences %d"
        % (sum(summary.styles.values()), summary.lines, differences)
    )
    return 1 if differences else 0


if __name__ == "__main__":
    sys.exit(main())
