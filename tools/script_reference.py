#!/usr/bin/env python3
"""A slow, plain reference of the script: input bytes to output bytes.

It follows docs/RULES.md sentence by sentence and shares no code with the
library, so that the two can be compared.

    script_reference.py < script        run a script
    script_reference.py --self-check    compare with the reference points
"""

import functools
import sys

LINE = 64  # bytes of a line
BANKS = 72
SIZE = 8  # R, the size of the script's stack
INPUT_LIMIT = 16384
BUFFERED_LINES = 16
FAULTS = 64

CLEAN, CORRECTED, REBUILT, REBUILT_CORRECTED = range(4)


class Refusal(Exception):
    """A refused call. The script prints the number alone, so the addresses
    that refusals 7 and 8 name are not kept."""

    def __init__(self, number):
        super().__init__(number)
        self.number = number


# Field ----------------------------------------------------------------------


def times_alpha(x):
    """02 × x."""
    return (x << 1) ^ 0x11D if x & 0x80 else x << 1


def table_of_powers():
    """Entry k is α^k. Six rounds, so that sums of exponents need no mod."""
    powers = [1]
    while len(powers) < 6 * 255:
        powers.append(times_alpha(powers[-1]))
    return powers


POWERS = table_of_powers()
LOGARITHMS = {POWERS[k]: k for k in range(255)}


def product(x, y):
    if x == 0 or y == 0:
        return 0
    return POWERS[LOGARITHMS[x] + LOGARITHMS[y]]


# Words ----------------------------------------------------------------------
# A word is a bytes object of 70 symbols (full) or 69 (short).


def xor_of_lines(lines):
    """XOR byte by byte, over whole lines as big numbers."""
    total = 0
    for line in lines:
        total ^= int.from_bytes(line, "big")
    return total.to_bytes(LINE, "big")


@functools.lru_cache(maxsize=20000)
def syndromes(word):
    """S_0 to S_5 of a full word, S_0 to S_4 of a short one."""
    s0 = s1 = s2 = s3 = s4 = s5 = 0
    for s in range(68):
        symbol = word[s]
        if symbol == 0:
            continue
        s0 ^= symbol
        k = LOGARITHMS[symbol]
        locator = 67 - s  # the locator's logarithm
        s1 ^= POWERS[k + locator]
        s2 ^= POWERS[k + 2 * locator]
        s3 ^= POWERS[k + 3 * locator]
        s4 ^= POWERS[k + 4 * locator]
        s5 ^= POWERS[k + 5 * locator]
    s0 ^= word[68]
    if len(word) == 69:
        return (s0, s1, s2, s3, s4)
    return (s0, s1, s2, s3, s4, s5 ^ word[69])


def is_codeword(word):
    return not any(syndromes(word))


def is_consistent(word):
    return not any(syndromes(word)[1:5])


def divisor():
    """(x+α)(x+α^2)(x+α^3)(x+α^4), highest coefficient first."""
    polynomial = [1]
    for k in range(1, 5):
        shifted = polynomial + [0]
        scaled = [0] + [product(c, POWERS[k]) for c in polynomial]
        polynomial = [a ^ b for a, b in zip(shifted, scaled)]
    return polynomial


DIVISOR = divisor()


@functools.lru_cache(maxsize=20000)
def check_of_line(line):
    """The six check symbols: a long division, then the two sums."""
    rest = list(line) + [0, 0, 0, 0]
    for s in range(64):
        factor = rest[s]
        for k in range(5):
            rest[s + k] ^= product(factor, DIVISOR[k])
    symbols = bytes(line) + bytes(rest[64:68])
    second = [0, 0]
    for s in range(68):
        second[0] ^= symbols[s]
        second[1] ^= product(symbols[s], POWERS[5 * (67 - s)])
    return bytes(rest[64:68] + second)


@functools.lru_cache(maxsize=20000)
def single_error(word):
    """The pair (s, x) of the single-error finder, or None: every row of its
    table is tried."""
    found = syndromes(word)
    x = found[0]
    if x != 0:
        # Locator^0 is 01, so x can only be S_0 for a symbol below 68.
        for s in range(68):
            if all(found[k] == product(x, POWERS[k * (67 - s)]) for k in range(len(found))):
                return (s, x)
        if not any(found[1:]):
            return (68, x)
    if len(word) == 70 and found[5] != 0 and not any(found[:5]):
        return (69, found[5])
    return None


def line_after(word, pair):
    """The word's line with the pair's XOR made."""
    line = bytearray(word[:LINE])
    s, x = pair
    if s < LINE:
        line[s] ^= x
    return bytes(line)


def decode(word):
    """A shown word: (line, finding), or None if it is uncorrectable."""
    if is_consistent(word):
        return word[:LINE], CLEAN
    pair = single_error(word)
    if pair is not None:
        return line_after(word, pair), CORRECTED
    return None


def judge(word):
    """A rebuilt word: (line, finding), or None if the rebuild has failed."""
    if is_codeword(word):
        return word[:LINE], REBUILT
    pair = single_error(word)
    if pair is not None:
        return line_after(word, pair), REBUILT_CORRECTED
    return None


# Stacks ---------------------------------------------------------------------


def check_piece(size, bank, index, first, length):
    """Refusal 9 of fetch and put."""
    if bank >= BANKS or index >= size or length == 0 or first + length > LINE:
        raise Refusal(9)


class ByteMemory:
    """Shows what it keeps, in order of bank, index, byte."""

    def __init__(self, size):
        self.size = size
        self.kept = bytearray(BANKS * LINE * size)

    def start(self, bank, index, first):
        return (bank * self.size + index) * LINE + first

    def fetch(self, bank, index, first, length):
        check_piece(self.size, bank, index, first, length)
        p = self.start(bank, index, first)
        return bytes(self.kept[p : p + length])

    def put(self, bank, index, first, piece):
        check_piece(self.size, bank, index, first, len(piece))
        p = self.start(bank, index, first)
        self.kept[p : p + len(piece)] = piece

    def settle(self):
        pass

    def pass_interval(self):
        pass


class Fault:
    def __init__(self, bank, index, byte, kind, mask, delay):
        self.bank = bank
        self.index = index
        self.byte = byte
        self.kind = kind  # "F", "O" or "Z" as in the script
        self.mask = mask
        self.delay = delay

    def acts_in(self, bank, index, first, length):
        """Does it act, at a place of this piece?"""
        return (
            self.bank == bank
            and self.index == index
            and self.delay == 0
            and first <= self.byte < first + length
        )

    def change(self, byte):
        if self.kind == "F":
            return byte ^ self.mask
        if self.kind == "O":
            return byte | self.mask
        return byte & ~self.mask & 0xFF


class FaultInjector:
    def __init__(self, below):
        self.below = below
        self.size = below.size
        self.faults = []

    def add(self, fault):
        if fault.bank >= BANKS or fault.index >= self.size or fault.byte >= LINE:
            raise Refusal(9)
        if fault.mask == 0:
            raise Refusal(11)
        if len(self.faults) >= FAULTS:
            raise Refusal(12)
        self.faults.append(fault)

    def fetch(self, bank, index, first, length):
        piece = bytearray(self.below.fetch(bank, index, first, length))
        for fault in self.faults:
            if fault.acts_in(bank, index, first, length):
                at = fault.byte - first
                piece[at] = fault.change(piece[at])
        return bytes(piece)

    def put(self, bank, index, first, piece):
        self.below.put(bank, index, first, piece)  # a refusal ends it here
        self.faults = [
            fault
            for fault in self.faults
            if not (fault.kind == "F" and fault.acts_in(bank, index, first, len(piece)))
        ]

    def settle(self):
        self.below.settle()

    def pass_interval(self):
        for fault in self.faults:
            if fault.delay > 0:
                fault.delay -= 1
        self.below.pass_interval()


class WriteBuffer:
    def __init__(self, below):
        self.below = below
        self.size = below.size
        self.lines = {}  # (bank, index): bytes; a dict keeps order of arrival

    def fetch(self, bank, index, first, length):
        check_piece(self.size, bank, index, first, length)
        line = self.lines.get((bank, index))
        if line is not None:
            return bytes(line[first : first + length])
        return self.below.fetch(bank, index, first, length)

    def put(self, bank, index, first, piece):
        check_piece(self.size, bank, index, first, len(piece))
        line = self.lines.get((bank, index))
        if line is not None:
            # A whole line and a part of it alike; it keeps its turn.
            line[first : first + len(piece)] = piece
        elif len(piece) == LINE and bank >= 64 and len(self.lines) < BUFFERED_LINES:
            self.lines[(bank, index)] = bytearray(piece)
        else:
            self.below.put(bank, index, first, piece)

    def settle(self):
        for (bank, index), line in self.lines.items():
            self.below.put(bank, index, 0, bytes(line))
        self.lines = {}
        self.below.settle()

    def pass_interval(self):
        self.below.pass_interval()


# The board ------------------------------------------------------------------


class Places:
    """Where everything of an address lies, given the marked banks."""

    def __init__(self, marked):
        self.marked = list(marked)
        self.stage = len(marked)

    def line(self, b):
        """The bank of b's line."""
        if b in self.marked:
            return (71, 69)[self.marked.index(b)]
        return b

    def first_check(self, b):
        """Bank and first byte of symbols 64 to 67."""
        return 64 + b // 16, 4 * (b % 16)

    def second_check(self, b):
        """Bank, first byte and count of symbols 68 and 69."""
        if self.stage == 2:
            return 68, b, 1
        return 68 + b // 32, 2 * (b % 32), 2

    def parity(self, b):
        return 70 + b // 32 if self.stage == 0 else 70

    def group(self, b):
        """The banks of the addresses of b's group, ascending."""
        if self.stage > 0:
            return range(64)
        return range(32) if b < 32 else range(32, 64)

    def whole_banks(self, b):
        """The banks that clear and scrub put, ascending."""
        if self.stage == 0:
            h = b // 32
            return list(self.group(b)) + [64 + 2 * h, 65 + 2 * h, 68 + h, 70 + h]
        return [bank for bank in range(BANKS) if bank not in self.marked]


class Shown:
    """What the stack shows when a call begins. No call's answer depends on
    anything later, so each word is fetched and decoded at most once."""

    def __init__(self, stack, places):
        self.stack = stack
        self.places = places
        self.decoded = {}

    def check(self, a):
        i, b = divmod(a, 64)
        bank, first = self.places.first_check(b)
        check = self.stack.fetch(bank, i, first, 4)
        bank, first, count = self.places.second_check(b)
        return check + self.stack.fetch(bank, i, first, count)

    def parity(self, a):
        i, b = divmod(a, 64)
        return self.stack.fetch(self.places.parity(b), i, 0, LINE)

    def decode(self, a):
        if a not in self.decoded:
            i, b = divmod(a, 64)
            line = self.stack.fetch(self.places.line(b), i, 0, LINE)
            self.decoded[a] = decode(line + self.check(a))
        return self.decoded[a]

    def partner_lines(self, a):
        """The lines that decoding gives for the partners; refusal 7."""
        i, b = divmod(a, 64)
        results = [self.decode(64 * i + c) for c in self.places.group(b) if c != b]
        if None in results:
            raise Refusal(7)
        return [line for line, _ in results]

    def rebuild(self, a):
        total = xor_of_lines([self.parity(a)] + self.partner_lines(a))
        result = judge(total + self.check(a))
        if result is None:
            raise Refusal(8)
        return result

    def read(self, a):
        """(line, finding), or refusal 7 or 8."""
        result = self.decode(a)
        return self.rebuild(a) if result is None else result


class Board:
    def __init__(self, stack):
        """Format."""
        self.stack = stack
        self.marked = []
        for index in range(stack.size):
            for bank in range(BANKS):
                stack.put(bank, index, 0, bytes(LINE))
        stack.settle()

    def places(self):
        return Places(self.marked)

    def shown(self):
        return Shown(self.stack, self.places())

    def check_address(self, a):
        if a >= 64 * self.stack.size:
            raise Refusal(1)

    def put_all(self, index, pieces):
        """Pieces (bank, first byte, bytes) at one index, banks ascending."""
        for bank, first, piece in sorted(pieces):
            self.stack.put(bank, index, first, piece)

    def put_word(self, a, line, parity):
        """The four pieces of write and renew."""
        i, b = divmod(a, 64)
        places = self.places()
        check = check_of_line(line)
        bank4, first4 = places.first_check(b)
        bank2, first2, count = places.second_check(b)
        self.put_all(
            i,
            [
                (places.line(b), 0, line),
                (bank4, first4, check[:4]),
                (bank2, first2, check[4 : 4 + count]),
                (places.parity(b), 0, parity),
            ],
        )

    def read(self, a):
        self.check_address(a)
        return self.shown().read(a)

    def write(self, a, new):
        self.check_address(a)
        shown = self.shown()
        old, finding = shown.read(a)
        self.put_word(a, new, xor_of_lines([shown.parity(a), old, new]))
        return finding

    def renew(self, a, new):
        self.check_address(a)
        self.put_word(a, new, xor_of_lines([new] + self.shown().partner_lines(a)))

    def clear(self, a):
        self.check_address(a)
        i, b = divmod(a, 64)
        self.put_all(i, [(bank, 0, bytes(LINE)) for bank in self.places().whole_banks(b)])

    def scrub(self, a):
        self.check_address(a)
        i, b = divmod(a, 64)
        places = self.places()
        shown = self.shown()
        # Ascending, so the first refusal is that of the lowest address.
        lines = {c: shown.read(64 * i + c)[0] for c in places.group(b)}
        image = self.image(places, lines)
        pieces = [(bank, 0, bytes(image[bank])) for bank in places.whole_banks(b)]
        count = 0
        for bank, _, piece in pieces:
            before = self.stack.fetch(bank, i, 0, LINE)
            count += sum(x != y for x, y in zip(before, piece))
        self.put_all(i, pieces)
        return count

    def image(self, places, lines):
        """What the banks of a group hold at one index: the lines, their
        checks and their XOR, each at its place."""
        image = {bank: bytearray(LINE) for bank in range(BANKS)}
        for c, line in lines.items():
            check = check_of_line(line)
            image[places.line(c)][:] = line
            bank, first = places.first_check(c)
            image[bank][first : first + 4] = check[:4]
            bank, first, count = places.second_check(c)
            image[bank][first : first + count] = check[4 : 4 + count]
        some = next(iter(lines))
        image[places.parity(some)][:] = xor_of_lines(lines.values())
        return image

    def mark(self, b):
        if b > 63:
            raise Refusal(3)
        if b in self.marked:
            raise Refusal(4)
        if len(self.marked) == 2:
            raise Refusal(5)
        shown = self.shown()
        # Every line of the board before the first put, in ascending order.
        lines = []
        for a in range(64 * self.stack.size):
            line, _ = shown.rebuild(a) if a % 64 == b else shown.read(a)
            lines.append(line)
        for index in range(self.stack.size):
            here = lines[64 * index : 64 * index + 64]
            if not self.marked:
                pieces = [(70, 0, xor_of_lines(here)), (71, 0, here[b])]
            else:
                symbols = bytes(check_of_line(line)[4] for line in here)
                pieces = [(68, 0, symbols), (69, 0, here[b])]
            self.put_all(index, pieces)
        self.marked.append(b)
        return (71, 69)[len(self.marked) - 1]

    def settle(self):
        self.stack.settle()

    def pass_interval(self):
        self.stack.pass_interval()


# The script -----------------------------------------------------------------


class Unreadable(Exception):
    pass


def number(field):
    """One to five decimal digits."""
    if not 1 <= len(field) <= 5 or any(c not in b"0123456789" for c in field):
        raise Unreadable
    return int(field)


def hexadecimal_byte(field):
    """Exactly two digits, capitals only."""
    if len(field) != 2 or any(c not in b"0123456789ABCDEF" for c in field):
        raise Unreadable
    return int(field, 16)


def kind(field):
    if field not in (b"F", b"O", b"Z"):
        raise Unreadable
    return field.decode()


def delay(field):
    value = number(field)
    if value > 255:
        raise Unreadable
    return value


FIELDS = {
    b"R": [number],
    b"W": [number, hexadecimal_byte],
    b"N": [number, hexadecimal_byte],
    b"C": [number],
    b"S": [number],
    b"M": [number],
    b"P": [],
    b"T": [],
    b"X": [number, number, number, kind, hexadecimal_byte, delay],
}


def parse(line):
    """The letter and its arguments, or None if the line is unreadable."""
    letter, *fields = line.split(b"\t")
    readers = FIELDS.get(letter)
    if readers is None or len(fields) != len(readers):
        return None
    try:
        return letter.decode(), [reader(field) for reader, field in zip(readers, fields)]
    except Unreadable:
        return None


def split_lines(data):
    """What follows the last 0A is a line only if it is not empty."""
    lines = data.split(b"\n")
    if lines[-1] == b"":
        lines.pop()
    return lines


def answer(board, letter, arguments):
    """Fields 4 and 5 of an accepted command."""
    if letter == "R":
        line, finding = board.read(*arguments)
        return str(finding), "%02X" % line[0]
    if letter == "W":
        address, byte = arguments
        return str(board.write(address, bytes([byte]) * LINE)), "-"
    if letter == "N":
        address, byte = arguments
        board.renew(address, bytes([byte]) * LINE)
    elif letter == "C":
        board.clear(*arguments)
    elif letter == "S":
        return str(board.scrub(*arguments)), "-"
    elif letter == "M":
        return str(board.mark(*arguments)), "-"
    elif letter == "P":
        board.pass_interval()
    elif letter == "T":
        board.settle()
    return "-", "-"


def run(data):
    """The script as a function from input bytes to output bytes."""
    if len(data) > INPUT_LIMIT:
        return b"0\t?\t14\t-\t-\n"
    injector = FaultInjector(ByteMemory(SIZE))
    board = None  # made at the first line that is no readable X
    output = []
    for position, line in enumerate(split_lines(data), start=1):
        command = parse(line)
        leading = board is None and command is not None and command[0] == "X"
        if board is None and not leading:
            board = Board(WriteBuffer(injector))
        if command is None or (command[0] == "X" and not leading):
            output.append("%d\t?\t14\t-\t-\n" % position)
            continue
        letter, arguments = command
        refusal, fields = 0, ("-", "-")
        try:
            if leading:
                injector.add(Fault(*arguments))
            else:
                fields = answer(board, letter, arguments)
        except Refusal as refused:
            refusal = refused.number
        output.append("%d\t%s\t%d\t%s\t%s\n" % ((position, letter, refusal) + fields))
    return "".join(output).encode()


# Reference points -----------------------------------------------------------


def zero_but(length, **symbols):
    """A word or line of 00, but for symbols given as s63=0x01."""
    word = bytearray(length)
    for name, value in symbols.items():
        word[int(name[1:])] = value
    return bytes(word)


def self_check():
    """The reference points and the example of docs/RULES.md."""
    assert DIVISOR == [0x01, 0x1E, 0xD8, 0xE7, 0x74]
    assert sorted(POWERS[:255]) == list(range(1, 256)) and POWERS[255] == 1

    points = [
        (zero_but(64), "000000000000"),
        (zero_but(64, s63=1), "1ED8E7745492"),
        (zero_but(64, s62=1), "9182A1B102CD"),
        (zero_but(64, s62=1, s63=1), "8F5A46C5565F"),
    ]
    for line, check in points:
        assert check_of_line(line) == bytes.fromhex(check)
        assert is_codeword(line + check_of_line(line))
        assert is_codeword(line + check_of_line(line)[:5])

    zero, second = points[0][0], points[1][0]
    assert decode(zero_but(70, s0=1)) == (zero, CORRECTED)
    assert single_error(zero_but(70, s0=1)) == (0, 1)
    assert decode(zero_but(70, s68=0xFF, s69=0xFF)) == (zero, CLEAN)
    seventh = zero_but(70, s63=1, s64=0x1E, s65=0xD8, s66=0xE7, s67=0x74)
    assert decode(seventh) == (second, CLEAN)
    eighth = zero_but(70, s63=1, s64=0x1E, s65=0xD8, s66=0xE7, s68=0x54, s69=0x92)
    assert decode(eighth) == (second, CORRECTED)
    assert single_error(eighth) == (67, 0x74)
    assert decode(zero_but(70, s0=1, s1=1)) is None

    for marked, line, second_check, parity in [
        ([], 63, (69, 62, 2), 71),
        ([5], 63, (69, 62, 2), 70),
        ([63], 71, (69, 62, 2), 70),
        ([5, 6], 63, (68, 63, 1), 70),
        ([63, 6], 71, (68, 63, 1), 70),
        ([5, 63], 69, (68, 63, 1), 70),
    ]:
        places = Places(marked)
        assert places.line(63) == line
        assert places.first_check(63) == (67, 60)
        assert places.second_check(63) == second_check
        assert places.parity(63) == parity

    script = "X 5 0 0 F 01 1\nW 5 A7\nR 5\nP\nR 5\n"
    output = "1 X 0 - -\n2 W 0 0 -\n3 R 0 0 A7\n4 P 0 - -\n5 R 0 1 A7\n"
    assert run(script.replace(" ", "\t").encode()) == output.replace(" ", "\t").encode()
    assert run(b"") == b""
    assert run(b"\n") == b"1\t?\t14\t-\t-\n"


def main():
    if sys.argv[1:] == ["--self-check"]:
        self_check()
        print("reference points hold")
        return
    sys.stdout.buffer.write(run(sys.stdin.buffer.read()))


if __name__ == "__main__":
    main()
