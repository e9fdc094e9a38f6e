"""The numbers of a section, read as document 01 says under "Numbers in a section", and what crates/numbers is to print of them.

Written from that text over strings of bits, so that it shares no step with the code under crates/. Two things are not
in the text: the numbers of encoding 8 are signed, which is the project's reading, and a group of encoding 6 of none or
of more than eight is refused, which is the reader's contract. A place may lie beyond the bytes.
"""
import re


class Cut(Exception):
    """The data ended inside."""


class Corrupt(Exception):
    """The bytes are no number."""


class Section:
    def __init__(self, data, place):
        self.data = data
        self.place = place

    def byte(self):
        """The next byte, as eight bits, high first."""
        if self.place >= len(self.data):
            raise Cut
        self.place += 1
        return format(self.data[self.place - 1], "08b")

    def bits(self, count):
        """The whole bytes that hold so many bits, as one string."""
        return "".join(self.byte() for _ in range((count + 7) // 8))


def signed(bits):
    """Two's complement, of any width; no bits are zero."""
    if not bits:
        return 0
    return int(bits, 2) - (int(bits[0]) << len(bits))


def variable(s):
    """Encoding 1."""
    groups = []
    while True:
        byte = s.byte()
        if len(groups) == 4 and int(byte, 2) > 15:
            raise Corrupt
        groups.insert(0, byte[1:])
        if byte[0] == "0":
            return int("".join(groups), 2)


def variable_signed(s):
    """Encoding 0."""
    k, odd = divmod(variable(s), 2)
    return -k - 1 if odd else k


def negative_14_bit(s):
    """Encoding 3."""
    return -signed(format(variable(s), "014b")[-14:])


def tagged_variable(s, n):
    """Encoding 6."""
    if not 1 <= n <= 8:
        raise Corrupt
    if n == 1:
        return [variable_signed(s)]
    head = s.byte()[::-1]
    if "1" in head[n:]:
        raise Corrupt
    return [variable_signed(s) if bit == "1" else 0 for bit in head[:n]]


def tagged_32(s):
    """Encoding 7."""
    head = s.byte()
    if head[:2] == "00":
        return [signed(head[2:4]), signed(head[4:6]), signed(head[6:8])]
    if head[:2] == "01":
        byte = s.byte()
        return [signed(head[4:]), signed(byte[:4]), signed(byte[4:])]
    if head[:2] == "10":
        second, third = s.byte(), s.byte()
        return [signed(head[2:]), signed(second[2:]), signed(third[2:])]
    values = []
    for pair in (head[6:8], head[4:6], head[2:4]):
        little_end_first = [s.byte() for _ in range(1 + int(pair, 2))]
        values.append(signed("".join(reversed(little_end_first))))
    return values


def tagged_16(s):
    """Encoding 8."""
    head = s.byte()
    widths = [(0, 4, 8, 16)[int(pair, 2)] for pair in (head[6:8], head[4:6], head[2:4], head[0:2])]
    packed = s.bits(sum(widths))
    values = []
    for width in widths:
        values.append(signed(packed[:width]))
        packed = packed[width:]
    return values


def numbers(encoding, n, s):
    """The values of one reading; n is the size of a group of encoding 6."""
    if encoding == 0:
        return [variable_signed(s)]
    if encoding == 1:
        return [variable(s)]
    if encoding == 3:
        return [negative_14_bit(s)]
    if encoding == 6:
        return tagged_variable(s, n)
    if encoding == 7:
        return tagged_32(s)
    if encoding == 8:
        return tagged_16(s)
    if encoding == 9:
        return [0]
    raise ValueError(encoding)


def answer(encoding, n, place, data):
    """What a reader of an encoding answers, in the words of crates/numbers."""
    s = Section(data, place)
    try:
        values = numbers(encoding, n, s)
    except Cut:
        return "cut"
    except Corrupt:
        return "corrupt"
    return f"{' '.join(map(str, values))} next {s.place}"


def byte_answer(place, data):
    s = Section(data, place)
    try:
        return f"{int(s.byte(), 2)} next {s.place}"
    except Cut:
        return "end"


def search_answer(place, data):
    """A search goes to the next of E I S G H, and passes over P."""
    for at in range(place, len(data)):
        if data[at] in b"EISGH":
            return f"by {at - place}"
    return "nothing"


def trial_of(answer, data):
    """What becomes of an intra frame whose fields after time are these bytes, unpredicted, with nothing behind them, for an answer to them."""
    if answer == "cut":
        return "cut"
    if answer == "corrupt":
        return "rejected"
    values, _, place = answer.partition(" next ")
    if int(place) < len(data) and data[int(place)] not in b"EIPGHS":
        return "rejected"
    return f"frame {values}"


def trial(encoding, n, data):
    """The same, for the answer of the decoders here."""
    return trial_of(answer(encoding, n, 0, data), data)


# What the program is asked, and what it prints.

ENCODINGS = ("0", "1", "3", "6", "7", "8", "9")

# What a case can hold: bytes of a section, and a size or a place.
SECTION = 256
LARGEST = 2**64 - 1


def words_of(line):
    """The parts of a case, or None where the line is none."""
    m = re.fullmatch(r"(\w+) ([0-9]+) ([0-9]+) (-|(?:[0-9a-f]{2})+)", line, re.ASCII)
    if not m:
        return None
    reader, group, place = m[1], int(m[2]), int(m[3])
    data = b"" if m[4] == "-" else bytes.fromhex(m[4])
    if reader not in (*ENCODINGS, "byte", "search"):
        return None
    if group > LARGEST or place > LARGEST or len(data) > SECTION:
        return None
    if reader != "6" and group != 0:
        return None
    return reader, group, place, data


def answered(line):
    """The line that the program is to write for a line of the table."""
    if line.startswith("#"):
        return line
    words = words_of(line)
    if words is None:
        return "? " + line
    reader, group, place, data = words
    if reader == "byte":
        return f"{line} = {byte_answer(place, data)}"
    if reader == "search":
        return f"{line} = {search_answer(place, data)}"
    return f"{line} = {answer(int(reader), group, place, data)}"
