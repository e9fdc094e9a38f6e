"""The table of crates/numbers: every reader of numbers, at its edges and in every place. The answers come from decoders.py."""
import random
from pathlib import Path

from decoders import LARGEST
from encoders import seven, size_7, size_8

RECORDED = Path(__file__).resolve().parent / "oracle-answers.txt"

# Answers that document 01 gives in so many words, or that its sessions show.
DOCUMENT = [
    ("6 3 0 050203", "1 0 -2 next 3"),
    ("7 0 0 1b", "1 -2 -1 next 1"),
    ("7 0 0 478f", "7 -8 -1 next 2"),
    ("8 0 0 0d212340", "2 4660 0 0 next 4"),
    ("1 0 1 49056414500a02", "5 next 2"),
    ("1 0 2 49056414500a02", "100 next 3"),
    ("0 0 3 49056414500a02", "10 next 4"),
    ("0 0 5 49056414500a02", "5 next 6"),
    ("0 0 6 49056414500a02", "1 next 7"),
    ("0 0 0 01", "-1 next 1"),
    ("1 0 0 8080808010", "corrupt"),
    ("9 0 0 49", "0 next 0"),
    ("search 0 1 4905641458490665", "by 4"),
    ("search 0 1 58500a02", "nothing"),
    ("search 0 1 58500a0249", "by 3"),
]


def case(reader, group, place, data):
    return f"{reader} {group} {place} {data.hex() or '-'}"


def pieces(reader, group, data):
    """A reading cut at every byte, and whole."""
    return [case(reader, group, 0, data[:k]) for k in range(len(data) + 1)]


def places(reader, group, data):
    """A reading in the middle of a section, one at its end, and two beyond."""
    section = b"\xff" + data + b"\x49"
    return [case(reader, group, at, section) for at in (1, len(section), len(section) + 1, LARGEST)]


def whole(rng, reader, head, size):
    """A reading of a head with any bytes behind it: some places have bytes before, some after."""
    lead = rng.randbytes(head % 3)
    return case(reader, 0, len(lead), lead + bytes([head]) + rng.randbytes(size - 1 + head % 2))


def seven_bit_numbers(rng, reader):
    """What the encodings 0, 1 and 3 have in common."""
    edges = [0, 1, 2, 3, 127, 128, 129, 16383, 16384, 16385, 2**21 - 1, 2**21, 2**28 - 1, 2**28, 2**31 - 1, 2**31]
    edges += [2**32 - 2, 2**32 - 1]
    lines = [case(reader, 0, 0, seven(n)) for n in edges]
    lines += [f"# {reader}: padded"]
    lines += [case(reader, 0, 0, seven(n, k)) for n, k in ((0, 2), (1, 3), (127, 4), (0, 5))]
    lines += [f"# {reader}: the fifth byte"]
    lines += [case(reader, 0, 0, b"\xff\xff\xff\xff" + bytes([b])) for b in (0, 15, 16, 127, 128, 255)]
    lines += [case(reader, 0, 0, bytes.fromhex("808080808000"))]
    lines += [f"# {reader}: cut at every byte, then whole"]
    lines += pieces(reader, 0, b"\xff\xff\xff\xff\x0f")
    lines += [f"# {reader}: places"]
    lines += places(reader, 0, b"\xac\x02")
    lines += [f"# {reader}: any number"]
    for _ in range(6):
        n = rng.getrandbits(rng.randint(1, 32))
        lead = rng.randbytes(rng.randint(0, 2))
        lines.append(case(reader, 0, len(lead), lead + seven(n) + rng.randbytes(rng.randint(0, 2))))
    return lines


def parsed(asked):
    """What the Rust was asked, as it is recorded: an encoding, the size of a group, and bytes."""
    encoding, n, data = asked.split(" ")
    return int(encoding), int(n), b"" if data == "-" else bytes.fromhex(data)


def asked_of_the_rust():
    for line in RECORDED.read_text("ascii").splitlines():
        if not line.startswith("#"):
            encoding, n, data = parsed(line.split(" = ")[0])
            yield case(encoding, n, 0, data)


def table():
    rng = random.Random(1)
    lines = ["# What document 01 gives"]
    lines += [line for line, _ in DOCUMENT]

    lines += ["# 1"]
    lines += seven_bit_numbers(rng, "1")
    lines += ["# 0"]
    lines += seven_bit_numbers(rng, "0")
    lines += ["# 3"]
    lines += [case("3", 0, 0, seven(n)) for n in (8190, 8191, 8192, 8193, 16382, 24575, 24576, 32768, 65535, 65536)]
    lines += seven_bit_numbers(rng, "3")

    lines += ["# 6: a head of no ones, and one of all ones with its numbers"]
    ones = [seven(n) for n in (1, 2, 127, 128, 16384, 2**32 - 1, 2**32 - 2, 0)]
    for n in range(2, 9):
        lines.append(case("6", n, 0, b"\x00"))
        lines.append(case("6", n, 0, bytes([2**n - 1]) + b"".join(ones[:n])))
    lines += ["# 6: one bit of the head"]
    lines += [case("6", n, 0, bytes([1 << i]) + b"\x03") for n in (2, 8) for i in range(n)]
    lines += ["# 6: a group of one has no head"]
    lines += [case("6", 1, 0, bytes.fromhex(h)) for h in ("00", "01", "02", "ff01", "ffffffff0f", "ffffffff10")]
    lines += pieces("6", 1, b"\xff\xff\x03")
    lines += ["# 6: no group of none, or of more than eight"]
    lines += [case("6", n, 0, bytes(9)) for n in (0, 9, 64, 256, LARGEST)]
    lines += [case("6", n, 0, b"") for n in (0, 9)]
    lines += ["# 6: a set bit beyond the group, its numbers missing and present"]
    for n in range(2, 8):
        for head in (1 << n, 255):
            lines.append(case("6", n, 0, bytes([head])))
        lines.append(case("6", n, 0, bytes([255]) + bytes(8)))
    lines += ["# 6: cut at every byte, then whole"]
    lines += pieces("6", 3, bytes.fromhex("05feffffff0f03"))
    lines += pieces("6", 8, bytes.fromhex("9102830480808001ff01"))
    lines += ["# 6: a corrupt number: the fault met first decides"]
    lines += [case("6", 3, 0, bytes.fromhex(h)) for h in ("07028080808010", "0702808080801003", "07808080801080", "0702808080")]
    lines += [case("6", 3, 0, bytes.fromhex(h)) for h in ("050280808080ff", "0580808080ff02", "02ffffffff7f")]
    lines += ["# 6: places"]
    lines += places("6", 2, b"\x02\x03")
    lines += places("6", 1, b"\x03")
    lines += ["# 6: any group"]
    for _ in range(12):
        n = rng.randint(2, 8)
        head = rng.randrange(2**n)
        body = b"".join(seven(rng.getrandbits(rng.randint(1, 32))) for _ in range(head.bit_count()))
        lead = rng.randbytes(rng.randint(0, 2))
        lines.append(case("6", n, len(lead), lead + bytes([head]) + body + rng.randbytes(rng.randint(0, 2))))

    lines += ["# 7: every head of selectors 0 and 3, and sixteen of 1 and of 2"]
    heads = [*range(0x40), *(0x40 + 16 * (k % 4) + k for k in range(16)), *(0x80 + 4 * k + k % 4 for k in range(16)), *range(0xC0, 0x100)]
    for head in heads:
        lines.append(whole(rng, "7", head, size_7(head)))
    lines += ["# 7: every length in every position, lowest and highest"]
    for position in range(3):
        for length in range(1, 5):
            head = 0xC0 + ((length - 1) << (2 * position))
            for fill in (bytes(length - 1) + b"\x80", b"\xff" * (length - 1) + b"\x7f"):
                parts = [b"\x01", b"\x02", b"\x03"]
                parts[position] = fill
                lines.append(case("7", 0, 0, bytes([head]) + b"".join(parts)))
    lines += ["# 7: cut at every byte, then whole"]
    lines += pieces("7", 0, b"\x1b")
    lines += pieces("7", 0, b"\x47\x8f")
    lines += pieces("7", 0, b"\xa0\x1f\xe0")
    lines += pieces("7", 0, b"\xe4" + bytes(range(0x7D, 0x83)))
    lines += ["# 7: cut by one byte"]
    lines += [case("7", 0, 0, bytes([head]) + rng.randbytes(size_7(head) - 2)) for head in range(0xC0, 0x100, 7)]
    lines += ["# 7: places"]
    lines += places("7", 0, b"\xc1\x02\x03\x04\x05")

    lines += ["# 8: every head"]
    for head in range(256):
        lines.append(whole(rng, "8", head, size_8(head)))
    lines += ["# 8: every code in every position, lowest and highest"]
    for position in range(4):
        for code, low, high in ((1, "80", "7f"), (2, "80", "7f"), (3, "8000", "7fff")):
            head = bytes([code << (2 * position)])
            lines += [case("8", 0, 0, head + bytes.fromhex(h)) for h in (low, high)]
    lines += ["# 8: behind a half byte"]
    lines += [case("8", 0, 0, bytes.fromhex(h)) for h in ("09f800", "09f7ff", "0df80000", "0df7fff0", "55f7f8", "5555aa")]
    lines += ["# 8: the last half byte is dropped"]
    lines += [case("8", 0, 0, bytes.fromhex(h)) for h in ("0150", "015f", "0d21234f", "150f0f", "150f00")]
    lines += ["# 8: cut at every byte, then whole"]
    lines += pieces("8", 0, b"\xff" + bytes(range(0x7C, 0x84)))
    lines += pieces("8", 0, b"\x0d\x21\x23\x40")
    lines += pieces("8", 0, b"\x00")
    lines += ["# 8: cut by one byte"]
    lines += [case("8", 0, 0, bytes([head]) + rng.randbytes(size_8(head) - 2)) for head in range(1, 256, 17)]
    lines += ["# 8: places"]
    lines += places("8", 0, b"\x0d\x21\x23\x40")

    lines += ["# 9: no bytes"]
    lines += [case("9", 0, at, b"\xff") for at in (0, 1, 2, LARGEST)]
    lines += [case("9", 0, 0, b"")]

    lines += ["# One byte"]
    lines += [case("byte", 0, 0, bytes([b])) for b in (0, 128, 255)]
    lines += [case("byte", 0, at, b"\x11\x22\x33") for at in (0, 1, 2, 3, 4, LARGEST)]
    lines += [case("byte", 0, 0, b"")]

    lines += ["# The search"]
    lines += [case("search", 0, 0, bytes([b])) for b in b"EIPSGH"]
    lines += [case("search", 0, 0, bytes([0x44, b, 0x49])) for b in b"DFJOQRTP"]
    lines += [case("search", 0, 0, b"PPP" + bytes([b])) for b in b"EIPSGH"]
    lines += [case("search", 0, 0, b"eipsgh"), case("search", 0, 0, b"\xc5\xc9\xd0\xd3\xc7\xc8")]
    lines += [case("search", 0, at, b"EXPISPGPH\x00") for at in range(12)]
    lines += [case("search", 0, LARGEST, b"E"), case("search", 0, 0, b""), case("search", 0, 1, b"")]
    lines += [case("search", 0, 0, b"P" * 255 + b"H"), case("search", 0, 0, b"P" * 256)]

    lines += ["# The longest section"]
    lines += [case("1", 0, at, b"\x80" * 252 + b"\xff\xff\xff\x0f") for at in (0, 251, 252, 256)]

    lines += ["# What the Rust was asked (vectors/oracle-answers.txt)"]
    lines += asked_of_the_rust()

    lines += ["# Lines that are no case"]
    lines += ["", "1", "1 0 0", "1 0 0 ", "1 0 0 00 ", " 1 0 0 00", "1  0 0 00", "1 0 0 00 00"]
    lines += ["2 0 0 00", "4 0 0 00", "5 0 0 00", "10 0 0 00", "bytes 0 0 00", "1 1 0 00", "byte 1 0 00"]
    lines += ["1 -1 0 00", "1 0 x 00", f"1 0 {LARGEST + 1} 00", f"6 {LARGEST + 1} 0 00", "6 100000000000000000000 0 00"]
    lines += ["1 0 0 0", "1 0 0 000", "1 0 0 0g", "1 0 0 g0", "1 0 0 FF", "1 0 0 --", "1 0 0 " + "00" * 257]
    lines += ["# Zeros before a number are no matter"]
    lines += ["1 00 000 05", "6 03 01 00050203"]
    return lines
