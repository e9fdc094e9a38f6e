"""Numbers as a section holds them, for making cases: the other way round from decoders.py. Raw numbers are 32-bit patterns. And how much room cases have."""
import frames

# The most bytes that a program reads; walk and replay alone read more.
ROOM = 65536

# Patterns at the ends of the 32-bit types, and near.
EDGES = (0, 1, 2, 2**31 - 2, 2**31 - 1, 2**31, 2**31 + 1, 2**32 - 2, 2**32 - 1)


def seven(n, length=0):
    """A number in groups of seven bits, padded to a length."""
    groups = [n % 128]
    while n >= 128:
        n //= 128
        groups.append(n % 128)
    groups += [0] * (length - len(groups))
    return bytes([g + 128 for g in groups[:-1]] + groups[-1:])


def signed(raw):
    return frames.number(raw, True)


def zigzag(raw):
    """Encoding 0."""
    value = signed(raw)
    return seven(2 * value if value >= 0 else -2 * value - 1)


def negative_14_bit(raw):
    """Encoding 3."""
    return seven(-signed(raw) % 2**14)


def tagged_variable(rng, raws):
    """Encoding 6; now and then a number that is 0 follows its head all the same."""
    if len(raws) == 1:
        return zigzag(raws[0])
    marked = [raw != 0 or rng.randrange(8) == 0 for raw in raws]
    head = sum(2**i for i, mark in enumerate(marked) if mark)
    return bytes([head]) + b"".join(zigzag(raw) for raw, mark in zip(raws, marked) if mark)


def width(value):
    """The bytes of a signed number."""
    return next(n for n in range(1, 5) if -(2 ** (8 * n - 1)) <= value < 2 ** (8 * n - 1))


def tagged_32(rng, raws):
    """Encoding 7, with any of the selectors that have room for the values."""
    values = [signed(raw) for raw in raws]
    selectors = [k for k, most in enumerate((2, 8, 32)) if all(-most <= value < most for value in values)]
    selector = rng.choice([*selectors, 3])
    if selector == 0:
        return bytes([values[0] % 4 * 16 + values[1] % 4 * 4 + values[2] % 4])
    if selector == 1:
        return bytes([64 + values[0] % 16, values[1] % 16 * 16 + values[2] % 16])
    if selector == 2:
        return bytes([128 + values[0] % 64, values[1] % 64, values[2] % 64])
    widths = [rng.randint(width(value), 4) for value in values]
    head = 192 + sum((n - 1) * 4**k for k, n in enumerate(widths))
    return bytes([head]) + b"".join(value.to_bytes(n, "little", signed=True) for value, n in zip(values, widths))


def tagged_16(rng, raws):
    """Encoding 8, with any of the widths that have room for each value."""
    head, packed = 0, ""
    for k, value in enumerate(map(signed, raws)):
        fitting = [code for code, n in enumerate((0, 4, 8, 16)) if value == 0 or n and -(2 ** (n - 1)) <= value < 2 ** (n - 1)]
        code = rng.choice(fitting)
        head += code * 4**k
        bits = (0, 4, 8, 16)[code]
        packed += format(value % 2**bits, f"0{bits}b") if bits else ""
    packed += "0" * (-len(packed) % 8)
    return bytes([head]) + bytes(int(packed[at : at + 8], 2) for at in range(0, len(packed), 8))


def size_7(head):
    """The bytes of a reading of encoding 7, its head included, from the lengths of its parts."""
    pairs = [head % 4, head // 4 % 4, head // 16 % 4]
    return [1, 2, 3, 1 + sum(1 + p for p in pairs)][head // 64]


def size_8(head):
    halves = sum((0, 1, 2, 4)[head // 4**k % 4] for k in range(4))
    return 1 + -(-halves // 2)


def group(rng, encoding, raws):
    """The bytes of a group; the values that a short one drops may be any."""
    if encoding == 6:
        return tagged_variable(rng, raws)
    if encoding in (7, 8):
        dropped = [any_raw(rng, encoding) for _ in range(frames.SIZES[encoding] - len(raws))]
        return (tagged_32 if encoding == 7 else tagged_16)(rng, [*raws, *dropped])
    if encoding == 9:
        return b""
    return {0: zigzag, 1: seven, 3: negative_14_bit}[encoding](raws[0])


def fields(rng, encodings, raws):
    """The bytes of all fields."""
    data, at = b"", 0
    for encoding, size in frames.groups(encodings):
        data += group(rng, encoding, raws[at : at + size])
        at += size
    return data


def any_word(rng):
    return rng.choice(EDGES) if rng.randrange(3) == 0 else rng.getrandbits(rng.randint(1, 32))


def any_raw(rng, encoding):
    """A raw number that an encoding has: small ones are frequent, and the ends of its range too."""
    if encoding == 9:
        return 0
    low, high = {3: (-8191, 8192), 8: (-32768, 32767)}.get(encoding, (-(2**31), 2**31 - 1))
    kind = rng.randrange(4)
    if kind == 0:
        return rng.choice((low, low + 1, -1, 0, 1, high - 1, high)) % frames.WORD
    if kind == 1:
        return rng.randint(low, high) % frames.WORD
    return rng.randint(max(low, -(2 ** rng.randint(1, 20))), min(high, 2 ** rng.randint(1, 20))) % frames.WORD
