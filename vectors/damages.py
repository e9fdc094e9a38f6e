"""Flights under any definition, damaged: what rereads.py and oracle/ have in common."""
from oracle_frames import any_definition, any_section, log

KINDS = b"EIPGHS"
COUNTS = (0, 0, 1, 1, 2, 2, 3, 4, 6, 8, 12, 20, 62)


def any_bytes(rng):
    """A few bytes: any, or letters, or letters and small numbers."""
    kind = rng.randrange(3)
    if kind == 0:
        return rng.randbytes(rng.randint(1, 6))
    return bytes(rng.choices(KINDS if kind == 1 else b"IPPGHX\x00\x01\x02", k=rng.randint(1, 6)))


def damaged(rng, section, kinds=6):
    """A section with bytes flipped, exchanged, taken away, put in or, as the last of six kinds of damage, cut off."""
    at = rng.randrange(len(section) + 1)
    behind = min(len(section), at + rng.randint(1, 6))
    kind = rng.randrange(kinds)
    if kind == 5:
        return section[:at]
    if kind == 4:
        return section[:at] + any_bytes(rng) + section[at:]
    if kind == 3:
        return section[:at] + section[behind:]
    if kind == 2:
        return section[:at] + any_bytes(rng) + section[behind:]
    flipped = bytes(byte ^ 2 ** rng.randrange(8) for byte in section[at : at + 1])
    return section[:at] + flipped + section[at + 1 :]


def tail(rng, definition):
    """The end of another flight, of the same definition or of another."""
    other = any_section(rng, rng.choice((definition, any_definition(rng, COUNTS, given=(None,)))))
    return other[rng.randrange(len(other)) :]


def dropped(section, letters):
    """A section without some letters: each becomes the one before it."""
    return section.translate(bytes(byte - (byte in letters) for byte in range(256)))


def any_log(rng, kinds="IPP", between=(), drop=b"", **also):
    """A log whose section has stretches of frames with something between them, perhaps the tail of another flight behind, and damage."""
    definition = any_definition(rng, COUNTS, given=(None,), **also)
    section = b""
    for _ in range(rng.choice((1, 1, 2, 3))):
        section += any_section(rng, definition, kinds)
        if between and rng.randrange(2):
            section += rng.choice(between)(rng)
    if rng.randrange(4) == 0:
        section += tail(rng, definition)
    for _ in range(rng.choice((0, 1, 1, 2, 3, 5))):
        section = damaged(rng, section)
    return log(rng, definition, dropped(section, drop))


def without_e_and_s(rng, count):
    for _ in range(count):
        yield any_log(rng, drop=b"ES")


def with_any_bytes(rng, count):
    for _ in range(count // 2):
        yield any_log(rng)


def short_groups(rng, count):
    for _ in range(count // 4):
        yield any_log(rng, full=False, drop=b"ES")
