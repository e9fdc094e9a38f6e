"""Reduces a log that shows a difference to a smallest one that shows the same kind: fewer bytes, fewer fields and lines, simpler bytes and items.
Each step asks both programs, which are kept running."""
import judge
import programs
import reference

# Candidates that are asked at a time, and what a byte or an item may become, if that is simpler.
AT_ONCE = 16
BYTES = (0, 1, 2, 5, 13, 16, 40, 127, 128, 255)
ITEMS = {b"name": (b"a",), b"signed": (b"0", b"1"), b"predictor": (b"0", b"1"), b"encoding": (b"0", b"1", b"3")}


def fewer_bytes(case):
    """Without a half, a quarter, and so on to single bytes."""
    size = len(case.section)
    while size:
        for at in range(0, len(case.section), size):
            yield case.lines, case.section[:at] + case.section[at + size :]
        size //= 2


def simpler_bytes(case):
    for at, byte in enumerate(case.section):
        for other in BYTES:
            if other < byte:
                yield case.lines, case.section[:at] + bytes([other]) + case.section[at + 1 :]


def taken_apart(lines):
    """Each line: what stands before its items, and the items; other lines have no items."""
    parts = []
    for line in reference.lines_in(lines):
        name, colon, value = line.removesuffix(b"\n").partition(b":")
        is_list = colon and name.startswith(b"H Field ")
        parts.append((name + b":", value.split(b",")) if is_list else (line, None))
    return parts


def put_together(parts):
    return b"".join(start if items is None else start + b",".join(items) + b"\n" for start, items in parts)


def fewer_lines(case):
    """Without all slow lists, without a line, without a field."""
    parts = taken_apart(case.lines)
    slow = [part for part in parts if part[0].startswith(b"H Field S ")]
    if slow:
        yield put_together([part for part in parts if part not in slow]), case.section
    for k in range(len(parts)):
        yield put_together(parts[:k] + parts[k + 1 :]), case.section
    for kinds in ((b"H Field I ", b"H Field P "), (b"H Field S ",)):
        most = max((len(items) for start, items in parts if items and start.startswith(kinds)), default=0)
        for size, at in [(size, at) for size in (16, 4, 1) for at in range(most)]:
            yield put_together([(start, items[:at] + items[at + size :] if items and start.startswith(kinds) else items) for start, items in parts]), case.section


def simpler_items(case):
    """All items of a list behind its first two, then one by one."""
    parts = taken_apart(case.lines)
    simple = {k: ITEMS.get(start[10:-1], ()) for k, (start, items) in enumerate(parts) if items}
    for k, other in [(k, other) for k, others in simple.items() for other in others]:
        start, items = parts[k]
        yield put_together([*parts[:k], (start, items[:2] + [other] * len(items[2:])), *parts[k + 1 :]]), case.section
    for k, others in simple.items():
        start, items = parts[k]
        for at, item in enumerate(items):
            for other in others:
                if (len(other), other) < (len(item), item):
                    yield put_together([*parts[:k], (start, [*items[:at], other, *items[at + 1 :]]), *parts[k + 1 :]]), case.section


STEPS = (fewer_bytes, fewer_lines, simpler_items, simpler_bytes)


class Reducer:
    def __init__(self):
        self.driver = programs.Asked(programs.driver())
        self.rusts = {}

    def close(self):
        for program in (self.driver, *self.rusts.values()):
            program.close()

    def rust(self, flags):
        if flags not in self.rusts:
            self.rusts[flags] = programs.Asked(programs.rust(flags))
        return self.rusts[flags]

    def first(self, candidates, flags, kind):
        """The first of some candidates that shows a kind of difference, or None."""
        logs = [lines + section for lines, section in candidates]
        for log, rust, library in zip(logs, self.rust(flags).answers(logs), self.driver.answers(logs)):
            lines, section = reference.split(log)
            if kind in judge.judge(lines, section, flags, rust, library).kinds:
                return judge.case_of(lines, section, flags)
        return None

    def stepped(self, case, kind):
        """A case one step smaller, or None."""
        for step in STEPS:
            some = []
            for lines, section in step(case):
                # No step may lead back, or it would go on for ever.
                if judge.case_of(lines, section, case.flags) < case:
                    some.append((lines, section))
                if len(some) == AT_ONCE:
                    found = self.first(some, case.flags, kind)
                    if found:
                        return found
                    some = []
            found = self.first(some, case.flags, kind) if some else None
            if found:
                return found
        return None

    def reduced(self, case, kind):
        """The smallest case found, and what the two sides say of it: the Rust and the library, or the library and the reference."""
        while True:
            smaller = self.stepped(case, kind)
            if smaller is None:
                break
            case = smaller
        library = self.driver.answers([case.lines + case.section])[0]
        if kind[0] == judge.LIBRARY:
            return case, library, reference.answer(reference.lists_of(case.lines), case.section).text
        return case, self.rust(case.flags).answers([case.lines + case.section])[0], library
