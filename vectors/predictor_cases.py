"""The predictions in the table of crates/frames: one field, with what it had in two frames before. The answers come from frames.py."""
from frames import predict_case

# What a field had in a frame before.
HISTORY = (0, 1, 2**31 - 1, 2**31, 2**32 - 1, None)
RAWS = (0, 1, 2**32 - 1, 2)


def pairs(predictor):
    """Every last and older of a field, signed and unsigned, with raw numbers that change from line to line."""
    for encoding in (0, 1):
        for i, last in enumerate(HISTORY):
            for j, older in enumerate(HISTORY):
                yield predict_case(predictor, encoding, last, older, RAWS[(i + 2 * j) % 4], 5, 7, (1, 2, 3))


def raw_numbers():
    for raw in (0, 1, 2**31 - 1, 2**31, 2**32 - 1500, 2**32 - 1499, 2**32 - 1):
        yield predict_case(8, 0, None, None, raw)
        yield predict_case(1, 1, 1500, None, raw)


def skipped():
    for count in (0, 1, 2**31 - 1, 2**31, 2**32 - 2, 2**32 - 1):
        for last in (None, 0, 1, 2**32 - 1):
            yield predict_case(6, count % 2, last, None, 0, count)


def motor():
    for value in HISTORY[:-1]:
        yield predict_case(5, 0, 9, 8, 1, 0, value)
        yield predict_case(5, 1, None, None, 2**32 - 1, 0, value)


def header_numbers():
    for predictor, k in ((4, 0), (9, 1), (11, 2)):
        for value in (0, 1, 32767, 32768, 65535, None):
            own = tuple(value if i == k else 7 for i in range(3))
            yield predict_case(predictor, 0, 9, 8, 0, 0, 0, own)
            yield predict_case(predictor, 1, None, None, 2**32 - 1, 0, 0, own)


def no_predictors():
    for predictor in (12, 13, 127, 128, 254, 255):
        yield predict_case(predictor, 0, 9, 8, 3, 5, 7, (1, 2, 3))
    yield predict_case(255, 1, None, None, 2**32 - 1)


def signed_encodings():
    for encoding in (*range(11), 127, 128, 255):
        yield predict_case(2, encoding, 10, 30)
        yield predict_case(3, encoding, 2**32 - 7, 0)


PREDICTIONS = (
    *((f"Predictor {predictor}", lambda predictor=predictor: pairs(predictor)) for predictor in range(12)),
    ("Raw numbers", raw_numbers),
    ("Skipped iterations", skipped),
    ("motor[0]", motor),
    ("Header numbers", header_numbers),
    ("No predictor", no_predictors),
    ("Which encodings are signed", signed_encodings),
)
