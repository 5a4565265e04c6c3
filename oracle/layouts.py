"""The bytes of a record, a summary and a register, from the layouts in docs/REFERENCE.md, for the scripts that write what a program reads:

    sys.path.insert(0, .../oracle)
    from layouts import record, register, summary

Nothing is tested here, so a script can write what is malformed too. Nothing is taken from the proved crates."""
import struct

MAX_TAGS, SUMMARY, SUMMARIES, PLACES = 24, 36, 256, 96
USED_AT = 37
TAGS_AT = USED_AT + 4
MODEL_COUNT_AT = TAGS_AT + 8 * MAX_TAGS
MODELS_AT = MODEL_COUNT_AT + 1
SPEC_AT = MODELS_AT + 4
COVARIANCE_AT = SPEC_AT + 2
RECORD = COVARIANCE_AT + 48
PLACE = RECORD + 4
REGISTER = 8 + SUMMARIES * SUMMARY + PLACES * PLACE
ITEM = RECORD + 32 + 32 + 8 + 3
SHORT = b"\x8d" + bytes(6)


def diagonal(variance):
    """The covariance with the same variance on each axis, and no other terms."""
    return (variance, 0.0, 0.0, variance, 0.0, variance)


def record(tags, *, time=1000, lat=0, lon=0, height=1500, message=SHORT, used=None, models=(), spec=0, covariance=diagonal(100.0)):
    """A record: `used` is the mask of its tags, all of them where it is not passed; a covariance is the six numbers xx, xy, xz, yy, yz, zz."""
    used = (1 << len(tags)) - 1 if used is None else used
    data = struct.pack("<QiiBi", time, lat, lon, height is not None, height or 0)
    data += struct.pack("<B14s", len(message), message)
    data += struct.pack("<BI%dQ" % MAX_TAGS, len(tags), used, *tags, *[0] * (MAX_TAGS - len(tags)))
    data += struct.pack("<B4BH", len(models), *models, *[0] * (4 - len(models)), spec)
    data += struct.pack("<6d", *covariance)
    assert len(data) == RECORD
    return data


def summary(engine, model, spec, inputs):
    """What an engine says of a model: its spec, and the 32 bytes of its inputs."""
    assert len(inputs) == 32
    return struct.pack("<BBH", engine, model, spec) + inputs


def register(summaries=(), records=(), convicted=()):
    """A register of summaries, and of records with their signers' mask (a dict), each table in ascending order."""
    summaries, places = sorted(summaries), [one + struct.pack("<I", mask) for one, mask in sorted(dict(records).items())]
    table = lambda rows, size, count: b"".join(rows) + bytes(size * (count - len(rows)))
    mask = sum(1 << engine for engine in convicted)
    data = struct.pack("<IHH", mask, len(summaries), len(places)) + table(summaries, SUMMARY, SUMMARIES) + table(places, PLACE, PLACES)
    assert len(data) == REGISTER
    return data
