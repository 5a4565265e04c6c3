#!/usr/bin/env python3
"""A CSV of fixes, in degrees and metres, as a session: one report for each fix, in the order of the file.

    examples/csv/to_session.py FIXES.csv > FIXES.session

README.md beside this file says what the columns are and how numbers are rounded. A file that breaks a rule gives no session: a sentence on
standard error says which line and why, and the exit status is 1. It is 2 at a wrong call, and 3 where the file cannot be read."""
import csv
import decimal
import re
import struct
import sys

if sys.argv[1:] in (["--help"], ["-h"]):
    print(__doc__.strip())
    sys.exit(0)

COVARIANCE = ["cov_xx", "cov_xy", "cov_xz", "cov_yy", "cov_yz", "cov_zz"]
COLUMNS = ["engine", "time_ns", "lat_deg", "lon_deg", "height_m", "message_hex", "tags", "used_tags", "models", "spec"] + COVARIANCE
MOST_BYTES = 65536


class Refused(Exception):
    pass


def whole(column, text, most):
    """A number from 0 to most."""
    if not re.fullmatch(r"[0-9]{1,20}", text) or int(text) > most:
        raise Refused(f"{column} is '{text}' and must be a whole number from 0 to {most}")
    return int(text)


def scaled(column, text, places, least, most):
    """A decimal number of units, from least to most, as a whole number of 10 ** -places units: the nearest, and of two the even one."""
    if not re.fullmatch(r"-?[0-9]+(\.[0-9]+)?", text):
        raise Refused(f"{column} is '{text}' and must be a decimal number, as -12.5")
    exact = decimal.Context(prec=len(text) + places)
    value = exact.create_decimal(text)
    if not least <= value <= most:
        raise Refused(f"{column} is '{text}' and must be from {least} to {most}")
    return int(value.scaleb(places, exact).to_integral_value(decimal.ROUND_HALF_EVEN, exact))


def numbers(column, text, most, count):
    """Numbers with spaces between them."""
    values = [whole(column, word, most) for word in text.split()]
    if len(values) > count:
        raise Refused(f"{column} has {len(values)} numbers and may have at most {count}")
    return values


def bits(column, text):
    """The bits of the f64 nearest to a decimal number, in hex, highest digit first."""
    if not re.fullmatch(r"-?[0-9]+(\.[0-9]+)?([eE][-+]?[0-9]+)?", text) or float(text) in (float("inf"), float("-inf")):
        raise Refused(f"{column} is '{text}' and must be a decimal number that an f64 can hold, as 100 or 2.5e-3")
    return struct.pack(">d", float(text)).hex()


def tags_and_mask(fix):
    """The tags ascending, and which of them were used: bit i stands for the i-th."""
    tags = sorted(numbers("tags", fix["tags"], 2**64 - 1, 24))
    if not tags:
        raise Refused("tags is empty and must have at least one number")
    used = numbers("used_tags", fix["used_tags"], 2**64 - 1, 24)
    for column, values in (("tags", tags), ("used_tags", used)):
        twice = [v for v in values if values.count(v) > 1]
        if twice:
            raise Refused(f"{column} has {twice[0]} twice")
    strange = [v for v in used if v not in tags]
    if strange:
        raise Refused(f"used_tags has {strange[0]}, which is not among tags")
    return tags, sum(1 << tags.index(v) for v in used)


def report(fix):
    """The lines of a fix."""
    height = fix["height_m"]
    message = fix["message_hex"].lower()
    if not re.fullmatch(r"([0-9a-f]{14}){1,2}", message):
        raise Refused(f"message_hex is '{fix['message_hex']}' and must be 14 or 28 hex digits")
    tags, used = tags_and_mask(fix)
    models = numbers("models", fix["models"], 63, 4)
    return [
        ("op", "report"),
        ("engine", whole("engine", fix["engine"], 31)),
        ("time", whole("time_ns", fix["time_ns"], 2**64 - 1)),
        ("lat", scaled("lat_deg", fix["lat_deg"], 7, -90, 90)),
        ("lon", scaled("lon_deg", fix["lon_deg"], 7, -180, 180)),
        ("height", scaled("height_m", height, 3, -2147483, 2147483) if height else "none"),
        ("message", message),
        ("tags", ",".join(map(str, tags))),
        ("used", used),
        ("models", ",".join(map(str, models)) if models else "none"),
        ("spec", whole("spec", fix["spec"], 65535)),
        ("cov", "".join(bits(c, fix[c]) for c in COVARIANCE)),
    ]


def fixes(rows):
    """The fixes of a file, each with the number of its line."""
    head = [name.strip() for name in next(rows, [])]
    if sorted(head) != sorted(COLUMNS):
        missing = [c for c in COLUMNS if c not in head]
        strange = [c for c in head if c not in COLUMNS or head.count(c) > 1]
        wrong = f"{missing[0]} is missing" if missing else f"'{strange[0]}' is too many"
        raise Refused(f"line 1: the columns must be {','.join(COLUMNS)}, each once; {wrong}")
    for row in rows:
        if len(row) != len(COLUMNS):
            raise Refused(f"line {rows.line_num}: {len(row)} fields where {len(COLUMNS)} are due")
        yield rows.line_num, dict(zip(head, (field.strip() for field in row)))


def session(rows):
    text = ""
    for line, fix in fixes(rows):
        try:
            text += "".join(f"{key}={value}\n" for key, value in report(fix))
        except Refused as why:
            raise Refused(f"line {line}: {why}") from None
    if not text:
        raise Refused("there is no fix")
    if len(text) > MOST_BYTES:
        raise Refused(f"the session would have {len(text)} bytes, and at most {MOST_BYTES} are read")
    return text


def stop(status, why):
    """Says why there is no session, and ends."""
    sys.stderr.write(f"{why}\n")
    sys.exit(status)


def main():
    if len(sys.argv) != 2:
        stop(2, "to_session.py: one file of fixes is to be named; --help says how it is called")
    path = sys.argv[1]
    try:
        with open(path, encoding="utf-8-sig", newline="") as file:
            rows = csv.reader(file, strict=True)
            text = session(rows)
    except csv.Error as why:
        stop(1, f"{path}: line {rows.line_num}: {why}")
    except UnicodeDecodeError:
        stop(1, f"{path}: it is not in UTF-8")
    except OSError as why:
        stop(3, f"{path}: {why.strerror}")
    except Refused as why:
        stop(1, f"{path}: {why}")
    sys.stdout.write(text)


main()
