#!/usr/bin/env python3
"""Writes the table texts of crates/table_cases/data/cases.txt, and what the program must say of them.

The answers come from the reading of table text written here a second time, by cutting lines and words apart and
asking of each word whether it may stand there. Nothing is taken from the library."""
import os
import re

KEYS = ["place", "kind", "name", "owner", "link", "up", "lo", "hi", "value"]
NATURAL = re.compile(r"0|[1-9][0-9]*")
INTEGER = re.compile(r"0|-?[1-9][0-9]*")


def natural(s, least, most):
    return NATURAL.fullmatch(s) is not None and least <= int(s) <= most


def million(s):
    return INTEGER.fullmatch(s) is not None and -1_000_000 <= int(s) <= 1_000_000


def fits(key, word, next_place):
    if not word.startswith(key + "="):
        return False
    s = word[len(key) + 1:]
    if key == "place":
        return natural(s, next_place, 254)
    if key == "kind":
        return s in ("comp", "prov", "req", "par")
    if key == "name":
        return re.fullmatch(r"[A-Za-z0-9]{1,8}", s) is not None
    if key in ("owner", "link"):
        return s == "none" or natural(s, 0, 254)
    if key == "up":
        return s in ("0", "1")
    return million(s)


def judge(text):
    next_place, rows = 0, 0
    lines = text.split("\n")
    for number, line in enumerate(lines, 1):
        last = number == len(lines)
        if last and line == "":
            return f"{rows} rows"
        words, byte = line.split(" "), 0
        for i, word in enumerate(words):
            if i == 9 or not fits(KEYS[i], word, next_place):
                return f'line {number}, byte {byte}: "{word}"'
            if i == 0:
                place = int(word[6:])
            byte += len(word) + 1
        if len(words) < 9 or last:
            return f'line {number}, byte {len(line)}: ""'
        next_place, rows = place + 1, rows + 1
    return f"{rows} rows"


def line(**change):
    row = dict(place="2", kind="par", name="len", owner="1", link="none", up="0", lo="0", hi="4096", value="512")
    row.update(change)
    return " ".join(f"{k}={row[k]}" for k in KEYS)


def cases():
    good = line()
    yield ""
    yield good + "\n"
    yield line(place="0") + "\n" + line(place="254", kind="comp") + "\n"
    for kind in ("comp", "prov", "req", "par"):
        yield line(kind=kind) + "\n"
    # each key wrong, lacking, doubled
    words = good.split(" ")
    for i, key in enumerate(KEYS):
        yield " ".join(words[:i] + [words[i].replace("=", "")] + words[i + 1:]) + "\n"
        yield " ".join(words[:i] + ["x" + words[i]] + words[i + 1:]) + "\n"
        yield " ".join(words[:i] + [key.upper() + words[i][len(key):]] + words[i + 1:]) + "\n"
        yield " ".join(words[:i] + words[i + 1:]) + "\n"
        yield " ".join(words[:i + 1] + words[i:]) + "\n"
        yield " ".join(words[:i] + [key + "="] + words[i + 1:]) + "\n"
        yield " ".join(words[:i]) + "\n"
        yield " ".join(words[:i])
    # blanks doubled and at the ends
    for i in range(1, 9):
        yield " ".join(words[:i]) + "  " + " ".join(words[i:]) + "\n"
    for t in (" " + good + "\n", good + " \n", good + "  \n", good + " x\n", good + " ", good, good + "\n\n", "\n", " ", "\n" + good + "\n",
              good + "\n " + line(place="3") + "\n", good + "\nx", good + "\t\n", good.replace(" ", "\t") + "\n", good + "\r\n", good + "\0\n"):
        yield t
    # numbers: leading zeros, signs, one past each bound
    for place in ("00", "02", "+2", "-0", "255", "256", "1000", "9999999999", "", "a"):
        yield line(place=place) + "\n"
    for key in ("owner", "link"):
        for value in ("0", "254", "255", "256", "00", "01", "-1", "+1", "None", "none1", "non"):
            yield line(**{key: value}) + "\n"
    for up in ("1", "2", "00", "01", "-0", "-1"):
        yield line(up=up) + "\n"
    for key in ("lo", "hi", "value"):
        for value in ("-1000000", "1000000", "-1000001", "1000001", "-0", "+0", "00", "-01", "2147483648", "-2147483649", "99999999999999999999", "-", "1e3", "1.0"):
            yield line(**{key: value}) + "\n"
    # names and kinds
    for name in ("a", "Z9", "abcdefgh", "abcdefghi", "", "a-b", "a_b", "a.b", "é"):
        yield line(name=name) + "\n"
    for kind in ("", "0", "4", "para", "Par", "parx", "none"):
        yield line(kind=kind) + "\n"
    # places rise
    yield line(place="3") + "\n" + line(place="3") + "\n"
    yield line(place="3") + "\n" + line(place="2") + "\n"
    yield line(place="3") + "\n" + line(place="4") + "\n"
    yield line(place="254") + "\n" + line(place="254") + "\n"
    yield line(place="254") + "\n" + line(place="255") + "\n"
    yield line(place="254") + "\nx\n"
    yield line(place="254") + "\n\n"
    yield "".join(line(place=str(p)) + "\n" for p in range(255))
    yield "".join(line(place=str(p)) + "\n" for p in range(255)) + line(place="0")


def main():
    folder = os.path.join(os.path.dirname(__file__), "..", "crates", "table_cases")
    with open(os.path.join(folder, "data", "cases.txt"), "w", newline="") as data, open(os.path.join(folder, "stdout"), "w", newline="") as out:
        for number, text in enumerate(cases(), 1):
            raw = text.encode().decode("latin-1")
            data.write(text.replace("\n", "\\n").replace("\0", "\\0") + "\n")
            answer = judge(raw).encode("latin-1").decode()
            out.write(f"{number}: {answer}\n")


if __name__ == "__main__":
    main()
