#!/usr/bin/env python3
"""Writes data/ and stdout: the files that text_cases reads, and what it must print of them.

What is expected is worked out here from paper 01 alone, line by line and by regular expressions: a file can be continued
if its whole lines are good and its last one begins a good line. The place is the longest start that can be continued."""
import os, re, shutil

NAMES = ["entry blocks instructions cases places identifiers", "first count code a b c d e id from to", "id lvalue code p q from to",
         "test block", "identifier", "named"]
WIDTHS = [len(names.split()) for names in NAMES]
NUMBER = re.compile(r"(0|[1-9][0-9]{0,9})$")


def number(text):
    return NUMBER.match(text) is not None and int(text) < 2**32


def row(line, width):
    fields = line.split(" ")
    return len(fields) == width and all(number(f) for f in fields)


def row_start(line, width):
    fields = line.split(" ")
    return len(fields) <= width and all(number(f) for f in fields[:-1]) and (fields[-1] == "" or number(fields[-1]))


def plan(lines):
    """What each line is to be, with the lines so far: a line of names, a width, or nothing."""
    yield NAMES[0]
    yield WIDTHS[0]
    head = [int(f) for f in lines[1].split(" ")]
    for table in range(1, 6):
        yield NAMES[table]
        for _ in range(head[table]):
            yield WIDTHS[table]
    while True:
        yield None


def judge(data):
    """'good', 'viable' or 'bad'."""
    lines = data.decode("latin-1").split("\n")
    wanted = plan(lines)
    for line in lines[:-1]:
        want = next(wanted)
        if want is None or not (line == want if isinstance(want, str) else row(line, want)):
            return "bad"
    want = next(wanted)
    if want is None:
        return "good" if lines[-1] == "" else "bad"
    begins = want.startswith(lines[-1]) if isinstance(want, str) else row_start(lines[-1], want)
    return "viable" if begins else "bad"


def answer(data, room):
    if len(data) > 32768:
        return (51, 0, [])
    verdict = judge(data)
    if verdict == "good":
        words = [int(w) for w in re.findall(rb"[0-9]+", data)]
        return (99, 0, []) if len(words) > room else (0, 0, words)
    place = len(data)
    while judge(data[:place]) == "bad":
        place -= 1
    return (50, place, [])


def lines_of(code, at, count, stale, words):
    out = "code at rows visits\n%d %d %d %d\n" % (code, at, count, stale)
    if code == 0:
        out += "op a b c d e\n"
        for i in range(0, len(words) // 6 * 6, 6):
            out += " ".join(str(w) for w in words[i:i + 6]) + "\n"
    return out


def table_file(head, tables):
    out = NAMES[0] + "\n" + " ".join(map(str, head)) + "\n"
    for names, rows in zip(NAMES[1:], tables):
        out += names + "\n" + "".join(" ".join(map(str, r)) + "\n" for r in rows)
    return out


SAMPLE = table_file([0, 1, 0, 0, 1, 1], [[[0, 0, 3, 0, 0, 0, 0, 0, 7, 0, 0]], [], [], [[0]], [[1]]])
WHILE = table_file([0, 4, 0, 0, 1, 1], [[[0, 0, 9, 1, 2, 3, 0, 0, 1, 0, 0], [0, 0, 6, 0, 2, 3, 0, 0, 2, 0, 9], [0, 0, 4, 1, 1, 0, 0, 0, 3, 5, 6],
                                         [0, 0, 3, 0, 0, 0, 0, 0, 4, 0, 0]], [], [], [[0]], [[1]]])
ALL = table_file([0, 1, 2, 3, 1, 2], [[[0, 2, 7, 0, 0, 3, 0, 0, 9, 65535, 65535]], [[1, 0, 2, 0, 0, 0, 0], [2, 0, 1, 0, 0, 5, 8]], [[0, 0], [1, 0], [65535, 0]],
                                      [[0]], [[1], [0]]])
EMPTY = table_file([0, 0, 0, 0, 0, 0], [[], [], [], [], []])
HEAD = NAMES[0] + "\n"


def padded(size):
    """A good file of so many bytes: rows of one number, the last of them longer."""
    for rows in range(16400, 0, -1):
        least = len(table_file([0, 0, 0, 0, 0, rows], [[], [], [], [], [[0]] * rows]))
        if size - 9 <= least <= size:
            last = 10 ** (size - least) if size > least else 0
            return table_file([0, 0, 0, 0, 0, rows], [[], [], [], [], [[0]] * (rows - 1) + [[last]]])


CASES = [
    SAMPLE, "", WHILE, ALL, EMPTY,
    # cut short: within names, a number, a line, between tables, before the last LF
    "e", HEAD[:-1], HEAD, HEAD + "0 1 0", HEAD + "0 1 0 0 1 ", SAMPLE[:-1], SAMPLE[:-2], SAMPLE[:100], WHILE[:-9], ALL[:-13],
    # other ends of lines, spaces, more at the end
    SAMPLE.replace("\n", "\r\n"), SAMPLE[:-1] + " \n", SAMPLE + "\n", SAMPLE + "1\n", " " + SAMPLE, "\n" + SAMPLE, SAMPLE + "\0",
    SAMPLE.replace("0 1 0 0 1 1", "0  1 0 0 1 1"), SAMPLE.replace("0 1 0 0 1 1", "0 1 0 0 1 1 "), SAMPLE.replace("0 1 0 0 1 1", "0\t1 0 0 1 1"),
    SAMPLE.replace("0 1 0 0 1 1", " 0 1 0 0 1 1"), SAMPLE.replace("\nid lvalue", "\n\nid lvalue"), SAMPLE.replace("0 1 0 0 1 1\n", "0 1 0 0 1 1"),
    # numbers: leading zeros, signs, the largest and one more, twelve digits, letters
    SAMPLE.replace("0 1 0 0 1 1", "00 1 0 0 1 1"), SAMPLE.replace("0 1 0 0 1 1", "0 01 0 0 1 1"), SAMPLE.replace("0 1 0 0 1 1", "-0 1 0 0 1 1"),
    SAMPLE.replace("0 1 0 0 1 1", "+1 1 0 0 1 1"), SAMPLE.replace("0 1 0 0 1 1", "4294967295 1 0 0 1 1"), SAMPLE.replace("0 1 0 0 1 1", "4294967296 1 0 0 1 1"),
    SAMPLE.replace("0 1 0 0 1 1", "4294967300 1 0 0 1 1"), SAMPLE.replace("0 1 0 0 1 1", "42949672950 1 0 0 1 1"), SAMPLE.replace("0 1 0 0 1 1", "999999999999 1 0 0 1 1"),
    SAMPLE.replace("0 1 0 0 1 1", "0x1 1 0 0 1 1"), SAMPLE.replace("named\n1", "named\n4294967296"), SAMPLE.replace("named\n1", "named\n1a"),
    # columns: one too few, one too many
    SAMPLE.replace("0 1 0 0 1 1", "0 1 0 0 1"), SAMPLE.replace("0 1 0 0 1 1", "0 1 0 0 1 1 0"), SAMPLE.replace("0 0 7 0 0\n", "0 0 7 0\n"), SAMPLE.replace("0 0 7 0 0\n", "0 0 7 0 0 0\n"),
    # counts: a row too few, a row too many, over the limits
    SAMPLE.replace("0 1 0 0 1 1", "0 2 0 0 1 1"), SAMPLE.replace("0 1 0 0 1 1", "0 0 0 0 1 1"), SAMPLE.replace("0 1 0 0 1 1", "0 1 0 0 1 0"),
    SAMPLE.replace("0 1 0 0 1 1", "0 1 0 0 1 4294967295"), SAMPLE.replace("0 1 0 0 1 1", "0 1025 0 0 1 1"),
    # names
    SAMPLE.replace("first", "First"), SAMPLE.replace("test block", "block test"), SAMPLE.replace("named", "names"), SAMPLE.replace("from to", "span").replace("7 0 0", "7 0"), "\0\x01\xff\xfe",
    # length: the most, one more, far more, and as long but not in the form
    padded(32768), padded(32768) + "\n", "x" * 40000, padded(32768)[:-1] + "x",
]


def main():
    here = os.path.dirname(os.path.abspath(__file__))
    folder = os.path.join(here, "data")
    shutil.rmtree(folder, ignore_errors=True)
    os.mkdir(folder)
    out = ""
    for i, case in enumerate(CASES):
        data = case.encode("latin-1")
        with open(os.path.join(folder, "%02d" % i), "wb") as f:
            f.write(data)
        code, at, words = answer(data, 16384)
        out += lines_of(code, at, len(words), 0, words[:24])
    for room in (18, 19):
        code, at, words = answer(SAMPLE.encode(), room)
        out += lines_of(code, at, len(words), 0, words[:24])
    out += lines_of(0, 2**32 - 1, 0, 2**32 - 1, [2**32 - 1, 0, 10, 99, 100, 10**9])
    with open(os.path.join(here, "stdout"), "w") as f:
        f.write(out)
    print(len(CASES), "files")


if __name__ == "__main__":
    main()
