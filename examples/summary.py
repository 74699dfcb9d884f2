#!/usr/bin/env python3
"""Summary files, which the library writes and reads and the program "judge" reads, from text and back.

    python3 examples/summary.py show problem.summary
    python3 examples/summary.py hex problem.summary
    python3 examples/summary.py make problem.txt > problem.summary
    python3 examples/summary.py mend problem.summary > mended.summary

`show` prints the problem of a file, `hex` lists a file's bytes, a line for each field, and `make` writes the file of a problem. Without a
name they read standard input. What `show` prints, `make` takes.

The upper and lower halves of low and high may differ, from a hub that rounds each entry by itself. `show`, `hex` and `make` keep the halves
as they are given. The judge reads the mended problem: of the entries (i,j) and (j,i) the greater low and the smaller high, in both places.
`mend` writes the file of the mended problem, as hb_write_summary does. hb_read_summary reads the same numbers from the file and from the
mended one, and `show` prints them of the mended one. Where the halves agree, the two files are the same.

The text form is this. `#` starts a comment, and empty lines are passed over. All numbers are whole.

    order 2          # n, from 1 to 8: always the first line
    low              # L: a line for each row
    4 1
    1 5
    high             # U
    5 2
    2 6
    linear_low 1 -2  # the low end of a: n numbers
    linear_high 3 0  # its high end
    limit 100        # the limit
    centre 0 0       # c: n numbers

`matrix` with rows stands for `low` and `high` with the same rows, and `linear` with numbers for `linear_low` and `linear_high` with the
same numbers. `show` prints them so where both are equal. The parts after `order` may stand in any order; `show` prints them in the order
above, and `make` writes their fields with rising tags, the high end of a as the last.

Where a file is damaged, `show`, `hex` and `mend` say which of the judge's refusals it meets and why, and end with status 1; `hex` lists
first what can be read. A file can hold a problem that the judge refuses for its numbers (refusals 3 to 5 and 16): `make` writes it and
`show` prints it, with a note, and `mend` refuses it.
"""

import re
import sys

MAX_FILE = 4096
MAX_ORDER = 8
HEAD = 3

# The fields: tag, word, bytes of a number, and the greatest size of a number, either way.
FIELDS = [
    (1, "order", 1, None),
    (2, "low", 4, 2**20),
    (3, "high", 4, 2**20),
    (4, "linear_low", 8, 2**36),
    (5, "limit", 8, 2**54),
    (6, "centre", 8, 2**12),
    (7, "linear_high", 8, 2**36),
]
WORD = {tag: word for tag, word, _, _ in FIELDS}
WIDTH = {word: width for _, word, width, _ in FIELDS}
RANGE = {word: size for _, word, _, size in FIELDS}

# Words of a text that stand for two parts with the same numbers.
BOTH = {"matrix": ["low", "high"], "linear": ["linear_low", "linear_high"]}

REFUSALS = {
    1: "order",
    3: "range",
    4: "crossed",
    5: "lopsided",
    10: "cut",
    11: "tag",
    12: "again",
    13: "absent",
    14: "size",
    15: "long",
    16: "reversed",
    19: "falling",
}


class Refused(Exception):
    """The judge refuses a file: the number of the refusal and what is wrong."""

    def __init__(self, number, reason):
        super().__init__(f"refused {number}, {REFUSALS[number]}: {reason}")


class TextError(Exception):
    """A text is not in the form."""

    def __init__(self, line, reason):
        super().__init__(f"line {line}: {reason}")


def count(word, order):
    """How many numbers a part has."""
    if word in ["low", "high"]:
        return order**2
    return 1 if word in ["order", "limit"] else order


def many(number, thing):
    return f"{number} {thing}" if number == 1 else f"{number} {thing}s"


# From text.


def text_lines(text):
    """The lines that say something: line number and words."""
    lines = [(number, line.split("#")[0].split()) for number, line in enumerate(text.split("\n"), 1)]
    return [(number, words) for number, words in lines if words]


def whole(word, line):
    if not re.fullmatch("-?[0-9]+", word):
        raise TextError(line, f"'{word}' is not a whole number")
    if len(word) > 20:
        raise TextError(line, f"a number of {len(word)} places fits no field of the file")
    return int(word)


def numbers(words, expected, width, line, what):
    """The numbers of a line, each of which fits its bytes."""
    found = [whole(word, line) for word in words]
    if len(found) != expected:
        raise TextError(line, f"{what} has {many(expected, 'number')}, and here are {len(found)}")
    for number in found:
        if not -(2 ** (8 * width - 1)) <= number < 2 ** (8 * width - 1):
            raise TextError(line, f"{number} does not fit the {width} bytes that the file has for it")
    return found


def rows(lines, order, width, line, word):
    """The rows of a table, which are taken off the lines."""
    table = []
    for row in range(1, order + 1):
        if not lines or lines[0][1][0] in [*WIDTH, *BOTH]:
            end = "the text ends" if not lines else f"'{lines[0][1][0]}' follows in line {lines[0][0]}"
            raise TextError(line, f"'{word}' has {many(order, 'row')}, but {end} after {row - 1}")
        at, words = lines.pop(0)
        table += numbers(words, order, width, at, f"row {row} of '{word}'")
    return table


def parse(text):
    """The problem of a text: the numbers of each part by its word."""
    lines, problem = text_lines(text), {}
    while lines:
        line, (word, *words) = lines.pop(0)
        parts = BOTH.get(word, [word])
        if parts[0] not in WIDTH:
            raise TextError(line, f"'{word}' is none of {', '.join(WIDTH)}, {' and '.join(BOTH)}")
        for part in parts:
            if part in problem:
                raise TextError(line, f"'{part}' is given a second time")
        if word != "order" and "order" not in problem:
            raise TextError(line, f"'order' has to come before '{word}'")
        order = problem.get("order", [1])[0]
        width = WIDTH[parts[0]]
        if word == "order":
            problem[word] = numbers(words, 1, 8, line, "'order'")
            if not 1 <= problem[word][0] <= MAX_ORDER:
                raise TextError(line, f"the order is from 1 to {MAX_ORDER}, not {problem[word][0]}")
        elif parts[0] in ["low", "high"]:
            if words:
                raise TextError(line, f"the rows of '{word}' start in the next line")
            table = rows(lines, order, width, line, word)
            problem.update({part: table for part in parts})
        else:
            found = numbers(words, count(parts[0], order), width, line, f"'{word}'")
            problem.update({part: found for part in parts})
    missing = [f"'{word}'" for word in WIDTH if word not in problem]
    if missing:
        raise TextError(max(1, len(text.splitlines())), f"the text ends without {' and '.join(missing)}")
    return problem


def write(problem):
    """The file of a problem, tags rising."""
    file = b""
    for tag, word, width, _ in FIELDS:
        content = b"".join(number.to_bytes(width, "little", signed=width > 1) for number in problem[word])
        file += bytes([tag]) + len(content).to_bytes(2, "little") + content
    return file


# From a file.


def walk(file):
    """The fields of a file: where each starts, its tag and its content. Refused by 15, then field by field by 10, 11, 12 and 19."""
    if len(file) > MAX_FILE:
        raise Refused(15, f"the file has more than {MAX_FILE} bytes")
    at, seen, last = 0, set(), 0
    while at < len(file):
        rest = len(file) - at
        if rest < HEAD:
            raise Refused(10, f"a field starts at byte {at}, with only {many(rest, 'byte')} left for its tag and length")
        tag, length = file[at], int.from_bytes(file[at + 1 : at + HEAD], "little")
        if length > rest - HEAD:
            raise Refused(10, f"the field at byte {at} has the length {length}, with only {many(rest - HEAD, 'byte')} left for its content")
        if tag not in WORD:
            raise Refused(11, f"the field at byte {at} has the tag {tag:02X}, which is not one of 01 to 07")
        if tag in seen:
            raise Refused(12, f"the field at byte {at} is a second one with the tag {tag:02X}, {WORD[tag]}")
        if tag < last:
            raise Refused(19, f"the field at byte {at} has the tag {tag:02X}, {WORD[tag]}, below {last:02X} before it")
        seen.add(tag)
        last = tag
        yield at, tag, file[at + HEAD : at + HEAD + length]
        at += HEAD + length


def decode(content, width):
    """The numbers of a content. The order is unsigned, all others are signed."""
    parts = [content[at : at + width] for at in range(0, len(content), width)]
    return [int.from_bytes(part, "little", signed=width > 1) for part in parts]


def check_size(contents, word, order):
    expected = WIDTH[word] * count(word, order)
    if len(contents[word]) != expected:
        caller = "the form" if word == "order" else f"order {order}"
        raise Refused(14, f"the field of {word} has {many(len(contents[word]), 'byte')}, where {caller} calls for {expected}")


def read(file):
    """The problem of a file. Refused by all but 3, 4, 5 and 16."""
    contents = {WORD[tag]: content for _, tag, content in walk(file)}
    missing = [f"{word} (tag {tag:02X})" for tag, word in WORD.items() if word not in contents]
    if missing:
        raise Refused(13, f"there is no field of {', '.join(missing)}")
    check_size(contents, "order", 1)
    order = contents["order"][0]
    if not 1 <= order <= MAX_ORDER:
        raise Refused(1, f"the order is {order}, not from 1 to {MAX_ORDER}")
    for word in list(WIDTH)[1:]:
        check_size(contents, word, order)
    return {word: decode(contents[word], width) for word, width in WIDTH.items()}


def place(word, index, order):
    """The name of a number: (row, column) in a table, (k) in a list, counted from 1."""
    if word in ["low", "high"]:
        return f"{word}({index // order + 1},{index % order + 1})"
    return word if word == "limit" else f"{word}({index + 1})"


def check_above(number, problem, low, high):
    """Refuses by the number where one of the low numbers is above its high one."""
    for index, (least, most) in enumerate(zip(problem[low], problem[high])):
        if least > most:
            at = [place(word, index, problem["order"][0]) for word in (low, high)]
            raise Refused(number, f"{at[0]} is {least}, above {at[1]}, which is {most}")


def mirrored(index, order):
    """The index of (j,i) in a table, from that of (i,j)."""
    return index % order * order + index // order


def mended(problem):
    """The problem with mended tables: of each pair the greater low and the smaller high, in both places."""
    order = problem["order"][0]
    mirror = lambda table: [table[mirrored(index, order)] for index in range(order**2)]
    low, high = problem["low"], problem["high"]
    return {**problem, "low": list(map(max, low, mirror(low))), "high": list(map(min, high, mirror(high)))}


def check_numbers(problem):
    """Refusals 3, 4, 5 and 16, each over the whole problem before the next. After 4, a pair leaves no number where low(i,j) > high(j,i)."""
    order = problem["order"][0]
    for word in list(WIDTH)[1:]:
        for index, number in enumerate(problem[word]):
            if abs(number) > RANGE[word]:
                raise Refused(3, f"{place(word, index, order)} is {number}, beyond {RANGE[word]} either way")
    check_above(4, problem, "low", "high")
    for index, low in enumerate(problem["low"]):
        mirror = mirrored(index, order)
        if low > problem["high"][mirror]:
            at = place("low", index, order), place("high", mirror, order)
            raise Refused(5, f"{at[0]} is {low}, above {at[1]}, which is {problem['high'][mirror]}: the pair leaves no number")
    check_above(16, problem, "linear_low", "linear_high")


# To text.


def table_rows(table, order):
    return [" ".join(map(str, table[at : at + order])) for at in range(0, len(table), order)]


def text_of(problem):
    """The text of a problem."""
    order = problem["order"][0]
    words = {word: [word] if problem[low] == problem[high] else [low, high] for word, (low, high) in BOTH.items()}
    first = lambda word: problem[BOTH.get(word, [word])[0]]
    lines = [f"order {order}"]
    for word in words["matrix"]:
        lines += [word, *table_rows(first(word), order)]
    lines += [" ".join(map(str, [word, *first(word)])) for word in [*words["linear"], "limit", "centre"]]
    return "\n".join(lines) + "\n"


def meaning(word, content, order):
    """What the content of a field says."""
    width = WIDTH[word]
    size = f"{word}, {many(len(content), 'byte')}"
    if len(content) % width:
        return f"{size}: not whole numbers of {width} bytes"
    found = decode(content, width)
    if word in ["low", "high"] and 0 < len(found) == order**2:
        return f"{size}: [{'; '.join(table_rows(found, order))}]"
    return f"{size}: {' '.join(map(str, found))}".rstrip()


def grouped(content, width):
    return " ".join(content[at : at + width].hex().upper() for at in range(0, len(content), width))


def listing(file):
    """The lines of a file's fields, and the refusal that ended the walk, if any."""
    fields, refused, end = [], None, 0
    try:
        for at, tag, content in walk(file):
            fields.append((at, tag, content))
            end = at + HEAD + len(content)
    except Refused as refusal:
        refused = refusal
    orders = [content[0] for _, tag, content in fields if WORD[tag] == "order" and len(content) == 1]
    lines = []
    for at, tag, content in fields:
        head = f"{tag:02X} {file[at + 1 : at + HEAD].hex().upper()} {grouped(content, WIDTH[WORD[tag]])}"
        lines.append((head, meaning(WORD[tag], content, *orders or [0])))
    if end < len(file):
        lines.append((grouped(file[end:], 1), "not read"))
    room = min(48, max((len(head) for head, _ in lines), default=0))
    return [f"{head:<{room}}  {meant}" for head, meant in lines], refused


# The commands.


def note(problem):
    """Says on standard error why the judge will refuse the numbers of a problem, if it will."""
    try:
        check_numbers(problem)
    except Refused as refusal:
        print(f"note: the judge will answer {refusal}", file=sys.stderr)


def make(given):
    try:
        text = given.decode()
    except UnicodeDecodeError:
        raise TextError(1, "this is not a text") from None
    problem = parse(text)
    note(problem)
    sys.stdout.buffer.write(write(problem))


def mend(file):
    problem = read(file)
    check_numbers(problem)
    sys.stdout.buffer.write(write(mended(problem)))


def show(file):
    problem = read(file)
    note(problem)
    print(text_of(problem), end="")


def hex_listing(file):
    lines, refused = listing(file)
    print("".join(line + "\n" for line in lines), end="")
    if refused:
        raise refused
    note(read(file))


COMMANDS = {"make": make, "show": show, "hex": hex_listing, "mend": mend}


def contents(names):
    """The bytes of the named file, or of standard input."""
    if not names:
        return sys.stdin.buffer.read()
    with open(names[0], "rb") as file:
        return file.read()


def main(arguments):
    if arguments == ["--help"]:
        print(__doc__, end="")
        return 0
    if len(arguments) not in (1, 2) or arguments[0] not in COMMANDS:
        print("summary.py: it takes make, show, hex or mend, and the name of a file or none; summary.py --help says more", file=sys.stderr)
        return 2
    command, *names = arguments
    try:
        given = contents(names)
    except OSError as error:
        print(f"{' '.join(names)}: {error.strerror}", file=sys.stderr)
        return 1
    try:
        COMMANDS[command](given)
    except (Refused, TextError) as error:
        print(error, file=sys.stderr)
        return 1
    return 0


if __name__ == "__main__":
    sys.exit(main(sys.argv[1:]))
