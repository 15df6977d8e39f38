#!/usr/bin/env python3
"""hex.py: Intel HEX as docs/DECISIONS.md reads 02, written again from the words, to hold the proved programs against.

  hex.py cases DIR      writes the files of crates/dumps/data and its args to DIR, and prints what the program must print
  hex.py random SEED    prints a random image of the bench as a dump with records of any length, in any order and case
  hex.py image DUMP     prints the bytes of a dump, 32,768 of them, to standard output; or its answer and line to standard error
  hex.py lines IMAGE    prints an image as `grom` lines"""
import pathlib
import random
import sys

SIZE = 32768
END = ":00000001FF"
MEANS = {
    20: "bad record: form, sum, type, an address above >7FFF, or text after the end record",
    21: "address named twice",
    22: "no end record",
}


def record(at, data, kind=0):
    body = bytes([len(data), at >> 8, at & 255, kind]) + bytes(data)
    return ":" + (body + bytes([-sum(body) & 255])).hex().upper()


def parse(line):
    """a line as (kind, address, data), or None where it is bad"""
    if line[:1] != b":" or len(line) % 2 == 0 or any(c not in b"0123456789ABCDEFabcdef" for c in line[1:]):
        return None
    body = bytes.fromhex(line[1:].decode())
    if len(body) < 5 or len(body) != body[0] + 5 or sum(body) % 256:
        return None
    at, kind = body[1] * 256 + body[2], body[3]
    if kind == 0 or (kind, body[0], at) == (1, 0, 0):
        return kind, at, body[4:-1]
    return None


def read(text, size=SIZE):
    """answer, line, image"""
    image, named, zero = bytearray(size), set(), bytes(size)
    rows = text.split(b"\n")
    ended = [row.removesuffix(b"\r") for row in rows[:-1]] + ([rows[-1]] if rows[-1] else [])
    over = False
    for number, row in enumerate(ended, 1):
        said = None if over else parse(row)
        if said is None:
            return 20, number, zero
        kind, at, data = said
        if kind == 1:
            over = True
            continue
        places = range(at, at + len(data))
        if data and at + len(data) > size:
            return 20, number, zero
        if named.intersection(places):
            return 21, number, zero
        named.update(places)
        image[at:at + len(data)] = data
    return (0, 0, bytes(image)) if over else (22, len(ended) + 1, zero)


def lines(image):
    rows = ((at, image[at:at + 16]) for at in range(0, len(image), 16))
    return "".join(f"grom\t{at:04X}\t{row.hex().upper()}\n" for at, row in rows if any(row))


def shown(text):
    answer, line, image = read(text)
    return f"answer\t{answer}\tline\t{line}\t{MEANS[answer]}\n" if answer else lines(image)


def cases():
    one = record(0x10, [1, 2, 3])
    good = one + "\n" + END + "\n"
    yield "empty", ""
    yield "end-record-only", END + "\n"
    yield "last-line-without-lf", one + "\n" + END
    yield "cr-lf", good.replace("\n", "\r\n")
    yield "cr-lf-and-lf", one + "\r\n" + END + "\n"
    yield "small-letters", record(0x1AB, [0xAB, 0xCD]).lower() + "\n" + END.lower() + "\n"
    yield "count-0", record(0x10, []) + "\n" + END + "\n"
    yield "count-0-beyond", record(0xFFFF, []) + "\n" + END + "\n"
    yield "count-255", record(0, range(1, 256)) + "\n" + END + "\n"
    yield "ends-at-the-last-byte", record(0x7FFE, [1, 2]) + "\n" + END + "\n"
    yield "out-of-order", record(0x20, [2]) + "\n" + record(0x10, [1]) + "\n" + record(0x11, [3]) + "\n" + END + "\n"
    yield "a-named-zero", record(0x10, [0]) + "\n" + record(0x11, [5]) + "\n" + END + "\n"
    yield "one-past-the-last-byte", record(0x7FFF, [1, 2]) + "\n" + END + "\n"
    yield "address-8000", record(0x8000, [1]) + "\n" + END + "\n"
    yield "address-ffff", record(0xFFFF, [1]) + "\n" + END + "\n"
    yield "wraps-past-ffff", record(0xFFFF, [1, 2]) + "\n" + END + "\n"
    yield "equal-bytes-twice", one + "\n" + one + "\n" + END + "\n"
    yield "zero-named-twice", record(5, [0]) + "\n" + record(5, [0]) + "\n" + END + "\n"
    yield "overlap-by-one", one + "\n" + record(0x12, [9, 9]) + "\n" + END + "\n"
    yield "overlap-and-beyond", record(0x7FFF, [1]) + "\n" + record(0x7FFE, [1, 2, 3]) + "\n" + END + "\n"
    yield "twice-before-a-bad-record", one + "\n" + one + "\nx\n"
    yield "twice-with-a-wrong-sum", one + "\n" + one[:-1] + "8\n"
    yield "no-end-record", one + "\n"
    yield "no-end-record-no-lf", one
    yield "empty-line", one + "\n\n" + END + "\n"
    yield "empty-line-first", "\n" + good
    yield "after-the-end-empty-line", good + "\n"
    yield "after-the-end-cr", good + "\r"
    yield "after-the-end-data", good + record(0x20, [1]) + "\n"
    yield "after-the-end-again", good + END + "\n"
    yield "cr-alone", good.replace("\n", "\r")
    yield "cr-in-a-line", one[:5] + "\r" + one[5:] + "\n" + END + "\n"
    yield "two-crs", one + "\r\r\n" + END + "\n"
    yield "cr-at-the-very-end", one + "\n" + END + "\r"
    yield "no-colon", one[1:] + "\n" + END + "\n"
    yield "colon-alone", ":\n" + END + "\n"
    yield "space-before", " " + one + "\n" + END + "\n"
    yield "space-after", one + " \n" + END + "\n"
    yield "digit-missing", one[:-1] + "\n" + END + "\n"
    yield "digit-too-many", one + "0\n" + END + "\n"
    yield "pair-missing", one[:-2] + "\n" + END + "\n"
    yield "pair-too-many", one + "00\n" + END + "\n"
    yield "count-too-small", ":02" + one[3:-2] + "E8\n" + END + "\n"
    yield "count-too-large", ":04" + one[3:-2] + "E6\n" + END + "\n"
    yield "wrong-sum", one[:-1] + "8\n" + END + "\n"
    yield "end-with-wrong-sum", one + "\n:00000001FE\n"
    yield "end-with-a-byte", one + "\n" + record(0, [1], 1) + "\n"
    yield "end-with-an-address", one + "\n" + record(0x100, [], 1) + "\n"
    for kind in (2, 3, 4, 5, 255):
        yield f"type-{kind:02x}", record(0, [0, 0], kind) + "\n" + END + "\n"
    for place in range(1, len(one)):
        yield f"no-digit-at-{place:02d}", one[:place] + "G" + one[place + 1:] + "\n" + END + "\n"
    for c in "/:@G`g":
        yield f"character-{ord(c):02x}", one[:9] + c + one[10:] + "\n" + END + "\n"
    yield "byte-ff", one + "\n\xff\n"
    yield "nul", one + "\n\0\n"


def lengths():
    """what the program prints of images of other lengths"""
    def told(what, text, size):
        wrong = size % 8192 or not 8192 <= size <= 65536
        answer, line, image = (11, 0, bytes([0x55]) * size) if wrong else read(text, size)
        return f"{what}\t{answer}\t{line}\n  bytes set\t{sum(map(bool, image))}\t{size}\n"

    def wrote(what, size, room):
        wrong = size % 8192 or not 8192 <= size <= 65536
        count = 0 if wrong or room < size // 16 * 44 + 12 else size // 16 * 44 + 12
        return f"{what}\t{11 if wrong else 0 if count else 31}\t{count}\n  bytes set\t{count}\t{room}\n"

    end = (END + "\n").encode()
    text = lambda at, data: (record(at, data) + "\n").encode() + end
    return (told("eight groups, the last byte", text(0xFFFF, [0xAA]), 65536)
            + told("eight groups, one past the last byte", text(0xFFFF, [0xAA, 0xBB]), 65536)
            + told("one byte", end, 1)
            + told("a byte less than a group", end, 8191)
            + told("one group, its last byte", text(0x1FFF, [0xAA]), 8192)
            + told("one group, one past it", text(0x2000, [0xAA]), 8192)
            + wrote("a group written, a byte more than enough", 8192, 22541)
            + wrote("a group written, just enough", 8192, 22540)
            + wrote("a group written, a byte too few", 8192, 22539)
            + wrote("a wrong length, before too few", 8193, 1))


def write_cases(folder):
    names = []
    for number, (name, text) in enumerate(cases(), 1):
        names.append(f"{number:02d}-{name}.hex")
        data = text.encode("latin-1")
        (folder / "data" / names[-1]).write_bytes(data)
        print(names[-1])
        print(shown(data), end="")
    print(lengths(), end="")
    (folder / "args").write_text("".join(name + "\n" for name in names))


def random_dump(seed):
    rng = random.Random(seed)
    image = bytearray(SIZE)
    for _ in range(rng.randrange(1, 40)):
        at = rng.randrange(SIZE)
        data = rng.randbytes(min(rng.randrange(1, 3000), SIZE - at))
        image[at:at + len(data)] = data
    rows, at = [], 0
    while at < SIZE:
        count = min(rng.choice([1, 3, 16, 16, 16, 32, 255]), SIZE - at)
        if any(image[at:at + count]) or rng.random() < 0.1:
            rows.append(record(at, image[at:at + count]))
        at += count
    rng.shuffle(rows)
    ends = rng.choice(["\n", "\r\n"])
    case = rng.choice([str.upper, str.lower])
    return "".join(case(row) + ends for row in rows + [END])


def main():
    word, rest = sys.argv[1], sys.argv[2]
    if word == "cases":
        write_cases(pathlib.Path(rest))
    elif word == "random":
        print(random_dump(int(rest)), end="")
    elif word == "lines":
        print(lines(pathlib.Path(rest).read_bytes()), end="")
    elif word == "image":
        answer, line, image = read(pathlib.Path(rest).read_bytes())
        if answer:
            sys.exit(f"answer {answer} in line {line}")
        sys.stdout.buffer.write(image)


main()
