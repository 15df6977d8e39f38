#!/usr/bin/env python3
"""Random line files for two programs that read the tabbed lines of document 01.

    lines.py PROGRAM-A PROGRAM-B [NUMBER] [SEED] [FIRST]

File i of a seed is always the same.  Both programs get each file on standard
input; their standard outputs must be equal byte for byte, and their exit
statuses too.  The first file for which they are not is printed, with both
outputs, and the exit status is 1.
"""
import random
import subprocess
import sys

PARTS = {"grom": (4, 0x8000), "pad": (2, 0x100), "vdp": (4, 0x4000), "reg": (2, 8)}
EDGES = [0, 1, 2, 8, 15, 16, 0x7D, 0x7E, 0x7F, 0x80, 0x81, 0xFE, 0xFF]
TABLE = 0x7000  # of COINC


# ---- code for the image ----

def byte(r):
    return r.choice(EDGES) if r.random() < 0.4 else r.randrange(256)


def cpu_cell(r):
    if r.random() < 0.25:
        return r.choice([0x72, 0x73, 0x7B, 0x7C, 0x7D, 0x7D, 0x7E, 0x7F, 0xDE, 0xDF, 0xE0])
    return r.choice([r.randrange(0x70), r.randrange(0xE0)])


def vdp_cell(r):
    return r.choice([r.randrange(768), r.randrange(0x4000), r.choice([0x3FFE, 0x3FFF, 0x4000])])


def operand(r):
    kind = r.random()
    if kind < 0.5:
        return [cpu_cell(r) & 0x7F]
    if kind < 0.65:
        return [0x80, cpu_cell(r)]
    if kind < 0.7:
        return [0x8F, 0, cpu_cell(r)]
    if kind < 0.8:
        at = vdp_cell(r)
        return [0xAF, at >> 8, at & 0xFF]
    if kind < 0.86:
        return [0xA0 | r.randrange(15), r.randrange(256)]
    if kind < 0.9:
        return [0x90, 0x7C]
    if kind < 0.94:
        return [0x90, r.randrange(0x30, 0x40)]
    if kind < 0.97:
        return [0xB0, 0x20 + 2 * r.randrange(8)]
    return [0xC0, cpu_cell(r), 0x10 + 2 * r.randrange(8)]


def word(n):
    return [n >> 8 & 0xFF, n & 0xFF]


def format_codes(r, at, depth):
    code = []
    for _ in range(r.randrange(1, 4)):
        n = r.randrange(4)
        kind = r.randrange(9)
        if kind < 2:
            code += [kind << 5 | n] + [r.randrange(256) for _ in range(n + 1)]
        elif kind < 4:
            code += [kind << 5 | n, r.randrange(256)]
        elif kind < 6:
            code += [kind << 5 | r.randrange(32)]
        elif kind == 6 and depth:
            body = at + len(code) + 1
            inner = format_codes(r, body, depth - 1)
            code += [0xC0 | n] + inner + [0xFB] + word(body)
        elif kind == 7:
            code += [0xE0 | n, r.randrange(0x80)]
        else:
            code += r.choice([[0xFC, byte(r)], [0xFD, r.randrange(0x80)],
                              [0xFE, r.randrange(26)], [0xFF, r.randrange(34)]])
    return code


def move(r):
    """Into GROM too, of which the program may write no group: 24, or 6 beyond the image."""
    op = r.choice([0x20, 0x30, 0x30, 0x38, 0x38]) | r.randrange(6)
    length = r.choice([r.randrange(1, 9), r.randrange(1, 40), 0, 0x8001])
    code = [op] + (word(length) if op & 1 else [0x40 + 2 * r.randrange(8)])
    if op < 0x30:
        code += word(r.randrange(0x9000))
    else:
        code += [r.randrange(9)] if op & 8 else operand(r)
    if op & 4:
        return code + operand(r)
    return code + word(r.randrange(0x8100)) + ([0x10 + 2 * r.randrange(8)] if op & 2 else [])


def coincidence(r):
    table = r.choice([TABLE, TABLE, TABLE, 0x7FFC, 0x8000, r.randrange(0x8000)])
    return [0xED] + operand(r) + operand(r) + [r.choice([0, 0, 1, 2, 5, 7, 8])] + word(table)


def sound(r):
    """I/O, which starts a list if its source is 0 or 1; as a cell, a word of the pad's plan."""
    op = r.randrange(0xF4, 0xF8)
    source = word(r.choice([0, 0, 1, 1, 2, 0xFFFF])) if op & 2 else [0x10 + 2 * r.randrange(8)]
    return [op] + operand(r) + (source[1:] if op & 3 == 2 else source)


def instruction(r, at):
    kind = r.random()
    if kind < 0.03:
        return coincidence(r)
    if kind < 0.06:
        return sound(r)
    if kind < 0.35:
        op = r.randrange(0xA0, 0xEC)
        code = [op] + operand(r)
        if op & 2:
            return code + [byte(r) for _ in range(1 + (op & 1))]
        return code + operand(r)
    if kind < 0.55:
        return [r.randrange(0x80, 0x98)] + operand(r)
    if kind < 0.67:
        op = r.choice([0, 1, 2, 4, 5, 6, 7, 9, 10, 12, 13])
        if op in (2, 4, 7):
            return [op, byte(r)]
        if op in (5, 6):
            return [op] + word(r.choice([at, 0, r.randrange(0x8000)]))
        return [op]
    if kind < 0.75:
        return word(r.choice([0x4000, 0x6000]) | r.choice([at, r.randrange(0x2000)]) & 0x1FFF)
    if kind < 0.87:
        return move(r)
    if kind < 0.97:
        return [0x08] + format_codes(r, at + 1, 2) + [0xFB]
    return [r.randrange(256)]


# ---- valid files ----

def line(part, at, data):
    return "%s\t%0*X\t%s" % (part, PARTS[part][0], at, "".join("%02X" % b for b in data))


def code_line(r, at):
    code = []
    for _ in range(r.randrange(1, 8)):
        code += instruction(r, at + len(code))
    return line("grom", at, code[:0x8000 - at])


def plan_lines(r):
    """The pad cells that the code's operands rely on, and a table for COINC."""
    words = lambda values: [b for v in values for b in word(v)]
    return [
        line("grom", TABLE, r.choice([[255, 255, 128, 128], [byte(r) for _ in range(4)]])
             + [r.randrange(256) for _ in range(200)]),
        line("pad", 0x00, [byte(r) for _ in range(16)]),
        line("pad", 0x10, words(r.choice([0, 1, 2, 0xFFFF]) for _ in range(8))),
        line("pad", 0x20, words(vdp_cell(r) for _ in range(8))),
        line("pad", 0x30, [cpu_cell(r) for _ in range(16)]),
        line("pad", 0x40, words(r.choice([r.randrange(1, 9), 0, 0x8001]) for _ in range(8))),
        line("pad", 0x72, [r.randrange(0x9F, 0xC1), r.choice([0x7C, 0x7E, 0x7E, 0x80, 0x9C, 0x9E, 0x7F])]),
        line("pad", 0x7C, [byte(r), byte(r), r.choice([0, 23, 24, byte(r)]), r.choice([0, 31, 32, byte(r)])]),
    ]


def data_line(r):
    part = r.choice(list(PARTS))
    digits, size = PARTS[part]
    count = min(size, r.choice([1, 1, 2, 3, 8, 40]))
    at = r.choice([0, size - count, r.randrange(size - count + 1)])
    return line(part, at, [byte(r) for _ in range(count)])


def run_line(r):
    number = r.choice([0, 1, 1, 2, 3, 5, 10, 100, 4294967295])
    zeros = "0" * r.choice([0] * 12 + [1, 5, 30])
    return "run\t%s%d" % (zeros, number)


def valid_lines(r):
    at = r.choice([0, 0, r.randrange(0x8000), 0x1FFE, 0x7FFF, 0x7FF8])
    lines = [code_line(r, at), "pc\t%04X" % at] + r.sample(plan_lines(r), r.randrange(9))
    lines += [data_line(r) for _ in range(r.randrange(4))]
    r.shuffle(lines)
    for _ in range(r.choice([0, 1, 1, 1, 2, 3, 5])):
        lines.append(run_line(r))
        if r.random() < 0.4:
            lines.append(r.choice([data_line(r), code_line(r, r.randrange(0x7FC0)),
                                   "pc\t%04X" % r.choice([at, r.randrange(0x10000)])]))
    return lines


# ---- spoilt lines ----

def lower_digit(r, text):
    places = [i for i, c in enumerate(text) if c in "ABCDEF"]
    if not places:
        return text + "a"
    i = r.choice(places)
    return text[:i] + text[i].lower() + text[i + 1:]


def insert(r, text, what):
    i = r.choice([0, len(text), r.randrange(len(text) + 1)])
    return text[:i] + what + text[i:]


def past_the_end(r):
    part = r.choice(list(PARTS))
    digits, size = PARTS[part]
    count = r.choice([1, 1, 2, 3, 8])
    at = min(size - count + r.choice([0, 1, 1, 2, count]), 16 ** digits - 1)
    return line(part, max(at, 0), [byte(r) for _ in range(count)])


def whole_part(r):
    part = r.choice(list(PARTS))
    digits, size = PARTS[part]
    return line(part, 0, [0xA5] * (size + r.choice([0, 0, 1])))


ODD_NUMBERS = [
    "4294967295", "4294967296", "9999999999", "18446744073709551616", "18446744073709551617",
    "340282366920938463463374607431768211457", "-1", "+1", "1.", "0x1", "A", "", "1A", " 1", "1 ",
    "0" * 65541 + "1", "0" * 65542 + "1", "0" * 70000, "\u0661",
]


def odd_number(r):
    return "run\t" + r.choice(ODD_NUMBERS)


ODD_LINES = [
    "", "\t", "\t\t", " ", "run", "pc", "grom", "run\t", "pc\t", "pc\t0", "pc\t000", "pc\t00000",
    "pc\t0000\t", "pc\t0000\t00", "grom\t0000", "grom\t0000\t", "grom\t\t00", "grom\t000\t00",
    "grom\t00000\t00", "pad\t0\t00", "pad\t000\t00", "pad\t0000\t00", "reg\t0\t00",
    "reg\t0000\t00", "vdp\t00\t00", "vdp\t0000\t00\t", "vdp\t0000\t00\t00", "run\t1\t",
    "run\t1\t1", "run\t\t1", "RUN\t1", "Pad\t00\t00", "rom\t0000\t00", "groms\t0000\t00",
    "register\t00\t00", "pads\t00\t00", "view\t00\t00", "# run\t1", "pad 00 00", "pad\t00 00",
    "run 1", "pad\t00\t0G", "pad\t00\t0@", "pad\t00\t0:", "pad\t00\t0/", "pad\t00\t0`",
    "pad\t00\t0g", "pad\tG0\t00", "grom\t000G\t00", "answer\t0\t1\t8\t0000", "pad\t00\t00\x00", "\x00",
    "pad\t00\t\u00e9\u00e9", "\ufeffrun\t1", "run\t1\v", "run\t1\f", "run\t1\x00", "run\t\u00b2",
    "grom\t0000\t" + "00" * 32768, "grom\t0000\t" + "00" * 32768 + "0", "grom\t0001\t" + "00" * 32768,
]


def odd_line(r):
    return r.choice(ODD_LINES)


def spoil(r, lines):
    i = r.randrange(len(lines))
    way = r.randrange(12)
    if way == 0:
        lines[i] = lower_digit(r, lines[i])
    elif way == 1:
        lines[i] = insert(r, lines[i], " ")
    elif way == 2:
        lines[i] = lines[i] + "\r" if r.random() < 0.7 else insert(r, lines[i], "\r")
    elif way == 3:
        lines.insert(r.randrange(len(lines) + 1), "")
    elif way == 4:
        lines[i] = lines[i][:-1]
    elif way == 5:
        lines.insert(i, past_the_end(r))
    elif way == 6:
        lines[i] = insert(r, lines[i], "\t")
    elif way == 7:
        lines.insert(i, odd_line(r))
    elif way == 8:
        lines.insert(i, odd_number(r))
    elif way == 9:
        lines[i] = insert(r, lines[i], chr(r.randrange(1, 128)))
    elif way == 10:
        lines.insert(i, whole_part(r))
    else:
        lines[i] = "".join(r.sample(lines[i], len(lines[i])))


def make_file(seed, number):
    r = random.Random("%d %d" % (seed, number))
    if r.random() < 0.01:
        return r.choice([b"", b"\n", b"\n\n", b"run\t1", b"run\t0\n", b"\x00", b"\xff\xfe\n"])
    lines = valid_lines(r)
    for _ in range(r.choice([0, 0, 0, 1, 1, 2])):
        spoil(r, lines)
    text = "\n".join(lines) + r.choice(["\n", "\n", "\n", "", "\n\n"])
    return text.encode("utf-8")


# ---- the comparison ----

def output_of(program, data):
    done = subprocess.run([program], input=data, stdout=subprocess.PIPE, timeout=60)
    return done.stdout, done.returncode


def show(title, data):
    print("---- %s, %d bytes" % (title, len(data)))
    sys.stdout.flush()
    sys.stdout.buffer.write(data)
    sys.stdout.buffer.flush()
    print("\n---- end")


def main():
    if len(sys.argv) < 3:
        sys.exit(__doc__)
    first_program, second_program = sys.argv[1:3]
    numbers = [int(a, 0) for a in sys.argv[3:]] + [None] * 3
    count, seed, first = numbers[0] or 1000, numbers[1] or 1, numbers[2] or 0
    bad = runs = answers = 0
    statuses = set()
    for i in range(first, first + count):
        data = make_file(seed, i)
        a, status_a = output_of(first_program, data)
        b, status_b = output_of(second_program, data)
        statuses.add((status_a, status_b))
        if a != b or status_a != status_b:
            print("DIFFERENCE: seed %d file %d, exit statuses %d and %d" % (seed, i, status_a, status_b))
            show("the file", data)
            show(first_program, a)
            show(second_program, b)
            return 1
        bad += a.startswith(b"bad\t") or b"\nbad\t" in a
        answers += a.count(b"answer\t")
        runs += a.count(b"answer\t0\t")
    print("files %d, the same: %d with a bad line, %d runs, %d of them answered 0" % (count, bad, answers, runs))
    print("exit statuses met:", sorted(statuses))
    return 0


if __name__ == "__main__":
    sys.exit(main())
