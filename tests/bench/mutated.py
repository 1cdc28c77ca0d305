"""Inputs that are made at random: mutated cases, and grids of random settings."""
import reference
from reference import line_text, number_text


def some_number(rng):
    kind = rng.randrange(6)
    if kind == 0:
        return rng.randrange(4)
    if kind == 1:
        return rng.randrange(70)
    if kind == 2:
        return rng.choice([255, 256, 4096, (1 << 32) - 1, 1 << 32, (1 << 64) - 1, 1 << 64, 10 ** 20])
    if kind == 3:
        return 1 << rng.randrange(66)
    return rng.randrange(1 << 64)


def change_byte(rng, data):
    i = rng.randrange(len(data))
    return data[:i] + bytes([rng.choice(b' \t\r\n\x000123456789+-:/x\xff')]) + data[i + 1:]


def any_byte(rng, data):
    i = rng.randrange(len(data))
    return data[:i] + bytes([rng.randrange(256)]) + data[i + 1:]


def insert(rng, data):
    i = rng.randrange(len(data) + 1)
    return data[:i] + bytes([rng.choice(b' 0123456789\n\r\t\x00')]) * rng.choice([1, 1, 1, 2, 21]) + data[i:]


def delete(rng, data):
    i = rng.randrange(len(data))
    return data[:i] + data[i + rng.choice([1, 1, 1, 2, 21, 22]):]


def cut(rng, data):
    return data[:rng.randrange(len(data) + 1)]


def with_lines(rng, data, change):
    lines = data.split(b'\n')
    change(rng, lines)
    return b'\n'.join(lines)


def double_line(rng, data):
    def change(rng, lines):
        i = rng.randrange(len(lines))
        lines.insert(i, lines[i])
    return with_lines(rng, data, change)


def drop_line(rng, data):
    return with_lines(rng, data, lambda rng, lines: lines.pop(rng.randrange(len(lines))))


def swap_lines(rng, data):
    def change(rng, lines):
        i, j = rng.randrange(len(lines)), rng.randrange(len(lines))
        lines[i], lines[j] = lines[j], lines[i]
    return with_lines(rng, data, change)


def change_number(rng, data):
    """Another number, well-formed, in the place of one."""
    def change(rng, lines):
        i = rng.randrange(len(lines))
        fields = len(lines[i]) // 21
        if fields:
            at = 21 * rng.randrange(fields)
            lines[i] = lines[i][:at] + number_text(some_number(rng))[-21:] + lines[i][at + 21:]
    return with_lines(rng, data, change)


MUTATIONS = [change_byte, any_byte, insert, delete, cut, double_line, drop_line, swap_lines, change_number, change_number, change_number]


def mutated(rng, data):
    for _ in range(rng.choice([1, 1, 1, 2, 3])):
        if not data:
            break
        data = rng.choice(MUTATIONS)(rng, data)
    return data


def random_grid(rng):
    """A grid of random settings: of a polynomial, of a polynomial with one value changed, or of any values."""
    variables = rng.randrange(1, 5)
    degree = rng.choice([d for d in range(1, 9) if (d + 1) ** variables <= 300])
    width = rng.choice([2, 3, 4, 8, 16, 31, 32, 33, 63, 64])
    total = rng.randrange(variables, 21)
    support = rng.sample(range(total), variables)
    cells = (degree + 1) ** variables
    if rng.randrange(4) == 0:
        values = [some_number(rng) % (1 << 64) for _ in range(cells)]
    else:
        terms = [(reference.exponents(rng.randrange(cells), degree, variables), rng.randrange(1 << width)) for _ in range(rng.randrange(6))]
        values = [reference.value(width, degree, variables, terms, reference.exponents(c, degree, variables)) for c in range(cells)]
        values = [(v + (rng.randrange(1 << 64) >> width << width)) % (1 << 64) for v in values]
        if rng.randrange(3) == 0:
            values[rng.randrange(cells)] ^= 1 << rng.randrange(64)
    return line_text([width, total, degree, variables]) + line_text(support) + b''.join(line_text([v]) for v in values)
