"""What the bench program has to answer, from document 01 alone: a reader of the layout and a recovery of its own, in whole numbers.
It shares nothing with the program: lines are cut at byte 10 and matched by a pattern, factorials are divided out by a modular inverse of Python's."""
import re
from math import factorial

NUMBER = re.compile(rb' *(0|[1-9][0-9]*)')


def number_text(n):
    return b'%21d' % n


def line_text(numbers):
    return b''.join(number_text(n) for n in numbers) + b'\n'


def read_number(field):
    """The number in 21 columns, or None."""
    found = NUMBER.fullmatch(field) if len(field) == 21 else None
    if not found:
        return None
    n = int(found.group(1))
    return n if n < 1 << 64 else None


def read_line(line, count):
    """The numbers of a line without its end, or None where there are not as many as `count`."""
    if len(line) != 21 * count:
        return None
    numbers = [read_number(line[21 * i:21 * i + 21]) for i in range(count)]
    return None if None in numbers else numbers


def read_head(data):
    """(width, total, degree, support) and the bytes after the first two lines, or None."""
    lines = data.split(b'\n', 2)
    if len(lines) < 3:
        return None
    first = read_line(lines[0], 4)
    if first is None or first[2] > 255 or first[3] > 20:
        return None
    support = read_line(lines[1], first[3])
    if support is None:
        return None
    return (first[0], first[1], first[2], support), lines[2]


def read_values(rest):
    """The values, one a line, or None."""
    if rest == b'':
        return []
    if rest[-1:] != b'\n':
        return None
    values = [read_number(line) for line in rest[:-1].split(b'\n')]
    return None if None in values else values


def settings_number(head):
    width, total, degree, support = head
    if not support:
        return 1
    if total > 20:
        return 2
    if not 2 <= width <= 64:
        return 3
    if degree == 0:
        return 4
    if any(i >= total for i in support):
        return 5
    if len(set(support)) != len(support):
        return 7
    if (degree + 1) ** len(support) > 4096:
        return 8
    return 0


def exponents(cell, degree, variables):
    found = []
    for _ in range(variables):
        found.append(cell % (degree + 1))
        cell //= degree + 1
    return found


def twos(n):
    return (n & -n).bit_length() - 1


def recover(width, degree, variables, values):
    """The coefficients in cell order, or None where a difference does not divide."""
    side = degree + 1
    table = list(values)
    stride = 1
    for _ in range(variables):
        for start in range(len(table)):
            if start // stride % side == 0:
                line = [table[start + stride * i] for i in range(side)]
                for i in range(side):
                    table[start + stride * i] = line[0]
                    line = [b - a for a, b in zip(line, line[1:])]
        stride *= side
    found = []
    for cell, difference in enumerate(table):
        product = 1
        for e in exponents(cell, degree, variables):
            product *= factorial(e)
        q = twos(product)
        difference %= 1 << width
        if difference % (1 << min(q, width)):
            return None
        if q >= width:
            found.append(0)
        else:
            left = 1 << (width - q)
            found.append((difference >> q) * pow(product >> q, -1, left) % left)
    return found


def refused(number):
    return line_text([number])


def accepted(degree, variables, coefficients):
    terms = [(cell, c) for cell, c in enumerate(coefficients) if c]
    lines = [line_text([0, len(terms)])]
    lines += [line_text(exponents(cell, degree, variables) + [c]) for cell, c in terms]
    return b''.join(lines)


def answer(data):
    """What the program prints for the bytes `data`."""
    read = read_head(data)
    if read is None:
        return refused(12)
    head, rest = read
    number = settings_number(head)
    if number:
        return refused(number)
    values = read_values(rest)
    if values is None:
        return refused(12)
    width, _, degree, support = head
    if len(values) != (degree + 1) ** len(support):
        return refused(9)
    coefficients = recover(width, degree, len(support), values)
    if coefficients is None:
        return refused(6)
    return accepted(degree, len(support), coefficients)


def falling(x, n):
    product = 1
    for i in range(n):
        product *= x - i
    return product


def value(width, degree, variables, terms, point):
    """The value of a sum of (exponents, coefficient) in falling factorials, modulo 2^width."""
    total = 0
    for es, c in terms:
        for x, e in zip(point, es):
            c *= falling(x, e)
        total += c
    return total % (1 << width)
