"""The cases that `run` makes: each refusal, each way of being ill-formed, pairs of causes in their order, the limits; and the grids of the examples, by
their formulas. An expected answer comes from reference.py, has to be the number that the case is meant for, and, accepted, agrees with every grid point."""
from reference import (answer, exponents, line_text, number_text, read_head, read_line, read_values, value)

LARGEST = (1 << 64) - 1
made = {}


def head(width, total, degree, support, count=None):
    return line_text([width, total, degree, len(support) if count is None else count]) + line_text(support)


def grid(width, total, degree, support, values):
    return head(width, total, degree, support) + b''.join(line_text([v]) for v in values)


def case(name, data, number=None):
    """A case; `number` is the refusal that is meant, 0 for an accepted one."""
    assert name not in made, name
    out = answer(data)
    if number is not None:
        said = int(out[:21])
        assert said == number and (number == 0 or len(out) == 22), (name, said, number)
    if int(out[:21]) == 0:
        check(name, data, out)
    made[name] = (data, out)


def check(name, data, out):
    """An accepted answer agrees with every value of its grid."""
    (width, _, degree, support), rest = read_head(data)
    lines = out.split(b'\n')[1:-1]
    terms = []
    for text in lines:
        numbers = read_line(text, len(support) + 1)
        terms.append((numbers[:-1], numbers[-1]))
    for cell, v in enumerate(read_values(rest)):
        point = exponents(cell, degree, len(support))
        assert value(width, degree, len(support), terms, point) == v % (1 << width), (name, point)


def table(width, degree, variables, formula):
    """The values of a formula of the coordinates on the whole grid, modulo 2^width."""
    return [formula(*exponents(cell, degree, variables)) % (1 << width) for cell in range((degree + 1) ** variables)]


def square(n):
    return [x * x + 3 * x + 1 for x in range(n)]


def refusals():
    case('refused_01_empty_support', head(8, 1, 2, []), 1)
    case('refused_01_with_a_value', head(8, 1, 2, []) + line_text([1]), 1)
    case('refused_02_total_21', grid(8, 21, 2, [0], [1, 2, 5]), 2)
    case('refused_02_total_largest', grid(8, LARGEST, 2, [0], [1, 2, 5]), 2)
    case('refused_02_total_2_to_32', grid(8, 1 << 32, 2, [0], [1, 2, 5]), 2)
    case('refused_02_total_2_to_32_and_1', grid(8, (1 << 32) + 1, 2, [0], [1, 2, 5]), 2)
    case('refused_03_width_0', grid(0, 1, 2, [0], [1, 2, 5]), 3)
    case('refused_03_width_1', grid(1, 1, 2, [0], [1, 2, 5]), 3)
    case('refused_03_width_65', grid(65, 1, 2, [0], [1, 2, 5]), 3)
    case('refused_03_width_256_and_8', grid(264, 1, 2, [0], [1, 2, 5]), 3)
    case('refused_03_width_2_to_32_and_8', grid((1 << 32) + 8, 1, 2, [0], [1, 2, 5]), 3)
    case('refused_03_width_largest', grid(LARGEST, 1, 2, [0], [1, 2, 5]), 3)
    case('refused_04_degree_0', grid(8, 1, 0, [0], [7]), 4)
    case('refused_05_index_is_total', grid(8, 1, 2, [1], [1, 2, 5]), 5)
    case('refused_05_index_largest', grid(8, 20, 2, [LARGEST], [1, 2, 5]), 5)
    case('refused_05_total_0', grid(8, 0, 2, [0], [1, 2, 5]), 5)
    case('refused_05_index_2_to_32', grid(8, 2, 1, [0, 1 << 32], [1, 2, 3, 4]), 5)
    case('refused_06_second_difference_odd', grid(8, 1, 2, [0], [0, 0, 1]), 6)
    case('refused_06_past_the_width', grid(2, 1, 4, [0], [0, 0, 0, 0, 1]), 6)
    case('refused_06_second_variable', grid(8, 2, 2, [0, 1], [0, 0, 0, 0, 0, 0, 1, 0, 0]), 6)
    case('refused_07_repeated', grid(8, 2, 1, [0, 0], [1, 2, 3, 4]), 7)
    case('refused_07_first_and_last', head(8, 5, 1, [3, 1, 2, 3]), 7)
    case('refused_08_65_by_65', grid(8, 2, 64, [0, 1], [0] * 4225), 8)
    case('refused_08_41_cubed', head(8, 3, 40, [0, 1, 2]), 8)
    case('refused_08_256_by_256', head(8, 2, 255, [0, 1]), 8)
    case('refused_08_13_variables', head(8, 13, 1, list(range(13))), 8)
    case('refused_08_20_variables_of_255', head(8, 20, 255, list(range(20))), 8)
    case('refused_09_no_values', head(8, 1, 2, [0]), 9)
    case('refused_09_one_short', grid(8, 1, 2, [0], [1, 2]), 9)
    case('refused_09_one_more', grid(8, 1, 2, [0], [1, 2, 5, 10]), 9)
    case('refused_09_4097_values', grid(8, 2, 63, [0, 1], [0] * 4097), 9)
    case('refused_09_4098_values_for_3', grid(8, 1, 2, [0], [0] * 4098), 9)


def ill_heads():
    good = grid(8, 1, 2, [0], [1, 2, 5])
    first, second, rest = good.split(b'\n', 2)
    def with_first(text):
        return text + b'\n' + second + b'\n' + rest
    def with_second(text):
        return first + b'\n' + text + b'\n' + rest
    field = [first[21 * i:21 * i + 21] for i in range(4)]
    case('ill_empty_input', b'', 12)
    case('ill_only_a_newline', b'\n', 12)
    case('ill_two_newlines', b'\n\n', 12)
    case('ill_first_line_alone', first + b'\n', 12)
    case('ill_second_line_not_ended', first + b'\n' + second, 12)
    case('ill_first_line_not_ended', first, 12)
    case('ill_first_line_of_three', with_first(b''.join(field[:3])), 12)
    case('ill_first_line_of_five', with_first(first + field[0]), 12)
    case('ill_first_line_empty', with_first(b''), 12)
    case('ill_20_columns', with_first(first[1:]), 12)
    case('ill_22_columns', with_first(b' ' + first), 12)
    case('ill_no_columns', b'8 1 2 1\n0\n1\n2\n5\n', 12)
    case('ill_tab_before_width', with_first(b'\t' + first[1:]), 12)
    case('ill_left_justified', with_first(b'8'.ljust(21) + first[21:]), 12)
    case('ill_leading_zero', with_first(b'08'.rjust(21) + first[21:]), 12)
    case('ill_two_zeros', with_second(b'00'.rjust(21)), 12)
    case('ill_plus', with_first(b'+8'.rjust(21) + first[21:]), 12)
    case('ill_minus', with_first(b'-8'.rjust(21) + first[21:]), 12)
    case('ill_minus_zero', with_second(b'-0'.rjust(21)), 12)
    case('ill_hexadecimal', with_first(b'0x8'.rjust(21) + first[21:]), 12)
    case('ill_point', with_first(b'8.0'.rjust(21) + first[21:]), 12)
    case('ill_blank_inside', with_first(b'6 4'.rjust(21) + first[21:]), 12)
    case('ill_blank_field', with_first(b' ' * 21 + first[21:]), 12)
    case('ill_letter', with_first(b'8a'.rjust(21) + first[21:]), 12)
    case('ill_width_2_to_64', with_first(number_text(1 << 64) + first[21:]), 12)
    case('ill_width_21_digits', with_first(b'9' * 21 + first[21:]), 12)
    case('ill_width_20_nines', with_first(b' ' + b'9' * 20 + first[21:]), 12)
    case('ill_total_2_to_64', with_first(field[0] + number_text(1 << 64) + field[2] + field[3]), 12)
    case('ill_degree_256', with_first(field[0] + field[1] + number_text(256) + field[3]), 12)
    case('ill_degree_largest', with_first(field[0] + field[1] + number_text(LARGEST) + field[3]), 12)
    case('ill_degree_2_to_32_and_2', with_first(field[0] + field[1] + number_text((1 << 32) + 2) + field[3]), 12)
    case('ill_support_count_21', head(8, 20, 1, list(range(21))), 12)
    case('ill_support_count_largest', head(8, 20, 1, [0], LARGEST), 12)
    case('ill_support_count_2_to_32_and_1', head(8, 20, 1, [0], (1 << 32) + 1) + rest, 12)
    case('ill_support_short', with_second(b''), 12)
    case('ill_support_long', with_second(second + number_text(1)), 12)
    case('ill_support_for_count_0', head(8, 1, 2, [0], 0) + rest, 12)
    case('ill_support_index_2_to_64', with_second(number_text(1 << 64)), 12)
    case('ill_carriage_return_first', with_first(first + b'\r'), 12)
    case('ill_carriage_return_second', with_second(second + b'\r'), 12)
    case('ill_carriage_return_everywhere', good.replace(b'\n', b'\r\n'), 12)
    case('ill_carriage_return_for_newline', good.replace(b'\n', b'\r'), 12)
    case('ill_nul_for_blank', with_first(b'\0' + first[1:]), 12)
    case('ill_nul_before', b'\0' + good, 12)
    case('ill_byte_order_mark', b'\xef\xbb\xbf' + good, 12)
    case('ill_byte_255', with_first(first[:20] + b'\xff' + first[21:]), 12)
    case('ill_colon_for_digit', with_first(first[:20] + b':' + first[21:]), 12)
    case('ill_slash_for_digit', with_first(first[:20] + b'/' + first[21:]), 12)
    case('ill_empty_line_between', with_first(first + b'\n'), 12)


def ill_values():
    top = head(8, 1, 2, [0])
    def after(*lines):
        return top + b''.join(lines)
    one, two, five = line_text([1]), line_text([2]), line_text([5])
    case('values_last_newline_missing', after(one, two, five[:-1]), 12)
    case('values_last_number_cut', after(one, two, five[:10]), 12)
    case('values_one_blank_after', after(one, two, five, b' '), 12)
    case('values_one_newline_after', after(one, two, five, b'\n'), 12)
    case('values_nul_after', after(one, two, five, b'\0'), 12)
    case('values_empty_line_inside', after(one, b'\n', two, five), 12)
    case('values_empty_line_first', after(b'\n', one, two, five), 12)
    case('values_two_on_a_line', after(line_text([1, 2]), five), 12)
    case('values_tab', after(b'\t' + one[1:], two, five), 12)
    case('values_leading_zero', after(b'01'.rjust(21) + b'\n', two, five), 12)
    case('values_minus', after(b'-1'.rjust(21) + b'\n', two, five), 12)
    case('values_2_to_64', after(one, two, line_text([1 << 64])), 12)
    case('values_20_nines', after(one, two, b' ' + b'9' * 20 + b'\n'), 12)
    case('values_21_digits', after(one, two, b'1' + b'0' * 20 + b'\n'), 12)
    case('values_20_columns', after(one[1:], two, five), 12)
    case('values_22_columns', after(b' ' + one, two, five), 12)
    case('values_carriage_return', after(one[:-1] + b'\r\n', two, five), 12)
    case('values_blank_line', after(b' ' * 21 + b'\n', two, five), 12)
    case('values_largest', after(line_text([LARGEST]), line_text([LARGEST]), line_text([LARGEST])), 0)


def orders():
    bad = b'x\n'
    case('order_head_12_before_1', line_text([8, 1, 256, 0]) + b'\n', 12)
    case('order_head_12_before_3', line_text([1, 1, 2, 1]) + b'\n', 12)
    case('order_1_before_2', head(8, 21, 2, []), 1)
    case('order_1_before_3', head(1, 1, 2, []), 1)
    case('order_1_before_4', head(8, 1, 0, []), 1)
    case('order_1_before_12', head(8, 1, 2, []) + bad, 1)
    case('order_2_before_3', head(65, 21, 2, [0]), 2)
    case('order_2_before_4', head(8, 21, 0, [0]), 2)
    case('order_2_before_5', head(8, 21, 2, [30]), 2)
    case('order_2_before_12', head(8, 21, 2, [0]) + bad, 2)
    case('order_3_before_4', head(1, 1, 0, [0]), 3)
    case('order_3_before_5', head(1, 1, 2, [1]), 3)
    case('order_3_before_7', head(1, 2, 2, [0, 0]), 3)
    case('order_3_before_8', head(1, 2, 64, [0, 1]), 3)
    case('order_3_before_12', head(1, 1, 2, [0]) + bad, 3)
    case('order_4_before_5', head(8, 1, 0, [1]), 4)
    case('order_4_before_7', head(8, 2, 0, [0, 0]), 4)
    case('order_4_before_9', head(8, 1, 0, [0]), 4)
    case('order_5_before_7', head(8, 1, 2, [1, 1]), 5)
    case('order_5_before_8', head(8, 1, 64, [0, 1]), 5)
    case('order_5_before_12', head(8, 1, 2, [1]) + bad, 5)
    case('order_7_before_8', head(8, 2, 64, [1, 1]), 7)
    case('order_7_before_9', head(8, 2, 1, [1, 1]), 7)
    case('order_8_before_9', head(8, 2, 64, [0, 1]), 8)
    case('order_8_before_12', head(8, 2, 64, [0, 1]) + bad, 8)
    case('order_12_before_9', head(8, 1, 2, [0]) + line_text([1]) + bad, 12)
    case('order_12_before_9_too_many', grid(8, 1, 2, [0], [1, 2, 5, 10]) + bad, 12)
    case('order_12_before_6', grid(8, 1, 2, [0], [0, 0, 1]) + bad, 12)
    case('order_9_before_6', grid(8, 1, 2, [0], [0, 0, 1, 0]), 9)


def limits():
    case('limit_16_cubed', grid(16, 3, 15, [0, 1, 2], table(16, 15, 3, lambda x, y, z: 7 + 3 * x * y + 40 * z * z + x ** 3 * z)), 0)
    case('limit_64_by_64', grid(64, 2, 63, [1, 0], table(64, 63, 2, lambda x, y: 12345 * x - y * y * y)), 0)
    case('limit_12_variables', grid(32, 12, 1, list(range(12)), table(32, 1, 12, lambda *p: 9 * p[0] * p[11] - p[5] + 2)), 0)
    case('limit_256_cells_of_255', grid(64, 1, 255, [0], table(64, 255, 1, lambda x: x ** 5 - 1)), 0)
    case('limit_total_20', grid(8, 20, 2, [19], square(3)), 0)
    case('limit_total_20_order_of_support', grid(8, 20, 1, [19, 3, 7], [1, 2, 3, 4, 5, 6, 7, 8]), 0)
    case('limit_width_2', grid(2, 1, 4, [0], [0, 1, 0, 1, 0]), 0)
    case('limit_width_64', grid(64, 1, 2, [0], [LARGEST, 0, 1]), 0)
    case('limit_all_zero', grid(2, 1, 4, [0], [0] * 5), 0)
    case('limit_values_past_the_width', grid(8, 1, 2, [0], [257, 514, LARGEST - 250]), 0)
    case('limit_multiples_of_2_to_width', grid(8, 1, 1, [0], [256, 512]), 0)
    case('limit_degree_1', grid(8, 1, 1, [0], [255, 0]), 0)


def rows():
    """The rows of document 01 that are recovery's."""
    case('row_cubic', grid(8, 1, 3, [0], [0, 0, 0, 6]), 0)
    case('row_product', grid(8, 2, 1, [0, 1], [0, 0, 0, 1]), 0)
    case('row_two_terms', grid(8, 2, 2, [0, 1], table(8, 2, 2, lambda x, y: x * x * y + 5)), 0)


# Examples: what a finds assistant has on the bench.
def level(reading):
    """Level in millimetres at 16 bits: the datum plus twice the staff's reading squared, less 15 a step."""
    return 1200 + 2 * reading * reading - 15 * reading


def staff_tilt(staff, tilt):
    """Two variables: the staff reading lowers the level, the tilt count corrects it."""
    return 40000 - 10 * staff - 3 * tilt * tilt + staff * tilt


def wide(x):
    """A formula that wraps at 64 bits."""
    return (0x9e3779b97f4a7c15 * x * x + (1 << 63) * x + 17) % (1 << 64)


def bowed(reading):
    """A level that the reading bows: its values at 0 and 1 lie on the line 200 - 3 x, the one at 2 does not."""
    return 200 - 8 * reading + 5 * reading * reading


def examples():
    return {
        'level': grid(16, 1, 3, [0], table(16, 3, 1, level)),
        'too_small': grid(8, 1, 1, [0], table(8, 1, 1, bowed)),
        'deciding': grid(8, 1, 9, [0], table(8, 9, 1, bowed)),
        'staff_tilt': grid(16, 2, 2, [0, 1], table(16, 2, 2, staff_tilt)),
        'no_polynomial': grid(16, 1, 3, [0], [1200, 1187, 1178, 1174]),
        'wide': grid(64, 1, 2, [0], table(64, 2, 1, wide)),
    }


def all_cases():
    """(name, input, expected) of every case."""
    if not made:
        for group in (refusals, ill_heads, ill_values, orders, limits, rows):
            group()
        for name, data in examples().items():
            case('example_' + name, data)
    return [(name, data, out) for name, (data, out) in made.items()]
