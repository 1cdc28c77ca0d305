/* Value, sum, reduction, validity and sameness of boxes in plain C, as recursions over the last variable. */

#include "limit.h"

static uint64_t value(const uint64_t *part, size_t variable, size_t cells, size_t base, uint64_t (*falling)[256])
{
    uint64_t sum = 0;
    if (variable == 0) {
        for (size_t e = 0; e < base; e++)
            sum += part[e] * falling[0][e];
        return sum;
    }
    size_t sub = cells / base;
    for (size_t e = 0; e < base; e++)
        sum += value(part + e * sub, variable - 1, sub, base, falling) * falling[variable][e];
    return sum;
}

/* The falling factorials of each coordinate are tabled first. */
uint64_t limit_value(const uint64_t *coeffs, size_t cells, uint32_t width, uint8_t degree, const uint64_t *point, size_t variables)
{
    uint64_t falling[20][256];
    size_t base = (size_t)degree + 1;
    for (size_t j = 0; j < variables; j++) {
        uint64_t product = 1;
        for (size_t e = 0; e < base; e++) {
            falling[j][e] = product;
            product *= point[j] - e;
        }
    }
    return value(coeffs, variables - 1, cells, base, falling) & low_bits(width);
}

static void sum(const uint64_t *a, const uint64_t *b, size_t cells, size_t base, uint32_t bits, uint64_t *out)
{
    if (cells > base) {
        size_t sub = cells / base;
        for (size_t e = 0; e < base; e++)
            sum(a + e * sub, b + e * sub, sub, base, bits_left(bits, e), out + e * sub);
        return;
    }
    for (size_t e = 0; e < base; e++)
        out[e] = (a[e] + b[e]) & low_bits(bits_left(bits, e));
}

void limit_sum(const uint64_t *a, const uint64_t *b, size_t cells, uint32_t width, uint8_t degree, uint64_t *out)
{
    sum(a, b, cells, (size_t)degree + 1, width, out);
}

static void reduce(uint64_t *part, size_t cells, size_t base, uint32_t bits)
{
    if (cells > base) {
        size_t sub = cells / base;
        for (size_t e = 0; e < base; e++)
            reduce(part + e * sub, sub, base, bits_left(bits, e));
        return;
    }
    for (size_t e = 0; e < base; e++)
        part[e] &= low_bits(bits_left(bits, e));
}

void limit_reduce(uint64_t *coeffs, size_t cells, uint32_t width, uint8_t degree)
{
    reduce(coeffs, cells, (size_t)degree + 1, width);
}

static int valid(const uint64_t *part, size_t cells, size_t base, uint32_t bits)
{
    if (cells > base) {
        size_t sub = cells / base;
        for (size_t e = 0; e < base; e++)
            if (!valid(part + e * sub, sub, base, bits_left(bits, e)))
                return 0;
        return 1;
    }
    for (size_t e = 0; e < base; e++)
        if (part[e] > low_bits(bits_left(bits, e)))
            return 0;
    return 1;
}

uint32_t limit_is_valid(const uint64_t *coeffs, size_t cells, uint32_t width, uint8_t degree)
{
    return (uint32_t)valid(coeffs, cells, (size_t)degree + 1, width);
}

static int same(const uint64_t *a, const uint64_t *b, size_t cells, size_t base, uint32_t bits)
{
    if (cells > base) {
        size_t sub = cells / base;
        for (size_t e = 0; e < base; e++)
            if (!same(a + e * sub, b + e * sub, sub, base, bits_left(bits, e)))
                return 0;
        return 1;
    }
    for (size_t e = 0; e < base; e++)
        if ((a[e] ^ b[e]) & low_bits(bits_left(bits, e)))
            return 0;
    return 1;
}

/* Of each variable of a form the highest exponent that another form has of it, and the stride there. */
struct places {
    size_t highest[20], stride[20];
};

static void find_places(const struct limit_form *form, const struct limit_form *other, struct places *places)
{
    for (size_t i = 0; i < form->variables; i++) {
        places->highest[i] = places->stride[i] = 0;
        for (size_t j = 0, stride = 1; j < other->variables; j++, stride *= (size_t)other->degree + 1)
            if (other->support[j] == form->support[i]) {
                places->highest[i] = other->degree;
                places->stride[i] = stride;
            }
    }
}

/* Each coefficient is the one that the other form has there, 0 where it has none: `other` is NULL then. */
static int matched(const uint64_t *part, size_t variable, size_t cells, size_t base, uint32_t bits, const struct places *places, const uint64_t *other)
{
    size_t sub = cells / base, highest = places->highest[variable], stride = places->stride[variable];
    for (size_t e = 0; e < base; e++) {
        const uint64_t *there = other && e <= highest ? other + e * stride : NULL;
        uint32_t left = bits_left(bits, e);
        if (variable > 0) {
            if (!matched(part + e * sub, variable - 1, sub, base, left, places, there))
                return 0;
        } else if ((part[e] ^ (there ? *there : 0)) & low_bits(left))
            return 0;
    }
    return 1;
}

static int all_matched(const struct limit_form *form, const struct limit_form *other, uint32_t width)
{
    struct places places;
    find_places(form, other, &places);
    return matched(form->coeffs, form->variables - 1, form->cells, (size_t)form->degree + 1, width, &places, other->coeffs);
}

/* Whether every exponent list of the form is one of the other's. */
static int within(const struct limit_form *form, const struct limit_form *other)
{
    struct places places;
    find_places(form, other, &places);
    for (size_t i = 0; i < form->variables; i++)
        if (form->degree > places.highest[i])
            return 0;
    return 1;
}

/* Two forms of the same total and width: line by line where support and degree are the same, else by the places of the exponents, and back where the second form has some that the first has not. */
uint32_t limit_same(const struct limit_form *a, const struct limit_form *b, uint32_t width)
{
    if (a->degree == b->degree && a->variables == b->variables && memcmp(a->support, b->support, a->variables * sizeof *a->support) == 0)
        return (uint32_t)same(a->coeffs, b->coeffs, a->cells, (size_t)a->degree + 1, width);
    return (uint32_t)(all_matched(a, b, width) && (within(b, a) || all_matched(b, a, width)));
}
