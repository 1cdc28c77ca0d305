/* Keys of twenty exponents in plain C: a key is its bytes. */

#include "limit.h"

void limit_key_from_exponents(const uint8_t *exps, uint8_t n, uint8_t *key)
{
    memset(key, 0, 20);
    memcpy(key, exps, n);
}

void limit_key_to_exponents(const uint8_t *key, uint8_t *out, uint8_t n)
{
    memcpy(out, key, n);
}

uint64_t limit_key_exponent_at(const uint8_t *key, uint8_t var)
{
    return key[var];
}

void limit_key_with_exponent(uint8_t *key, uint8_t var, uint8_t exponent)
{
    key[var] = exponent;
}

uint64_t limit_key_total_degree(const uint8_t *key, uint8_t n)
{
    uint64_t sum = 0;
    for (uint8_t i = 0; i < n; i++)
        sum += key[i];
    return sum;
}

uint64_t limit_key_max_degree(const uint8_t *key, uint8_t n)
{
    uint8_t most = 0;
    for (uint8_t i = 0; i < n; i++)
        most = key[i] > most ? key[i] : most;
    return most;
}

uint64_t limit_key_v2_factorial_weight(const uint8_t *key, uint8_t n)
{
    uint64_t twos = 0;
    for (uint8_t i = 0; i < n; i++)
        twos += limit_twos[key[i]];
    return twos;
}
