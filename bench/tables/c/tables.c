/* The tables of documents 01 and 02 in straightforward C, for bench/run to compare with: rows are compared by pairs. The compiler's -D sets NAME. */
#include <stdbool.h>
#include <stddef.h>
#include <stdint.h>
#include <string.h>

#define JOIN2(a, b) a##_##b
#define JOIN(a, b) JOIN2(a, b)
#define F(name) JOIN(name, NAME)
#define NONE 0xffffffffu

static uint32_t word(const uint8_t *p) { return p[0] | (uint32_t)p[1] << 8 | (uint32_t)p[2] << 16 | (uint32_t)p[3] << 24; }

/* Of an address row, whose seat may be any, and of a block row. */
static bool held_tail(const uint8_t *row) { return row[36] > 1 || row[39]; }
static bool block_tail(const uint8_t *row) { return row[36] > 1 || row[37] || row[38] || row[39]; }

bool F(c_six)(const uint8_t *t, size_t length, size_t m, size_t n, size_t p)
{
    if (n > m)
        return true;
    for (size_t i = 0; i < n; i++) {
        if (word(t + i * 40) >= p || held_tail(t + i * 40))
            return true;
        for (size_t j = 0; j < i; j++)
            if (word(t + i * 40) == word(t + j * 40))
                return true;
    }
    for (size_t k = n * 40; k < length; k++)
        if (t[k])
            return true;
    return false;
}

bool F(c_seven)(const uint8_t *t, size_t length, size_t d)
{
    (void)length;
    for (size_t i = 0; i < d; i++) {
        const uint8_t *row = t + i * 40;
        if (word(row + 32) >= d || block_tail(row))
            return true;
        if (!row[36])
            for (size_t k = 0; k < 32; k++)
                if (row[k])
                    return true;
        for (size_t j = 0; j < i; j++) {
            const uint8_t *other = t + j * 40;
            if (word(row + 32) == word(other + 32) || (other[36] && !row[36]))
                return true;
            if (row[36] && other[36] && !memcmp(row, other, 32))
                return true;
        }
    }
    return false;
}

size_t F(c_find_cached)(const uint8_t *t, size_t length, size_t d, const uint8_t *g, size_t glength)
{
    (void)length, (void)glength;
    for (size_t i = 0; i < d; i++)
        if (t[i * 40 + 36] == 1 && !memcmp(t + i * 40, g, 32))
            return i;
    return NONE;
}

size_t F(c_find_fingerprint)(const uint8_t *t, size_t length, size_t n, const uint8_t *g, size_t glength)
{
    (void)length, (void)glength;
    for (size_t i = 0; i < n; i++)
        if (!memcmp(t + i * 40 + 4, g, 32))
            return i;
    return NONE;
}

size_t F(c_find_address)(const uint8_t *t, size_t length, size_t n, uint32_t a)
{
    (void)length;
    for (size_t i = 0; i < n; i++)
        if (word(t + i * 40) == a)
            return i;
    return NONE;
}

uint32_t F(c_refused)(const uint8_t *a, size_t alength, size_t m, size_t n, size_t p, const uint8_t *b, size_t blength, size_t d)
{
    if (F(c_six)(a, alength, m, n, p))
        return 6;
    if (F(c_seven)(b, blength, d))
        return 7;
    for (size_t i = 0; i < n; i++)
        if (a[i * 40 + 36] == 1 && F(c_find_cached)(b, blength, d, a + i * 40 + 4, 32) == NONE)
            return 8;
    return 0;
}

size_t F(c_some_uncached)(const uint8_t *a, size_t alength, size_t m, size_t n, size_t p, const uint8_t *b, size_t blength, size_t d)
{
    if (F(c_refused)(a, alength, m, n, p, b, blength, d))
        return NONE;
    for (size_t i = 0; i + 1 < n; i++)
        if (F(c_find_cached)(b, blength, d, a + i * 40 + 4, 32) == NONE)
            return 1;
    return 0;
}

size_t F(c_oldest_unknown)(const uint8_t *a, size_t alength, size_t m, size_t n, size_t p, const uint8_t *b, size_t blength, size_t d)
{
    if (F(c_refused)(a, alength, m, n, p, b, blength, d))
        return NONE;
    for (size_t i = 0; i < d; i++)
        if (b[i * 40 + 36] == 1 && F(c_find_fingerprint)(a, alength, n, b + i * 40, 32) == NONE)
            return i;
    return NONE;
}

void F(c_remove_row)(uint8_t *t, size_t length, size_t n, size_t i)
{
    (void)length;
    memmove(t + i * 40, t + i * 40 + 40, (n - 1 - i) * 40);
    memset(t + (n - 1) * 40, 0, 40);
}

void F(c_push_address)(uint8_t *t, size_t length, size_t n, uint32_t a, const uint8_t *g, size_t glength, uint8_t dirty, uint16_t seat)
{
    (void)length, (void)glength;
    uint8_t *row = t + n * 40;
    for (int k = 0; k < 4; k++)
        row[k] = (uint8_t)(a >> (8 * k));
    memcpy(row + 4, g, 32);
    row[36] = dirty, row[37] = (uint8_t)seat, row[38] = (uint8_t)(seat >> 8), row[39] = 0;
}

void F(c_set_clean)(uint8_t *t, size_t length, size_t n, size_t i)
{
    (void)length, (void)n;
    t[i * 40 + 36] = 0;
}

void F(c_to_newest)(uint8_t *t, size_t length, size_t d, size_t i)
{
    (void)length;
    uint8_t row[40];
    memcpy(row, t + i * 40, 40);
    memmove(t + i * 40, t + i * 40 + 40, (d - 1 - i) * 40);
    memcpy(t + (d - 1) * 40, row, 40);
}

void F(c_to_front)(uint8_t *t, size_t length, size_t d, size_t i)
{
    (void)length, (void)d;
    uint8_t row[40] = {0};
    memcpy(row + 32, t + i * 40 + 32, 4);
    memmove(t + 40, t, i * 40);
    memcpy(t, row, 40);
}

void F(c_put_block)(uint8_t *t, size_t length, size_t d, size_t i, const uint8_t *g, size_t glength)
{
    (void)length, (void)glength;
    uint8_t row[40] = {0};
    memcpy(row, g, 32);
    memcpy(row + 32, t + i * 40 + 32, 4);
    row[36] = 1;
    memmove(t + i * 40, t + i * 40 + 40, (d - 1 - i) * 40);
    memcpy(t + (d - 1) * 40, row, 40);
}
