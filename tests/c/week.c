/* A week of calls through the header: the document's replay (E1), write back and sharing, eviction, flush, whole and in parts, looks, a folder opened
 * with one call, two offices with equal pages, seats and both reports, a limit on dirty addresses, a warm start, and refusals.
 * Prints what it checked, or the line that failed. */
#include <stdio.h>
#include <stdlib.h>
#include <string.h>
#include "mindavehu.h"
#include "expect.h"

/* A box: each buffer is its own piece of the heap, so that a sanitizer sees every byte past an end. */
struct box {
    uint8_t *state, *disk, *flash, *addresses, *blocks, *block, *answer;
    size_t disk_length, flash_length, addresses_length, blocks_length, block_length;
};

static uint8_t *piece(size_t length)
{
    uint8_t *bytes = calloc(length, 1);
    if (!bytes)
        exit(2);
    return bytes;
}

/* Disk block k starts filled with byte k. The limit is m. */
static struct box make(size_t B, size_t P, size_t m, size_t d)
{
    struct box b = {.disk_length = P * B, .flash_length = d * B, .addresses_length = m * MINDAVEHU_ROW,
                    .blocks_length = d * MINDAVEHU_ROW, .block_length = B};
    b.state = piece(MINDAVEHU_STATE);
    b.answer = piece(MINDAVEHU_ANSWER);
    b.disk = piece(b.disk_length);
    b.flash = piece(b.flash_length);
    b.addresses = piece(b.addresses_length);
    b.blocks = piece(b.blocks_length);
    b.block = piece(b.block_length);
    for (size_t k = 0; k < P; k++)
        memset(b.disk + k * B, (int)k, B);
    mindavehu_put(b.state, MINDAVEHU_B, B);
    mindavehu_put(b.state, MINDAVEHU_P, P);
    mindavehu_put(b.state, MINDAVEHU_M, m);
    mindavehu_put(b.state, MINDAVEHU_D, d);
    mindavehu_put(b.state, MINDAVEHU_T, m);
    return b;
}

static void drop(struct box *b)
{
    free(b->state), free(b->disk), free(b->flash), free(b->addresses), free(b->blocks), free(b->block), free(b->answer);
}

#define MEMORY(b) (b)->disk, (b)->disk_length, (b)->flash, (b)->flash_length, (b)->addresses, (b)->addresses_length, (b)->blocks, (b)->blocks_length
#define STATE(b) (b)->state, MINDAVEHU_STATE
#define BLOCK(b) (b)->block, (b)->block_length
#define ANSWER(b) (b)->answer, MINDAVEHU_ANSWER

/* Under a label whose bytes are all the same, in a piece of the heap of that length. */
static uint32_t open_under(struct box *b, int byte, size_t length)
{
    uint8_t *label = piece(length + (length == 0));
    memset(label, byte, length);
    uint32_t refusal = mindavehu_open(STATE(b), label, length, MEMORY(b));
    free(label);
    return refusal;
}
static uint32_t open_box(struct box *b) { return open_under(b, 0x4F, MINDAVEHU_LABEL); }
static uint32_t read_block(struct box *b, uint32_t a)
{
    memset(b->block, 0xEE, b->block_length);
    return mindavehu_read(STATE(b), a, MEMORY(b), BLOCK(b), ANSWER(b));
}

/* The seat that makes the next writes. */
static uint16_t seat = 7;

static uint32_t through(struct box *b, uint32_t a, int byte)
{
    memset(b->block, byte, b->block_length);
    return mindavehu_write_through(STATE(b), a, seat, MEMORY(b), BLOCK(b), ANSWER(b));
}
static uint32_t back(struct box *b, uint32_t a, int byte)
{
    memset(b->block, byte, b->block_length);
    return mindavehu_write_back(STATE(b), a, seat, MEMORY(b), BLOCK(b), ANSWER(b));
}
static uint32_t invalidate(struct box *b, uint32_t a, int byte)
{
    memset(b->block, byte, b->block_length);
    return mindavehu_write_invalidate(STATE(b), a, seat, MEMORY(b), BLOCK(b), ANSWER(b));
}
static uint32_t flush(struct box *b) { return mindavehu_flush(STATE(b), MEMORY(b), ANSWER(b)); }
static uint32_t flush_some(struct box *b, size_t most) { return mindavehu_flush_some(STATE(b), most, MEMORY(b), ANSWER(b)); }
static uint32_t look(struct box *b, uint32_t a) { return mindavehu_look(STATE(b), a, MEMORY(b), ANSWER(b)); }

static int says(const struct box *b, uint64_t word, uint64_t second, uint64_t third)
{
    return mindavehu_get(b->answer, 0) == word && mindavehu_get(b->answer, 8) == second && mindavehu_get(b->answer, 16) == third;
}

static int filled(const uint8_t *bytes, size_t length, int byte)
{
    for (size_t i = 0; i < length; i++)
        if (bytes[i] != byte)
            return 0;
    return 1;
}

static int counted(const struct box *b, uint64_t reads, uint64_t hits, uint64_t flash, uint64_t primary)
{
    return mindavehu_get(b->state, MINDAVEHU_READS) == reads && mindavehu_get(b->state, MINDAVEHU_HITS) == hits
        && mindavehu_get(b->state, MINDAVEHU_FLASH_WRITES) == flash && mindavehu_get(b->state, MINDAVEHU_PRIMARY_WRITES) == primary;
}

/* Whether the place that a look answered holds this byte throughout. */
static int shows(const struct box *b, int byte)
{
    const uint8_t *from = mindavehu_get(b->answer, MINDAVEHU_WORD) == MINDAVEHU_CACHE ? b->flash : b->disk;
    return filled(from + mindavehu_get(b->answer, MINDAVEHU_START), mindavehu_get(b->answer, MINDAVEHU_LENGTH), byte);
}

/* Monday: the document's replay. */
static void replay(void)
{
    struct box b = make(64, 8, 3, 2);
    EXPECT(open_box(&b) == MINDAVEHU_SERVED);
    EXPECT(read_block(&b, 1) == 0 && says(&b, MINDAVEHU_MISS, 1, 0) && filled(b.block, 64, 1));
    EXPECT(read_block(&b, 2) == 0 && says(&b, MINDAVEHU_MISS, 1, 0) && filled(b.block, 64, 2));
    EXPECT(back(&b, 3, 1) == 0 && says(&b, MINDAVEHU_SAME, 0, 0));
    EXPECT(read_block(&b, 3) == 0 && says(&b, MINDAVEHU_HIT, 0, 0) && filled(b.block, 64, 1));
    EXPECT(read_block(&b, 4) == 0 && says(&b, MINDAVEHU_MISS, 1, 0) && filled(b.block, 64, 4));
    EXPECT(read_block(&b, 2) == 0 && says(&b, MINDAVEHU_MISS, 1, 1) && filled(b.block, 64, 2));
    EXPECT(flush(&b) == 0 && says(&b, MINDAVEHU_DONE, 0, 0));
    EXPECT(look(&b, 3) == 0 && says(&b, MINDAVEHU_DISK, 3 * 64, 64) && shows(&b, 1));
    EXPECT(look(&b, 2) == 0 && mindavehu_get(b.answer, 0) == MINDAVEHU_CACHE && shows(&b, 2));
    EXPECT(counted(&b, 5, 1, 4, 1));
    EXPECT(mindavehu_get(b.state, MINDAVEHU_N) == 3);
    drop(&b);
}

/* A page saved unchanged stays clean, also where its block has left flash; saved with another content it is dirty until a flush. */
static void saved_unchanged(void)
{
    struct box b = make(64, 8, 2, 1);
    EXPECT(open_box(&b) == 0);
    EXPECT(read_block(&b, 1) == 0 && says(&b, MINDAVEHU_MISS, 1, 0));
    EXPECT(back(&b, 1, 1) == 0 && says(&b, MINDAVEHU_SAME, 0, 0));
    EXPECT(flush(&b) == 0 && says(&b, MINDAVEHU_DONE, 0, 0));
    EXPECT(read_block(&b, 2) == 0 && says(&b, MINDAVEHU_MISS, 1, 0));
    EXPECT(back(&b, 1, 1) == 0 && says(&b, MINDAVEHU_NEW, 1, 0));
    EXPECT(flush(&b) == 0 && says(&b, MINDAVEHU_DONE, 0, 0));
    EXPECT(back(&b, 1, 2) == 0 && back(&b, 1, 2) == 0 && says(&b, MINDAVEHU_SAME, 0, 0));
    EXPECT(flush(&b) == 0 && says(&b, MINDAVEHU_DONE, 0, 1) && filled(b.disk + 64, 64, 2));
    EXPECT(counted(&b, 2, 0, 4, 1));
    drop(&b);
}

/* Tuesday to Thursday: one content at two addresses, eviction of a dirty address, flush. */
static void sharing(void)
{
    struct box b = make(64, 8, 2, 2);
    EXPECT(open_box(&b) == 0);
    EXPECT(back(&b, 0, 9) == 0 && says(&b, MINDAVEHU_NEW, 1, 0));
    EXPECT(back(&b, 1, 9) == 0 && says(&b, MINDAVEHU_SAME, 0, 0));
    EXPECT(filled(b.disk, 64, 0) && filled(b.disk + 64, 64, 1));
    EXPECT(look(&b, 1) == 0 && says(&b, MINDAVEHU_CACHE, 0, 64) && shows(&b, 9));
    EXPECT(read_block(&b, 5) == 0 && says(&b, MINDAVEHU_MISS, 1, 1) && filled(b.block, 64, 5));
    EXPECT(filled(b.disk, 64, 9) && filled(b.disk + 64, 64, 1));
    EXPECT(flush(&b) == 0 && says(&b, MINDAVEHU_DONE, 0, 1));
    EXPECT(filled(b.disk + 64, 64, 9));
    EXPECT(flush(&b) == 0 && says(&b, MINDAVEHU_DONE, 0, 0));
    EXPECT(counted(&b, 1, 0, 2, 2));
    drop(&b);
}

/* A busy afternoon: the flush in parts, oldest first, until the count is below what was asked for. */
static void in_parts(void)
{
    struct box b = make(64, 8, 4, 4);
    EXPECT(open_box(&b) == 0);
    EXPECT(back(&b, 0, 9) == 0 && read_block(&b, 4) == 0 && back(&b, 1, 8) == 0 && back(&b, 2, 7) == 0);
    EXPECT(flush_some(&b, 0) == 0 && says(&b, MINDAVEHU_DONE, 0, 0) && filled(b.disk, 64, 0));
    EXPECT(flush_some(&b, 2) == 0 && says(&b, MINDAVEHU_DONE, 0, 2));
    EXPECT(filled(b.disk, 64, 9) && filled(b.disk + 64, 64, 8) && filled(b.disk + 2 * 64, 64, 2));
    EXPECT(flush_some(&b, 2) == 0 && says(&b, MINDAVEHU_DONE, 0, 1) && filled(b.disk + 2 * 64, 64, 7));
    EXPECT(flush_some(&b, SIZE_MAX) == 0 && says(&b, MINDAVEHU_DONE, 0, 0));
    EXPECT(back(&b, 2, 6) == 0 && flush_some(&b, SIZE_MAX) == 0 && says(&b, MINDAVEHU_DONE, 0, 1) && filled(b.disk + 2 * 64, 64, 6));
    EXPECT(counted(&b, 1, 0, 5, 4));
    drop(&b);
}

/* Friday: through and invalidate; the largest block size and the last address. */
static void writes(void)
{
    struct box b = make(4096, 3, 2, 1);
    EXPECT(open_box(&b) == 0);
    EXPECT(through(&b, 2, 5) == 0 && says(&b, MINDAVEHU_NEW, 1, 1) && filled(b.disk + 2 * 4096, 4096, 5));
    EXPECT(through(&b, 1, 5) == 0 && says(&b, MINDAVEHU_SAME, 0, 1));
    EXPECT(invalidate(&b, 2, 6) == 0 && says(&b, MINDAVEHU_NEW, 0, 1) && filled(b.disk + 2 * 4096, 4096, 6));
    EXPECT(mindavehu_get(b.state, MINDAVEHU_N) == 1);
    EXPECT(look(&b, 2) == 0 && says(&b, MINDAVEHU_DISK, 2 * 4096, 4096) && shows(&b, 6));
    EXPECT(look(&b, 1) == 0 && says(&b, MINDAVEHU_CACHE, 0, 4096) && shows(&b, 5));
    EXPECT(counted(&b, 0, 0, 1, 3));
    drop(&b);
}

/* A folder: its addresses, blocks and answer, each its own piece of the heap too. */
struct folder {
    uint32_t *asked;
    size_t count, buffer_length;
    uint8_t *buffer, *answer;
};

static struct folder make_folder(const struct box *b, size_t count, const uint32_t *asked)
{
    struct folder f = {.count = count, .buffer_length = count * b->block_length};
    f.asked = (uint32_t *)piece((count + (count == 0)) * sizeof *f.asked);
    f.buffer = piece(f.buffer_length + (count == 0));
    f.answer = piece(MINDAVEHU_MANY_ANSWER);
    memcpy(f.asked, asked, count * sizeof *asked);
    memset(f.buffer, 0xEE, f.buffer_length);
    memset(f.answer, 0xDD, MINDAVEHU_MANY_ANSWER);
    return f;
}

static void drop_folder(struct folder *f)
{
    free(f->asked), free(f->buffer), free(f->answer);
}

#define FOLDER(f) (f)->asked, (f)->count
#define INTO(f) (f)->buffer, (f)->buffer_length, (f)->answer, MINDAVEHU_MANY_ANSWER

static uint32_t read_folder(struct box *b, struct folder *f)
{
    return mindavehu_read_many(STATE(b), FOLDER(f), MEMORY(b), INTO(f));
}

static int told(const struct folder *f, uint64_t hits, uint64_t flash, uint64_t primary, uint64_t fetches)
{
    return mindavehu_get(f->answer, MINDAVEHU_MANY_HITS) == hits && mindavehu_get(f->answer, MINDAVEHU_ANSWER_FLASH) == flash
        && mindavehu_get(f->answer, MINDAVEHU_ANSWER_PRIMARY) == primary && mindavehu_get(f->answer, MINDAVEHU_FETCHES) == fetches;
}

static int same(const uint8_t *one, const uint8_t *two, size_t length) { return memcmp(one, two, length) == 0; }

/* A folder on a copy of a box by single reads: the same blocks, bytes of the box and counters. */
static void as_single_reads(struct box *b, struct box *copy, struct folder *f)
{
    memcpy(copy->state, b->state, MINDAVEHU_STATE);
    memcpy(copy->disk, b->disk, b->disk_length);
    memcpy(copy->flash, b->flash, b->flash_length);
    memcpy(copy->addresses, b->addresses, b->addresses_length);
    memcpy(copy->blocks, b->blocks, b->blocks_length);
    EXPECT(read_folder(b, f) == MINDAVEHU_SERVED);
    for (size_t i = 0; i < f->count; i++)
        EXPECT(read_block(copy, f->asked[i]) == 0 && same(copy->block, f->buffer + i * b->block_length, b->block_length));
    EXPECT(same(copy->state, b->state, MINDAVEHU_STATE) && same(copy->disk, b->disk, b->disk_length) && same(copy->flash, b->flash, b->flash_length));
    EXPECT(same(copy->addresses, b->addresses, b->addresses_length) && same(copy->blocks, b->blocks, b->blocks_length));
}

/* Friday afternoon: a folder opened with one call, a page of it twice; with one slot, where the repeat misses; and after a write back whose page
 * leaves the cache within the call. */
static void folder(void)
{
    static const uint32_t pages[5] = {2, 5, 2, 6, 5}, two_and_one[2] = {1, 0};
    struct box b = make(64, 8, 4, 3), copy = make(64, 8, 4, 3);
    struct folder f = make_folder(&b, 5, pages);
    EXPECT(open_box(&b) == 0 && back(&b, 5, 9) == 0);
    as_single_reads(&b, &copy, &f);
    EXPECT(told(&f, 3, 2, 0, 2) && counted(&b, 5, 3, 3, 0));
    EXPECT(filled(f.buffer, 64, 2) && filled(f.buffer + 64, 64, 9) && filled(f.buffer + 2 * 64, 64, 2) && filled(f.buffer + 4 * 64, 64, 9));
    drop(&b), drop(&copy);

    b = make(64, 8, 4, 1), copy = make(64, 8, 4, 1);
    EXPECT(open_box(&b) == 0);
    as_single_reads(&b, &copy, &f);
    EXPECT(told(&f, 0, 5, 0, 3) && counted(&b, 5, 0, 5, 0));
    drop(&b), drop(&copy), drop_folder(&f);

    b = make(64, 2, 1, 1), copy = make(64, 2, 1, 1);
    f = make_folder(&b, 2, two_and_one);
    EXPECT(open_box(&b) == 0 && back(&b, 0, 7) == 0);
    as_single_reads(&b, &copy, &f);
    EXPECT(told(&f, 0, 2, 1, 2) && filled(f.buffer, 64, 1) && filled(f.buffer + 64, 64, 7) && filled(b.disk, 64, 7));
    drop(&b), drop(&copy), drop_folder(&f);
}

/* Whether the state's label has this byte throughout. */
static int labelled(const struct box *b, int byte) { return filled(b->state + MINDAVEHU_STATE_LABEL, MINDAVEHU_LABEL, byte); }

/* The fingerprint of a row of the address table: behind the address, 32 bytes. */
static const uint8_t *fingerprint(const struct box *b, size_t row) { return b->addresses + row * MINDAVEHU_ROW + 4; }

/* Two offices with equal pages: the same answers and blocks, and no fingerprint of one is the other's. A box under the first one's label has its tables. */
static void offices(void)
{
    struct box one = make(64, 8, 3, 2), two = make(64, 8, 3, 2), twin = make(64, 8, 3, 2), *boxes[3] = {&one, &two, &twin};
    for (size_t k = 0; k < 3; k++) {
        struct box *b = boxes[k];
        EXPECT(open_under(b, k == 1 ? 0x02 : 0x01, MINDAVEHU_LABEL) == MINDAVEHU_SERVED && labelled(b, k == 1 ? 0x02 : 0x01));
        EXPECT(read_block(b, 1) == 0 && says(b, MINDAVEHU_MISS, 1, 0) && filled(b->block, 64, 1));
        EXPECT(back(b, 3, 1) == 0 && says(b, MINDAVEHU_SAME, 0, 0));
        EXPECT(through(b, 4, 9) == 0 && says(b, MINDAVEHU_NEW, 1, 1));
        EXPECT(read_block(b, 3) == 0 && says(b, MINDAVEHU_HIT, 0, 0) && filled(b->block, 64, 1));
        EXPECT(counted(b, 2, 1, 2, 1) && labelled(b, k == 1 ? 0x02 : 0x01));
    }
    EXPECT(same(one.disk, two.disk, one.disk_length) && same(one.flash, two.flash, one.flash_length));
    EXPECT(same(one.addresses, twin.addresses, one.addresses_length) && same(one.blocks, twin.blocks, one.blocks_length));
    EXPECT(same(fingerprint(&one, 0), fingerprint(&one, 2), 32) && !same(fingerprint(&one, 0), fingerprint(&one, 1), 32));
    for (size_t i = 0; i < 3; i++)
        for (size_t k = 0; k < 3; k++)
            EXPECT(!same(fingerprint(&one, i), fingerprint(&two, k), 32));
    drop(&one), drop(&two), drop(&twin);
}

/* A label that has not 64 bytes is refused, after numbers outside their sets; n and the label are zeros then. */
static void labels(void)
{
    static const size_t lengths[] = {0, 1, 63, 65, 72, 128, 136, 144};
    for (size_t k = 0; k < sizeof lengths / sizeof *lengths; k++) {
        struct box b = make(64, 8, 3, 2);
        EXPECT(open_box(&b) == 0 && back(&b, 3, 1) == 0 && labelled(&b, 0x4F));
        EXPECT(open_under(&b, 0x77, lengths[k]) == MINDAVEHU_WRONG_LENGTH);
        EXPECT(mindavehu_get(b.state, MINDAVEHU_N) == 0 && labelled(&b, 0) && counted(&b, 0, 0, 1, 0) && b.addresses[0] == 3);
        mindavehu_put(b.state, MINDAVEHU_D, 257);
        EXPECT(open_under(&b, 0x77, lengths[k]) == MINDAVEHU_OUTSIDE && labelled(&b, 0));
        drop(&b);
    }
}

/* The dirty byte of a row of the address table. */
#define ROW_DIRTY 36

/* Everything that a call can change, to compare. */
static uint8_t *all(const struct box *b, size_t *length)
{
    const uint8_t *parts[] = {b->state, b->disk, b->flash, b->addresses, b->blocks, b->block, b->answer};
    size_t lengths[] = {MINDAVEHU_STATE, b->disk_length, b->flash_length, b->addresses_length, b->blocks_length, b->block_length, MINDAVEHU_ANSWER};
    *length = 0;
    for (size_t i = 0; i < 7; i++)
        *length += lengths[i];
    uint8_t *bytes = piece(*length), *to = bytes;
    for (size_t i = 0; i < 7; to += lengths[i], i++)
        memcpy(to, parts[i], lengths[i]);
    return bytes;
}

#define KEPT(b, call, number)                                   \
    do {                                                        \
        size_t before_length, after_length;                     \
        uint8_t *before = all(b, &before_length);               \
        EXPECT((call) == (number));                             \
        uint8_t *after = all(b, &after_length);                 \
        EXPECT(memcmp(before, after, before_length) == 0);      \
        free(before), free(after);                              \
    } while (0)

/* The weekend: refusals, and what they keep. */
static void refusals(void)
{
    struct box b = make(64, 8, 3, 2);
    EXPECT(open_box(&b) == 0 && back(&b, 3, 1) == 0);
    KEPT(&b, mindavehu_read(STATE(&b), 8, MEMORY(&b), BLOCK(&b), ANSWER(&b)), MINDAVEHU_NO_ADDRESS);
    KEPT(&b, mindavehu_look(STATE(&b), 0xFFFFFFFF, MEMORY(&b), ANSWER(&b)), MINDAVEHU_NO_ADDRESS);
    KEPT(&b, mindavehu_read(b.state, 143, 1, MEMORY(&b), BLOCK(&b), ANSWER(&b)), MINDAVEHU_WRONG_LENGTH);
    KEPT(&b, mindavehu_read(b.state, 136, 1, MEMORY(&b), BLOCK(&b), ANSWER(&b)), MINDAVEHU_WRONG_LENGTH);
    KEPT(&b, mindavehu_read(b.state, 72, 1, MEMORY(&b), BLOCK(&b), ANSWER(&b)), MINDAVEHU_WRONG_LENGTH);
    KEPT(&b, mindavehu_flush(STATE(&b), MEMORY(&b), b.answer, 23), MINDAVEHU_WRONG_LENGTH);
    KEPT(&b, mindavehu_flush_some(b.state, 136, 1, MEMORY(&b), ANSWER(&b)), MINDAVEHU_WRONG_LENGTH);
    KEPT(&b, mindavehu_look(STATE(&b), 1, MEMORY(&b), b.answer, 0), MINDAVEHU_WRONG_LENGTH);
    KEPT(&b, mindavehu_open(b.state, 72, b.block, 64, MEMORY(&b)), MINDAVEHU_WRONG_LENGTH);
    KEPT(&b, mindavehu_write_back(STATE(&b), 1, seat, MEMORY(&b), b.block, 63, ANSWER(&b)), MINDAVEHU_WRONG_LENGTH);
    mindavehu_put(b.state, MINDAVEHU_READS, (1ull << 63) + 1);
    KEPT(&b, mindavehu_read(STATE(&b), 1, MEMORY(&b), BLOCK(&b), ANSWER(&b)), MINDAVEHU_COUNTER_FULL);
    EXPECT(look(&b, 1) == 0);
    mindavehu_put(b.state, MINDAVEHU_READS, 0);
    b.blocks[32] ^= 1;
    KEPT(&b, mindavehu_flush(STATE(&b), MEMORY(&b), ANSWER(&b)), MINDAVEHU_BAD_BLOCKS);
    KEPT(&b, mindavehu_flush_some(STATE(&b), 0, MEMORY(&b), ANSWER(&b)), MINDAVEHU_BAD_BLOCKS);
    b.blocks[32] ^= 1;
    b.blocks[MINDAVEHU_ROW] ^= 1;
    KEPT(&b, mindavehu_flush(STATE(&b), MEMORY(&b), ANSWER(&b)), MINDAVEHU_DIRTY_UNCACHED);
    mindavehu_put(b.state, MINDAVEHU_N, 4);
    KEPT(&b, mindavehu_look(STATE(&b), 1, MEMORY(&b), ANSWER(&b)), MINDAVEHU_BAD_ADDRESSES);
    mindavehu_put(b.state, MINDAVEHU_B, 96);
    KEPT(&b, mindavehu_write_through(STATE(&b), 1, seat, MEMORY(&b), BLOCK(&b), ANSWER(&b)), MINDAVEHU_OUTSIDE);
    mindavehu_put(b.state, MINDAVEHU_HITS, 77);
    EXPECT(open_box(&b) == MINDAVEHU_OUTSIDE);
    EXPECT(mindavehu_get(b.state, MINDAVEHU_N) == 0 && mindavehu_get(b.state, MINDAVEHU_HITS) == 77 && mindavehu_get(b.state, MINDAVEHU_B) == 96);
    EXPECT(labelled(&b, 0));
    mindavehu_put(b.state, MINDAVEHU_B, 64);
    EXPECT(open_box(&b) == 0 && counted(&b, 0, 0, 0, 0) && filled(b.addresses, b.addresses_length, 0));
    drop(&b);
}

/* Both reports of a box of three addresses, each its own piece of the heap. */
struct reports {
    uint8_t *manager, *desk;
};

#define MANAGER(r) (r)->manager, MINDAVEHU_MANAGER_REPORT_LENGTH(3)
#define DESK(r) (r)->desk, MINDAVEHU_DESK_REPORT_LENGTH(3)

static struct reports make_reports(void)
{
    struct reports r = {piece(MINDAVEHU_MANAGER_REPORT_LENGTH(3)), piece(MINDAVEHU_DESK_REPORT_LENGTH(3))};
    memset(r.manager, 0xEE, MINDAVEHU_MANAGER_REPORT_LENGTH(3));
    memset(r.desk, 0xEE, MINDAVEHU_DESK_REPORT_LENGTH(3));
    return r;
}

static void drop_reports(struct reports *r)
{
    free(r->manager), free(r->desk);
}

static uint32_t manager_report(struct box *b, struct reports *r) { return mindavehu_manager_report(STATE(b), MEMORY(b), MANAGER(r)); }
static uint32_t desk_report(struct box *b, struct reports *r) { return mindavehu_desk_report(STATE(b), MEMORY(b), DESK(r)); }

/* Whether the reports say this of the row with this number. */
static int reported(const struct reports *r, size_t row, uint32_t a, int dirty, uint16_t by)
{
    const uint8_t *manager = r->manager + row * MINDAVEHU_MANAGER_PART, *desk = r->desk + row * MINDAVEHU_DESK_PART;
    return mindavehu_report_address(manager) == a && manager[MINDAVEHU_REPORT_DIRTY] == dirty && mindavehu_report_seat(manager) == by
        && mindavehu_report_address(desk) == a && desk[MINDAVEHU_REPORT_DIRTY] == dirty;
}

/* Seats: a write sets it, a read keeps it, a read of an address that is not held sets 0. Reports change nothing and count nothing. */
static void seats(void)
{
    static const uint16_t edges[] = {0, 1, 255, 256, 65535};
    for (size_t k = 0; k < sizeof edges / sizeof *edges; k++) {
        struct box b = make(64, 8, 3, 2);
        struct reports r = make_reports();
        EXPECT(open_box(&b) == 0);
        KEPT(&b, manager_report(&b, &r), MINDAVEHU_SERVED);
        KEPT(&b, desk_report(&b, &r), MINDAVEHU_SERVED);
        EXPECT(filled(r.manager, 21, 0) && filled(r.desk, 15, 0));
        seat = edges[k];
        EXPECT(back(&b, 5, 1) == 0 && read_block(&b, 6) == 0);
        seat = (uint16_t)(edges[k] + 77);
        EXPECT(through(&b, 7, 7) == 0 && read_block(&b, 5) == 0);
        mindavehu_put(b.state, MINDAVEHU_READS, UINT64_MAX);
        KEPT(&b, manager_report(&b, &r), MINDAVEHU_SERVED);
        KEPT(&b, desk_report(&b, &r), MINDAVEHU_SERVED);
        EXPECT(reported(&r, 0, 6, 0, 0) && reported(&r, 1, 7, 0, seat) && reported(&r, 2, 5, 0, edges[k]));
        EXPECT(r.manager[2 * 7 + 5] == edges[k] % 256 && r.manager[2 * 7 + 6] == edges[k] / 256);
        mindavehu_put(b.state, MINDAVEHU_READS, 0);
        EXPECT(back(&b, 6, 9) == 0 && invalidate(&b, 7, 3) == 0 && manager_report(&b, &r) == 0 && desk_report(&b, &r) == 0);
        EXPECT(reported(&r, 0, 5, 0, edges[k]) && reported(&r, 1, 6, 1, seat) && filled(r.manager + 14, 7, 0) && filled(r.desk + 10, 5, 0));
        drop(&b), drop_reports(&r);
    }
    seat = 7;
}

/* Whether a refused report has kept its bytes. */
#define REPORT_KEPT(b, r, length, number)                                                                             \
    do {                                                                                                              \
        KEPT(b, mindavehu_manager_report(STATE(b), MEMORY(b), (r)->manager, (length) * MINDAVEHU_MANAGER_PART), number); \
        KEPT(b, mindavehu_desk_report(STATE(b), MEMORY(b), (r)->desk, (length) * MINDAVEHU_DESK_PART), number);          \
        EXPECT(filled((r)->manager, 21, 0xEE) && filled((r)->desk, 15, 0xEE));                                          \
    } while (0)

/* The refusals of the reports, from the last check to the first. Any seat is sound; the byte behind it is zero. */
static void report_refusals(void)
{
    struct box b = make(64, 8, 3, 2);
    struct reports r = make_reports();
    EXPECT(open_box(&b) == 0 && back(&b, 3, 1) == 0);
    b.blocks[MINDAVEHU_ROW] ^= 1;
    REPORT_KEPT(&b, &r, 3, MINDAVEHU_DIRTY_UNCACHED);
    b.blocks[37] = 1;
    REPORT_KEPT(&b, &r, 3, MINDAVEHU_BAD_BLOCKS);
    b.addresses[39] = 1;
    REPORT_KEPT(&b, &r, 3, MINDAVEHU_BAD_ADDRESSES);
    REPORT_KEPT(&b, &r, 2, MINDAVEHU_WRONG_LENGTH);
    KEPT(&b, mindavehu_manager_report(STATE(&b), MEMORY(&b), r.manager, MINDAVEHU_DESK_REPORT_LENGTH(3)), MINDAVEHU_WRONG_LENGTH);
    b.flash_length--;
    REPORT_KEPT(&b, &r, 3, MINDAVEHU_WRONG_LENGTH);
    mindavehu_put(b.state, MINDAVEHU_M, 1025);
    REPORT_KEPT(&b, &r, 2, MINDAVEHU_OUTSIDE);
    KEPT(&b, mindavehu_manager_report(b.state, 136, MEMORY(&b), MANAGER(&r)), MINDAVEHU_WRONG_LENGTH);
    KEPT(&b, mindavehu_desk_report(b.state, 72, MEMORY(&b), DESK(&r)), MINDAVEHU_WRONG_LENGTH);
    b.flash_length++;
    EXPECT(filled(r.manager, 21, 0xEE) && filled(r.desk, 15, 0xEE));
    drop(&b), drop_reports(&r);
    b = make(64, 8, 3, 2), r = make_reports();
    EXPECT(open_box(&b) == 0 && back(&b, 3, 1) == 0);
    b.addresses[37] = 0x34, b.addresses[38] = 0x12;
    EXPECT(read_block(&b, 3) == 0 && manager_report(&b, &r) == 0 && desk_report(&b, &r) == 0 && reported(&r, 0, 3, 1, 0x1234));
    b.addresses[MINDAVEHU_ROW + 37] = 1;
    KEPT(&b, manager_report(&b, &r), MINDAVEHU_BAD_ADDRESSES);
    drop(&b), drop_reports(&r);
}

/* A limit of 1: the second write back has the first one's page copied, one primary write more; the same page again, a read and a write through copy nothing.
 * A limit of 2 after a read: the oldest by use is copied. */
static void limits(void)
{
    struct box b = make(64, 8, 3, 3);
    mindavehu_put(b.state, MINDAVEHU_T, 1);
    EXPECT(open_box(&b) == MINDAVEHU_SERVED && mindavehu_get(b.state, MINDAVEHU_T) == 1);
    EXPECT(back(&b, 0, 9) == 0 && says(&b, MINDAVEHU_NEW, 1, 0) && filled(b.disk, 64, 0));
    EXPECT(back(&b, 0, 9) == 0 && says(&b, MINDAVEHU_SAME, 0, 0) && filled(b.disk, 64, 0));
    EXPECT(back(&b, 1, 8) == 0 && says(&b, MINDAVEHU_NEW, 1, 1) && filled(b.disk, 64, 9) && filled(b.disk + 64, 64, 1));
    EXPECT(through(&b, 2, 7) == 0 && says(&b, MINDAVEHU_NEW, 1, 1) && filled(b.disk + 64, 64, 1));
    EXPECT(read_block(&b, 0) == 0 && says(&b, MINDAVEHU_HIT, 0, 0) && filled(b.block, 64, 9));
    EXPECT(flush(&b) == 0 && says(&b, MINDAVEHU_DONE, 0, 1) && filled(b.disk + 64, 64, 8) && counted(&b, 1, 1, 3, 3));
    drop(&b);
    b = make(64, 8, 3, 3);
    mindavehu_put(b.state, MINDAVEHU_T, 2);
    EXPECT(open_box(&b) == 0 && back(&b, 0, 9) == 0 && back(&b, 1, 8) == 0 && read_block(&b, 0) == 0 && counted(&b, 1, 1, 2, 0));
    EXPECT(back(&b, 2, 7) == 0 && says(&b, MINDAVEHU_NEW, 1, 1) && filled(b.disk, 64, 0) && filled(b.disk + 64, 64, 8));
    drop(&b);
}

/* Each call on a box is refused with this number and keeps every byte; a refused opening keeps the limit. */
static void all_refused(struct box *b, uint32_t number)
{
    struct reports r = make_reports();
    uint32_t page = 0;
    struct folder f = make_folder(b, 1, &page);
    KEPT(b, mindavehu_read(STATE(b), 0, MEMORY(b), BLOCK(b), ANSWER(b)), number);
    KEPT(b, mindavehu_write_through(STATE(b), 0, seat, MEMORY(b), BLOCK(b), ANSWER(b)), number);
    KEPT(b, mindavehu_write_back(STATE(b), 0, seat, MEMORY(b), BLOCK(b), ANSWER(b)), number);
    KEPT(b, mindavehu_write_invalidate(STATE(b), 0, seat, MEMORY(b), BLOCK(b), ANSWER(b)), number);
    KEPT(b, flush(b), number);
    KEPT(b, flush_some(b, 1), number);
    KEPT(b, look(b, 0), number);
    KEPT(b, manager_report(b, &r), number);
    KEPT(b, desk_report(b, &r), number);
    KEPT(b, read_folder(b, &f), number);
    EXPECT(filled(r.manager, 21, 0xEE) && filled(r.desk, 15, 0xEE) && filled(f.buffer, 64, 0xEE));
    drop_reports(&r), drop_folder(&f);
}

/* Limits that are not 1 to m, and a limit below the dirty addresses; 12 comes right after 1, and 13 between 8 and 9. */
static void limit_refusals(void)
{
    static const uint64_t wrong[] = {0, 4, 1025, (1ull << 32) + 1, UINT64_MAX};
    struct box b = make(64, 8, 3, 3);
    EXPECT(open_box(&b) == 0 && back(&b, 0, 9) == 0 && back(&b, 1, 8) == 0);
    for (size_t k = 0; k < sizeof wrong / sizeof *wrong; k++) {
        mindavehu_put(b.state, MINDAVEHU_T, wrong[k]);
        all_refused(&b, MINDAVEHU_BAD_LIMIT);
    }
    b.flash_length--;
    KEPT(&b, look(&b, 8), MINDAVEHU_BAD_LIMIT);
    b.flash_length++;
    mindavehu_put(b.state, MINDAVEHU_P, 0);
    KEPT(&b, look(&b, 8), MINDAVEHU_OUTSIDE);
    mindavehu_put(b.state, MINDAVEHU_P, 8);
    mindavehu_put(b.state, MINDAVEHU_T, 1);
    mindavehu_put(b.state, MINDAVEHU_READS, UINT64_MAX);
    all_refused(&b, MINDAVEHU_TOO_DIRTY);
    b.blocks[MINDAVEHU_ROW] ^= 1;
    KEPT(&b, flush(&b), MINDAVEHU_DIRTY_UNCACHED);
    b.blocks[MINDAVEHU_ROW] ^= 1;
    mindavehu_put(b.state, MINDAVEHU_READS, 0);
    mindavehu_put(b.state, MINDAVEHU_T, 2);
    EXPECT(look(&b, 0) == 0 && says(&b, MINDAVEHU_CACHE, 0, 64));
    mindavehu_put(b.state, MINDAVEHU_T, 4);
    EXPECT(open_box(&b) == MINDAVEHU_BAD_LIMIT && mindavehu_get(b.state, MINDAVEHU_T) == 4);
    EXPECT(mindavehu_get(b.state, MINDAVEHU_N) == 0 && labelled(&b, 0) && b.addresses[ROW_DIRTY] == 1);
    drop(&b);
}

/* Two runs with other seats: the desk sees the same, the manager does not. */
static void two_runs(void)
{
    struct box one = make(64, 8, 3, 2), two = make(64, 8, 3, 2), *boxes[2] = {&one, &two};
    struct reports first = make_reports(), second = make_reports(), *reports[2] = {&first, &second};
    for (size_t k = 0; k < 2; k++) {
        struct box *b = boxes[k];
        EXPECT(open_box(b) == 0);
        seat = k ? 300 : 7;
        EXPECT(back(b, 1, 9) == 0 && through(b, 2, 9) == 0 && back(b, 8, 9) == MINDAVEHU_NO_ADDRESS);
        seat = k ? 7 : 300;
        EXPECT(back(b, 1, 9) == 0 && invalidate(b, 4, 9) == 0 && read_block(b, 2) == 0);
        EXPECT(manager_report(b, reports[k]) == 0 && desk_report(b, reports[k]) == 0);
    }
    EXPECT(same(first.desk, second.desk, 15) && !same(first.manager, second.manager, 21));
    EXPECT(same(one.state, two.state, MINDAVEHU_STATE) && same(one.answer, two.answer, MINDAVEHU_ANSWER) && same(one.block, two.block, 64));
    EXPECT(same(one.disk, two.disk, one.disk_length) && same(one.flash, two.flash, one.flash_length) && same(one.blocks, two.blocks, one.blocks_length));
    seat = 7;
    drop(&one), drop(&two), drop_reports(&first), drop_reports(&second);
}

/* The same for a folder: the buffers of the box, the folder's buffer and its answer. */
#define FOLDER_KEPT(b, f, call, number)                                                             \
    do {                                                                                            \
        uint8_t *buffer = piece((f)->buffer_length + 1), answer[MINDAVEHU_MANY_ANSWER];              \
        memcpy(buffer, (f)->buffer, (f)->buffer_length);                                            \
        memcpy(answer, (f)->answer, sizeof answer);                                                 \
        KEPT(b, call, number);                                                                      \
        EXPECT(same(buffer, (f)->buffer, (f)->buffer_length) && same(answer, (f)->answer, sizeof answer)); \
        free(buffer);                                                                               \
    } while (0)

/* The refusals of a folder, from the last check to the first, each with those behind it. */
static void folder_refusals(void)
{
    uint32_t asked[65];
    for (uint32_t k = 0; k < 65; k++)
        asked[k] = k % 8;
    struct box b = make(64, 8, 3, 2);
    struct folder f = make_folder(&b, 64, asked), none = make_folder(&b, 0, asked), above = make_folder(&b, 65, asked);
    EXPECT(open_box(&b) == 0 && back(&b, 3, 1) == 0 && read_folder(&b, &f) == 0 && back(&b, 3, 1) == 0);
    mindavehu_put(b.state, MINDAVEHU_HITS, (1ull << 63) + 1);
    FOLDER_KEPT(&b, &f, read_folder(&b, &f), MINDAVEHU_COUNTER_FULL);
    b.blocks[MINDAVEHU_ROW] ^= 1;
    FOLDER_KEPT(&b, &f, read_folder(&b, &f), MINDAVEHU_DIRTY_UNCACHED);
    b.blocks[32] = 9;
    FOLDER_KEPT(&b, &f, read_folder(&b, &f), MINDAVEHU_BAD_BLOCKS);
    mindavehu_put(b.state, MINDAVEHU_N, 4);
    FOLDER_KEPT(&b, &f, read_folder(&b, &f), MINDAVEHU_BAD_ADDRESSES);
    f.asked[63] = 8, above.asked[64] = 8;
    FOLDER_KEPT(&b, &f, read_folder(&b, &f), MINDAVEHU_NO_ADDRESS);
    FOLDER_KEPT(&b, &none, read_folder(&b, &none), MINDAVEHU_BAD_COUNT);
    FOLDER_KEPT(&b, &above, read_folder(&b, &above), MINDAVEHU_BAD_COUNT);
    FOLDER_KEPT(&b, &above, mindavehu_read_many(STATE(&b), FOLDER(&above), MEMORY(&b), above.buffer, 64 * 64, above.answer, MINDAVEHU_MANY_ANSWER),
                MINDAVEHU_WRONG_LENGTH);
    FOLDER_KEPT(&b, &none, mindavehu_read_many(STATE(&b), FOLDER(&none), MEMORY(&b), none.buffer, 1, none.answer, MINDAVEHU_MANY_ANSWER),
                MINDAVEHU_WRONG_LENGTH);
    mindavehu_put(b.state, MINDAVEHU_M, 1025);
    FOLDER_KEPT(&b, &none, mindavehu_read_many(STATE(&b), FOLDER(&none), MEMORY(&b), none.buffer, 1, none.answer, MINDAVEHU_MANY_ANSWER),
                MINDAVEHU_OUTSIDE);
    FOLDER_KEPT(&b, &f, mindavehu_read_many(STATE(&b), FOLDER(&f), MEMORY(&b), f.buffer, f.buffer_length, f.answer, MINDAVEHU_ANSWER),
                MINDAVEHU_WRONG_LENGTH);
    FOLDER_KEPT(&b, &f, mindavehu_read_many(b.state, 72, FOLDER(&f), MEMORY(&b), INTO(&f)), MINDAVEHU_WRONG_LENGTH);
    drop(&b), drop_folder(&f), drop_folder(&none), drop_folder(&above);
}

/* An area for a box of three addresses and two blocks, its own piece of the heap: 28 + 64 + 5 x 40 bytes in five writes behind the header. */
#define AREA_LENGTH MINDAVEHU_AREA_LENGTH(3, 2)
static uint32_t save(struct box *b, uint8_t *area) { return mindavehu_save(STATE(b), MEMORY(b), area, AREA_LENGTH, ANSWER(b)); }
static uint32_t restore_from(struct box *b, uint8_t *area, size_t area_length, size_t lists_length)
{
    uint8_t *lists = piece(lists_length + (lists_length == 0));
    uint32_t refusal = mindavehu_restore(STATE(b), area, area_length, b->addresses, b->addresses_length, b->blocks, b->blocks_length, lists, lists_length);
    free(lists);
    return refusal;
}
static uint32_t restore(struct box *b, uint8_t *area) { return restore_from(b, area, AREA_LENGTH, 0); }

/* Whether the record in the state is zeros, and the counters are these four of one number. */
static int blank(const struct box *b, uint64_t counter)
{
    return filled(b->state, MINDAVEHU_READS, 0) && filled(b->state + MINDAVEHU_STATE_LABEL, MINDAVEHU_STATE - MINDAVEHU_STATE_LABEL, 0)
        && counted(b, counter, counter, counter, counter);
}

/* A box whose state and tables are lost: other bytes, with counters of one number. */
static void lose(struct box *b, uint64_t counter)
{
    memset(b->state, 0x5A, MINDAVEHU_STATE), memset(b->addresses, 0x5A, b->addresses_length), memset(b->blocks, 0x5A, b->blocks_length);
    for (size_t field = MINDAVEHU_READS; field <= MINDAVEHU_PRIMARY_WRITES; field += 8)
        mindavehu_put(b->state, field, counter);
}

/* The next Monday: a save flushes and makes an image, a restore gives the box back once, and its pages are hits at once. */
static void warm_start(void)
{
    struct box b = make(64, 8, 3, 2), twin = make(64, 8, 3, 2);
    uint8_t *area = piece(AREA_LENGTH), *image = piece(AREA_LENGTH), *end = area + MINDAVEHU_IMAGE_HEADER + MINDAVEHU_BODY_LENGTH(3, 2);
    EXPECT(MINDAVEHU_BODY_LENGTH(3, 2) == 292 && AREA_LENGTH == 64 + 320);
    memset(area, 0xDD, AREA_LENGTH);
    EXPECT(open_box(&b) == 0 && read_block(&b, 1) == 0 && back(&b, 5, 9) == 0);
    EXPECT(open_box(&twin) == 0 && read_block(&twin, 1) == 0 && back(&twin, 5, 9) == 0 && flush(&twin) == 0);
    EXPECT(save(&b, area) == MINDAVEHU_SERVED && says(&b, MINDAVEHU_DONE, 0, 1) && counted(&b, 1, 0, 2, 1) && filled(b.disk + 5 * 64, 64, 9));
    EXPECT(same(b.state, twin.state, MINDAVEHU_STATE) && same(b.addresses, twin.addresses, 120) && same(b.blocks, twin.blocks, 80));
    static const uint8_t header[9] = {'V', 'B', 'X', 1, 0, 36, 1, 0, 0};
    static const uint8_t numbers[28] = {0, 0, 0, 0, 64, 0, 0, 0, 8, 0, 0, 0, 3, 0, 0, 0, 2, 0, 0, 0, 2, 0, 0, 0, 3, 0, 0, 0};
    EXPECT(same(area, header, 9) && filled(area + 9, 55, 0) && same(area + 64, numbers, 28) && filled(area + 92, 64, 0x4F));
    EXPECT(same(area + 156, b.addresses, 120) && same(area + 276, b.blocks, 80) && filled(end, 28, 0));
    memcpy(image, area, AREA_LENGTH);
    lose(&b, 7);
    EXPECT(restore(&b, area) == MINDAVEHU_SERVED && counted(&b, 7, 7, 7, 7) && labelled(&b, 0x4F) && mindavehu_get(b.state, MINDAVEHU_N) == 2);
    EXPECT(mindavehu_get(b.state, MINDAVEHU_B) == 64 && mindavehu_get(b.state, MINDAVEHU_P) == 8 && mindavehu_get(b.state, MINDAVEHU_M) == 3);
    EXPECT(mindavehu_get(b.state, MINDAVEHU_D) == 2 && mindavehu_get(b.state, MINDAVEHU_T) == 3);
    EXPECT(same(b.addresses, twin.addresses, 120) && same(b.blocks, twin.blocks, 80));
    EXPECT(filled(area, 64, 0) && same(area + 64, image + 64, AREA_LENGTH - 64));
    EXPECT(read_block(&b, 5) == 0 && says(&b, MINDAVEHU_HIT, 0, 0) && filled(b.block, 64, 9) && read_block(&b, 1) == 0 && says(&b, MINDAVEHU_HIT, 0, 0));
    lose(&b, 8);
    EXPECT(restore(&b, area) == MINDAVEHU_NO_IMAGE && blank(&b, 8) && filled(b.addresses, 120, 0x5A) && filled(b.blocks, 80, 0x5A));
    drop(&b), drop(&twin), free(area), free(image);
}

/* A refused restore leaves a record of zeros and keeps all else, the area's header too. */
#define NO_RESTORE(b, area, call, number)                                                                                                   \
    do {                                                                                                                                    \
        uint8_t *kept_area = piece(AREA_LENGTH);                                                                                            \
        memcpy(kept_area, area, AREA_LENGTH);                                                                                               \
        lose(b, 6);                                                                                                                         \
        EXPECT((call) == (number));                                                                                                         \
        EXPECT(blank(b, 6) && filled((b)->addresses, (b)->addresses_length, 0x5A) && filled((b)->blocks, (b)->blocks_length, 0x5A));        \
        EXPECT(same(kept_area, area, AREA_LENGTH));                                                                                         \
        free(kept_area);                                                                                                                    \
    } while (0)

/* The refusals of a save, 14 after 9, and of a restore: 2, then 16, 14 and 15 before it. */
static void image_refusals(void)
{
    struct box b = make(64, 8, 3, 2), other = make(64, 8, 3, 3);
    uint8_t *area = piece(AREA_LENGTH), *kept_area = piece(AREA_LENGTH);
    memset(area, 0xDD, AREA_LENGTH), memcpy(kept_area, area, AREA_LENGTH);
    EXPECT(open_box(&b) == 0 && back(&b, 5, 9) == 0);
    KEPT(&b, mindavehu_save(STATE(&b), MEMORY(&b), area, AREA_LENGTH - 1, ANSWER(&b)), MINDAVEHU_NO_ROOM);
    KEPT(&b, mindavehu_save(STATE(&b), MEMORY(&b), area, AREA_LENGTH, b.answer, 16), MINDAVEHU_WRONG_LENGTH);
    mindavehu_put(b.state, MINDAVEHU_READS, (1ull << 63) + 1);
    KEPT(&b, mindavehu_save(STATE(&b), MEMORY(&b), area, 0, ANSWER(&b)), MINDAVEHU_COUNTER_FULL);
    mindavehu_put(b.state, MINDAVEHU_T, 0);
    KEPT(&b, save(&b, area), MINDAVEHU_BAD_LIMIT);
    EXPECT(same(area, kept_area, AREA_LENGTH) && filled(b.disk + 5 * 64, 64, 5));
    mindavehu_put(b.state, MINDAVEHU_T, 3), mindavehu_put(b.state, MINDAVEHU_READS, 0);
    EXPECT(save(&b, area) == MINDAVEHU_SERVED && filled(b.disk + 5 * 64, 64, 9));
    NO_RESTORE(&other, area, restore(&other, area), MINDAVEHU_WRONG_LENGTH);
    NO_RESTORE(&b, area, restore_from(&b, area, AREA_LENGTH, 1), MINDAVEHU_WRONG_LENGTH);
    KEPT(&b, mindavehu_restore(b.state, 136, area, AREA_LENGTH, b.addresses, 120, b.blocks, 80, b.block, 0), MINDAVEHU_WRONG_LENGTH);
    area[64 + 24] = 0;
    NO_RESTORE(&other, area, restore(&other, area), MINDAVEHU_BAD_IMAGE);
    area[64 + 24] = 3, area[64] = 1;
    NO_RESTORE(&b, area, restore(&b, area), MINDAVEHU_BAD_IMAGE);
    NO_RESTORE(&b, area, restore_from(&b, area, AREA_LENGTH - 1, 0), MINDAVEHU_NO_ROOM);
    area[3] = 2;
    NO_RESTORE(&b, area, restore_from(&b, area, AREA_LENGTH - 1, 0), MINDAVEHU_NO_IMAGE);
    area[3] = 1, area[64] = 0;
    NO_RESTORE(&b, area, restore_from(&b, area, 63, 0), MINDAVEHU_NO_IMAGE);
    EXPECT(restore(&b, area) == MINDAVEHU_SERVED && read_block(&b, 5) == 0 && says(&b, MINDAVEHU_HIT, 0, 0) && filled(b.block, 64, 9));
    drop(&b), drop(&other), free(area), free(kept_area);
}

int main(void)
{
    replay();
    saved_unchanged();
    sharing();
    in_parts();
    writes();
    folder();
    offices();
    labels();
    refusals();
    seats();
    report_refusals();
    limits();
    limit_refusals();
    two_runs();
    folder_refusals();
    warm_start();
    image_refusals();
    printf("week: %u facts hold\n", checks);
    return 0;
}
