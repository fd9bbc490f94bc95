/* The struct of the header beside the functions with all parameters: the same calls on two boxes leave the same bytes, answers and results. Then the lengths
 * by the macros, an exam question, and the texts of refusals and words.
 * Prints what it checked, or the line that failed. */
#include <stdio.h>
#include <stdlib.h>
#include <string.h>
#include "mindavehu.h"
#include "expect.h"

enum { B = 128, P = 16, M = 5, D = 3, T = 2, COUNT = 4, CALLS = 5000, KINDS = 12 };

/* The memory of a box, the bytes behind the state and the answers included. */
struct memory {
    uint8_t disk[MINDAVEHU_DISK_LENGTH(B, P)], flash[MINDAVEHU_FLASH_LENGTH(B, D)], addresses[MINDAVEHU_ADDRESSES_LENGTH(M)];
    uint8_t blocks[MINDAVEHU_BLOCKS_LENGTH(D)], block[MINDAVEHU_BLOCK_LENGTH(B)], buffer[MINDAVEHU_BUFFER_LENGTH(B, COUNT)];
    uint8_t state[MINDAVEHU_STATE], answer[MINDAVEHU_ANSWER], many[MINDAVEHU_MANY_ANSWER];
    uint8_t manager[MINDAVEHU_MANAGER_REPORT_LENGTH(M)], desk[MINDAVEHU_DESK_REPORT_LENGTH(M)], area[MINDAVEHU_AREA_LENGTH(M, D)];
};

static struct memory one, other;
static struct mindavehu_box box;
static const uint8_t label[MINDAVEHU_LABEL] = "Office 7";
/* Seats above 255 in the manager's reports. */
static unsigned seen;

#define STATE other.state, sizeof other.state
#define MEMORY other.disk, sizeof other.disk, other.flash, sizeof other.flash, other.addresses, sizeof other.addresses, other.blocks, sizeof other.blocks
#define BLOCK other.block, length
#define ANSWER other.answer, sizeof other.answer

static unsigned random_below(unsigned bound)
{
    static uint32_t seed = 20;
    seed = seed * 1664525 + 1013904223;
    return (seed >> 12) % bound;
}

static void expect_same(void)
{
    memcpy(one.state, box.state, sizeof one.state);
    memcpy(one.answer, box.answer, sizeof one.answer);
    memcpy(one.many, box.many, sizeof one.many);
    EXPECT(memcmp(&one, &other, sizeof one) == 0);
}

/* A save and a restore both ways, into tables of other bytes. Before the save a restore finds no image; the state, then a record of zeros, is put back. */
static uint32_t call_restore(void)
{
    static struct memory kept;
    static struct mindavehu_box kept_box;
    uint8_t no_lists = 0;
    kept = other, kept_box = box;
    memset(one.area, 0, MINDAVEHU_IMAGE_HEADER), memset(other.area, 0, MINDAVEHU_IMAGE_HEADER);
    for (int saved = 0; saved < 2; saved++) {
        if (saved) {
            EXPECT(mindavehu_box_save(&box, one.area, sizeof one.area) == MINDAVEHU_SERVED);
            EXPECT(mindavehu_save(STATE, MEMORY, other.area, sizeof other.area, ANSWER) == MINDAVEHU_SERVED);
            expect_same();
            memset(one.addresses, 5, sizeof one.addresses), memset(one.blocks, 5, sizeof one.blocks);
            memset(other.addresses, 5, sizeof other.addresses), memset(other.blocks, 5, sizeof other.blocks);
        }
        uint32_t first = mindavehu_box_restore(&box, one.area, sizeof one.area);
        uint32_t second = mindavehu_restore(STATE, other.area, sizeof other.area, other.addresses, sizeof other.addresses, other.blocks, sizeof other.blocks,
                                            &no_lists, 0);
        EXPECT(first == (saved ? MINDAVEHU_SERVED : MINDAVEHU_NO_IMAGE) && first == second);
        expect_same();
        EXPECT(mindavehu_get(box.state, MINDAVEHU_M) == (saved ? M : 0));
        if (!saved)
            memcpy(other.state, kept.state, sizeof other.state), box = kept_box;
    }
    EXPECT(mindavehu_get(box.state, MINDAVEHU_READS) == mindavehu_get(kept.state, MINDAVEHU_READS));
    return MINDAVEHU_SERVED;
}

/* One call both ways. Gives its result. Now and then an address or a length is not right. */
static uint32_t call(unsigned kind)
{
    uint32_t a = random_below(P + 1), asked[COUNT], first, second;
    uint16_t seat = (uint16_t)random_below(65536);
    size_t length = B - (random_below(20) == 0), most = random_below(3);
    memset(one.block, (int)random_below(6), B);
    memcpy(other.block, one.block, B);
    for (int k = 0; k < COUNT; k++)
        asked[k] = random_below(P);
    switch (kind) {
    case 0:
        first = mindavehu_box_read(&box, a, one.block, length), second = mindavehu_read(STATE, a, MEMORY, BLOCK, ANSWER);
        break;
    case 1:
        first = mindavehu_box_write_through(&box, a, seat, one.block, length), second = mindavehu_write_through(STATE, a, seat, MEMORY, BLOCK, ANSWER);
        break;
    case 2:
        first = mindavehu_box_write_back(&box, a, seat, one.block, length), second = mindavehu_write_back(STATE, a, seat, MEMORY, BLOCK, ANSWER);
        break;
    case 3:
        first = mindavehu_box_write_invalidate(&box, a, seat, one.block, length);
        second = mindavehu_write_invalidate(STATE, a, seat, MEMORY, BLOCK, ANSWER);
        break;
    case 4:
        first = mindavehu_box_look(&box, a), second = mindavehu_look(STATE, a, MEMORY, ANSWER);
        break;
    case 5:
        first = mindavehu_box_flush_some(&box, most), second = mindavehu_flush_some(STATE, most, MEMORY, ANSWER);
        break;
    case 6:
        first = mindavehu_box_flush(&box), second = mindavehu_flush(STATE, MEMORY, ANSWER);
        break;
    case 7:
        first = mindavehu_box_manager_report(&box, one.manager, sizeof one.manager - (length < B));
        second = mindavehu_manager_report(STATE, MEMORY, other.manager, sizeof other.manager - (length < B));
        break;
    case 8:
        first = mindavehu_box_desk_report(&box, one.desk, sizeof one.desk - (length < B));
        second = mindavehu_desk_report(STATE, MEMORY, other.desk, sizeof other.desk - (length < B));
        break;
    case 9:
        first = mindavehu_box_save(&box, one.area, sizeof one.area - (length < B));
        second = mindavehu_save(STATE, MEMORY, other.area, sizeof other.area - (length < B), ANSWER);
        break;
    case 10:
        return call_restore();
    default:
        first = mindavehu_box_read_many(&box, asked, COUNT, one.buffer, sizeof one.buffer);
        second = mindavehu_read_many(STATE, asked, COUNT, MEMORY, other.buffer, sizeof other.buffer, other.many, sizeof other.many);
    }
    EXPECT(first == second);
    expect_same();
    for (size_t k = 0; k < M; k++)
        seen += mindavehu_report_seat(one.manager + k * MINDAVEHU_MANAGER_PART) > 255;
    return first;
}

static void the_same_calls(void)
{
    static const unsigned numbers[] = {B, P, M, D};
    unsigned served[KINDS] = {0}, refused = 0;
    for (size_t k = 0; k < P; k++)
        memset(one.disk + k * B, (int)k % 6, B);
    memcpy(other.disk, one.disk, sizeof other.disk);
    mindavehu_box_lend(&box, one.disk, sizeof one.disk, one.flash, sizeof one.flash, one.addresses, sizeof one.addresses, one.blocks, sizeof one.blocks);
    for (size_t k = 0; k < 4; k++)
        mindavehu_put(other.state, 8 * k, numbers[k]);
    mindavehu_put(other.state, MINDAVEHU_T, T);
    EXPECT(mindavehu_box_open(&box, label, sizeof label, B, P, M, D, T) == MINDAVEHU_SERVED);
    EXPECT(mindavehu_open(STATE, label, sizeof label, MEMORY) == MINDAVEHU_SERVED);
    EXPECT(memcmp(box.state + MINDAVEHU_STATE_LABEL, label, sizeof label) == 0);
    expect_same();
    for (int k = 0; k < CALLS; k++) {
        unsigned kind = random_below(KINDS);
        if (call(kind) == MINDAVEHU_SERVED)
            served[kind]++;
        else
            refused++;
    }
    for (unsigned kind = 0; kind < KINDS; kind++)
        EXPECT(served[kind] > CALLS / 25);
    EXPECT(seen);
    EXPECT(refused > CALLS / 40);
}

/* A box opens with the lengths of the macros, and with no other. */
static void the_lengths(void)
{
    static const struct { size_t B, P, m, d; } boxes[] = {{64, 1, 1, 1}, {64, 9, 4, 3}, {1024, 40, 30, 20}, {4096, 16, 1024, 256}};
    static uint8_t bytes[5][4096 * 256 + 1];
    for (size_t k = 0; k < sizeof boxes / sizeof *boxes; k++) {
        size_t lengths[5] = {MINDAVEHU_DISK_LENGTH(boxes[k].B, boxes[k].P), MINDAVEHU_FLASH_LENGTH(boxes[k].B, boxes[k].d),
                             MINDAVEHU_ADDRESSES_LENGTH(boxes[k].m), MINDAVEHU_BLOCKS_LENGTH(boxes[k].d), MINDAVEHU_LABEL};
        /* 5: all are right. */
        for (int wrong = 0; wrong <= 5; wrong++)
            for (int more = 0; more < 2; more++) {
                size_t given[5];
                for (int i = 0; i < 5; i++)
                    given[i] = lengths[i] + (i == wrong ? (more ? (size_t)1 : (size_t)-1) : 0);
                mindavehu_box_lend(&box, bytes[0], given[0], bytes[1], given[1], bytes[2], given[2], bytes[3], given[3]);
                uint32_t refusal = mindavehu_box_open(&box, bytes[4], given[4], boxes[k].B, boxes[k].P, boxes[k].m, boxes[k].d, boxes[k].m);
                EXPECT(refusal == (wrong == 5 ? MINDAVEHU_SERVED : MINDAVEHU_WRONG_LENGTH));
            }
    }
    EXPECT(MINDAVEHU_DISK_LENGTH(4096, 65536) == (size_t)4096 * 65536);
    EXPECT(MINDAVEHU_BODY_LENGTH(1, 1) == 172 && MINDAVEHU_AREA_LENGTH(1, 1) == 64 + 192);
    EXPECT(MINDAVEHU_BODY_LENGTH(1024, 256) == 51292 && MINDAVEHU_AREA_LENGTH(1024, 256) == 64 + 51328);
    /* A body is never a multiple of 64 bytes, so there is a fill, and it is less than a write. */
    for (size_t m = 1; m < 100; m++) {
        size_t fill = MINDAVEHU_AREA_LENGTH(m, 7) - MINDAVEHU_IMAGE_HEADER - MINDAVEHU_BODY_LENGTH(m, 7);
        EXPECT(MINDAVEHU_AREA_LENGTH(m, 7) % MINDAVEHU_IMAGE_WRITE == 0 && fill > 0 && fill < MINDAVEHU_IMAGE_WRITE);
    }
}

/* Two addresses, one of each held: of the four lists of two reads two have a hit. A refused question leaves zeros, one with other lengths nothing. */
static void an_exam_question(void)
{
    static uint8_t bytes[2 * MINDAVEHU_SCORES_B], counts[MINDAVEHU_COUNTS + 1];
    bytes[0] = 1;
    memset(counts, 7, sizeof counts);
    EXPECT(mindavehu_scores(64, 2, 1, 1, 1, label, sizeof label, bytes, sizeof bytes, 2, counts, MINDAVEHU_COUNTS) == MINDAVEHU_SERVED);
    for (size_t h = 0; h <= MINDAVEHU_SCORES_K; h++)
        EXPECT(mindavehu_get(counts, 8 * h) == (h < 2 ? 2 : 0));
    EXPECT(mindavehu_scores(64, 2, 1, 1, 1, label, sizeof label, bytes, sizeof bytes, 9, counts, MINDAVEHU_COUNTS) == MINDAVEHU_TOO_LARGE);
    EXPECT(mindavehu_get(counts, 0) == 0 && counts[MINDAVEHU_COUNTS] == 7);
    memset(counts, 7, sizeof counts);
    EXPECT(mindavehu_scores(64, 2, 1, 1, 1, label, sizeof label, bytes, sizeof bytes, 2, counts, sizeof counts) == MINDAVEHU_WRONG_LENGTH);
    EXPECT(mindavehu_scores(64, 2, 1, 1, 0, label, sizeof label, bytes, sizeof bytes, 9, counts, sizeof counts) == MINDAVEHU_BAD_LIMIT);
    EXPECT(mindavehu_scores(64, 2, 1, 1, 2, label, sizeof label, bytes, sizeof bytes, 2, counts, sizeof counts) == MINDAVEHU_BAD_LIMIT);
    EXPECT(mindavehu_scores(64, 2, 0, 1, 1, label, sizeof label, bytes, sizeof bytes, 2, counts, sizeof counts) == MINDAVEHU_OUTSIDE);
    for (size_t k = 0; k < sizeof counts; k++)
        EXPECT(counts[k] == 7);
}

static void the_texts(void)
{
    static const char *const words[] = {"hit", "miss", "same", "new", "cache", "disk", "done"};
    for (unsigned k = 0; k < 7; k++)
        EXPECT(strcmp(mindavehu_word_name(k + 1), words[k]) == 0);
    EXPECT(strcmp(mindavehu_word_name(0), "no word has this number") == 0 && strcmp(mindavehu_word_name(8), "no word has this number") == 0);
    static const uint32_t refusals[] = {0, 1, 2, 3, 4, 5, 6, 7, 8, 9, 10, MINDAVEHU_BAD_LIMIT, MINDAVEHU_TOO_DIRTY, MINDAVEHU_NO_ROOM, MINDAVEHU_NO_IMAGE,
                                        MINDAVEHU_BAD_IMAGE, MINDAVEHU_TOO_LARGE, 11};
    for (size_t k = 0; k < 17; k++)
        for (size_t i = 0; i < 18; i++)
            EXPECT((strcmp(mindavehu_refusal_text(refusals[k]), mindavehu_refusal_text(refusals[i])) == 0) == (k == i));
    EXPECT(strcmp(mindavehu_refusal_text(MINDAVEHU_SERVED), "served") == 0);
    EXPECT(strcmp(mindavehu_refusal_text(MINDAVEHU_NO_ADDRESS), "the address is P or more") == 0);
    EXPECT(strcmp(mindavehu_refusal_text(MINDAVEHU_BAD_LIMIT), "the limit t is not 1 to m") == 0);
    EXPECT(strcmp(mindavehu_refusal_text(MINDAVEHU_TOO_DIRTY), "more than t addresses are dirty") == 0);
    EXPECT(MINDAVEHU_NO_ROOM == 14 && MINDAVEHU_NO_IMAGE == 15 && MINDAVEHU_BAD_IMAGE == 16);
    EXPECT(strcmp(mindavehu_refusal_text(11), "no refusal has this number") == 0);
}

int main(void)
{
    the_same_calls();
    the_lengths();
    an_exam_question();
    the_texts();
    printf("box: %d calls by the struct and by all parameters the same, lengths, an exam question and texts: %u checks\n", CALLS, checks);
    return 0;
}
