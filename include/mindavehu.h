/* Mindavehu: a deduplicating flash cache with D-LRU replacement, in memory that the caller lends.
 *
 * Link with libservice.a (`rt lib` in crates/service), which an installed tree has as libmindavehu.a. The library keeps nothing between calls, allocates
 * nothing and reads no clock: whatever a call needs and leaves is in the buffers below. Each call is proved to do what documents 01 and 02 say, on any bytes.
 *
 * The box: B bytes a block (64, 128, 256, 512, 1024, 2048 or 4096), P disk blocks (1 to 65536), at most m addresses held (1 to 1024),
 * d cached blocks (1 to 256), at most t addresses dirty after a call (1 to m): the limit. n is the number of addresses held now. An address is dirty while
 * what was written back to it is only in the flash. Where a write back leaves more than t dirty, the oldest of them is copied to the disk and is clean then;
 * a limit of m copies nothing for its sake. From an opening on, and until a 9, what is read, and whether it is a hit, is as without a limit.
 *
 * The buffers. Each is given as a pointer and a length in bytes:
 *   state      144            B, P, m, d, n, reads, hits, flash writes, primary writes: 8 bytes each, little-endian; then the label; then t, as the others
 *   disk       P x B          block k starts at byte k x B
 *   flash      d x B          likewise
 *   addresses  m x 40         the address table; the library's own layout
 *   blocks     d x 40         the block table; the library's own layout
 *   block      B              the one block that a read fills or a write takes
 *   answer     24             the word, the flash writes and the primary writes: 8 bytes each, little-endian
 *                             (a look: the word, the byte where the part starts, the part's length)
 *   report     m x 7 or m x 5 the manager's report or the desk's: a part of 7 or 5 bytes for each held address, then zeros
 *   area       see below      where a save puts the image of a box, and a restore takes it from: MINDAVEHU_AREA_LENGTH(m, d) or more
 *   lists      0              a restore's alone; no box of this library has lists
 * for an opening, beside the state, the disk, the flash and the tables:
 *   label      64             the office's label, any bytes: a served opening puts it into the state, from which all other calls take it
 * and for the one call that reads a list of addresses, in place of the block and of that answer:
 *   asked      count          the addresses, 1 to 64 of them; this length alone is a number of uint32_t, not of bytes
 *   buffer     count x B      the blocks read: block i of it is that at asked[i]
 *   answer     32             the hits, the flash writes, the primary writes and the fetches: 8 bytes each, little-endian
 * The call for an exam question takes no box: B, P, m, d and t as numbers, the label and the disk, and
 *   counts     72             how many lists have 0, 1, up to 8 hits: 8 bytes each, little-endian
 *
 * The result of each function is the number of a refusal, or MINDAVEHU_SERVED. A refused call changes no buffer, but for a refused
 * opening, which writes n = 0 and a label of zeros into the state, a refused restore, which writes zeros into all of the state but its counters, and a
 * refused exam question, which writes nine counts of 0. A state that is not 144 bytes, or an answer that is not 24 (of the call for a list: not 32), gives
 * MINDAVEHU_WRONG_LENGTH before anything else is looked at, and nothing at all is changed.
 * Where several refusals apply, the first of 1, 12, 2, 10, 3, 6, 7, 8, 13, 9, 14 is told. Only the call for a list has 10, only a save has 14 here. Flush
 * and save have no 3, look no 9, a report neither, opening only 1, 12 and 2, an exam question only 1, 12, 2 and 17. Of a restore the first of 15, 14, 16, 2
 * is told.
 *
 * Images. A save puts what a box is beside its disk and its flash into the area, and a restore takes it back, so that a box need not start empty. An image
 * is a header of 64 bytes: VBX, then 1 in 2 bytes, the length L of the body in 4, and 55 zeros; then the body: 0, B, P, m, d, n, t in 4 bytes each, the
 * label, the address table and the block table, L = 28 + 64 + 40 x m + 40 x d; then zeros up to a multiple of 64 bytes. All numbers are little-endian. The
 * counters are no part of it: a caller who wants to go on counting keeps them. Whoever may not see the seats is not shown an area either.
 *
 * Seats. Each write is given the number of the seat that makes it, and a held address has the number of the seat that wrote it last; 0 where a read has
 * brought it and no seat has written it since. The office manager may be shown the manager's report, which has the seats. The desk may be shown the desk's
 * report and every answer, block and counter: nothing of these depends on a seat. Two runs from one box, with the same calls but other seats, refused calls
 * included, give the desk the same. The address table has the seats too, so whoever may not see them is not shown that either.
 *
 * The caller's duties, which no call can check:
 *   - each pointer is to that many bytes (asked: to that many uint32_t), readable, and writable where it is not const; none is NULL, even at
 *     length 0;
 *   - the buffers of one call do not overlap, unless both are const (so the label of an opening is not that in its own state);
 *   - nobody else reads or writes them while a call runs (a look and a report only read all but what they answer, so these may run beside each other);
 *   - between calls the buffers are kept as they were left. Other bytes do no harm to the program: a damaged table is refused with
 *     6, 7, 8 or 13, and sound tables of another history are served as what they say.
 * The fingerprint of a block is SHA-256 over the box's label followed by the block. Blocks are told apart by it alone: two blocks with one fingerprint
 * are taken for the same block. Under different labels equal blocks have unrelated fingerprints; where that is not wanted, a label of zeros will do.
 *
 * The header is C99. A call needs at most MINDAVEHU_STACK bytes of stack, beside the lent buffers.
 *
 * Every function below takes each buffer with its length. `struct mindavehu_box` and the functions over it (mindavehu_box_read and so on) pass them for the
 * caller. A complete program:
 *
 *     #include <stdio.h>
 *     #include <string.h>
 *     #include "mindavehu.h"
 *
 *     enum { B = 64, P = 8, M = 3, D = 2, T = 1 };
 *     static uint8_t disk[MINDAVEHU_DISK_LENGTH(B, P)], flash[MINDAVEHU_FLASH_LENGTH(B, D)], block[MINDAVEHU_BLOCK_LENGTH(B)];
 *     static uint8_t addresses[MINDAVEHU_ADDRESSES_LENGTH(M)], blocks[MINDAVEHU_BLOCKS_LENGTH(D)];
 *     static uint8_t manager[MINDAVEHU_MANAGER_REPORT_LENGTH(M)], desk[MINDAVEHU_DESK_REPORT_LENGTH(M)];
 *     static const uint8_t label[MINDAVEHU_LABEL] = "Office 7";
 *
 *     int main(void)
 *     {
 *         struct mindavehu_box box;
 *         mindavehu_box_lend(&box, disk, sizeof disk, flash, sizeof flash, addresses, sizeof addresses, blocks, sizeof blocks);
 *         if (mindavehu_box_open(&box, label, sizeof label, B, P, M, D, T) != MINDAVEHU_SERVED)
 *             return 1;
 *         memset(block, 7, sizeof block);
 *         if (mindavehu_box_write_back(&box, 5, 17, block, sizeof block) != MINDAVEHU_SERVED)
 *             return 1;
 *         memset(block, 0, sizeof block);
 *         if (mindavehu_box_read(&box, 5, block, sizeof block) != MINDAVEHU_SERVED)
 *             return 1;
 *         printf("%s, byte %d\n", mindavehu_word_name(mindavehu_get(box.answer, MINDAVEHU_WORD)), block[0]);
 *         printf("%s\n", mindavehu_refusal_text(mindavehu_box_read(&box, P, block, sizeof block)));
 *         if (mindavehu_box_manager_report(&box, manager, sizeof manager) != MINDAVEHU_SERVED
 *             || mindavehu_box_desk_report(&box, desk, sizeof desk) != MINDAVEHU_SERVED)
 *             return 1;
 *         printf("the manager sees address %u, dirty %d, seat %u\n", (unsigned)mindavehu_report_address(manager),
 *                manager[MINDAVEHU_REPORT_DIRTY], mindavehu_report_seat(manager));
 *         printf("the desk sees address %u, dirty %d\n", (unsigned)mindavehu_report_address(desk), desk[MINDAVEHU_REPORT_DIRTY]);
 *         return mindavehu_box_flush(&box) != MINDAVEHU_SERVED;
 *     }
 *
 * It prints
 *
 *     hit, byte 7
 *     the address is P or more
 *     the manager sees address 5, dirty 1, seat 17
 *     the desk sees address 5, dirty 1
 *
 * The same box without the struct, and a folder of three pages, one of them twice, opened with one call:
 *
 *     #include <stdio.h>
 *     #include <string.h>
 *     #include "mindavehu.h"
 *
 *     static uint8_t state[MINDAVEHU_STATE], answer[MINDAVEHU_ANSWER], many[MINDAVEHU_MANY_ANSWER];
 *     static const uint8_t label[MINDAVEHU_LABEL] = "Office 7";
 *     static uint8_t disk[8 * 64], flash[2 * 64], addresses[3 * MINDAVEHU_ROW], blocks[2 * MINDAVEHU_ROW], block[64], buffer[4 * 64];
 *     static const uint32_t asked[4] = {5, 2, 6, 2};
 *
 *     int main(void)
 *     {
 *         mindavehu_put(state, MINDAVEHU_B, 64);
 *         mindavehu_put(state, MINDAVEHU_P, 8);
 *         mindavehu_put(state, MINDAVEHU_M, 3);
 *         mindavehu_put(state, MINDAVEHU_D, 2);
 *         mindavehu_put(state, MINDAVEHU_T, 3);
 *         if (mindavehu_open(state, sizeof state, label, sizeof label, disk, sizeof disk, flash, sizeof flash,
 *                            addresses, sizeof addresses, blocks, sizeof blocks) != MINDAVEHU_SERVED)
 *             return 1;
 *         memset(block, 7, sizeof block);
 *         if (mindavehu_write_back(state, sizeof state, 5, 17, disk, sizeof disk, flash, sizeof flash, addresses, sizeof addresses,
 *                                  blocks, sizeof blocks, block, sizeof block, answer, sizeof answer) != MINDAVEHU_SERVED)
 *             return 1;
 *         if (mindavehu_read_many(state, sizeof state, asked, 4, disk, sizeof disk, flash, sizeof flash, addresses, sizeof addresses,
 *                                 blocks, sizeof blocks, buffer, sizeof buffer, many, sizeof many) != MINDAVEHU_SERVED)
 *             return 1;
 *         printf("hits %d, fetches %d, byte %d\n", (int)mindavehu_get(many, MINDAVEHU_MANY_HITS),
 *                (int)mindavehu_get(many, MINDAVEHU_FETCHES), buffer[0]);
 *         return mindavehu_flush(state, sizeof state, disk, sizeof disk, flash, sizeof flash, addresses, sizeof addresses,
 *                                blocks, sizeof blocks, answer, sizeof answer) != MINDAVEHU_SERVED;
 *     }
 *
 * It prints
 *
 *     hits 2, fetches 2, byte 7
 *
 * A box that is saved to a file and started from it. Here disk and flash stay in memory; where they are files as well, they are kept with the area:
 *
 *     #include <stdio.h>
 *     #include <string.h>
 *     #include "mindavehu.h"
 *
 *     enum { B = 64, P = 8, M = 3, D = 2, T = 3 };
 *     static uint8_t disk[MINDAVEHU_DISK_LENGTH(B, P)], flash[MINDAVEHU_FLASH_LENGTH(B, D)], block[MINDAVEHU_BLOCK_LENGTH(B)];
 *     static uint8_t addresses[MINDAVEHU_ADDRESSES_LENGTH(M)], blocks[MINDAVEHU_BLOCKS_LENGTH(D)], area[MINDAVEHU_AREA_LENGTH(M, D)];
 *     static const uint8_t label[MINDAVEHU_LABEL] = "Office 7";
 *
 *     static int friday(FILE *file)
 *     {
 *         struct mindavehu_box box;
 *         mindavehu_box_lend(&box, disk, sizeof disk, flash, sizeof flash, addresses, sizeof addresses, blocks, sizeof blocks);
 *         if (mindavehu_box_open(&box, label, sizeof label, B, P, M, D, T) != MINDAVEHU_SERVED)
 *             return 0;
 *         memset(block, 7, sizeof block);
 *         if (mindavehu_box_write_back(&box, 5, 17, block, sizeof block) != MINDAVEHU_SERVED)
 *             return 0;
 *         return mindavehu_box_save(&box, area, sizeof area) == MINDAVEHU_SERVED && fwrite(area, sizeof area, 1, file) == 1;
 *     }
 *
 *     static int monday(FILE *file)
 *     {
 *         struct mindavehu_box box;
 *         mindavehu_box_lend(&box, disk, sizeof disk, flash, sizeof flash, addresses, sizeof addresses, blocks, sizeof blocks);
 *         if (fread(area, sizeof area, 1, file) != 1 || mindavehu_box_restore(&box, area, sizeof area) != MINDAVEHU_SERVED)
 *             return 0;
 *         // The area's header is cleared now; in the file too, before the first call, or the image would be found a second time.
 *         rewind(file);
 *         if (fwrite(area, MINDAVEHU_IMAGE_HEADER, 1, file) != 1 || fflush(file) != 0)
 *             return 0;
 *         return mindavehu_box_read(&box, 5, block, sizeof block) == MINDAVEHU_SERVED
 *             && printf("%s, byte %d\n", mindavehu_word_name(mindavehu_get(box.answer, MINDAVEHU_WORD)), block[0]) > 0;
 *     }
 *
 *     int main(void)
 *     {
 *         FILE *file = tmpfile();
 *         if (file == NULL || !friday(file))
 *             return 1;
 *         memset(addresses, 1, sizeof addresses);
 *         memset(blocks, 1, sizeof blocks);
 *         memset(area, 1, sizeof area);
 *         memset(block, 1, sizeof block);
 *         rewind(file);
 *         return !monday(file);
 *     }
 *
 * It prints
 *
 *     hit, byte 7
 */
#ifndef MINDAVEHU_H
#define MINDAVEHU_H

#include <stddef.h>
#include <stdint.h>

#ifdef __cplusplus
extern "C" {
#endif

/* The version of this header and of the library that belongs to it. Version 1 had a state of 72 bytes without a label, and opened a box without one; in
 * version 2 the layout of the state is another: the label follows the nine numbers; version 2.1 has mindavehu_scores besides. In version 3 each of the
 * three writes takes a seat behind its address, the address table keeps the seats in two bytes of a row that were zero before, and there are two reports.
 * Boxes of version 2 are boxes of version 3 in which every seat is 0. In version 4 the state has the limit behind the label, and mindavehu_box_open and
 * mindavehu_scores take it behind d. A box of version 3, with m behind its 136 bytes, is one of version 4. Version 4.1 has mindavehu_save and
 * mindavehu_restore besides, and changes nothing of the calls that were there. */
#define MINDAVEHU_VERSION "4.1.0"
#define MINDAVEHU_VERSION_MAJOR 4
#define MINDAVEHU_VERSION_MINOR 1
#define MINDAVEHU_VERSION_PATCH 0

/* The most bytes of stack that a call needs. */
#define MINDAVEHU_STACK 32768

/* Lengths in bytes: of the state, of a label, of an answer, of the answer of the call for a list, of the counts of an exam question, of a row of either
 * table, of the part of each held address in the manager's report and in the desk's, of an image's header and of each write of a save. */
#define MINDAVEHU_STATE 144
#define MINDAVEHU_LABEL 64
#define MINDAVEHU_ANSWER 24
#define MINDAVEHU_MANY_ANSWER 32
#define MINDAVEHU_COUNTS 72
#define MINDAVEHU_ROW 40
#define MINDAVEHU_MANAGER_PART 7
#define MINDAVEHU_DESK_PART 5
#define MINDAVEHU_IMAGE_HEADER 64
#define MINDAVEHU_IMAGE_WRITE 64

/* The length in bytes of each other buffer, by the box's numbers and the number of addresses in a list. */
#define MINDAVEHU_DISK_LENGTH(B, P) ((size_t)(P) * (size_t)(B))
#define MINDAVEHU_FLASH_LENGTH(B, d) ((size_t)(d) * (size_t)(B))
#define MINDAVEHU_ADDRESSES_LENGTH(m) ((size_t)(m) * MINDAVEHU_ROW)
#define MINDAVEHU_BLOCKS_LENGTH(d) ((size_t)(d) * MINDAVEHU_ROW)
#define MINDAVEHU_BLOCK_LENGTH(B) ((size_t)(B))
#define MINDAVEHU_BUFFER_LENGTH(B, count) ((size_t)(count) * (size_t)(B))
#define MINDAVEHU_MANAGER_REPORT_LENGTH(m) ((size_t)(m) * MINDAVEHU_MANAGER_PART)
#define MINDAVEHU_DESK_REPORT_LENGTH(m) ((size_t)(m) * MINDAVEHU_DESK_PART)

/* The length of an image's body: seven numbers of 4 bytes, the label and both tables; and of the area that has room for header, body and fill. */
#define MINDAVEHU_BODY_LENGTH(m, d) (28 + MINDAVEHU_LABEL + MINDAVEHU_ADDRESSES_LENGTH(m) + MINDAVEHU_BLOCKS_LENGTH(d))
#define MINDAVEHU_AREA_LENGTH(m, d) \
    (MINDAVEHU_IMAGE_HEADER + (MINDAVEHU_BODY_LENGTH(m, d) + MINDAVEHU_IMAGE_WRITE - 1) / MINDAVEHU_IMAGE_WRITE * MINDAVEHU_IMAGE_WRITE)

/* The most addresses in a list. */
#define MINDAVEHU_MANY_MOST 64

/* What an exam question takes: B, the most P and the most reads k. */
#define MINDAVEHU_SCORES_B 64
#define MINDAVEHU_SCORES_P 4
#define MINDAVEHU_SCORES_K 8

/* What a function returns. (4 and 5 are the replay program's own.) */
#define MINDAVEHU_SERVED 0
#define MINDAVEHU_OUTSIDE 1          /* B, P, m or d outside its set */
#define MINDAVEHU_WRONG_LENGTH 2     /* a length is not the one above */
#define MINDAVEHU_NO_ADDRESS 3       /* the address is P or more; of a list: an address is */
#define MINDAVEHU_BAD_ADDRESSES 6    /* the address table is unsound */
#define MINDAVEHU_BAD_BLOCKS 7       /* the block table is unsound */
#define MINDAVEHU_DIRTY_UNCACHED 8   /* a dirty address without its block */
#define MINDAVEHU_COUNTER_FULL 9     /* a counter above 2 to the power 63 */
#define MINDAVEHU_BAD_COUNT 10       /* a list of no address, or of more than 64 */
#define MINDAVEHU_BAD_LIMIT 12       /* the limit t is not 1 to m */
#define MINDAVEHU_TOO_DIRTY 13       /* more than t addresses are dirty */
#define MINDAVEHU_NO_ROOM 14         /* the area is too short for header, body and fill */
#define MINDAVEHU_NO_IMAGE 15        /* the area does not start with the header of an image of version 1 */
#define MINDAVEHU_BAD_IMAGE 16       /* the image's body is not of a box that this library runs, or that box would be refused */
#define MINDAVEHU_TOO_LARGE 17       /* an exam question: P is above 4, B is not 64 or k is above 8 */

/* The words of an answer. */
#define MINDAVEHU_HIT 1    /* a read: the block was in the cache */
#define MINDAVEHU_MISS 2   /* a read: it came from the disk */
#define MINDAVEHU_SAME 3   /* a write: a block with this fingerprint was cached before */
#define MINDAVEHU_NEW 4    /* a write: none was */
#define MINDAVEHU_CACHE 5  /* a look: the part is of the flash */
#define MINDAVEHU_DISK 6   /* a look: the part is of the disk */
#define MINDAVEHU_DONE 7   /* a flush, whole or in parts, and a save */

/* The fields of the state, by the byte where each starts. STATE_LABEL is no number but the MINDAVEHU_LABEL bytes of the label. */
#define MINDAVEHU_B 0
#define MINDAVEHU_P 8
#define MINDAVEHU_M 16
#define MINDAVEHU_D 24
#define MINDAVEHU_N 32
#define MINDAVEHU_READS 40
#define MINDAVEHU_HITS 48
#define MINDAVEHU_FLASH_WRITES 56
#define MINDAVEHU_PRIMARY_WRITES 64
#define MINDAVEHU_STATE_LABEL 72
#define MINDAVEHU_T 136

/* The fields of an answer; of a look's, START and LENGTH stand for the second and the third. The answer of the call for a list has no word: its
 * first field is MANY_HITS, and a fourth is added, FETCHES. */
#define MINDAVEHU_WORD 0
#define MINDAVEHU_ANSWER_FLASH 8
#define MINDAVEHU_ANSWER_PRIMARY 16
#define MINDAVEHU_START 8
#define MINDAVEHU_LENGTH 16
#define MINDAVEHU_MANY_HITS 0
#define MINDAVEHU_FETCHES 24

/* The fields of a report's part, by the byte where each starts: the address, 4 bytes, the dirty byte, 1 or 0, and, of the manager's report alone, the seat, 2
 * bytes; little-endian. */
#define MINDAVEHU_REPORT_ADDRESS 0
#define MINDAVEHU_REPORT_DIRTY 4
#define MINDAVEHU_REPORT_SEAT 5

/* A field of the state or of an answer, read and written. */
static inline uint64_t mindavehu_get(const uint8_t *bytes, size_t field)
{
    uint64_t value = 0;
    for (size_t i = 8; i > 0; i--)
        value = value << 8 | bytes[field + i - 1];
    return value;
}

static inline void mindavehu_put(uint8_t *bytes, size_t field, uint64_t value)
{
    for (size_t i = 0; i < 8; i++, value >>= 8)
        bytes[field + i] = (uint8_t)value;
}

/* The address of a report's part, and the seat of a part of the manager's report. */
static inline uint32_t mindavehu_report_address(const uint8_t *part)
{
    part += MINDAVEHU_REPORT_ADDRESS;
    return (uint32_t)part[3] << 24 | (uint32_t)part[2] << 16 | (uint32_t)part[1] << 8 | part[0];
}

static inline uint16_t mindavehu_report_seat(const uint8_t *part)
{
    return (uint16_t)(part[MINDAVEHU_REPORT_SEAT + 1] << 8 | part[MINDAVEHU_REPORT_SEAT]);
}

/* What a refusal means, in words, and the word of an answer as a replay prints it. Of another number: that it is none. */
static inline const char *mindavehu_refusal_text(uint32_t refusal)
{
    switch (refusal) {
    case MINDAVEHU_SERVED: return "served";
    case MINDAVEHU_OUTSIDE: return "B, P, m or d is outside its set";
    case MINDAVEHU_WRONG_LENGTH: return "a length is not right";
    case MINDAVEHU_NO_ADDRESS: return "the address is P or more";
    case 4: return "the line is not of the form";
    case 5: return "the box is more than a replay takes";
    case MINDAVEHU_BAD_ADDRESSES: return "the address table is unsound";
    case MINDAVEHU_BAD_BLOCKS: return "the block table is unsound";
    case MINDAVEHU_DIRTY_UNCACHED: return "a dirty address is without its block";
    case MINDAVEHU_COUNTER_FULL: return "a counter is above 2 to the power 63";
    case MINDAVEHU_BAD_COUNT: return "the list has no address, or more than 64";
    case MINDAVEHU_BAD_LIMIT: return "the limit t is not 1 to m";
    case MINDAVEHU_TOO_DIRTY: return "more than t addresses are dirty";
    case MINDAVEHU_NO_ROOM: return "the area is too short for the image";
    case MINDAVEHU_NO_IMAGE: return "the area has no image of version 1";
    case MINDAVEHU_BAD_IMAGE: return "the image is not of a sound box";
    case MINDAVEHU_TOO_LARGE: return "P is above 4, B is not 64 or k is above 8";
    default: return "no refusal has this number";
    }
}

static inline const char *mindavehu_word_name(uint64_t word)
{
    switch (word) {
    case MINDAVEHU_HIT: return "hit";
    case MINDAVEHU_MISS: return "miss";
    case MINDAVEHU_SAME: return "same";
    case MINDAVEHU_NEW: return "new";
    case MINDAVEHU_CACHE: return "cache";
    case MINDAVEHU_DISK: return "disk";
    case MINDAVEHU_DONE: return "done";
    default: return "no word has this number";
    }
}

/* Opens a box of the B, P, m, d and t in the state under a label, which is copied into the state. Both tables become fresh, n and the counters 0; disk and
 * flash keep their bytes. Refused with 1, 12 or 2: n = 0 and a label of zeros are written, and nothing else. */
uint32_t mindavehu_open(uint8_t *state, size_t state_length,
                        const uint8_t *label, size_t label_length,
                        const uint8_t *disk, size_t disk_length,
                        const uint8_t *flash, size_t flash_length,
                        uint8_t *addresses, size_t addresses_length,
                        uint8_t *blocks, size_t blocks_length);

/* Reads the block at the address into `block`. Answers HIT or MISS. */
uint32_t mindavehu_read(uint8_t *state, size_t state_length, uint32_t address,
                        uint8_t *disk, size_t disk_length,
                        uint8_t *flash, size_t flash_length,
                        uint8_t *addresses, size_t addresses_length,
                        uint8_t *blocks, size_t blocks_length,
                        uint8_t *block, size_t block_length,
                        uint8_t *answer, size_t answer_length);

/* Reads the blocks at `count` addresses, 1 to 64, in turn, into `buffer`: its block i is that at asked[i]. An address may come more than once.
 * Answers the hits, the flash writes, the primary writes and the fetches: the blocks that came from the disk, one for each address whose first read
 * in the list is a miss. Fetches are at most the misses, which are count less the hits.
 * On a box that calls alone have made, from its opening on, and where no two different blocks share a fingerprint, all is as after the single reads in
 * turn, but that 9 is told before the first read or not at all. On any other box a repeat that misses takes its block from the buffer, where the first
 * read of its address put it, and not from the disk. */
uint32_t mindavehu_read_many(uint8_t *state, size_t state_length,
                             const uint32_t *asked, size_t count,
                             uint8_t *disk, size_t disk_length,
                             uint8_t *flash, size_t flash_length,
                             uint8_t *addresses, size_t addresses_length,
                             uint8_t *blocks, size_t blocks_length,
                             uint8_t *buffer, size_t buffer_length,
                             uint8_t *answer, size_t answer_length);

/* Write through: `block` goes to the disk at the address, and into the cache. Answers SAME or NEW. The address has the call's seat then. */
uint32_t mindavehu_write_through(uint8_t *state, size_t state_length, uint32_t address, uint16_t seat,
                                 uint8_t *disk, size_t disk_length,
                                 uint8_t *flash, size_t flash_length,
                                 uint8_t *addresses, size_t addresses_length,
                                 uint8_t *blocks, size_t blocks_length,
                                 const uint8_t *block, size_t block_length,
                                 uint8_t *answer, size_t answer_length);

/* Write back: `block` goes into the cache, and to the disk when it leaves the cache or at a flush, or when it is the oldest of more than t dirty ones. An
 * address that is held, clean, with the same content stays clean, and nothing is copied for it later. Where more than t are dirty after it, the block of the
 * oldest dirty address is copied to the disk, one more primary write of this answer. Answers SAME or NEW. The address has the call's seat then, clean or not.
 */
uint32_t mindavehu_write_back(uint8_t *state, size_t state_length, uint32_t address, uint16_t seat,
                              uint8_t *disk, size_t disk_length,
                              uint8_t *flash, size_t flash_length,
                              uint8_t *addresses, size_t addresses_length,
                              uint8_t *blocks, size_t blocks_length,
                              const uint8_t *block, size_t block_length,
                              uint8_t *answer, size_t answer_length);

/* Write invalidate: `block` goes to the disk at the address, and the address leaves the cache. The flash is lent as to the other
 * writes; it is as it was afterwards. Answers SAME or NEW. The seat is kept nowhere. */
uint32_t mindavehu_write_invalidate(uint8_t *state, size_t state_length, uint32_t address, uint16_t seat,
                                    uint8_t *disk, size_t disk_length,
                                    uint8_t *flash, size_t flash_length,
                                    uint8_t *addresses, size_t addresses_length,
                                    uint8_t *blocks, size_t blocks_length,
                                    const uint8_t *block, size_t block_length,
                                    uint8_t *answer, size_t answer_length);

/* Copies each block that is newer in the flash to its disk address. Answers DONE; then the disk is what was written. */
uint32_t mindavehu_flush(uint8_t *state, size_t state_length,
                         uint8_t *disk, size_t disk_length,
                         const uint8_t *flash, size_t flash_length,
                         uint8_t *addresses, size_t addresses_length,
                         const uint8_t *blocks, size_t blocks_length,
                         uint8_t *answer, size_t answer_length);

/* A flush in parts: copies the blocks of at most `most` dirty addresses, oldest use first, to the disk. Answers DONE; the answer's
 * primary writes say of how many: the smaller of `most` and the dirty addresses before. Fewer than `most` means that none is left,
 * and then the disk is what was written. 0 copies nothing; m or more is mindavehu_flush. */
uint32_t mindavehu_flush_some(uint8_t *state, size_t state_length, size_t most,
                              uint8_t *disk, size_t disk_length,
                              const uint8_t *flash, size_t flash_length,
                              uint8_t *addresses, size_t addresses_length,
                              const uint8_t *blocks, size_t blocks_length,
                              uint8_t *answer, size_t answer_length);

/* Tells where the block at the address is: CACHE or DISK, then the byte of flash or disk where it starts, then its length B.
 * Nothing is moved or counted. A refused look keeps the answer's bytes: what they held before is no part. */
uint32_t mindavehu_look(const uint8_t *state, size_t state_length, uint32_t address,
                        const uint8_t *disk, size_t disk_length,
                        const uint8_t *flash, size_t flash_length,
                        const uint8_t *addresses, size_t addresses_length,
                        const uint8_t *blocks, size_t blocks_length,
                        uint8_t *answer, size_t answer_length);

/* The manager's report: address, dirty byte and seat of each held address, oldest use first, then zeros. The state's n is the number of parts. Nothing else is
 * changed and nothing is counted; a refused report keeps its bytes. */
uint32_t mindavehu_manager_report(const uint8_t *state, size_t state_length,
                                  const uint8_t *disk, size_t disk_length,
                                  const uint8_t *flash, size_t flash_length,
                                  const uint8_t *addresses, size_t addresses_length,
                                  const uint8_t *blocks, size_t blocks_length,
                                  uint8_t *report, size_t report_length);

/* The desk's report: the same without the seats. */
uint32_t mindavehu_desk_report(const uint8_t *state, size_t state_length,
                               const uint8_t *disk, size_t disk_length,
                               const uint8_t *flash, size_t flash_length,
                               const uint8_t *addresses, size_t addresses_length,
                               const uint8_t *blocks, size_t blocks_length,
                               uint8_t *report, size_t report_length);

/* Saves a box before it is shut down: flushes it as mindavehu_flush does, with the same answer and counts, then writes its image, as the flush has left it,
 * into the area. Bytes of the area behind the image are kept. Refused as a flush is, with 1, 12, 2, 6, 7, 8, 13 or 9, then with 14 if the area is shorter than
 * MINDAVEHU_AREA_LENGTH(m, d): a refused save flushes nothing and keeps every byte.
 * The area is written in parts of 64 bytes: first the header is cleared, then the body is written from its start to its end, then the header is written. If
 * power fails during these writes, where the area had no image before them (a restore takes it away) and a part that is a header is written wholly or not at
 * all, the area has no image, and a restore gets 15, or it has this one. In both cases the flush is done, and the disk is what was written. That the parts
 * reach what keeps the area in this order is the caller's part, wherever the area is more than memory. */
uint32_t mindavehu_save(uint8_t *state, size_t state_length,
                        uint8_t *disk, size_t disk_length,
                        const uint8_t *flash, size_t flash_length,
                        uint8_t *addresses, size_t addresses_length,
                        const uint8_t *blocks, size_t blocks_length,
                        uint8_t *area, size_t area_length,
                        uint8_t *answer, size_t answer_length);

/* Gives back the box that is saved in the area: B, P, m, d, n, the label and t in the state, and both tables, which may hold any bytes before. The counters in
 * the state stay as they are. The area's first 64 bytes become zeros, so that an image is found once; nothing else is touched.
 * Promised only where the save was the last call on its box, and disk and flash are as that save left them: neither is lent, so nothing of this can be
 * checked. On a disk and a flash of another time the box would give blocks of another time.
 * `lists` has length 0; its pointer is not NULL.
 * Refused with 15 if the area has fewer than 64 bytes or does not start with the header of an image of version 1; then with 14 if it is too short for the
 * length in that header; then with 16 if the body starts with a number above 1, has another length than its m and d say, or is of a box that would be
 * refused with 1, 12, 6, 7, 8 or 13 (the bytes behind the body may be any); then with 2 if the tables are not m x 40 and d x 40 bytes, or the lists not 0.
 * A body that starts with 1 is of a D-ARC box, which this library does not run: 16 if it is unsound, else 2, since such a box has lists. (Lend none: with
 * lists of its length it is given back, and the numbers in the state, C and X for m and d, do not fit its tables.)
 * A refused restore writes zeros for B, P, m, d, n, the label and t, and keeps all else, the header too: after a 2 the caller may lend other tables. */
uint32_t mindavehu_restore(uint8_t *state, size_t state_length,
                           uint8_t *area, size_t area_length,
                           uint8_t *addresses, size_t addresses_length,
                           uint8_t *blocks, size_t blocks_length,
                           uint8_t *lists, size_t lists_length);

/* How hard an exam question is: counts, over all lists of k reads (k from 0 to 8) from a fresh box of these numbers and this label over the disk, how many
 * have 0, 1, up to 8 hits. Count h starts at byte 8 x h of `counts` (mindavehu_get(counts, 8 * h)); those beyond k are 0, and their total is P to the power k.
 * Refused with 1, 12, 2 or 17: `counts`, where it has its 72 bytes, gets nine counts of 0; with another length, which gives 2 unless 1 or 12 comes first, it
 * is left as it is. B is to be 64 and P at most 4. The limit changes no count. */
uint32_t mindavehu_scores(size_t B, size_t P, size_t m, size_t d, size_t t,
                          const uint8_t *label, size_t label_length,
                          const uint8_t *disk, size_t disk_length,
                          size_t k, uint8_t *counts, size_t counts_length);

/* The buffers of a box in one struct: those that the caller lends, and the state and the answers, which the struct has itself. */
struct mindavehu_box {
    uint8_t *disk, *flash, *addresses, *blocks;
    size_t disk_length, flash_length, addresses_length, blocks_length;
    uint8_t state[MINDAVEHU_STATE], answer[MINDAVEHU_ANSWER], many[MINDAVEHU_MANY_ANSWER];
};

/* Names the lent buffers. The state and the answers become 0. */
static inline void mindavehu_box_lend(struct mindavehu_box *box, uint8_t *disk, size_t disk_length, uint8_t *flash, size_t flash_length,
                                      uint8_t *addresses, size_t addresses_length, uint8_t *blocks, size_t blocks_length)
{
    size_t k;
    box->disk = disk, box->flash = flash, box->addresses = addresses, box->blocks = blocks;
    box->disk_length = disk_length, box->flash_length = flash_length, box->addresses_length = addresses_length, box->blocks_length = blocks_length;
    for (k = 0; k < sizeof box->state; k++)
        box->state[k] = 0;
    for (k = 0; k < sizeof box->answer; k++)
        box->answer[k] = 0;
    for (k = 0; k < sizeof box->many; k++)
        box->many[k] = 0;
}

/* Each of these is the function of its name above on the buffers of the box. The answer is in box->answer, that of a list in box->many. */
#define MINDAVEHU_BOX_STATE box->state, sizeof box->state
#define MINDAVEHU_BOX_MEMORY box->disk, box->disk_length, box->flash, box->flash_length, box->addresses, box->addresses_length, box->blocks, box->blocks_length
#define MINDAVEHU_BOX_ANSWER box->answer, sizeof box->answer

static inline uint32_t mindavehu_box_open(struct mindavehu_box *box, const uint8_t *label, size_t label_length,
                                          uint64_t B, uint64_t P, uint64_t m, uint64_t d, uint64_t t)
{
    mindavehu_put(box->state, MINDAVEHU_B, B);
    mindavehu_put(box->state, MINDAVEHU_P, P);
    mindavehu_put(box->state, MINDAVEHU_M, m);
    mindavehu_put(box->state, MINDAVEHU_D, d);
    mindavehu_put(box->state, MINDAVEHU_T, t);
    return mindavehu_open(MINDAVEHU_BOX_STATE, label, label_length, MINDAVEHU_BOX_MEMORY);
}

static inline uint32_t mindavehu_box_read(struct mindavehu_box *box, uint32_t address, uint8_t *block, size_t block_length)
{
    return mindavehu_read(MINDAVEHU_BOX_STATE, address, MINDAVEHU_BOX_MEMORY, block, block_length, MINDAVEHU_BOX_ANSWER);
}

static inline uint32_t mindavehu_box_read_many(struct mindavehu_box *box, const uint32_t *asked, size_t count, uint8_t *buffer, size_t buffer_length)
{
    return mindavehu_read_many(MINDAVEHU_BOX_STATE, asked, count, MINDAVEHU_BOX_MEMORY, buffer, buffer_length, box->many, sizeof box->many);
}

static inline uint32_t mindavehu_box_write_through(struct mindavehu_box *box, uint32_t address, uint16_t seat, const uint8_t *block,
                                                   size_t block_length)
{
    return mindavehu_write_through(MINDAVEHU_BOX_STATE, address, seat, MINDAVEHU_BOX_MEMORY, block, block_length, MINDAVEHU_BOX_ANSWER);
}

static inline uint32_t mindavehu_box_write_back(struct mindavehu_box *box, uint32_t address, uint16_t seat, const uint8_t *block,
                                                size_t block_length)
{
    return mindavehu_write_back(MINDAVEHU_BOX_STATE, address, seat, MINDAVEHU_BOX_MEMORY, block, block_length, MINDAVEHU_BOX_ANSWER);
}

static inline uint32_t mindavehu_box_write_invalidate(struct mindavehu_box *box, uint32_t address, uint16_t seat, const uint8_t *block,
                                                      size_t block_length)
{
    return mindavehu_write_invalidate(MINDAVEHU_BOX_STATE, address, seat, MINDAVEHU_BOX_MEMORY, block, block_length, MINDAVEHU_BOX_ANSWER);
}

static inline uint32_t mindavehu_box_flush(struct mindavehu_box *box)
{
    return mindavehu_flush(MINDAVEHU_BOX_STATE, MINDAVEHU_BOX_MEMORY, MINDAVEHU_BOX_ANSWER);
}

static inline uint32_t mindavehu_box_flush_some(struct mindavehu_box *box, size_t most)
{
    return mindavehu_flush_some(MINDAVEHU_BOX_STATE, most, MINDAVEHU_BOX_MEMORY, MINDAVEHU_BOX_ANSWER);
}

static inline uint32_t mindavehu_box_look(struct mindavehu_box *box, uint32_t address)
{
    return mindavehu_look(MINDAVEHU_BOX_STATE, address, MINDAVEHU_BOX_MEMORY, MINDAVEHU_BOX_ANSWER);
}

static inline uint32_t mindavehu_box_manager_report(const struct mindavehu_box *box, uint8_t *report, size_t report_length)
{
    return mindavehu_manager_report(MINDAVEHU_BOX_STATE, MINDAVEHU_BOX_MEMORY, report, report_length);
}

static inline uint32_t mindavehu_box_desk_report(const struct mindavehu_box *box, uint8_t *report, size_t report_length)
{
    return mindavehu_desk_report(MINDAVEHU_BOX_STATE, MINDAVEHU_BOX_MEMORY, report, report_length);
}

static inline uint32_t mindavehu_box_save(struct mindavehu_box *box, uint8_t *area, size_t area_length)
{
    return mindavehu_save(MINDAVEHU_BOX_STATE, MINDAVEHU_BOX_MEMORY, area, area_length, MINDAVEHU_BOX_ANSWER);
}

/* Into the state of the box and the tables that it was lent. Its counters are those of the state before: 0 after mindavehu_box_lend. */
static inline uint32_t mindavehu_box_restore(struct mindavehu_box *box, uint8_t *area, size_t area_length)
{
    uint8_t no_lists = 0;
    return mindavehu_restore(MINDAVEHU_BOX_STATE, area, area_length, box->addresses, box->addresses_length, box->blocks, box->blocks_length, &no_lists, 0);
}

#undef MINDAVEHU_BOX_STATE
#undef MINDAVEHU_BOX_MEMORY
#undef MINDAVEHU_BOX_ANSWER

#ifdef __cplusplus
}
#endif

#endif
