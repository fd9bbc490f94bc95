/* Replays a list of requests from standard input on the proved engine, as the replay program does, and prints after each line of its output the
 * state of the box:
 *
 *     3 B 3 same 0 0
 *         1:1 2:2 3:1*; blocks 2 1
 *
 * The lines of the replay start in the first column, all others four columns further in. A state is written as document 01 writes E1 to E8:
 * each held address with its content, oldest use first (`none` where no address is held), then the rows of the block table, the free ones first
 * as `-`, then the contents of the used ones, oldest use first. A content is the number of the byte that fills its block, in decimal.
 * The mark `*` after a content says that the address is dirty: its block is newer in flash than on disk.
 *
 * With --full, lines for a picture are added: `box B P m d` and the first state before the first call, `asked` with the text of each later line
 * of the list before its answer, and after each state
 *     slots   the flash slot of each row of the block table, in the order of the rows
 *     flash   the first byte of each slot
 *     disk    the first byte of each disk block
 *
 * With --explain, lines stand between each answer and its state that say what the cache did and why, the first after the line's text; of a refused line, the
 * rule that it breaks; --full --explain has both:
 *
 *     6 R 2 miss 1 1
 *         R 2: address 2 is held, but its block, content 2, is not in flash: it comes from the disk
 *         flash is full and each of its blocks has an address: content 1, the oldest, leaves; address 3 is dirty, so content 1 is copied to the disk first
 *         content 2 is stored in flash
 *         3:1 4:4 2:2; blocks 4 2
 *
 * With --parts, a line `F k` is a flush of at most k dirty addresses, oldest use first; k is printed where the others have their address. A replay
 * knows no such line: without --parts it is refused with 4.
 *
 * With --seats, a write may have the number of the seat that makes it as its last word, `B a hh s`, a decimal from 0 to 65535 (0 where there is none). Both
 * reports are printed in place of the state, from the engine's own bytes: what the manager sees, each held address with the seat that wrote it last, and what
 * the desk sees, the addresses alone. A replay knows no such write: without --seats it is refused with 4.
 *
 *     1 B 1 new 1 0
 *         manager: 1* seat 7
 *         desk: 1*
 *
 * With --limit T, a decimal of at most five digits, the box has the limit T: after a write back at most T addresses are dirty. A limit outside 1 to m is a
 * refused line 1, `0 refused 12`. Without it the limit is m, as in a replay, and nothing is copied for its sake.
 *
 * With --warm LINE, the number of a request from 1 on, the box is shut down cleanly after that request and started again: it is saved into an area, all but
 * disk, flash, area and counters is forgotten, and it is restored. One line is added behind the state of the request: how many addresses were dirty before,
 * how many bytes the area has, and the restored state. Where the list has no such request, that is said at the end.
 *
 *     2 B 3 new 1 0
 *         1:1 3:10*; blocks - - 1 10
 *         saved: 1 address was dirty, 512 bytes; restored: 1:1 3:10; blocks - - 1 10
 *
 * With --folder ADDRESSES (decimals with commas between them; an empty word for none), the folder of these addresses is opened after the list, twice
 * from the same box: with one call, and read by read. Both ways are printed, with the content of each block read, and whether they leave the same:
 *
 *     folder 1 0, one call
 *     2 folder hits 0 flash 2 primary 1 fetches 2
 *         contents 1 7
 *         0:7; blocks 7
 *
 * Where the one call is refused, that is printed, and nothing after it.
 *
 * With --counts, no state is printed but, beside each read, what can be counted in the list alone: the distinct other addresses since the last read
 * of its address, the distinct other contents since the last read of its content by any address, and whether these two numbers tell a hit:
 *
 *     3 R 1 hit 0 0
 *         other addresses 1, other contents 1: hit
 *
 * `-` stands where the address, or the content, was not read before. With --counts CONTENTS (decimals with commas between them) the first blocks of the
 * disk have these contents. The list must be one of reads, none refused.
 *
 * Exit status: 0 when the list was read to its end, refusals included; 1 when reading or writing failed, where the two ways differ, where what is counted
 * and the engine differ, where a list that is counted has a line that is not a served read, or where the list ends before the request of --warm or the box
 * could not be shut down and started again; 2 for an unknown option, or words that are not of the form. */
#include <errno.h>
#include <stdio.h>
#include <stdlib.h>
#include <string.h>
#include "mindavehu.h"

/* What document 01 allows in a replay: P at most 256, P x B and d x B at most 16,384, lines of at most 32 bytes. */
#define MOST_BYTES 16384
#define MOST_P 256
#define MOST_B 4096
#define MOST_M 1024
#define MOST_D 256
#define MOST_LINE 32

/* Refusals of the replay's own, beside those of the header. */
#define NOT_THE_FORM 4
#define TOO_LARGE 5

#define FINGERPRINT 32

/* More addresses than the engine takes in one call, so that its refusal can be seen. */
#define MOST_FOLDER 128

static uint8_t state[MINDAVEHU_STATE], answer[MINDAVEHU_ANSWER];
static uint8_t disk[MOST_BYTES], flash[MOST_BYTES], block[MOST_B];
static uint8_t addresses[MOST_M * MINDAVEHU_ROW], blocks[MOST_D * MINDAVEHU_ROW];
static size_t B, P, m, d;
static int full, parts, seats, explains, counting;

/* The limit, where one is given. */
static int has_limit;
static uint32_t limit;

/* The request after which the box is shut down and started again, 0 where none is given; the area; whether the list ends before it, and its requests. */
static uint32_t warm;
static uint8_t area[MINDAVEHU_AREA_LENGTH(MOST_M, MOST_D)];
static int too_short;
static uint64_t requests;

/* A replay's label is all zeros. */
static const uint8_t label[MINDAVEHU_LABEL] = {0};

/* The contents of the first disk blocks, where they are given; the reads so far, and what stopped the counting. */
static uint32_t given[MOST_P];
static size_t given_count;
static uint32_t *past;
static size_t past_count, past_room;
static uint64_t stopped;
static const char *why;

/* The folder that is opened after the list, where one is asked for; the blocks read of it, and the answer of the one call. */
static int has_folder, differs;
static uint32_t folder[MOST_FOLDER];
static size_t folder_count;
static uint8_t buffer[MOST_FOLDER * MOST_B], many[MINDAVEHU_MANY_ANSWER];

/* A box, and the blocks read of a folder. */
struct left {
    uint8_t state[sizeof state], disk[sizeof disk], flash[sizeof flash], addresses[sizeof addresses], blocks[sizeof blocks], buffer[sizeof buffer];
};

/* A line of the list: its bytes, as far as there is room for them, and its whole length. */
struct line {
    unsigned char bytes[MOST_LINE];
    size_t length;
};

/* A call: its letter, its address as it is printed, or the most that a flush in parts copies, and of a write the byte that its block is filled with and its
 * seat. */
struct call {
    char letter;
    int has_address;
    uint32_t address, content, seat;
};

#define TABLES addresses, m *MINDAVEHU_ROW, blocks, d *MINDAVEHU_ROW
#define MEMORY disk, P *B, flash, d *B, TABLES
#define STATE state, sizeof state
#define LABEL label, sizeof label
#define ANSWER answer, sizeof answer

/* ---- Counting, from the list alone. */

/* The content of disk block k at first: k itself, or the one that was given. */
static uint32_t first_content(size_t k) { return k < given_count ? given[k] : (uint32_t)k; }

static uint32_t address_itself(uint32_t a) { return a; }
static uint32_t content_at(uint32_t a) { return first_content(a); }

/* Counts the distinct others since the last read with the same `key` as address a. Gives -1 where there is none. */
static long count_since(uint32_t (*key)(uint32_t), uint32_t a)
{
    static uint8_t seen[MOST_P];
    long distinct = 0;
    memset(seen, 0, sizeof seen);
    for (size_t k = past_count; k-- > 0;) {
        uint32_t other = key(past[k]);
        if (other == key(a))
            return distinct;
        distinct += !seen[other];
        seen[other] = 1;
    }
    return -1;
}

static void print_count(const char *name, long count)
{
    printf("%s ", name);
    if (count < 0)
        printf("-");
    else
        printf("%ld", count);
}

/* What the counts tell of a read of address a, beside the engine's answer. */
static void print_counts(uint32_t a)
{
    long others = count_since(address_itself, a), contents = count_since(content_at, a);
    int hit = others >= 0 && others < (long)m && contents < (long)d;
    print_count("    other addresses", others);
    print_count(", other contents", contents);
    printf(": %s\n", hit ? "hit" : "miss");
    if (hit != (mindavehu_get(answer, MINDAVEHU_WORD) == MINDAVEHU_HIT))
        why = "the engine answers otherwise than the counts tell, which it is proved not to do";
    if (past_count == past_room) {
        past_room = past_room ? 2 * past_room : 64;
        past = realloc(past, past_room * sizeof *past);
        if (!past)
            abort();
    }
    past[past_count++] = a;
}

/* ---- The list: lines and their form. */

/* Reads the next line. Gives 0 where none begins. */
static int next_line(struct line *line)
{
    int byte = getchar();
    line->length = 0;
    if (byte == EOF)
        return 0;
    for (; byte != EOF && byte != '\n'; byte = getchar()) {
        if (line->length < MOST_LINE)
            line->bytes[line->length] = (unsigned char)byte;
        if (line->length <= MOST_LINE)
            line->length++;
    }
    return 1;
}

/* Each of these takes what it names from `at` on and moves `at` behind it, or gives 0. */
static int take_text(const struct line *line, size_t *at, const char *text)
{
    size_t length = strlen(text);
    if (line->length - *at < length || memcmp(line->bytes + *at, text, length) != 0)
        return 0;
    *at += length;
    return 1;
}

static int take_decimal(const struct line *line, size_t *at, uint32_t *value)
{
    size_t digits = 0;
    *value = 0;
    for (; *at + digits < line->length; digits++) {
        unsigned char byte = line->bytes[*at + digits];
        if (byte < '0' || byte > '9' || digits == 5)
            break;
        *value = *value * 10 + (byte - '0');
    }
    if (digits == 0 || (digits > 1 && line->bytes[*at] == '0'))
        return 0;
    *at += digits;
    return 1;
}

static int take_hexadecimal(const struct line *line, size_t *at, uint32_t *value)
{
    static const char digits[] = "0123456789ABCDEF";
    *value = 0;
    for (int k = 0; k < 2; k++, (*at)++) {
        const char *found = *at < line->length && line->bytes[*at] ? strchr(digits, line->bytes[*at]) : NULL;
        if (!found)
            return 0;
        *value = *value * 16 + (uint32_t)(found - digits);
    }
    return 1;
}

/* Whether the line is `box B P m d`. */
static int is_box(const struct line *line, uint32_t numbers[4])
{
    size_t at = 0;
    if (line->length > MOST_LINE || !take_text(line, &at, "box"))
        return 0;
    for (int k = 0; k < 4; k++)
        if (!take_text(line, &at, " ") || !take_decimal(line, &at, &numbers[k]))
            return 0;
    return at == line->length;
}

/* Whether the line is that of a call. */
static int is_call(const struct line *line, struct call *call)
{
    size_t at = 1;
    memset(call, 0, sizeof *call);
    if (line->length == 0 || line->length > MOST_LINE || !line->bytes[0] || !strchr("RLFTBI", line->bytes[0]))
        return 0;
    call->letter = (char)line->bytes[0];
    call->has_address = call->letter != 'F' || (parts && line->length > 1);
    if (call->has_address && !(take_text(line, &at, " ") && take_decimal(line, &at, &call->address)))
        return 0;
    if (strchr("TBI", call->letter) && !(take_text(line, &at, " ") && take_hexadecimal(line, &at, &call->content)))
        return 0;
    if (seats && strchr("TBI", call->letter) && at < line->length
        && !(take_text(line, &at, " ") && take_decimal(line, &at, &call->seat) && call->seat <= UINT16_MAX))
        return 0;
    return at == line->length;
}

/* ---- The engine. */

/* Opens the box of these numbers over a disk whose block k is filled with byte k. Gives the number of a refusal, or 0. */
static uint32_t open_box(const uint32_t numbers[4])
{
    static const size_t fields[4] = {MINDAVEHU_B, MINDAVEHU_P, MINDAVEHU_M, MINDAVEHU_D};
    for (int k = 0; k < 4; k++)
        mindavehu_put(state, fields[k], numbers[k]);
    B = numbers[0], P = numbers[1], m = numbers[2], d = numbers[3];
    mindavehu_put(state, MINDAVEHU_T, has_limit ? limit : m);
    if (P <= MOST_P && P * B <= MOST_BYTES && d * B <= MOST_BYTES && m <= MOST_M && d <= MOST_D) {
        for (size_t k = 0; k < P; k++)
            memset(disk + k * B, (int)first_content(k), B);
        return mindavehu_open(STATE, LABEL, MEMORY);
    }
    /* More than there is memory for. Opened with no memory at all, the engine tells numbers outside their sets from a length that isn't right. */
    uint32_t refusal = mindavehu_open(STATE, LABEL, disk, 0, flash, 0, addresses, 0, blocks, 0);
    return refusal == MINDAVEHU_OUTSIDE ? refusal : TOO_LARGE;
}

static uint32_t carry_out(const struct call *call)
{
    uint32_t a = call->address;
    uint16_t seat = (uint16_t)call->seat;
    memset(block, (int)call->content, B);
    switch (call->letter) {
    case 'R':
        return mindavehu_read(STATE, a, MEMORY, block, B, ANSWER);
    case 'T':
        return mindavehu_write_through(STATE, a, seat, MEMORY, block, B, ANSWER);
    case 'B':
        return mindavehu_write_back(STATE, a, seat, MEMORY, block, B, ANSWER);
    case 'I':
        return mindavehu_write_invalidate(STATE, a, seat, MEMORY, block, B, ANSWER);
    case 'L':
        return mindavehu_look(STATE, a, MEMORY, ANSWER);
    default:
        return call->has_address ? mindavehu_flush_some(STATE, a, MEMORY, ANSWER) : mindavehu_flush(STATE, MEMORY, ANSWER);
    }
}

/* ---- The state, from the tables as document 01 lays them out. */

static uint32_t number_at(const uint8_t *bytes)
{
    return bytes[0] | (uint32_t)bytes[1] << 8 | (uint32_t)bytes[2] << 16 | (uint32_t)bytes[3] << 24;
}

/* A block row: fingerprint, slot, used byte. */
static const uint8_t *block_row(size_t k) { return blocks + k * MINDAVEHU_ROW; }
static size_t slot_of(const uint8_t *row) { return number_at(row + FINGERPRINT); }
static int is_used(const uint8_t *row) { return row[FINGERPRINT + 4] == 1; }

/* An address row: address, fingerprint, dirty byte. The content of an address whose block is cached is in flash; that of another is on disk, as
 * every dirty address has its block. */
static unsigned content_of(const uint8_t *row)
{
    for (size_t k = 0; k < d; k++)
        if (is_used(block_row(k)) && memcmp(block_row(k), row + 4, FINGERPRINT) == 0)
            return flash[slot_of(block_row(k)) * B];
    return disk[number_at(row) * B];
}

/* What the manager sees and what the desk sees, each from the bytes of its report. */
static void print_reports(void)
{
    static uint8_t manager[MINDAVEHU_MANAGER_REPORT_LENGTH(MOST_M)], desk[MINDAVEHU_DESK_REPORT_LENGTH(MOST_M)];
    size_t held = mindavehu_get(state, MINDAVEHU_N);
    if (mindavehu_manager_report(STATE, MEMORY, manager, MINDAVEHU_MANAGER_REPORT_LENGTH(m)) != MINDAVEHU_SERVED
        || mindavehu_desk_report(STATE, MEMORY, desk, MINDAVEHU_DESK_REPORT_LENGTH(m)) != MINDAVEHU_SERVED)
        abort();
    printf("    manager:%s", held ? "" : " none");
    for (const uint8_t *part = manager; part < manager + held * MINDAVEHU_MANAGER_PART; part += MINDAVEHU_MANAGER_PART)
        printf("%s %u%s seat %u", part == manager ? "" : ",", (unsigned)mindavehu_report_address(part), part[MINDAVEHU_REPORT_DIRTY] ? "*" : "",
               mindavehu_report_seat(part));
    printf("\n    desk:%s", held ? "" : " none");
    for (const uint8_t *part = desk; part < desk + held * MINDAVEHU_DESK_PART; part += MINDAVEHU_DESK_PART)
        printf("%s %u%s", part == desk ? "" : ",", (unsigned)mindavehu_report_address(part), part[MINDAVEHU_REPORT_DIRTY] ? "*" : "");
    printf("\n");
}

/* The state as document 01 writes it, from the column on where it is to stand. */
static void print_tables(void)
{
    size_t held = mindavehu_get(state, MINDAVEHU_N);
    for (size_t k = 0; k < held; k++) {
        const uint8_t *row = addresses + k * MINDAVEHU_ROW;
        printf("%s%u:%u%s", k ? " " : "", number_at(row), content_of(row), row[4 + FINGERPRINT] ? "*" : "");
    }
    printf("%s; blocks", held ? "" : "none");
    for (size_t k = 0; k < d; k++) {
        if (is_used(block_row(k)))
            printf(" %u", flash[slot_of(block_row(k)) * B]);
        else
            printf(" -");
    }
    printf("\n");
}

static void print_state(void)
{
    if (seats) {
        print_reports();
        return;
    }
    printf("    ");
    print_tables();
    if (!full)
        return;
    printf("    slots");
    for (size_t k = 0; k < d; k++)
        printf(" %zu", slot_of(block_row(k)));
    printf("\n    flash");
    for (size_t k = 0; k < d; k++)
        printf(" %u", flash[k * B]);
    printf("\n    disk");
    for (size_t k = 0; k < P; k++)
        printf(" %u", disk[k * B]);
    printf("\n");
}

/* The text of a line of the list, as far as there is room for it; a byte that isn't a printed character is shown as `?`. */
static void print_text(const struct line *line)
{
    for (size_t k = 0; k < line->length && k < MOST_LINE; k++)
        putchar(line->bytes[k] >= ' ' && line->bytes[k] <= '~' ? line->bytes[k] : '?');
    if (line->length > MOST_LINE)
        printf("...");
}

/* The same before what is said of the line; of an empty line there is no text. */
static void print_said(const struct line *line)
{
    printf("    ");
    print_text(line);
    if (line->length)
        printf(": ");
}

static void print_asked(const struct line *line)
{
    printf("    asked ");
    print_text(line);
    printf("\n");
}

/* ---- Why: what the tables had before a call, and what the call did. A block is filled with one byte, so a content stands for its fingerprint. */

struct seen {
    size_t held, used;
    uint32_t address[MOST_M];
    unsigned content[MOST_M], cached[MOST_D];
    int dirty[MOST_M], in_flash[256];
};

static void see(struct seen *seen)
{
    memset(seen, 0, sizeof *seen);
    seen->held = mindavehu_get(state, MINDAVEHU_N);
    for (size_t k = 0; k < seen->held; k++) {
        const uint8_t *row = addresses + k * MINDAVEHU_ROW;
        seen->address[k] = number_at(row);
        seen->content[k] = content_of(row);
        seen->dirty[k] = row[4 + FINGERPRINT];
    }
    for (size_t k = 0; k < d; k++)
        if (is_used(block_row(k))) {
            seen->cached[seen->used] = flash[slot_of(block_row(k)) * B];
            seen->in_flash[seen->cached[seen->used++]] = 1;
        }
}

/* The row of an address, or the number of rows where it is not held. */
static size_t row_with(const struct seen *seen, uint32_t address)
{
    size_t k = 0;
    while (k < seen->held && seen->address[k] != address)
        k++;
    return k;
}

static int has_address(const struct seen *seen, unsigned content)
{
    for (size_t k = 0; k < seen->held; k++)
        if (seen->content[k] == content)
            return 1;
    return 0;
}

/* What is read or written: where the word of the answer comes from. */
static void explain_request(const struct seen *before, const struct seen *after, const struct call *call, unsigned content)
{
    size_t row = row_with(before, call->address);
    int held = row < before->held, cached = before->in_flash[content];
    const char *found = cached ? "is in flash already" : "is not in flash yet";
    switch (call->letter) {
    case 'R':
        if (held && cached)
            printf("address %u is held and its block, content %u, is in flash\n", call->address, content);
        else if (held)
            printf("address %u is held, but its block, content %u, is not in flash: it comes from the disk\n", call->address, content);
        else
            printf("address %u is not held: its block, content %u, comes from the disk%s\n", call->address, content,
                   cached ? "; it is in flash already and is not stored again" : "");
        break;
    case 'L':
        content = held ? before->content[row] : disk[call->address * B];
        if (held && before->in_flash[content])
            printf("address %u is held and its block, content %u, is in flash\n", call->address, content);
        else
            printf("address %u is %s\n", call->address, held ? "held, but its block is not in flash: it is on the disk" : "not held: its block is on the disk");
        break;
    case 'T':
        printf("content %u %s; it goes to the disk at once\n", content, found);
        break;
    case 'I':
        printf("content %u %s; it goes to the disk only, and address %u %s\n", content, found, call->address, held ? "leaves the cache" : "is not held");
        break;
    default:
        printf("content %u %s; address %u %s\n", content, found, call->address,
               !after->dirty[after->held - 1] ? "was held, clean, with the same content: it stays clean"
               : held && before->dirty[row]   ? "stays dirty"
                                              : "becomes dirty");
    }
}

/* Steps 1, 3 and 4 of a request of address `a` whose content is `content`. */
static void explain_steps(const struct seen *before, const struct seen *after, uint32_t a, unsigned content)
{
    size_t row = row_with(before, a);
    int leaves = row == before->held && before->held == m, freed = 0;
    if (leaves) {
        row = 0;
        printf("    the address table is full: address %u, the oldest, leaves", before->address[0]);
        printf(before->dirty[0] ? "; it is dirty, so content %u is copied to the disk\n" : "\n", before->content[0]);
    }
    /* Step 3: the block of the row that was taken out, where no address has it now and another address is without its block. */
    if (row < before->held && before->in_flash[before->content[row]] && !has_address(after, before->content[row]))
        for (size_t k = 0; k < after->held && !freed; k++)
            if (after->address[k] != a && !before->in_flash[after->content[k]]) {
                freed = 1;
                printf("    no address has content %u now, and address %u is without its block: the row of content %u becomes free\n", before->content[row],
                       after->address[k], before->content[row]);
            }
    if (before->in_flash[content])
        return;
    /* Step 4: a free row, or that of the block that leaves. */
    for (size_t k = 0; k < before->used && before->used == d && !freed; k++) {
        unsigned victim = before->cached[k];
        if (after->in_flash[victim])
            continue;
        printf(has_address(after, victim) ? "    flash is full and each of its blocks has an address: content %u, the oldest, leaves"
                                          : "    flash is full: content %u, the oldest that no address has, leaves",
               victim);
        for (size_t i = 0; i < before->held; i++)
            if (before->content[i] == victim && before->dirty[i] && before->address[i] != a && !(leaves && i == 0))
                printf("; address %u is dirty, so content %u is copied to the disk first", before->address[i], victim);
        printf("\n");
    }
    printf("    content %u is stored in flash\n", content);
}

static void explain_flush(const struct seen *before, const struct seen *after)
{
    size_t copied = 0;
    for (size_t k = 0; k < before->held; k++)
        if (before->dirty[k] && !after->dirty[k])
            printf("%saddress %u is dirty, so content %u is copied to the disk\n", copied++ ? "    " : "", before->address[k], before->content[k]);
    if (copied == 0)
        printf("no address is dirty: nothing is copied\n");
}

static void explain_call(const struct seen *before, const struct call *call)
{
    static struct seen after;
    unsigned content = call->letter == 'R' ? block[0] : call->content;
    size_t row = row_with(before, call->address);
    see(&after);
    if (call->letter == 'F') {
        explain_flush(before, &after);
        return;
    }
    explain_request(before, &after, call, content);
    if (strchr("RTB", call->letter))
        explain_steps(before, &after, call->address, content);
    else if (call->letter == 'I' && row < before->held && before->in_flash[before->content[row]] && !has_address(&after, before->content[row]))
        printf("    no address has content %u now: its row becomes free\n", before->content[row]);
}

/* ---- Why a line is refused. */

/* A word of a line in which the words have single spaces between them. */
struct word {
    const char *text;
    size_t length;
};

#define MOST_WORDS (MOST_LINE / 2 + 1)

static size_t words_of(const struct line *line, struct word words[MOST_WORDS])
{
    size_t count = 0, start = 0;
    for (size_t k = 0; k <= line->length; k++)
        if (k == line->length || line->bytes[k] == ' ') {
            words[count++] = (struct word){(const char *)line->bytes + start, k - start};
            start = k + 1;
        }
    return count;
}

static int is_word(const struct word *word, const char *text) { return word->length == strlen(text) && memcmp(word->text, text, word->length) == 0; }

/* The rule that a number of a line breaks, or NULL. */
static const char *number_rule(const struct word *word)
{
    for (size_t k = 0; k < word->length; k++)
        if (word->text[k] < '0' || word->text[k] > '9')
            return "a number has decimal digits only";
    if (word->length > 1 && word->text[0] == '0')
        return "a number has no zero before its first digit";
    return word->length > 5 ? "a number has five digits at most" : NULL;
}

/* The rule that the bytes of a line break, or NULL where they are printed characters with single spaces between words. */
static const char *bytes_rule(const struct line *line, int first)
{
    size_t known = line->length < MOST_LINE ? line->length : MOST_LINE;
    if (known >= 3 && memcmp(line->bytes, "\xEF\xBB\xBF", 3) == 0)
        return "a byte order mark: save the file without one";
    if (memchr(line->bytes, '\r', known))
        return "a carriage return: save the file with line ends of one byte";
    if (line->length > MOST_LINE)
        return "32 bytes at most";
    if (line->length == 0)
        return first ? "line 1 is box B P m d, and this one is empty" : "an empty line is no request";
    if (memchr(line->bytes, '\t', known))
        return "a tab: words have single spaces between them";
    for (size_t k = 0; k < known; k++)
        if (line->bytes[k] < ' ' || line->bytes[k] > '~')
            return "a byte that is no letter, digit or space";
    if (line->bytes[0] == ' ' || line->bytes[known - 1] == ' ')
        return "no space before the first word, and none after the last";
    for (size_t k = 1; k < known; k++)
        if (line->bytes[k] == ' ' && line->bytes[k - 1] == ' ')
            return "single spaces between words";
    return NULL;
}

/* The rule of the form that a line breaks, which is not of the form. */
static const char *form_rule(const struct line *line, int first)
{
    struct word words[MOST_WORDS];
    const char *rule = bytes_rule(line, first);
    if (rule)
        return rule;
    size_t count = words_of(line, words);
    if (first) {
        if (!is_word(&words[0], "box"))
            return "line 1 begins with the word box, in lower case";
        if (count != 5)
            return "line 1 has four numbers after the word box: B, P, m and d";
        for (size_t k = 1; k < 5 && !rule; k++)
            rule = number_rule(&words[k]);
        return rule;
    }
    if (is_word(&words[0], "box"))
        return "a box line is line 1 only";
    if (words[0].length == 1 && strchr("rlftbi", words[0].text[0]))
        return "the letter of a request is in upper case";
    if (words[0].length != 1 || !strchr("RLFTBI", words[0].text[0]))
        return "a request begins with one of the letters R, L, F, T, B and I, and a space behind it where more follows";
    char letter = words[0].text[0];
    if (letter == 'F')
        return "F stands alone";
    if (strchr("RL", letter) && count != 2)
        return "R and L have one address behind them, and nothing more";
    if (strchr("TBI", letter) && count != 3)
        return "T, B and I have an address and a content behind them, and nothing more";
    rule = number_rule(&words[1]);
    return rule ? rule : "a content is two upper-case hexadecimal digits";
}

/* Of numbers that are outside their sets, or more than a replay takes: the first that is. */
static void explain_numbers(const uint32_t numbers[4], uint32_t refusal)
{
    static const char *const names[4] = {"B", "P", "m", "d"};
    static const uint32_t most[4] = {MOST_B, 65536, MOST_M, MOST_D};
    uint32_t b = numbers[0];
    if (refusal == TOO_LARGE) {
        if (numbers[1] > MOST_P)
            printf("P is %u: a replay takes %d at most\n", numbers[1], MOST_P);
        else if (numbers[1] * b > MOST_BYTES)
            printf("P x B is %u: a replay takes %d at most\n", numbers[1] * b, MOST_BYTES);
        else
            printf("d x B is %u: a replay takes %d at most\n", numbers[3] * b, MOST_BYTES);
    } else if (b < 64 || b > MOST_B || (b & (b - 1))) {
        printf("B is %u: it is 64, 128, 256, 512, 1024, 2048 or 4096\n", b);
    } else {
        for (int k = 1; k < 4; k++)
            if (numbers[k] < 1 || numbers[k] > most[k]) {
                printf("%s is %u: it is 1 to %u\n", names[k], numbers[k], most[k]);
                return;
            }
    }
}

/* What is said of line 1, which was refused. */
static void explain_box(const struct line *line, const uint32_t numbers[4], uint32_t refusal)
{
    print_said(line);
    if (refusal == NOT_THE_FORM)
        printf("%s\n", form_rule(line, 1));
    else
        explain_numbers(numbers, refusal);
}

static void explain_line(const struct seen *before, const struct line *line, const struct call *call, uint32_t refusal)
{
    print_said(line);
    if (refusal == NOT_THE_FORM)
        printf("%s\n", form_rule(line, 0));
    else if (refusal == MINDAVEHU_NO_ADDRESS)
        printf("address %u: the disk has %zu block%s, 0 to %zu\n", call->address, P, P == 1 ? "" : "s", P - 1);
    else if (refusal)
        printf("%s\n", mindavehu_refusal_text(refusal));
    else
        explain_call(before, call);
}

/* ---- The output of the replay. */

static void print_answer(uint64_t number, const struct call *call)
{
    uint64_t flash_writes = mindavehu_get(answer, MINDAVEHU_ANSWER_FLASH), primary_writes = mindavehu_get(answer, MINDAVEHU_ANSWER_PRIMARY);
    if (call->letter == 'L')
        flash_writes = primary_writes = 0;
    printf("%llu %c ", (unsigned long long)number, call->letter);
    if (call->has_address)
        printf("%u", call->address);
    else
        printf("-");
    printf(" %s %llu %llu\n", mindavehu_word_name(mindavehu_get(answer, MINDAVEHU_WORD)), (unsigned long long)flash_writes, (unsigned long long)primary_writes);
}

static void print_counters(void)
{
    printf("reads %llu hits %llu flash %llu primary %llu\n", (unsigned long long)mindavehu_get(state, MINDAVEHU_READS),
           (unsigned long long)mindavehu_get(state, MINDAVEHU_HITS), (unsigned long long)mindavehu_get(state, MINDAVEHU_FLASH_WRITES),
           (unsigned long long)mindavehu_get(state, MINDAVEHU_PRIMARY_WRITES));
}

/* ---- The folder. */

static void keep(struct left *left)
{
    memcpy(left->state, state, sizeof state);
    memcpy(left->disk, disk, sizeof disk);
    memcpy(left->flash, flash, sizeof flash);
    memcpy(left->addresses, addresses, sizeof addresses);
    memcpy(left->blocks, blocks, sizeof blocks);
    memcpy(left->buffer, buffer, sizeof buffer);
}

static void put_back(const struct left *left)
{
    memcpy(state, left->state, sizeof state);
    memcpy(disk, left->disk, sizeof disk);
    memcpy(flash, left->flash, sizeof flash);
    memcpy(addresses, left->addresses, sizeof addresses);
    memcpy(blocks, left->blocks, sizeof blocks);
    memcpy(buffer, left->buffer, sizeof buffer);
}

static void print_folder(const char *how)
{
    printf("folder%s", folder_count ? "" : " none");
    for (size_t k = 0; k < folder_count; k++)
        printf(" %u", folder[k]);
    printf(", %s\n", how);
}

/* The byte that fills each block read. */
static void print_contents(void)
{
    printf("    contents");
    for (size_t k = 0; k < folder_count; k++)
        printf(" %u", buffer[k * B]);
    printf("\n");
}

/* Opens the folder with one call, which has this number. Gives the refusal. */
static uint32_t with_one_call(uint64_t number)
{
    uint32_t refusal = mindavehu_read_many(STATE, folder, folder_count, MEMORY, buffer, folder_count * B, many, sizeof many);
    print_folder("one call");
    if (refusal) {
        printf("%llu refused %u\n", (unsigned long long)number, refusal);
    } else {
        printf("%llu folder hits %llu flash %llu primary %llu fetches %llu\n", (unsigned long long)number,
               (unsigned long long)mindavehu_get(many, MINDAVEHU_MANY_HITS), (unsigned long long)mindavehu_get(many, MINDAVEHU_ANSWER_FLASH),
               (unsigned long long)mindavehu_get(many, MINDAVEHU_ANSWER_PRIMARY), (unsigned long long)mindavehu_get(many, MINDAVEHU_FETCHES));
        print_contents();
    }
    print_state();
    return refusal;
}

/* Opens the folder read by read. Gives the misses: each of them has fetched a block from the disk. */
static unsigned read_by_read(uint64_t number)
{
    unsigned misses = 0;
    print_folder("read by read");
    for (size_t k = 0; k < folder_count; k++) {
        struct call call = {.letter = 'R', .has_address = 1, .address = folder[k]};
        uint32_t refusal = carry_out(&call);
        if (refusal) {
            printf("%llu refused %u\n", (unsigned long long)number + k, refusal);
        } else {
            print_answer(number + k, &call);
            misses += mindavehu_get(answer, MINDAVEHU_WORD) == MINDAVEHU_MISS;
        }
        memcpy(buffer + k * B, block, B);
        print_state();
    }
    print_contents();
    return misses;
}

/* Both ways, from the same box; `number` is that of the next call. */
static void open_folder(uint64_t number)
{
    static struct left before, one, other;
    memset(buffer, 0, sizeof buffer);
    keep(&before);
    if (with_one_call(number))
        return;
    print_counters();
    keep(&one);
    put_back(&before);
    unsigned misses = read_by_read(number);
    print_counters();
    keep(&other);
    differs = memcmp(&one, &other, sizeof one) != 0;
    printf("%s contents, tables, flash, disk and counters\n", differs ? "NOT the same" : "the same");
    printf("blocks fetched from disk: %llu by one call, %u read by read\n", (unsigned long long)mindavehu_get(many, MINDAVEHU_FETCHES), misses);
}

/* ---- The warm start. */

/* Forgets what a service that ends forgets: the state and both tables, which get other bytes. The counters are no part of an image; the service keeps them. */
static void forget(void)
{
    static const size_t fields[4] = {MINDAVEHU_READS, MINDAVEHU_HITS, MINDAVEHU_FLASH_WRITES, MINDAVEHU_PRIMARY_WRITES};
    uint64_t counters[4];
    for (int k = 0; k < 4; k++)
        counters[k] = mindavehu_get(state, fields[k]);
    memset(state, 0xA5, sizeof state);
    memset(addresses, 0xA5, sizeof addresses);
    memset(blocks, 0xA5, sizeof blocks);
    for (int k = 0; k < 4; k++)
        mindavehu_put(state, fields[k], counters[k]);
}

/* Says that the save or the restore is refused. */
static void stop(const char *call, uint32_t refusal)
{
    printf("    the %s is refused with %u: %s\n", call, refusal, mindavehu_refusal_text(refusal));
    why = "the box could not be shut down and started again";
}

/* Shuts the box down cleanly and starts it again. */
static void start_again(void)
{
    size_t length = MINDAVEHU_AREA_LENGTH(m, d);
    uint8_t no_lists = 0;
    uint32_t refusal = mindavehu_save(STATE, MEMORY, area, length, ANSWER);
    if (refusal) {
        stop("save", refusal);
        return;
    }
    unsigned long long dirty = mindavehu_get(answer, MINDAVEHU_ANSWER_PRIMARY);
    forget();
    refusal = mindavehu_restore(STATE, area, length, TABLES, &no_lists, 0);
    if (refusal) {
        stop("restore", refusal);
        return;
    }
    B = mindavehu_get(state, MINDAVEHU_B), P = mindavehu_get(state, MINDAVEHU_P);
    m = mindavehu_get(state, MINDAVEHU_M), d = mindavehu_get(state, MINDAVEHU_D);
    printf("    saved: %llu address%s dirty, %zu bytes; restored: ", dirty, dirty == 1 ? " was" : "es were", length);
    print_tables();
}

static void replay(void)
{
    static struct seen before;
    struct line line;
    struct call call;
    uint32_t numbers[4];
    uint64_t number = 1;
    if (!next_line(&line) && ferror(stdin))
        return;
    uint32_t refusal = is_box(&line, numbers) ? open_box(numbers) : NOT_THE_FORM;
    if (refusal) {
        printf("0 refused %u\n", refusal);
        if (explains)
            explain_box(&line, numbers, refusal);
        return;
    }
    if (full) {
        printf("    box %zu %zu %zu %zu\n", B, P, m, d);
        print_state();
    }
    for (; next_line(&line); number++) {
        if (full)
            print_asked(&line);
        if (explains)
            see(&before);
        refusal = is_call(&line, &call) ? carry_out(&call) : NOT_THE_FORM;
        if (counting && (refusal || call.letter != 'R')) {
            stopped = number + 1;
            why = call.letter == 'R' && refusal == MINDAVEHU_NO_ADDRESS ? "is a read of an address that the disk has not; counts are of reads that are served"
                                                                     : "is no read; counts are of a list of reads alone";
            return;
        }
        if (refusal)
            printf("%llu refused %u\n", (unsigned long long)number, refusal);
        else
            print_answer(number, &call);
        if (explains)
            explain_line(&before, &line, &call, refusal);
        if (counting)
            print_counts(call.address);
        else
            print_state();
        if (number == warm) {
            start_again();
            if (why)
                return;
        }
    }
    if (ferror(stdin))
        return;
    requests = number - 1;
    too_short = warm > requests;
    print_counters();
    if (!counting)
        print_state();
    if (has_folder)
        open_folder(number);
}

/* Takes numbers from a word of the command: decimals as in a list, with commas between them, each at most `most` and as many as there is room for. Gives 0
 * where the word is not of that form. */
static int take_numbers(const char *word, uint32_t *numbers, size_t *count, size_t room, unsigned long most)
{
    while (*word) {
        size_t digits = strspn(word, "0123456789");
        if (digits == 0 || digits > 5 || (digits > 1 && *word == '0') || *count == room || strtoul(word, NULL, 10) > most)
            return 0;
        numbers[(*count)++] = (uint32_t)strtoul(word, NULL, 10);
        word += digits;
        if (*word == ',' && word[1])
            word++;
        else if (*word)
            return 0;
    }
    return 1;
}

/* The same for a word that is one number. */
static int take_number(const char *word, uint32_t *number)
{
    size_t count = 0;
    return take_numbers(word, number, &count, 1, 99999) && count == 1;
}

static int is_option(int count, char **words, int place, const char *text) { return place < count && strcmp(words[place], text) == 0; }

/* Takes the option of the command and its word. Gives 0, and says why, where they are not of the form. */
static int take_options(int count, char **words)
{
    int has_warm = is_option(count, words, 1, "--warm") && count == 3;
    full = is_option(count, words, 1, "--full");
    parts = is_option(count, words, 1, "--parts");
    seats = is_option(count, words, 1, "--seats");
    explains = is_option(count, words, full ? 2 : 1, "--explain");
    counting = is_option(count, words, 1, "--counts");
    has_folder = is_option(count, words, 1, "--folder") && count == 3;
    has_limit = is_option(count, words, 1, "--limit") && count == 3;
    if (counting && count <= 3) {
        if (count == 3 && !take_numbers(words[2], given, &given_count, MOST_P, 255)) {
            fprintf(stderr, "states: --counts takes at most %d contents from 0 to 255 with commas between them, such as 0,7,7: %s\n", MOST_P, words[2]);
            return 0;
        }
    } else if (has_folder) {
        if (!take_numbers(words[2], folder, &folder_count, MOST_FOLDER, 99999)) {
            fprintf(stderr, "states: --folder takes at most %d addresses with commas between them, such as 2,5,2: %s\n", MOST_FOLDER, words[2]);
            return 0;
        }
    } else if (has_limit) {
        if (!take_number(words[2], &limit)) {
            fprintf(stderr, "states: --limit takes one number of at most five digits, such as 2: %s\n", words[2]);
            return 0;
        }
    } else if (has_warm) {
        if (!take_number(words[2], &warm) || warm == 0) {
            fprintf(stderr, "states: --warm takes the number of a request, from 1 on and of at most five digits, such as 4: %s\n", words[2]);
            return 0;
        }
    } else if (count > 1 + full + parts + seats + explains) {
        fprintf(stderr, "states: unknown option %s; there are --full, --parts, --seats, --explain, --full --explain, --counts, --limit T, "
                "--warm LINE and --folder ADDRESSES\n", words[1]);
        return 0;
    }
    return 1;
}

int main(int count, char **words)
{
    if (!take_options(count, words))
        return 2;
    replay();
    if (ferror(stdin)) {
        fprintf(stderr, "states: the list cannot be read: %s\n", strerror(errno));
        return 1;
    }
    if (fflush(stdout) != 0 || ferror(stdout)) {
        fprintf(stderr, "states: the output cannot be written: %s\n", strerror(errno));
        return 1;
    }
    if (stopped)
        fprintf(stderr, "states: line %llu of the list %s\n", (unsigned long long)stopped, why);
    else if (why)
        fprintf(stderr, "states: %s\n", why);
    if (why)
        return 1;
    if (too_short) {
        fprintf(stderr, "states: the list has no request %u, after which the box is to be shut down: it has %llu\n", warm, (unsigned long long)requests);
        return 1;
    }
    if (differs)
        fprintf(stderr, "states: one call and single reads differ, which the engine is proved not to do\n");
    return differs;
}
