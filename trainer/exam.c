/* Counts, over all lists of k reads from a fresh box, how many have each score, and prints the nine counts with the share of each:
 *
 *     box 64 3 2 1, lists of 3 reads: 27
 *     hits   lists    share
 *        0      12   44.4 %  ########################################
 *        1      12   44.4 %  ########################################
 *        2       3   11.1 %  ##########
 *        3       0    0.0 %
 *
 * (and so on to 8 hits). The words of the command are B P m d k and, where the disk is not to have block a filled with byte a, a file with the P x B bytes
 * of the disk, or --disk CONTENTS: the bytes that its first blocks are filled with, decimals with commas between them. The label is all zeros, as in a replay.
 *
 * With --list SCORE N, N lists with that score follow, spread evenly over all that have it, each with its key, the answers of the engine:
 *
 *     2 of 12 lists with 1 hit:
 *         0 0 1   miss hit miss
 *         1 2 2   miss miss hit
 *
 * Which lists have the score is told by counting (U9), and the engine then answers them: that both agree is looked at.
 *
 * Exit status: 0 when the counts were printed; 1 where the question is refused, the file cannot be read or the output cannot be written; 2 for words that
 * are not of the form. */
#include <errno.h>
#include <stdio.h>
#include <stdlib.h>
#include <string.h>
#include "mindavehu.h"

#define MOST_P MINDAVEHU_SCORES_P
#define MOST_K MINDAVEHU_SCORES_K
#define BLOCK MINDAVEHU_SCORES_B
#define MOST_M 1024
#define MOST_D 256
#define BAR 40

static size_t B, P, m, d, k;
static uint8_t nothing[1], *disk = nothing;
static size_t disk_length;
static uint8_t counts[MINDAVEHU_COUNTS];
static const uint8_t label[MINDAVEHU_LABEL] = {0};

/* The lists to be shown, where some are asked for. */
static int shows;
static size_t score, shown;

static void fail(int status, const char *text, const char *word)
{
    fprintf(stderr, "exam: ");
    fprintf(stderr, text, word);
    fprintf(stderr, "\n");
    exit(status);
}

static uint32_t ask(void) { return mindavehu_scores(B, P, m, d, m, label, sizeof label, disk, disk_length, k, counts, sizeof counts); }

static size_t count_of(size_t hits) { return (size_t)mindavehu_get(counts, 8 * hits); }

/* ---- The words of the command. */

/* Whether a word is a decimal without a leading zero, of at most nine digits. */
static int is_number(const char *word)
{
    size_t digits = strspn(word, "0123456789");
    return digits > 0 && digits < 10 && !word[digits] && (digits == 1 || *word != '0');
}

static size_t number_of(const char *word)
{
    if (!is_number(word))
        fail(2, "a decimal without a leading zero, of at most nine digits, is wanted, and this is none: %s", word);
    return (size_t)strtoul(word, NULL, 10);
}

/* ---- The disk. */

static void lend_disk(size_t length)
{
    disk = malloc(length);
    if (!disk)
        fail(1, "there is no memory for a disk of P x B bytes%s", "");
    disk_length = length;
}

/* Block a is filled with byte a, or with the content that is given for it. */
static void fill_disk(const char *contents)
{
    lend_disk(P * B);
    for (size_t a = 0; a < P; a++)
        memset(disk + a * B, (int)(a % 256), B);
    const char *rest = contents;
    for (size_t a = 0; rest && *rest; a++) {
        size_t digits = strspn(rest, "0123456789");
        unsigned long content = strtoul(rest, NULL, 10);
        const char *end = rest + digits;
        if (digits == 0 || digits > 3 || (digits > 1 && *rest == '0') || content > 255 || (*end && (*end != ',' || !end[1])))
            fail(2, "--disk takes contents from 0 to 255 with commas between them, such as 0,7,7; this is no such list: %s", contents);
        if (a >= P)
            fail(2, "--disk has more contents than the disk has blocks, from here on: %s", rest);
        memset(disk + a * B, (int)content, B);
        rest = *end ? end + 1 : end;
    }
}

/* A file that is longer than the disk is read one byte further, so that its length is refused. */
static void read_disk(const char *name)
{
    FILE *file = fopen(name, "rb");
    if (!file)
        fail(1, "the file with the disk cannot be opened: %s", strerror(errno));
    lend_disk(P * B + 1);
    disk_length = fread(disk, 1, P * B + 1, file);
    if (ferror(file))
        fail(1, "the file with the disk cannot be read: %s", strerror(errno));
    fclose(file);
}

/* ---- The table. */

static void print_table(void)
{
    size_t total = 0, most = 0;
    for (size_t h = 0; h <= MOST_K; h++) {
        total += count_of(h);
        most = count_of(h) > most ? count_of(h) : most;
    }
    printf("box %zu %zu %zu %zu, lists of %zu read%s: %zu\n", B, P, m, d, k, k == 1 ? "" : "s", total);
    printf("hits   lists    share\n");
    for (size_t h = 0; h <= MOST_K; h++) {
        size_t count = count_of(h), tenths = (2000 * count + total) / (2 * total), bar = (BAR * count + most - 1) / most;
        printf("%4zu %7zu %4zu.%zu %%%s", h, count, tenths / 10, tenths % 10, bar ? "  " : "");
        while (bar-- > 0)
            printf("#");
        printf("\n");
    }
}

/* ---- The lists with a score. */

/* The distinct others since the last read of the same address, or of the same content; -1 where there is none. */
static long others_since(const uint32_t *list, size_t at, int by_content)
{
    uint8_t seen[MOST_P] = {0};
    long distinct = 0;
    for (size_t i = at; i-- > 0;) {
        size_t first = list[i];
        int same = list[i] == list[at];
        if (by_content) {
            same = memcmp(disk + list[i] * B, disk + list[at] * B, B) == 0;
            for (first = 0; memcmp(disk + first * B, disk + list[i] * B, B) != 0;)
                first++;
        }
        if (same)
            return distinct;
        distinct += !seen[first];
        seen[first] = 1;
    }
    return -1;
}

/* The hits of a list, told from the list alone. */
static size_t told_hits(const uint32_t *list)
{
    size_t hits = 0;
    for (size_t at = 0; at < k; at++) {
        long others = others_since(list, at, 0);
        hits += others >= 0 && others < (long)m && others_since(list, at, 1) < (long)d;
    }
    return hits;
}

/* The list of this number, the last read turning fastest. */
static void list_of(size_t number, uint32_t *list)
{
    for (size_t at = k; at-- > 0; number /= P)
        list[at] = (uint32_t)(number % P);
}

/* Reads a list on a fresh box and prints it with its key. */
static void print_key(const uint32_t *list)
{
    static uint8_t flash[MOST_D * BLOCK], addresses[MOST_M * MINDAVEHU_ROW], blocks[MOST_D * MINDAVEHU_ROW], block[BLOCK];
    struct mindavehu_box box;
    size_t hits = 0;
    mindavehu_box_lend(&box, disk, disk_length, flash, MINDAVEHU_FLASH_LENGTH(B, d), addresses, MINDAVEHU_ADDRESSES_LENGTH(m), blocks,
                       MINDAVEHU_BLOCKS_LENGTH(d));
    if (mindavehu_box_open(&box, label, sizeof label, B, P, m, d, m))
        fail(1, "the engine opens no box of these numbers, which it is proved to do%s", "");
    printf("   ");
    for (size_t at = 0; at < k; at++)
        printf(" %u", list[at]);
    printf("  ");
    for (size_t at = 0; at < k; at++) {
        if (mindavehu_box_read(&box, list[at], block, sizeof block))
            fail(1, "the engine refuses a read, which it is proved not to do%s", "");
        uint64_t word = mindavehu_get(box.answer, MINDAVEHU_WORD);
        hits += word == MINDAVEHU_HIT;
        printf(" %s", mindavehu_word_name(word));
    }
    printf("\n");
    if (hits != score)
        fail(1, "the engine answers otherwise than the counts tell, which it is proved not to do%s", "");
}

/* The lists with the score in their order; of those, as many as are asked for, spread evenly. */
static void print_lists(void)
{
    uint32_t list[MOST_K];
    size_t all = 1, found = 0, printed = 0, count = count_of(score);
    size_t wanted = shown < count ? shown : count;
    for (size_t at = 0; at < k; at++)
        all *= P;
    printf("%zu of %zu list%s with %zu hit%s%s\n", wanted, count, count == 1 ? "" : "s", score, score == 1 ? "" : "s", wanted ? ":" : "");
    for (size_t number = 0; number < all; number++) {
        list_of(number, list);
        if (told_hits(list) != score)
            continue;
        if (printed < wanted && found == printed * count / wanted) {
            print_key(list);
            printed++;
        }
        found++;
    }
    if (found != count)
        fail(1, "the counts are otherwise than counting tells, which they are proved not to be%s", "");
}

int main(int words, char **word)
{
    size_t *numbers[] = {&B, &P, &m, &d, &k}, given = 0;
    const char *file = NULL, *contents = NULL;
    for (int i = 1; i < words; i++) {
        if (strcmp(word[i], "--list") == 0) {
            if (shows || i + 2 >= words)
                fail(2, "--list is given once, with a score and how many lists: --list 3 5%s", "");
            shows = 1, score = number_of(word[i + 1]), shown = number_of(word[i + 2]), i += 2;
            if (score > MOST_K)
                fail(2, "a score is from 0 to 8: %s", word[i - 1]);
        } else if (strcmp(word[i], "--disk") == 0) {
            if (contents || i + 1 >= words)
                fail(2, "--disk is given once, with the contents of the first blocks: --disk 0,7,7%s", "");
            contents = word[++i];
        } else if (word[i][0] == '-') {
            fail(2, "unknown option %s", word[i]);
        } else if (given < 5) {
            *numbers[given++] = number_of(word[i]);
        } else if (!file) {
            file = word[i];
        } else {
            fail(2, "one file at a time, and this is one more: %s", word[i]);
        }
    }
    if (given < 5)
        fail(2, "five numbers are wanted: B P m d k, such as 64 4 3 2 6%s", "");
    if (file && contents)
        fail(2, "the disk is given by --disk or by a file, not by both%s", "");
    /* Numbers that are outside their sets are refused before a disk of their size is made. */
    uint32_t refusal = ask();
    if (refusal != MINDAVEHU_OUTSIDE) {
        if (file)
            read_disk(file);
        else
            fill_disk(contents);
        refusal = ask();
    }
    if (refusal) {
        fprintf(stderr, "exam: refused with %u: %s\n", refusal, mindavehu_refusal_text(refusal));
        return 1;
    }
    print_table();
    if (shows)
        print_lists();
    if (fflush(stdout) != 0 || ferror(stdout))
        fail(1, "the output cannot be written: %s", strerror(errno));
    return 0;
}
