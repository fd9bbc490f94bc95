/* The order of a save's writes, seen while it runs: pages of the area are closed, and the first store to a closed page is caught before it is made. What the
 * area holds then is what a power cut would leave there. For each write of a body in turn the pages from it on are closed; then the header's page is closed
 * again while the body is written, to catch the last write. Before the first of all stores the flush is done.
 * Prints what it checked, or the line that failed. */
#define _GNU_SOURCE
#include <signal.h>
#include <stdio.h>
#include <stdlib.h>
#include <string.h>
#include <sys/mman.h>
#include <unistd.h>
#include "mindavehu.h"
#include "expect.h"

enum { B = 64, P = 400, M = 300, D = 100, OLD = 0xDD, HEADER = MINDAVEHU_IMAGE_HEADER, WRITE = MINDAVEHU_IMAGE_WRITE };
enum { LENGTH = 64 + (28 + 64 + (M + D) * 40 + 63) / 64 * 64, WRITES = LENGTH / WRITE - 1 };

static uint8_t disk[MINDAVEHU_DISK_LENGTH(B, P)], plain[MINDAVEHU_DISK_LENGTH(B, P)], seen_disk[MINDAVEHU_DISK_LENGTH(B, P)];
static uint8_t flash[MINDAVEHU_FLASH_LENGTH(B, D)], block[B];
static uint8_t addresses[MINDAVEHU_ADDRESSES_LENGTH(M)], blocks[MINDAVEHU_BLOCKS_LENGTH(D)];
static const uint8_t label[MINDAVEHU_LABEL] = "Office 7";
static struct mindavehu_box box;

/* The pages, the area in them, and what was seen of it: at the first store to a closed page, and at the next one after other pages were closed. */
static uint8_t *pages, *area, *border, seen[2][LENGTH], whole[LENGTH];
static size_t page, length;
static volatile sig_atomic_t caught, twice;
static uint8_t *volatile where[2];

static void close_pages(uint8_t *from, uint8_t *to, int closed)
{
    if (from < to && mprotect(from, (size_t)(to - from), closed ? PROT_READ : PROT_READ | PROT_WRITE) != 0)
        _exit(3);
}

/* At most two stores are caught in a save; anything else is a fault of the program, which is left to end it. */
static void stored(int number, siginfo_t *info, void *unused)
{
    uint8_t *at = info->si_addr;
    (void)unused;
    if (at < pages || at >= pages + length || caught == 2 || (caught == 1 && !twice)) {
        signal(number, SIG_DFL);
        return;
    }
    memcpy(seen[caught], area, LENGTH);
    memcpy(seen_disk, disk, sizeof disk);
    where[caught++] = at;
    close_pages(pages, pages + length, 0);
    if (caught == 1 && twice)
        close_pages(pages, border, 1);
}

/* A save with the area placed so that its write `at` starts at the border of a page, and the pages from the border on closed. */
static void save_up_to(size_t at, int again)
{
    border = pages + page * ((at * WRITE + page - 1) / page);
    area = border - at * WRITE;
    memset(pages, OLD, length);
    caught = 0, twice = again;
    close_pages(border, pages + length, 1);
    EXPECT(mindavehu_box_save(&box, area, LENGTH) == MINDAVEHU_SERVED);
    close_pages(pages, pages + length, 0);
}

static int filled(const uint8_t *bytes, size_t count, int byte)
{
    for (size_t k = 0; k < count; k++)
        if (bytes[k] != byte)
            return 0;
    return 1;
}

static void open_and_write(void)
{
    for (size_t k = 0; k < sizeof disk; k++)
        disk[k] = (uint8_t)(k / B);
    mindavehu_box_lend(&box, disk, sizeof disk, flash, sizeof flash, addresses, sizeof addresses, blocks, sizeof blocks);
    EXPECT(mindavehu_box_open(&box, label, sizeof label, B, P, M, D, M) == MINDAVEHU_SERVED);
    for (uint32_t k = 0; k < P; k++) {
        memset(block, (int)(k * 7 % 251), sizeof block);
        memcpy(plain + k * B, block, sizeof block);
        EXPECT(mindavehu_box_write_back(&box, k, (uint16_t)(k * 77), block, sizeof block) == MINDAVEHU_SERVED);
    }
}

int main(void)
{
    struct sigaction action;
    page = (size_t)sysconf(_SC_PAGESIZE);
    length = (LENGTH / page + 3) * page * 2;
    pages = mmap(NULL, length, PROT_READ | PROT_WRITE, MAP_PRIVATE | MAP_ANONYMOUS, -1, 0);
    EXPECT(pages != MAP_FAILED && MINDAVEHU_AREA_LENGTH(M, D) == LENGTH);
    memset(&action, 0, sizeof action);
    action.sa_sigaction = stored, action.sa_flags = SA_SIGINFO;
    EXPECT(sigaction(SIGSEGV, &action, NULL) == 0);
    open_and_write();

    /* The first store of a save is to the header, and the dirty addresses have reached the disk before it. */
    EXPECT(memcmp(disk, plain, sizeof disk) != 0);
    save_up_to(0, 0);
    EXPECT(caught == 1 && where[0] < area + HEADER && filled(seen[0], LENGTH, OLD));
    EXPECT(memcmp(seen_disk, plain, sizeof disk) == 0);
    memcpy(whole, area, LENGTH);
    /* The first store to write k of the body: the header is cleared, the writes before it are new, it and those behind it old. */
    for (size_t k = 1; k <= WRITES; k++) {
        save_up_to(k, 0);
        EXPECT(caught == 1 && where[0] >= border && where[0] < border + WRITE);
        EXPECT(filled(seen[0], HEADER, 0) && memcmp(seen[0] + HEADER, whole + HEADER, (k - 1) * WRITE) == 0);
        EXPECT(filled(seen[0] + k * WRITE, LENGTH - k * WRITE, OLD) && memcmp(area, whole, LENGTH) == 0);
    }
    /* After the first store to the body the next one to the header: the whole body is new, and the header still cleared. */
    save_up_to(1, 1);
    EXPECT(caught == 2 && where[1] >= area && where[1] < area + HEADER);
    EXPECT(filled(seen[0], HEADER, 0) && filled(seen[1], HEADER, 0) && memcmp(seen[1] + HEADER, whole + HEADER, LENGTH - HEADER) == 0);
    printf("order: a save caught at each of its %d writes: %u checks\n", WRITES + 2, checks);
    return 0;
}
