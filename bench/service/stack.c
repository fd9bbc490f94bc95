/* Prints the stack that each call of the service needs, at m = 1,024 and d = 256: each runs in a thread whose stack was filled with one byte. */
#define _GNU_SOURCE
#include <pthread.h>
#include <stdio.h>
#include <stdlib.h>
#include <string.h>
#include <sys/mman.h>
#include "mindavehu.h"

enum { B = 4096, P = 2048, M = 1024, D = 256, STACK = 1 << 20, PAINT = 0xA5 };

static uint8_t buffer[MINDAVEHU_MANY_MOST * B], many[MINDAVEHU_MANY_ANSWER];
static uint8_t state[MINDAVEHU_STATE], answer[MINDAVEHU_ANSWER], addresses[M * MINDAVEHU_ROW], blocks[D * MINDAVEHU_ROW], block[B];
static uint8_t manager[MINDAVEHU_MANAGER_REPORT_LENGTH(M)], desk[MINDAVEHU_DESK_REPORT_LENGTH(M)], area[MINDAVEHU_AREA_LENGTH(M, D)];
static const uint8_t label[MINDAVEHU_LABEL] = "Office 7";
static uint8_t *disk, *flash;

#define MEMORY disk, P *B, flash, D *B, addresses, sizeof addresses, blocks, sizeof blocks
#define BLOCK block, B, answer, sizeof answer

static void *nothing(void *unused) { return unused; }

static void *opens(void *unused)
{
    mindavehu_open(state, sizeof state, label, sizeof label, MEMORY);
    return unused;
}

/* More addresses and contents than the tables hold, so that rows and blocks are taken. */
static void *writes_back(void *unused)
{
    for (unsigned k = 0; k < 1500; k++) {
        memset(block, (int)(k % 251), B);
        block[0] = (uint8_t)(k >> 8);
        mindavehu_write_back(state, sizeof state, k, (uint16_t)k, MEMORY, BLOCK);
    }
    return unused;
}

static void *writes_through(void *unused)
{
    for (unsigned k = 0; k < 800; k++) {
        memset(block, (int)(k % 101), B);
        mindavehu_write_through(state, sizeof state, k, (uint16_t)k, MEMORY, BLOCK);
    }
    return unused;
}

static void *invalidates(void *unused)
{
    for (unsigned k = 0; k < 800; k++)
        mindavehu_write_invalidate(state, sizeof state, k, (uint16_t)k, MEMORY, BLOCK);
    return unused;
}

static void *reads(void *unused)
{
    for (unsigned k = 0; k < 1500; k++)
        mindavehu_read(state, sizeof state, k, MEMORY, BLOCK);
    return unused;
}

/* Folders of 64 addresses, the second half of each the first again: some hit, most miss. */
static void *folders(void *unused)
{
    static uint32_t asked[MINDAVEHU_MANY_MOST];
    for (unsigned k = 0; k < 24; k++) {
        for (unsigned i = 0; i < MINDAVEHU_MANY_MOST; i++)
            asked[i] = (k * MINDAVEHU_MANY_MOST + i % 32 * 2) % P;
        mindavehu_read_many(state, sizeof state, asked, MINDAVEHU_MANY_MOST, MEMORY, buffer, sizeof buffer, many, sizeof many);
    }
    return unused;
}

static void *flushes(void *unused)
{
    mindavehu_flush(state, sizeof state, MEMORY, answer, sizeof answer);
    return unused;
}

static void *flushes_in_parts(void *unused)
{
    mindavehu_flush_some(state, sizeof state, 5, MEMORY, answer, sizeof answer);
    return unused;
}

static void *looks(void *unused)
{
    mindavehu_look(state, sizeof state, 1200, MEMORY, answer, sizeof answer);
    return unused;
}

static void *manager_reports(void *unused)
{
    mindavehu_manager_report(state, sizeof state, MEMORY, manager, sizeof manager);
    return unused;
}

static void *desk_reports(void *unused)
{
    mindavehu_desk_report(state, sizeof state, MEMORY, desk, sizeof desk);
    return unused;
}

/* The restore takes the image of the save. */
static void *saves(void *unused)
{
    mindavehu_save(state, sizeof state, MEMORY, area, sizeof area, answer, sizeof answer);
    return unused;
}

static void *restores(void *unused)
{
    mindavehu_restore(state, sizeof state, area, sizeof area, addresses, sizeof addresses, blocks, sizeof blocks, block, 0);
    return unused;
}

/* Eight reads of four addresses. */
static void *asks(void *unused)
{
    static uint8_t counts[MINDAVEHU_COUNTS];
    mindavehu_scores(MINDAVEHU_SCORES_B, MINDAVEHU_SCORES_P, 3, 2, 3, label, sizeof label, disk,
                     MINDAVEHU_DISK_LENGTH(MINDAVEHU_SCORES_B, MINDAVEHU_SCORES_P),
                     MINDAVEHU_SCORES_K, counts, sizeof counts);
    return unused;
}

/* The bytes of its stack that a thread changed. */
static long used(void *(*call)(void *))
{
    uint8_t *stack = mmap(NULL, STACK, PROT_READ | PROT_WRITE, MAP_PRIVATE | MAP_ANONYMOUS, -1, 0);
    pthread_attr_t attributes;
    pthread_t thread;
    long k = 0;
    memset(stack, PAINT, STACK);
    pthread_attr_init(&attributes);
    pthread_attr_setstack(&attributes, stack, STACK);
    if (pthread_create(&thread, &attributes, call, NULL))
        exit(1);
    pthread_join(thread, NULL);
    while (k < STACK && stack[k] == PAINT)
        k++;
    munmap(stack, STACK);
    return STACK - k;
}

int main(void)
{
    static const struct { const char *name; void *(*call)(void *); } calls[] = {
        {"open", opens}, {"write back", writes_back}, {"read", reads}, {"folder", folders}, {"flush in parts", flushes_in_parts}, {"flush", flushes},
        {"look", looks}, {"manager's report", manager_reports}, {"desk's report", desk_reports}, {"write invalidate", invalidates},
        {"write through", writes_through}, {"save", saves}, {"restore", restores}, {"exam question", asks},
    };
    long none = used(nothing);
    disk = calloc(P, B);
    flash = calloc(D, B);
    mindavehu_put(state, MINDAVEHU_B, B);
    mindavehu_put(state, MINDAVEHU_P, P);
    mindavehu_put(state, MINDAVEHU_M, M);
    mindavehu_put(state, MINDAVEHU_D, D);
    /* Above it a write back copies a block more. */
    mindavehu_put(state, MINDAVEHU_T, 100);
    puts("Stack of each call, in bytes, less that of an empty thread:");
    for (size_t k = 0; k < sizeof calls / sizeof *calls; k++)
        printf("%-20s %8ld\n", calls[k].name, used(calls[k].call) - none);
    return 0;
}
