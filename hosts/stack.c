/* Measures the stack that a call of bench_listing uses: paints a thread's stack, makes the call, counts what changed. */
#define _GNU_SOURCE
#include <pthread.h>
#include <stdio.h>
#include <stdlib.h>
#include <string.h>
#include <sys/mman.h>

#include "lumbagyot.h"

enum {
    STACK = 1024 * 1024,
    GUARD = 64 * 1024, /* below the stack; a call that needs more ends the program */
    LIMIT = 256 * 1024,
    PAINT = 0xA5,
    WORDS = 2000,
};

static uint8_t book[BENCH_LONGEST_BOOK];
static uint8_t place[BENCH_PLACE];
static size_t listing_len;
static uint8_t *frame; /* where the caller's frame stands; what the call uses lies below */

static void *call(void *unused)
{
    frame = __builtin_frame_address(0);
    listing_len = bench_listing(book, sizeof book, place, sizeof place);
    return unused;
}

static void check(int good, const char *what)
{
    if (!good) {
        fprintf(stderr, "%s failed\n", what);
        exit(1);
    }
}

/* The bytes between the caller's frame and the lowest one that the call changed. */
static size_t measure(uint8_t *stack)
{
    pthread_t thread;
    pthread_attr_t attr;

    memset(stack, PAINT, STACK);
    check(pthread_attr_init(&attr) == 0, "pthread_attr_init");
    check(pthread_attr_setstack(&attr, stack, STACK) == 0, "pthread_attr_setstack");
    check(pthread_create(&thread, &attr, call, NULL) == 0, "pthread_create");
    check(pthread_join(thread, NULL) == 0, "pthread_join");
    pthread_attr_destroy(&attr);

    uint8_t *lowest = stack;
    while (lowest < frame && *lowest == PAINT)
        lowest++;
    return (size_t)(frame - lowest);
}

static uint8_t *put_low_first(uint8_t *at, uint64_t number, int bytes)
{
    for (int i = 0; i < bytes; i++)
        *at++ = (uint8_t)(number >> (8 * i));
    return at;
}

/* Moves by chance, always the same ones, with steps more often than landings, and landings than drains. */
static uint8_t chance_move(uint32_t *state)
{
    *state = *state * 1664525 + 1013904223;
    uint32_t drawn = *state >> 16;
    uint8_t pick = drawn & 0x3F;
    switch ((drawn >> 6) % 16) {
    case 0: return 0x02;
    case 1: case 2: case 3: return 0x40 | pick;
    case 4: case 5: return 0x80 | pick;
    case 6: case 7: case 8: case 9: return 0x01;
    default: return 0x00;
    }
}

/* A book of the greatest length: all words first, then nothing but moves. */
static void build(uint8_t kind, uint8_t rings, uint8_t cells, uint8_t memory, uint8_t depth)
{
    static const uint64_t items[3] = {0, 0x0301010000000FA0, 0x1001010000008000};
    const uint32_t moves_at = 30 + 8 * WORDS;
    uint32_t state = depth;

    uint8_t *at = put_low_first(book, 3, 1);
    at = put_low_first(at, 25, 4);
    at = put_low_first(at, 5, 4);
    at = put_low_first(at, 30, 4);
    at = put_low_first(at, 8 * WORDS, 4);
    at = put_low_first(at, moves_at, 4);
    at = put_low_first(at, sizeof book - moves_at, 4);
    *at++ = kind;
    *at++ = rings;
    *at++ = cells;
    *at++ = memory;
    *at++ = depth;
    for (int i = 0; i < WORDS; i++)
        at = put_low_first(at, items[kind], 8);
    while (at < book + sizeof book)
        *at++ = chance_move(&state);
}

int main(void)
{
    static const uint8_t shapes[3][2] = {{2, 1}, {3, 2}, {8, 64}};
    static const uint8_t depths[3] = {0, 1, 16};
    size_t most = 0;

    uint8_t *region = mmap(NULL, GUARD + STACK, PROT_READ | PROT_WRITE, MAP_PRIVATE | MAP_ANONYMOUS, -1, 0);
    check(region != MAP_FAILED, "mmap");
    check(mprotect(region, GUARD, PROT_NONE) == 0, "mprotect");

    for (uint8_t kind = 1; kind <= 2; kind++)
        for (uint8_t memory = 1; memory <= 2; memory++)
            for (int depth = 0; depth < 3; depth++)
                for (int shape = 0; shape < 3; shape++) {
                    build(kind, shapes[shape][0], shapes[shape][1], memory, depths[depth]);
                    size_t used = measure(region + GUARD);
                    check(listing_len > 0, "the call");
                    if (used > most)
                        most = used;
                }

    printf("stack: at most %zu bytes in a call, of less than %d: %s\n", most, LIMIT, most < LIMIT ? "passed" : "FAILED");
    return most < LIMIT ? 0 : 1;
}
