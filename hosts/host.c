/* A host in C: prints the listing of the book in the file named, or of a book that it builds itself. */
#include <stdio.h>
#include <string.h>

#include "lumbagyot.h"

/* A book as it is built up. One byte more than a book may have, so that a file too long is seen to be. */
struct book {
    uint8_t bytes[BENCH_LONGEST_BOOK + 1];
    size_t len;
};

static void put_low_first(struct book *book, uint64_t number, int bytes)
{
    for (int i = 0; i < bytes; i++)
        book->bytes[book->len++] = (uint8_t)(number >> (8 * i));
}

static void put_moves(struct book *book, uint8_t move, size_t times)
{
    memset(book->bytes + book->len, move, times);
    book->len += times;
}

static void put_pair(struct book *book, uint32_t offset, uint32_t length)
{
    put_low_first(book, offset, 4);
    put_low_first(book, length, 4);
}

/* Three edits through two rings of one cell on the prompt memory. */
static void build_example(struct book *book)
{
    static const uint8_t settings[5] = {1, 2, 1, 1, 0};
    static const uint64_t words[3] = {0x01010100000000FA, 0x0301010000000FA0, 0x0402010000000032};

    book->len = 0;
    put_low_first(book, 3, 1);
    put_pair(book, 25, sizeof settings);
    put_pair(book, 30, sizeof words);
    put_pair(book, 54, 13 + 11 + 3);
    memcpy(book->bytes + book->len, settings, sizeof settings);
    book->len += sizeof settings;
    for (int i = 0; i < 3; i++)
        put_low_first(book, words[i], 8);
    put_moves(book, 0x00, 13);
    put_moves(book, 0x01, 11);
    put_moves(book, 0x00, 3);
}

static int read_book(struct book *book, const char *path)
{
    FILE *file = fopen(path, "rb");
    if (file == NULL) {
        perror(path);
        return 0;
    }
    book->len = fread(book->bytes, 1, sizeof book->bytes, file);
    int good = !ferror(file);
    if (!good)
        perror(path);
    fclose(file);
    return good;
}

int main(int argc, char **argv)
{
    static struct book book;
    static uint8_t place[BENCH_PLACE];

    if (argc > 2) {
        fprintf(stderr, "usage: %s [BOOK]\n", argv[0]);
        return 2;
    }
    if (argc == 1)
        build_example(&book);
    else if (!read_book(&book, argv[1]))
        return 1;

    size_t len = bench_listing(book.bytes, book.len, place, sizeof place);
    if (len == 0) {
        fprintf(stderr, "the place is too short for the listing\n");
        return 1;
    }
    return fwrite(place, 1, len, stdout) == len ? 0 : 1;
}
