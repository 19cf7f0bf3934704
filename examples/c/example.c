/* Document 01's worked example over C linkage: the keys 80 and C0 with the pointers 17 and 34 on
 * page 7 are built, checked and read; one pointer is updated and the update undone. examples/c/run
 * compiles it, links it and compares what it prints. */
#include "trussember.h"

#include <inttypes.h>
#include <stdio.h>
#include <string.h>

static void print_bytes(const char *name, const uint8_t *bytes, size_t count)
{
    printf("%s", name);
    for (size_t i = 0; i < count; i++)
        printf(" %02x", bytes[i]);
    printf("\n");
}

static void print_built(const char *name, trussember_built b)
{
    printf("%s: refusal %" PRIu64 ", n %" PRIu64 ", m %" PRIu64 ", q %" PRIu64 ", bits %" PRIu64
           ", undo %" PRIu64 "\n",
           name, b.refusal, b.n, b.m, b.q, b.bits, b.undo);
}

/* Puts the `width` lowest bits of a number to the bit `at` of a record; the bit behind them. */
static size_t put_number(uint8_t *record, size_t len, size_t at, uint32_t number, size_t width)
{
    uint8_t bytes[4] = {number >> 24, number >> 16 & 255, number >> 8 & 255, number & 255};
    trussember_bit_copy(record, len, at, bytes, sizeof bytes, 32 - width, width);
    return at + width;
}

/* Puts the edit that inserts a key. */
static size_t put_insert(uint8_t *record, size_t len, size_t at, const uint8_t key[32],
                         uint32_t pointer)
{
    at = put_number(record, len, at, 0, 2);
    trussember_bit_copy(record, len, at, key, 32, 0, 256);
    return put_number(record, len, at + 256, pointer, 32);
}

int main(void)
{
    static uint8_t page[TRUSSEMBER_PAGE_SIZE], next[TRUSSEMBER_PAGE_SIZE];
    static uint8_t back[TRUSSEMBER_PAGE_SIZE];
    static uint8_t undo[TRUSSEMBER_UNDO_SIZE], redo[TRUSSEMBER_UNDO_SIZE];
    const uint8_t a[32] = {0x80}, b[32] = {0xc0};

    /* a record of two inserts: 10 bits of count and 290 bits each, in 74 bytes */
    uint8_t inserts[74] = {0};
    size_t at = put_number(inserts, sizeof inserts, 0, 2, 10);
    at = put_insert(inserts, sizeof inserts, at, a, 17);
    at = put_insert(inserts, sizeof inserts, at, b, 34);
    printf("record: %zu bits\n", at);

    trussember_built built =
        trussember_build(page, 0, inserts, sizeof inserts, 7, next, sizeof next, undo, sizeof undo);
    print_built("build", built);
    memcpy(page, next, sizeof page);
    print_bytes("page starts", page, 16);
    print_bytes("page ends", page + sizeof page - 8, 8);

    trussember_checked h = trussember_check(page, sizeof page);
    printf("check: refusal %" PRIu64 ", number %" PRIu64 ", n %" PRIu64 ", m %" PRIu64
           ", q %" PRIu64 ", bits %" PRIu64 "\n",
           h.refusal, h.number, h.n, h.m, h.q, h.bits);
    for (size_t i = 0; i <= h.n; i++) {
        uint8_t key[32] = {0};
        trussember_entry_read e = trussember_entry(page, sizeof page, i, key);
        printf("entry %zu: refusal %" PRIu64 ", pointer %" PRIu64 ",", i, e.refusal, e.pointer);
        print_bytes(" key", key, 2);
    }

    /* Keep 0..1 and Update 1 to pointer 5 on page 8; the undo record brings page 7 back */
    uint8_t update[10] = {0};
    at = put_number(update, sizeof update, 0, 2, 10);
    at = put_number(update, sizeof update, at, 2, 2);
    at = put_number(update, sizeof update, at, 0, 10);
    at = put_number(update, sizeof update, at, 1, 10);
    at = put_number(update, sizeof update, at, 1, 2);
    at = put_number(update, sizeof update, at, 1, 10);
    at = put_number(update, sizeof update, at, 5, 32);
    built = trussember_build(page, sizeof page, update, sizeof update, 8, next, sizeof next, undo,
                             sizeof undo);
    print_built("update", built);
    print_bytes("undo record", undo, built.undo);
    built = trussember_build(next, sizeof next, undo, built.undo, 7, back, sizeof back, redo,
                             sizeof redo);
    print_built("undone", built);
    printf("the base again: %s\n", memcmp(back, page, sizeof page) == 0 ? "yes" : "no");

    uint8_t out[32] = {0};
    uint64_t refusal = trussember_separate(a, b, out);
    printf("separate: refusal %" PRIu64 ",", refusal);
    print_bytes(" key", out, 2);
    printf("shared bits: %" PRIu64 ", separator length: %" PRIu64 "\n", trussember_prefix_len(a, b),
           trussember_separator_len(b));

    page[6] = 3; /* m above n */
    printf("damaged: refusal %" PRIu64 "\n", trussember_check(page, sizeof page).refusal);
    return 0;
}
