/* The near side: a library with the exports of libtrussember.a, for machines that are not x86-64.
 *
 * The real library is proved and compiled for x86-64 alone. So that the C example and the
 * comparisons with the Rust are run on other machines too, a native program links this one in its
 * place: each call is told to far.c, a program for x86-64 that runs under the toolchain's emulator
 * and makes the call in the real library. Memory lent is sent whole, and sent back whole where the
 * function may write it, so that memory to be left as it was is compared too.
 *
 * EMULATOR and FAR_PROGRAM are paths, given by tests/far/make. Calls are made by one thread. */
#define _POSIX_C_SOURCE 200809L

#include "message.h"

#include <signal.h>
#include <stdio.h>
#include <stdlib.h>
#include <sys/socket.h>
#include <unistd.h>

#define KEY 32

/* The streams to the far side and from it; null before the first call. */
static FILE *to;
static FILE *from;

/* The call in the making: its message, how many numbers and slices it has so far, where the
 * slices are, and where they are once more if they come back. */
static message call;
static int numbers;
static int slices;
static const uint8_t *lent[SLICES];
static uint8_t *returned[SLICES];

static void fail(const char *what) {
    fprintf(stderr, "near: %s\n", what);
    abort();
}

/* Runs the far program, its standard input and output joined to this socket. */
static void become_far(int socket) {
    dup2(socket, STDIN_FILENO);
    dup2(socket, STDOUT_FILENO);
    close(socket);
    execl(EMULATOR, EMULATOR, FAR_PROGRAM, (char *)NULL);
    perror("near: " EMULATOR);
    _exit(1);
}

static void start_far(void) {
    int ends[2];
    pid_t child;
    if (socketpair(AF_UNIX, SOCK_STREAM, 0, ends) != 0) {
        fail("no socket");
    }
    child = fork();
    if (child < 0) {
        fail("no process");
    }
    if (child == 0) {
        close(ends[0]);
        become_far(ends[1]);
    }
    close(ends[1]);
    signal(SIGPIPE, SIG_IGN);
    to = fdopen(ends[0], "w");
    from = fdopen(ends[0], "r");
    if (to == NULL || from == NULL) {
        fail("no stream");
    }
}

static void give(const void *memory, size_t len) {
    if (fwrite(memory, 1, len, to) != len) {
        fail("the far side does not listen");
    }
}

static void take(void *memory, size_t len) {
    if (fread(memory, 1, len, from) != len) {
        fail("the far side does not answer");
    }
}

/* A call is begun, then given its numbers and slices in their order, then made. */

static void begin(enum function function) {
    const message empty = {0};
    call = empty;
    call.function = function;
    numbers = 0;
    slices = 0;
}

static void pass(uint64_t number) {
    call.numbers[numbers] = number;
    numbers++;
}

static void lend(const uint8_t *memory, size_t len) {
    if (len > LONGEST) {
        fail("a slice is too long");
    }
    call.lengths[slices] = len;
    lent[slices] = memory;
    slices++;
}

static void lend_to_change(uint8_t *memory, size_t len) {
    call.changed[slices] = 1;
    returned[slices] = memory;
    lend(memory, len);
}

static answer make(void) {
    answer told;
    int i;
    if (to == NULL) {
        start_far();
    }
    give(&call, sizeof call);
    for (i = 0; i < slices; i++) {
        give(lent[i], call.lengths[i]);
    }
    if (fflush(to) != 0) {
        fail("the far side does not listen");
    }
    take(&told, sizeof told);
    for (i = 0; i < slices; i++) {
        if (call.changed[i]) {
            take(returned[i], call.lengths[i]);
        }
    }
    return told;
}

/* The exports, as trussember.h has them. */

trussember_checked trussember_check(const uint8_t *page, size_t page_len) {
    begin(CHECK);
    lend(page, page_len);
    return make().checked;
}

trussember_entry_read trussember_entry(const uint8_t *page, size_t page_len, size_t index,
                                       uint8_t key[32]) {
    begin(ENTRY);
    lend(page, page_len);
    pass(index);
    lend_to_change(key, KEY);
    return make().entry;
}

trussember_built trussember_build(const uint8_t *base, size_t base_len, const uint8_t *record,
                                  size_t record_len, uint32_t number, uint8_t *page,
                                  size_t page_len, uint8_t *undo, size_t undo_len) {
    begin(BUILD);
    lend(base, base_len);
    lend(record, record_len);
    pass(number);
    lend_to_change(page, page_len);
    lend_to_change(undo, undo_len);
    return make().built;
}

uint64_t trussember_bit_copy(uint8_t *dst, size_t dst_len, size_t dst_bit, const uint8_t *src,
                             size_t src_len, size_t src_bit, size_t bits) {
    begin(BIT_COPY);
    lend_to_change(dst, dst_len);
    pass(dst_bit);
    lend(src, src_len);
    pass(src_bit);
    pass(bits);
    return make().number;
}

uint64_t trussember_separator_len(const uint8_t key[32]) {
    begin(SEPARATOR_LEN);
    lend(key, KEY);
    return make().number;
}

uint64_t trussember_prefix_len(const uint8_t a[32], const uint8_t b[32]) {
    begin(PREFIX_LEN);
    lend(a, KEY);
    lend(b, KEY);
    return make().number;
}

uint64_t trussember_separate(const uint8_t a[32], const uint8_t b[32], uint8_t out[32]) {
    begin(SEPARATE);
    lend(a, KEY);
    lend(b, KEY);
    lend_to_change(out, KEY);
    return make().number;
}

uint64_t trussember_reconstruct_key(const uint8_t *prefix, size_t prefix_len, size_t prefix_bits,
                                    const uint8_t *separator, size_t separator_len, size_t start,
                                    size_t bits, uint8_t out[32]) {
    begin(RECONSTRUCT_KEY);
    lend(prefix, prefix_len);
    pass(prefix_bits);
    lend(separator, separator_len);
    pass(start);
    pass(bits);
    lend_to_change(out, KEY);
    return make().number;
}

trussember_size trussember_body_size(uint64_t q, uint64_t sum, uint64_t n) {
    begin(BODY_SIZE);
    pass(q);
    pass(sum);
    pass(n);
    return make().size;
}

trussember_size trussember_uncompressed_separator_range_size(uint64_t q, uint64_t sum, uint64_t n,
                                                             uint64_t first) {
    begin(UNCOMPRESSED_SIZE);
    pass(q);
    pass(sum);
    pass(n);
    pass(first);
    return make().size;
}

trussember_size trussember_compressed_separator_range_size(uint64_t first, uint64_t m,
                                                           uint64_t others, uint64_t q) {
    begin(COMPRESSED_SIZE);
    pass(first);
    pass(m);
    pass(others);
    pass(q);
    return make().size;
}
