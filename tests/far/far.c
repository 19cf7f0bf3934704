/* The far side: a program for x86-64 that makes the calls of near.c in the real libtrussember.a.
 *
 * It runs under the toolchain's emulator on machines that are not x86-64. Calls come in by
 * standard input and answers go out by standard output, in the shape of message.h, until the
 * input ends. Each slice lent to the library ends where its memory ends: behind it is memory that
 * nobody may touch, so that a read or a write past a slice ends the program, and with it the
 * comparison. */
#include "message.h"

/* The toolchain has the C library for x86-64 without its headers: this is what is used of it. */
typedef struct _IO_FILE FILE;
extern FILE *stdin;
extern FILE *stdout;
size_t fread(void *memory, size_t size, size_t count, FILE *stream);
size_t fwrite(const void *memory, size_t size, size_t count, FILE *stream);
int fflush(FILE *stream);
int posix_memalign(void **memory, size_t alignment, size_t size);
int mprotect(void *memory, size_t len, int protection);
void exit(int status);
#define PROT_NONE 0

/* A multiple of every size that a page of memory has on such machines. */
#define GUARD (1 << 16)

/* The call at hand, and the ends of the memory for its slices. */
static message call;
static uint8_t *ends[SLICES];

static void reserve(void) {
    void *memory;
    int i;
    for (i = 0; i < SLICES; i++) {
        if (posix_memalign(&memory, GUARD, LONGEST + GUARD) != 0) {
            exit(1);
        }
        ends[i] = (uint8_t *)memory + LONGEST;
        if (mprotect(ends[i], GUARD, PROT_NONE) != 0) {
            exit(1);
        }
    }
}

static void take(void *memory, size_t len) {
    if (fread(memory, 1, len, stdin) != len) {
        exit(0);
    }
}

static void give(const void *memory, size_t len) {
    if (fwrite(memory, 1, len, stdout) != len) {
        exit(1);
    }
}

static uint8_t *slice(int i) {
    return ends[i] - call.lengths[i];
}

static answer make(void) {
    const uint64_t *number = call.numbers;
    const uint64_t *len = call.lengths;
    answer made = {0};
    switch (call.function) {
    case CHECK:
        made.checked = trussember_check(slice(0), len[0]);
        break;
    case ENTRY:
        made.entry = trussember_entry(slice(0), len[0], number[0], slice(1));
        break;
    case BUILD:
        made.built = trussember_build(slice(0), len[0], slice(1), len[1], (uint32_t)number[0],
                                      slice(2), len[2], slice(3), len[3]);
        break;
    case BIT_COPY:
        made.number = trussember_bit_copy(slice(0), len[0], number[0], slice(1), len[1],
                                          number[1], number[2]);
        break;
    case SEPARATOR_LEN:
        made.number = trussember_separator_len(slice(0));
        break;
    case PREFIX_LEN:
        made.number = trussember_prefix_len(slice(0), slice(1));
        break;
    case SEPARATE:
        made.number = trussember_separate(slice(0), slice(1), slice(2));
        break;
    case RECONSTRUCT_KEY:
        made.number = trussember_reconstruct_key(slice(0), len[0], number[0], slice(1), len[1],
                                                 number[1], number[2], slice(2));
        break;
    case BODY_SIZE:
        made.size = trussember_body_size(number[0], number[1], number[2]);
        break;
    case UNCOMPRESSED_SIZE:
        made.size = trussember_uncompressed_separator_range_size(number[0], number[1], number[2],
                                                                 number[3]);
        break;
    case COMPRESSED_SIZE:
        made.size = trussember_compressed_separator_range_size(number[0], number[1], number[2],
                                                               number[3]);
        break;
    default:
        exit(1);
    }
    return made;
}

int main(void) {
    answer made;
    int i;
    reserve();
    for (;;) {
        take(&call, sizeof call);
        for (i = 0; i < SLICES; i++) {
            take(slice(i), call.lengths[i]);
        }
        made = make();
        give(&made, sizeof made);
        for (i = 0; i < SLICES; i++) {
            if (call.changed[i]) {
                give(slice(i), call.lengths[i]);
            }
        }
        fflush(stdout);
    }
}
