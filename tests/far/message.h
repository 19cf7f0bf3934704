/* A call as near.c tells it to far.c, and its answer as far.c tells it back.
 *
 * To the far side go one `message`, then the slices lent, in their order. Back come one `answer`,
 * then the slices lent to be changed, in their order. Both sides are little-endian and have the
 * same sizes for these types, so their memory is sent as it is. */
#ifndef MESSAGE_H
#define MESSAGE_H

#include "trussember.h"

/* No call has more numbers or slices than this, and no slice may be longer than that. */
#define NUMBERS 4
#define SLICES 4
#define LONGEST (1 << 20)

enum function {
    CHECK,
    ENTRY,
    BUILD,
    BIT_COPY,
    SEPARATOR_LEN,
    PREFIX_LEN,
    SEPARATE,
    RECONSTRUCT_KEY,
    BODY_SIZE,
    UNCOMPRESSED_SIZE,
    COMPRESSED_SIZE
};

/* The function, its arguments that are numbers, and its slices' lengths, each list in the order
 * of the function's arguments; `changed` is 1 for a slice that the function may write. */
typedef struct message {
    uint64_t function;
    uint64_t numbers[NUMBERS];
    uint64_t lengths[SLICES];
    uint64_t changed[SLICES];
} message;

typedef union answer {
    trussember_checked checked;
    trussember_entry_read entry;
    trussember_built built;
    trussember_size size;
    uint64_t number;
} answer;

#endif
