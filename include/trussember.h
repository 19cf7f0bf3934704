/* Trussember: the branch pages of a B-tree, packed to the bit. The static library
 * libtrussember.a exports these functions.
 *
 * A slice is a pointer and its length in bytes, a key a pointer to 32 bytes. No pointer is
 * null, and the memory lent to one call must not overlap. Bits are counted from the most
 * significant one of a slice's first byte on.
 *
 * `refusal` is 0, or the number of the first condition of document 01 that holds. After a
 * refusal the other fields are 0 and lent memory is as it was. */
#ifndef TRUSSEMBER_H
#define TRUSSEMBER_H

#include <stddef.h>
#include <stdint.h>

#ifdef __cplusplus
extern "C" {
#endif

/* The length of a page, and a length that no undo record exceeds. */
#define TRUSSEMBER_PAGE_SIZE 4096
#define TRUSSEMBER_UNDO_SIZE 24688

typedef struct trussember_checked {
    uint64_t refusal, number, n, m, q, bits;
} trussember_checked;

typedef struct trussember_entry_read {
    uint64_t refusal, pointer;
} trussember_entry_read;

typedef struct trussember_built {
    uint64_t refusal, n, m, q, bits, undo;
} trussember_built;

typedef struct trussember_size {
    uint64_t refusal, value;
} trussember_size;

/* Checks a page: its number, its count of entries n, how many of them leave out the prefix (m),
 * the prefix's length in bits (q), and the bits of prefix and separators; or a refusal from 1
 * to 8. */
trussember_checked trussember_check(const uint8_t *page, size_t page_len);

/* Reads entry `index` of a page, its key into `key`, and answers its pointer; or a refusal from
 * 1 to 8, or 16 where the page has no such entry. */
trussember_entry_read trussember_entry(const uint8_t *page, size_t page_len, size_t index,
                                       uint8_t key[32]);

/* Builds a page from a base and an edit record under a page number, and the record that undoes
 * it: n, m, q and bits of the new page, and the undo record's length, behind which the undo
 * buffer keeps its content; or a refusal from 1 to 15. A base of length 0 means no base. It
 * takes some 91 KB of stack. */
trussember_built trussember_build(const uint8_t *base, size_t base_len, const uint8_t *record,
                                  size_t record_len, uint32_t number, uint8_t *page,
                                  size_t page_len, uint8_t *undo, size_t undo_len);

/* Copies `bits` bits of src from bit `src_bit` on to dst from bit `dst_bit` on, and changes no
 * other bit; the refusal is 18 where a range lies outside its slice. */
uint64_t trussember_bit_copy(uint8_t *dst, size_t dst_len, size_t dst_bit, const uint8_t *src,
                             size_t src_len, size_t src_bit, size_t bits);

/* The separator length of a key: 256 less the zero bits at its end, and 1 for the all-zero key. */
uint64_t trussember_separator_len(const uint8_t key[32]);

/* The bits that two keys share from the front on: 256 for equal ones. */
uint64_t trussember_prefix_len(const uint8_t a[32], const uint8_t b[32]);

/* Separates a and b, a < b: `out` becomes the shared bits and one more of b, then zeros; the
 * refusal is 17 where a is not below b. */
uint64_t trussember_separate(const uint8_t a[32], const uint8_t b[32], uint8_t out[32]);

/* Rebuilds a key: `out` becomes the first `prefix_bits` bits of prefix, the `bits` bits of
 * separator from bit `start` on, and zeros; the refusal is 18 where a range lies outside its
 * slice, then 19 for more than 256 bits. */
uint64_t trussember_reconstruct_key(const uint8_t *prefix, size_t prefix_len, size_t prefix_bits,
                                    const uint8_t *separator, size_t separator_len, size_t start,
                                    size_t bits, uint8_t out[32]);

/* The body bytes of n entries with a prefix of q bits and stored lengths of `sum` bits in all;
 * 19 where they do not fit 64 bits. */
trussember_size trussember_body_size(uint64_t q, uint64_t sum, uint64_t n);

/* The whole lengths of n entries from their stored ones, where the first key has `first` bits;
 * 19 where that is below zero or does not fit 64 bits. */
trussember_size trussember_uncompressed_separator_range_size(uint64_t q, uint64_t sum, uint64_t n,
                                                             uint64_t first);

/* The stored lengths from whole ones, the first key's and the sum of the others', with m of
 * them under a prefix of q bits; 19 for m = 0, below zero, or where it does not fit 64 bits. */
trussember_size trussember_compressed_separator_range_size(uint64_t first, uint64_t m,
                                                           uint64_t others, uint64_t q);

#ifdef __cplusplus
}
#endif

#endif
