/* The calls of the proved library that C can link: target/staticlib/libexports.a, built by ci/staticlib.sh, beside the kit's c/liblibc_c.a.
 * Every call answers for every input. A pointer must be valid for the length behind it, also where that is 0, and outputs must not overlap inputs. */
#ifndef NAVRELUK_H
#define NAVRELUK_H

#include <stddef.h>
#include <stdint.h>

/* ciphers by number */
#define NAVRELUK_PRACTICE 1
#define NAVRELUK_AES 2
#define NAVRELUK_SPECK 3

/* what is answered where a cipher's number is none, or a buffer has a wrong length */
#define NAVRELUK_BAD_CALL 255

/* counts that no output has: the buffer is too small, or memory is wanting; the buffer is then as it was */
#define NAVRELUK_TOO_SMALL SIZE_MAX
#define NAVRELUK_NO_MEMORY (SIZE_MAX - 1)

/* The image of the block of two halves, the higher first, in a buffer of 16 bytes: 0, 7 for a key of the wrong length, or NAVRELUK_BAD_CALL. */
uint8_t navreluk_image(uint8_t cipher, const uint8_t *key, size_t key_len, uint64_t high, uint64_t low, uint8_t *out, size_t out_len);

/* Checks a sheet: 0, the refusal's number (docs/refusals.md), 7 for a key of the wrong length, or NAVRELUK_BAD_CALL. */
uint8_t navreluk_check(uint8_t cipher, const uint8_t *key, size_t key_len, uint64_t nonce, const uint8_t *header, size_t header_len,
                       const uint8_t *ciphertext, size_t ciphertext_len, const uint8_t *tag, size_t tag_len);

/* Bytes at a message offset xored in place with the keystream: 0, 7 for a key of the wrong length, or NAVRELUK_BAD_CALL. */
uint8_t navreluk_xor(uint8_t cipher, const uint8_t *key, size_t key_len, uint64_t nonce, uint64_t offset, uint8_t *bytes, size_t len);

/* Seals under the first nonce of a register at a mark, 1,024 times the mark: 0, the refusal's number, 7 or NAVRELUK_BAD_CALL. The ciphertext is then in a
 * buffer of the message's length, and the tag, then zeros, in one of 16 bytes; else both stay as they were. No mark may serve twice under a key. */
uint8_t navreluk_seal_at(uint8_t cipher, const uint8_t *key, size_t key_len, uint64_t mark, uint8_t tag_bytes, const uint8_t *header, size_t header_len,
                         const uint8_t *message, size_t message_len, uint8_t *out, size_t out_len, uint8_t *tag, size_t tag_room);

/* What sheetseal prints for an input (docs/sheetseal.md), at the front of the buffer: how many bytes. 65,536 bytes always suffice. */
size_t navreluk_sheetseal(const uint8_t *input, size_t input_len, uint8_t *out, size_t out_len);

/* What sheetopen prints for an input: how many bytes. 2,105,346 bytes always suffice. */
size_t navreluk_sheetopen(const uint8_t *input, size_t input_len, uint8_t *out, size_t out_len);

/* The hash of bytes under the key of two halves, in a buffer of 16 bytes; a buffer of another length stays as it was. */
void navreluk_hash(uint64_t key_high, uint64_t key_low, const uint8_t *bytes, size_t len, uint8_t *out, size_t out_len);

/* Bytes at a message offset xored in place with the keystream of AES-128: 0, or 7 for a key of the wrong length. */
uint8_t navreluk_xor_aes(const uint8_t *key, size_t key_len, uint64_t nonce, uint64_t offset, uint8_t *bytes, size_t len);

#endif
