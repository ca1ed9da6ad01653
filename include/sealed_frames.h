/*
 * sealed_frames: sealing and opening frames, from C.
 *
 * Link libcapi.a and a C library that has memcpy and memset. `rt lib` in crates/capi_c proves and builds it, as crates/capi_c/out/libcapi_c.a;
 * `bench/run` copies that to bench/target/staticlib/libcapi.a.
 * No function allocates, keeps anything between calls, or fails otherwise than by its code.
 *
 * What the caller owes, and nothing checks: each pointer points to as many bytes as the length after it says (also for a length of 0 it is not NULL),
 * and what a function writes to overlaps nothing else that it is given.
 *
 * The key is expanded anew by every call.
 */
#ifndef SEALED_FRAMES_H
#define SEALED_FRAMES_H

#include <stddef.h>
#include <stdint.h>

#ifdef __cplusplus
extern "C" {
#endif

/* The ciphers; both take a key of 16 bytes. */
#define SEALED_FRAMES_AES_128 1
#define SEALED_FRAMES_SPECK_128_128 2

/* The maskings. */
#define SEALED_FRAMES_DOUBLING 1
#define SEALED_FRAMES_TOWER 2

/* The modes. */
#define SEALED_FRAMES_FORWARD 1
#define SEALED_FRAMES_DUAL 2

/* The longest clear part, the longest message, and what a frame has beside them: 32 bytes of head and 16 of tag. */
#define SEALED_FRAMES_LONGEST 1024
#define SEALED_FRAMES_BESIDE 48

/*
 * Every function answers a code. Without the top bit it is a length in bytes. With it,
 * either the call was refused: its number is in the lowest byte and its place in the next (docs/refusals.md),
 * or it was not made, for one of the reasons below, in the third byte, and nothing was written.
 */
#define SEALED_FRAMES_TOP_BIT (UINT64_C(1) << 63)

static inline int sealed_frames_accepted(uint64_t code) { return !(code & SEALED_FRAMES_TOP_BIT); }
static inline unsigned sealed_frames_refusal(uint64_t code) { return (unsigned)(code & 0xff); }
static inline unsigned sealed_frames_place(uint64_t code) { return (unsigned)(code >> 8 & 0xff); }
static inline unsigned sealed_frames_not_made(uint64_t code) { return (unsigned)(code >> 16 & 0xff); }

#define SEALED_FRAMES_UNKNOWN_CIPHER 1
#define SEALED_FRAMES_UNKNOWN_MASKING 2
#define SEALED_FRAMES_KEY_LENGTH 3
#define SEALED_FRAMES_NONCE_LENGTH 4
#define SEALED_FRAMES_TAG_LENGTH 5
#define SEALED_FRAMES_UNKNOWN_MODE 6

/*
 * Seals a message into a frame at the output's start, and answers the frame's length: 48 bytes more than clear part and message.
 * The caller sees to it that under one key no sender uses a number twice. Of the number the frame holds the low 48 bits.
 * Refusals: 7 unknown mode, 8 clear part too long, 9 message too long, 10 output too short; nothing is written then.
 */
uint64_t sealed_frames_seal(uint8_t cipher, uint8_t masking, const uint8_t *key, size_t key_len, uint8_t sender, uint64_t number, uint8_t mode,
                            const uint8_t *clear, size_t clear_len, const uint8_t *message, size_t message_len, uint8_t *out, size_t out_len);

/*
 * Opens a frame into the output's start, and answers the message's length.
 * Sender and number are the bytes 16 and 26 to 31 of the frame: that they are those expected is for the caller to see, once it is opened.
 * Refusals: 11 too short, 7 unknown mode, 12 bad head field (with its place), 13 wrong length, 10 output too short; nothing is written then.
 * And 2: no message seals to this frame. The bytes of the output that would have the message are zero then.
 */
uint64_t sealed_frames_open(uint8_t cipher, uint8_t masking, const uint8_t *key, size_t key_len, const uint8_t *frame, size_t frame_len, uint8_t *out,
                            size_t out_len);

/*
 * Seals a message in a mode, under a nonce of 16 bytes and a header, into an output of its length; writes the tag of 16 bytes.
 * Refusal: 1, the output is not of the message's length; nothing is written then.
 */
uint64_t sealed_frames_mode_seal(uint8_t cipher, uint8_t masking, const uint8_t *key, size_t key_len, uint8_t mode, const uint8_t *nonce,
                                 size_t nonce_len, const uint8_t *header, size_t header_len, const uint8_t *message, size_t message_len, uint8_t *out,
                                 size_t out_len, uint8_t *tag, size_t tag_len);

/*
 * Opens sealed bytes in a mode. Refusals: 1, the output is not of their length, and nothing is written; 2, no message seals to them, and the output is zero.
 */
uint64_t sealed_frames_mode_open(uint8_t cipher, uint8_t masking, const uint8_t *key, size_t key_len, uint8_t mode, const uint8_t *nonce,
                                 size_t nonce_len, const uint8_t *header, size_t header_len, const uint8_t *sealed, size_t sealed_len,
                                 const uint8_t *tag, size_t tag_len, uint8_t *out, size_t out_len);

/* Encrypts, or decrypts, each whole block of 16 bytes in place, leaves the bytes behind them, and answers how many bytes the blocks have. */
uint64_t sealed_frames_encrypt_blocks(uint8_t cipher, const uint8_t *key, size_t key_len, uint8_t *bytes, size_t bytes_len);
uint64_t sealed_frames_decrypt_blocks(uint8_t cipher, const uint8_t *key, size_t key_len, uint8_t *bytes, size_t bytes_len);

#ifdef __cplusplus
}
#endif

#endif
