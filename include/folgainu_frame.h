/* Frames for firmware written in C: reading and writing one message as five words and its text.
 *
 * A frame is five 32-bit words, each with its highest byte first (receiver, kind, page, sender, text length), and then
 * the text. docs/MESSAGES.md has every rule; docs/REFUSALS.md has every status.
 *
 * The library cannot check these four, so the caller keeps them:
 *  - a pointer and the length after it name memory that may be read (const) or read and written (not const);
 *  - a pointer is never null, unless its length is 0;
 *  - `out` shares no byte with `text`, nor with anything else that is used during the call;
 *  - a length is at most PTRDIFF_MAX.
 */
#ifndef FOLGAINU_FRAME_H
#define FOLGAINU_FRAME_H

#include <stddef.h>
#include <stdint.h>

#define FOLGAINU_OK 0u
#define FOLGAINU_CUT_SHORT 18u  /* the bytes end before the frame does; at: the first missing byte */
#define FOLGAINU_NO_MESSAGE 19u /* the words make no message; at: the first that fits none with those before it */
#define FOLGAINU_BUFFER 20u     /* the frame does not fit; at: the buffer's length */

#define FOLGAINU_HEADER 20u /* bytes of the five words; a message's text begins here */
#define FOLGAINU_LONGEST 84u /* bytes of the longest frame */

/* Status 0: the message, its text in the `length` bytes from FOLGAINU_HEADER on, and in `at` how many bytes were taken.
 * Any other status is the refusal, `at` its offset, and the rest 0. */
struct folgainu_frame_read {
    uint32_t status;
    uint32_t receiver;
    uint32_t kind;
    uint32_t page;
    uint32_t sender;
    uint32_t length;
    size_t at;
};

/* Status 0: `at` is the frame's size. Any other status is the refusal, and `at` its offset. */
struct folgainu_frame_written {
    uint32_t status;
    size_t at;
};

/* Reads the frame at the start of `bytes`. Refused with 18 under twenty bytes, then 19, then 18 within the text. */
struct folgainu_frame_read folgainu_frame_read(const uint8_t *bytes, size_t length);

/* Writes a frame at the start of `out`, and touches no other byte. Refused with 19, then 20: `out` is then untouched. */
struct folgainu_frame_written folgainu_frame_write(uint32_t receiver, uint32_t kind, uint32_t page, uint32_t sender,
                                                   const uint8_t *text, size_t text_length, uint8_t *out,
                                                   size_t out_length);

#endif
