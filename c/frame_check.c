/* Uses both frame operations from C, as seat-screen firmware does, and tries every refusal.
 * Expected values are those of docs/MESSAGES.md and docs/REFUSALS.md. Exit status 0: all as documented. */
#include "folgainu_frame.h"

#include <stdio.h>
#include <string.h>

static int failures = 0;

static void check(int holds, const char *what) {
    if (!holds) {
        printf("failed: %s\n", what);
        failures++;
    }
}

/* INVALIDATE from 0 to 1, page 0. */
static const uint8_t invalidate[20] = {0, 0, 0, 1, 0, 0, 0, 4, 0, 0, 0, 0, 0, 0, 0, 0, 0, 0, 0, 0};
/* ACK WITH TEXT from 1 to 0, page 0, text 41 68 21. */
static const uint8_t ack[23] = {0, 0, 0, 0, 0, 0, 0, 8, 0, 0, 0, 0, 0, 0, 0, 1, 0, 0, 0, 3, 0x41, 0x68, 0x21};

struct writing {
    const char *what;
    uint32_t receiver, kind, page, sender;
    size_t text, room;
    uint32_t status;
    size_t at;
};

static const struct writing writings[] = {
    {"the longest text fits in 84 bytes", 7, 10, 15, 0, 64, 84, 0, 84},
    {"a buffer one byte short", 7, 10, 15, 0, 64, 83, 20, 83},
    {"an empty buffer", 1, 4, 0, 0, 0, 0, 20, 0},
    {"receiver 8", 8, 4, 0, 0, 0, 84, 19, 0},
    {"kind 0", 1, 0, 0, 0, 0, 84, 19, 4},
    {"kind 11", 1, 11, 0, 0, 0, 84, 19, 4},
    {"page 16", 1, 4, 16, 0, 0, 84, 19, 8},
    {"sender 8", 1, 4, 0, 8, 0, 84, 19, 12},
    {"sender and receiver alike", 1, 4, 0, 1, 0, 84, 19, 12},
    {"a text of 65 bytes", 1, 1, 0, 0, 65, 100, 19, 16},
    {"a text with a kind that bears none", 1, 7, 0, 0, 1, 84, 19, 16},
    {"words are refused before the buffer", 1, 11, 0, 0, 0, 0, 19, 4},
    {"a text kind with no text", 1, 2, 0, 0, 0, 20, 0, 20},
};

static void check_writing(void) {
    uint8_t text[65], out[100];
    memset(text, 0x5A, sizeof text);
    for (size_t i = 0; i < sizeof writings / sizeof writings[0]; i++) {
        const struct writing *w = &writings[i];
        memset(out, 0xEE, sizeof out);
        struct folgainu_frame_written r =
            folgainu_frame_write(w->receiver, w->kind, w->page, w->sender, text, w->text, out, w->room);
        check(r.status == w->status && r.at == w->at, w->what);
        size_t touched = r.status == 0 ? r.at : 0;
        for (size_t j = touched; j < sizeof out; j++) check(out[j] == 0xEE, "only the frame's bytes are touched");
    }
}

static void check_worked(void) {
    uint8_t out[FOLGAINU_LONGEST];
    struct folgainu_frame_written w = folgainu_frame_write(1, 4, 0, 0, NULL, 0, out, sizeof out);
    check(w.status == 0 && w.at == 20 && memcmp(out, invalidate, 20) == 0, "the INVALIDATE is written as documented");
    w = folgainu_frame_write(0, 8, 0, 1, (const uint8_t *)"Ah!", 3, out, sizeof out);
    check(w.status == 0 && w.at == 23 && memcmp(out, ack, 23) == 0, "the ACK WITH TEXT is written as documented");
    struct folgainu_frame_read r = folgainu_frame_read(invalidate, sizeof invalidate);
    check(r.status == 0 && r.receiver == 1 && r.kind == 4 && r.page == 0 && r.sender == 0 && r.length == 0 && r.at == 20,
          "the INVALIDATE is read");
    r = folgainu_frame_read(ack, sizeof ack);
    check(r.status == 0 && r.receiver == 0 && r.kind == 8 && r.page == 0 && r.sender == 1 && r.length == 3 && r.at == 23,
          "the ACK WITH TEXT is read");
}

struct reading {
    const char *what;
    size_t length, place;
    uint8_t byte;
    uint32_t status;
    size_t at;
};

/* The ACK WITH TEXT cut to `length` bytes, with `byte` at `place`. */
static const struct reading readings[] = {
    {"no byte", 0, 0, 0, 18, 0},
    {"a header one byte short", 19, 0, 0, 18, 19},
    {"a text one byte short", 22, 0, 0, 18, 22},
    {"a receiver above 7", 23, 0, 1, 19, 0},
    {"kind 0", 23, 7, 0, 19, 4},
    {"kind 11", 23, 7, 11, 19, 4},
    {"page 16", 23, 11, 16, 19, 8},
    {"sender 8", 23, 15, 8, 19, 12},
    {"the receiver as sender", 23, 15, 0, 19, 12},
    {"a text of 65 bytes", 23, 19, 65, 19, 16},
    {"a text with an ACK", 23, 7, 7, 19, 16},
    {"words are refused before a short text", 21, 7, 7, 19, 16},
    {"a text of 64 bytes, cut short", 23, 19, 64, 18, 23},
};

static void check_reading(void) {
    uint8_t bytes[23];
    for (size_t i = 0; i < sizeof readings / sizeof readings[0]; i++) {
        const struct reading *c = &readings[i];
        memcpy(bytes, ack, sizeof bytes);
        bytes[c->place] = c->byte;
        struct folgainu_frame_read r = folgainu_frame_read(bytes, c->length);
        check(r.status == c->status && r.at == c->at, c->what);
        check(r.receiver == 0 && r.kind == 0 && r.page == 0 && r.sender == 0 && r.length == 0, "a refusal tells no message");
    }
}

int main(void) {
    check_worked();
    check_writing();
    check_reading();
    if (failures == 0) puts("frames from C: all as documented");
    return failures != 0;
}
