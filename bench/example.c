/* A frame sealed and opened from C, and the same frame refused once a bit of it is flipped. */
#include "sealed_frames.h"

#include <stdio.h>
#include <string.h>

static const uint8_t key[16] = {0x0f, 0x0e, 0x0d, 0x0c, 0x0b, 0x0a, 0x09, 0x08, 0x07, 0x06, 0x05, 0x04, 0x03, 0x02, 0x01, 0x00};

static void show(const char *what, const uint8_t *bytes, size_t len) {
    printf("%s: ", what);
    for (size_t i = 0; i < len; i++) {
        printf("%02x", bytes[i]);
    }
    printf("\n");
}

static uint64_t open_it(const uint8_t *frame, size_t len, uint8_t *out, size_t room) {
    return sealed_frames_open(SEALED_FRAMES_SPECK_128_128, SEALED_FRAMES_TOWER, key, sizeof key, frame, len, out, room);
}

int main(void) {
    const char *clear = "valve head 7";
    const char *message = "set point 21.5";
    uint8_t frame[SEALED_FRAMES_BESIDE + 64], out[64];

    uint64_t sealed = sealed_frames_seal(SEALED_FRAMES_SPECK_128_128, SEALED_FRAMES_TOWER, key, sizeof key, 7, 1, SEALED_FRAMES_FORWARD,
                                         (const uint8_t *)clear, strlen(clear), (const uint8_t *)message, strlen(message), frame, sizeof frame);
    if (!sealed_frames_accepted(sealed)) {
        printf("not sealed: refusal %u\n", sealed_frames_refusal(sealed));
        return 1;
    }
    show("sealed", frame, (size_t)sealed);

    uint64_t opened = open_it(frame, (size_t)sealed, out, sizeof out);
    if (opened != strlen(message) || memcmp(out, message, strlen(message)) != 0) {
        printf("not opened: refusal %u\n", sealed_frames_refusal(opened));
        return 1;
    }
    printf("opened: %.*s\n", (int)opened, (const char *)out);

    frame[40] ^= 1;
    uint64_t damaged = open_it(frame, (size_t)sealed, out, sizeof out);
    if (sealed_frames_accepted(damaged)) {
        printf("a damaged frame was opened\n");
        return 1;
    }
    printf("one bit flipped: refusal %u at place %u\n", sealed_frames_refusal(damaged), sealed_frames_place(damaged));
    show("the output's first bytes", out, strlen(message));

    uint64_t unknown = sealed_frames_open(9, SEALED_FRAMES_TOWER, key, sizeof key, frame, (size_t)sealed, out, sizeof out);
    printf("cipher 9: not made, reason %u\n", sealed_frames_not_made(unknown));
    return sealed_frames_refusal(damaged) == 2 && sealed_frames_not_made(unknown) == SEALED_FRAMES_UNKNOWN_CIPHER ? 0 : 1;
}
