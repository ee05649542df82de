/*
 * Frames and blocks of ISO/IEC 14443-4, Type A, for rigs in C.
 *
 * Link target/staticlib/librig.a, which .ci/rig makes (crates/rig_c, built by
 * `rt lib`); it needs nothing else but memmove. Neither call
 * allocates, blocks or keeps anything between calls.
 *
 * What the caller owes, at every call:
 * - no pointer is NULL, not even where the length beside it is 0;
 * - each pointer stands at as many bytes as the length beside it says, all of
 *   them initialised, none of them written by another thread during the call;
 * - what a call writes to (out, length, report) overlaps nothing else that it
 *   is handed. Set length and *report to 0 before the first call.
 * With that, every number may be handed over: what does not fit is refused.
 *
 *     uint8_t frame[HURIMPAS_GREATEST_FRAME] = {0};
 *     size_t length = 0;
 *     struct hurimpas_report report = {0};
 *     const uint8_t body[] = {0x02, 0x90, 0x00};
 *     hurimpas_seal(body, sizeof body, frame, sizeof frame, &length);
 *     hurimpas_read(frame, length, 256, HURIMPAS_NO_CARD_NUMBER, &report);
 *     // report.kind is HURIMPAS_I, its information frame[1] and frame[2]
 */
#ifndef HURIMPAS_H
#define HURIMPAS_H

#include <stddef.h>
#include <stdint.h>

#ifdef __cplusplus
extern "C" {
#endif

/* the greatest frame, and the least buffer that sealing takes */
#define HURIMPAS_GREATEST_FRAME 256
/* the longest body that is sealed, and the shortest has 1 byte */
#define HURIMPAS_LONGEST_BODY 254

/* what a call answers: done, or why it was refused, or a cause */
enum {
    HURIMPAS_DONE = 0,
    /* refusals: nothing was written */
    HURIMPAS_SETTING_REFUSED = 1, /* an agreement out of range */
    HURIMPAS_LENGTH_REFUSED = 3,  /* a body of 0 bytes, or above 254 */
    HURIMPAS_BUFFER_REFUSED = 5,  /* a buffer under 256 bytes */
    /* causes why what was heard is no block, in the order of the tests */
    HURIMPAS_TOO_SHORT = 21,            /* under 3 bytes; layer frame, place 0 */
    HURIMPAS_TOO_LONG = 22,             /* above the limit; layer frame, place 0 */
    HURIMPAS_CHECK_WRONG = 23,          /* layer frame, place 0 */
    HURIMPAS_NO_KIND = 24,              /* control byte reserved; layer block, place 1 */
    HURIMPAS_LENGTH_WRONG = 25,         /* for the kind; layer block, place 0 */
    HURIMPAS_CARD_WRONG = 26,           /* byte reserved, or not as agreed; layer block, place 2 */
    HURIMPAS_MULTIPLIER_RESERVED = 28   /* not 1 to 59; layer block, place 2 or 3 */
};

/* layers, in a report */
enum {
    HURIMPAS_LAYER_FRAME = 1,
    HURIMPAS_LAYER_BLOCK = 3
};

/* kinds of block, in a report; 0 is no block */
enum {
    HURIMPAS_I = 1,
    HURIMPAS_R = 2,
    HURIMPAS_DESELECT = 3,
    HURIMPAS_WAIT = 4
};

/* which card numbers a receiver takes: 0 to 14 that one alone, or one of these */
enum {
    HURIMPAS_NUMBER_0_OR_NONE = 254,
    HURIMPAS_NO_CARD_NUMBER = 255
};

/* what a frame was read as; a field that does not belong to the kind is 0 */
struct hurimpas_report {
    uint8_t kind;        /* HURIMPAS_I and so on; 0 where there is a cause */
    uint8_t number;      /* I, R: the block number, 0 or 1 */
    uint8_t chaining;    /* I: 1 if more follows */
    uint8_t nak;         /* R: 0 for ACK, 1 for NAK */
    uint8_t card_given;  /* 1 if a card number came with the block */
    uint8_t card_number; /* 0 to 14 */
    uint8_t card_power;  /* the card number byte's power level, 0 to 3 */
    uint8_t multiplier;  /* wait: 1 to 59 */
    uint8_t wait_power;  /* wait: its power level, 0 to 3 */
    uint8_t cause;       /* no block: HURIMPAS_TOO_SHORT and so on */
    uint8_t layer;       /* no block: HURIMPAS_LAYER_FRAME or _BLOCK */
    size_t place;        /* I: where its information begins, no block: the byte at fault;
                            frame[place - 1], the control byte being 1 and 0 none */
    size_t length;       /* I: how many bytes of information */
};

/*
 * Writes body and its check to the front of out, and how many bytes these are
 * to *length. Answers HURIMPAS_DONE, or HURIMPAS_BUFFER_REFUSED, or
 * HURIMPAS_LENGTH_REFUSED; a refusal leaves out and *length as they were, and
 * what stands behind the frame is never changed.
 */
uint8_t hurimpas_seal(const uint8_t *body, size_t body_length, uint8_t *out, size_t out_length, size_t *length);

/*
 * Reads a frame as a receiver of frame size limit does that has agreed on card
 * numbers as said. Answers HURIMPAS_DONE and reports the block; or the cause,
 * and reports it; or HURIMPAS_SETTING_REFUSED if agreed is 15 to 253, and then
 * leaves *report as it was. The frame is never changed.
 */
uint8_t hurimpas_read(const uint8_t *frame, size_t frame_length, size_t limit, uint8_t agreed,
                      struct hurimpas_report *report);

#ifdef __cplusplus
}
#endif

#endif
