/*
 * A small rig: it seals, damages and reads frames, and checks each number.
 * It prints a line for each failure and a count, and ends with status 1 if
 * anything failed.
 */
#include "hurimpas.h"

#include <stdio.h>
#include <string.h>

static unsigned checks;
static unsigned failures;

static void expect(unsigned long long got, unsigned long long wanted, const char *what)
{
    checks++;
    if (got != wanted) {
        failures++;
        printf("%s: %llu, not %llu\n", what, got, wanted);
    }
}

static void expect_bytes(const uint8_t *got, const uint8_t *wanted, size_t n, const char *what)
{
    expect((unsigned long long)(memcmp(got, wanted, n) == 0), 1, what);
}

static void expect_all(const uint8_t *got, uint8_t wanted, size_t n, const char *what)
{
    size_t same = 0;
    while (same < n && got[same] == wanted) {
        same++;
    }
    expect(same, n, what);
}

/* CRC_A by a table, written apart from the library */
static uint16_t check_of(const uint8_t *body, size_t n)
{
    uint16_t table[256];
    for (unsigned v = 0; v < 256; v++) {
        uint16_t r = (uint16_t)v;
        for (int k = 0; k < 8; k++) {
            r = (uint16_t)((r & 1) ? (r >> 1) ^ 0x8408 : r >> 1);
        }
        table[v] = r;
    }
    uint16_t r = 0x6363;
    for (size_t i = 0; i < n; i++) {
        r = (uint16_t)((r >> 8) ^ table[(r ^ body[i]) & 0xFF]);
    }
    return r;
}

static uint8_t frame[HURIMPAS_GREATEST_FRAME];
static size_t frame_length;

static void seal(const uint8_t *body, size_t n)
{
    memset(frame, 0xEE, sizeof frame);
    expect(hurimpas_seal(body, n, frame, sizeof frame, &frame_length), HURIMPAS_DONE, "seal");
    expect(frame_length, n + 2, "seal: length");
    expect_bytes(frame, body, n, "seal: body");
    uint16_t check = check_of(body, n);
    expect(frame[n], check & 0xFF, "seal: low byte of the check");
    expect(frame[n + 1], check >> 8, "seal: high byte of the check");
    expect_all(frame + n + 2, 0xEE, sizeof frame - n - 2, "seal: behind the frame");
}

static struct hurimpas_report read_as(size_t limit, uint8_t agreed, uint8_t answer, const char *what)
{
    struct hurimpas_report report;
    memset(&report, 0, sizeof report);
    expect(hurimpas_read(frame, frame_length, limit, agreed, &report), answer, what);
    expect(report.cause, answer, what);
    return report;
}

static void expect_cause(size_t limit, uint8_t agreed, uint8_t cause, size_t place, uint8_t layer, const char *what)
{
    struct hurimpas_report report = read_as(limit, agreed, cause, what);
    expect(report.kind, 0, what);
    expect(report.place, place, what);
    expect(report.layer, layer, what);
}

static void sealing(void)
{
    static const uint8_t zeros[] = {0x00, 0x00, 0xA0, 0x1E};
    static const uint8_t digits[] = {0x12, 0x34, 0x26, 0xCF};
    uint8_t long_body[300];
    memset(long_body, 0x5A, sizeof long_body);
    seal(zeros, 2);
    expect_bytes(frame, zeros, 4, "00 00 seals with A0 1E");
    seal(digits, 2);
    expect_bytes(frame, digits, 4, "12 34 seals with 26 CF");
    for (size_t n = 1; n <= HURIMPAS_LONGEST_BODY; n++) {
        seal(long_body, n);
    }
    static const size_t refused[] = {0, 255, 256, 300};
    for (size_t i = 0; i < sizeof refused / sizeof refused[0]; i++) {
        memset(frame, 0xEE, sizeof frame);
        size_t length = 77;
        expect(hurimpas_seal(long_body, refused[i], frame, sizeof frame, &length), HURIMPAS_LENGTH_REFUSED, "length refused");
        expect(length, 77, "length refused: length");
        expect_all(frame, 0xEE, sizeof frame, "length refused: buffer");
        expect(hurimpas_seal(long_body, refused[i], frame, 255, &length), HURIMPAS_BUFFER_REFUSED, "buffer refused first");
        expect(length, 77, "buffer refused: length");
        expect_all(frame, 0xEE, sizeof frame, "buffer refused: buffer");
    }
}

static void reading(void)
{
    static const uint8_t chained[] = {0x1B, 0x45, 0x0A, 0x0B, 0x0C};
    seal(chained, sizeof chained);
    struct hurimpas_report r = read_as(16, 5, HURIMPAS_DONE, "I");
    expect(r.kind, HURIMPAS_I, "I: kind");
    expect(r.number, 1, "I: number");
    expect(r.chaining, 1, "I: chaining");
    expect(r.card_given, 1, "I: card given");
    expect(r.card_number, 5, "I: card");
    expect(r.card_power, 1, "I: power");
    expect(r.place, 3, "I: place");
    expect(r.length, 3, "I: length");
    expect_bytes(frame + r.place - 1, chained + 2, r.length, "I: information");

    static const uint8_t nak[] = {0xB2};
    seal(nak, sizeof nak);
    r = read_as(16, HURIMPAS_NO_CARD_NUMBER, HURIMPAS_DONE, "R");
    expect(r.kind, HURIMPAS_R, "R: kind");
    expect(r.nak, 1, "R: nak");
    expect(r.number, 0, "R: number");
    expect(r.card_given, 0, "R: card given");
    r = read_as(16, HURIMPAS_NUMBER_0_OR_NONE, HURIMPAS_DONE, "R, 0 or none");
    expect(r.kind, HURIMPAS_R, "R, 0 or none: kind");

    static const uint8_t deselect[] = {0xCA, 0x00};
    seal(deselect, sizeof deselect);
    r = read_as(16, HURIMPAS_NUMBER_0_OR_NONE, HURIMPAS_DONE, "deselect");
    expect(r.kind, HURIMPAS_DESELECT, "deselect: kind");
    expect(r.card_given, 1, "deselect: card given");

    static const uint8_t wait[] = {0xFA, 0x0E, 0xC0 + 59};
    seal(wait, sizeof wait);
    r = read_as(16, 14, HURIMPAS_DONE, "wait");
    expect(r.kind, HURIMPAS_WAIT, "wait: kind");
    expect(r.multiplier, 59, "wait: multiplier");
    expect(r.wait_power, 3, "wait: power");
    expect(r.card_number, 14, "wait: card");
}

static void causes(void)
{
    static const uint8_t good[] = {0x02, 0x90, 0x00};
    seal(good, sizeof good);
    frame_length = 2;
    expect_cause(16, 255, HURIMPAS_TOO_SHORT, 0, HURIMPAS_LAYER_FRAME, "too short");
    frame_length = 0;
    expect_cause(16, 255, HURIMPAS_TOO_SHORT, 0, HURIMPAS_LAYER_FRAME, "nothing");
    frame_length = 5;
    expect_cause(4, 255, HURIMPAS_TOO_LONG, 0, HURIMPAS_LAYER_FRAME, "too long");

    /* every single wrong bit is found by the check */
    for (size_t bit = 0; bit < 8 * frame_length; bit++) {
        frame[bit / 8] ^= (uint8_t)(1u << (bit % 8));
        expect_cause(16, 255, HURIMPAS_CHECK_WRONG, 0, HURIMPAS_LAYER_FRAME, "one wrong bit");
        frame[bit / 8] ^= (uint8_t)(1u << (bit % 8));
    }
    read_as(16, 255, HURIMPAS_DONE, "mended");

    static const uint8_t none[][1] = {{0xC3}, {0xE2}, {0x06}};
    for (size_t i = 0; i < 3; i++) {
        seal(none[i], 1);
        expect_cause(16, 255, HURIMPAS_NO_KIND, 1, HURIMPAS_LAYER_BLOCK, "no kind");
    }
    static const uint8_t empty[] = {0x02};
    seal(empty, sizeof empty);
    expect_cause(16, 255, HURIMPAS_LENGTH_WRONG, 0, HURIMPAS_LAYER_BLOCK, "I without information");
    static const uint8_t full[] = {0xA2, 0x00};
    seal(full, sizeof full);
    expect_cause(16, 255, HURIMPAS_LENGTH_WRONG, 0, HURIMPAS_LAYER_BLOCK, "R with information");
    static const uint8_t other[] = {0x0A, 0x05, 0x00};
    seal(other, sizeof other);
    expect_cause(16, 4, HURIMPAS_CARD_WRONG, 2, HURIMPAS_LAYER_BLOCK, "another card number");
    expect_cause(16, 255, HURIMPAS_CARD_WRONG, 2, HURIMPAS_LAYER_BLOCK, "a card number where none is agreed");
    expect_cause(16, 254, HURIMPAS_CARD_WRONG, 2, HURIMPAS_LAYER_BLOCK, "a card number above 0");
    static const uint8_t reserved[] = {0x0A, 0x15, 0x00};
    seal(reserved, sizeof reserved);
    expect_cause(16, 5, HURIMPAS_CARD_WRONG, 2, HURIMPAS_LAYER_BLOCK, "reserved bits in a card number byte");
    seal(good, sizeof good);
    expect_cause(16, 0, HURIMPAS_CARD_WRONG, 2, HURIMPAS_LAYER_BLOCK, "no card number where one is agreed");
    static const uint8_t wait[] = {0xF2, 60};
    seal(wait, sizeof wait);
    expect_cause(16, 255, HURIMPAS_MULTIPLIER_RESERVED, 2, HURIMPAS_LAYER_BLOCK, "multiplier 60");
    static const uint8_t numbered[] = {0xFA, 0x01, 0x00};
    seal(numbered, sizeof numbered);
    expect_cause(16, 1, HURIMPAS_MULTIPLIER_RESERVED, 3, HURIMPAS_LAYER_BLOCK, "multiplier 0");
}

static void agreements(void)
{
    static const uint8_t deselect[] = {0xC2};
    seal(deselect, sizeof deselect);
    for (unsigned agreed = 15; agreed <= 253; agreed++) {
        struct hurimpas_report report, before;
        memset(&report, 0x11, sizeof report);
        before = report;
        expect(hurimpas_read(frame, frame_length, 256, (uint8_t)agreed, &report), HURIMPAS_SETTING_REFUSED, "agreement refused");
        expect_bytes((const uint8_t *)&report, (const uint8_t *)&before, sizeof report, "agreement refused: report");
    }
}

int main(void)
{
    sealing();
    reading();
    causes();
    agreements();
    printf("rig: %u checks, %u failed\n", checks, failures);
    return failures != 0;
}
