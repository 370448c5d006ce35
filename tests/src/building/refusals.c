/* Every refusal by the name that masks.h gives it; prints the version and how many were seen. */
#include <masks.h>
#include <stdio.h>

static int seen;

static void expect(int number, enum masks_refusal name) {
    if (number == (int)name) seen++;
    else printf("%d is not %d\n", number, (int)name);
}

static int check_gate(uint8_t inputs, uint8_t kind, uint8_t left, uint8_t right, uint8_t output) {
    const uint8_t table[] = {inputs, 0, 1, 0, 1, 0, kind, left, 0, right, 0, output, 0};
    return masks_check(table, sizeof table).number;
}

static int check(uint8_t inputs, uint8_t kind, uint8_t right, uint8_t output) {
    return check_gate(inputs, kind, 0, right, output);
}

int main(void) {
    const uint8_t plain[] = {2, 0, 1, 0, 1, 0, MASKS_AND, 0, 0, 1, 0, 2, 0};
    const uint8_t random[] = {2, 0, 1, 0, 1, 0, MASKS_RANDOM, 0, 0, 0, 0, 2, 0};
    const uint8_t bits[] = {0, 1}, bad[] = {0, 2}, tape[] = {0x09, 0};
    const uint32_t probes[] = {6, 6}, no_wire[] = {30};
    static uint8_t shares[65538];
    uint8_t out[132], one[30], other[30];

    expect(check(2, MASKS_NOT, 0, 2), MASKS_DONE);
    expect(check(2, MASKS_XOR, 1, 2), MASKS_DONE);
    expect(check(2, MASKS_AND, 1, 2), MASKS_DONE);
    expect(check(2, MASKS_RANDOM, 0, 2), MASKS_DONE);
    expect(check_gate(1, MASKS_CONSTANT, 1, 0, 1), MASKS_DONE);
    expect(check(2, MASKS_OR, 1, 2), MASKS_DONE);
    expect(masks_check(plain, 5).number, MASKS_BAD_LENGTH);
    expect(check(0, MASKS_AND, 1, 2), MASKS_BAD_SIZES);
    expect(check(2, 6, 1, 2), MASKS_BAD_KIND);
    expect(check(2, MASKS_OR, 2, 2), MASKS_BAD_OPERAND);
    expect(check_gate(3, MASKS_CONSTANT, 2, 0, 2), MASKS_BAD_OPERAND);
    expect(check(2, MASKS_AND, 1, 3), MASKS_BAD_OUTPUT);
    expect(masks_forecast(plain, 13, 16).number, MASKS_BAD_ORDER);
    expect(masks_forecast(random, 13, 1).number, MASKS_RANDOM_GATE);
    expect(masks_decode(1, shares, sizeof shares, out, sizeof out).number, MASKS_TOO_LARGE);
    expect(masks_mask(plain, 13, 1, out, 131).number, MASKS_SHORT_BUFFER);
    expect(masks_encode(1, bits, 2, tape, 2, out, sizeof out).number, MASKS_BAD_COUNT);
    expect(masks_encode(1, bad, 2, tape, 1, out, sizeof out).number, MASKS_BAD_BIT);
    expect(masks_map(plain, 13, 1, bits, 2, bits, 2, tape, 1, probes, 2, out, 132, one, 30, other, 30).number, MASKS_TOO_MANY_PROBES);
    expect(masks_map(plain, 13, 1, bits, 2, bits, 2, tape, 1, no_wire, 1, out, 132, one, 30, other, 30).number, MASKS_BAD_PROBE);
    expect(masks_mask_dom(plain, 13, 1, out, 131).number, MASKS_SHORT_BUFFER);
    expect(masks_marks_of_dom(plain, 13, 1, 30).number, MASKS_BAD_PROBE);
    expect(masks_map_dom(plain, 13, 1, bits, 2, bits, 2, tape, 1, probes, 2, out, 132, one, 30, other, 30).number, MASKS_TOO_MANY_PROBES);
    if (masks_version() != MASKS_VERSION_NUMBER) printf("the library is version %lu\n", (unsigned long)masks_version());
    printf("%s %d\n", MASKS_VERSION, seen);
    return 0;
}
