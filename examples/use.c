/* Masks the AND of two inputs at order 1, runs it with one tape, and maps the tape to another secret: the calls of masks.h in turn. */
#include <masks.h>
#include <stdio.h>
#include <stdlib.h>

static void print(const char *what, const uint8_t *bits, size_t count) {
    printf("%-12s", what);
    for (size_t i = 0; i < count; i++) printf(" %d", bits[i]);
    printf("\n");
}

/* A bit of a packed tape. */
static uint8_t tape_bit(const uint8_t *tape, size_t at) {
    return (tape[at / 8] >> (at % 8)) & 1;
}

/* Packs some bits of a tape for themselves, into bytes that are 0. */
static void cut(const uint8_t *tape, size_t from, size_t count, uint8_t *part) {
    for (size_t i = 0; i < count; i++) part[i / 8] |= tape_bit(tape, from + i) << (i % 8);
}

/* Every call answers a number, 0 or a refusal. */
static uint32_t done(struct masks_answer answer) {
    if (answer.number == MASKS_DONE) return answer.value;
    printf("refused %d at place %u\n", answer.number, answer.place);
    exit(1);
}

int main(void) {
    const uint8_t table[] = {2, 0, 1, 0, 1, 0, MASKS_AND, 0, 0, 1, 0, 2, 0};
    const uint8_t order = 1, secrets[] = {1, 1}, others[] = {0, 1};
    const uint8_t tape[] = {0x59}; /* 1 0 0 1 1 0 1, the lowest bit first */
    const uint32_t probes[] = {29};

    struct masks_sizes sizes = masks_forecast(table, sizeof table, order);
    printf("%u shares, %u wires, %u tape bits, %u bytes\n", sizes.shares, sizes.wires, sizes.tape, sizes.bytes);

    uint8_t masked[132], shares[6], values[30], outputs[3], decoded[1];
    done(masks_mask(table, sizeof table, order, masked, sizeof masked));

    /* the encoder's part of the tape is its first 4 bits, 0x09, the run's part the rest, 0x05 */
    uint8_t encoding[1] = {0}, running[1] = {0};
    cut(tape, 0, 4, encoding);
    cut(tape, 4, 3, running);
    done(masks_encode(order, secrets, 2, encoding, sizeof encoding, shares, sizeof shares));
    done(masks_run(masked, sizeof masked, shares, 6, running, sizeof running, values, sizeof values, outputs, sizeof outputs));
    done(masks_decode(order, outputs, 3, decoded, sizeof decoded));
    print("shares", shares, 6);
    print("outputs", outputs, 3);
    print("decoded", decoded, 1);

    uint8_t mapped[1], one[30], other[30], bits[7];
    uint32_t k = done(masks_map(table, sizeof table, order, secrets, 2, others, 2, tape, sizeof tape, probes, 1, mapped,
                                sizeof mapped, one, sizeof one, other, sizeof other));
    printf("free share   %u\n", k);
    for (size_t i = 0; i < 7; i++) bits[i] = tape_bit(mapped, i);
    print("mapped tape", bits, 7);
    /* what a probe on wire 29 reads: that wire and the pins of its gate, an XOR of wires 28 and 20 */
    printf("wires 29, 28, 20 are %d %d %d with secrets 1 1, and %d %d %d with 0 1 and the mapped tape\n", one[29], one[28], one[20],
           other[29], other[28], other[20]);
    return 0;
}
