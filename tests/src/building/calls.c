/* Every call of masks.h once, on the AND of two inputs; prints both versions, how many calls were done, and the decoded bit. With
 * IGNORED no answer is looked at. The order is an int of 257, which C cuts to 1; with UNCAST it is passed without a cast. */
#include <masks.h>
#include <stdio.h>

static int done;

#ifdef IGNORED
#define SEE(answer) answer
#else
#define SEE(answer) done += (answer).number == MASKS_DONE
#endif

#ifdef UNCAST
#define ORDER order
#else
#define ORDER (uint8_t)order
#endif

int main(void) {
    const uint8_t table[] = {2, 0, 1, 0, 1, 0, MASKS_AND, 0, 0, 1, 0, 2, 0};
    const uint8_t first[] = {1, 1}, second[] = {0, 1}, tape[] = {0x59}, encoding[] = {0x09}, running[] = {0x05};
    const uint32_t probes[] = {29};
    uint8_t masked[132], shares[6], values[30], outputs[3], decoded[1], mapped[1], one[30], other[30];
    int order = 257;

    SEE(masks_check(table, sizeof table));
    SEE(masks_forecast(table, sizeof table, ORDER));
    SEE(masks_mask(table, sizeof table, ORDER, masked, sizeof masked));
    SEE(masks_encode(ORDER, first, 2, encoding, sizeof encoding, shares, sizeof shares));
    SEE(masks_run(masked, sizeof masked, shares, sizeof shares, running, sizeof running, values, sizeof values, outputs,
                  sizeof outputs));
    SEE(masks_decode(ORDER, outputs, sizeof outputs, decoded, sizeof decoded));
    SEE(masks_marks_of(table, sizeof table, ORDER, 29));
    SEE(masks_map(table, sizeof table, ORDER, first, 2, second, 2, tape, sizeof tape, probes, 1, mapped, sizeof mapped, one,
                  sizeof one, other, sizeof other));
    SEE(masks_mask_dom(table, sizeof table, ORDER, masked, sizeof masked));
    SEE(masks_marks_of_dom(table, sizeof table, ORDER, 29));
    SEE(masks_map_dom(table, sizeof table, ORDER, first, 2, second, 2, tape, sizeof tape, probes, 1, mapped, sizeof mapped, one,
                      sizeof one, other, sizeof other));
    masks_version();
    printf("%lu %lu %d %d\n", (unsigned long)masks_version(), (unsigned long)MASKS_VERSION_NUMBER, done, decoded[0]);
    return 0;
}
