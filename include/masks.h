/* Fantzori: masked gate tables. Link with the archive libmasks_c.a or the shared library libmasks.so.0 (x86-64 Linux), which have the
 * same calls. docs/FORMAT.md describes tables, tapes, marks and the map.
 *
 * A slice is passed as a pointer and a length in elements. Bits are one byte each, 0 or 1, but those of a tape are packed. A length
 * may be 0; the pointer is then not read. Buffers that a call writes must overlap neither each other nor any buffer that it reads.
 *
 * Every call but masks_version answers a number: 0 is success, any other a refusal (enum masks_refusal below), with a place counted
 * from 0. A refused call has written nothing and its values are 0. The checks are made in the order 1 (six bytes), 2, 1 (length), the
 * gates one by one (3 before 4), 5, 6, 7, 8, 10, 11, 12, 13, 9. GCC and clang warn where an answer is ignored.
 *
 * An order is a byte. C cuts a greater number to a byte without a word before the call sees it: an int of 257 becomes order 1, which
 * is not refused. -Wconversion finds such a call; check the number before it is cast.
 *
 * A tape is the list of random bits that one run of a masked table uses. For a plain table with I inputs, masked at order t:
 *
 *    bits 0 to 2tI - 1   for encoding: 2t for each input in order. Shares 1 to 2t of an input are its tape bits, share 2t + 1 is
 *                        their XOR with the secret
 *    the bits after them for running: one for each random gate of the masked table, in wire order
 *
 * masks_encode takes the first part, masks_run the second, masks_map the whole; masks_forecast gives the number of its bits. Every
 * run needs a fresh tape, of bits that are 0 or 1 with equal chance, independent of each other and of the secrets.
 *
 * Each of these is packed for itself: eight bits to a byte, lowest bit first, the number of bytes rounded up, the unused high bits
 * of the last byte 0. The tape 1 0 0 1 1 0 1 is the byte 0x59; where its first four bits are for encoding, masks_encode takes 0x09
 * and masks_run 0x05.
 *
 * A probe is a needle on a wire of the masked table. It reads the wire and the pins of the gate that drives it, which are the wires on
 * the gate's operands: one of a NOT, two of an XOR or an AND, none of a random gate or a constant (an unused operand and a constant's
 * value are no pins), and none of an input. A table masked at order t stands t probes together, each reading up to three wires: they
 * tell nothing of the secrets. A probe carries the share numbers of all wires that it reads, two at most.
 *
 * There are two ANDs. masks_mask, masks_marks_of and masks_map have that of Ishai, Sahai and Wagner; the same names with _dom at the
 * end have the DOM AND, also inside an OR, with the same parameters, answers, sizes and tapes. A masked table, its marks and its map
 * belong together: they are of one AND.
 */
#ifndef MASKS_H
#define MASKS_H

#include <stddef.h>
#include <stdint.h>

/* Before version 1.0.0 a call may still change. */
#define MASKS_VERSION "0.6.0"
/* The same as major * 1000000 + minor * 1000 + patch. */
#define MASKS_VERSION_NUMBER 6000

/* On every call that answers a number: its answer is to be looked at. */
#ifdef __GNUC__
#define MASKS_CHECKED __attribute__((warn_unused_result))
#else
#define MASKS_CHECKED
#endif

#ifdef __cplusplus
extern "C" {
#endif

/* The kinds of gates: what a gate drives, and what its left and right operand are. Wires among them are earlier ones. */
enum masks_kind {
    MASKS_NOT = 0,      /* the NOT of left, a wire; right is 0 */
    MASKS_XOR = 1,      /* of two wires, which may be one */
    MASKS_AND = 2,      /* the same */
    MASKS_RANDOM = 3,   /* a random bit; both are 0. A table to be masked has none */
    MASKS_CONSTANT = 4, /* left, which is 0 or 1 and no wire; right is 0 */
    MASKS_OR = 5        /* of two wires, which may be one. A masked table has none */
};

/* The place is 0 but where a line says another. */
enum masks_refusal {
    MASKS_DONE = 0,
    MASKS_BAD_LENGTH = 1,       /* fewer than six bytes, or a length other than 6 + 5G + 2O */
    MASKS_BAD_SIZES = 2,        /* no input, no output, or more than 65,535 wires */
    MASKS_BAD_KIND = 3,         /* a gate's kind is above 5. Place: the gate */
    MASKS_BAD_OPERAND = 4,      /* an operand is not an earlier wire, an unused one is not 0, or a constant's value is above 1.
                                   Place: the gate */
    MASKS_BAD_OUTPUT = 5,       /* an output is no wire. Place: the output's position */
    MASKS_BAD_ORDER = 6,        /* the order is not 1 to 15 */
    MASKS_RANDOM_GATE = 7,      /* a random gate in a table to be masked. Place: the gate */
    MASKS_TOO_LARGE = 8,        /* more than 65,535 masked wires, masked outputs, or share bits to encode or decode */
    MASKS_SHORT_BUFFER = 9,     /* a lent buffer is shorter than what the call writes into it */
    MASKS_BAD_COUNT = 10,       /* a wrong count of secrets, inputs or shares, or of a tape's bytes */
    MASKS_BAD_BIT = 11,         /* a secret, input or share is a byte above 1. Place: its position, the second secret counted after
                                   the first. Or, where none is, an unused bit of the tape is set. Place: the tape's last byte,
                                   counted after the secrets or inputs */
    MASKS_TOO_MANY_PROBES = 12, /* more probes than the order */
    MASKS_BAD_PROBE = 13        /* a probe or wire that the masked table does not have. Place: the probe's position, 0 in the marks
                                   call */
};

struct masks_answer {
    uint8_t number; /* 0 or an enum masks_refusal */
    uint32_t place;
    uint32_t value;
};

struct masks_sizes {
    uint8_t number;
    uint32_t place;
    uint32_t shares; /* n = 2t + 1 */
    uint32_t wires;  /* of the masked table */
    uint32_t tape;   /* bits: the encoder's and the random gates'; packed they are (tape + 7) / 8 bytes */
    uint32_t bytes;  /* of the masked table */
};

struct masks_marks {
    uint8_t number;
    uint32_t place;
    uint8_t first;  /* share numbers, ascending */
    uint8_t second; /* 0 where there is only one */
};

/* The library's version, to be compared with MASKS_VERSION_NUMBER: a shared library can be of another version than the header. No
 * refusals. Stack: under 1 KiB. */
uint32_t masks_version(void);

/* Checks a gate table. Value: its wires. Refusals 1 to 5. Stack: under 1 KiB. */
MASKS_CHECKED
struct masks_answer masks_check(const uint8_t *table, size_t table_len);

/* The sizes of the table that masking writes: the order, the numbers of inputs and outputs and the number of gates of each kind
 * alone decide them. C cuts an order above 255. Refusals 1 to 8. Stack: under 1 KiB. */
MASKS_CHECKED
struct masks_sizes masks_forecast(const uint8_t *table, size_t table_len, uint8_t order);

/* Masks a plain table at an order; C cuts one above 255. Value: the bytes written to out. Refusals 1 to 9. Stack: under 400 KiB. */
MASKS_CHECKED
struct masks_answer masks_mask(const uint8_t *table, size_t table_len, uint8_t order, uint8_t *out, size_t out_len);

/* The same with the DOM AND. C cuts an order above 255. Refusals 1 to 9. Stack: under 400 KiB. */
MASKS_CHECKED
struct masks_answer masks_mask_dom(const uint8_t *table, size_t table_len, uint8_t order, uint8_t *out, size_t out_len);

/* Encodes secret bits into 2t + 1 share bits each, with 2t tape bits each, packed. C cuts an order above 255. Value: the bits written
 * to out. Refusals 6, 8, 10, 11, 9. Stack: under 1 KiB. */
MASKS_CHECKED
struct masks_answer masks_encode(uint8_t order, const uint8_t *secrets, size_t secrets_len, const uint8_t *tape,
                                 size_t tape_len, uint8_t *out, size_t out_len);

/* Decodes share bits, 2t + 1 to a bit. C cuts an order above 255. Value: the bits written to out. Refusals 6, 8, 10, 11, 9. Stack:
 * under 1 KiB. */
MASKS_CHECKED
struct masks_answer masks_decode(uint8_t order, const uint8_t *shares, size_t shares_len, uint8_t *out, size_t out_len);

/* Runs any gate table on its inputs and one bit for each random gate, packed. Writes a value for each wire and each output. Value:
 * the wires. Refusals 1 to 5, 10, 11, 9. Stack: under 1 KiB. */
MASKS_CHECKED
struct masks_answer masks_run(const uint8_t *table, size_t table_len, const uint8_t *inputs, size_t inputs_len,
                              const uint8_t *random, size_t random_len, uint8_t *values, size_t values_len,
                              uint8_t *outputs, size_t outputs_len);

/* The share numbers that a probe on a wire of the masked table carries: those of the wire and of its gate's pins, each once.
 * C cuts an order above 255. Refusals 1 to 8, 13. Stack: under 1 KiB. */
MASKS_CHECKED
struct masks_marks masks_marks_of(const uint8_t *table, size_t table_len, uint8_t order, uint32_t wire);

/* The same of the table that masks_mask_dom writes. C cuts an order above 255. Refusals 1 to 8, 13. Stack: under 1 KiB. */
MASKS_CHECKED
struct masks_marks masks_marks_of_dom(const uint8_t *table, size_t table_len, uint8_t order, uint32_t wire);

/* Maps a packed tape from the first secret to the second, so that every wire that a probe reads, pins included, keeps its value.
 * Probes are given by their wires. Writes the mapped tape, packed too, to mapped, the masked table's wire values with the first secret
 * and the tape to one, and those with the second secret and the mapped tape to other. C cuts an order above 255. Value: the free
 * share, the smallest share number that no probe carries. Refusals 1 to 8, 10 to 13, 9. Stack: under 400 KiB. */
MASKS_CHECKED
struct masks_answer masks_map(const uint8_t *table, size_t table_len, uint8_t order, const uint8_t *first, size_t first_len,
                              const uint8_t *second, size_t second_len, const uint8_t *tape, size_t tape_len,
                              const uint32_t *probes, size_t probes_len, uint8_t *mapped, size_t mapped_len, uint8_t *one,
                              size_t one_len, uint8_t *other, size_t other_len);

/* The same of the table that masks_mask_dom writes. C cuts an order above 255. Refusals 1 to 8, 10 to 13, 9. Stack: under 400 KiB. */
MASKS_CHECKED
struct masks_answer masks_map_dom(const uint8_t *table, size_t table_len, uint8_t order, const uint8_t *first, size_t first_len,
                                  const uint8_t *second, size_t second_len, const uint8_t *tape, size_t tape_len,
                                  const uint32_t *probes, size_t probes_len, uint8_t *mapped, size_t mapped_len, uint8_t *one,
                                  size_t one_len, uint8_t *other, size_t other_len);

#ifdef __cplusplus
}
#endif

#endif
