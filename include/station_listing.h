/*
 * The listing of CDP1802 code, for the terminal's firmware.
 *
 * Link with liblisting.a, which `tools/staticlib.sh` writes to target/staticlib/.
 * Both functions keep no state, allocate nothing and always return. What they promise is proved of every call
 * whose pointers and lengths are true: `code` points to `code_length` readable bytes, `buffer` to `buffer_length`
 * writable ones, and the two do not overlap. A NULL pointer with the length 0 is tried by examples/list_bytes.c: it
 * is taken as no bytes.
 */
#ifndef STATION_LISTING_H
#define STATION_LISTING_H

#include <stddef.h>
#include <stdint.h>

#ifdef __cplusplus
extern "C" {
#endif

/* The table's entry for an opcode. */
struct station_entry {
    uint8_t length; /* bytes of the instruction, operand included: 1, 2 or 3 */
    uint8_t cycles; /* machine cycles, the fetch included: 2, or 3 in class C; 1 for 68, which stops the processor */
};

struct station_entry station_opcode(uint8_t opcode);

/* What a call of station_list_line answers. */
struct station_line {
    uint8_t number; /* 0: done; 4: the buffer has fewer than 24 bytes, and nothing was written */
    uint8_t line;   /* bytes written at the buffer's start, the final 0A included: at most 22; 0 if none */
    uint8_t group;  /* bytes of the code that the line stands for, 1 to 3; 0 if none. The next line starts behind them */
};

#define STATION_DONE 0
#define STATION_SHORT_BUFFER 4
#define STATION_LINE_BUFFER 24 /* the least number of bytes that a line's buffer has */

/*
 * Writes the line of the first group of the code, which stands at `address`, to the start of the buffer: the address,
 * the group's bytes, the name and any operand, in capitals, parted by single spaces and ended by 0A, as in
 * "0000 F80A LDI 0A\n". There is no final NUL. The buffer's other bytes stay.
 *
 * The buffer's length is tried first: under 24 the number is 4, both lengths are 0, and the buffer is unchanged.
 * With no code bytes the number and both lengths are 0, and the buffer is unchanged.
 */
struct station_line station_list_line(uint16_t address, const uint8_t *code, size_t code_length, uint8_t *buffer,
                                      size_t buffer_length);

#ifdef __cplusplus
}
#endif

#endif
