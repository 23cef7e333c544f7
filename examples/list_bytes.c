/*
 * Lists a byte string through the static library, as the terminal's firmware does, and tries the refusals.
 * Each block has just the size that is handed on, so that a byte read or written past it is seen by valgrind.
 */
#include "station_listing.h"

#include <stdio.h>
#include <stdlib.h>
#include <string.h>

/* A short branch at a page's end, 68, a port, and a long branch whose operand is cut off. */
static const uint8_t program[] = {0xF8, 0x0A, 0x3A, 0x05, 0x68, 0x62, 0xC0, 0x2F, 0x9A, 0xC3, 0x2F};

static uint8_t *block(const void *bytes, size_t length)
{
    uint8_t *copy = malloc(length ? length : 1);
    if (copy == NULL)
        exit(2);
    if (length)
        memcpy(copy, bytes, length);
    return copy;
}

/* Prints the line of a code's first group; ends the program where a byte behind the line changed. */
static size_t list_first(uint16_t address, const uint8_t *code, size_t code_length, size_t buffer_length)
{
    uint8_t dots[64];
    memset(dots, '.', sizeof dots);
    uint8_t *given = block(code, code_length);
    uint8_t *buffer = block(dots, buffer_length);
    struct station_line answer = station_list_line(address, given, code_length, buffer, buffer_length);
    printf("number=%u line=%u group=%u ", answer.number, answer.line, answer.group);
    if (answer.line == 0)
        putchar('\n');
    fwrite(buffer, 1, answer.line, stdout);
    if (memcmp(buffer + answer.line, dots, buffer_length - answer.line) != 0) {
        puts("a byte behind the line changed");
        exit(1);
    }
    free(given);
    free(buffer);
    return answer.group;
}

int main(void)
{
    static const uint8_t opcodes[] = {0x00, 0x30, 0x38, 0x68, 0xC0, 0xC4, 0xF8, 0xFE};
    for (size_t i = 0; i < sizeof opcodes; i++) {
        struct station_entry entry = station_opcode(opcodes[i]);
        printf("%02X length=%u cycles=%u\n", opcodes[i], entry.length, entry.cycles);
    }
    puts("the program at FFFD, where addresses wrap:");
    for (size_t at = 0; at < sizeof program;)
        at += list_first((uint16_t)(0xFFFD + at), program + at, sizeof program - at, STATION_LINE_BUFFER);
    puts("a buffer of 23 bytes, then no code, then both:");
    list_first(0, program, sizeof program, STATION_LINE_BUFFER - 1);
    list_first(0, program, 0, STATION_LINE_BUFFER);
    list_first(0, program, 0, STATION_LINE_BUFFER - 1);
    puts("null pointers with length 0:");
    uint8_t dots[STATION_LINE_BUFFER];
    memset(dots, '.', sizeof dots);
    struct station_line none = station_list_line(0, NULL, 0, dots, sizeof dots);
    printf("number=%u line=%u group=%u %.*s\n", none.number, none.line, none.group, (int)sizeof dots, (char *)dots);
    none = station_list_line(0, NULL, 0, NULL, 0);
    printf("number=%u line=%u group=%u\n", none.number, none.line, none.group);
    return 0;
}
