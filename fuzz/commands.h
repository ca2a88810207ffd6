/* The commands of a sheet: the byte, and how many bytes each operand has. */
#ifndef COMMANDS_H
#define COMMANDS_H

#include <stddef.h>
#include <stdint.h>

/* Of each harness: the bytes of its input before the first command, and before each command. */
extern const size_t input_header, input_prefix;

struct command {
    uint8_t byte;
    uint8_t operands;
    uint8_t widths[9];
};

static const struct command COMMANDS[14] = {
    {0x01, 1, {4}}, {0x02, 9, {4, 4, 4, 4, 4, 4, 4, 4, 4}}, {0x03, 0, {0}}, {0x04, 2, {2, 1}}, {0x05, 0, {0}},
    {0x10, 2, {1, 4}}, {0x11, 2, {1, 1}}, {0x12, 2, {1, 1}}, {0x13, 3, {1, 1, 1}}, {0x14, 1, {1}},
    {0x20, 0, {0}}, {0x21, 3, {1, 1, 1}}, {0x22, 3, {1, 1, 1}}, {0x23, 0, {0}},
};

/* NULL if the byte names no command. */
static inline const struct command *command_of(uint8_t byte)
{
    for (size_t i = 0; i < sizeof COMMANDS / sizeof *COMMANDS; i++)
        if (COMMANDS[i].byte == byte)
            return &COMMANDS[i];
    return NULL;
}

/* Its byte and those of its operands. */
static inline size_t length_of(const struct command *command)
{
    size_t length = 1;
    for (size_t i = 0; i < command->operands; i++)
        length += command->widths[i];
    return length;
}

#endif
