/* Mutates sheets command by command, so that many stay well formed; one time in four any bytes. */
#include <stdlib.h>
#include <string.h>
#include "commands.h"

size_t LLVMFuzzerMutate(uint8_t *data, size_t size, size_t max_size);

#define MOST 4096

static unsigned state;

static size_t below(size_t bound)
{
    state = state * 1103515245u + 12345u;
    return (state >> 8) % bound;
}

/* Where the commands start, up to the first that is none or is cut; starts[count] is where they end. */
static size_t find_commands(const uint8_t *data, size_t size, size_t *starts)
{
    size_t count = 0, at = input_header;
    starts[0] = at;
    while (at + input_prefix < size && count < MOST) {
        const struct command *command = command_of(data[at + input_prefix]);
        if (command == NULL || size - at < input_prefix + length_of(command))
            break;
        at += input_prefix + length_of(command);
        starts[++count] = at;
    }
    return count;
}

static size_t insert(uint8_t *data, size_t size, size_t at, const uint8_t *piece, size_t length)
{
    uint8_t copy[64];
    memcpy(copy, piece, length);
    memmove(data + at + length, data + at, size - at);
    memcpy(data + at, copy, length);
    return size + length;
}

static size_t removed(uint8_t *data, size_t size, size_t at, size_t length)
{
    memmove(data + at, data + at + length, size - at - length);
    return size - length;
}

/* This release and all that follow come later or earlier by the same number of ticks. */
static void shift_releases(uint8_t *data, const size_t *starts, size_t count, size_t first)
{
    unsigned by = (unsigned)below(33) - 16u;
    for (size_t i = first; i < count; i++) {
        uint8_t *release = data + starts[i] + input_prefix;
        if (release[0] == 0x04) {
            unsigned tick = ((unsigned)release[1] << 8 | release[2]) + by;
            release[1] = (uint8_t)(tick >> 8);
            release[2] = (uint8_t)tick;
        }
    }
}

size_t LLVMFuzzerCustomMutator(uint8_t *data, size_t size, size_t max_size, unsigned seed)
{
    static size_t starts[MOST + 1];
    size_t count, one, other, start, length;
    state = seed;
    count = size < input_header ? 0 : find_commands(data, size, starts);
    if (count == 0 || below(4) == 0)
        return LLVMFuzzerMutate(data, size, max_size);
    one = below(count);
    other = below(count);
    start = starts[one];
    length = starts[one + 1] - start;
    switch (below(input_prefix > 0 ? 7 : 6)) {
    case 0: /* an operand becomes a small number */
    case 1:
        if (length > input_prefix + 1)
            data[start + input_prefix + 1 + below(length - input_prefix - 1)] = (uint8_t)below(9);
        return size;
    case 2: /* a command stands again before another */
        return size + length <= max_size ? insert(data, size, starts[other], data + start, length) : size;
    case 3:
        return removed(data, size, start, length);
    case 4:
        shift_releases(data, starts, count, one);
        return size;
    case 6: /* another byte before the command */
        data[start + below(input_prefix)] = (uint8_t)below(256);
        return size;
    default: /* another limit, buffer length or whatever else comes first */
        data[below(input_header)] = (uint8_t)below(256);
        return size;
    }
}
