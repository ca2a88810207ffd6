/* Fuzz harness of the builder: any bytes become a buffer and a list of commands, and what every call answers and changes is held to what
 * the header promises, to the second builder and to the library's own check.
 *
 * Input: buffer length (2 bytes), flags (1), a change of the state (3: before which call, which byte, by what; none if the last is 0),
 * then the commands: a byte that makes an operand too wide (none if 0), the command, its operands as in a sheet. What the input lacks
 * is 0. From a changed state on, only what the header promises of such a state is asked for. */
#include <string.h>
#include "area.h"
#include "commands.h"
#include "hizgrael.h"

void *second_builder(void);
void second_builder_free(void *builder);
uint8_t second_compose(void *builder, uint8_t *buffer, size_t buffer_length,
                       uint8_t command, const uint32_t *operands, uint64_t *place);

const size_t input_header = 6, input_prefix = 1;

enum { BUFFER_AT_START = 1, STATE_AT_START = 2, OPERANDS_AT_START = 4 };

/* The longest command has 37 bytes; a call without one has its byte alone. */
struct call {
    uint8_t command;
    uint32_t operands[HIZGRAEL_OPERANDS];
    uint8_t bytes[37];
    size_t length;
    int too_wide;
};

/* What lies where, and what is known of the filled part. */
struct composing {
    struct area states, buffers, others, operands, sheets;
    void *second;
    uint8_t *state, *buffer;
    size_t buffer_length, length;
    int flags, ended, invented;
};

static uint64_t by_number[HIZGRAEL_BUFFER_FULL + 1];

static void print_calls(void)
{
    print_counts("calls", by_number, sizeof by_number / sizeof *by_number);
}

static uint8_t next_byte(const uint8_t **data, const uint8_t *end)
{
    return *data < end ? *(*data)++ : 0;
}

/* Operands that the command does not have are any numbers. */
static struct call next_call(const uint8_t **data, const uint8_t *end)
{
    static const uint32_t WIDER[4] = {0x100, 0x10000, 0x1000000, 0xFFFFFF00};
    struct call call = {0, {0}, {0}, 1, 0};
    uint8_t wide = next_byte(data, end);
    const struct command *command;
    call.command = call.bytes[0] = next_byte(data, end);
    command = command_of(call.command);
    for (size_t i = 0; i < HIZGRAEL_OPERANDS; i++) {
        size_t width = command != NULL && i < command->operands ? command->widths[i] : 0;
        call.operands[i] = width > 0 ? 0 : 0xA5A5A5A5u + (uint32_t)i;
        for (size_t j = 0; j < width; j++) {
            call.bytes[call.length] = next_byte(data, end);
            call.operands[i] = call.operands[i] << 8 | call.bytes[call.length++];
        }
        if (wide != 0 && i == (wide & 15u) && width > 0 && width < 4) {
            call.operands[i] |= WIDER[wide >> 4 & 3] << (width == 2 ? 8 : 0);
            call.too_wide |= (call.operands[i] >> (8 * width)) != 0;
        }
    }
    return call;
}

static void start(struct composing *it, size_t buffer_length, int flags)
{
    if (it->states.start == NULL) {
        it->states = new_area();
        it->buffers = new_area();
        it->others = new_area();
        it->operands = new_area();
        it->sheets = new_area();
        atexit(print_calls);
    }
    fill(it->states);
    fill(it->buffers);
    fill(it->others);
    it->flags = flags;
    it->buffer_length = buffer_length;
    it->state = place_in(it->states, HIZGRAEL_STATE_LENGTH, flags & STATE_AT_START);
    it->buffer = place_in(it->buffers, buffer_length, flags & BUFFER_AT_START);
    memset(it->state, 0, HIZGRAEL_STATE_LENGTH);
    it->length = 0;
    it->ended = it->invented = 0;
    it->second = second_builder();
}

static void change_state(struct composing *it, uint8_t which, uint8_t by)
{
    if (by == 0)
        return;
    it->invented = 1;
    if (which < 128)
        it->state[which % HIZGRAEL_STATE_LENGTH] ^= by;
    else
        for (size_t i = 0; i < HIZGRAEL_STATE_LENGTH; i++)
            it->state[i] ^= (uint8_t)(by * (i * which + 1u));
}

/* The library's reader on the filled bytes and the command; it must find what the builder answered. */
static void expect_as_read(struct composing *it, const struct call *call, size_t before, const struct answer *answer)
{
    struct answer read = no_answer;
    size_t length = before + call->length;
    uint8_t *sheet = place_in(it->sheets, length, 0);
    memcpy(sheet, it->buffer, before);
    memcpy(sheet + before, call->bytes, call->length);
    read.number = hizgrael_check(sheet, length, &read.place);
    if (answer->number != HIZGRAEL_ACCEPTED && answer->number != HIZGRAEL_BUFFER_FULL)
        EXPECT(read.number == answer->number && read.place == answer->place);
    else if (call->command == HIZGRAEL_END)
        EXPECT(read.number == HIZGRAEL_ACCEPTED);
    else
        EXPECT(read.number == HIZGRAEL_CUT_SHORT && read.place == length);
}

/* What the second builder says, and what the header says of a state that calls left. */
static void expect_promised(struct composing *it, const struct call *call, const struct answer *answer)
{
    struct answer other = no_answer;
    size_t before = it->length;
    uint8_t *buffer = place_in(it->others, it->buffer_length, it->flags & BUFFER_AT_START);
    other.number = second_compose(it->second, buffer, it->buffer_length, call->command, call->operands, &other.place);
    EXPECT(answer->number == other.number && answer->place == other.place);
    EXPECT(memcmp(it->buffers.start, it->others.start, AREA) == 0);
    EXPECT(answer->number == HIZGRAEL_NO_COMMAND || it->ended || command_of(call->command) != NULL);
    EXPECT((answer->number == HIZGRAEL_BYTE_AFTER_END) == it->ended);
    if (answer->number == HIZGRAEL_ACCEPTED) {
        EXPECT(answer->place == before + call->length && !call->too_wide);
        EXPECT(memcmp(it->buffer + before, call->bytes, call->length) == 0);
        it->length = (size_t)answer->place;
        it->ended = call->command == HIZGRAEL_END;
    } else {
        EXPECT(answer->place == before);
        EXPECT(answer->number != HIZGRAEL_BUFFER_FULL || call->length > it->buffer_length - before);
    }
    if (call->too_wide && answer->number != HIZGRAEL_BYTE_AFTER_END)
        EXPECT(answer->number >= HIZGRAEL_MISPLACED && answer->number <= HIZGRAEL_OUT_OF_RANGE);
    else if (before < 512 || (before & 31) == 0)
        expect_as_read(it, call, before, answer);
}

static void expect_same(struct area area, const uint8_t *before, size_t from, size_t to)
{
    EXPECT(memcmp(area.start + from, before + from, to - from) == 0);
}

static struct answer hand_over(struct composing *it, const struct call *call)
{
    static uint8_t states[AREA], buffers[AREA];
    struct answer answer = no_answer;
    uint8_t *operands = place_in(it->operands, sizeof call->operands, it->flags & OPERANDS_AT_START);
    size_t end;
    memcpy(operands, call->operands, sizeof call->operands);
    memcpy(states, it->states.start, AREA);
    memcpy(buffers, it->buffers.start, AREA);
    answer.number = hizgrael_compose(it->state, it->buffer, it->buffer_length, call->command,
                                     (const uint32_t *)(const void *)operands, &answer.place);
    expect_kept(&answer);
    EXPECT(memcmp(operands, call->operands, sizeof call->operands) == 0);
    EXPECT(answer.number <= HIZGRAEL_BUFFER_FULL && answer.number != HIZGRAEL_CUT_SHORT);
    EXPECT(answer.number != HIZGRAEL_LIMIT_TOO_HIGH && answer.number != HIZGRAEL_BUFFER_TOO_SHORT);
    if (answer.number == HIZGRAEL_ACCEPTED) {
        EXPECT(answer.place >= call->length && answer.place <= it->buffer_length);
        end = (size_t)(it->buffer - it->buffers.start) + (size_t)answer.place;
        expect_same(it->buffers, buffers, 0, end - call->length);
        expect_same(it->buffers, buffers, end, AREA);
        end = (size_t)(it->state - it->states.start) + HIZGRAEL_STATE_LENGTH;
        expect_same(it->states, states, 0, end - HIZGRAEL_STATE_LENGTH);
        expect_same(it->states, states, end, AREA);
    } else {
        expect_same(it->buffers, buffers, 0, AREA);
        expect_same(it->states, states, 0, AREA);
    }
    by_number[answer.number]++;
    if (!it->invented)
        expect_promised(it, call, &answer);
    return answer;
}

/* A composed sheet again, in a buffer of just its length: every command is taken. In one of a byte less END is not. */
static void compose_again(struct composing *it)
{
    static uint8_t sheet[2 * HIZGRAEL_LONGEST_SHEET + 1];
    size_t length = it->length;
    EXPECT(length <= HIZGRAEL_LONGEST_SHEET);
    memset(sheet, 0, sizeof sheet);
    for (size_t from = 0, to = 0; from < length; from += length_of(command_of(it->buffer[from]))) {
        size_t bytes = length_of(command_of(it->buffer[from]));
        memcpy(sheet + to + 1, it->buffer + from, bytes);
        to += 1 + bytes;
    }
    for (size_t missing = 0; missing < 2; missing++) {
        const uint8_t *data = sheet;
        struct answer answer = no_answer;
        second_builder_free(it->second);
        start(it, length - missing, it->flags);
        while (it->length + 1 < length) {
            struct call call = next_call(&data, sheet + sizeof sheet);
            answer = hand_over(it, &call);
            EXPECT(answer.number == HIZGRAEL_ACCEPTED);
        }
        struct call end = next_call(&data, sheet + sizeof sheet);
        answer = hand_over(it, &end);
        EXPECT(answer.number == (missing ? HIZGRAEL_BUFFER_FULL : HIZGRAEL_ACCEPTED));
    }
}

int LLVMFuzzerTestOneInput(const uint8_t *data, size_t size)
{
    static struct composing it;
    const uint8_t *header = data, *end = data + size;
    if (size < input_header || size > AREA)
        return 0;
    data += input_header;
    start(&it, ((size_t)header[0] << 8 | header[1]) % (2 * PAGE), header[2]);
    for (size_t number = 0; data < end; number++) {
        struct call call = next_call(&data, end);
        if (number == header[3])
            change_state(&it, header[4], header[5]);
        hand_over(&it, &call);
    }
    if (it.ended && !it.invented)
        compose_again(&it);
    second_builder_free(it.second);
    return 0;
}
