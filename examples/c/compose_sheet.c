/* Composes sheet A of document 01 through the proved library, command by command, runs it and prints its report. */
#include <inttypes.h>
#include <signal.h>
#include <stdio.h>
#include "hizgrael.h"

struct command {
    uint8_t byte;
    uint32_t operands[HIZGRAEL_OPERANDS];
};

static const struct command SHEET_A[] = {
    {HIZGRAEL_WORD, {12}},
    {HIZGRAEL_TASK, {0}},
    {HIZGRAEL_LOAD, {1, 12}},
    {HIZGRAEL_LOAD, {2, 5}},
    {HIZGRAEL_PAIR, {0, 1, 2}},
    {HIZGRAEL_SWAP, {0}},
    {HIZGRAEL_RELEASE, {0, 0}},
    {HIZGRAEL_END, {0}},
};

int main(void)
{
    static uint8_t sheet[HIZGRAEL_LONGEST_SHEET];
    static uint8_t report[HIZGRAEL_LONGEST_REPORT];
    hizgrael_state state = {0};
    uint64_t filled = 0, length = 0;
    uint8_t number;

    /* So that a broken pipe is told below, as a full disk is. */
    signal(SIGPIPE, SIG_IGN);
    for (size_t i = 0; i < sizeof SHEET_A / sizeof *SHEET_A; i++) {
        const struct command *command = &SHEET_A[i];
        number = hizgrael_compose(state, sheet, sizeof sheet, command->byte, command->operands, &filled);
        if (number != HIZGRAEL_ACCEPTED) {
            fprintf(stderr, "command %zu: refused as %u at %" PRIu64 "\n", i, number, filled);
            return 1;
        }
    }
    /* After END the sheet is good, and no report is longer than the buffer. */
    number = hizgrael_run(sheet, (size_t)filled, 65535, report, sizeof report, &length);
    if (number != HIZGRAEL_ACCEPTED) {
        fprintf(stderr, "refused as %u at %" PRIu64 "\n", number, length);
        return 1;
    }
    if (fwrite(report, 1, (size_t)length, stdout) != length || fflush(stdout) != 0) {
        perror("standard output");
        return 2;
    }
    return 0;
}
