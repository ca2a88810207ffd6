/* Runs a sheet from a file through the proved library and prints its report, or says what is wrong and where. Its status is 0 for a
 * report, 1 for a sheet that is refused, 2 for what could not be done. */
#include <inttypes.h>
#include <signal.h>
#include <stdio.h>
#include "hizgrael.h"

static const char *meaning(uint8_t number)
{
    switch (number) {
    case HIZGRAEL_NO_COMMAND: return "the byte names no command";
    case HIZGRAEL_CUT_SHORT: return "the sheet ends inside a command or before END";
    case HIZGRAEL_BYTE_AFTER_END: return "a byte follows END";
    case HIZGRAEL_MISPLACED: return "the command may not come there";
    case HIZGRAEL_CEILING_PASSED: return "a ceiling would be passed";
    case HIZGRAEL_OUT_OF_RANGE: return "an operand is out of range or names something not declared";
    case HIZGRAEL_WORD_REPEATED: return "the word is already in the waiting PAIRs";
    case HIZGRAEL_RELEASES_NOT_RISING: return "the releases do not rise";
    case HIZGRAEL_LIMIT_TOO_HIGH: return "the tick limit is above 65,535";
    case HIZGRAEL_BUFFER_TOO_SHORT: return "the report buffer is too short";
    default: return "accepted";
    }
}

int main(int count, char **words)
{
    static uint8_t sheet[HIZGRAEL_DECIDING_LENGTH];
    static uint8_t report[HIZGRAEL_LONGEST_REPORT];
    uint64_t place = 0;
    uint8_t number;
    size_t length;
    FILE *file;

    /* So that a broken pipe is told below, as a full disk is. */
    signal(SIGPIPE, SIG_IGN);
    if (count != 2) {
        fprintf(stderr, "usage: run_sheet FILE\n");
        return 2;
    }
    file = fopen(words[1], "rb");
    if (file == NULL) {
        perror(words[1]);
        return 2;
    }
    length = fread(sheet, 1, sizeof sheet, file);
    if (ferror(file)) {
        perror(words[1]);
        return 2;
    }
    fclose(file);

    number = hizgrael_run(sheet, length, 65535, report, sizeof report, &place);
    if (number != HIZGRAEL_ACCEPTED) {
        fprintf(stderr, "%s: refused as %u at %" PRIu64 ": %s\n", words[1], number, place, meaning(number));
        return 1;
    }
    if (fwrite(report, 1, (size_t)place, stdout) != place || fflush(stdout) != 0) {
        perror("standard output");
        return 2;
    }
    return 0;
}
