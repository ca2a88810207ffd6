/* Fuzz harness of the check and the run: any bytes become a sheet, a limit and a report buffer, and what both entries answer is
 * held to what the header promises and to the second simulator.
 *
 * Input: limit (2 bytes), flags (1), buffer length (2), then the sheet. With the flags' bits 2 and 3 sheet and report lie at the page
 * before them, else at the page after them. */
#include <string.h>
#include "area.h"
#include "commands.h"
#include "hizgrael.h"

uint8_t second_check(const uint8_t *sheet, size_t sheet_length, uint64_t *place);
uint8_t second_run(const uint8_t *sheet, size_t sheet_length, uint64_t limit,
                   uint8_t *report, size_t report_length, uint64_t *place);

#define TOP_LIMIT 65535u

const size_t input_header = 5, input_prefix = 0;

enum { ABOVE_TOP = 1, FAR_ABOVE_TOP = 2, SHEET_AT_START = 4, REPORT_AT_START = 8 };

static uint64_t by_number[HIZGRAEL_BUFFER_TOO_SHORT + 1];

static void print_runs(void)
{
    print_counts("runs", by_number, sizeof by_number / sizeof *by_number);
}

static struct answer check_sheet(const uint8_t *sheet, size_t length)
{
    struct answer answer = no_answer, other = no_answer;
    answer.number = hizgrael_check(sheet, length, &answer.place);
    expect_kept(&answer);
    EXPECT(answer.number <= HIZGRAEL_RELEASES_NOT_RISING);
    EXPECT(answer.number == 0 ? answer.place == 0 : answer.place <= length);
    EXPECT(answer.place < length || answer.number == 0 || answer.number == HIZGRAEL_CUT_SHORT);
    other.number = second_check(sheet, length, &other.place);
    EXPECT(answer.number == other.number && answer.place == other.place);
    if (length > HIZGRAEL_DECIDING_LENGTH) {
        other.number = hizgrael_check(sheet, HIZGRAEL_DECIDING_LENGTH, &other.place);
        EXPECT(answer.number == other.number && answer.place == other.place);
    }
    return answer;
}

/* A run with a buffer of this length: everything in the area but the report stays as it was. */
static struct answer run_sheet(const uint8_t *sheet, size_t length, uint64_t limit,
                               struct area area, size_t report_length, int at_start)
{
    struct answer answer = no_answer;
    uint8_t *report = place_in(area, report_length, at_start);
    size_t written;
    fill(area);
    answer.number = hizgrael_run(sheet, length, limit, report, report_length, &answer.place);
    expect_kept(&answer);
    EXPECT(answer.number <= HIZGRAEL_BUFFER_TOO_SHORT);
    if (answer.number == HIZGRAEL_ACCEPTED)
        EXPECT(answer.place <= report_length && answer.place <= HIZGRAEL_LONGEST_REPORT);
    written = answer.number == HIZGRAEL_ACCEPTED ? (size_t)answer.place : 0;
    expect_filled(area, area.start, report);
    expect_filled(area, report + written, area.start + AREA);
    return answer;
}

int LLVMFuzzerTestOneInput(const uint8_t *data, size_t size)
{
    static struct area sheets, reports, others;
    static uint8_t kept[HIZGRAEL_LONGEST_REPORT];
    struct answer checked, answer, other = no_answer, again;
    size_t length, report_length, needed;
    int flags, at_start;
    uint64_t limit;
    uint8_t *sheet;

    if (sheets.start == NULL) {
        sheets = new_area();
        reports = new_area();
        others = new_area();
        atexit(print_runs);
    }
    if (size < input_header || size - input_header > AREA)
        return 0;
    limit = (uint64_t)data[0] << 8 | data[1];
    flags = data[2];
    if (flags & ABOVE_TOP)
        limit += TOP_LIMIT + 1u;
    if (flags & FAR_ABOVE_TOP)
        limit = UINT64_MAX - limit;
    report_length = ((size_t)data[3] << 8 | data[4]) % PAGE;
    at_start = (flags & REPORT_AT_START) != 0;
    length = size - input_header;
    sheet = place_in(sheets, length, flags & SHEET_AT_START);
    memcpy(sheet, data + input_header, length);

    checked = check_sheet(sheet, length);
    answer = run_sheet(sheet, length, limit, reports, report_length, at_start);
    fill(others);
    other.number = second_run(sheet, length, limit, place_in(others, report_length, at_start), report_length, &other.place);
    EXPECT(answer.number == other.number && answer.place == other.place);
    EXPECT(memcmp(reports.start, others.start, AREA) == 0);
    by_number[answer.number]++;

    if (checked.number != 0)
        EXPECT(answer.number == checked.number && answer.place == checked.place);
    else if (limit > TOP_LIMIT)
        EXPECT(answer.number == HIZGRAEL_LIMIT_TOO_HIGH && answer.place == 0);
    else
        EXPECT(answer.number == HIZGRAEL_ACCEPTED || answer.number == HIZGRAEL_BUFFER_TOO_SHORT);

    /* A buffer of just the length needed is enough, one byte less is not. */
    if (checked.number == 0 && limit <= TOP_LIMIT) {
        needed = (size_t)answer.place;
        EXPECT(needed > 0 && (answer.number == HIZGRAEL_ACCEPTED) == (needed <= report_length));
        again = run_sheet(sheet, length, limit, reports, needed, at_start);
        EXPECT(again.number == HIZGRAEL_ACCEPTED && again.place == needed);
        memcpy(kept, place_in(reports, needed, at_start), needed);
        EXPECT(kept[needed - 1] == '\n');
        if (answer.number == HIZGRAEL_ACCEPTED)
            EXPECT(memcmp(kept, place_in(others, report_length, at_start), needed) == 0);
        again = run_sheet(sheet, length, limit, reports, needed - 1, at_start);
        EXPECT(again.number == HIZGRAEL_BUFFER_TOO_SHORT && again.place == needed);
    }
    EXPECT(memcmp(sheet, data + input_header, length) == 0);
    return 0;
}
