/* Two units that both include the header, in one program: this one prints the version, and the report of the sheet that the other
 * composed. try-links links it in many ways. */
#include <stdio.h>
#include "two_units.h"

int main(void)
{
    static uint8_t sheet[HIZGRAEL_LONGEST_SHEET], report[HIZGRAEL_LONGEST_REPORT];
    uint64_t length = 0;
    size_t filled = compose_sheet_a(sheet, sizeof sheet);

    if (filled == 0 || hizgrael_run(sheet, filled, 65535, report, sizeof report, &length) != HIZGRAEL_ACCEPTED) {
        fprintf(stderr, "refused\n");
        return 1;
    }
    if (printf("hizgrael %s\n", HIZGRAEL_VERSION) < 0 || fwrite(report, 1, (size_t)length, stdout) != length || fflush(stdout) != 0) {
        perror("standard output");
        return 2;
    }
    return 0;
}
