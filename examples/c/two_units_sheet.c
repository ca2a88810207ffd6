/* The second unit of two_units: it includes the header too, composes the sheet and checks it. */
#include "two_units.h"

size_t compose_sheet_a(uint8_t *sheet, size_t length)
{
    static const struct {
        uint8_t byte;
        uint32_t operands[HIZGRAEL_OPERANDS];
    } commands[] = {
        {HIZGRAEL_WORD, {12}},      {HIZGRAEL_TASK, {0}}, {HIZGRAEL_LOAD, {1, 12}},   {HIZGRAEL_LOAD, {2, 5}},
        {HIZGRAEL_PAIR, {0, 1, 2}}, {HIZGRAEL_SWAP, {0}}, {HIZGRAEL_RELEASE, {0, 0}}, {HIZGRAEL_END, {0}},
    };
    hizgrael_state state = {0};
    uint64_t filled = 0, place = 0;

    for (size_t i = 0; i < sizeof commands / sizeof *commands; i++)
        if (hizgrael_compose(state, sheet, length, commands[i].byte, commands[i].operands, &filled) != HIZGRAEL_ACCEPTED)
            return 0;
    return hizgrael_check(sheet, (size_t)filled, &place) == HIZGRAEL_ACCEPTED ? (size_t)filled : 0;
}
