/* What the two units of the program two_units say to each other. */
#ifndef TWO_UNITS_H
#define TWO_UNITS_H

#include "hizgrael.h"

#ifdef __cplusplus
extern "C" {
#endif

/* Composes sheet A of document 01 and returns its length, or 0 if a command was refused or the check does not accept the sheet. */
size_t compose_sheet_a(uint8_t *sheet, size_t length);

#ifdef __cplusplus
}
#endif

#endif
