/* The library without any C library: memcpy, memset and the start of the program are here, as on a board without an operating system. Only
 * what tells the outcome is Linux: two system calls. Linked with two_units_sheet.c by -nostdlib. */
#include "two_units.h"

enum { SYSCALL_WRITE = 1, SYSCALL_EXIT = 60, STANDARD_OUTPUT = 1 };

void *memcpy(void *restrict to, const void *restrict from, size_t length)
{
    unsigned char *t = to;
    const unsigned char *f = from;
    for (size_t i = 0; i < length; i++) t[i] = f[i];
    return to;
}

void *memset(void *to, int byte, size_t length)
{
    unsigned char *t = to;
    for (size_t i = 0; i < length; i++) t[i] = (unsigned char)byte;
    return to;
}

static long call(long number, long first, const void *second, size_t third)
{
    long answer;
    __asm__ volatile("syscall" : "=a"(answer) : "a"(number), "D"(first), "S"(second), "d"(third) : "rcx", "r11", "memory");
    return answer;
}

static int print(const void *bytes, size_t length)
{
    return call(SYSCALL_WRITE, STANDARD_OUTPUT, bytes, length) == (long)length;
}

/* The statuses of run_sheet. */
static int status(void)
{
    static const char version[] = "hizgrael " HIZGRAEL_VERSION "\n";
    static uint8_t sheet[HIZGRAEL_LONGEST_SHEET], report[HIZGRAEL_LONGEST_REPORT];
    uint64_t length = 0;
    size_t filled = compose_sheet_a(sheet, sizeof sheet);

    if (filled == 0 || hizgrael_run(sheet, filled, 65535, report, sizeof report, &length) != HIZGRAEL_ACCEPTED)
        return 1;
    return print(version, sizeof version - 1) && print(report, (size_t)length) ? 0 : 2;
}

void start(void)
{
    call(SYSCALL_EXIT, status(), NULL, 0);
}

/* The stack pointer is a multiple of 16 here, and after the call as the ABI wants it. */
__asm__(".globl _start\n_start: xor %ebp, %ebp\n call start\n");
