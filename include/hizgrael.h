/* Hizgrael, the exchange engine: the three entries of the proved library (x86-64 Linux). `make install` puts all three in place as
 * libhizgrael.a; `scripts/prove` puts hizgrael_check and hizgrael_run into libengine.a, and hizgrael_compose into libbuilder.a.
 *
 * A run sheet is a string of commands that declares words, blocks of eight words, tasks and their releases (docs/SHEETS.md).
 * hizgrael_compose makes one command by command; the program makes sheets from text (`hizgrael encode`). The engine runs a sheet one
 * statement a tick, always the highest task with work, and writes a report. A release to a task whose job is unfinished waits behind
 * it, up to four for a task; one more is dropped, and the report counts it for its task. A transaction that loses an attempt, by a
 * stale version or a rejected commit, restarts by itself, and the report counts that too.
 *
 * What is proved, for every sheet, limit, state and buffer: the entries return; number, place and every byte of the report buffer, and
 * of the builder's buffer, are those of the definitions in crates/model/specs (Answer.antt, Builder.antt); a sheet is accepted exactly
 * when it is well formed (WellFormed.antt); an accepted run is a sequence of whole operations (Claim.antt), each task's drops are those
 * of its releases that neither started a job nor wait (Drops.antt), and its lost attempts are the ticks in which its transactions
 * restarted (LostAttempts.antt); every accepted sheet can be composed, and by one list of commands. What the caller must see to: each
 * pointer is valid for its length and for the whole call, and what the pointers of one call point to does not overlap. A pointer whose
 * length is 0 is not read but must not be null. No entry keeps a pointer, allocates, or uses more stack than docs/BOARDS.md states.
 */
#ifndef HIZGRAEL_H
#define HIZGRAEL_H

#include <stddef.h>
#include <stdint.h>

/* The version. It stands here and nowhere else: the Makefile, the pkg-config file, the Rust wrapper and the program read this line. */
#define HIZGRAEL_VERSION "0.8.0"

#ifdef __cplusplus
extern "C" {
#endif

/* The numbers that the entries return. In the comments: what *place then holds. Of compose it always is the filled length, where a
 * refused command would have stood. */
enum {
    HIZGRAEL_ACCEPTED = 0,            /* check: 0; run: the length of the report; compose: the new filled length */
    HIZGRAEL_NO_COMMAND = 1,          /* the byte that names no command */
    HIZGRAEL_CUT_SHORT = 2,           /* the command in which the sheet ends, or the sheet's length if END is missing */
    HIZGRAEL_BYTE_AFTER_END = 3,      /* the byte after END */
    HIZGRAEL_MISPLACED = 4,           /* the command that may not come there */
    HIZGRAEL_CEILING_PASSED = 5,      /* the command that would pass a ceiling */
    HIZGRAEL_OUT_OF_RANGE = 6,        /* the command with an operand out of range, or of something not declared */
    HIZGRAEL_WORD_REPEATED = 7,       /* the PAIR whose word is already in the waiting PAIRs */
    HIZGRAEL_RELEASES_NOT_RISING = 8, /* the RELEASE that does not come after the one before it */
    HIZGRAEL_LIMIT_TOO_HIGH = 9,      /* 0: the limit is above 65,535 (run only) */
    HIZGRAEL_BUFFER_TOO_SHORT = 10,   /* the length that the report needs (run only) */
    HIZGRAEL_BUFFER_FULL = 11         /* fewer bytes are free than the command has (compose only) */
};

/* The bytes that name the commands of a sheet, and the operands of each in their order. */
enum {
    HIZGRAEL_WORD = 0x01,    /* start value */
    HIZGRAEL_BLOCK = 0x02,   /* version, eight values */
    HIZGRAEL_TASK = 0x03,
    HIZGRAEL_RELEASE = 0x04, /* tick, task */
    HIZGRAEL_END = 0x05,
    HIZGRAEL_LOAD = 0x10,    /* register, value */
    HIZGRAEL_ADD = 0x11,     /* register, register */
    HIZGRAEL_READ = 0x12,    /* register, word */
    HIZGRAEL_PAIR = 0x13,    /* word, register of old, register of new */
    HIZGRAEL_SWAP = 0x14,    /* register for the answer */
    HIZGRAEL_BEGIN = 0x20,
    HIZGRAEL_GET = 0x21,     /* register, block, offset */
    HIZGRAEL_PUT = 0x22,     /* block, offset, register */
    HIZGRAEL_COMMIT = 0x23
};

/* No report is longer, so a buffer of this length is always enough. */
#define HIZGRAEL_LONGEST_REPORT 3925

/* No good sheet is longer, so a buffer of this length is always enough to compose one. */
#define HIZGRAEL_LONGEST_SHEET 4857

/* The first bytes of a longer input decide its answer, so a reader may stop there: a faulty command starts at 4,856 at the latest, and
 * none has more than 37 bytes. */
#define HIZGRAEL_DECIDING_LENGTH 4893

/* What the caller keeps between two calls of hizgrael_compose. All bytes 0: nothing is filled yet. */
#define HIZGRAEL_STATE_LENGTH 64
typedef uint8_t hizgrael_state[HIZGRAEL_STATE_LENGTH];

/* No command has more operands. */
#define HIZGRAEL_OPERANDS 9

/* Is the sheet well formed? */
uint8_t hizgrael_check(const uint8_t *sheet, size_t sheet_length, uint64_t *place);

/* Runs the sheet for at most limit ticks and writes the report to the front of the buffer; the bytes past the report are
 * unchanged. If the number is not 0, every byte of the buffer is unchanged. */
uint8_t hizgrael_run(const uint8_t *sheet, size_t sheet_length, uint64_t limit,
                     uint8_t *report, size_t report_length, uint64_t *place);

/* Hands over one more command of a sheet that is composed in the buffer. State (a hizgrael_state) and buffer are as the last call left
 * them; the operands are nine numbers, and those that the command does not have are not looked at.
 *
 * Number 0: the command is taken. Its bytes stand right after the part filled before, *place and the state have the new length, and
 * the bytes past it are unchanged. After END is taken, the filled part is a sheet that hizgrael_check accepts.
 *
 * Any other number: neither state nor buffer has changed, and the next call may hand over another command. 1 and 3 to 8 are what
 * hizgrael_check would answer to the filled part with this command after it; an operand too large for its bytes in the sheet is out of
 * range, and after END every command gets 3. 2 does not occur. Then comes 11; just as many free bytes as the command has are enough.
 *
 * A state that no call left is some state all the same (crates/builder/specs/Packed.antt says which): the answer is the definition's for
 * it, the call keeps to its buffers, and a refusal changes nothing. That the filled part is a sheet's beginning is then not said. */
uint8_t hizgrael_compose(uint8_t *state, uint8_t *buffer, size_t buffer_length,
                         uint8_t command, const uint32_t *operands, uint64_t *place);

#ifdef __cplusplus
}
#endif

#endif
