/* What the harnesses share: buffers against pages that may not be touched, and answers with bytes around their place. The library itself
 * is not instrumented, so its buffers lie at the page after them or at the page before them. */
#ifndef AREA_H
#define AREA_H

#include <stddef.h>
#include <stdint.h>
#include <stdio.h>
#include <stdlib.h>
#include <sys/mman.h>

#define PAGE 4096u
#define AREA (4u * PAGE)

#define EXPECT(claim) \
    do { \
        if (!(claim)) { \
            fprintf(stderr, "%s:%d: not so: %s\n", __FILE__, __LINE__, #claim); \
            abort(); \
        } \
    } while (0)

/* Bytes that the library may use, between two pages that nobody may. */
struct area {
    uint8_t *start;
};

/* An answer, with bytes around the place that must stay. */
struct answer {
    uint64_t before;
    uint64_t place;
    uint64_t after;
    uint8_t number;
};

static const struct answer no_answer = {0x1122334455667788u, 0xA5A5A5A5A5A5A5A5u, 0x8877665544332211u, 0xFF};

static inline void expect_kept(const struct answer *answer)
{
    EXPECT(answer->before == no_answer.before && answer->after == no_answer.after);
}

static inline struct area new_area(void)
{
    struct area area;
    uint8_t *pages = mmap(NULL, AREA + 2 * PAGE, PROT_NONE, MAP_PRIVATE | MAP_ANONYMOUS, -1, 0);
    EXPECT(pages != MAP_FAILED);
    area.start = pages + PAGE;
    EXPECT(mprotect(area.start, AREA, PROT_READ | PROT_WRITE) == 0);
    return area;
}

static inline uint8_t *place_in(struct area area, size_t length, int at_start)
{
    return at_start ? area.start : area.start + AREA - length;
}

/* No two neighbours are the same, so that a shifted write shows. */
static inline uint8_t filled(size_t i)
{
    return (uint8_t)(i * 31u + 7u);
}

static inline void fill(struct area area)
{
    for (size_t i = 0; i < AREA; i++)
        area.start[i] = filled(i);
}

static inline void expect_filled(struct area area, const uint8_t *from, const uint8_t *to)
{
    for (const uint8_t *at = from; at < to; at++)
        EXPECT(*at == filled((size_t)(at - area.start)));
}

static inline void print_counts(const char *what, const uint64_t *by_number, size_t count)
{
    fprintf(stderr, "%s by number, from 0:", what);
    for (size_t i = 0; i < count; i++)
        fprintf(stderr, " %llu", (unsigned long long)by_number[i]);
    fprintf(stderr, "\n");
}

#endif
