/*
 * machine.c: the calls of px8.h for whoever sits at the other end of a pipe. It reads a call with all that it lends,
 * makes it, and writes all that it left; rust/difference holds that against the reference. It judges nothing, so that
 * what a machine does wrong is seen there.
 *
 * A call: its number, the lengths of the seven parts (two that are only read; cells, layer, shown screen, dots; printer
 * buffer, output, list or buffer), a number, a place, the settings, then the parts one behind another. What comes back:
 * the answer's bytes, the settings, the parts. All numbers with the low byte first.
 */
#include <string.h>

#include "px8.h"

#if defined(BARE)
#include "bare.h"
#else
#include <unistd.h>

static int bare_read(void *to, uint32_t length)
{
    uint8_t *next = (uint8_t *)to;
    while (length) {
        const ssize_t came = read(0, next, length);
        if (came <= 0)
            return 0;
        next += came;
        length -= (uint32_t)came;
    }
    return 1;
}

static void bare_write(const void *from, uint32_t length)
{
    const uint8_t *next = (const uint8_t *)from;
    while (length) {
        const ssize_t went = write(1, next, length);
        if (went <= 0)
            _exit(1);
        next += went;
        length -= (uint32_t)went;
    }
}
#endif

#define PARTS 7
#define MEMORY (1u << 20)

typedef struct asked {
    uint32_t call;
    uint32_t lengths[PARTS];
    uint64_t number;
    uint64_t place;
    px8_settings settings;
} asked;

typedef union answers {
    uint8_t number;
    uint64_t length;
    px8_answer answer;
    px8_pack_answer pack;
    px8_compared compared;
    px8_first first;
    px8_repeats repeats;
    px8_reached reached;
    uint8_t bytes[40];
} answers;

typedef struct left {
    answers answer;
    px8_settings settings;
} left;

static uint8_t memory[MEMORY];
static asked given;
static left result;

#define STORES part[2], n[2], part[3], n[3], part[4], n[4], part[5], n[5]

static void make_call(uint8_t **part, const uint32_t *n, px8_settings *s, answers *a)
{
    switch (given.call) {
    case 0: a->number = px8_opening(s, given.number, STORES); break;
    case 1: px8_message(s, &a->answer, part[0], n[0], STORES, part[6], n[6]); break;
    case 2: px8_message_short(s, &a->answer, part[0], n[0], STORES, part[6], n[6]); break;
    case 3: px8_piece(s, &a->answer, part[0], n[0], STORES, part[6], n[6]); break;
    case 4: px8_closing(s, &a->answer, STORES); break;
    case 5: px8_pack(s, &a->pack, part[0], n[0], STORES, part[6], n[6]); break;
    case 6: px8_key_text(s, &a->answer, given.number, part[0], n[0]); break;
    case 7: a->length = px8_printed(part[0], n[0], given.number); break;
    case 8: px8_compare(&a->compared, part[0], n[0], part[1], n[1], (px8_difference *)part[6], n[6] / 4); break;
    case 9: px8_first_difference(&a->first, part[0], n[0], part[1], n[1]); break;
    case 10: px8_key_repeats(s, &a->repeats, part[0], n[0], part[6], n[6]); break;
    default: px8_write(s, &a->reached, (uint8_t)given.number, part[0], n[0], part[6], n[6], given.place); break;
    }
}

/* Whether the parts, one behind another, fit into the memory; where each begins. */
static int laid_out(uint8_t **part, uint32_t *all)
{
    int i;
    *all = 0;
    for (i = 0; i < PARTS; i++) {
        if (given.lengths[i] > MEMORY - *all)
            return 0;
        part[i] = memory + *all;
        *all += given.lengths[i];
    }
    return 1;
}

int main(void)
{
    uint8_t *part[PARTS];
    uint32_t all;
    while (bare_read(&given, sizeof given)) {
        if (!laid_out(part, &all) || !bare_read(memory, all))
            return 1;
        memset(&result.answer, 0xa5, sizeof result.answer);
        result.settings = given.settings;
        make_call(part, given.lengths, &result.settings, &result.answer);
        bare_write(&result, sizeof result);
        bare_write(memory, all);
    }
    return 0;
}
