/*
 * A weighing bay at a serial line: it takes the bytes in whatever parts they
 * come, shows them at once, and closes the stream when the line ends.
 *
 *   gcc -std=c99 -o serial serial.c libpx8.a && ./serial < serial.in
 *   stty -F /dev/ttyS0 raw 9600 && ./serial < /dev/ttyS0
 *
 * An argument says how many bytes to take at most at a time, 1 to 64. However the
 * line is cut, the same is printed: each copy as it comes, at the end what came of
 * the whole line and the eight lines of the shown screen. serial.out holds what is
 * printed of serial.in.
 */
#define _POSIX_C_SOURCE 200112L
#include <stdio.h>
#include <stdlib.h>
#include <unistd.h>

#include "px8.h"

#define PART 64 /* bytes taken at a time, at most */

/* A stream has at most PX8_COUNT_MOST bytes, 12 days of a full line at 9,600 baud.
 * A line that goes on is closed before, where nothing waits: then closing does
 * nothing but set the count back, and no sequence is lost. */
#ifndef RENEW
#define RENEW (PX8_COUNT_MOST / 2)
#endif

/* All that a bay keeps. There is room for every copy that a part can ask for, so
 * that none is refused because of where the line is cut, in mode 3 too, where a copy
 * is the dots. */
typedef struct bay {
    px8_settings settings;
    uint8_t cells[PX8_CELLS];
    uint8_t layer[PX8_LAYER];
    uint8_t shown[PX8_SHOWN];
    uint8_t dots[PX8_DOTS];
    uint8_t printer[(PART + 1) / 2 * PX8_DOTS];
} bay;

/* What came of the whole line. */
typedef struct total {
    unsigned long long closed; /* bytes of the streams closed before */
    unsigned long long taken, accepted, refused;
    unsigned first, parameter;
    unsigned long long offset; /* from the line's start */
} total;

/* Adds a call's answer; false if the whole call was refused. */
static int add(total *to, const px8_answer *answer)
{
    if (answer->number != PX8_SERVED) {
        fprintf(stderr, "refused %u\n", (unsigned)answer->number);
        return 0;
    }
    if (to->refused == 0 && answer->refused != 0) {
        to->first = answer->first;
        to->parameter = answer->parameter;
        to->offset = to->closed + answer->offset;
    }
    to->taken += answer->taken;
    to->accepted += answer->accepted;
    to->refused += answer->refused;
    return 1;
}

/* A board would send these bytes to its printer as they are. Here each row
 * stands between bars, without its 13 and 10. (A copy of mode 3 has no rows of text;
 * the line that is stored beside this program has none.) */
static void send_copies(const uint8_t *copies, px8_size length)
{
    px8_size row;
    for (row = 0; row + PX8_COPY_ROW <= length; row += PX8_COPY_ROW)
        printf("printer |%.*s|\n", PX8_WIDTH, (const char *)copies + row);
}

static int take_part(bay *at, total *to, const uint8_t *part, size_t length)
{
    px8_answer answer;
    px8_piece(&at->settings, &answer, part, length, at->cells, sizeof at->cells, at->layer,
              sizeof at->layer, at->shown, sizeof at->shown, at->dots, sizeof at->dots, at->printer,
              sizeof at->printer);
    send_copies(at->printer, px8_printed(at->printer, sizeof at->printer, answer.printed));
    return add(to, &answer);
}

static int close_stream(bay *at, total *to)
{
    px8_answer answer;
    int served;
    px8_closing(&at->settings, &answer, at->cells, sizeof at->cells, at->layer, sizeof at->layer,
                at->shown, sizeof at->shown, at->dots, sizeof at->dots);
    served = add(to, &answer);
    to->closed = to->taken;
    return served;
}

/* The whole line; false if a call was refused or the line cannot be read. */
static int take_line(bay *at, total *to, size_t most)
{
    uint8_t part[PART];
    ssize_t length;
    while ((length = read(STDIN_FILENO, part, most)) > 0) {
        if (!take_part(at, to, part, (size_t)length))
            return 0;
        if (at->settings.held == 0 && at->settings.count >= RENEW && !close_stream(at, to))
            return 0;
    }
    return length == 0 && close_stream(at, to);
}

/* The eight lines, without trailing blanks. */
static void show_lines(const uint8_t *shown)
{
    int row, column, end;
    for (row = 1; row <= PX8_ROWS; row++) {
        end = PX8_WIDTH;
        while (end > 0 && shown[PX8_AT(row, end)] == PX8_BLANK)
            end--;
        printf(end > 0 ? "%d " : "%d", row);
        for (column = 1; column <= end; column++) {
            const uint8_t code = shown[PX8_AT(row, column)];
            putchar(code >= 32 && code <= 126 ? code : '.');
        }
        putchar('\n');
    }
}

int main(int words, char **word)
{
    static bay here;
    static total line;
    const long most = words > 1 ? atol(word[1]) : PART;
    if (most < 1 || most > PART)
        return 2;
    if (px8_opening(&here.settings, 1, here.cells, sizeof here.cells, here.layer, sizeof here.layer,
                    here.shown, sizeof here.shown, here.dots, sizeof here.dots) != PX8_SERVED)
        return 2;
    if (!take_line(&here, &line, (size_t)most))
        return 1;
    printf("taken %llu accepted %llu refused %llu first %u at %llu parameter %u\n", line.taken,
           line.accepted, line.refused, line.first, line.offset, line.parameter);
    show_lines(here.shown);
    return 0;
}
