/*
 * A small weighing bay: the load on screen 1, the day's tally on screen 2.
 *
 *   gcc -std=c99 -o bay bay.c libpx8.a && ./bay
 *
 * The load is drawn part by part, as a scale sends it, each part in a short message with
 * its own cursor placing. Sequences are written by their names, not spelled by hand. After
 * each message the answer and the eight lines of the shown screen are printed;
 * bay.out holds what this program prints.
 */
#include <stdio.h>

#include "px8.h"

#define SCREEN_1 0
#define SCREEN_2 1

static px8_bay bay;

/* ---- writing a message ---- */

static uint8_t bytes[PX8_MESSAGE_MOST];
static px8_writer next; /* over these bytes */

/* An empty message. It is judged as the bay stands: both screens have the same lines and
 * columns here, so that a selection in the message changes nothing about the ranges. */
static void begin(void)
{
    next = px8_writer_on(&bay.settings, bytes, sizeof bytes);
}

/* A text at a line and column, counted from 1. */
static void add_at(uint8_t line, uint8_t column, const char *text)
{
    const uint8_t number = px8_put_cursor(&next, line, column);
    if (number != PX8_SERVED)
        printf("sequence 61 not written: number %u, parameter %u\n", (unsigned)number,
               (unsigned)next.parameter);
    px8_put_text(&next, text);
}

/* ---- showing what stands ---- */

/* The eight lines, without trailing blanks. */
static void show_lines(void)
{
    char text[PX8_WIDTH + 1];
    int row;
    for (row = 1; row <= PX8_ROWS; row++) {
        px8_bay_row(&bay, row, text);
        printf(text[0] ? "%d %s\n" : "%d\n", row, text);
    }
}

/* A board would send these bytes to its printer as they are. Here each row
 * stands between bars, without its 13 and 10. */
static void show_copy(px8_size length)
{
    px8_size row;
    for (row = 0; row + PX8_COPY_ROW <= length; row += PX8_COPY_ROW)
        printf("printer |%.*s|\n", PX8_WIDTH, (const char *)bay.printer + row);
}

static void show(const char *title, px8_answer answer)
{
    printf("%s\n", title);
    printf("answer %u taken %lu accepted %lu refused %lu first %u at %lu\n",
           (unsigned)answer.number, (unsigned long)answer.taken,
           (unsigned long)answer.accepted, (unsigned long)answer.refused,
           (unsigned)answer.first, (unsigned long)answer.offset);
    show_lines();
    show_copy(answer.printed);
}

static void send_message(const char *title)
{
    show(title, px8_bay_message(&bay, bytes, (size_t)next.place));
    begin();
}

/* A part of a load: the rest of the glass is as the message before painted it. */
static void send_part(const char *title)
{
    show(title, px8_bay_short(&bay, bytes, (size_t)next.place));
    begin();
}

/* ---- the bay ---- */

static void draw_tally(const char *loads, const char *sum)
{
    px8_select(&next, SCREEN_2);
    add_at(1, 1, "TALLY OF THE DAY");
    add_at(3, 1, "loads");
    add_at(3, 12, loads);
    add_at(4, 1, "sum kg");
    add_at(4, 12, sum);
    send_message("the tally, on screen 2");
}

static void draw_load(void)
{
    px8_select(&next, SCREEN_1);
    add_at(4, 30, "LOAD kg");
    send_message("the label, on screen 1");
    add_at(4, 40, "38");
    send_part("thousands");
    add_at(4, 43, "500");
    send_part("the rest");
    add_at(4, 42, ",");
    send_part("the comma");
}

/* The text of a key; it is seen from the next message on. */
static void name_key(px8_size key, const char *text)
{
    const px8_answer answer = px8_bay_key_text(&bay, key, text);
    if (!PX8_CLEAN(answer))
        printf("key %lu: %s\n", (unsigned long)key, px8_text(answer.number));
}

int main(void)
{
    if (px8_bay_open(&bay, 1) != PX8_SERVED)
        return 1;
    begin();
    draw_tally("     12", "412,300");
    draw_load();
    draw_tally("     13", "450,800");
    px8_select(&next, SCREEN_1);
    send_message("screen 1 again");
    px8_copy(&next);
    send_message("a copy");
    /* A slip, to show a refusal: there is no line 25, so nothing is written of it. */
    add_at(6, 30, "stable");
    add_at(25, 1, "");
    /* The same slip spelled by hand, as an older program sends it. The rest is served. */
    px8_put_text(&next, "\033=8 ");
    send_message("a line that is not there");
    name_key(1, "TARE");
    name_key(2, "PRINT");
    name_key(10, "   TALLY");
    px8_display(&next, 0);
    send_message("the key line");
    return 0;
}
