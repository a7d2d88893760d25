/*
 * board.c: a bay on a bare Cortex-M4: no operating system, no allocator, all memory static. A byte that the UART brings
 * is a piece of the stream; rows that changed go to the display. It is linked with bare/cortex-m4.c, where bytes come
 * and go by the emulator's semihosting: on a board, bare_read is the UART's and display_row the display's driver.
 *
 * `.ci/targets` compiles it and says its size; `.ci/targets run` runs it on serial.in, and board.out has what it shows.
 */
#include "bare.h"
#include "px8.h"
#include "stdio.h"
#include "string.h"

/* All that a bay keeps; px8 keeps nothing. */
static px8_settings settings;
static px8_answer answer;
static uint8_t cells[PX8_CELLS], layer[PX8_LAYER], shown[PX8_SHOWN], dots[PX8_DOTS];
static uint8_t on_display[PX8_SHOWN];
static uint32_t refused, drawn;

#define STORES cells, sizeof cells, layer, sizeof layer, shown, sizeof shown, dots, sizeof dots

/* The display's driver: a row of 80 codes from the left. The reader's own goes here. */
static void display_row(int row, const uint8_t *codes)
{
    (void)row;
    (void)codes;
    drawn++;
}

/* What changed since the last time goes to the display. */
static void refresh(void)
{
    int row;
    for (row = 0; row < PX8_ROWS; row++) {
        const uint32_t at = (uint32_t)row * PX8_WIDTH;
        if (memcmp(on_display + at, shown + at, PX8_WIDTH) == 0)
            continue;
        memcpy(on_display + at, shown + at, PX8_WIDTH);
        display_row(row + 1, on_display + at);
    }
}

/* A refusal is no fault of the line: it is skipped, counted, and told at the end. */
static void told(void)
{
    if (answer.refused != 0 && refused == 0)
        printf("first refusal %u at %u, parameter %u\n", answer.first, (unsigned)answer.offset, answer.parameter);
    refused += answer.refused;
}

int main(void)
{
    uint8_t byte, number;
    number = px8_opening(&settings, 1, STORES);
    if (number != PX8_SERVED)
        return 1;
    while (bare_read(&byte, 1)) {
        px8_piece(&settings, &answer, &byte, 1, STORES, NULL, 0); /* no printer: a copy is refused by 13 */
        if (answer.number != PX8_SERVED)
            return 1;
        told();
        refresh();
    }
    px8_closing(&settings, &answer, STORES);
    told();
    refresh();
    for (number = 0; number < PX8_ROWS; number++) {
        bare_write(shown + number * PX8_WIDTH, PX8_WIDTH);
        bare_write("\n", 1);
    }
    printf("refused %u, rows drawn %u\n", (unsigned)refused, (unsigned)drawn);
    return 0;
}
