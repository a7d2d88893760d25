/*
 * What stands inline in the header: the handle, each function of which does what its call
 * does; every sequence by its name, with the bytes that the papers list for it, read back;
 * the numbers in words.
 *
 *   gcc -std=c99 -o handle handle.c libpx8.a && ./handle
 *
 * The last line is `N passed, M failed`; the exit status is 0 if M is 0.
 */
#include <stdio.h>
#include <string.h>

#include "px8.h"

static px8_bay bay;
static int passed, failed;

static void check(int holds, const char *what)
{
    if (holds) {
        passed++;
    } else {
        failed++;
        printf("failed: %s\n", what);
    }
}

/* ---- the handle ---- */

static int row_is(int row, const char *expected)
{
    char text[PX8_WIDTH + 1];
    memset(text, '?', sizeof text);
    return px8_bay_row(&bay, row, text) == text && strcmp(text, expected) == 0;
}

static int answers(px8_answer a, uint32_t taken, uint32_t accepted, uint32_t refused, uint8_t first)
{
    return a.number == PX8_SERVED && a.taken == taken && a.accepted == accepted && a.refused == refused &&
           a.first == first;
}

static void openings(void)
{
    memset(&bay, 7, sizeof bay);
    check(px8_bay_open(&bay, 3) == PX8_BAD_RULE && bay.cells[0] == 7, "open: rule 3");
    check(px8_bay_open(&bay, 2) == PX8_SERVED && bay.settings.rule == 2 && bay.cells[0] == PX8_BLANK &&
              bay.shown[639] == PX8_BLANK && bay.layer[1279] == 0 && bay.dots[3839] == 0 && bay.printer[0] == 7,
          "open: rule 2");
    check(px8_bay_open(&bay, 1) == PX8_SERVED && bay.settings.rule == 1, "open: rule 1");
}

static void messages(void)
{
    px8_answer a;
    px8_bay_open(&bay, 1);
    a = px8_bay_message(&bay, "net\033=#$38\033P\33\33", 13);
    check(answers(a, 13, 2, 1, PX8_NOT_LISTED) && a.offset == 11 && !PX8_CLEAN(a), "message: answer");
    check(row_is(1, "net") && row_is(2, "") && row_is(4, "    38"), "message: rows");
    check(a.printed == PX8_COPY && memcmp(bay.printer, "net ", 4) == 0, "message: printed");
    memset(bay.shown, 'X', PX8_SHOWN);
    a = px8_bay_short(&bay, "5", 1);
    check(answers(a, 1, 0, 0, 0) && PX8_CLEAN(a) && bay.shown[PX8_AT(4, 7)] == '5' && bay.shown[0] == 'X' &&
              row_is(8, ""),
          "short: paints less");
    a = px8_bay_message(&bay, NULL, 0);
    check(answers(a, 0, 0, 0, 0) && row_is(4, "    385"), "message: empty");
    a = px8_bay_message(&bay, bay.cells, PX8_MESSAGE_MOST + 1);
    check(a.number == PX8_TOO_LONG && !PX8_CLEAN(a), "message: too long");
    px8_bay_message(&bay, "\033%\1\033%\377\r\n\033%\200 x", 13);
    check(row_is(4, "    385..") && row_is(5, ". x"), "row: codes as stops");
    check(row_is(0, "") && row_is(9, "") && row_is(-1, ""), "row: no such row");
}

static void streams(void)
{
    px8_answer a;
    px8_bay_open(&bay, 1);
    a = px8_bay_piece(&bay, "A\033", 2);
    check(answers(a, 2, 0, 0, 0) && bay.settings.held == 1, "piece: waits");
    check(px8_bay_message(&bay, "B", 1).number == PX8_BYTES_WAIT, "message: refused while a byte waits");
    a = px8_bay_piece(&bay, "=!!B\033", 5);
    check(answers(a, 5, 1, 0, 0) && row_is(1, "A") && row_is(2, " B"), "piece: goes on");
    a = px8_bay_closing(&bay);
    check(answers(a, 0, 0, 1, PX8_CUT) && a.offset == 6 && bay.settings.count == 0, "closing");
}

static void packs(void)
{
    static const uint8_t pack[] = {1, 0, 1, 0, 'A', 3, 0, 1, 0, 'B', 27, 27};
    px8_pack_answer a;
    px8_bay_open(&bay, 1);
    a = px8_bay_pack(&bay, pack, sizeof pack);
    check(answers(a.answer, 4, 0, 1, PX8_NOT_LISTED) && a.record == 2 && a.answer.offset == 1 && row_is(1, "AB"),
          "pack");
    check(px8_bay_pack(&bay, pack, 4).answer.number == PX8_CUT_RECORD && row_is(1, "AB"), "pack: cut");
}

static void key_texts(void)
{
    px8_bay_open(&bay, 1);
    check(px8_bay_key_text(&bay, 1, "TARE").number == PX8_SERVED, "key text: filled up");
    check(px8_bay_key_text(&bay, 2, "").number == PX8_SERVED, "key text: empty");
    check(px8_bay_key_text(&bay, 3, "12345678").number == PX8_SERVED, "key text: of 8");
    check(px8_bay_key_text(&bay, 4, "123456789").number == PX8_BAD_KEY_TEXT, "key text: of 9");
    check(px8_bay_key_text(&bay, 11, "TARE").number == PX8_BAD_KEY_TEXT, "key text: key 11");
    px8_bay_message(&bay, "\033\323\0", 3);
    check(row_is(8, "TARE            12345678"), "key text: shown");
}

/* ---- sequences by name ---- */

static uint8_t buffer[32];
static px8_writer w;

static void start(void)
{
    memset(buffer, 7, sizeof buffer);
    w = px8_writer_on(&bay.settings, buffer, sizeof buffer);
}

/* What was written is ESC and these bytes, and is one accepted sequence to the bay. */
static void check_written(uint8_t number, const uint8_t *bytes, size_t length, const char *what)
{
    px8_answer a;
    check(number == PX8_SERVED && w.number == PX8_SERVED && w.place == length + 1 && buffer[0] == 27 &&
              memcmp(buffer + 1, bytes, length) == 0 && buffer[length + 1] == 7,
          what);
    a = px8_bay_message(&bay, buffer, (size_t)w.place);
    check(PX8_CLEAN(a) && a.accepted == 1, what);
}

#define WRITES(call, ...)                                     \
    do {                                                      \
        static const uint8_t bytes[] = {__VA_ARGS__};         \
        start();                                              \
        check_written(call, bytes, sizeof bytes, #call);      \
    } while (0)

/* The second bytes and parameters as document 01 and P7, P11 list them. */
static void names(void)
{
    static const uint8_t rows[] = {1, 2, 4, 8, 16, 32, 64, 128}, codes[] = {28, 29, 30, 31};
    px8_bay_open(&bay, 1);
    WRITES(px8_print_code(&w, 27), 37, 27);
    WRITES(px8_clear(&w), 42);
    WRITES(px8_cursor_off(&w), 50);
    WRITES(px8_cursor_on(&w), 51);
    WRITES(px8_put_cursor(&w, 1, 2), 61, 32, 33);
    WRITES(px8_put_cursor(&w, 24, 80), 61, 55, 111);
    WRITES(px8_charset(&w, 'G'), 67, 71);
    WRITES(px8_copy(&w), 80);
    WRITES(px8_erase_line(&w), 84);
    WRITES(px8_erase_rest(&w), 89);
    WRITES(px8_secret_on(&w), 123);
    WRITES(px8_secret_off(&w), 125);
    WRITES(px8_lines_up(&w, 2, 4), 144, 2, 4);
    WRITES(px8_lines_down(&w, 3, 5), 145, 3, 5);
    WRITES(px8_step(&w, 5), 148, 5);
    WRITES(px8_tracking(&w, 1), 149, 1);
    WRITES(px8_window_up(&w), 150);
    WRITES(px8_window_down(&w), 151);
    WRITES(px8_ins_on(&w), 160);
    WRITES(px8_ins_off(&w), 161);
    WRITES(px8_caps_on(&w), 162);
    WRITES(px8_caps_off(&w), 163);
    WRITES(px8_num_on(&w), 164);
    WRITES(px8_num_off(&w), 165);
    WRITES(px8_strings_off(&w), 176);
    WRITES(px8_strings_on(&w), 177);
    WRITES(px8_select(&w, 1), 209, 1);
    WRITES(px8_cover(&w, 8, 80, 90), 210, 8, 80, 90);
    WRITES(px8_display(&w, 0), 211, 0);
    WRITES(px8_window_top(&w), 212);
    WRITES(px8_window_bottom(&w), 213);
    WRITES(px8_cursor_kind(&w, 2), 214, 2);
    WRITES(px8_window_cursor(&w), 215);
    WRITES(px8_pattern(&w, 254, rows), 224, 254, 1, 2, 4, 8, 16, 32, 64, 128);
    WRITES(px8_repeat(&w, 0), 240, 0);
    WRITES(px8_repeat_delay(&w, 127), 241, 127);
    WRITES(px8_repeat_interval(&w, 126), 242, 126);
    WRITES(px8_arrows1(&w, codes), 243, 28, 29, 30, 31);
    WRITES(px8_arrows2(&w, codes), 244, 28, 29, 30, 31);
    WRITES(px8_arrows3(&w, codes), 245, 28, 29, 30, 31);
    WRITES(px8_nothing(&w), 246);
    WRITES(px8_shift(&w, 66), 247, 66);
    WRITES(px8_mode0(&w, 20, 28), 208, 0, 20, 28);
    WRITES(px8_mode1(&w, 16), 208, 1, 16);
    WRITES(px8_mode2(&w, 10, 20, 35), 208, 2, 10, 20, 35);
    WRITES(px8_mode3(&w), 208, 3);
    WRITES(px8_draw_dot(&w, 1, 63, 479), 199, 1, 63, 1, 223);
    WRITES(px8_draw_line(&w, 400, 18, 18, 19, 0xaa55, 2), 198, 1, 144, 0, 18, 0, 18, 0, 19, 170, 85, 2);
    check(bay.dots[PX8_DOT_AT(63, 479)] & PX8_DOT_WEIGHT(479), "draw_dot: drawn");
}

/* One behind another, with a text between; the first refusal stays. */
static void writers(void)
{
    static const uint8_t expected[] = {27, 61, 33, 36, 'k', 'g', 27, 42};
    px8_bay_open(&bay, 1);
    start();
    px8_put_cursor(&w, 2, 5);
    px8_put_text(&w, "kg");
    px8_clear(&w);
    check(w.number == 0 && w.place == sizeof expected && memcmp(buffer, expected, sizeof expected) == 0,
          "writer: one behind another");
    check(px8_put_cursor(&w, 24, 81) == PX8_OUT_OF_RANGE && w.number == PX8_OUT_OF_RANGE && w.parameter == 2 &&
              w.place == sizeof expected,
          "writer: a column too far");
    check(px8_put_cursor(&w, 0, 1) == PX8_OUT_OF_RANGE && px8_put_cursor(&w, 255, 1) == PX8_OUT_OF_RANGE &&
              px8_clear(&w) == PX8_SERVED && w.number == PX8_OUT_OF_RANGE && w.parameter == 2,
          "writer: the first refusal stays");
    w = px8_writer_on(&bay.settings, buffer, 3);
    check(px8_put_text(&w, "four") == PX8_NO_SPACE && w.place == 0 && px8_put_text(&w, "abc") == PX8_SERVED &&
              w.number == PX8_NO_SPACE && w.place == 3,
          "writer: a text too long");
    check(px8_put_text(&w, "") == PX8_SERVED && px8_clear(&w) == PX8_NO_SPACE && w.place == 3, "writer: full");
    w = px8_writer_on(&bay.settings, buffer, 32);
    check(px8_put(&w, 1, NULL, 0) == PX8_NOT_LISTED && w.number == PX8_NOT_LISTED, "writer: no sequence");
    bay.settings.step = 0;
    start();
    check(px8_clear(&w) == PX8_UNSOUND && w.place == 0, "writer: settings not sound");
}

/* ---- the numbers in words ---- */

static void texts(void)
{
    const char *none = px8_text(14);
    unsigned n, m;
    for (n = 0; n <= 25; n++) {
        const int is_number = n <= 3 || (n >= 10 && n != 14);
        int own = 1;
        check((strcmp(px8_text(n), none) != 0) == is_number && px8_text(n)[0] != 0, "text: there is one");
        check(n == 0 || !is_number || strchr(px8_text(n), ':') != NULL, "text: what to look at");
        for (m = 0; m < n; m++)
            own = own && strcmp(px8_text(n), px8_text(m)) != 0;
        check(own || !is_number, "text: of its own");
    }
    check(strcmp(px8_text(26), none) == 0 && strcmp(px8_text(255), none) == 0, "text: no number");
}

int main(void)
{
    openings();
    messages();
    streams();
    packs();
    key_texts();
    names();
    writers();
    texts();
    printf("%d passed, %d failed\n", passed, failed);
    return failed != 0;
}
