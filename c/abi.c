/*
 * Holds the header and the archive together: every field of the settings is
 * set by a sequence, a piece or a key text of its own and read back through the
 * header's structures, as are the answer's fields; streams, the key line, long lines,
 * the late wrap, mode 3, packs, short messages and written sequences give what document 02
 * says of them, and refused calls leave every byte alone.
 *
 *   gcc -std=c99 -o abi abi.c libpx8.a && ./abi
 *
 * The last line is `N passed, M failed`; the exit status is 0 if M is 0.
 */
#include <stdio.h>
#include <string.h>

#include "px8.h"

#define GUARD 64
#define ROOM PX8_DOTS /* more than two copies of text */
/* what the calls take, between the settings or the bytes and the printer buffer */
#define STORES at.cells, PX8_CELLS, at.layer, PX8_LAYER, at.shown, PX8_SHOWN, at.dots, PX8_DOTS

/* The stores with bytes between them that nobody may write. */
typedef struct desk {
    uint8_t before[GUARD];
    uint8_t cells[PX8_CELLS];
    uint8_t between1[GUARD];
    uint8_t layer[PX8_LAYER];
    uint8_t between2[GUARD];
    uint8_t shown[PX8_SHOWN];
    uint8_t between3[GUARD];
    uint8_t dots[PX8_DOTS];
    uint8_t between4[GUARD];
    uint8_t printer[ROOM];
    uint8_t after[GUARD];
} desk;

static desk at, copy;
static int passed, failed;

static void check(int holds, const char *what)
{
    if (holds) {
        passed++;
    } else {
        failed++;
        printf("failed: %s\n", what);
    }
}

/* Fills everything with bytes that differ from their neighbours. */
static void fill_desk(void)
{
    uint8_t *bytes = (uint8_t *)&at;
    size_t n;
    for (n = 0; n < sizeof at; n++)
        bytes[n] = (uint8_t)(n % 251);
    copy = at;
}

static int guards_stay(void)
{
    return memcmp(at.before, copy.before, GUARD) == 0 &&
           memcmp(at.between1, copy.between1, GUARD) == 0 &&
           memcmp(at.between2, copy.between2, GUARD) == 0 &&
           memcmp(at.between3, copy.between3, GUARD) == 0 &&
           memcmp(at.between4, copy.between4, GUARD) == 0 &&
           memcmp(at.after, copy.after, GUARD) == 0;
}

static int all(const uint8_t *bytes, size_t length, uint8_t value)
{
    size_t n;
    for (n = 0; n < length; n++)
        if (bytes[n] != value)
            return 0;
    return 1;
}

/* ---- the calls, with what they leave handed back ---- */

/* Settings and answer as they are lent, with bytes between them that nobody may write. */
typedef struct loan {
    uint8_t before[GUARD];
    px8_settings settings;
    uint8_t between[GUARD];
    px8_pack_answer answer;
    uint8_t after[GUARD];
} loan;

typedef struct result {
    px8_settings settings;
    px8_answer answer;
} result;

typedef struct pack_result {
    px8_settings settings;
    px8_answer answer;
    uint32_t record;
} pack_result;

typedef struct opening_result {
    px8_settings settings;
    uint8_t number;
} opening_result;

#define LENT 0x5A

static loan lent;

/* What an answer holds before a call is not read, nor are the settings by an opening. */
static void lend(const px8_settings *settings)
{
    memset(&lent, LENT, sizeof lent);
    if (settings)
        lent.settings = *settings;
}

static void check_lent(void)
{
    if (!all(lent.before, GUARD, LENT) || !all(lent.between, GUARD, LENT) || !all(lent.after, GUARD, LENT))
        check(0, "written beside settings or answer");
}

static result taken_back(void)
{
    result r;
    check_lent();
    if (!all((const uint8_t *)&lent.answer.record, sizeof lent.answer.record, LENT))
        check(0, "written behind an answer");
    r.settings = lent.settings;
    r.answer = lent.answer.answer;
    return r;
}

/* The parameters of the four stores, as they are declared and as they are handed on. */
#define STORE_PARAMETERS \
    uint8_t *cells, size_t cells_length, uint8_t *layer, size_t layer_length, uint8_t *shown, \
        size_t shown_length, uint8_t *dots, size_t dots_length
#define STORE_ARGUMENTS cells, cells_length, layer, layer_length, shown, shown_length, dots, dots_length

static opening_result call_opening(px8_size rule, STORE_PARAMETERS)
{
    opening_result r;
    lend(NULL);
    r.number = px8_opening(&lent.settings, rule, STORE_ARGUMENTS);
    r.settings = taken_back().settings;
    return r;
}

/* px8_message, px8_message_short and px8_piece take and give the same. */
typedef void reading(px8_settings *, px8_answer *, const uint8_t *, px8_size, uint8_t *, px8_size, uint8_t *,
                     px8_size, uint8_t *, px8_size, uint8_t *, px8_size, uint8_t *, px8_size);

static result call_reading(reading *read, px8_settings settings, const uint8_t *bytes, size_t length,
                           STORE_PARAMETERS, uint8_t *printer, size_t printer_length)
{
    lend(&settings);
    read(&lent.settings, &lent.answer.answer, bytes, length, STORE_ARGUMENTS, printer, printer_length);
    return taken_back();
}

static result call_message(px8_settings settings, const uint8_t *bytes, size_t length, STORE_PARAMETERS,
                           uint8_t *printer, size_t printer_length)
{
    return call_reading(px8_message, settings, bytes, length, STORE_ARGUMENTS, printer, printer_length);
}

static result call_short(px8_settings settings, const uint8_t *bytes, size_t length, STORE_PARAMETERS,
                         uint8_t *printer, size_t printer_length)
{
    return call_reading(px8_message_short, settings, bytes, length, STORE_ARGUMENTS, printer, printer_length);
}

static result call_piece(px8_settings settings, const uint8_t *bytes, size_t length, STORE_PARAMETERS,
                         uint8_t *printer, size_t printer_length)
{
    return call_reading(px8_piece, settings, bytes, length, STORE_ARGUMENTS, printer, printer_length);
}

static result call_closing(px8_settings settings, STORE_PARAMETERS)
{
    lend(&settings);
    px8_closing(&lent.settings, &lent.answer.answer, STORE_ARGUMENTS);
    return taken_back();
}

static pack_result call_pack(px8_settings settings, const uint8_t *pack, size_t length, STORE_PARAMETERS,
                             uint8_t *printer, size_t printer_length)
{
    pack_result r;
    lend(&settings);
    px8_pack(&lent.settings, &lent.answer, pack, length, STORE_ARGUMENTS, printer, printer_length);
    check_lent();
    r.settings = lent.settings;
    r.answer = lent.answer.answer;
    r.record = lent.answer.record;
    return r;
}

static result call_key_text(px8_settings settings, px8_size number, const uint8_t *text, size_t length)
{
    lend(&settings);
    px8_key_text(&lent.settings, &lent.answer.answer, number, text, length);
    return taken_back();
}

static px8_compared call_compare(const uint8_t *first, size_t first_length, const uint8_t *second,
                                 size_t second_length, px8_difference *list, size_t list_length)
{
    px8_compared answer;
    memset(&answer, LENT, sizeof answer);
    px8_compare(&answer, first, first_length, second, second_length, list, list_length);
    return answer;
}

static px8_first call_first(const uint8_t *first, size_t first_length, const uint8_t *second,
                            size_t second_length)
{
    px8_first answer;
    memset(&answer, LENT, sizeof answer);
    px8_first_difference(&answer, first, first_length, second, second_length);
    return answer;
}

static px8_repeats call_repeats(px8_settings settings, const uint8_t *trace, size_t trace_length,
                                uint8_t *output, size_t output_length)
{
    px8_repeats answer;
    memset(&answer, LENT, sizeof answer);
    px8_key_repeats(&settings, &answer, trace, trace_length, output, output_length);
    return answer;
}

static px8_reached call_write(px8_settings settings, uint8_t second, const uint8_t *parameters,
                              size_t parameters_length, uint8_t *buffer, size_t buffer_length, px8_size place)
{
    px8_reached answer;
    memset(&answer, LENT, sizeof answer);
    px8_write(&settings, &answer, second, parameters, parameters_length, buffer, buffer_length, place);
    return answer;
}

static opening_result open_desk(void)
{
    return call_opening(1, STORES);
}

static opening_result open_late(void)
{
    return call_opening(2, STORES);
}

static result send_message(px8_settings settings, const uint8_t *message, size_t length)
{
    return call_message(settings, message, length, STORES, at.printer, ROOM);
}

static result send_short(px8_settings settings, const uint8_t *message, size_t length)
{
    return call_short(settings, message, length, STORES, at.printer, ROOM);
}

static result send_piece(px8_settings settings, const uint8_t *piece, size_t length)
{
    return call_piece(settings, piece, length, STORES, at.printer, ROOM);
}

static pack_result send_pack(px8_settings settings, const uint8_t *pack, size_t length)
{
    return call_pack(settings, pack, length, STORES, at.printer, ROOM);
}

static result close_stream(px8_settings settings)
{
    return call_closing(settings, STORES);
}

/* ---- the opening ---- */

static void opening_settings(px8_settings s)
{
    int screen;
    check(s.mode == 0 && s.lines1 == 24 && s.lines2 == 24, "opening: mode and lines");
    check(s.columns1 == 80 && s.columns2 == 80, "opening: columns");
    check(s.boundary == 32 && s.selected == 0, "opening: boundary and selected");
    for (screen = 0; screen < 2; screen++)
        check(s.places[screen].line == 1 && s.places[screen].column == 1 &&
                  s.places[screen].top == 1 && s.places[screen].late == 0,
              "opening: places");
    check(s.tracking == 1 && s.step == 1 && s.secret == 0, "opening: window and secret");
    check(s.cursor == 1 && s.display == 1 && s.kind == 0, "opening: cursor and display");
    check(all(s.keys.leds, 3, 0) && s.keys.charset == 'U', "opening: leds and charset");
    check(s.keys.strings == 1 && s.keys.repeat == 1, "opening: strings and repeat");
    check(s.keys.delay == 32 && s.keys.interval == 16, "opening: delay and interval");
    check(s.keys.shift == 0 && all(s.keys.arrows, 12, 0), "opening: shift and arrows");
    check(all(s.patterns, PX8_PATTERNS, 0), "opening: patterns");
    check(all(s.waiting, PX8_WAITING_MOST, 0) && s.held == 0 && s.count == 0, "opening: stream");
    check(all(s.texts, PX8_TEXTS, PX8_BLANK), "opening: texts");
    check(s.marks[0] == 0 && s.marks[1] == 0, "opening: marks");
    check(s.rule == 1, "opening: rule");
}

static void opening(void)
{
    opening_result opened;
    fill_desk();
    opened = open_desk();
    check(opened.number == PX8_SERVED, "opening: number");
    opening_settings(opened.settings);
    check(all(at.cells, PX8_CELLS, PX8_BLANK), "opening: cells blank");
    check(all(at.layer, PX8_LAYER, 0), "opening: layer empty");
    check(all(at.shown, PX8_SHOWN, PX8_BLANK), "opening: shown screen blank");
    check(all(at.dots, PX8_DOTS, 0), "opening: no dots");
    check(guards_stay(), "opening: guards");
    check(memcmp(at.printer, copy.printer, ROOM) == 0, "opening: printer buffer");
}

/* ---- every field of the settings ---- */

/* All bytes count but the padding behind the texts. */
static int same_settings(px8_settings one, px8_settings other)
{
    return memcmp(&one, &other, offsetof(px8_settings, texts) + PX8_TEXTS) == 0;
}

/* Line 1 to 48 of screen 1 (0) or 2 (1) runs on. */
static void run_on(px8_settings *s, int screen, int line)
{
    s->marks[screen] |= PX8_MARK(line);
}

/* Sends the bytes to a terminal just opened: the settings afterwards must be
 * the expected ones. */
static void check_settings(px8_settings expected, const uint8_t *bytes, size_t length,
                           const char *what)
{
    result outcome;
    fill_desk();
    outcome = send_message(open_desk().settings, bytes, length);
    check(outcome.answer.number == 0 && outcome.answer.refused == 0 &&
              same_settings(outcome.settings, expected) && guards_stay(),
          what);
}

/* `change` says how s, the opening settings, is altered by the bytes. */
#define SETS(change, ...)                                      \
    do {                                                       \
        static const uint8_t bytes[] = {__VA_ARGS__};          \
        px8_settings s = open_desk().settings;                 \
        change;                                                \
        check_settings(s, bytes, sizeof bytes, #change);       \
    } while (0)

static void screens(void)
{
    SETS((s.lines1 = 9, s.lines2 = 39), 27, 208, 0, 9, 39);
    SETS((s.mode = 1, s.lines1 = s.lines2 = 20, s.columns1 = s.columns2 = 39), 27, 208, 1, 20);
    SETS((s.mode = 2, s.lines1 = s.lines2 = 10, s.columns1 = 20, s.columns2 = 59, s.boundary = 35),
         27, 208, 2, 10, 20, 35);
    SETS(s.selected = 1, 27, 209, 1);
    SETS(s.selected = 0, 27, 209);
    SETS((s.places[0].line = 3, s.places[0].column = 5), 27, 61, 34, 36);
    SETS(s.places[0].column = 80, 27, 61, 32, 111);
    SETS(s.places[0].top = 2, 27, 151);
    SETS((s.places[0].line = 12, s.places[0].top = 8), 27, 61, 43, 32);
    SETS((s.selected = 1, s.places[1].line = 4), 27, 209, 1, 10, 10, 10);
    SETS((s.selected = 1, s.places[1].column = 3), 27, 209, 1, 65, 66);
    SETS((s.selected = 1, s.places[1].top = 17), 27, 209, 1, 27, 213);
}

static void mode_3_fields(void)
{
    SETS((s.mode = 3, s.lines1 = 8, s.lines2 = 0, s.columns1 = 80, s.columns2 = 0, s.kind = 3), 27, 208, 3);
    SETS((s.mode = 3, s.lines1 = 8, s.lines2 = 0, s.columns1 = 80, s.columns2 = 0, s.kind = 3), 27, 211, 0,
         27, 148, 5, 27, 149, 1, 27, 209, 1, 27, 214, 1, 27, 208, 3);
    SETS((s.mode = 3, s.lines1 = 8, s.lines2 = 0, s.columns1 = 80, s.columns2 = 0, s.kind = 3), 27, 208, 3,
         27, 148, 9, 27, 149, 7, 27, 150, 27, 151, 27, 209, 1, 27, 211, 0, 27, 212, 27, 213, 27, 214, 1,
         27, 215);
    SETS(s.kind = 3, 27, 208, 3, 27, 208, 0, 24, 24);
}

static void switches(void)
{
    SETS(s.tracking = 0, 27, 149, 1);
    SETS(s.tracking = 1, 27, 149, 1, 27, 149, 0);
    SETS(s.step = 5, 27, 148, 5);
    SETS(s.secret = 1, 27, 123);
    SETS(s.secret = 0, 27, 123, 27, 125);
    SETS(s.cursor = 0, 27, 50);
    SETS(s.cursor = 1, 27, 50, 27, 51);
    SETS(s.display = 0, 27, 211, 0);
    SETS(s.kind = 3, 27, 214, 3);
}

static void keys(void)
{
    SETS(s.keys.leds[0] = 1, 27, 160);
    SETS(s.keys.leds[1] = 1, 27, 162);
    SETS(s.keys.leds[2] = 1, 27, 164);
    SETS(s.keys.leds[0] = 0, 27, 160, 27, 161);
    SETS(s.keys.leds[1] = 0, 27, 162, 27, 163);
    SETS(s.keys.leds[2] = 0, 27, 164, 27, 165);
    SETS(s.keys.charset = 'N', 27, 67, 'N');
    SETS(s.keys.strings = 0, 27, 176);
    SETS(s.keys.strings = 1, 27, 176, 27, 177);
    SETS(s.keys.repeat = 0, 27, 240, 0);
    SETS(s.keys.delay = 127, 27, 241, 127);
    SETS(s.keys.interval = 126, 27, 242, 126);
    SETS(s.keys.shift = 66, 27, 247, 66);
    SETS(memcpy(s.keys.arrows, "abcd", 4), 27, 243, 'a', 'b', 'c', 'd');
    SETS(memcpy(s.keys.arrows + 4, "efgh", 4), 27, 244, 'e', 'f', 'g', 'h');
    SETS(memcpy(s.keys.arrows + 8, "ijkl", 4), 27, 245, 'i', 'j', 'k', 'l');
}

static void patterns(void)
{
    uint8_t bytes[3 + PX8_PATTERN_ROWS];
    int code, row;
    for (code = PX8_PATTERN_FIRST; code <= 254; code++) {
        px8_settings s = open_desk().settings;
        bytes[0] = 27;
        bytes[1] = 224;
        bytes[2] = (uint8_t)code;
        for (row = 0; row < PX8_PATTERN_ROWS; row++) {
            bytes[3 + row] = (uint8_t)(code ^ (row + 1));
            s.patterns[PX8_PATTERN_ROWS * (code - PX8_PATTERN_FIRST) + row] = bytes[3 + row];
        }
        check_settings(s, bytes, sizeof bytes, "patterns");
    }
}

/* The stream's three, by pieces of every length that waits. */
static void waiting(void)
{
    static const uint8_t bytes[] = {27, 198, 101, 102, 103, 104, 105, 106, 107, 108, 109, 110};
    size_t length;
    px8_settings s;
    for (length = 1; length <= sizeof bytes; length++) {
        result outcome;
        fill_desk();
        s = open_desk().settings;
        outcome = send_piece(s, bytes, length);
        memcpy(s.waiting, bytes, length);
        s.held = (uint8_t)length;
        s.count = (uint32_t)length;
        check(outcome.answer.number == 0 && outcome.answer.taken == length &&
                  same_settings(outcome.settings, s) && guards_stay(),
              "waiting, held");
    }
    s = open_desk().settings;
    s.count = 0x30000000;
    check(send_piece(s, bytes, 1).settings.count == 0x30000001, "count");
}

/* The texts, a key at a time; the call has no store. */
static void texts(void)
{
    uint8_t text[PX8_KEY_TEXT];
    size_t key, n;
    px8_settings s = open_desk().settings;
    result outcome;
    fill_desk();
    for (key = 1; key <= PX8_KEYS; key++) {
        for (n = 0; n < PX8_KEY_TEXT; n++)
            text[n] = (uint8_t)(250 - 9 * key + n);
        outcome = call_key_text(s, key, text, PX8_KEY_TEXT);
        memcpy(s.texts + PX8_KEY_TEXT * (key - 1), text, PX8_KEY_TEXT);
        check(outcome.answer.number == PX8_SERVED && outcome.answer.taken == 0 &&
                  outcome.answer.accepted == 0 && outcome.answer.refused == 0 &&
                  outcome.answer.first == 0 && outcome.answer.printed == 0 &&
                  same_settings(outcome.settings, s) && memcmp(&at, &copy, sizeof at) == 0,
              "texts");
        s = outcome.settings;
    }
}

/* The mark of each line but the last, on both screens, by a byte printed in its
 * last column. */
static void marks(void)
{
    uint8_t bytes[] = {27, 209, 0, 27, 149, 1, 27, 61, 0, 111, 'A'};
    int screen, line;
    for (screen = 0; screen < 2; screen++)
        for (line = 1; line < 24; line++) {
            px8_settings s = open_desk().settings;
            bytes[2] = (uint8_t)screen;
            bytes[8] = (uint8_t)(31 + line);
            s.selected = (uint8_t)screen;
            s.tracking = 0;
            s.places[screen].line = (uint8_t)(line + 1);
            run_on(&s, screen, line);
            check_settings(s, bytes, sizeof bytes, "marks");
        }
}

/* ---- the answer and the stores ---- */

static void answer(void)
{
    static const uint8_t bytes[] = {'L', 'O', 'A', 'D', 27, 50, 27, 51, 27,  80,
                                    27,  80,  27,  214, 9,  27, 1,  'k', 'g'};
    px8_answer a;
    fill_desk();
    a = send_message(open_desk().settings, bytes, sizeof bytes).answer;
    check(a.number == PX8_SERVED, "answer: number");
    check(a.taken == 19, "answer: taken");
    check(a.accepted == 4, "answer: accepted");
    check(a.refused == 2, "answer: refused");
    check(a.first == PX8_OUT_OF_RANGE, "answer: first");
    check(a.parameter == 1, "answer: parameter");
    check(a.offset == 12, "answer: offset");
    check(a.printed == 2 * PX8_COPY, "answer: printed");
    check(memcmp(at.shown, "LOADkg ", 7) == 0, "answer: shown screen");
    check(memcmp(at.cells, at.shown, PX8_SHOWN) == 0, "answer: cells");
    check(memcmp(at.printer, "LOAD ", 5) == 0, "answer: first copy");
    check(memcmp(at.printer + PX8_COPY - 3, " \r\n", 3) == 0, "answer: end of a copy");
    check(guards_stay(), "answer: guards");
}

/* The first bad parameter of a message that is one sequence. */
static void check_parameter(const uint8_t *bytes, size_t length, uint8_t first, uint8_t parameter,
                            const char *what)
{
    px8_answer a;
    fill_desk();
    a = send_message(open_desk().settings, bytes, length).answer;
    check(a.refused == 1 && a.first == first && a.parameter == parameter, what);
}

static void parameters(void)
{
    static const uint8_t line[] = {27, 61, 56, 112}, column[] = {27, 61, 55, 112};
    static const uint8_t sum[] = {27, 144, 1, 24}, lines[] = {27, 208, 0, 255, 8};
    static const uint8_t mode[] = {27, 208, 9}, cut[] = {27, 208, 2, 99}, other[] = {27, 27};
    check_parameter(line, sizeof line, PX8_OUT_OF_RANGE, 1, "parameter: a line");
    check_parameter(column, sizeof column, PX8_OUT_OF_RANGE, 2, "parameter: a column");
    check_parameter(sum, sizeof sum, PX8_OUT_OF_RANGE, 2, "parameter: a sum of lines");
    check_parameter(lines, sizeof lines, PX8_OUT_OF_RANGE, 3, "parameter: a sum of two screens");
    check_parameter(mode, sizeof mode, PX8_OUT_OF_RANGE, 1, "parameter: a mode byte");
    check_parameter(cut, sizeof cut, PX8_CUT, 0, "parameter: none of a cut sequence");
    check_parameter(other, sizeof other, PX8_NOT_LISTED, 0, "parameter: none of an unknown byte");
}

/* ---- streams ---- */

static int answers(px8_answer a, uint32_t taken, uint32_t accepted, uint32_t refused,
                   uint8_t first, uint32_t offset)
{
    return a.number == PX8_SERVED && a.taken == taken && a.accepted == accepted &&
           a.refused == refused && a.first == first && a.offset == offset && guards_stay();
}

static result put_piece(px8_settings settings, const char *bytes)
{
    return send_piece(settings, (const uint8_t *)bytes, strlen(bytes));
}

/* 27, 27 cut in two; what follows is printed. */
static void stream_escapes(void)
{
    result out;
    fill_desk();
    out = put_piece(open_desk().settings, "A\33");
    check(answers(out.answer, 2, 0, 0, 0, 0), "stream: ESC waits");
    out = put_piece(out.settings, "\33B");
    check(answers(out.answer, 2, 0, 1, PX8_NOT_LISTED, 1), "stream: 10 at 1");
    out = close_stream(out.settings);
    check(answers(out.answer, 0, 0, 0, 0, 0), "stream: closed");
    check(memcmp(at.shown, "AB ", 3) == 0, "stream: B printed");
}

/* 27, 209 waits at a piece's end; a message is refused while it does. */
static void stream_selects(void)
{
    static const uint8_t message[] = {'A'}, second[] = {27, 209, 1}, open_end[] = {27, 209};
    result out;
    fill_desk();
    out = put_piece(open_desk().settings, "AAAAA\33\321");
    check(out.settings.count == 7 && out.settings.held == 2, "stream: 27, 209 waits");
    copy = at;
    {
        const result refused = send_message(out.settings, message, sizeof message);
        check(refused.answer.number == PX8_BYTES_WAIT && refused.answer.taken == 0 &&
                  same_settings(refused.settings, out.settings) && memcmp(&at, &copy, sizeof at) == 0,
              "stream: message refused by 16");
    }
    out = put_piece(out.settings, "\33");
    check(answers(out.answer, 1, 0, 1, PX8_OUT_OF_RANGE, 5) && out.answer.parameter == 1,
          "stream: 11 at 5");
    out = send_message(close_stream(out.settings).settings, second, sizeof second);
    out = send_piece(out.settings, open_end, sizeof open_end);
    check(out.answer.accepted == 0 && out.settings.selected == 1, "stream: no 0 at a piece's end");
    out = close_stream(out.settings);
    check(answers(out.answer, 0, 1, 0, 0, 0) && out.settings.selected == 0 &&
              out.settings.held == 0 && out.settings.count == 0,
          "stream: closing means 0");
}

/* A sequence that began pieces ago; a pattern whose rows come in two. */
static void stream_offsets(void)
{
    static uint8_t text[PX8_MESSAGE_MOST];
    static const uint8_t front[] = {27, 224, 224, 1, 2, 3}, rest[] = {4, 5, 6, 7, 8, 27, 99};
    static const uint8_t rows[] = {1, 2, 3, 4, 5, 6, 7, 8};
    result out;
    memset(text, 'A', sizeof text);
    fill_desk();
    out = send_piece(open_desk().settings, text, sizeof text);
    check(answers(out.answer, 4096, 0, 0, 0, 0), "stream: a piece of 4,096");
    out = put_piece(put_piece(out.settings, "\33=").settings, "c ");
    check(answers(out.answer, 2, 0, 1, PX8_OUT_OF_RANGE, 4096), "stream: 11 at 4096");
    out = send_piece(open_desk().settings, front, sizeof front);
    out = send_piece(out.settings, rest, sizeof rest);
    check(answers(out.answer, 7, 1, 1, PX8_NOT_LISTED, 11), "stream: 10 at 11");
    check(memcmp(out.settings.patterns, rows, sizeof rows) == 0, "stream: a pattern in two pieces");
}

/* The room is that of the call that brings the 80. */
static void stream_copies(void)
{
    static const uint8_t escape[] = {27, 80, 27}, copies[] = {80};
    result out;
    fill_desk();
    out = send_piece(open_desk().settings, escape, sizeof escape);
    check(answers(out.answer, 3, 1, 0, 0, 0) && out.answer.printed == PX8_COPY, "stream: a copy");
    check(answers(call_piece(out.settings, copies, 1, STORES, at.printer, PX8_COPY - 1).answer,
                  1, 0, 1, PX8_NO_ROOM, 2),
          "stream: 13 at 2");
    fill_desk();
    out = send_piece(open_desk().settings, escape + 2, 1);
    out = put_piece(out.settings, "Pnet\33P");
    check(answers(out.answer, 6, 2, 0, 0, 0) && out.answer.printed == 2 * PX8_COPY &&
              memcmp(at.printer + PX8_COPY, "net ", 4) == 0,
          "stream: a copy cut in two, and another");
}

/* A message between counts from itself, and leaves the stream's count. */
static void stream_messages(void)
{
    static const uint8_t message[] = {'B', 27};
    result out;
    fill_desk();
    out = put_piece(open_desk().settings, "A");
    out = send_message(out.settings, message, sizeof message);
    check(answers(out.answer, 2, 0, 1, PX8_CUT, 1) && out.settings.count == 1, "stream: a message between");
    out = close_stream(put_piece(out.settings, "\33").settings);
    check(answers(out.answer, 0, 0, 1, PX8_CUT, 1) && out.settings.count == 0, "stream: closed by 12");
}

/* Every piece and closing that is served paints. */
static void stream_paints(void)
{
    px8_settings settings;
    fill_desk();
    settings = put_piece(open_desk().settings, "net").settings;
    memset(at.shown, 7, PX8_SHOWN);
    settings = send_piece(settings, NULL, 0).settings;
    check(memcmp(at.shown, "net ", 4) == 0 && at.shown[PX8_SHOWN - 1] == PX8_BLANK, "stream: an empty piece paints");
    memset(at.shown, 7, PX8_SHOWN);
    close_stream(settings);
    check(memcmp(at.shown, "net ", 4) == 0 && at.shown[PX8_SHOWN - 1] == PX8_BLANK, "stream: closing paints");
}

/* ---- the key line ---- */

static px8_settings with_text(px8_settings settings, size_t key, const char *text)
{
    return call_key_text(settings, key, (const uint8_t *)text, strlen(text)).settings;
}

/* A text is seen from the next message on, in row 8 and in a copy. */
static void key_line(void)
{
    static const uint8_t show[] = {27, 211, 0}, copies[] = {27, 80};
    const uint8_t *row_8 = at.shown + PX8_AT(8, 1);
    px8_settings settings;
    result out;
    fill_desk();
    settings = send_message(open_desk().settings, show, sizeof show).settings;
    settings = with_text(settings, 10, "AAAAAAAA");
    check(all(at.shown, PX8_SHOWN, PX8_BLANK), "key line: a text paints nothing");
    out = send_message(settings, copies, sizeof copies);
    check(answers(out.answer, 2, 1, 0, 0, 0) && all(row_8, 72, PX8_BLANK) && all(row_8 + 72, 8, 'A'),
          "key line: shown");
    check(memcmp(at.printer + 7 * PX8_COPY_ROW, row_8, PX8_WIDTH) == 0, "key line: copied");
}

/* In every mode it takes all of row 8; marks and secret are over it. */
static void key_line_in_modes(void)
{
    static const uint8_t modes[][9] = {{27, 211, 0, 27, 208, 0, 24, 24, 0},
                                       {27, 211, 0, 27, 208, 1, 16, 0, 0},
                                       {27, 211, 0, 27, 208, 2, 8, 39, '|'}};
    static const uint8_t marks[] = {27, 210, 8, 40, '*', 27, 210, 8, 80, '+'}, secret[] = {27, 123};
    const uint8_t *row_8 = at.shown + PX8_AT(8, 1);
    px8_settings settings;
    size_t mode, key;
    for (mode = 0; mode < 3; mode++) {
        fill_desk();
        settings = send_message(open_desk().settings, modes[mode], 9).settings;
        for (key = 1; key <= PX8_KEYS; key++)
            settings = with_text(settings, key, "kg tare ");
        settings = send_message(settings, NULL, 0).settings;
        check(memcmp(row_8, "kg tare kg tare ", 16) == 0 && memcmp(row_8 + 36, "are kg t", 8) == 0 &&
                  memcmp(row_8 + 64, "kg tare kg tare ", 16) == 0 && guards_stay(),
              "key line: in a mode");
        settings = send_message(settings, marks, sizeof marks).settings;
        check(row_8[38] == 'e' && row_8[39] == '*' && row_8[79] == '+', "key line: under marks");
        send_message(settings, secret, sizeof secret);
        check(all(at.shown, PX8_SHOWN, PX8_BLANK), "key line: under secret");
    }
}

/* A window is a line lower, and the other screen's top is held too. */
static void key_line_windows(void)
{
    static const uint8_t steps[] = {27, 148, 8, 27, 211, 0, 10, 10, 10, 10, 10, 10, 10, 10, 10, 10};
    static const uint8_t ends[] = {27, 211, 0, 27, 209, 1, 27, 213, 27, 209, 0, 27, 210, 1, 1, '*'};
    static const uint8_t back[] = {27, 211, 1}, step[] = {27, 148, 8};
    static const uint8_t half[] = {27, 211, 0, 27, 208, 1, 16, 27, 61, 39, 32, 'A'};
    result out;
    fill_desk();
    out = send_message(open_desk().settings, steps, sizeof steps);
    check(out.settings.step == 7 && out.settings.places[0].top == 5, "key line: step and top");
    out = send_message(out.settings, step, sizeof step);
    check(out.answer.first == PX8_OUT_OF_RANGE && out.answer.parameter == 1, "key line: a step of 8");
    out = send_message(open_desk().settings, ends, sizeof ends);
    check(out.settings.places[1].top == 18 && at.shown[0] == '*', "key line: the last top");
    out = send_message(out.settings, back, sizeof back);
    check(out.settings.places[1].top == 17 && out.settings.places[0].top == 1, "key line: both tops held");
    check(all(at.layer, PX8_LAYER, 0) && guards_stay(), "key line: marks go");
    send_message(open_desk().settings, half, sizeof half);
    check(at.shown[PX8_AT(1, 42)] == 'A', "key line: the right half");
}

/* ---- packs ---- */

/* A pack is served: taken, accepted, first refusal with its record and offset. */
static px8_settings check_pack(pack_result out, uint32_t taken, uint32_t accepted, uint8_t first,
                               uint32_t record, uint32_t offset, const char *what)
{
    const px8_answer a = out.answer;
    check(a.number == PX8_SERVED && a.taken == taken && a.accepted == accepted && a.first == first &&
              out.record == record && a.offset == offset && guards_stay(),
          what);
    return out.settings;
}

static void packs(void)
{
    static const uint8_t cut[] = {1, 0, 1, 0, 27, 1, 0, 1, 0, 80};
    static const uint8_t copies[] = {2, 0, 1, 0, 27, 80, 0, 0, 1, 0, 3, 0, 1, 0, 'B', 27, 80};
    static const uint8_t own[] = {3, 0, 1, 0, 27, 209, 1, 2, 0, 1, 0, 27, 209,
                                  6, 0, 1, 0, 66, 27,  61, 99, 32, 67};
    pack_result out;
    fill_desk();
    check_pack(send_pack(open_desk().settings, cut, sizeof cut), 2, 0, PX8_CUT, 1, 0, "pack: a cut sequence");
    check(at.cells[0] == 80 && at.shown[0] == 80, "pack: the next message");
    fill_desk();
    out = call_pack(open_desk().settings, copies, sizeof copies, STORES, at.printer, 2 * PX8_COPY - 1);
    check_pack(out, 5, 1, PX8_NO_ROOM, 3, 1, "pack: the room left over");
    check(out.answer.printed == PX8_COPY &&
              memcmp(at.printer + PX8_COPY, copy.printer + PX8_COPY, ROOM - PX8_COPY) == 0,
          "pack: one copy");
    fill_desk();
    out = send_pack(open_desk().settings, copies, sizeof copies);
    check_pack(out, 5, 2, 0, 0, 0, "pack: two copies");
    check(out.answer.printed == 2 * PX8_COPY && at.printer[0] == ' ' && at.printer[PX8_COPY] == 'B',
          "pack: copies one behind the other");
    fill_desk();
    out = send_pack(open_desk().settings, own, sizeof own);
    check(check_pack(out, 11, 2, PX8_OUT_OF_RANGE, 3, 1, "pack: bodies of their own").selected == 0 &&
              out.answer.parameter == 1,
          "pack: 27, 209 at a body's end");
}

/* An empty pack paints nothing; an empty body does. */
static void empty_packs(void)
{
    static const uint8_t body[] = {0, 0, 1, 0};
    px8_settings settings;
    fill_desk();
    settings = open_desk().settings;
    memset(at.shown, 7, PX8_SHOWN);
    check(same_settings(check_pack(send_pack(settings, NULL, 0), 0, 0, 0, 0, 0, "pack: empty"), settings) &&
              all(at.shown, PX8_SHOWN, 7),
          "pack: nothing painted");
    check_pack(send_pack(settings, body, sizeof body), 0, 0, 0, 0, 0, "pack: an empty body");
    check(all(at.shown, PX8_SHOWN, PX8_BLANK), "pack: painted");
}

/* ---- short messages ---- */

/* Sends a short message to a terminal whose shown screen is all X: how many places of
 * rows 1 to 7 it paints. It has to be served, and row 8 to be painted whole. */
static int painted(px8_settings settings, const uint8_t *bytes, size_t length)
{
    result out;
    int n, count = 0;
    memset(at.shown, 'X', PX8_SHOWN);
    out = send_short(settings, bytes, length);
    for (n = 0; n < PX8_AT(PX8_ROWS, 1); n++)
        count += at.shown[n] != 'X';
    if (out.answer.number != PX8_SERVED || out.answer.taken != length || !guards_stay() ||
        !all(at.shown + PX8_AT(PX8_ROWS, 1), PX8_WIDTH, PX8_BLANK))
        return -1;
    return count;
}

/* A terminal just opened, its cursor and its window here. */
static px8_settings open_at(uint8_t line, uint8_t column, uint8_t top)
{
    px8_settings settings;
    fill_desk();
    settings = open_desk().settings;
    settings.places[0].line = line;
    settings.places[0].column = column;
    settings.places[0].top = top;
    return settings;
}

#define PAINTED(settings, text) painted(settings, (const uint8_t *)(text), sizeof(text) - 1)
#define HOME open_at(1, 1, 1)
#define ROWS_1_TO_7 PX8_AT(PX8_ROWS, 1)

static void short_messages(void)
{
    px8_settings s;
    check(PAINTED(HOME, "A") == 1 && at.shown[0] == 'A', "short: one letter");
    check(PAINTED(HOME, "A\10B") == 1 && at.shown[0] == 'B', "short: one place twice");
    check(PAINTED(HOME, "\33=\"$AB") == 2 && memcmp(at.shown + PX8_AT(3, 5), "AB", 2) == 0,
          "short: two places");
    check(PAINTED(HOME, "\33%A") == 1 && at.shown[0] == 'A', "short: 37");
    check(PAINTED(HOME, "") == 0, "short: row 8 alone");
    check(PAINTED(HOME, "\n\n\n\n\n\n\n") == 0, "short: seven line steps");
    check(PAINTED(HOME, "\n\n\n\n\n\n\n\n") == ROWS_1_TO_7, "short: the eighth moves the top");
    check(PAINTED(open_at(24, 1, 17), "\n") == ROWS_1_TO_7, "short: a lift");
    check(PAINTED(open_at(23, 80, 17), "A") == 1, "short: a step");
    check(PAINTED(open_at(24, 80, 17), "A") == ROWS_1_TO_7, "short: a lift by printing");
    check(PAINTED(open_at(9, 1, 10), "\r\n\n\n\n\n\n\n\n") == ROWS_1_TO_7, "short: a top that comes back");
    s = open_at(1, 80, 1);
    s.rule = 2;
    s.places[0].late = 1;
    check(PAINTED(s, "A") == 1 && at.shown[PX8_AT(2, 1)] == 'A', "short: the late step");
    s = HOME;
    s.secret = 1;
    check(PAINTED(s, "AB") == 2 && all(at.shown, 2, PX8_BLANK), "short: secret");
    check(PAINTED(HOME, "\33\33\33\321\2\33\320\0\7\10\33\322\11\1A") == 0, "short: refusals");
    check(PAINTED(HOME, "\33P\33\62\33\225\1\33\326\1") == 0, "short: other sequences");
}

/* Each item after which all is painted, alone. */
static void wide_items(void)
{
    check(PAINTED(HOME, "\14") == ROWS_1_TO_7, "short: code 12");
    check(PAINTED(HOME, "\33*") == ROWS_1_TO_7, "short: 42");
    check(PAINTED(HOME, "\33T") == ROWS_1_TO_7, "short: 84");
    check(PAINTED(HOME, "\33Y") == ROWS_1_TO_7, "short: 89");
    check(PAINTED(HOME, "\33{") == ROWS_1_TO_7, "short: 123");
    check(PAINTED(HOME, "\33}") == ROWS_1_TO_7, "short: 125");
    check(PAINTED(HOME, "\33\220\0\1") == ROWS_1_TO_7, "short: 144");
    check(PAINTED(HOME, "\33\221\0\1") == ROWS_1_TO_7, "short: 145");
    check(PAINTED(HOME, "\33\226") == ROWS_1_TO_7, "short: 150");
    check(PAINTED(HOME, "\33\227") == ROWS_1_TO_7, "short: 151");
    check(PAINTED(HOME, "\33\320\3") == ROWS_1_TO_7, "short: 208");
    check(PAINTED(HOME, "\33\321\0") == ROWS_1_TO_7, "short: 209");
    check(PAINTED(HOME, "\33\321") == ROWS_1_TO_7, "short: 209 at the end");
    check(PAINTED(HOME, "\33\322\1\1A") == ROWS_1_TO_7, "short: 210");
    check(PAINTED(HOME, "\33\323\1") == ROWS_1_TO_7, "short: 211");
    check(PAINTED(HOME, "\33\324") == ROWS_1_TO_7, "short: 212");
    check(PAINTED(HOME, "\33\325") == ROWS_1_TO_7, "short: 213");
    check(PAINTED(HOME, "\33\327") == ROWS_1_TO_7, "short: 215");
}

/* From a shown screen that is painted both calls leave the same, byte for byte. */
static void short_as_message(void)
{
    static const uint8_t bytes[] = {'3', '8', 27, 61, 33, 111, 'A', 'B', 27, 80, 27, 9, 8, 10, 13, 27, 210, 2, 2, 90, 27, 61, 33, 33, 'C'};
    static desk left;
    result one, other;
    size_t cut;
    for (cut = 0; cut <= sizeof bytes; cut++) {
        fill_desk();
        one = send_message(open_desk().settings, bytes, cut);
        one = send_message(one.settings, bytes + cut, sizeof bytes - cut);
        left = at;
        fill_desk();
        other = send_short(open_desk().settings, bytes, cut);
        other = send_short(other.settings, bytes + cut, sizeof bytes - cut);
        check(memcmp(&left, &at, sizeof at) == 0 && same_settings(one.settings, other.settings) &&
                  one.answer.number == other.answer.number && one.answer.taken == other.answer.taken &&
                  one.answer.accepted == other.answer.accepted && one.answer.refused == other.answer.refused &&
                  one.answer.first == other.answer.first && one.answer.offset == other.answer.offset &&
                  one.answer.parameter == other.answer.parameter && one.answer.printed == other.answer.printed,
              "short: as a message");
    }
}

/* A stale screen stays so until all is painted; a key text is seen at once. */
static void stale_screens(void)
{
    static const uint8_t text[PX8_KEY_TEXT] = {'T', 'A', 'R', 'E', ' ', ' ', ' ', ' '};
    static const uint8_t key_line_on[] = {27, 211, 0};
    px8_settings s;
    fill_desk();
    s = open_desk().settings;
    memset(at.shown, 'X', PX8_SHOWN);
    s = send_short(s, (const uint8_t *)"12", 2).settings;
    s = send_short(s, (const uint8_t *)"34", 2).settings;
    check(memcmp(at.shown, "1234X", 5) == 0 && all(at.shown + 4, ROWS_1_TO_7 - 4, 'X'), "short: stale");
    s = send_message(s, NULL, 0).settings;
    check(memcmp(at.shown, "1234 ", 5) == 0 && all(at.shown + 4, PX8_SHOWN - 4, PX8_BLANK), "short: painted");
    s = send_message(s, key_line_on, sizeof key_line_on).settings;
    s = call_key_text(s, 1, text, PX8_KEY_TEXT).settings;
    check(all(at.shown + PX8_AT(PX8_ROWS, 1), PX8_WIDTH, PX8_BLANK), "short: a key text not seen yet");
    send_short(s, NULL, 0);
    check(memcmp(at.shown + PX8_AT(PX8_ROWS, 1), text, PX8_KEY_TEXT) == 0 && guards_stay(), "short: a key text");
}

/* ---- mode 3 ---- */

/* Mode 3, then the bytes; just these two bytes of the dots are not 0. */
static result check_dots(const uint8_t *bytes, size_t length, size_t at1, uint8_t byte1, size_t at2,
                              uint8_t byte2, const char *what)
{
    static const uint8_t mode[] = {27, 208, 3};
    static uint8_t expected[PX8_DOTS];
    result out;
    memset(expected, 0, sizeof expected);
    expected[at1] = byte1;
    expected[at2] = byte2;
    fill_desk();
    out = send_message(open_desk().settings, mode, sizeof mode);
    out = send_message(out.settings, bytes, length);
    check(out.answer.number == PX8_SERVED && memcmp(at.dots, expected, sizeof expected) == 0 && guards_stay(),
          what);
    return out;
}

#define DOTS(at1, byte1, at2, byte2, ...)                                                 \
    do {                                                                                  \
        static const uint8_t bytes[] = {__VA_ARGS__};                                     \
        check_dots(bytes, sizeof bytes, at1, byte1, at2, byte2, "dots: " #__VA_ARGS__);   \
    } while (0)

static void dots(void)
{
    DOTS(0, 128, 0, 128, 27, 199, 1, 0, 0, 0);
    DOTS(3839, 1, 3839, 1, 27, 199, 1, 63, 1, 223);
    DOTS(PX8_DOT_AT(9, 300), PX8_DOT_WEIGHT(300), 0, 0, 27, 199, 1, 9, 1, 44);
    DOTS(0, 0, 0, 0, 27, 199, 1, 9, 1, 44, 27, 199, 0, 9, 1, 44);
    DOTS(0, 128, 60, 96, 27, 198, 0, 0, 0, 0, 0, 2, 0, 1, 255, 255, 2);
    DOTS(0, 192, 60, 32, 27, 198, 0, 2, 0, 1, 0, 0, 0, 0, 255, 255, 2);
    DOTS(300, 4, 300, 4, 27, 198, 0, 5, 0, 5, 0, 5, 0, 5, 128, 0, 3);
    DOTS(0, 0, 0, 0, 27, 198, 0, 5, 0, 5, 0, 5, 0, 5, 127, 255, 3);
    DOTS(480, 128, 480, 128, 27, 198, 0, 0, 0, 0, 0, 0, 0, 9, 0, 128, 2);
    DOTS(0, 63, 0, 63, 27, 198, 0, 0, 0, 0, 0, 7, 0, 0, 255, 255, 2, 27, 198, 0, 1, 0, 0, 0, 0, 0, 0, 255, 255, 1);
    DOTS(0, 0, 0, 0, 27, 199, 1, 9, 1, 44, 27, 42);
    DOTS(0, 0, 0, 0, 27, 199, 1, 9, 1, 44, 12);
    DOTS(0, 0, 0, 0, 27, 199, 1, 9, 1, 44, 27, 208, 0, 24, 24);
    DOTS(0, 128, 0, 128, 27, 199, 1, 0, 0, 0, 10, 10, 10, 10, 10, 10, 10, 10, 27, 84, 27, 89, 27, 144, 0, 8);
    DOTS(0, 0, 0, 0, 27, 208, 0, 24, 24, 27, 199, 1, 0, 0, 0, 27, 198, 9, 9, 9, 9, 9, 9, 9, 9, 9, 9, 9);
}

/* The first bad parameter, and nothing drawn. */
static void check_bad_dots(const uint8_t *bytes, size_t length, uint8_t parameter, const char *what)
{
    const px8_answer a = check_dots(bytes, length, 0, 0, 0, 0, what).answer;
    check(a.refused == 1 && a.first == PX8_OUT_OF_RANGE && a.parameter == parameter, what);
}

static void bad_dots(void)
{
    static const uint8_t all_bad[] = {27, 199, 2, 64, 2, 0}, vertical[] = {27, 199, 1, 64, 2, 0};
    static const uint8_t horizontal[] = {27, 199, 1, 63, 1, 224};
    uint8_t line[] = {27, 198, 0, 0, 0, 0, 0, 0, 0, 0, 255, 255, 2};
    check_bad_dots(all_bad, sizeof all_bad, 1, "dots: 199, function");
    check_bad_dots(vertical, sizeof vertical, 2, "dots: 199, vertical");
    check_bad_dots(horizontal, sizeof horizontal, 4, "dots: 199, horizontal");
    line[12] = 0;
    check_bad_dots(line, sizeof line, 11, "dots: 198, function");
    line[8] = 1;
    check_bad_dots(line, sizeof line, 8, "dots: 198, vertical end");
    line[6] = 2;
    check_bad_dots(line, sizeof line, 6, "dots: 198, horizontal end");
    line[5] = 64;
    check_bad_dots(line, sizeof line, 4, "dots: 198, vertical start");
    line[2] = 1;
    line[3] = 224;
    check_bad_dots(line, sizeof line, 2, "dots: 198, horizontal start");
}

/* The manual's line, and copies of it, under secret too. */
static void manual_line(void)
{
    static const uint8_t bytes[] = {27, 208, 3, 'A', 27, 123, 27, 198, 1, 144, 0, 18, 0, 18, 0, 18, 170, 170, 2};
    static const uint8_t copies[] = {27, 80};
    result out;
    fill_desk();
    out = send_message(open_desk().settings, bytes, sizeof bytes);
    check(out.answer.refused == 0 && at.dots[1082] == 42 && all(at.dots + 1083, 47, 170) && at.dots[1130] == 128 &&
              all(at.dots, 1082, 0) && all(at.dots + 1131, PX8_DOTS - 1131, 0),
          "dots: the manual's line");
    check(all(at.shown, PX8_SHOWN, PX8_BLANK) && at.cells[0] == 'A', "dots: secret hides text");
    copy = at;
    check(call_message(out.settings, copies, 2, STORES, at.printer, PX8_DOTS - 1).answer.first == PX8_NO_ROOM &&
              memcmp(at.printer, copy.printer, ROOM) == 0,
          "dots: no room");
    out = send_message(out.settings, copies, 2);
    check(answers(out.answer, 2, 1, 0, 0, 0) && out.answer.printed == PX8_DOTS &&
              memcmp(at.printer, at.dots, PX8_DOTS) == 0,
          "dots: copied");
}

static void layer(void)
{
    static const uint8_t bytes[] = {27, 210, 8, 80, '*'};
    const size_t place = PX8_AT(8, 80);
    fill_desk();
    send_message(open_desk().settings, bytes, sizeof bytes);
    check(at.layer[place] == 1 && at.layer[PX8_PLACES + place] == '*', "layer: mark and code");
    check(at.shown[place] == '*' && at.cells[place] == PX8_BLANK, "layer: shown, not stored");
}

/* ---- long lines ---- */

/* Prints so many lines full of 'A', then sends the bytes: just these lines of screen 1
 * run on. */
static px8_settings check_runs(size_t full, const char *bytes, size_t length, const char *runs,
                               const char *what)
{
    static uint8_t text[PX8_WIDTH * 8];
    px8_settings expected;
    result out;
    memset(text, 'A', sizeof text);
    fill_desk();
    expected = open_desk().settings;
    out = send_message(expected, text, PX8_WIDTH * full);
    for (; *runs; runs++)
        run_on(&expected, 0, *runs);
    out = send_message(out.settings, (const uint8_t *)bytes, length);
    check(out.answer.number == PX8_SERVED && out.answer.refused == 0 &&
              memcmp(out.settings.marks, expected.marks, sizeof expected.marks) == 0 && guards_stay(),
          what);
    return out.settings;
}

#define RUNS(full, bytes, runs) check_runs(full, bytes, sizeof bytes - 1, runs, "long lines: " #bytes)

static void long_lines(void)
{
    px8_settings settings;
    RUNS(1, "A\33=  \33T", "");
    check(all(at.cells, PX8_CELLS, PX8_BLANK), "long lines: erased");
    settings = RUNS(0, "\33=7oA", "\27");
    check(at.cells[PX8_WIDTH * 23 - 1] == 'A' && settings.places[0].line == 24, "long lines: lifted");
    RUNS(0, "\33=7oAB\33=6o\33T", "");
    check(all(at.cells, PX8_CELLS, PX8_BLANK), "long lines: erased to the last");
    RUNS(2, "\33\221\0\3", "");
    RUNS(2, "\33\221\0\4", "\2");
    RUNS(2, "\33\220\1\27", "");
    RUNS(5, "\33\221\2\4", "\1\4");
    RUNS(3, "\33\220\2\1", "\1");
    RUNS(5, "\33\220\1\2", "\4\5");
    RUNS(2, "rest\33=! \33T", "\1");
    check(all(at.cells, PX8_WIDTH, 'A') && all(at.cells + PX8_WIDTH, PX8_CELLS - PX8_WIDTH, PX8_BLANK),
          "long lines: from the second line");
    RUNS(3, "\33=\67 \n", "\1\2");
    RUNS(0, "\33\320\2\10\1#AB", "\1\2");
    RUNS(5, "\33=\42!\33Y", "\1\2");
    RUNS(5, "\33\321\1\33*", "\1\2\3\4\5");
    RUNS(5, "\33*", "");
    RUNS(5, "\14", "");
    RUNS(5, "\33\320\0\30\30", "");
    RUNS(5, "\33= /over\r\10\n", "\1\2\3\4\5");
}

/* ---- late wrap ---- */

/* By rule 2 a line of 80, or a byte in the last cell of the screen; then the bytes. */
static px8_settings late_after(int at_the_end, const char *bytes, size_t length)
{
    static const uint8_t last[] = {27, 61, 55, 111, 'A'};
    static uint8_t full[PX8_WIDTH];
    result out;
    memset(full, 'A', sizeof full);
    fill_desk();
    out = at_the_end ? send_message(open_late().settings, last, sizeof last)
                     : send_message(open_late().settings, full, sizeof full);
    return send_message(out.settings, (const uint8_t *)bytes, length).settings;
}

/* Line and column of screen 1's cursor and whether it is late, its one line that runs on
 * (0: none), and whether the cell of the line and column holds the code. */
static void check_late(px8_settings s, int line, int column, int is_late, int marked, int cell_line,
                       int cell_column, int code, const char *what)
{
    px8_settings expected;
    memset(&expected, 0, sizeof expected);
    if (marked)
        run_on(&expected, 0, marked);
    check(s.rule == 2 && s.places[0].line == line && s.places[0].column == column &&
              s.places[0].late == is_late && memcmp(s.marks, expected.marks, sizeof s.marks) == 0 &&
              at.cells[PX8_WIDTH * (cell_line - 1) + cell_column - 1] == code && guards_stay(),
          what);
}

#define LATE(at_the_end, bytes) late_after(at_the_end, bytes, sizeof bytes - 1)

static void late_wrap(void)
{
    px8_settings s, expected;
    int screen;
    check_late(LATE(0, ""), 1, 80, 1, 0, 1, 80, 'A', "late: waits");
    check_late(LATE(0, "B"), 2, 2, 0, 1, 2, 1, 'B', "late: steps");
    check_late(LATE(0, "\33%B"), 2, 2, 0, 1, 2, 1, 'B', "late: steps by 37");
    check_late(LATE(0, "\rB"), 1, 2, 0, 0, 1, 1, 'B', "late: code 13");
    check_late(LATE(0, "\10B"), 1, 80, 0, 0, 1, 79, 'B', "late: code 8");
    check_late(LATE(0, "\nB"), 2, 80, 1, 0, 2, 80, 'B', "late: code 10");
    check_late(LATE(0, "\14B"), 1, 2, 0, 0, 1, 1, 'B', "late: code 12");
    check_late(LATE(0, "\33*B"), 1, 2, 0, 0, 1, 1, 'B', "late: 42");
    check_late(LATE(0, "\33= oB"), 1, 80, 1, 0, 1, 80, 'B', "late: 61 onto the last column");
    check_late(LATE(1, "\33T"), 24, 80, 1, 0, 24, 80, PX8_BLANK, "late: erased");
    check_late(LATE(1, "\33TB"), 24, 2, 0, 23, 24, 1, 'B', "late: lifted late");
    check_late(LATE(1, "\n"), 24, 80, 0, 0, 23, 80, 'A', "late: code 10 lifts");
    check_late(LATE(0, "\33\321\1\33\321\0B"), 2, 2, 0, 1, 2, 1, 'B', "late: 209 and back");
    check_late(LATE(0, "\33\320\2\10\1#AB"), 2, 1, 1, 1, 1, 1, 'A', "late: one column");
    check(at.cells[1] == 'B', "late: one column");
    for (screen = 0; screen < 2; screen++) {
        const uint8_t bytes[] = {27, 209, (uint8_t)screen, 27, 61, 34, 111, 'A'};
        fill_desk();
        expected = open_late().settings;
        s = send_message(expected, bytes, sizeof bytes).settings;
        expected.selected = (uint8_t)screen;
        expected.places[screen].line = 3;
        expected.places[screen].column = 80;
        expected.places[screen].late = 1;
        check(same_settings(s, expected), "late: of each screen");
    }
    expected = open_desk().settings;
    expected.rule = 2;
    check(same_settings(open_late().settings, expected), "late: the opening by rule 2");
}

static void printed(void)
{
    static const uint8_t buffer[3] = {1, 2, 3};
    check(px8_printed(buffer, 3, 0) == 0, "printed: none");
    check(px8_printed(buffer, 3, 2) == 2, "printed: a part");
    check(px8_printed(buffer, 3, 3) == 3, "printed: all");
    check(px8_printed(buffer, 3, 4) == 0, "printed: beyond");
    check(px8_printed(buffer, 3, (px8_size)-1) == 0, "printed: far beyond");
    check(px8_printed(NULL, 0, 0) == 0 && px8_printed(NULL, 0, 1) == 0, "printed: no buffer");
}

/* ---- refused calls ---- */

static void check_refused(result outcome, px8_settings given, uint8_t number,
                          const char *what)
{
    const px8_answer a = outcome.answer;
    check(a.number == number && a.taken == 0 && a.accepted == 0 && a.refused == 0 &&
              a.first == 0 && a.parameter == 0 && a.offset == 0 && a.printed == 0 &&
              same_settings(outcome.settings, given) && memcmp(&at, &copy, sizeof at) == 0,
          what);
}

static void refused_openings(void)
{
    const px8_size wrong[] = {0, 3, 255, 256, 257, 258, (px8_size)1 << 32 | 2, (px8_size)-1};
    const px8_settings settings = open_desk().settings;
    opening_result opened;
    size_t n;
    fill_desk();
    opened = call_opening(2, at.cells, PX8_CELLS - 1, at.layer, PX8_LAYER, at.shown, PX8_SHOWN, at.dots,
                         PX8_DOTS);
    check(opened.number == PX8_STORE_SIZE &&
              same_settings(opened.settings, settings) &&
              memcmp(&at, &copy, sizeof at) == 0,
          "opening refused: cells");
    opened = call_opening(1, at.cells, PX8_CELLS, at.layer, PX8_LAYER + 1, at.shown, PX8_SHOWN, at.dots,
                         PX8_DOTS);
    check(opened.number == PX8_STORE_SIZE && memcmp(&at, &copy, sizeof at) == 0,
          "opening refused: layer");
    opened = call_opening(1, at.cells, PX8_CELLS, at.layer, PX8_LAYER, at.shown, PX8_SHOWN, at.dots,
                         PX8_DOTS - 1);
    check(opened.number == PX8_STORE_SIZE && memcmp(&at, &copy, sizeof at) == 0,
          "opening refused: dots");
    opened = call_opening(3, NULL, 0, NULL, 0, NULL, 0, NULL, 0);
    check(opened.number == PX8_STORE_SIZE &&
              same_settings(opened.settings, settings),
          "opening refused: null and 0");
    for (n = 0; n < sizeof wrong / sizeof wrong[0]; n++) {
        opened = call_opening(wrong[n], STORES);
        check(opened.number == PX8_BAD_RULE && same_settings(opened.settings, settings) &&
                  memcmp(&at, &copy, sizeof at) == 0,
              "opening refused: rule");
    }
}

static void refused_messages(void)
{
    static uint8_t long_message[PX8_MESSAGE_MOST + 1];
    const px8_settings settings = open_desk().settings;
    px8_settings unsound = settings;
    unsound.places[1].top = 18;
    memset(long_message, 'x', sizeof long_message);
    fill_desk();
    check_refused(call_message(settings, long_message, 4, at.cells, PX8_CELLS, at.layer, PX8_LAYER,
                              at.shown, PX8_SHOWN - 1, at.dots, PX8_DOTS, at.printer, ROOM),
                  settings, PX8_STORE_SIZE, "refused: shown screen too short");
    check_refused(call_message(settings, long_message, 4, at.cells, PX8_CELLS, at.layer, PX8_LAYER,
                              at.shown, PX8_SHOWN, at.dots, PX8_DOTS + 1, at.printer, ROOM),
                  settings, PX8_STORE_SIZE, "refused: dots too long");
    check_refused(call_message(unsound, NULL, 0, NULL, 0, NULL, 0, NULL, 0, NULL, 0, NULL, 0), unsound,
                  PX8_STORE_SIZE, "refused: null and 0");
    check_refused(send_message(unsound, long_message, sizeof long_message), unsound, PX8_TOO_LONG,
                  "refused: message too long");
    check_refused(send_message(unsound, long_message, PX8_MESSAGE_MOST), unsound, PX8_UNSOUND,
                  "refused: settings not sound");
}

/* Settings in which these bytes wait. */
static px8_settings with_line(const uint8_t *bytes, size_t held, uint32_t count)
{
    px8_settings settings = open_desk().settings;
    memcpy(settings.waiting, bytes, held);
    settings.held = (uint8_t)held;
    settings.count = count;
    return settings;
}

/* A piece and a closing on these settings are both refused by 3. */
static void check_unsound(px8_settings settings, const char *what)
{
    static const uint8_t text[] = {'A'};
    fill_desk();
    check_refused(send_piece(settings, text, 1), settings, PX8_UNSOUND, what);
    check_refused(close_stream(settings), settings, PX8_UNSOUND, what);
}

static void unsound_lines(void)
{
    static const uint8_t escape[] = {27}, letter[] = {65}, mode[] = {27, 208, 9}, none[] = {0};
    px8_settings settings;
    check_unsound(with_line(escape, 1, 0), "unsound: waiting longer than the count");
    check_unsound(with_line(mode, 3, 3), "unsound: a sequence that is whole");
    check_unsound(with_line(letter, 1, 1), "unsound: no ESC");
    check_unsound(with_line(none, 0, PX8_COUNT_MOST + 1), "unsound: count");
    settings = with_line(escape, 1, 1);
    settings.waiting[11] = 1;
    check_unsound(settings, "unsound: bytes behind those that wait");
    settings = with_line(escape, 1, 1);
    settings.held = 13;
    settings.count = 13;
    check_unsound(settings, "unsound: held");
}

/* 15, and what still works at the limit. */
static void limit(void)
{
    static const uint8_t two[] = {65, 66}, escape[] = {27}, copies[] = {80};
    const px8_settings settings = with_line(escape, 0, PX8_COUNT_MOST - 1);
    result out;
    fill_desk();
    check_refused(send_piece(settings, two, 2), settings, PX8_STREAM_TOO_LONG, "limit: 15");
    open_desk();
    out = send_piece(settings, escape, 1);
    check(answers(out.answer, 1, 0, 0, 0, 0) && out.settings.count == PX8_COUNT_MOST, "limit: reached");
    copy = at;
    check_refused(send_piece(out.settings, copies, 1), out.settings, PX8_STREAM_TOO_LONG, "limit: 15 there");
    check(send_piece(out.settings, NULL, 0).answer.number == PX8_SERVED, "limit: an empty piece");
    out = close_stream(out.settings);
    check(answers(out.answer, 0, 0, 1, PX8_CUT, 999999999) && out.settings.count == 0, "limit: closed by 12");
}

/* A piece 1, 2, 3, 15; a closing 1, 3; a message 1, 2, 3, 16. */
static void refused_streams(void)
{
    static uint8_t long_piece[PX8_MESSAGE_MOST + 1];
    static const uint8_t escape[] = {27};
    const px8_settings full = with_line(escape, 1, PX8_COUNT_MOST);
    px8_settings unsound = full;
    unsound.step = 0;
    fill_desk();
    check_refused(call_piece(unsound, long_piece, sizeof long_piece, at.cells, PX8_CELLS, at.layer,
                            PX8_LAYER - 1, at.shown, PX8_SHOWN, at.dots, PX8_DOTS, at.printer, ROOM),
                  unsound, PX8_STORE_SIZE, "refused: piece, layer too short");
    check_refused(call_piece(unsound, NULL, 0, NULL, 0, NULL, 0, NULL, 0, NULL, 0, NULL, 0), unsound,
                  PX8_STORE_SIZE, "refused: piece, null and 0");
    check_refused(send_piece(unsound, long_piece, sizeof long_piece), unsound, PX8_TOO_LONG,
                  "refused: piece too long");
    check_refused(send_piece(unsound, long_piece, 5), unsound, PX8_UNSOUND,
                  "refused: piece, settings not sound");
    check_refused(send_piece(full, long_piece, 5), full, PX8_STREAM_TOO_LONG, "refused: piece, 15");
    check_refused(call_closing(unsound, at.cells, PX8_CELLS + 1, at.layer, PX8_LAYER, at.shown, PX8_SHOWN,
                              at.dots, PX8_DOTS),
                  unsound, PX8_STORE_SIZE, "refused: closing, cells too long");
    check_refused(call_closing(unsound, at.cells, PX8_CELLS, at.layer, PX8_LAYER, at.shown, PX8_SHOWN,
                              at.dots, PX8_DOTS - 1),
                  unsound, PX8_STORE_SIZE, "refused: closing, dots too short");
    check_refused(call_closing(full, NULL, 0, NULL, 0, NULL, 0, NULL, 0), full, PX8_STORE_SIZE,
                  "refused: closing, null and 0");
    check_refused(close_stream(unsound), unsound, PX8_UNSOUND, "refused: closing, settings not sound");
    check_refused(send_message(full, long_piece, sizeof long_piece), full, PX8_TOO_LONG,
                  "refused: 2 before 16");
    check_refused(send_message(unsound, long_piece, 5), unsound, PX8_UNSOUND, "refused: 3 before 16");
    check_refused(send_message(full, NULL, 0), full, PX8_BYTES_WAIT, "refused: an empty message by 16");
}

static void check_refused_pack(pack_result out, px8_settings given, uint8_t number, const char *what)
{
    result plain;
    plain.settings = out.settings;
    plain.answer = out.answer;
    check_refused(plain, given, number, what);
    check(out.record == 0, what);
}

/* 1, 19, 20, 21, 2, 3, 16, each over the whole pack. */
static void refused_shorts(void)
{
    static uint8_t long_message[PX8_MESSAGE_MOST + 1];
    static const uint8_t escape[] = {27};
    const px8_settings waits = with_line(escape, 1, 1);
    px8_settings unsound = waits;
    unsound.step = 0;
    memset(long_message, 'x', sizeof long_message);
    fill_desk();
    check_refused(call_short(unsound, long_message, sizeof long_message, at.cells, PX8_CELLS, at.layer, PX8_LAYER,
                                    at.shown, PX8_SHOWN - 1, at.dots, PX8_DOTS, at.printer, ROOM),
                  unsound, PX8_STORE_SIZE, "refused: short message, shown screen too short");
    check_refused(call_short(unsound, NULL, 0, NULL, 0, NULL, 0, NULL, 0, NULL, 0, NULL, 0), unsound,
                  PX8_STORE_SIZE, "refused: short message, null and 0");
    check_refused(send_short(unsound, long_message, sizeof long_message), unsound, PX8_TOO_LONG,
                  "refused: short message too long");
    check_refused(send_short(unsound, long_message, PX8_MESSAGE_MOST), unsound, PX8_UNSOUND,
                  "refused: short message, settings not sound");
    check_refused(send_short(waits, long_message, 1), waits, PX8_BYTES_WAIT, "refused: short message, bytes wait");
    check_refused(send_short(waits, NULL, 0), waits, PX8_BYTES_WAIT, "refused: empty short message, bytes wait");
}

static void refused_packs(void)
{
    static uint8_t pack[PX8_PACK_MOST + 1];
    static const uint8_t escape[] = {27};
    const px8_settings waits = with_line(escape, 1, 1);
    px8_settings unsound = waits;
    const size_t long_body = PX8_RECORD_HEAD + PX8_MESSAGE_MOST + 1;
    unsound.step = 0;
    pack[0] = (PX8_MESSAGE_MOST + 1) & 255;
    pack[1] = (PX8_MESSAGE_MOST + 1) >> 8;
    pack[2] = 1;
    pack[3] = 1;
    fill_desk();
    check_refused_pack(call_pack(unsound, pack, sizeof pack, at.cells, PX8_CELLS, at.layer, PX8_LAYER, at.shown,
                                PX8_SHOWN, at.dots, PX8_DOTS - 1, at.printer, ROOM),
                       unsound, PX8_STORE_SIZE, "refused: pack, dots too short");
    check_refused_pack(send_pack(unsound, pack, sizeof pack), unsound, PX8_PACK_TOO_LONG, "refused: pack too long");
    check_refused_pack(send_pack(unsound, pack, long_body + 3), unsound, PX8_CUT_RECORD, "refused: pack, head cut");
    check_refused_pack(send_pack(unsound, pack, long_body - 1), unsound, PX8_CUT_RECORD, "refused: pack, body cut");
    check_refused_pack(send_pack(unsound, pack, long_body), unsound, PX8_UNKNOWN_RECORD, "refused: pack, kind");
    pack[3] = 0;
    check_refused_pack(send_pack(unsound, pack, long_body), unsound, PX8_TOO_LONG, "refused: pack, a long body");
    pack[0]--;
    check_refused_pack(send_pack(unsound, pack, long_body - 1), unsound, PX8_UNSOUND, "refused: pack, not sound");
    check_refused_pack(send_pack(unsound, NULL, 0), unsound, PX8_UNSOUND, "refused: empty pack, not sound");
    check_refused_pack(send_pack(waits, pack, long_body - 1), waits, PX8_BYTES_WAIT, "refused: pack, bytes wait");
    check_refused_pack(send_pack(waits, NULL, 0), waits, PX8_BYTES_WAIT, "refused: empty pack, bytes wait");
}

/* 3, then 17: a number as wide as px8_size is judged whole. */
static void refused_key_texts(void)
{
    static const uint8_t text[] = "AAAAAAAAA";
    const px8_size wrong[] = {0, 11, 256, 257, (px8_size)1 << 32 | 1, (px8_size)-1};
    const px8_settings settings = open_desk().settings;
    px8_settings unsound = settings;
    size_t n;
    unsound.step = 0;
    fill_desk();
    for (n = 0; n < sizeof wrong / sizeof wrong[0]; n++)
        check_refused(call_key_text(settings, wrong[n], text, 8), settings, PX8_BAD_KEY_TEXT,
                      "refused: key number");
    check_refused(call_key_text(settings, 1, text, 7), settings, PX8_BAD_KEY_TEXT, "refused: text of 7");
    check_refused(call_key_text(settings, 10, text, 9), settings, PX8_BAD_KEY_TEXT, "refused: text of 9");
    check_refused(call_key_text(settings, 5, NULL, 0), settings, PX8_BAD_KEY_TEXT, "refused: no text");
    check_refused(call_key_text(unsound, 0, text, 9), unsound, PX8_UNSOUND, "refused: 3 before 17");
    check_refused(call_key_text(unsound, 1, text, 8), unsound, PX8_UNSOUND, "refused: a text, not sound");
}

/* The key line's own limits of soundness; the least numbers of lines stay. */
static void unsound_key_lines(void)
{
    px8_settings settings = open_desk().settings;
    settings.display = 0;
    settings.places[1].top = 18;
    settings.step = 7;
    fill_desk();
    check(close_stream(settings).answer.number == PX8_SERVED, "sound: top 18 and step 7 of 24 lines");
    settings.step = 8;
    check_unsound(settings, "unsound: step 8 with the key line");
    settings.step = 1;
    settings.places[1].top = 19;
    check_unsound(settings, "unsound: top 19 with the key line");
    settings.places[1].top = 1;
    settings.lines1 = 7;
    check_unsound(settings, "unsound: 7 lines with the key line");
}

/* A mark on a screen's last line, past it, or where no screen has a line. */
static void unsound_marks(void)
{
    const struct { int screen, line; } wrong[] = {{0, 24}, {0, 25}, {0, 48}, {0, 49}, {1, 24}, {1, 48}, {1, 64}};
    size_t n;
    px8_settings settings;
    for (n = 0; n < sizeof wrong / sizeof wrong[0]; n++) {
        settings = open_desk().settings;
        run_on(&settings, wrong[n].screen, wrong[n].line);
        check_unsound(settings, "unsound: a mark");
    }
    settings = open_desk().settings;
    run_on(&settings, 0, 23);
    run_on(&settings, 1, 23);
    check(close_stream(settings).answer.number == PX8_SERVED, "sound: the line before the last");
}

/* Late by rule 1, before the last column, or by 2; a rule that is none. */
static void unsound_late(void)
{
    const struct { uint8_t rule, column, late; } wrong[] = {
        {1, 80, 1}, {2, 79, 1}, {2, 1, 1}, {2, 80, 2}, {0, 1, 0}, {3, 1, 0}, {3, 80, 1}};
    px8_settings settings;
    size_t n;
    int screen;
    for (n = 0; n < sizeof wrong / sizeof wrong[0]; n++)
        for (screen = 0; screen < 2; screen++) {
            settings = open_desk().settings;
            settings.rule = wrong[n].rule;
            settings.places[screen].column = wrong[n].column;
            settings.places[screen].late = wrong[n].late;
            check_unsound(settings, "unsound: rule or late");
        }
    settings = open_late().settings;
    settings.places[1].column = 80;
    settings.places[1].late = 1;
    check(close_stream(settings).answer.number == PX8_SERVED, "sound: late in the last column");
}

/* Mode 3 has one screen, type 3 and display 1; step and tracking are free. */
static void unsound_mode_3(void)
{
    static const uint8_t bytes[] = {27, 208, 3};
    const px8_settings sound = send_message(open_desk().settings, bytes, sizeof bytes).settings;
    px8_settings settings = sound;
    settings.step = 8;
    settings.tracking = 0;
    check(close_stream(settings).answer.number == PX8_SERVED, "sound: step 8 in mode 3");
    settings.kind = 2;
    check_unsound(settings, "unsound: type 2 in mode 3");
    settings = sound;
    settings.display = 0;
    check_unsound(settings, "unsound: the key line in mode 3");
    settings = sound;
    settings.selected = 1;
    check_unsound(settings, "unsound: screen 2 in mode 3");
    settings = sound;
    settings.places[1].column = 2;
    check_unsound(settings, "unsound: a cursor of screen 2 in mode 3");
    settings = sound;
    settings.lines2 = 8;
    check_unsound(settings, "unsound: lines of screen 2 in mode 3");
    settings = open_desk().settings;
    settings.mode = 3;
    check_unsound(settings, "unsound: the opening's lines in mode 3");
}

/* Lengths of 0 with null pointers are served where any length is. */
static void empty_buffers(void)
{
    static const uint8_t bytes[] = {27, 80};
    px8_settings settings;
    px8_answer a;
    fill_desk();
    settings = open_desk().settings;
    a = call_message(settings, NULL, 0, STORES, NULL, 0).answer;
    check(a.number == PX8_SERVED && a.taken == 0, "empty: message and printer buffer");
    a = call_message(settings, bytes, sizeof bytes, STORES, NULL, 0).answer;
    check(a.refused == 1 && a.first == PX8_NO_ROOM && a.printed == 0, "empty: a copy refused");
    a = call_short(settings, NULL, 0, STORES, NULL, 0).answer;
    check(a.number == PX8_SERVED && a.taken == 0, "empty: short message and printer buffer");
    a = call_short(settings, bytes, sizeof bytes, STORES, NULL, 0).answer;
    check(a.refused == 1 && a.first == PX8_NO_ROOM && a.printed == 0, "empty: a short message's copy refused");
}

static int is_record(px8_difference d, int row, int column, int first, int second)
{
    return d.row == row && d.column == column && d.first == first && d.second == second;
}

/* Two screens that differ in the last place of row 1, in the first of row 2 and in the last of all. */
static void compared(void)
{
    static uint8_t one[PX8_SHOWN + 1], other[PX8_SHOWN + 1];
    static px8_difference list[9], before[9];
    px8_compared c;
    px8_first f;
    memset(one, 32, sizeof one);
    memset(other, 32, sizeof other);
    memset(list, 77, sizeof list);
    memcpy(before, list, sizeof list);
    f = call_first(one, PX8_SHOWN, other, PX8_SHOWN);
    check(f.number == PX8_SERVED && f.found == 0 && is_record(f.difference, 0, 0, 0, 0), "compare: none");
    c = call_compare(one, PX8_SHOWN, other, PX8_SHOWN, NULL, 0);
    check(c.number == PX8_SERVED && c.count == 0, "compare: equal screens, an empty list");
    c = call_compare(one, PX8_SHOWN, one, PX8_SHOWN, list, 9);
    check(c.number == PX8_SERVED && c.count == 0 && memcmp(list, before, sizeof list) == 0, "compare: a screen and itself");
    one[PX8_AT(1, 80)] = 1;
    other[PX8_AT(2, 1)] = 255;
    other[PX8_AT(8, 80)] = 65;
    f = call_first(one, PX8_SHOWN, other, PX8_SHOWN);
    check(f.number == PX8_SERVED && f.found == 1 && is_record(f.difference, 1, 80, 1, 32), "compare: the first");
    c = call_compare(one, PX8_SHOWN, other, PX8_SHOWN, list, 2);
    check(c.number == PX8_LIST_SHORT && c.count == 0 && memcmp(list, before, sizeof list) == 0, "compare: refused, list too short");
    c = call_compare(one, PX8_SHOWN, other, PX8_SHOWN, list, 3);
    check(c.number == PX8_SERVED && c.count == 3, "compare: a list just long enough");
    memcpy(list, before, sizeof list);
    c = call_compare(one, PX8_SHOWN, other, PX8_SHOWN, list, 9);
    check(c.number == PX8_SERVED && c.count == 3, "compare: count");
    check(is_record(list[0], 1, 80, 1, 32) && is_record(list[1], 2, 1, 32, 255) && is_record(list[2], 8, 80, 32, 65), "compare: records");
    check(memcmp(list + 3, before + 3, sizeof list - 3 * sizeof list[0]) == 0, "compare: the list beyond stays");
    memcpy(list, before, sizeof list);
    c = call_compare(one, PX8_SHOWN - 1, other, PX8_SHOWN, list, 0);
    check(c.number == PX8_STORE_SIZE && c.count == 0, "compare: refused, 1 before 18");
    c = call_compare(one, PX8_SHOWN, other, PX8_SHOWN + 1, list, 9);
    check(c.number == PX8_STORE_SIZE && c.count == 0 && memcmp(list, before, sizeof list) == 0, "compare: refused, the second screen");
    f = call_first(one, PX8_SHOWN, NULL, 0);
    check(f.number == PX8_STORE_SIZE && f.found == 0 && is_record(f.difference, 0, 0, 0, 0), "compare: first refused, null and 0");
}

/* ---- key repeats ---- */

/* A press of 'A' at tick 0, another key's release, its own release at 161. */
static const uint8_t held[] = {5, 0, 1, 0, 0,   0, 0, 0, 'A', 5, 0, 2, 0, 130,
                               0, 0, 0, 'B', 5, 0, 2, 0, 161, 0, 0, 0, 'A'};

static void check_repeats(px8_settings settings, size_t length, size_t room, uint8_t number,
                          px8_size count, const char *what)
{
    px8_repeats r;
    fill_desk();
    r = call_repeats(settings, held, length, at.printer, room);
    check(r.number == number && r.count == count &&
              memcmp(at.printer + PX8_CODE * count, copy.printer + PX8_CODE * count,
                     ROOM - PX8_CODE * count) == 0 &&
              guards_stay(),
          what);
}

static void repeats(void)
{
    static const uint8_t codes[] = {0, 0, 0, 0, 'A', 128, 0, 0, 0, 'A', 144, 0, 0, 0, 'A', 160, 0, 0, 0, 'A'};
    static uint8_t long_trace[PX8_TRACE_MOST + 1];
    px8_settings settings = open_desk().settings;
    px8_settings unsound = settings;
    unsound.keys.interval = 0;
    check_repeats(settings, 27, sizeof codes, PX8_SERVED, 4, "repeats: served");
    check(memcmp(at.printer, codes, sizeof codes) == 0, "repeats: codes");
    check_repeats(settings, 27, sizeof codes - 1, PX8_OUTPUT_TOO_SMALL, 0, "repeats: too small");
    check_repeats(settings, 26, ROOM, PX8_CUT_RECORD, 0, "repeats: cut");
    check_repeats(unsound, 26, ROOM, PX8_UNSOUND, 0, "repeats: not sound");
    check_repeats(settings, 9, ROOM, PX8_SERVED, 1, "repeats: a press alone");
    settings.keys.repeat = 0;
    check_repeats(settings, 27, ROOM, PX8_SERVED, 1, "repeats: off");
    settings.keys.repeat = 1;
    settings.keys.delay = 1;
    settings.keys.interval = 127;
    check_repeats(settings, 27, ROOM, PX8_SERVED, 3, "repeats: delay and interval");
    check(call_repeats(settings, long_trace, sizeof long_trace, NULL, 0).number ==
              PX8_TRACE_TOO_LONG, "repeats: too long");
    check(call_repeats(settings, long_trace, 4, NULL, 0).number == PX8_UNKNOWN_RECORD,
          "repeats: unknown record");
    check(call_repeats(settings, NULL, 0, NULL, 0).number == PX8_SERVED, "repeats: nothing");
}

/* ---- sequences written ---- */

/* Into the printer buffer, which is filled anew: what was written, and nothing else. */
static px8_reached check_written(px8_settings settings, uint8_t second, const uint8_t *parameters,
                                 size_t length, px8_size place, const char *what)
{
    px8_reached r;
    size_t end = place + 2 + length;
    fill_desk();
    r = call_write(settings, second, parameters, length, at.printer, ROOM, place);
    check(r.number == PX8_SERVED && r.parameter == 0 && r.place == end && at.printer[place] == 27 &&
              at.printer[place + 1] == second &&
              (length == 0 || memcmp(at.printer + place + 2, parameters, length) == 0) &&
              memcmp(at.printer, copy.printer, place) == 0 &&
              memcmp(at.printer + end, copy.printer + end, ROOM - end) == 0 && guards_stay(),
          what);
    return r;
}

/* Refused: no byte is altered, and the place stays. */
static void check_unwritten(px8_settings settings, uint8_t second, const uint8_t *parameters,
                            size_t length, size_t room, px8_size place, uint8_t number,
                            uint8_t parameter, const char *what)
{
    px8_reached r;
    fill_desk();
    r = call_write(settings, second, parameters, length, at.printer, room, place);
    check(r.number == number && r.parameter == parameter && r.place == place &&
              memcmp(&at, &copy, sizeof at) == 0,
          what);
}

/* Every sequence of the list, with parameters that the opening takes. */
static void every_sequence(px8_settings settings)
{
    static const uint8_t seconds[] = {42, 50, 51, 80, 84, 89, 123, 125, 150, 151, 160, 161, 162, 163, 164,
                                      165, 176, 177, 212, 213, 215, 246, 37, 67, 148, 149, 209, 211, 214,
                                      240, 241, 242, 247, 61, 144, 145, 210, 199, 243, 244, 245, 224, 198};
    static const uint8_t lengths[] = {22, 11, 3, 1, 4, 1, 1}; /* of the list's lines, in its order */
    static const uint8_t counts[] = {0, 1, 2, 3, 4, 9, 11};
    static uint8_t parameters[PX8_SEQUENCE_MOST];
    size_t row, n, at_second = 0;
    for (row = 0; row < sizeof lengths; row++)
        for (n = 0; n < lengths[row]; n++, at_second++) {
            const uint8_t second = seconds[at_second];
            memset(parameters, 1, sizeof parameters);
            if (second == 67) parameters[0] = 'U';
            if (second == 247) parameters[0] = 2;
            if (second == 61) memset(parameters, 32, 2);
            if (second == 224) parameters[0] = 224;
            check_written(settings, second, parameters, counts[row], at_second, "write: every sequence");
            check_unwritten(settings, second, parameters, (size_t)counts[row] + 1, ROOM, 0, PX8_NOT_LISTED, 0,
                            "write: one parameter too many");
            if (counts[row] > 0 && second != 209)
                check_unwritten(settings, second, parameters, (size_t)counts[row] - 1, ROOM, 0, PX8_CUT, 0,
                                "write: one parameter too few");
        }
    check(at_second == sizeof seconds, "write: the whole list");
}

static void mode_settings(px8_settings settings)
{
    static const uint8_t mode0[] = {0, 24, 24}, mode1[] = {1, 24}, mode2[] = {2, 10, 20, 35}, mode3[] = {3};
    static const uint8_t few[] = {0, 7, 24}, sum[] = {0, 24, 25}, none[] = {4};
    check_written(settings, 208, mode0, sizeof mode0, 0, "write: mode 0");
    check_written(settings, 208, mode1, sizeof mode1, 0, "write: mode 1");
    check_written(settings, 208, mode2, sizeof mode2, 0, "write: mode 2");
    check_written(settings, 208, mode3, sizeof mode3, 0, "write: mode 3");
    check_unwritten(settings, 208, few, 3, ROOM, 0, PX8_OUT_OF_RANGE, 2, "write: too few lines");
    check_unwritten(settings, 208, sum, 3, ROOM, 0, PX8_OUT_OF_RANGE, 3, "write: too many lines together");
    check_unwritten(settings, 208, none, 1, ROOM, 0, PX8_OUT_OF_RANGE, 1, "write: no mode");
    check_unwritten(settings, 208, mode2, 3, ROOM, 0, PX8_CUT, 0, "write: mode 2 cut");
    check_unwritten(settings, 208, NULL, 0, ROOM, 0, PX8_CUT, 0, "write: no mode byte");
}

/* Places and space, and which number goes before another. */
static void write_order(px8_settings settings)
{
    static const uint8_t home[] = {32, 32}, below[] = {56, 32}, right[] = {55, 112};
    px8_settings unsound = settings;
    unsound.step = 0;
    check_unwritten(settings, 61, below, 2, ROOM, 3, PX8_OUT_OF_RANGE, 1, "write: a line too far");
    check_unwritten(settings, 61, right, 2, ROOM, 3, PX8_OUT_OF_RANGE, 2, "write: a column too far");
    check_unwritten(settings, 1, home, 2, ROOM, 3, PX8_NOT_LISTED, 0, "write: not listed");
    check_unwritten(settings, 61, home, 2, 8, 5, PX8_NO_SPACE, 0, "write: a byte too few");
    check_unwritten(settings, 42, NULL, 0, 4, 4, PX8_NO_SPACE, 0, "write: at the end");
    check_unwritten(settings, 42, NULL, 0, 4, 5, PX8_NO_SPACE, 0, "write: past the end");
    check_unwritten(settings, 42, NULL, 0, ROOM, (px8_size)-1, PX8_NO_SPACE, 0, "write: the greatest place");
    check_unwritten(settings, 42, NULL, 0, ROOM, (px8_size)-2, PX8_NO_SPACE, 0, "write: no sum that wraps");
    check_unwritten(settings, 61, below, 2, 0, 9, PX8_OUT_OF_RANGE, 1, "write: 11 before 22");
    check_unwritten(settings, 61, below, 1, 0, 9, PX8_CUT, 0, "write: 12 before 22");
    check_unwritten(settings, 1, NULL, 0, 0, 9, PX8_NOT_LISTED, 0, "write: 10 before 22");
    check_unwritten(unsound, 61, below, 2, 0, 9, PX8_UNSOUND, 0, "write: 3 before 11 and 22");
    check(call_write(settings, 42, NULL, 0, NULL, 0, 0).number == PX8_NO_SPACE, "write: no buffer");
    check(call_write(settings, 42, NULL, 0, at.printer, 4, 2).place == 4, "write: just enough");
}

static void written(void)
{
    static const uint8_t wild[PX8_SEQUENCE_MOST] = {255, 255, 255, 255, 255, 255, 255, 255, 255, 255, 255};
    static const uint8_t escape[] = {27}, zero[] = {0}, waits[] = {27, 61}, mode3[] = {27, 208, 3};
    static const uint8_t both[] = {27, 37, 27, 27, 42, 27, 209, 0};
    px8_settings settings = open_desk().settings;
    px8_settings drawing, stream;
    px8_reached r;
    px8_answer a;
    every_sequence(settings);
    mode_settings(settings);
    write_order(settings);
    r = call_write(settings, 37, escape, 1, at.printer, ROOM, 0);
    r = call_write(settings, 42, NULL, 0, at.printer, ROOM, r.place);
    r = call_write(settings, 209, NULL, 0, at.printer, ROOM, r.place);
    check(r.place == sizeof both && memcmp(at.printer, both, sizeof both) == 0, "write: one behind another");
    a = call_message(settings, both, sizeof both, STORES, NULL, 0).answer;
    check(a.accepted == 3 && a.refused == 0, "write: read back");
    check_written(settings, 209, zero, 1, 9, "write: 209 with its byte");
    check_written(settings, 198, wild, 11, 0, "write: 198 is not judged in mode 0");
    check_written(settings, 199, wild, 4, 0, "write: nor is 199");
    stream = send_piece(settings, waits, sizeof waits).settings;
    check_written(stream, 42, NULL, 0, 0, "write: waiting bytes aside");
    stream.held = 1;
    check_unwritten(stream, 42, NULL, 0, ROOM, 0, PX8_UNSOUND, 0, "write: what waits is not sound");
    fill_desk();
    settings = open_desk().settings;
    drawing = send_message(settings, mode3, sizeof mode3).settings;
    check_written(drawing, 80, NULL, 0, 0, "write: a copy of dots has room");
    check_written(drawing, 148, wild, 1, 0, "write: 148 is not judged in mode 3");
    check_unwritten(drawing, 199, wild, 4, ROOM, 0, PX8_OUT_OF_RANGE, 1, "write: 199 is");
}

int main(void)
{
    opening();
    screens();
    mode_3_fields();
    switches();
    keys();
    patterns();
    waiting();
    texts();
    marks();
    answer();
    parameters();
    stream_escapes();
    stream_selects();
    stream_offsets();
    stream_copies();
    stream_messages();
    stream_paints();
    key_line();
    key_line_in_modes();
    key_line_windows();
    long_lines();
    late_wrap();
    packs();
    empty_packs();
    short_messages();
    wide_items();
    short_as_message();
    stale_screens();
    dots();
    bad_dots();
    manual_line();
    layer();
    printed();
    refused_openings();
    refused_messages();
    unsound_lines();
    limit();
    refused_streams();
    refused_shorts();
    refused_packs();
    refused_key_texts();
    unsound_key_lines();
    unsound_marks();
    unsound_late();
    unsound_mode_3();
    empty_buffers();
    compared();
    repeats();
    written();
    printf("%d passed, %d failed\n", passed, failed);
    return failed != 0;
}
