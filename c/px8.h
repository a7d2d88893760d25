/*
 * px8.h: the terminal of a weighing bay, as a board's firmware links it.
 *
 * The library takes the byte stream that programs write for the Epson PX-8
 * and keeps two virtual screens, a shown screen of 8 rows by 80, in mode 3 a
 * picture of 480 by 64 dots beside one text screen and, on request, a printed
 * copy. There are these calls:
 *
 *   px8_opening   makes the stores ready and gives the opening settings
 *   px8_message   reads one message and brings everything up to date
 *   px8_message_short  the same for the few bytes a scale sends: it paints less
 *   px8_piece     the same for a piece of a stream, cut at any byte
 *   px8_closing   ends the stream
 *   px8_pack      reads many messages that came as one pack
 *   px8_key_text  sets the text of a key for the key line
 *   px8_printed   how many bytes of a printer buffer to send on
 *   px8_key_repeats  the codes that a trace of key presses sends
 *   px8_write     writes a sequence into an outgoing buffer
 *
 * and, beside them, two that lay one shown screen beside another:
 *
 *   px8_compare            a record for each place that differs
 *   px8_first_difference   only the first of them
 *
 * Behind them stand inline functions over these calls alone: px8_bay, settings and
 * stores in one structure; a px8_writer with every sequence by its name; px8_text, the
 * numbers in words.
 *
 * What the caller keeps. The library allocates nothing, keeps no state of its
 * own and does no input or output. Settings, the four stores (cells, layer, shown
 * screen, dots), the printer buffer and the answer are the caller's memory, lent
 * for the time of one call: every call takes pointers and numbers and returns at
 * most a number. A call's results depend on its arguments and on the lent bytes
 * alone, so several terminals, threads or interrupt levels can use the library at
 * once if each has its own settings and stores. What an answer held before is not
 * read, nor are the settings by px8_opening.
 *
 * A list of calls. Open once; then lend each message, short message, piece, closing
 * and pack the settings and the four stores just as the call before left them; a key
 * text, which has no store, the settings. Nobody else should write them meanwhile.
 * Settings, cells, layer and dots can be saved and
 * taken up again later without an opening, in the middle of a stream too: they are
 * all that stands, and the next message, piece, closing or pack with a
 * record that is served paints the shown screen from them. A short message needs the
 * shown screen too: it paints only what may have changed.
 *
 * Messages or a stream. A message is read by itself: it must not end inside a
 * sequence. A line whose bytes come in whatever parts the port hands over is a
 * stream: give each part to px8_piece and say the end by px8_closing. However
 * it is cut, it comes to the same as if it had come in one. Many messages that an
 * office sends together are a pack, for px8_pack.
 *
 * Linking. libpx8.a is made for x86-64 and its C calling convention. Of the
 * C library it needs at most memcpy, memmove, memset, memcmp and bcmp. Its symbols
 * carry the number of the layout below, so that a program that was compiled with a
 * header of another layout does not link.
 *
 * Not checked, since C cannot tell: a pointer to settings or to an answer that is
 * null; a pointer that is null or dangling although its length is not 0; a length
 * larger than the buffer; settings, answer, buffers, message, piece, pack, text,
 * trace or parameters of one call that overlap each other (only what is read alone
 * may: the two screens that are compared). Each of these is undefined behaviour.
 * Every other input is answered, by what it asks for or by a number. A null
 * pointer with length 0 is an empty buffer.
 *
 * C99 or newer, C++98 or newer.
 */
#ifndef PX8_H
#define PX8_H

#include <stddef.h>
#include <stdint.h>

#ifdef __cplusplus
extern "C" {
#endif

/* ---- version and layout ---- */

#define PX8_VERSION "2.0.0"
#define PX8_LAYOUT 2 /* another number where a structure or a call is laid out otherwise */

/* The symbols in the archive: the call's name and the layout's number. */
#define px8_opening px8_opening_l2
#define px8_message px8_message_l2
#define px8_message_short px8_message_short_l2
#define px8_piece px8_piece_l2
#define px8_closing px8_closing_l2
#define px8_pack px8_pack_l2
#define px8_key_text px8_key_text_l2
#define px8_printed px8_printed_l2
#define px8_compare px8_compare_l2
#define px8_first_difference px8_first_difference_l2
#define px8_key_repeats px8_key_repeats_l2
#define px8_write px8_write_l2

/* Lengths, counts and places: 64 bits wide on every processor. */
typedef uint64_t px8_size;

/* ---- sizes ---- */

#define PX8_ROWS 8            /* rows of the shown screen */
#define PX8_WIDTH 80          /* places in a row */
#define PX8_CELLS 3840        /* bytes of the cells */
#define PX8_PLACES 640        /* places of the shown screen, PX8_ROWS * PX8_WIDTH */
#define PX8_LAYER 1280        /* bytes of the layer: 640 marks, then 640 codes */
#define PX8_SHOWN 640         /* bytes of the shown screen */
#define PX8_DOTS 3840         /* bytes of the dots, PX8_DOT_ROWS * PX8_DOT_ROW */
#define PX8_DOT_ROW 60        /* bytes of a row of dots */
#define PX8_DOT_ROWS 64       /* rows of dots, from 0 */
#define PX8_DOT_COLUMNS 480   /* dots in a row, from 0 */
#define PX8_MESSAGE_MOST 4096 /* the longest message that is taken, and the longest piece */
#define PX8_COPY_ROW 82       /* bytes of a row of a printed copy: 80 codes, 13, 10 */
#define PX8_COPY 656          /* bytes of a printed copy, PX8_ROWS * PX8_COPY_ROW; in
                               * mode 3 it has PX8_DOTS */
#define PX8_PATTERNS 248      /* bytes of the patterns: 31 codes of 8 rows */
#define PX8_PATTERN_ROWS 8    /* rows of one pattern */
#define PX8_PATTERN_FIRST 224 /* the first code with a pattern; the last is 254 */
#define PX8_BLANK 32          /* what a blank cell holds */
#define PX8_WAITING_MOST 12   /* bytes of a stream that can wait */
#define PX8_COUNT_MOST 1000000000 /* the most bytes of a stream */
#define PX8_KEYS 10           /* keys with a text in the key line */
#define PX8_KEY_TEXT 8        /* codes of a key's text */
#define PX8_TEXTS 80          /* bytes of the key texts, PX8_KEYS * PX8_KEY_TEXT */
#define PX8_LINES_MOST 48     /* lines of a screen at most */
#define PX8_PACK_MOST 60000   /* the longest pack that is taken */
#define PX8_RECORD_HEAD 4     /* bytes of a record before its body: the body's length and
                               * the kind, two bytes each, the low one first */
#define PX8_TRACE_MOST 60000  /* the longest trace that is taken */
#define PX8_STROKE 9          /* bytes of a record of a trace */
#define PX8_CODE 5            /* bytes of a code that a trace sends */
#define PX8_SEQUENCE_MOST 13  /* bytes of the longest sequence, ESC 198 */

/* The bit of line 1 to 48 in its screen's marks, and whether it is set there. */
#define PX8_MARK(line) ((uint64_t)1 << ((line) - 1))
#define PX8_MARK_AT(marks, line) (((marks) & PX8_MARK(line)) != 0)

/* Byte of row 1 to 8, column 1 to 80 in the shown screen and in the marks. */
#define PX8_AT(row, column) (PX8_WIDTH * ((row) - 1) + (column) - 1)

/* Byte of a dot, vertical 0 to 63, horizontal 0 to 479, in the dots, and the weight
 * of its bit there. */
#define PX8_DOT_AT(vertical, horizontal) (PX8_DOT_ROW * (vertical) + (horizontal) / 8)
#define PX8_DOT_WEIGHT(horizontal) (128 >> ((horizontal) % 8))

/* ---- numbers ---- */

/* The number of a call: 0, or why the whole call was refused; px8_text says each in
 * words. They are tried in this order: 1, 23 by px8_opening, 1, 2, 3, 16 by px8_message
 * and px8_message_short, 1, 2, 3, 15 by px8_piece, 1, 3 by px8_closing, 1, 19, 20, 21, 2,
 * 3, 16 by px8_pack, 3, 17 by px8_key_text. */
#define PX8_SERVED 0     /* the call was served */
#define PX8_STORE_SIZE 1 /* cells, layer, shown screen or dots are not of their size */
#define PX8_TOO_LONG 2   /* the message, the piece or a message of the pack is longer
                          * than PX8_MESSAGE_MOST */
#define PX8_UNSOUND 3    /* a setting is outside its range (see px8_settings) */
#define PX8_STREAM_TOO_LONG 15 /* the piece would take the count past PX8_COUNT_MOST */
#define PX8_BYTES_WAIT 16 /* a message or pack, even an empty one, while bytes of a
                           * stream wait */
#define PX8_BAD_KEY_TEXT 17 /* the key is not 1 to PX8_KEYS, or the text not of
                             * PX8_KEY_TEXT bytes */

#define PX8_BAD_RULE 23  /* the opening's rule is not 1 or 2 */

/* px8_compare and px8_first_difference know 0 and 1 (a screen is not of its
 * size), and px8_compare, after 1: */
#define PX8_LIST_SHORT 18 /* more places differ than the list has records */

/* Of a pack and of a trace, each tried over the whole of it before the next: */
#define PX8_PACK_TOO_LONG 19   /* the pack is longer than PX8_PACK_MOST */
#define PX8_TRACE_TOO_LONG 19  /* the trace is longer than PX8_TRACE_MOST */
#define PX8_CUT_RECORD 20      /* a record's head or body runs past the end */
#define PX8_UNKNOWN_RECORD 21  /* of a pack a kind that is not 1; of a trace one that is not
                                * 1 or 2, or a body not of 5 bytes */

/* The number of px8_key_repeats: 0, 3, 19, 20, 21, or one of these, tried in this
 * order. */
#define PX8_TICK_FALLS 24      /* a record's tick is below that of the one before */
#define PX8_OUTPUT_TOO_SMALL 25 /* the codes need more than the output has */

/* The number of px8_write: 0, 3, then 10, 12 or 11 as below, or, last: */
#define PX8_NO_SPACE 22        /* the buffer has fewer bytes from the place on than the
                                * sequence needs, or the place is past its end */

/* The number of the first refused sequence of a call that was served. A
 * refused sequence is skipped, and changes nothing but the counts and the
 * first refusal; in a stream its bytes are counted and wait no more. Sequences
 * are checked in the order 10, 12, 11, 13. With 11 goes the first bad
 * parameter, see "which parameter" below. */
#define PX8_NOT_LISTED 10   /* the byte after ESC is not in the list; 2 bytes skipped */
#define PX8_OUT_OF_RANGE 11 /* a parameter is outside its range, or its sum with the
                             * one before is too large; whole sequence skipped */
#define PX8_CUT 12          /* the message ends inside a sequence, or the stream is
                             * closed inside one; the rest skipped */
#define PX8_NO_ROOM 13      /* ESC 80 with less than PX8_COPY of printer room left; in
                             * mode 3 with less than PX8_DOTS */
/* 14 is no number any more: mode 3 is served. */

/* ---- settings ---- */

/* What each of the two screens has of its own. */
typedef struct px8_place {
    uint8_t line;   /* cursor line, 1 to the screen's lines */
    uint8_t column; /* cursor column, 1 to the screen's columns */
    uint8_t top;    /* the window's first line, 1 to lines - H + 1 */
    uint8_t late;   /* 1 the cursor is late (see "late wrap" below): only in the last
                     * column and only by rule 2; else 0 */
} px8_place;

/* The keyboard's settings. They are stored for the board to act on; of what the
 * library does number 3 depends on them, by their ranges, and px8_key_repeats,
 * by repeat, delay and interval. */
typedef struct px8_keys {
    uint8_t leds[3];    /* INS, CAPS, NUM; each 0 off, 1 on (ESC 160 to 165) */
    uint8_t charset;    /* one of the letters U F G E D W I S N (ESC 67) */
    uint8_t strings;    /* function keys send 1 strings, 0 codes (ESC 177, 176) */
    uint8_t repeat;     /* key repeat, 0 off, 1 on (ESC 240) */
    uint8_t delay;      /* its start time, 1 to 127, in 1/64 second (ESC 241) */
    uint8_t interval;   /* its interval, 1 to 127, in 1/256 second (ESC 242) */
    uint8_t shift;      /* 0, 2, 4, 6, 16, 18, 32, 34, 64 or 66 (ESC 247) */
    uint8_t arrows[12]; /* any bytes: four codes of the arrow keys (ESC 243), four
                         * with SHIFT (244), four with CTRL (245), as sent */
} px8_keys;

/* The settings. The measures hang on the mode; m is mode 2's own number, 1 to
 * 78. H is the window's height, which hangs on the key display too:
 *
 *   mode  lines1 and lines2                      columns1  columns2  H: display 1, 0
 *   0     each at least 8, together at most 48   80        80           8        7
 *   1     equal, 16 to 48                        39        39           16       14
 *   2     equal, 8 to 48                         m         79 - m       8        7
 *   3     8 and 0                                80        0            8
 *
 * In mode 3 there is no screen 2: selected is 0, places[1] is 1, 1, 1, not
 * late; display is 1 and kind 3.
 *
 * Settings are sound when every field lies in its range. Two things are judged
 * that the customer's papers do not name, so that settings that mean the same
 * are the same bytes: the bytes of `waiting` behind the first `held`, and the
 * marks from a screen's last line on, are 0. What the calls leave is always
 * sound, or else exactly what was given to a refused call; so only a caller that
 * makes or alters settings can meet number 3.
 *
 * held, waiting and count are the stream's. No sequence changes them, and a
 * message and a pack leave them. Only px8_key_text changes the texts, only px8_opening the
 * rule. Behind `texts` there are four padding bytes of no fixed value: compare settings
 * field by field. */
typedef struct px8_settings {
    uint64_t marks[2];   /* of screen 1 and of screen 2: bit 0 for line 1 and so on, set
                          * where the line runs on into the next (see "long lines"
                          * below), by PX8_MARK_AT. From a screen's last line on no bit
                          * is set */
    uint8_t mode;        /* 0 to 3 (ESC 208) */
    uint8_t lines1;      /* lines of screen 1, by the table (ESC 208) */
    uint8_t lines2;      /* lines of screen 2 */
    uint8_t columns1;    /* columns of screen 1, by the table (ESC 208) */
    uint8_t columns2;    /* columns of screen 2 */
    uint8_t boundary;    /* any byte: mode 2 shows it in column m + 1 (ESC 208) */
    uint8_t selected;    /* 0 screen 1, 1 screen 2 (ESC 209) */
    px8_place places[2]; /* of screen 1 and of screen 2 */
    uint8_t tracking;    /* 1 the window follows the cursor, 0 not. (ESC 149 is
                          * sent the other way round: 0 on, 1 off.) */
    uint8_t step;        /* lines that ESC 150 and 151 move by, 1 to H (ESC 148) */
    uint8_t secret;      /* 1 every place is shown blank, 0 not (ESC 123, 125) */
    uint8_t cursor;      /* 1 cursor on, 0 off (ESC 51, 50); stored only */
    uint8_t display;     /* key display as sent (ESC 211): 0 row 8 is the key line,
                          * 1 it shows the screens as the other rows do */
    uint8_t kind;        /* type of the cursor, 0 to 3 (ESC 214); stored only */
    px8_keys keys;
    uint8_t rule;        /* 1 or 2, as px8_opening was given it: when printing in the
                          * last column goes to the next line (see "late wrap") */
    uint8_t patterns[PX8_PATTERNS]; /* any bytes: code c, 224 to 254, has the eight
                          * from 8 * (c - 224) on (ESC 224); stored only */
    uint8_t held;        /* how many bytes wait, 0 to 12, at most `count` */
    uint8_t waiting[PX8_WAITING_MOST]; /* the first `held` bytes are an unfinished
                          * sequence: ESC, and fewer bytes than it has in all (nothing
                          * else of it is judged yet; 27, 209 is one too); the others
                          * are 0 */
    uint32_t count;      /* bytes of the stream so far, 0 to PX8_COUNT_MOST */
    uint8_t texts[PX8_TEXTS]; /* any bytes: key k, 1 to 10, has the eight from
                          * 8 * (k - 1) on, which stand in columns 8k-7 to 8k of row 8 */
} px8_settings;

/*
 * The opening settings: mode 0, 24 and 24 lines, 80 and 80 columns, boundary
 * 32, screen 1 selected (0), both places 1, 1, 1, not late, tracking 1, step 1, secret
 * 0, cursor 1, display 1, kind 0; LEDs 0, charset U, strings 1, repeat 1,
 * delay 32, interval 16, shift 0, arrows 0; patterns 0; held 0, waiting 0,
 * count 0; texts 32; marks 0; the rule as given.
 */

/* ---- stores ----
 *
 * cells   Screen 1 from byte 0, line after line; screen 2 right after it, at
 *         lines1 * columns1. What is left over belongs to no screen, in mode 3
 *         all from byte 640 on. Any bytes are accepted.
 * layer   Marks over the shown screen (ESC 210): byte PX8_AT(row, column) is 0
 *         where there is no mark, else the code at PX8_PLACES further on is
 *         shown in place of the cell's. Any bytes are accepted.
 * shown   What the display shows: byte PX8_AT(row, column). Every message, piece
 *         and closing that is served paints all 640, an empty one too, and every
 *         pack with a record; a short message paints row 8 and what else may have
 *         changed. The library never reads it.
 * dots    The picture of mode 3, row after row of PX8_DOT_ROW bytes, the leftmost
 *         dot in the highest bit: byte PX8_DOT_AT(vertical, horizontal) has it by
 *         PX8_DOT_WEIGHT(horizontal). Only ESC 198 and 199 in mode 3 draw; ESC 42
 *         and code 12 in mode 3, an accepted ESC 208 and px8_opening clear it.
 *         Nothing else in any mode touches it, and any bytes are accepted. Behind
 *         the line "P4 480 64" it is a portable bitmap.
 */

/* ---- what a message holds ----
 *
 * And a stream, all its pieces together.
 *
 * Bytes 32 to 255 print at the cursor, which moves right, from the last column
 * to the next line (by rule 2 late); going below the last line lifts the screen by
 * a line.
 * Codes: 8 one column back, 10 one line down, 13 to column 1, 12 as ESC 42;
 * other codes below 32 do nothing. ESC (27) begins a sequence. All act on the
 * selected screen, of R lines; numbers outside the ranges are refusal 11.
 *
 *   ESC 37 n            prints n, 0 to 255
 *   ESC 42              blanks the screen, cursor home, top 1, no marks, no line runs
 *                         on; in mode 3 no dot either
 *   ESC 50, 51          cursor off, on
 *   ESC 61 m+31 n+31    cursor to line m, 1 to R, and column n, 1 to columns
 *   ESC 67 c            character set, one of U F G E D W I S N
 *   ESC 80              printed copy
 *   ESC 84, 89          blanks from the cursor to the end of its logical line, of
 *                         the screen
 *   ESC 123, 125        secret on, off
 *   ESC 144 a m         lines a+1 to a+m move up by one; a 0 to R-1, m 1 to R,
 *   ESC 145 a m           a+m at most R; or down by one
 *   ESC 148 n           step, 1 to H
 *   ESC 149 n           tracking: 0 on, 1 off
 *   ESC 150, 151        window up, down by the step, held inside the screen
 *   ESC 160 to 165      INS on, off, CAPS on, off, NUM on, off
 *   ESC 176, 177        key strings off, on
 *   ESC 198 h0 h0 v0 v0 h1 h1 v1 v1 m m f
 *                       a line of dots, see "mode 3" below
 *   ESC 199 f v h h     sets (f 1) or clears (0) a dot; in modes 0 to 2 both do
 *                         nothing, and their 11 and 4 bytes are not judged
 *   ESC 208 0 n1 n2     mode 0, ESC 208 1 n1 mode 1, ESC 208 2 n1 m p mode 2 with
 *                         boundary p: blanks all cells, no marks, places 1, 1, 1,
 *                         screen 1 selected, step 1, tracking on, no line runs on,
 *                         no cursor late, no dots
 *   ESC 208 3           mode 3: the same, and cursor type 3, key display 1
 *   ESC 209 n           selects screen 1 (0) or 2 (1)
 *   ESC 210 x y p       marks row x, 1 to 8, column y, 1 to 80, with code p
 *   ESC 211 n           key display: 0 row 8 is the key line, 1 not
 *   ESC 212, 213, 215   window to the top, to the end, to the cursor
 *   ESC 214 n           cursor type, 0 to 3
 *   ESC 224 c r1 .. r8  pattern of code c, 224 to 254
 *   ESC 240 n           key repeat, 0 or 1
 *   ESC 241 n, 242 n    its start time and interval, 1 to 127
 *   ESC 243 to 245      four arrow codes each: plain, SHIFT, CTRL
 *   ESC 246             no effect
 *   ESC 247 n           shift state, one of px8_keys.shift
 *
 * Printing takes away the mark over the place that shows its cell, if one does.
 * All marks go with an accepted 42, 84, 89, 144, 145, 208, 209, with a 211 that
 * changes the display, with code 12, with a lifted screen and with a window that
 * moves. While tracking is on, a window that misses the cursor's line after
 * printing, codes 8, 10, 13 or ESC 61 moves.
 *
 * Mode 3. One text screen of 8 lines by 80, shown whole under the marks, and beside
 * it the dots, which the library draws and prints but does not mix with the text.
 * ESC 148 to 151, 209 and 211 to 215 do nothing there and take any parameter; all
 * others act as ever. ESC 199 f v h h: function 0 or 1, vertical v 0 to 63,
 * horizontal h 0 to 479. ESC 198 draws from h0, v0 to h1, v1, of the same ranges,
 * each number in two bytes, the high one first. Of its N + 1 dots, N the longer
 * distance (the horizontal one, if they are equal) and d the shorter, dot k, 0 to N,
 * lies k along the longer and floor((2kd + N) / 2N) along the other, from the start
 * towards the end. It acts if bit k mod 16 of the mask is 1, counted from the highest
 * bit of its first byte. Function f: 1 clears, 2 sets, 3 inverts. A sequence that is
 * refused draws nothing. Secret hides the text and not the dots. ESC 80 appends the
 * PX8_DOTS bytes as they are.
 *
 * Late wrap. By rule 1 a byte printed in the last column goes to the next line at
 * once. By rule 2 the cursor stays there and is late, as its place says: the next
 * printed character (ESC 37's too) first goes to the next line, lifts the screen there
 * if need be and marks the line left. By codes 8, 10, 12, 13 and an accepted 42 or 61
 * it is late no more, 61 also where it comes to the last column again; 8 then goes one
 * column back and 10 down in the last column. By an accepted 208 neither is, and the
 * rule is kept. Everything else leaves it late: 84 and 89, which blank the byte just
 * stored; 144, 145, windows that move, 209, refused sequences.
 *
 * Long lines. By rule 1 printing in the last column marks the line that it leaves as
 * one that runs on, by rule 2 the step that comes late; nothing else does: no code,
 * no cell. A logical line is a line that runs on, those after it that do, and the
 * first that does not. ESC 84 blanks from the cursor through the first line at or
 * after its own that does not run on, and ends these marks; ESC 89 those of the
 * cursor's line and of all below. The mark of the line above the cursor stays. A
 * lifted screen carries its marks along, and so do 144 and 145; after these the line
 * above the region, its blank line and its last two lines (or its only one) do not
 * run on. ESC 42 and code 12 end the marks of the screen, 208 of both; printing over
 * a line, codes 8, 10, 13, 61 and 209 leave them. A screen's last line never runs
 * on. (The marks of the layer, which "marks" are elsewhere, have nothing to do with
 * them.)
 *
 * The key line. With display 0 the screens have rows 1 to 7 alone: a window is 7
 * lines high, in mode 1 14, whose right half begins seven lines after the left. In
 * row 8 stand the ten key texts, in every column, those too that are blank or the
 * boundary above; marks cover them, and secret blanks them. A 211 that changes the
 * display lowers the tops of both screens and the step to their new limits where
 * they are above. It moves no cursor and does not track, so that the cursor's line
 * may be left below the window until the next thing that does. The least numbers of
 * lines stay 8 and 16.
 */

/* ---- which parameter ----
 *
 * Refusal 11 names the first parameter that is outside its range. Parameters are
 * counted from 1, the byte after the sequence's second one, so mode bytes are
 * parameter 1. Where only the sum of two is too large it is the later one.
 *
 *   ESC 61 m+31 n+31    1: 32 to R+31       2: 32 to columns+31
 *   ESC 144, 145 a m    1: 0 to R-1         2: 1 to R, and a+m at most R
 *   ESC 208 k ..        1: 0 to 3
 *   ESC 208 0 n1 n2     2: 8 or more        3: 8 or more, and n1+n2 at most 48
 *   ESC 208 1 n1        2: 16 to 48
 *   ESC 208 2 n1 m p    2: 8 to 48          3: 1 to 78
 *   ESC 210 x y p       1: 1 to 8           2: 1 to 80
 *   ESC 67, 148, 149, 209, 211, 214, 224, 240, 241, 242, 247    1: as listed above
 *
 * and in mode 3, where 148, 149, 209, 211 and 214 are not judged, a number of two
 * bytes being named by its low one:
 *
 *   ESC 198             2, 6: horizontal    4, 8: vertical    11: function 1 to 3
 *   ESC 199             1: function 0, 1    2: vertical       4: horizontal
 *
 * No other parameter is judged.
 */

/* ---- results ---- */

/* The answer to a message, short or not, a piece, a closing, a pack or a key text
 * (which takes, reads and prints nothing). Between its fields there are padding bytes of no fixed
 * value: compare answers field by field. */
typedef struct px8_answer {
    uint8_t number;    /* PX8_SERVED, or why the whole call was refused: 1, 2, 3, 15,
                        * 16, 17, 19, 20, 21; sequences may be refused in a call that
                        * was served */
    uint32_t taken;    /* bytes taken, if served: all of the message or piece, those
                        * too that wait; none by closing; of a pack the bodies */
    uint32_t accepted; /* sequences accepted (printed bytes and codes not counted) */
    uint32_t refused;  /* sequences refused */
    uint8_t first;     /* number of the first refusal, 10 to 13; 0 if there is none */
    uint8_t parameter; /* its first bad parameter, from 1, if it is 11; else 0 */
    uint32_t offset;   /* where its ESC stands, counted from 0: in the message, also of
                        * a pack, or for a piece and a closing in the stream; 0 if
                        * there is none */
    px8_size printed;  /* bytes of printed copies: PX8_COPY each, in mode 3 PX8_DOTS */
} px8_answer;

/* The answer to a pack; there are padding bytes after `record`. */
typedef struct px8_pack_answer {
    px8_answer answer; /* the counts of all messages together; `offset` is in the body
                        * of the record below */
    uint32_t record;   /* the record of the first refusal, from 1; 0 if there is none */
} px8_pack_answer;

/* A place where two shown screens differ. */
typedef struct px8_difference {
    uint8_t row;    /* 1 to 8 */
    uint8_t column; /* 1 to 80 */
    uint8_t first;  /* the first screen's code there */
    uint8_t second; /* the second screen's; never the same */
} px8_difference;

/* The answer of px8_compare; there are padding bytes after `number`. */
typedef struct px8_compared {
    uint8_t number; /* PX8_SERVED, PX8_STORE_SIZE or PX8_LIST_SHORT */
    px8_size count; /* records written, 0 to 640; 0 if refused */
} px8_compared;

/* The answer of px8_first_difference. */
typedef struct px8_first {
    uint8_t number;            /* PX8_SERVED or PX8_STORE_SIZE */
    uint8_t found;             /* 1 if the screens differ, else 0; 0 if refused */
    px8_difference difference; /* the first; four zeros if found is 0 */
} px8_first;

/* The answer of px8_key_repeats; there are padding bytes after `number`. */
typedef struct px8_repeats {
    uint8_t number; /* PX8_SERVED, or why the call was refused: 3, 19, 20, 21, 24, 25 */
    px8_size count; /* how many codes were sent and written; 0 if refused */
} px8_repeats;

/* The answer of px8_write; there are padding bytes after `parameter`. */
typedef struct px8_reached {
    px8_size place;    /* behind what was written; if refused, the place given */
    uint8_t number;    /* PX8_SERVED, or why nothing was written: 3, 10, 11, 12, 22 */
    uint8_t parameter; /* the first bad parameter, from 1, if it is 11; else 0 */
} px8_reached;

/* ---- calls ---- */

/*
 * Opens a terminal by rule 1 or 2: blanks (32) all cells and the shown screen,
 * zeroes the layer and the dots, gives the opening settings, and returns 0. By
 * rule 1 a byte in the last column goes to the next line at once, by rule 2 late (see
 * "late wrap" above); the settings carry the rule from then on.
 *
 * Refused with 1 (PX8_STORE_SIZE) unless the lengths are PX8_CELLS, PX8_LAYER,
 * PX8_SHOWN and PX8_DOTS, else with 23 (PX8_BAD_RULE) for any other rule. A refused
 * opening alters no byte of the stores; the settings that it gives are the opening
 * settings by rule 1 all the same.
 */
uint8_t px8_opening(px8_settings *settings, px8_size rule,
                    uint8_t *cells, px8_size cells_length,
                    uint8_t *layer, px8_size layer_length,
                    uint8_t *shown, px8_size shown_length,
                    uint8_t *dots, px8_size dots_length);

/*
 * Reads a message of up to PX8_MESSAGE_MOST bytes (it may be empty), brings
 * cells, layer, dots and settings up to date and paints the shown screen.
 *
 * Printed copies (ESC 80) are written to the printer buffer one behind the
 * other from its start, PX8_COPY bytes each: the picture at that moment, 8
 * rows of 80 with codes below 32 as 32, each followed by 13, 10; in mode 3 the
 * PX8_DOTS bytes of the dots. No other byte of the buffer is written, and none is
 * read. It may be of any length, and another one each time.
 *
 * Each message is read by itself: a sequence does not run on into the next
 * one (number 12), save that 27, 209 at the very end means 27, 209, 0. A line
 * that may be cut inside a sequence is for px8_piece.
 *
 * A message that is served (answer.number 0) may hold refused sequences. Each is
 * skipped alone and what follows is obeyed: after a refused cursor placing the
 * text is printed at the old cursor. Look at answer.refused too.
 *
 * A refused call (answer.number 1, 2, 3 or 16) changes nothing: it leaves the
 * settings as they were, all counts 0, first, parameter, offset and printed 0,
 * and no byte of the stores or of the printer buffer is altered, the shown
 * screen included. The message itself is never altered. 16 says that bytes of a
 * stream wait: go on with the stream or close it first. While a stream is open
 * and none waits a message is served, and leaves the stream's count.
 */
void px8_message(px8_settings *settings, px8_answer *answer,
                 const uint8_t *message, px8_size message_length,
                 uint8_t *cells, px8_size cells_length,
                 uint8_t *layer, px8_size layer_length,
                 uint8_t *shown, px8_size shown_length,
                 uint8_t *dots, px8_size dots_length,
                 uint8_t *printer, px8_size printer_length);

/*
 * Reads a message as px8_message does, answer, settings, cells, layer, dots, printed
 * copies and refusals alike, but paints less. It is made for a few printed bytes that
 * stay in the cursor's line, for which it is the quicker call; where control codes or
 * sequences come it may take a little longer than px8_message. Row 8 it always paints
 * whole. Of rows 1 to 7 it paints the places that show the
 * cells in which characters (ESC 37's too) were printed, or all 560 where more may have
 * changed: where an item lifts the selected screen or moves its window, also where the
 * window comes back, and with code 12 and each accepted ESC 42, 84, 89, 123, 125, 144,
 * 145, 150, 151, 208 to 213 and 215, whether or not it changes anything. A place that is
 * not painted is left as it was given, and the picture there is what it was before. So
 * from a shown screen that is painted in rows 1 to 7 (by a message, a piece, a closing,
 * a pack with a record or an opening since which nobody else wrote it) it ends just as
 * px8_message does; from any other, what was not painted there stays so until one of
 * these calls.
 */
void px8_message_short(px8_settings *settings, px8_answer *answer,
                       const uint8_t *message, px8_size message_length,
                       uint8_t *cells, px8_size cells_length,
                       uint8_t *layer, px8_size layer_length,
                       uint8_t *shown, px8_size shown_length,
                       uint8_t *dots, px8_size dots_length,
                       uint8_t *printer, px8_size printer_length);

/*
 * Reads the next piece of a stream: up to PX8_MESSAGE_MOST bytes (it may be
 * empty), cut from the line anywhere, inside a sequence too. The bytes that wait
 * in the settings are read before it. What is unfinished at its end, 27, 209
 * included, is not judged and waits in the settings; the piece
 * takes all its bytes all the same, and the count grows by them. Everything else
 * is as with a message: cells, layer, dots, settings and printed copies, and the shown
 * screen is painted, a piece that finishes nothing included. answer.offset
 * counts from the stream's start; it may lie before this piece, where the
 * sequence began earlier.
 *
 * A copy (ESC 80) needs its room, PX8_COPY or PX8_DOTS bytes, in the call that brings
 * the 80.
 *
 * A refused call (answer.number 1, 2, 3 or 15) changes nothing, as with a
 * message; the stream stands where it stood. After 15 closing still works.
 */
void px8_piece(px8_settings *settings, px8_answer *answer,
               const uint8_t *piece, px8_size piece_length,
               uint8_t *cells, px8_size cells_length,
               uint8_t *layer, px8_size layer_length,
               uint8_t *shown, px8_size shown_length,
               uint8_t *dots, px8_size dots_length,
               uint8_t *printer, px8_size printer_length);

/*
 * Ends the stream. 27, 209 that waits then means 27, 209, 0 (one sequence
 * accepted); another unfinished sequence is refused by PX8_CUT, at its offset in
 * the stream. The shown screen is painted, and then the waiting bytes and the
 * count are forgotten: the next piece begins a stream of its own. It takes no
 * byte and prints nothing, so it has no printer buffer: an unfinished sequence
 * is never a copy. A stream that has had no piece can be closed too.
 *
 * A refused call (answer.number 1 or 3) changes nothing, as with a message.
 */
void px8_closing(px8_settings *settings, px8_answer *answer,
                 uint8_t *cells, px8_size cells_length,
                 uint8_t *layer, px8_size layer_length,
                 uint8_t *shown, px8_size shown_length,
                 uint8_t *dots, px8_size dots_length);

/*
 * Reads the messages of a pack of up to PX8_PACK_MOST bytes, one after the other. A
 * pack is a row of records: the length of the body and the kind, two bytes each, the
 * low one first, then the body; kind 1 is a message. It is just as if px8_message had
 * been called for each body, with the printer room that those before left over: copies
 * follow each other in the buffer, each message is read by itself (12, and 27, 209 at
 * the end of its own body), and the shown screen is that of the last. A body may be
 * empty. A pack without a record is served too, and does nothing: it paints nothing.
 *
 * The answer has the counts of all messages together and the first refusal, record
 * says in which record it is.
 *
 * A refused call (answer->answer.number 1, 19, 20, 21, 2, 3 or 16) changes nothing, as with a
 * message: no message of it is read before the whole pack was looked through.
 */
void px8_pack(px8_settings *settings, px8_pack_answer *answer,
              const uint8_t *pack, px8_size pack_length,
              uint8_t *cells, px8_size cells_length,
              uint8_t *layer, px8_size layer_length,
              uint8_t *shown, px8_size shown_length,
              uint8_t *dots, px8_size dots_length,
              uint8_t *printer, px8_size printer_length);

/*
 * Sets the text of a key, number 1 to PX8_KEYS, to these PX8_KEY_TEXT codes, which
 * may be any. It paints nothing: the text is seen, where the display is 0, from the
 * next message, short or not, piece, closing or pack with a record on, and in the
 * copies that these print. It is served whatever the display is, and while bytes of a stream wait.
 *
 * A refused call (answer.number 3 or 17) leaves the settings as they were.
 */
void px8_key_text(px8_settings *settings, px8_answer *answer, px8_size number,
                  const uint8_t *text, px8_size text_length);

/*
 * The part of a printer buffer to send on: its first `count` bytes, with
 * answer.printed for the count. Returned is that part's length: count, or 0 if
 * count is larger than the length. It refuses nothing and writes nothing.
 */
px8_size px8_printed(const uint8_t *buffer, px8_size length, px8_size count);

/*
 * Compares two shown screens: writes a record for each place that differs, each
 * once and nothing else, by rows from the left, from the list's start. The list
 * beyond them stays. list_length counts records, not bytes; PX8_PLACES is
 * always enough. The two screens may be one and the same.
 *
 * Refused with 1 unless both lengths are PX8_SHOWN; else with 18 exactly when
 * more places differ than list_length. A refused call counts 0, and no record
 * of the list is altered.
 */
void px8_compare(px8_compared *answer,
                 const uint8_t *first, px8_size first_length,
                 const uint8_t *second, px8_size second_length,
                 px8_difference *list, px8_size list_length);

/*
 * Only the first difference, by rows from the left; found is 0 exactly when
 * the screens are equal or the call is refused. Refused with 1 unless both
 * lengths are PX8_SHOWN.
 */
void px8_first_difference(px8_first *answer,
                          const uint8_t *first, px8_size first_length,
                          const uint8_t *second, px8_size second_length);

/*
 * Works out which codes a trace of presses and releases sends under the key
 * repeat of the settings. The trace, of up to PX8_TRACE_MOST bytes, is records
 * of PX8_STROKE bytes: the body's length (5, 0), the kind (1, 0 a press; 2, 0 a
 * release), the tick of 1/256 second (four bytes, the lowest first), the key.
 * Ticks never fall from record to record.
 *
 * A press sends its key at its tick; with keys.repeat 1 again 4 * keys.delay
 * ticks later, and every keys.interval ticks after that, while the tick is
 * strictly below that of the record that ends the press: the next press of any
 * key, the release of its own, or else the last record of the trace (a press
 * that is itself the last sends one code). Releases of other keys do nothing.
 *
 * The codes are written to the output one behind the other from its start,
 * PX8_CODE bytes each, in order: the tick (four bytes, the lowest first), the
 * key. No other byte of the output is written, and none is read. The time
 * taken grows with the trace and with what is written, not with the ticks.
 *
 * A refused call writes nothing and has the count 0.
 */
void px8_key_repeats(const px8_settings *settings, px8_repeats *answer,
                     const uint8_t *trace, px8_size trace_length,
                     uint8_t *output, px8_size output_length);

/*
 * Writes a sequence, given by its second byte and its parameters as sent (see "what a
 * message holds"), into the buffer from the place on: ESC, the second byte, the
 * parameters, and no other byte. Several follow one behind another when each call is
 * given the place that the one before reached, from 0 on; the place is then how much
 * of the buffer is to be sent. PX8_SEQUENCE_MOST bytes hold any sequence.
 *
 * What is written is read back as that one sequence by whoever has these settings, a copy
 * where there is room for it, and
 * different sequences never give the same bytes. ESC 209 is always written with its
 * byte: without a parameter it is written with 0.
 *
 * Refused with 3 unless all settings are sound, those of the stream too; else exactly
 * as the sequence would be in a message under these settings, by the same number, 10,
 * 12 or 11, and naming the same parameter. Bytes that wait are left aside, and a copy
 * (ESC 80) has room. More parameters than the sequence has, by the mode byte for ESC
 * 208, are 10, too few are 12. So in modes 0 to 2 ESC 198 and 199 are written with
 * any parameters, and in mode 3 those that do nothing there. Else refused with 22
 * where the buffer has no space. Each call judges by the settings given, not by what
 * the sequences written before would change: after ESC 208 give settings of its mode.
 *
 * A refused call alters no byte of the buffer, and its answer has the place given.
 */
void px8_write(const px8_settings *settings, px8_reached *answer, uint8_t second,
               const uint8_t *parameters, px8_size parameters_length,
               uint8_t *buffer, px8_size buffer_length, px8_size place);

/* ---- a bay in one structure ----
 *
 * Inline functions over the calls, for a program that keeps one bay's settings and
 * stores together and has no more to say about them. A call may be mixed with them.
 *
 *   static px8_bay bay;
 *   px8_bay_open(&bay, 1);
 *   px8_bay_message(&bay, "LOAD kg 38,500", 14);
 *   puts(px8_bay_row(&bay, 1, row));
 */

typedef struct px8_bay {
    px8_settings settings;
    uint8_t cells[PX8_CELLS];
    uint8_t layer[PX8_LAYER];
    uint8_t shown[PX8_SHOWN];
    uint8_t dots[PX8_DOTS];
    uint8_t printer[PX8_DOTS]; /* printed copies of the last call, as many bytes as its
                                * answer says; room for one of mode 3 or five others */
} px8_bay;

/* Whether a call was served and no sequence of it refused; of an answer that has a name,
 * since it is looked at in its place. */
#define PX8_CLEAN(answer) px8_is_clean(&(answer))

static inline int px8_is_clean(const px8_answer *answer)
{
    return answer->number == PX8_SERVED && answer->refused == 0;
}

/* px8_opening by rule 1 or 2: 0, or PX8_BAD_RULE. */
static inline uint8_t px8_bay_open(px8_bay *bay, px8_size rule)
{
    return px8_opening(&bay->settings, rule, bay->cells, PX8_CELLS, bay->layer, PX8_LAYER, bay->shown,
                       PX8_SHOWN, bay->dots, PX8_DOTS);
}

/* px8_message */
static inline px8_answer px8_bay_message(px8_bay *bay, const void *message, size_t length)
{
    px8_answer answer;
    px8_message(&bay->settings, &answer, (const uint8_t *)message, length, bay->cells, PX8_CELLS, bay->layer,
                PX8_LAYER, bay->shown, PX8_SHOWN, bay->dots, PX8_DOTS, bay->printer, sizeof bay->printer);
    return answer;
}

/* px8_message_short */
static inline px8_answer px8_bay_short(px8_bay *bay, const void *message, size_t length)
{
    px8_answer answer;
    px8_message_short(&bay->settings, &answer, (const uint8_t *)message, length, bay->cells, PX8_CELLS,
                      bay->layer, PX8_LAYER, bay->shown, PX8_SHOWN, bay->dots, PX8_DOTS, bay->printer,
                      sizeof bay->printer);
    return answer;
}

/* px8_piece */
static inline px8_answer px8_bay_piece(px8_bay *bay, const void *piece, size_t length)
{
    px8_answer answer;
    px8_piece(&bay->settings, &answer, (const uint8_t *)piece, length, bay->cells, PX8_CELLS, bay->layer,
              PX8_LAYER, bay->shown, PX8_SHOWN, bay->dots, PX8_DOTS, bay->printer, sizeof bay->printer);
    return answer;
}

/* px8_closing */
static inline px8_answer px8_bay_closing(px8_bay *bay)
{
    px8_answer answer;
    px8_closing(&bay->settings, &answer, bay->cells, PX8_CELLS, bay->layer, PX8_LAYER, bay->shown, PX8_SHOWN,
                bay->dots, PX8_DOTS);
    return answer;
}

/* px8_pack */
static inline px8_pack_answer px8_bay_pack(px8_bay *bay, const void *pack, size_t length)
{
    px8_pack_answer answer;
    px8_pack(&bay->settings, &answer, (const uint8_t *)pack, length, bay->cells, PX8_CELLS, bay->layer,
             PX8_LAYER, bay->shown, PX8_SHOWN, bay->dots, PX8_DOTS, bay->printer, sizeof bay->printer);
    return answer;
}

/* px8_key_text, of a text of up to eight letters, which blanks fill up; a longer one is
 * refused (PX8_BAD_KEY_TEXT). */
static inline px8_answer px8_bay_key_text(px8_bay *bay, px8_size number, const char *text)
{
    uint8_t codes[PX8_KEY_TEXT];
    px8_answer answer;
    size_t length = 0, n;
    while (length <= PX8_KEY_TEXT && text[length] != 0)
        length++;
    for (n = 0; n < PX8_KEY_TEXT; n++)
        codes[n] = n < length ? (uint8_t)text[n] : PX8_BLANK;
    px8_key_text(&bay->settings, &answer, number, codes, length > PX8_KEY_TEXT ? 0 : PX8_KEY_TEXT);
    return answer;
}

/* Row 1 to 8 of the shown screen as a text of at most PX8_WIDTH letters: without the
 * blanks at its end, codes outside 32 to 126 as stops. The text is handed back; it has
 * PX8_WIDTH + 1 bytes. Of any other row it is empty. */
static inline char *px8_bay_row(const px8_bay *bay, int row, char *text)
{
    int end = row >= 1 && row <= PX8_ROWS ? PX8_WIDTH : 0, column;
    while (end > 0 && bay->shown[PX8_AT(row, end)] == PX8_BLANK)
        end--;
    for (column = 1; column <= end; column++) {
        const uint8_t code = bay->shown[PX8_AT(row, column)];
        text[column - 1] = code >= 32 && code <= 126 ? (char)code : '.';
    }
    text[end] = 0;
    return text;
}

/* ---- sequences by name ----
 *
 * A writer carries an outgoing buffer and the place reached in it. Each function below
 * writes one sequence behind those before by px8_write, judged by the settings; it
 * returns 0, or why nothing was written. The first refusal stays in the writer, so that
 * it is enough to look once, at the end.
 *
 *   uint8_t buffer[64];
 *   px8_writer w = px8_writer_on(&bay.settings, buffer, sizeof buffer);
 *   px8_select(&w, 1);
 *   px8_put_cursor(&w, 2, 5);
 *   px8_put_text(&w, "kg");
 *   if (w.number == PX8_SERVED)
 *       px8_bay_message(&bay, buffer, w.place);
 */
typedef struct px8_writer {
    const px8_settings *settings; /* of the reader */
    uint8_t *buffer;
    px8_size length;   /* bytes of the buffer */
    px8_size place;    /* behind what was written: how much is to be sent */
    uint8_t number;    /* why the first that was refused was not written: 3, 11, 22 (10, 12
                        * by px8_put alone); 0 if none was refused */
    uint8_t parameter; /* its first bad parameter, from 1, if it is 11; else 0 */
} px8_writer;

/* A writer at the start of a buffer. */
static inline px8_writer px8_writer_on(const px8_settings *settings, uint8_t *buffer, px8_size length)
{
    px8_writer w;
    w.settings = settings;
    w.buffer = buffer;
    w.length = length;
    w.place = 0;
    w.number = PX8_SERVED;
    w.parameter = 0;
    return w;
}

/* Any sequence, by its second byte and its parameters as sent. */
static inline uint8_t px8_put(px8_writer *w, uint8_t second, const uint8_t *parameters, size_t length)
{
    px8_reached reached;
    px8_write(w->settings, &reached, second, parameters, length, w->buffer, w->length, w->place);
    w->place = reached.place;
    if (w->number == PX8_SERVED) {
        w->number = reached.number;
        w->parameter = reached.parameter;
    }
    return reached.number;
}

/* Bytes as they are, a text to be printed: PX8_NO_SPACE, and none is written, where they
 * do not fit. */
static inline uint8_t px8_put_text(px8_writer *w, const char *text)
{
    px8_size length = 0, n;
    while (text[length] != 0)
        length++;
    if (w->place > w->length || length > w->length - w->place) {
        if (w->number == PX8_SERVED)
            w->number = PX8_NO_SPACE;
        return PX8_NO_SPACE;
    }
    for (n = 0; n < length; n++)
        w->buffer[w->place + n] = (uint8_t)text[n];
    w->place += length;
    return PX8_SERVED;
}

/* The names are those of the rules' own list; in mode 3 numbers of dots have two bytes. */
#define PX8_SEQUENCE0(name, second) \
    static inline uint8_t px8_##name(px8_writer *w) { return px8_put(w, second, NULL, 0); }
#define PX8_SEQUENCE1(name, second, a) \
    static inline uint8_t px8_##name(px8_writer *w, uint8_t a) { return px8_put(w, second, &a, 1); }
#define PX8_SEQUENCE2(name, second, a, b) \
    static inline uint8_t px8_##name(px8_writer *w, uint8_t a, uint8_t b) \
    { \
        uint8_t sent[2]; \
        sent[0] = a; \
        sent[1] = b; \
        return px8_put(w, second, sent, 2); \
    }
#define PX8_SEQUENCE3(name, second, a, b, c) \
    static inline uint8_t px8_##name(px8_writer *w, uint8_t a, uint8_t b, uint8_t c) \
    { \
        uint8_t sent[3]; \
        sent[0] = a; \
        sent[1] = b; \
        sent[2] = c; \
        return px8_put(w, second, sent, 3); \
    }

PX8_SEQUENCE1(print_code, 37, code)
PX8_SEQUENCE0(clear, 42)
PX8_SEQUENCE0(cursor_off, 50)
PX8_SEQUENCE0(cursor_on, 51)
PX8_SEQUENCE1(charset, 67, letter)
PX8_SEQUENCE0(copy, 80)
PX8_SEQUENCE0(erase_line, 84)
PX8_SEQUENCE0(erase_rest, 89)
PX8_SEQUENCE0(secret_on, 123)
PX8_SEQUENCE0(secret_off, 125)
PX8_SEQUENCE2(lines_up, 144, from, count)
PX8_SEQUENCE2(lines_down, 145, from, count)
PX8_SEQUENCE1(step, 148, lines)
PX8_SEQUENCE1(tracking, 149, off)
PX8_SEQUENCE0(window_up, 150)
PX8_SEQUENCE0(window_down, 151)
PX8_SEQUENCE0(ins_on, 160)
PX8_SEQUENCE0(ins_off, 161)
PX8_SEQUENCE0(caps_on, 162)
PX8_SEQUENCE0(caps_off, 163)
PX8_SEQUENCE0(num_on, 164)
PX8_SEQUENCE0(num_off, 165)
PX8_SEQUENCE0(strings_off, 176)
PX8_SEQUENCE0(strings_on, 177)
PX8_SEQUENCE1(select, 209, screen)
PX8_SEQUENCE3(cover, 210, row, column, code)
PX8_SEQUENCE1(display, 211, display)
PX8_SEQUENCE0(window_top, 212)
PX8_SEQUENCE0(window_bottom, 213)
PX8_SEQUENCE1(cursor_kind, 214, kind)
PX8_SEQUENCE0(window_cursor, 215)
PX8_SEQUENCE1(repeat, 240, on)
PX8_SEQUENCE1(repeat_delay, 241, time)
PX8_SEQUENCE1(repeat_interval, 242, time)
PX8_SEQUENCE0(nothing, 246)
PX8_SEQUENCE1(shift, 247, state)
#undef PX8_SEQUENCE0
#undef PX8_SEQUENCE1
#undef PX8_SEQUENCE2
#undef PX8_SEQUENCE3

/* ESC 61, by line and column as they are counted, from 1. One that no screen has is
 * refused. */
static inline uint8_t px8_put_cursor(px8_writer *w, uint8_t line, uint8_t column)
{
    uint8_t sent[2];
    sent[0] = (uint8_t)(line > 224 ? 255 : line + 31);
    sent[1] = (uint8_t)(column > 224 ? 255 : column + 31);
    return px8_put(w, 61, sent, 2);
}

/* ESC 198: from a dot to a dot, horizontal and vertical. */
static inline uint8_t px8_draw_line(px8_writer *w, uint16_t h0, uint16_t v0, uint16_t h1, uint16_t v1,
                                    uint16_t mask, uint8_t function)
{
    uint8_t sent[11];
    const uint16_t numbers[5] = {h0, v0, h1, v1, mask};
    int n;
    for (n = 0; n < 5; n++) {
        sent[2 * n] = (uint8_t)(numbers[n] >> 8);
        sent[2 * n + 1] = (uint8_t)(numbers[n] & 255);
    }
    sent[10] = function;
    return px8_put(w, 198, sent, 11);
}

/* ESC 199 */
static inline uint8_t px8_draw_dot(px8_writer *w, uint8_t function, uint8_t vertical, uint16_t horizontal)
{
    uint8_t sent[4];
    sent[0] = function;
    sent[1] = vertical;
    sent[2] = (uint8_t)(horizontal >> 8);
    sent[3] = (uint8_t)(horizontal & 255);
    return px8_put(w, 199, sent, 4);
}

/* ESC 208, a function a mode. What is written behind it is judged by the settings that the
 * writer has: give it those of the new mode first. */
static inline uint8_t px8_mode0(px8_writer *w, uint8_t lines1, uint8_t lines2)
{
    uint8_t sent[3] = {0};
    sent[1] = lines1;
    sent[2] = lines2;
    return px8_put(w, 208, sent, 3);
}

static inline uint8_t px8_mode1(px8_writer *w, uint8_t lines)
{
    uint8_t sent[2] = {1};
    sent[1] = lines;
    return px8_put(w, 208, sent, 2);
}

static inline uint8_t px8_mode2(px8_writer *w, uint8_t lines, uint8_t columns, uint8_t boundary)
{
    uint8_t sent[4] = {2};
    sent[1] = lines;
    sent[2] = columns;
    sent[3] = boundary;
    return px8_put(w, 208, sent, 4);
}

static inline uint8_t px8_mode3(px8_writer *w)
{
    const uint8_t sent[1] = {3};
    return px8_put(w, 208, sent, 1);
}

/* ESC 224, eight rows. */
static inline uint8_t px8_pattern(px8_writer *w, uint8_t code, const uint8_t *rows)
{
    uint8_t sent[1 + PX8_PATTERN_ROWS];
    int n;
    sent[0] = code;
    for (n = 0; n < PX8_PATTERN_ROWS; n++)
        sent[1 + n] = rows[n];
    return px8_put(w, 224, sent, sizeof sent);
}

/* ESC 243, with SHIFT 244, with CTRL 245: four codes. */
static inline uint8_t px8_arrows1(px8_writer *w, const uint8_t *codes) { return px8_put(w, 243, codes, 4); }
static inline uint8_t px8_arrows2(px8_writer *w, const uint8_t *codes) { return px8_put(w, 244, codes, 4); }
static inline uint8_t px8_arrows3(px8_writer *w, const uint8_t *codes) { return px8_put(w, 245, codes, 4); }

/* ---- the numbers in words, and what to look at ---- */

static inline const char *px8_text(unsigned number)
{
    switch (number) {
    case PX8_SERVED: return "served";
    case PX8_STORE_SIZE: return "a store or screen is not of its size: look at the lengths";
    case PX8_TOO_LONG: return "a message or piece is longer than 4096 bytes: look at its length";
    case PX8_UNSOUND: return "a setting is outside its range: look at who else wrote the settings";
    case PX8_NOT_LISTED: return "the byte after ESC is not in the list: look at the offset";
    case PX8_OUT_OF_RANGE:
        return "a parameter is outside its range, or its sum with the one before is too large: look at"
               " parameter and offset";
    case PX8_CUT: return "it ends inside a sequence: look at the offset; a line cut anywhere is for px8_piece";
    case PX8_NO_ROOM: return "no printer room for a copy: look at the printer buffer's length";
    case PX8_STREAM_TOO_LONG: return "the stream would pass 1000000000 bytes: close it";
    case PX8_BYTES_WAIT: return "bytes of a stream wait: go on with pieces, or close the stream";
    case PX8_BAD_KEY_TEXT: return "no such key, or a text not of 8 codes: look at number and length";
    case PX8_LIST_SHORT: return "more places differ than the list has records: 640 are always enough";
    case PX8_PACK_TOO_LONG: return "the pack or trace is longer than 60000 bytes: look at its length";
    case PX8_CUT_RECORD: return "a record runs past the end: look at the lengths in the records' heads";
    case PX8_UNKNOWN_RECORD: return "a record of another kind or length: look at the records' heads";
    case PX8_NO_SPACE: return "no space for the sequence behind the place: look at the buffer's length";
    case PX8_BAD_RULE: return "the opening's rule is not 1 or 2: look at the rule";
    case PX8_TICK_FALLS: return "a tick is below the one before: look at the order of the records";
    case PX8_OUTPUT_TOO_SMALL: return "the codes need more than the output has: look at its length";
    default: return "no number of this library";
    }
}

#ifdef __cplusplus
}
#endif

/* ---- the layout that the archive was built with ---- */

#if defined(__cplusplus) && __cplusplus >= 201103L
#define PX8_HOLDS(claim) static_assert(claim, #claim)
#elif !defined(__cplusplus) && defined(__STDC_VERSION__) && __STDC_VERSION__ >= 201112L
#define PX8_HOLDS(claim) _Static_assert(claim, #claim)
#endif

#ifdef PX8_HOLDS
PX8_HOLDS(sizeof(px8_place) == 4);
PX8_HOLDS(offsetof(px8_place, line) == 0);
PX8_HOLDS(offsetof(px8_place, column) == 1);
PX8_HOLDS(offsetof(px8_place, top) == 2);
PX8_HOLDS(offsetof(px8_place, late) == 3);

PX8_HOLDS(sizeof(px8_keys) == 21);
PX8_HOLDS(offsetof(px8_keys, leds) == 0);
PX8_HOLDS(offsetof(px8_keys, charset) == 3);
PX8_HOLDS(offsetof(px8_keys, strings) == 4);
PX8_HOLDS(offsetof(px8_keys, repeat) == 5);
PX8_HOLDS(offsetof(px8_keys, delay) == 6);
PX8_HOLDS(offsetof(px8_keys, interval) == 7);
PX8_HOLDS(offsetof(px8_keys, shift) == 8);
PX8_HOLDS(offsetof(px8_keys, arrows) == 9);

PX8_HOLDS(sizeof(px8_settings) == 408);
PX8_HOLDS(offsetof(px8_settings, marks) == 0);
PX8_HOLDS(offsetof(px8_settings, mode) == 16);
PX8_HOLDS(offsetof(px8_settings, lines1) == 17);
PX8_HOLDS(offsetof(px8_settings, lines2) == 18);
PX8_HOLDS(offsetof(px8_settings, columns1) == 19);
PX8_HOLDS(offsetof(px8_settings, columns2) == 20);
PX8_HOLDS(offsetof(px8_settings, boundary) == 21);
PX8_HOLDS(offsetof(px8_settings, selected) == 22);
PX8_HOLDS(offsetof(px8_settings, places) == 23);
PX8_HOLDS(offsetof(px8_settings, tracking) == 31);
PX8_HOLDS(offsetof(px8_settings, step) == 32);
PX8_HOLDS(offsetof(px8_settings, secret) == 33);
PX8_HOLDS(offsetof(px8_settings, cursor) == 34);
PX8_HOLDS(offsetof(px8_settings, display) == 35);
PX8_HOLDS(offsetof(px8_settings, kind) == 36);
PX8_HOLDS(offsetof(px8_settings, keys) == 37);
PX8_HOLDS(offsetof(px8_settings, rule) == 58);
PX8_HOLDS(offsetof(px8_settings, patterns) == 59);
PX8_HOLDS(offsetof(px8_settings, held) == 307);
PX8_HOLDS(offsetof(px8_settings, waiting) == 308);
PX8_HOLDS(offsetof(px8_settings, count) == 320);
PX8_HOLDS(offsetof(px8_settings, texts) == 324);

PX8_HOLDS(sizeof(px8_size) == 8);
PX8_HOLDS(sizeof(px8_answer) == 32);
PX8_HOLDS(offsetof(px8_answer, number) == 0);
PX8_HOLDS(offsetof(px8_answer, taken) == 4);
PX8_HOLDS(offsetof(px8_answer, accepted) == 8);
PX8_HOLDS(offsetof(px8_answer, refused) == 12);
PX8_HOLDS(offsetof(px8_answer, first) == 16);
PX8_HOLDS(offsetof(px8_answer, parameter) == 17);
PX8_HOLDS(offsetof(px8_answer, offset) == 20);
PX8_HOLDS(offsetof(px8_answer, printed) == 24);

PX8_HOLDS(sizeof(px8_pack_answer) == 40);
PX8_HOLDS(offsetof(px8_pack_answer, answer) == 0);
PX8_HOLDS(offsetof(px8_pack_answer, record) == 32);

PX8_HOLDS(sizeof(px8_difference) == 4);
PX8_HOLDS(offsetof(px8_difference, row) == 0);
PX8_HOLDS(offsetof(px8_difference, column) == 1);
PX8_HOLDS(offsetof(px8_difference, first) == 2);
PX8_HOLDS(offsetof(px8_difference, second) == 3);

PX8_HOLDS(sizeof(px8_compared) == 16);
PX8_HOLDS(offsetof(px8_compared, number) == 0);
PX8_HOLDS(offsetof(px8_compared, count) == 8);

PX8_HOLDS(sizeof(px8_first) == 6);
PX8_HOLDS(offsetof(px8_first, number) == 0);
PX8_HOLDS(offsetof(px8_first, found) == 1);
PX8_HOLDS(offsetof(px8_first, difference) == 2);

PX8_HOLDS(sizeof(px8_repeats) == 16);
PX8_HOLDS(offsetof(px8_repeats, number) == 0);
PX8_HOLDS(offsetof(px8_repeats, count) == 8);

PX8_HOLDS(sizeof(px8_reached) == 16);
PX8_HOLDS(offsetof(px8_reached, place) == 0);
PX8_HOLDS(offsetof(px8_reached, number) == 8);
PX8_HOLDS(offsetof(px8_reached, parameter) == 9);
#undef PX8_HOLDS
#endif

#endif
