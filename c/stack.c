/* How much stack a call takes: each call runs on a stack of its own that was filled with one byte, and what is no longer that
 * byte afterwards was used. Prints a line a call, and fails if one took more than is said in the README. To be
 * linked with -z now: else the loader looks for memcpy inside the first call, on the stack that is measured. */
#define _XOPEN_SOURCE 700
#include <pthread.h>
#include <stdint.h>
#include <stdio.h>
#include <stdlib.h>
#include <string.h>

#include "px8.h"

#define STACK (256 * 1024)
#define FILL 0xA5
#define MOST 4096        /* what the README says a call takes at most, */
#define STREAM_MOST 8192 /* and a piece, a closing and a pack, which are made of message calls, and a short message, which has two ways */

static uint8_t cells[PX8_CELLS], layer[PX8_LAYER], shown[PX8_SHOWN], dots[PX8_DOTS], printer[PX8_DOTS];
static px8_settings settings;
static px8_answer answer;

/* the four stores, and with the printer buffer */
#define STORES cells, sizeof cells, layer, sizeof layer, shown, sizeof shown, dots, sizeof dots
#define BUFFERS STORES, printer, sizeof printer

static void *nothing(void *unused) { return unused; }

static void *opening(void *unused) {
    if (px8_opening(&settings, 2, STORES) != PX8_SERVED) abort();
    return unused;
}

/* printing, a lift, a mode, a copy, a mark: the deepest ways through the call */
static void *message(void *unused) {
    static const uint8_t bytes[] = {'3', '8', ',', 27, 61, 55, 32, 10, 27, 80, 27, 208, 2, 10, 20, 35, 27, 210, 1, 1, 90, 27, 80,
                                    27, 224, 230, 1, 2, 3, 4, 5, 6, 7, 8, 27, 208, 1, 16, 'A', 27, 144, 0, 2};
    px8_message(&settings, &answer, bytes, sizeof bytes, BUFFERS);
    if (answer.number != PX8_SERVED) abort();
    return unused;
}

/* the same ways, and what a short message alone has: characters shown at once, row 8 by itself */
static void *short_message(void *unused) {
    static const uint8_t few[] = {'3', '8', ',', '5', 27, 37, '0'};
    static const uint8_t bytes[] = {27, 208, 0, 24, 24, '3', '8', ',', 27, 61, 55, 32, 10, 27, 80, 27, 208, 2, 10, 20, 35, 27, 210, 1, 1, 90, 27, 80,
                                    27, 224, 230, 1, 2, 3, 4, 5, 6, 7, 8, 27, 208, 1, 16, 'A', 27, 144, 0, 2};
    px8_message_short(&settings, &answer, few, sizeof few, BUFFERS);
    if (answer.number != PX8_SERVED) abort();
    px8_message_short(&settings, &answer, bytes, sizeof bytes, BUFFERS);
    if (answer.number != PX8_SERVED || answer.refused != 0) abort();
    return unused;
}

/* mode 3: a sloping line of dots, a dot, a copy; and back, as the calls after it expect */
static void *drawing(void *unused) {
    static const uint8_t bytes[] = {27, 208, 3, 'A', 27, 198, 1, 144, 0, 18, 0, 18, 0, 60, 170, 170, 3, 27, 199, 1, 63, 1, 223, 27, 80,
                                    27, 208, 1, 16};
    px8_message(&settings, &answer, bytes, sizeof bytes, BUFFERS);
    if (answer.printed != PX8_DOTS || answer.refused != 0) abort();
    return unused;
}

/* the start of a line, cut inside a sequence */
static void *piece(void *unused) {
    static const uint8_t bytes[] = {'3', '8', ',', 27, 61, 55, 32, 10, 27, 80, 27, 208, 2};
    px8_piece(&settings, &answer, bytes, sizeof bytes, BUFFERS);
    if (settings.held != 3) abort();
    return unused;
}

/* the rest, too long to be joined whole with the bytes that wait; the longest unfinished sequence is left */
static void *next(void *unused) {
    static const uint8_t bytes[] = {10, 20, 35, 27, 210, 1, 1, 90, 27, 80, 27, 224, 230, 1, 2, 3, 4, 5, 6, 7, 8, 'A', 27, 61, 55, 32, 10,
                                    'L', 'O', 'A', 'D', ' ', 'k', 'g', ' ', '3', '8', ',', '5', '0', '0', 27, 208, 1, 16, 27, 210, 1, 1, 90,
                                    27, 80, 27, 144, 0, 2, 'A', 10, 27, 198, 1, 2, 3, 4, 5, 6, 7, 8, 9, 10};
    px8_piece(&settings, &answer, bytes, sizeof bytes, BUFFERS);
    if (settings.held != PX8_WAITING_MOST) abort();
    return unused;
}

static void *closing(void *unused) {
    px8_closing(&settings, &answer, STORES);
    if (settings.held != 0) abort();
    return unused;
}

/* a pack of messages with the deepest ways through each */
static void *pack(void *unused) {
    static const uint8_t bytes[] = {5, 0, 1, 0, '3', '8', 27, 80, 10, 0, 0, 1, 0, 13, 0, 1, 0, 27, 208, 2, 10, 20, 35, 27, 210, 1, 1, 90, 27, 80,
                                    11, 0, 1, 0, 27, 224, 230, 1, 2, 3, 4, 5, 6, 7, 8, 1, 0, 1, 0, 'A'};
    static px8_pack_answer all;
    px8_pack(&settings, &all, bytes, sizeof bytes, BUFFERS);
    if (all.answer.number != PX8_SERVED || all.answer.printed != 2 * PX8_COPY) abort();
    return unused;
}

static void *key_text(void *unused) {
    static const uint8_t text[PX8_KEY_TEXT] = {'T', 'A', 'R', 'E', ' ', ' ', ' ', ' '};
    px8_key_text(&settings, &answer, PX8_KEYS, text, sizeof text);
    if (answer.number != PX8_SERVED) abort();
    return unused;
}

/* every place differs */
static void *compare(void *unused) {
    static px8_difference list[PX8_PLACES];
    static uint8_t other[PX8_SHOWN];
    static px8_compared compared;
    memset(shown, 32, sizeof shown);
    px8_compare(&compared, shown, sizeof shown, other, sizeof other, list, PX8_PLACES);
    if (compared.count != PX8_PLACES) abort();
    return unused;
}

/* a press with repeats and its release */
static void *repeats(void *unused) {
    static const uint8_t trace[] = {5, 0, 1, 0, 0, 0, 0, 0, 65, 5, 0, 2, 0, 0, 1, 0, 0, 65};
    static px8_repeats codes;
    px8_key_repeats(&settings, &codes, trace, sizeof trace, printer, sizeof printer);
    if (codes.number != PX8_SERVED) abort();
    return unused;
}

/* the longest sequence */
static void *writing(void *unused) {
    static const uint8_t bytes[] = {1, 144, 0, 18, 0, 18, 0, 60, 170, 170, 3};
    static px8_reached reached;
    px8_write(&settings, &reached, 198, bytes, sizeof bytes, printer, sizeof printer, 0);
    if (reached.place != PX8_SEQUENCE_MOST) abort();
    return unused;
}

/* the bytes of a stack that a call touched */
static size_t used(void *(*call)(void *)) {
    pthread_t thread;
    pthread_attr_t attributes;
    uint8_t *stack = aligned_alloc(4096, STACK);
    size_t untouched = 0;
    memset(stack, FILL, STACK);
    pthread_attr_init(&attributes);
    pthread_attr_setstack(&attributes, stack, STACK);
    pthread_create(&thread, &attributes, call, NULL);
    pthread_join(thread, NULL);
    while (untouched < STACK && stack[untouched] == FILL) untouched++;
    free(stack);
    return STACK - untouched;
}

int main(void) {
    size_t thread = used(nothing);
    size_t open = used(opening) - thread;
    size_t serve = used(message) - thread;
    size_t less = used(short_message) - thread;
    size_t draw = used(drawing) - thread;
    size_t start = used(piece) - thread;
    size_t rest = used(next) - thread;
    size_t end = used(closing) - thread;
    size_t many = used(pack) - thread;
    size_t name = used(key_text) - thread;
    size_t lay = used(compare) - thread;
    size_t work = used(repeats) - thread;
    size_t spell = used(writing) - thread;
    printf("opening %zu\nmessage %zu\nshort message %zu\ndrawing %zu\npiece %zu\nnext piece %zu\nclosing %zu\npack %zu\nkey text %zu\ncompare %zu\nkey repeats %zu\nwrite %zu\n", open, serve, less, draw, start, rest, end, many, name, lay, work, spell);
    return open <= MOST && serve <= MOST && less <= STREAM_MOST && draw <= MOST && start <= STREAM_MOST && rest <= STREAM_MOST && end <= STREAM_MOST && many <= STREAM_MOST && name <= MOST && lay <= MOST && work <= MOST && spell <= MOST ? 0 : 1;
}
