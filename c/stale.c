/*
 * A program as the header of layout 1 had the calls, settings by value and symbols without a number. It
 * compiles and must not link with an archive of another layout: run-tests tries it, and looks for each name.
 */
#include <stddef.h>
#include <stdint.h>

typedef struct px8_settings { uint8_t bytes[484]; } px8_settings;
typedef struct px8_outcome { px8_settings settings; uint32_t answer[8]; } px8_outcome;
typedef struct px8_opened { px8_settings settings; uint8_t number; } px8_opened;

px8_opened px8_opening(size_t, uint8_t *, size_t, uint8_t *, size_t, uint8_t *, size_t, uint8_t *, size_t);
px8_outcome px8_message(px8_settings, const uint8_t *, size_t, uint8_t *, size_t, uint8_t *, size_t, uint8_t *,
                        size_t, uint8_t *, size_t, uint8_t *, size_t);
px8_outcome px8_message_short(px8_settings, const uint8_t *, size_t, uint8_t *, size_t, uint8_t *, size_t,
                              uint8_t *, size_t, uint8_t *, size_t, uint8_t *, size_t);
px8_outcome px8_piece(px8_settings, const uint8_t *, size_t, uint8_t *, size_t, uint8_t *, size_t, uint8_t *,
                      size_t, uint8_t *, size_t, uint8_t *, size_t);
px8_outcome px8_closing(px8_settings, uint8_t *, size_t, uint8_t *, size_t, uint8_t *, size_t, uint8_t *, size_t);
px8_outcome px8_pack(px8_settings, const uint8_t *, size_t, uint8_t *, size_t, uint8_t *, size_t, uint8_t *,
                     size_t, uint8_t *, size_t, uint8_t *, size_t);
px8_outcome px8_key_text(px8_settings, size_t, const uint8_t *, size_t);
size_t px8_printed(const uint8_t *, size_t, size_t);
uint64_t px8_compare(const uint8_t *, size_t, const uint8_t *, size_t, uint8_t *, size_t);
uint64_t px8_first_difference(const uint8_t *, size_t, const uint8_t *, size_t);
uint64_t px8_key_repeats(px8_settings, const uint8_t *, size_t, uint8_t *, size_t);
uint64_t px8_write(px8_settings, uint8_t, const uint8_t *, size_t, uint8_t *, size_t, size_t);

int main(void)
{
    static uint8_t b[3840];
    const px8_settings s = px8_opening(1, b, 0, b, 0, b, 0, b, 0).settings;
    px8_message(s, b, 0, b, 0, b, 0, b, 0, b, 0, b, 0);
    px8_message_short(s, b, 0, b, 0, b, 0, b, 0, b, 0, b, 0);
    px8_piece(s, b, 0, b, 0, b, 0, b, 0, b, 0, b, 0);
    px8_closing(s, b, 0, b, 0, b, 0, b, 0);
    px8_pack(s, b, 0, b, 0, b, 0, b, 0, b, 0, b, 0);
    px8_key_text(s, 1, b, 0);
    px8_compare(b, 0, b, 0, b, 0);
    px8_first_difference(b, 0, b, 0);
    px8_key_repeats(s, b, 0, b, 0);
    px8_write(s, 42, b, 0, b, 0, 0);
    return (int)px8_printed(b, 0, 0);
}
