/* Calls every function of the C interface and checks what comes back. Exit status 0 if all holds.
 * It is C11 and C++ alike, so that the header is tried in both. */

#include "joyce.h"

#include <stdio.h>
#include <string.h>

static uint8_t ram[8 * JOYCE_BLOCK];
static uint8_t picture[JOYCE_PICTURE], other[JOYCE_PICTURE];
static uint8_t one[JOYCE_ARCHIVE_LENGTH(1)], two[JOYCE_ARCHIVE_LENGTH(2) + 8];
static int checks, failures;

static void check(const char *what, long got, long wanted) {
    checks++;
    if (got != wanted) {
        failures++;
        fprintf(stderr, "%s: got %ld, wanted %ld\n", what, got, wanted);
    }
}

static uint64_t step(joyce_board *board, uint32_t kind, uint32_t number, uint32_t value) {
    return joyce_step(board, kind, number, value, ram, sizeof ram, NULL, 0);
}

static void check_power_on(joyce_board *board) {
    memset(board, 0xFF, sizeof *board);
    check("power-on, sizes not allowed", joyce_refusal(joyce_power_on(board, 9, 9, 50, 0, 0, 0, 0, 0, 0, 0)), 6);
    check("record of zeros", board->sizes.internal | board->driven | (board->dirty.words[3] != 0), 0);
    check("power-on", (long)joyce_power_on(board, 8, 8, 50, 0x80, 0x81, 0x25, 0x83, 0x00, 0x00, 0x00), 0);
    check("boot mode", board->boot.mode, 1);
    check("terminal count", board->disc.terminal_count, 1);
    check("line 255 dirty", (long)(board->dirty.words[3] >> 63), 1);
}

static void check_steps(joyce_board *board) {
    static const uint8_t boot[2] = {0x3E, 0x07};
    uint64_t reply = joyce_step(board, JOYCE_FETCH, 0x1234, 0, ram, sizeof ram, boot, 2);
    check("boot fetch", joyce_byte(reply), 0x3E);
    check("boot at", board->boot.at, 1);
    check("boot stream ended", joyce_refusal(step(board, JOYCE_FETCH, 0, 0)), JOYCE_STREAM_ENDED);
    check("end boot", joyce_refusal(step(board, JOYCE_OUT, 0xF8, 0)), 0);
    check("video on", joyce_refusal(step(board, JOYCE_OUT, 0xF7, 0x40)), 0);
    check("split write", joyce_refusal(step(board, JOYCE_WRITE, 0x8003, 0x77)), 0);
    check("write block", ram[5 * JOYCE_BLOCK + 3], 0x77);
    check("read block", joyce_byte(step(board, JOYCE_READ, 0x8003, 0)), 0);
    step(board, JOYCE_SCAN, 0, 0);
    reply = step(board, JOYCE_SCAN, 0, 0);
    check("INT after a tick", joyce_int(reply), 1);
    check("F4", joyce_byte(step(board, JOYCE_IN, 0xF4, 0)), 0x51);
    check("F8 after F4", joyce_byte(step(board, JOYCE_IN, 0xF8, 0)), 0x50);
    check("forwarded", joyce_forwarded(step(board, JOYCE_IN, 0x00, 0)), 1);
    check("no port", joyce_refusal(step(board, JOYCE_OUT, 0x00, 0)), JOYCE_NO_PORT);
    check("offset 16", joyce_refusal(step(board, JOYCE_KEYBOARD, 16, 0)), JOYCE_BAD_NUMBER);
    check("keyboard word", joyce_refusal(step(board, JOYCE_KEYBOARD, 15, 9)), 0);
    check("keyboard byte", ram[4 * JOYCE_BLOCK - 1], 9);
    step(board, JOYCE_OUT, 0xF8, 2);
    check("NMI", joyce_nmi(step(board, JOYCE_DISC_LINE, 0, 1)), 1);
    check("NMI once", joyce_nmi(step(board, JOYCE_SCAN, 0, 0)), 0);
    check("external line", joyce_int(step(board, JOYCE_EXTERNAL_LINE, 0, 1)), 1);
    check("kind 10", joyce_refusal(step(board, 10, 0, 0)), JOYCE_BAD_NUMBER);
    check("short RAM", joyce_refusal(joyce_step(board, JOYCE_SCAN, 0, 0, ram, sizeof ram - 1, NULL, 0)), JOYCE_BAD_LENGTH);
}

static void check_picture(joyce_board *board) {
    check("refresh", joyce_count(joyce_refresh(board, ram, sizeof ram, picture, sizeof picture)), 256);
    check("none dirty", joyce_found(joyce_next_dirty(board, 0)), 0);
    /* Line 7 gets a line of its own, starting at block 1, 1930h. */
    step(board, JOYCE_WRITE, 14, 0x98);
    step(board, JOYCE_WRITE, 15, 0x2C);
    step(board, JOYCE_WRITE, 0x4000 + 0x1930, 0xA5);
    check("line 7 dirty", joyce_line(joyce_next_dirty(board, 1)), 7);
    check("n 256", joyce_refusal(joyce_next_dirty(board, 256)), JOYCE_BAD_NUMBER);
    step(board, JOYCE_OUT, 0xF8, 8);
    check("floating", joyce_floating(joyce_refresh(board, ram, sizeof ram, picture, sizeof picture)), 1);
    check("drawn byte", picture[7 * JOYCE_LINE], 0xA5);
    check("draw", joyce_refusal(joyce_draw(board, ram, sizeof ram, other, sizeof other)), 0);
    check("refresh as draw", memcmp(picture, other, sizeof other), 0);
    check("no difference", joyce_found(joyce_first_difference(picture, sizeof picture, other, sizeof other)), 0);
    other[7 * JOYCE_LINE + 2] ^= 0x10;
    uint64_t reply = joyce_first_difference(picture, sizeof picture, other, sizeof other);
    check("difference found", joyce_found(reply), 1);
    check("its line", joyce_line(reply), 7);
    check("its pixel", joyce_pixel(reply), 19);
}

/* Line 9 starts at block 1, 3DC0h: its byte 71 is the block's last of its kind, and byte 72 the first of block 2. */
static void check_block_end(joyce_board *board) {
    step(board, JOYCE_OUT, 0xF2, 0x82);
    step(board, JOYCE_WRITE, 18, 0xE0);
    step(board, JOYCE_WRITE, 19, 0x3E);
    step(board, JOYCE_WRITE, 0x4000 + 0x3FF8, 0x71);
    check("line 9 drawn", joyce_count(joyce_refresh(board, ram, sizeof ram, picture, sizeof picture)), 1);
    step(board, JOYCE_WRITE, 0x4000, 0x11);
    check("start of block 1, no line", joyce_found(joyce_next_dirty(board, 0)), 0);
    step(board, JOYCE_WRITE, 0x8000, 0x72);
    check("start of block 2, line 9", joyce_line(joyce_next_dirty(board, 0)), 9);
    check("line 9 alone", joyce_count(joyce_refresh(board, ram, sizeof ram, picture, sizeof picture)), 1);
    check("its byte 71", picture[9 * JOYCE_LINE + 71], 0x71);
    check("its byte 72", picture[9 * JOYCE_LINE + 72], 0x72);
}

/* NULL with length 0 is nothing lent, and refused as any other wrong length. */
static void check_nothing_lent(joyce_board *board) {
    check("no RAM to step on", joyce_refusal(joyce_step(board, JOYCE_SCAN, 0, 0, NULL, 0, NULL, 0)), JOYCE_BAD_LENGTH);
    check("no RAM to draw", joyce_refusal(joyce_draw(board, NULL, 0, picture, sizeof picture)), JOYCE_BAD_LENGTH);
    check("no picture to draw", joyce_refusal(joyce_draw(board, ram, sizeof ram, NULL, 0)), JOYCE_BAD_LENGTH);
    check("no RAM to refresh", joyce_refusal(joyce_refresh(board, NULL, 0, picture, sizeof picture)), JOYCE_BAD_LENGTH);
    check("no picture to refresh", joyce_refusal(joyce_refresh(board, ram, sizeof ram, NULL, 0)), JOYCE_BAD_LENGTH);
    check("no pictures", joyce_refusal(joyce_first_difference(NULL, 0, NULL, 0)), JOYCE_BAD_LENGTH);
    check("no lines", joyce_widen(NULL, 0, NULL, 0), JOYCE_BAD_LENGTH);
    check("no room", joyce_refusal(joyce_archive_start(NULL, 0)), JOYCE_NO_ROOM);
    check("no archive", joyce_refusal(joyce_archive_count(NULL, 0)), JOYCE_BAD_ARCHIVE);
    check("no archive, entry", joyce_refusal(joyce_archive_entry(NULL, 0, 0)), JOYCE_BAD_ARCHIVE);
    check("no archive, find", joyce_refusal(joyce_archive_find(NULL, 0, 1, 1)), JOYCE_BAD_ARCHIVE);
    check("no picture to read", joyce_refusal(joyce_archive_read(NULL, 0, 0, NULL, 0)), JOYCE_BAD_LENGTH);
    uint64_t reply = joyce_archive_add(NULL, 0, 1, 1, 256, picture, sizeof picture, NULL, 0);
    check("no archive to add to", joyce_refusal(reply), JOYCE_BAD_ARCHIVE);
    check("no picture to add", joyce_refusal(joyce_archive_add(NULL, 0, 1, 1, 256, NULL, 0, NULL, 0)), JOYCE_BAD_LENGTH);
}

static void check_bad_record(joyce_board *board) {
    board->clock.counter = 16;
    check("bad record", joyce_refusal(joyce_draw(board, ram, sizeof ram, other, sizeof other)), JOYCE_BAD_RECORD);
}

static void check_numbers(void) {
    check("version", (long)joyce_version(), (long)JOYCE_VERSION);
    uint8_t line[JOYCE_LINE] = {0xA5}, wide[JOYCE_WIDE_LINE];
    check("widen", joyce_widen(line, sizeof line, wide, sizeof wide), 0);
    check("widened", wide[0] << 8 | wide[1], 0xCC33);
    check("widen, short", joyce_widen(line, 89, wide, sizeof wide), 2);
    check("make pointer", joyce_word(joyce_make_pointer(1, 0x1930)), 0x2C98);
    check("make pointer, bit 3", (long)(joyce_make_pointer(1, 8) >> 32), 3);
    uint64_t reply = joyce_read_pointer(0xFFFF);
    check("pointer block", joyce_block(reply), 7);
    check("pointer start", joyce_start(reply), 0x3FF7);
    check("roll", joyce_roll(0, 128), -128);
    reply = joyce_reach(16, 16, 0x80, 0x25, 0x98, 0x87, 0x00, 0x4005);
    check("reach, place", joyce_place(reply), 5);
    check("reach, read", joyce_read_block(reply), 2);
    check("reach, write", joyce_write_block(reply), 5);
    check("reach, sizes", joyce_refusal(joyce_reach(16, 15, 0, 0, 0, 0, 0, 0)), 6);
}

/* The number of four bytes, low first. */
static long number_at(const uint8_t *bytes, size_t at) {
    uint32_t number = 0;
    for (size_t i = 4; i > 0; i--) number = number << 8 | bytes[at + i - 1];
    return (long)number;
}

static uint64_t add(const uint8_t *archive, size_t len, uint32_t bench, uint32_t number, uint32_t shown,
                    uint8_t *room, size_t room_len) {
    return joyce_archive_add(archive, len, bench, number, shown, picture, sizeof picture, room, room_len);
}

static void check_archive_start(uint8_t *none) {
    memset(none, 0xEE, 21);
    check("start in 19 bytes", (long)(joyce_archive_start(none, 19) >> 32), JOYCE_NO_ROOM);
    check("nothing started", none[0], 0xEE);
    uint64_t reply = joyce_archive_start(none, 21);
    check("start", joyce_refusal(reply), JOYCE_ACCEPTED);
    check("started length", (long)joyce_archive_length(reply), (long)JOYCE_ARCHIVE_LENGTH(0));
    check("started form", number_at(none, 0), 1);
    check("started end", none[20], 0xEE);
    check("no frames", (long)joyce_archive_count(none, 20), 0);
    check("entry 0 of none", joyce_refusal(joyce_archive_entry(none, 20, 0)), JOYCE_BAD_FRAME);
}

/* Makes archives of one frame and of two; the second has 200 lines. */
static void check_archive_add(const uint8_t *none) {
    memset(picture, 0x77, sizeof picture);
    memset(two, 0xEE, sizeof two);
    check("bench 0", joyce_refusal(add(none, 20, 0, 1, 256, one, sizeof one)), JOYCE_BAD_FRAME);
    check("bench 65,536", joyce_refusal(add(none, 20, 65536, 1, 256, one, sizeof one)), JOYCE_BAD_FRAME);
    check("shown 255", joyce_refusal(add(none, 20, 1, 1, 255, one, sizeof one)), JOYCE_BAD_FRAME);
    check("short room", joyce_refusal(add(none, 20, 1, 1, 256, one, sizeof one - 1)), JOYCE_NO_ROOM);
    check("no room", joyce_refusal(add(none, 20, 1, 1, 256, NULL, 0)), JOYCE_NO_ROOM);
    uint64_t reply = joyce_archive_add(none, 20, 1, 1, 256, picture, sizeof picture - 1, one, sizeof one);
    check("short picture", joyce_refusal(reply), JOYCE_BAD_LENGTH);
    reply = add(none, 20, 65535, 0xFFFFFFFFu, 256, one, sizeof one);
    check("add", joyce_refusal(reply), JOYCE_ACCEPTED);
    check("added length", (long)joyce_archive_length(reply), 23076);
    check("offset of the picture", number_at(one, 32), 36);
    check("one frame", (long)joyce_archive_frames(joyce_archive_count(one, sizeof one)), 1);
    reply = add(one, sizeof one, 65535, 0xFFFFFFFFu, 256, two, sizeof two);
    check("the same again", joyce_refusal(reply), JOYCE_BAD_FRAME);
    reply = add(one, sizeof one, 12, 345, 200, two, sizeof two);
    check("second length", (long)joyce_archive_length(reply), (long)JOYCE_ARCHIVE_LENGTH(2));
    check("offset moved on", number_at(two, 32), 52);
    check("unshown line zero", two[52 + 23040 + 200 * JOYCE_LINE], 0);
    check("room behind", two[JOYCE_ARCHIVE_LENGTH(2)], 0xEE);
}

static void check_archive_read(void) {
    size_t len = JOYCE_ARCHIVE_LENGTH(2);
    uint64_t reply = joyce_archive_entry(two, len, 0);
    check("entry, bench", joyce_archive_bench(reply), 65535);
    check("entry, number", joyce_archive_number(reply) == 0xFFFFFFFFu, 1);
    check("entry, shown", joyce_archive_shown(reply), 256);
    reply = joyce_archive_find(two, len, 12, 345);
    check("found", joyce_found(reply), 1);
    check("its index", joyce_archive_index(reply), 1);
    check("not found", (long)joyce_archive_find(two, len, 345, 12), 0);
    memset(other, 0x11, sizeof other);
    reply = joyce_archive_read(two, len, 1, other, sizeof other);
    check("read, bench", joyce_archive_bench(reply), 12);
    check("read, number", (long)joyce_archive_number(reply), 345);
    check("read, shown", joyce_archive_shown(reply), 200);
    check("last shown byte", other[200 * JOYCE_LINE - 1], 0x77);
    check("unshown byte", other[200 * JOYCE_LINE], 0x11);
    check("entry 2", joyce_refusal(joyce_archive_read(two, len, 2, other, sizeof other)), JOYCE_BAD_FRAME);
    check("refused, shown", joyce_archive_shown(joyce_archive_entry(two, len, 2)), 0);
    check("short picture", joyce_refusal(joyce_archive_read(two, len, 0, other, sizeof other - 1)), JOYCE_BAD_LENGTH);
    check("too long", joyce_refusal(joyce_archive_count(two, len + 1)), JOYCE_BAD_ARCHIVE);
    two[len - 1] = 1;
    check("unshown not zero", joyce_refusal(joyce_archive_find(two, len, 12, 345)), JOYCE_BAD_ARCHIVE);
}

static void check_archives(void) {
    uint8_t none[21];
    check("most frames", (long)JOYCE_ARCHIVE_MAX, 1000);
    check("longest archive", (long)JOYCE_ARCHIVE_LENGTH(JOYCE_ARCHIVE_MAX), 23056020);
    check_archive_start(none);
    check_archive_add(none);
    check_archive_read();
}

int main(void) {
    joyce_board board;
    check_power_on(&board);
    check_steps(&board);
    check_picture(&board);
    check_block_end(&board);
    check_nothing_lent(&board);
    check_bad_record(&board);
    check_numbers();
    check_archives();
    printf("%d checks, %d failed\n", checks, failures);
    return failures != 0;
}
