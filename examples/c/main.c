/* The smallest complete program: a board with one line of pixels, its picture, and an archive that
 * keeps it. C11 and C++17 alike. From the repository's root:
 *
 *     gcc -I include examples/c/main.c target/staticlib/libjoyce.a -o example
 */

#include "joyce.h"

#include <stdio.h>
#include <stdlib.h>

/* The library allocates nothing and keeps no pointer: board, RAM, picture and room for archives are
 * the caller's, and are lent with each call. */
static joyce_board board;
static uint8_t ram[8 * JOYCE_BLOCK];            /* a 128K machine: 8 blocks of 16,384 bytes */
static uint8_t picture[JOYCE_PICTURE], again[JOYCE_PICTURE];
static uint8_t empty[JOYCE_ARCHIVE_LENGTH(0)], archive[JOYCE_ARCHIVE_LENGTH(1)];

/* Gives the reply on. What is refused has a number, changes nothing, and ends this program. */
static uint64_t accepted(const char *what, uint64_t reply) {
    if (joyce_refusal(reply) != JOYCE_ACCEPTED) {
        fprintf(stderr, "%s: refused with %d\n", what, joyce_refusal(reply));
        exit(1);
    }
    return reply;
}

/* One step. This board needs no boot stream, so it is lent none: NULL with length 0. */
static uint64_t step(const char *what, uint32_t kind, uint32_t number, uint32_t value) {
    return accepted(what, joyce_step(&board, kind, number, value, ram, sizeof ram, NULL, 0));
}

/* Draws the lines that are dirty, and no others. */
static void refresh(void) {
    uint64_t reply = accepted("refresh", joyce_refresh(&board, ram, sizeof ram, picture, sizeof picture));
    printf("lines drawn: %d; line 0 begins", joyce_count(reply));
    for (int i = 0; i < 4; i++)
        printf(" %02X", (unsigned)picture[i]);
    printf("\n");
}

/* Line 0 of CP/M's standard screen: its pointer stands in block 2 at 3600h, its pixels start in
 * block 1 at 1930h. The maps show block n in bank n, so these are addresses B600h and 5930h. */
static void make_line(void) {
    uint32_t word = joyce_word(accepted("pointer", joyce_make_pointer(1, 0x1930)));
    printf("pointer of block 1, start 1930h: %04X\n", (unsigned)word);
    step("pointer, low byte", JOYCE_WRITE, 0xB600, word % 256);
    step("pointer, high byte", JOYCE_WRITE, 0xB601, word / 256);
    step("table at block 2, 3600h", JOYCE_OUT, 0xF5, 0x5B);
    step("video on", JOYCE_OUT, 0xF7, 0x40);
    refresh();                                  /* all lines are dirty after power-on */
    step("eight pixels", JOYCE_WRITE, 0x5930, 0xA5);
    refresh();                                  /* the one line that the byte is in */
    step("the second eight", JOYCE_WRITE, 0x5938, 0xFF);    /* the next byte of a line is eight on */
    refresh();
}

/* Keeps the picture as frame 42 of bench 7, and reads it back. An archive is added to by writing the
 * next one, with the frame, into other room. */
static void keep(void) {
    uint64_t reply = accepted("archive, start", joyce_archive_start(empty, sizeof empty));
    size_t length = joyce_archive_length(reply);
    reply = accepted("archive, add", joyce_archive_add(empty, length, 7, 42, 256, picture, sizeof picture,
                                                       archive, sizeof archive));
    length = joyce_archive_length(reply);
    printf("archive: %u bytes\n", (unsigned)length);
    reply = accepted("archive, find", joyce_archive_find(archive, length, 7, 42));
    if (!joyce_found(reply)) {
        fprintf(stderr, "frame 42 of bench 7 is not there\n");
        exit(1);
    }
    reply = accepted("archive, read",
                     joyce_archive_read(archive, length, joyce_archive_index(reply), again, sizeof again));
    printf("read: bench %d, number %u, %d lines\n", joyce_archive_bench(reply),
           (unsigned)joyce_archive_number(reply), joyce_archive_shown(reply));
    reply = accepted("comparison", joyce_first_difference(picture, sizeof picture, again, sizeof again));
    if (joyce_found(reply)) {
        fprintf(stderr, "it is not the picture that was kept\n");
        exit(1);
    }
    printf("it is the picture that was kept\n");
}

int main(void) {
    if (joyce_version() != JOYCE_VERSION) {
        fprintf(stderr, "header and library are of different versions\n");
        return 1;
    }
    /* 8 blocks internal, 8 in all; 50 Hz; maps F0 to F3, no lock, F5, F6. */
    accepted("power-on", joyce_power_on(&board, 8, 8, 50, 0x80, 0x81, 0x82, 0x83, 0x00, 0x00, 0x00));
    step("end of boot mode", JOYCE_OUT, 0xF8, 0);   /* from here on fetches come from RAM */
    make_line();
    keep();
    return 0;
}
