/* Runs the Z80 program for some frames. After each frame the refreshed picture must be as a full draw
 * makes it. The last line written is the same in every run, with short cuts or without. */

#include "host.h"

#include <stdio.h>
#include <stdlib.h>
#include <string.h>
#include <time.h>

#define FEWEST_FRAMES 20        /* the program needs a dozen until its page stands */
#define MOST_FRAMES 10000       /* its tick count is a word, and a frame has six ticks */
#define TICKS 0x01F0u           /* where page.asm keeps its counts, in block 0 */
#define ROLLS 0x01F2u
#define NMIS 0x01F4u

typedef struct {
    long frames;
    int short_cuts;
    const char *picture;        /* file, or NULL */
} options;

typedef struct {
    long lines;                 /* drawn by all refreshes */
    uint32_t crc;               /* of all pictures, one after the other */
    clock_t time;               /* taken by core and steps, without draw and comparison */
} results;

static host machine;
static uint8_t picture[JOYCE_PICTURE], afresh[JOYCE_PICTURE];

static int usage(void) {
    fprintf(stderr, "usage: z80 [--frames N] [--short-cuts] [--picture FILE]   (N from %d to %d)\n",
            FEWEST_FRAMES, MOST_FRAMES);
    return 0;
}

static int read_options(int argc, char **argv, options *o) {
    char none = 0, *end = &none;
    for (int i = 1; i < argc; i++) {
        int more = i + 1 < argc;
        if (strcmp(argv[i], "--short-cuts") == 0)
            o->short_cuts = 1;
        else if (more && strcmp(argv[i], "--picture") == 0)
            o->picture = argv[++i];
        else if (more && strcmp(argv[i], "--frames") == 0)
            o->frames = strtol(argv[++i], &end, 10);
        else
            return usage();
    }
    return *end == 0 && o->frames >= FEWEST_FRAMES && o->frames <= MOST_FRAMES ? 1 : usage();
}

/* CRC-32 as zip and PNG have it; crc is that of the bytes before, 0 if there are none. */
static uint32_t crc32(uint32_t crc, const uint8_t *bytes, size_t length) {
    crc = ~crc;
    for (size_t i = 0; i < length; i++) {
        crc ^= bytes[i];
        for (int bit = 0; bit < 8; bit++)
            crc = crc >> 1 ^ (crc & 1 ? 0xEDB88320 : 0);
    }
    return ~crc;
}

/* A word of the program's, in block 0. */
static long word_at(unsigned place) {
    return machine.ram[place] + 256L * machine.ram[place + 1];
}

/* Draws the dirty lines, and all lines into a second picture. 1, or 0 if the two differ. */
static int check_picture(long frame, results *r) {
    uint64_t reply = joyce_refresh(&machine.board, machine.ram, RAM_LENGTH, picture, JOYCE_PICTURE);
    uint64_t drawn = joyce_draw(&machine.board, machine.ram, RAM_LENGTH, afresh, JOYCE_PICTURE);
    if (joyce_refusal(reply) || joyce_refusal(drawn)) {
        fprintf(stderr, "frame %ld: refresh refused with %d, draw with %d\n", frame, joyce_refusal(reply),
                joyce_refusal(drawn));
        return 0;
    }
    if (memcmp(picture, afresh, JOYCE_PICTURE) != 0) {
        uint64_t where = joyce_first_difference(picture, JOYCE_PICTURE, afresh, JOYCE_PICTURE);
        fprintf(stderr, "frame %ld: line %d, pixel %d is not as drawn afresh\n", frame, joyce_line(where),
                joyce_pixel(where));
        return 0;
    }
    r->lines += joyce_count(reply);
    r->crc = crc32(r->crc, picture, JOYCE_PICTURE);
    return 1;
}

static int run(long frames, results *r) {
    for (long frame = 1; frame <= frames; frame++) {
        clock_t start = clock();
        int good = host_frame(&machine);
        r->time += clock() - start;
        if (!good || !check_picture(frame, r))
            return 0;
    }
    if (machine.board.boot.mode == 1) {
        fprintf(stderr, "still in boot mode after %ld frames, %d bytes into the stream\n", frames,
                machine.board.boot.at);
        return 0;
    }
    return 1;
}

/* Pixels that are on become ink. */
static int write_picture(const char *path) {
    FILE *file = fopen(path, "wb");
    int good = file != NULL && fputs("P4\n720 256\n", file) >= 0
               && fwrite(picture, 1, JOYCE_PICTURE, file) == JOYCE_PICTURE;
    if (file != NULL)
        good = fclose(file) == 0 && good;
    if (!good)
        perror(path);
    return good;
}

static void report(long frames, const results *r) {
    double seconds = (double)r->time / CLOCKS_PER_SEC;
    double megahertz = seconds > 0 ? (double)machine.t_states / seconds / 1e6 : 0;
    fprintf(stderr, "%llu T-states in %.3f s: %.1f MHz; %llu steps\n", (unsigned long long)machine.t_states,
            seconds, megahertz, (unsigned long long)machine.steps);
    printf("%ld frames: %ld ticks taken, %ld rolls, %ld NMIs, %ld of %ld lines refreshed, %llu steps refused, "
           "every picture as drawn afresh; CRC32 of the pictures %08lx, of the RAM %08lx\n",
           frames, word_at(TICKS), word_at(ROLLS), word_at(NMIS), r->lines, 256 * frames,
           (unsigned long long)machine.refused, (unsigned long)r->crc,
           (unsigned long)crc32(0, machine.ram, RAM_LENGTH));
}

/* Exit status 0 if all went as it should, 1 if not, 2 for a wrong argument or file. */
int main(int argc, char **argv) {
    options o = {300, 0, NULL};
    results r = {0, 0, 0};
    int good;
    if (!read_options(argc, argv, &o))
        return 2;
    memset(picture, 0xFF, JOYCE_PICTURE);       /* anything: after power-on every line is dirty */
    if (!host_power_on(&machine, o.short_cuts))
        return 1;
    good = run(o.frames, &r);
    host_power_off(&machine);
    if (o.picture != NULL && !write_picture(o.picture))
        return 2;
    if (!good)
        return 1;
    report(o.frames, &r);
    if (word_at(TICKS) != 6 * o.frames)
        fputs("the program has not taken six ticks in each frame\n", stderr);
    return machine.refused == 0 && word_at(TICKS) == 6 * o.frames ? 0 : 1;
}
