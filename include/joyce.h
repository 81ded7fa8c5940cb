/* The Joyce main board: paging, lent RAM, ports, timer, beam, interrupt lines, keyboard table
 * and picture; and archives that keep pictures. C11 and C++.
 *
 * Every input is taken: any bytes in a record, any length, any number. What a function does not
 * accept it refuses with a number, and then it changes nothing: not the record, not lent memory
 * (but joyce_power_on, refused with 6, leaves a record of zeros). Lent memory must be there for the
 * length given, and is not kept; memory that a function writes must not overlap other lent memory.
 * A pointer to a record is never null; any other may be where its length is 0: NULL and 0 lend
 * nothing.
 *
 * The library is for x86-64 (System V calls, 64 bits: i386 and x32 fail the asserts below). It uses
 * SSE2 registers and the 128 bytes below the stack pointer, the red zone, as that convention lets a
 * function: an interrupt on the same stack keeps clear of both. It calls one function that it does
 * not have, memset; any C library has it, and firmware without one brings its own. A call uses at
 * most 1,024 bytes of stack, its return address and stacked arguments included (docs/DECISIONS.md,
 * 41, has the number of each function), and allocates nothing.
 *
 * It has no variables, so calls at the same time, from threads or an interrupt, are safe where none
 * writes what another is lent. A record has no pointer in it: it may be copied, and saved with its
 * RAM, in this machine's byte order, low first. What comes back is looked at like any record. The
 * dirty lines tell of one picture: after a return to saved state draw once, then refresh.
 *
 * Wiring a Z80: docs/WIRING.md has the whole of it, and examples/z80 is a complete host. In short:
 * - Each read, write, IN and OUT of the processor is a step, and so is each 64 us a scan: one for
 *   every 256 T-states at 4 MHz. Wait states are not modelled.
 * - In boot mode opcode and operand bytes are fetches, not the opcode alone; a processor that cannot
 *   tell operands from data sends every read in boot mode as a fetch.
 * - INT is a level: that of the latest reply, of whatever step. NMI is in one reply alone: keep it
 *   until it is taken.
 * - A port is the low eight bits of its address. A forwarded IN is given the byte of the host's own
 *   device. For one with no device, for one refused with 5, and for the bus at an interrupt
 *   acknowledge the papers leave the byte open; the 0 in the reply is no byte of the bus.
 * - An out to F8 whose value mod 16 is 1 resets the processor too. The reply does not say so.
 * - Refresh between any two steps, as often as wanted: once a frame, when clock.beam is back at 0.
 */
#ifndef JOYCE_H
#define JOYCE_H

#include <stddef.h>
#include <stdint.h>

#ifdef __cplusplus
#define JOYCE_ASSERT(what) static_assert(what, #what)
extern "C" {
#else
#define JOYCE_ASSERT(what) _Static_assert(what, #what)
#endif

/* The version of this interface. A change of the record's layout or of a reply raises it. */
#define JOYCE_VERSION 1u

#define JOYCE_BLOCK 16384u        /* bytes in a block; RAM is lent as total x 16,384 bytes */
#define JOYCE_LINE 90u            /* bytes in a line, leftmost pixel in the top bit */
#define JOYCE_WIDE_LINE 180u      /* bytes in a widened line */
#define JOYCE_PICTURE 23040u      /* bytes in a picture: 256 lines of 90 */
#define JOYCE_BOOT_MAX 1024u      /* bytes in the longest boot stream */

/* Refusal numbers, checked in this order; the first that applies is given. */
enum {
    JOYCE_ACCEPTED = 0,
    JOYCE_BAD_SIZES = 6,          /* power-on sizes not allowed, or a rate other than 50 or 60 */
    JOYCE_BAD_RECORD = 1,         /* the record is not good */
    JOYCE_BAD_LENGTH = 2,         /* a lent buffer has the wrong length */
    JOYCE_BAD_NUMBER = 3,         /* a number out of range, or given where none is taken */
    JOYCE_STREAM_ENDED = 4,       /* fetch in boot mode, boot.at at or past the boot stream's end */
    JOYCE_NO_PORT = 5,            /* not a port (document 01: channel) of this board */
    JOYCE_BAD_ARCHIVE = 10,       /* not a sound archive */
    JOYCE_BAD_FRAME = 11,         /* pair already there, a field out of range, k not below the count */
    JOYCE_NO_ROOM = 12            /* the archive is full, or its new length is over the room lent */
};

/* Kinds of step. */
enum {
    JOYCE_FETCH = 1,              /* number: address */
    JOYCE_READ = 2,               /* number: address */
    JOYCE_WRITE = 3,              /* number: address; value */
    JOYCE_IN = 4,                 /* number: port */
    JOYCE_OUT = 5,                /* number: port; value */
    JOYCE_SCAN = 6,
    JOYCE_KEYBOARD = 7,           /* number: offset 0 to 15; value */
    JOYCE_DISC_LINE = 8,          /* value: 0 off, 1 on */
    JOYCE_EXTERNAL_LINE = 9       /* value: 0 off, 1 on */
};

enum { JOYCE_ROUTE_NONE = 0, JOYCE_ROUTE_NMI = 1, JOYCE_ROUTE_INT = 2 };

/* The record: 64 bytes, at an address that is a multiple of 8. Flags are 0 or 1. A good record has
 * each field in range, no unshown line dirty, and never route NMI with the disc line on. An
 * accepted power-on gives a good record, and every call but a refused power-on leaves a good one
 * good. Bytes 11, 13, 17 and 27 to 31 are padding: no result depends on them, and what a call
 * leaves there is not promised. Compare fields, not bytes. */
typedef struct { uint8_t internal, total; } joyce_sizes;                        /* blocks */
typedef struct { uint8_t maps[4]; uint8_t lock; } joyce_paging;                 /* F0 to F3, F4 */
typedef struct { uint8_t table, top, control; } joyce_video;                    /* F5, F6, F7 */
typedef struct { uint8_t counter; uint16_t beam; } joyce_clock;                 /* 0 to 15; 0 to 311 or 259 */
typedef struct { uint8_t mode; uint16_t at; } joyce_boot;                       /* at: in the boot stream, 0 to 1,024 */
typedef struct { uint8_t route, line, terminal_count, motor; } joyce_disc;
typedef struct { uint64_t words[4]; } joyce_lines;                              /* line L: bit L % 64 of words[L / 64] */
typedef struct {
    joyce_sizes sizes;
    uint8_t rate;                                                               /* 50 or 60 */
    joyce_paging paging;
    joyce_video video;
    joyce_clock clock;
    joyce_boot boot;
    joyce_disc disc;
    uint8_t external, driven, bleeper;
    joyce_lines dirty;                                                          /* to be redrawn (document 01: noted) */
} joyce_board;

JOYCE_ASSERT(sizeof(size_t) == 8);
JOYCE_ASSERT(sizeof(joyce_sizes) == 2);
JOYCE_ASSERT(offsetof(joyce_sizes, total) == 1);
JOYCE_ASSERT(sizeof(joyce_paging) == 5);
JOYCE_ASSERT(offsetof(joyce_paging, lock) == 4);
JOYCE_ASSERT(sizeof(joyce_video) == 3);
JOYCE_ASSERT(offsetof(joyce_video, top) == 1);
JOYCE_ASSERT(offsetof(joyce_video, control) == 2);
JOYCE_ASSERT(sizeof(joyce_clock) == 4);
JOYCE_ASSERT(offsetof(joyce_clock, beam) == 2);
JOYCE_ASSERT(sizeof(joyce_boot) == 4);
JOYCE_ASSERT(offsetof(joyce_boot, at) == 2);
JOYCE_ASSERT(sizeof(joyce_disc) == 4);
JOYCE_ASSERT(offsetof(joyce_disc, line) == 1);
JOYCE_ASSERT(offsetof(joyce_disc, terminal_count) == 2);
JOYCE_ASSERT(offsetof(joyce_disc, motor) == 3);
JOYCE_ASSERT(sizeof(joyce_lines) == 32);
JOYCE_ASSERT(sizeof(joyce_board) == 64);
JOYCE_ASSERT(offsetof(joyce_board, sizes) == 0);
JOYCE_ASSERT(offsetof(joyce_board, rate) == 2);
JOYCE_ASSERT(offsetof(joyce_board, paging) == 3);
JOYCE_ASSERT(offsetof(joyce_board, video) == 8);
JOYCE_ASSERT(offsetof(joyce_board, clock) == 12);
JOYCE_ASSERT(offsetof(joyce_board, boot) == 16);
JOYCE_ASSERT(offsetof(joyce_board, disc) == 20);
JOYCE_ASSERT(offsetof(joyce_board, external) == 24);
JOYCE_ASSERT(offsetof(joyce_board, driven) == 25);
JOYCE_ASSERT(offsetof(joyce_board, bleeper) == 26);
JOYCE_ASSERT(offsetof(joyce_board, dirty) == 32);

/* The JOYCE_VERSION that the library was built with. */
uint32_t joyce_version(void);

/* Powers a board on: boot mode, boot.at 0, route none, terminal count on, driven, motor and
 * bleeper off, counter 0, F7 = 0, beam 0, disc line and external line off, all shown lines dirty;
 * the rest as given. internal is 8, 16 or 32, total from internal to 128, rate 50 or 60; otherwise
 * refusal 6 and a record of zeros. */
uint64_t joyce_power_on(joyce_board *board, uint8_t internal, uint8_t total, uint8_t rate,
                        uint8_t f0, uint8_t f1, uint8_t f2, uint8_t f3, uint8_t lock,
                        uint8_t f5, uint8_t f6);

/* Makes one step on the record and the RAM. Reply: byte (0 where there is none), INT, NMI,
 * forwarded, refusal 1 to 5. A step makes a shown line dirty exactly if F5, F6, or D7 or D6 of F7
 * comes to differ, or the line's pointer word, or one of the 90 bytes named by its pointer before
 * (joyce_draw says where they are).
 * NMI is shown once; the route is none afterwards. After a refusal INT and NMI are those of the
 * record, off for 1. The boot stream is at most 1,024 bytes and only read by a fetch in boot mode;
 * where there is none, NULL and 0. A kind outside 1 to 9, a number or value wider than the kind
 * takes, and one other than 0 that it does not take are refused with 3, after 1 and 2.
 *
 * What a host may do without a step: read, and fetch out of boot mode, from the lent RAM at the read
 * block (joyce_reach) and place, and store at a write block of 8 and above. Such a step would do
 * just that and leave the record and INT as they are. The blocks of a bank stand until an out to F0
 * to F4 or a power-on. */
uint64_t joyce_step(joyce_board *board, uint32_t kind, uint32_t number, uint32_t value,
                    uint8_t *ram, size_t ram_len, const uint8_t *boot, size_t boot_len);

/* Writes all shown lines of the picture (256 on 50 Hz, 200 on 60 Hz) and no other byte; the record
 * stays. Byte i of a line (0 to 89) is drawn from the RAM's byte at block x 16,384 + start + 8i,
 * taken mod 131,072, block and start being those of the line's pointer: a line runs on into the next
 * block, and from block 7 into block 0. Reply: floating, refusal 1 or 2. */
uint64_t joyce_draw(const joyce_board *board, const uint8_t *ram, size_t ram_len,
                    uint8_t *picture, size_t picture_len);

/* Writes the dirty lines of the picture, as draw would, and no other byte; no line is dirty
 * afterwards. Reply: count (the number of dirty lines before), floating, refusal 1 or 2. */
uint64_t joyce_refresh(joyce_board *board, const uint8_t *ram, size_t ram_len,
                       uint8_t *picture, size_t picture_len);

/* The first dirty line at or after n (0 to 255). Reply: found, line, refusal 1 or 3. */
uint64_t joyce_next_dirty(const joyce_board *board, uint32_t n);

/* The first position, in reading order, where two pictures differ. Reply: found, line, pixel (0 to
 * 719), refusal 2. All 256 lines count. */
uint64_t joyce_first_difference(const uint8_t *a, size_t a_len, const uint8_t *b, size_t b_len);

/* Widens one line of 90 bytes to 180, each pixel twice. Gives the refusal number itself: 0 or 2. */
uint8_t joyce_widen(const uint8_t *line, size_t line_len, uint8_t *out, size_t out_len);

/* The pointer word of a block (0 to 7) and a start (0 to 16,383, bit 3 clear). Reply: word,
 * refusal 3. Reading the word gives block and start back. */
uint64_t joyce_make_pointer(uint32_t block, uint32_t start);

/* Block and start of any pointer word. Reply: block, start; never refused. */
uint64_t joyce_read_pointer(uint16_t word);

/* The number from -128 to 127 that added to the old top line gives the new one, mod 256. */
int8_t joyce_roll(uint8_t old_top, uint8_t new_top);

/* Where an access lands under these sizes, maps and lock. Reply: place, read block, write block;
 * refusal 6 for sizes not allowed. */
uint64_t joyce_reach(uint8_t internal, uint8_t total, uint8_t f0, uint8_t f1, uint8_t f2,
                     uint8_t f3, uint8_t lock, uint16_t address);

/* An archive (document 02: a book of frames) keeps up to 1,000 frames in one run of bytes, so that
 * it can be written to a file as it is. A frame is a bench (1 to 65,535), a number (any of 32 bits)
 * and its shown lines (200 or 256 lines of 90 bytes); a bench and number stand once. All numbers are
 * four bytes, low first:
 *
 *   header    form 1, count n, offset of entries 20, offset of pictures 20 + 16n, length 20 + 23,056n
 *   entries   n times: bench, number, shown lines, offset of the picture
 *   pictures  n times 23,040 bytes in entry order, unshown lines zero
 *
 * Every function that is lent an archive looks the whole of it over, after 2, and refuses with 10
 * what is not sound: a form, count, offset or length other than these, or a length other than
 * archive_len, a field out of range, a bench and number twice, an unshown line that is not zero. So
 * two sound archives of the same frames are the same bytes. A call that is refused writes nothing,
 * and no call writes behind what it says. */
#define JOYCE_ARCHIVE_MAX 1000u   /* frames in the largest archive */
#define JOYCE_ARCHIVE_LENGTH(n) ((size_t)20u + (size_t)23056u * (size_t)(n)) /* bytes in one of n */

/* Writes the archive of no frames to the front of the room. Reply: length (20), refusal 12. */
uint64_t joyce_archive_start(uint8_t *room, size_t room_len);

/* How many frames an archive holds. Reply: frames, refusal 10. */
uint64_t joyce_archive_count(const uint8_t *archive, size_t archive_len);

/* Entry k, from 0. Reply: bench, number, shown, refusal 10 or 11. */
uint64_t joyce_archive_entry(const uint8_t *archive, size_t archive_len, uint32_t k);

/* Which entry has a bench and number. Reply: found, index, refusal 10. */
uint64_t joyce_archive_find(const uint8_t *archive, size_t archive_len, uint32_t bench,
                            uint32_t number);

/* Writes the shown lines of entry k to the front of a picture of 23,040 bytes, and no other byte of
 * it. Reply: bench, number, shown, refusal 2, 10 or 11. */
uint64_t joyce_archive_read(const uint8_t *archive, size_t archive_len, uint32_t k,
                            uint8_t *picture, size_t picture_len);

/* Writes an archive with one frame more, its last, to the front of the room; the one lent stays as
 * it is. Of the picture, 23,040 bytes, the first 200 or 256 lines are taken, as shown says. Reply:
 * length (that of the new archive), refusal 2, 10, 11 or 12. */
uint64_t joyce_archive_add(const uint8_t *archive, size_t archive_len, uint32_t bench,
                           uint32_t number, uint32_t shown, const uint8_t *picture,
                           size_t picture_len, uint8_t *room, size_t room_len);

/* The parts of a reply. Each is 0 where there is none. */
static inline uint8_t joyce_byte(uint64_t reply) { return (uint8_t)reply; }            /* of a step */
static inline uint16_t joyce_count(uint64_t reply) { return (uint16_t)reply; }         /* of a refresh */
static inline int joyce_int(uint64_t reply) { return (int)(reply >> 16 & 1); }
static inline int joyce_nmi(uint64_t reply) { return (int)(reply >> 17 & 1); }
static inline int joyce_forwarded(uint64_t reply) { return (int)(reply >> 18 & 1); }   /* to the host (document 01: passed on) */
static inline int joyce_floating(uint64_t reply) { return (int)(reply >> 19 & 1); }    /* the video is not driven */
static inline int joyce_found(uint64_t reply) { return (int)(reply >> 20 & 1); }       /* a line, position or entry was found */
static inline uint8_t joyce_line(uint64_t reply) { return (uint8_t)reply; }
static inline uint16_t joyce_pixel(uint64_t reply) { return (uint16_t)(reply >> 40); }
static inline uint8_t joyce_refusal(uint64_t reply) { return (uint8_t)(reply >> 32); }
static inline uint8_t joyce_read_block(uint64_t reply) { return (uint8_t)(reply >> 40); }   /* of a reach */
static inline uint8_t joyce_write_block(uint64_t reply) { return (uint8_t)(reply >> 48); }  /* of a reach */
static inline uint16_t joyce_place(uint64_t reply) { return (uint16_t)reply; }         /* of a reach */
static inline uint16_t joyce_word(uint64_t reply) { return (uint16_t)reply; }          /* of a made pointer */
static inline uint8_t joyce_block(uint64_t reply) { return (uint8_t)(reply >> 40); }   /* of a read pointer */
static inline uint16_t joyce_start(uint64_t reply) { return (uint16_t)reply; }         /* of a read pointer */

/* The parts of a reply about an archive: these, joyce_refusal, and of a find joyce_found. */
static inline uint32_t joyce_archive_length(uint64_t reply) { return (uint32_t)reply; }  /* of a start, an add */
static inline uint32_t joyce_archive_frames(uint64_t reply) { return (uint32_t)reply; }  /* of a count */
static inline uint16_t joyce_archive_index(uint64_t reply) { return (uint16_t)reply; }   /* of a find */
static inline uint32_t joyce_archive_number(uint64_t reply) { return (uint32_t)reply; }  /* of an entry, a read */
static inline uint16_t joyce_archive_bench(uint64_t reply) { return (uint16_t)(reply >> 40); }
static inline uint16_t joyce_archive_shown(uint64_t reply) {                             /* 200, 256 or 0 */
    return reply >> 57 & 1 ? 256 : reply >> 56 & 1 ? 200 : 0;
}

#ifdef __cplusplus
}
#endif

#endif
