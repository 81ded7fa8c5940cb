#include "device.h"

/* The assembled programs, as build.sh writes them: a list of bytes each. */
static const uint8_t boot_program[] = {
#include "boot.inc"
};
static const uint8_t main_program[] = {
#include "page.inc"
};

_Static_assert(sizeof boot_program == 256, "boot.asm must make 256 bytes");

#define DISC_DATA 0x01u
#define PROGRAM 0x80u

void device_boot_stream(uint8_t stream[BOOT_STREAM]) {
    static const uint8_t first[] = {0x21, 0x02, 0x00};           /* LD HL,0002h */
    static const uint8_t last[] = {0x3E, 0x00, 0xC3, 0x00, 0x00, /* LD A,0; JP 0000h */
                                   0xD3, 0xF8};                  /* OUT (F8h),A: the next fetch is at 0002h */
    size_t at = 0;
    for (size_t i = 0; i < sizeof first; i++)
        stream[at++] = first[i];
    for (size_t i = 0; i < sizeof boot_program; i++) {
        stream[at++] = 0x36;                                     /* LD (HL),n */
        stream[at++] = boot_program[i];
        stream[at++] = 0x23;                                     /* INC HL */
    }
    for (size_t i = 0; i < sizeof last; i++)
        stream[at++] = last[i];
}

void device_reset(device *d) {
    d->at = 0;
    d->disc_line = 0;
}

uint8_t device_in(device *d, uint8_t port) {
    size_t at = d->at;
    if (port == DISC_DATA) {
        d->disc_line = 0;
        return 0;
    }
    /* The papers leave open what an IN gives where nothing answers: here FFh. */
    if (port != PROGRAM || at >= 2 + sizeof main_program)
        return 0xFF;
    d->at++;
    if (at < 2)                                                  /* first the length, low byte first */
        return (uint8_t)(sizeof main_program >> 8 * at);
    return main_program[at - 2];
}

void device_out(device *d, uint8_t port, uint8_t value) {
    (void)value;
    if (port == DISC_DATA)
        d->disc_line = 1;
    if (port == PROGRAM)
        d->at = 0;
}
