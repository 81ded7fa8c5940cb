/* What the host brings to the board: the boot stream; a device on an expansion port that hands out the
 * main program; and a stand-in for the disc controller, which has nothing but its interrupt line. */
#ifndef DEVICE_H
#define DEVICE_H

#include <stddef.h>
#include <stdint.h>

#define BOOT_STREAM 778u        /* bytes, as document 003 says */

typedef struct {
    size_t at;                  /* bytes handed out */
    uint8_t disc_line;          /* on from a command to the disc controller until its result is read */
} device;

/* Writes the boot stream, which makes the boot program at 0002h to 0101h and ends boot mode. */
void device_boot_stream(uint8_t stream[BOOT_STREAM]);

/* Winds back, and turns the disc line off: the reset line goes to both. */
void device_reset(device *d);

/* Answers an IN that the board forwarded. */
uint8_t device_in(device *d, uint8_t port);

/* Takes an OUT that the board forwarded. */
void device_out(device *d, uint8_t port, uint8_t value);

#endif
