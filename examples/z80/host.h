/* A host of the Joyce main board: a Z80 core, the board, and what lies between them. */
#ifndef HOST_H
#define HOST_H

#include "device.h"
#include "joyce.h"

#include <z80ex/z80ex.h>

#define BLOCKS 16u              /* a 256K machine */
#define RAM_LENGTH (BLOCKS * JOYCE_BLOCK)

typedef struct {
    joyce_board board;
    uint8_t ram[RAM_LENGTH];
    uint8_t boot[BOOT_STREAM];
    Z80EX_CONTEXT *cpu;
    device device;

    int int_line;               /* INT, as the latest reply shows it */
    int nmi_latch;              /* NMI was shown and the core has not taken it */
    int reset_due;              /* this instruction has reset the board */
    int frame_over;             /* the beam has come back to 0 */
    int stopped;                /* by a refusal; a message has been written */

    int short_cuts;             /* read RAM, and store to blocks from 8 up, without a step */
    const uint8_t *read_at[4];  /* for each bank the block it reads from; NULL: by a step */
    uint8_t *write_at[4];       /* for each bank the block it writes to; NULL: by a step */

    unsigned scan_t_states;     /* T-states since the last scan */
    uint64_t t_states, steps, refused;
} host;

/* Powers board and core on. 1, or 0 if that was refused; a message has been written then. */
int host_power_on(host *h, int short_cuts);

/* Runs until the beam has come back to 0. 1, or 0 if the run stopped. */
int host_frame(host *h);

void host_power_off(host *h);

#endif
