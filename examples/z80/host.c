/* The wiring between a Z80 core (libz80ex) and the board. WAIT states are not modelled. */

#include "host.h"

#include <stdio.h>
#include <string.h>

#define T_STATES_PER_SCAN 256u  /* 64 microseconds at 4 MHz */

static const char *const kind_names[] = {"kind 0", "FETCH", "READ", "WRITE", "IN", "OUT", "SCAN",
                                         "KEYBOARD", "DISC_LINE", "EXTERNAL_LINE"};

/* Port not of this board (5): the program's fault, counted, and the run goes on. Boot stream ended
 * (4): no byte for the core, and a host that goes on feeds it NOPs for ever. Others: a bug here. */
static void refuse(host *h, uint32_t kind, uint32_t number, uint32_t value, uint8_t refusal) {
    h->refused++;
    if (h->stopped || (refusal == JOYCE_NO_PORT && h->refused > 1))
        return;
    fprintf(stderr, "%s %02lXh, value %02lXh: refused with %d", kind_names[kind], (unsigned long)number,
            (unsigned long)value, refusal);
    if (refusal == JOYCE_NO_PORT) {
        fputs(", not a port of this board\n", stderr);
        return;
    }
    h->stopped = 1;
    fputs(refusal == JOYCE_STREAM_ENDED ? ": the boot stream has ended, boot mode has not\n"
                                        : ": a bug of this host\n", stderr);
}

/* Every step goes through here. RAM and boot stream are lent with each: a reset starts the stream
 * again. A host without one lends NULL with length 0. */
static uint64_t step(host *h, uint32_t kind, uint32_t number, uint32_t value) {
    uint64_t reply = joyce_step(&h->board, kind, number, value, h->ram, RAM_LENGTH, h->boot, BOOT_STREAM);
    h->steps++;
    /* INT is a level: the latest reply has it, a refused one too. NMI is in one reply only, so it is
     * kept until the core takes it. */
    h->int_line = joyce_int(reply);
    if (joyce_nmi(reply))
        h->nmi_latch = 1;
    if (joyce_refusal(reply) != JOYCE_ACCEPTED)
        refuse(h, kind, number, value, joyce_refusal(reply));
    return reply;
}

/* The short cuts. A data read, and a fetch outside boot mode, change nothing; a store to a block from
 * 8 up changes its byte and nothing else, for no line is drawn from there. Nor can INT change by
 * them. So the host may make them itself, if it knows where they land: that depends on maps and lock.
 * Asked after power-on, each OUT to F0 to F4, and each to F8, which ends boot mode or resets. */
static void find_short_cuts(host *h) {
    const joyce_board *b = &h->board;
    const uint8_t *maps = b->paging.maps;
    if (!h->short_cuts)
        return;
    for (unsigned bank = 0; bank < 4; bank++) {
        uint64_t reach = joyce_reach(b->sizes.internal, b->sizes.total, maps[0], maps[1], maps[2], maps[3],
                                     b->paging.lock, (uint16_t)(bank * JOYCE_BLOCK));
        unsigned from = joyce_read_block(reach), to = joyce_write_block(reach);
        h->read_at[bank] = b->boot.mode ? NULL : h->ram + from * JOYCE_BLOCK;
        h->write_at[bank] = to < 8 ? NULL : h->ram + to * JOYCE_BLOCK;
    }
}

/* In boot mode operands are fetches too: the stream is made of LD (HL),n. This core marks opcodes
 * (m1), but not what is operand and what is data, so in boot mode every read is a fetch, and a boot
 * stream must not read data. */
static Z80EX_BYTE on_read(Z80EX_CONTEXT *cpu, Z80EX_WORD address, int m1, void *user) {
    host *h = user;
    const uint8_t *block = h->read_at[address / JOYCE_BLOCK];
    (void)cpu;
    if (block != NULL)
        return block[address % JOYCE_BLOCK];
    return joyce_byte(step(h, m1 || h->board.boot.mode == 1 ? JOYCE_FETCH : JOYCE_READ, address, 0));
}

static void on_write(Z80EX_CONTEXT *cpu, Z80EX_WORD address, Z80EX_BYTE value, void *user) {
    host *h = user;
    uint8_t *block = h->write_at[address / JOYCE_BLOCK];
    (void)cpu;
    if (block != NULL)
        block[address % JOYCE_BLOCK] = value;
    else
        step(h, JOYCE_WRITE, address, value);
}

/* A line of the host's devices goes to the board as a step, where it has changed. */
static void pass_disc_line(host *h) {
    if (h->device.disc_line != h->board.disc.line)
        step(h, JOYCE_DISC_LINE, 0, h->device.disc_line);
}

/* The port is the low byte of the core's port address. A forwarded IN is answered by the host's
 * device; for a port that the board does not have the papers name no value, and this host has FFh. */
static Z80EX_BYTE on_in(Z80EX_CONTEXT *cpu, Z80EX_WORD port_address, void *user) {
    host *h = user;
    uint8_t port = (uint8_t)port_address;
    uint64_t reply = step(h, JOYCE_IN, port, 0);
    uint8_t byte = joyce_refusal(reply) != JOYCE_ACCEPTED ? 0xFF : joyce_byte(reply);
    (void)cpu;
    if (joyce_forwarded(reply)) {
        byte = device_in(&h->device, port);
        pass_disc_line(h);
    }
    return byte;
}

/* F8 with command 1 resets the processor too. The reply does not say so: the host looks at its own
 * OUT, and lets the core end the instruction first. */
static void on_out(Z80EX_CONTEXT *cpu, Z80EX_WORD port_address, Z80EX_BYTE value, void *user) {
    host *h = user;
    uint8_t port = (uint8_t)port_address;
    uint64_t reply = step(h, JOYCE_OUT, port, value);
    (void)cpu;
    if (joyce_refusal(reply) != JOYCE_ACCEPTED)
        return;
    if (joyce_forwarded(reply)) {
        device_out(&h->device, port, value);
        pass_disc_line(h);
    }
    if (port == 0xF8 && value % 16 == 1)
        h->reset_due = 1;
    if (port == 0xF8 || (port >= 0xF0 && port <= 0xF4))
        find_short_cuts(h);
}

/* What is on the bus at an interrupt acknowledge, the papers do not say. In IM 1 it does not matter. */
static Z80EX_BYTE on_acknowledge(Z80EX_CONTEXT *cpu, void *user) {
    (void)cpu;
    (void)user;
    return 0xFF;
}

/* Passes T-states on to the beam: a scan for each 256. */
static void pass(host *h, int t_states) {
    h->t_states += (unsigned)t_states;
    h->scan_t_states += (unsigned)t_states;
    while (h->scan_t_states >= T_STATES_PER_SCAN) {
        h->scan_t_states -= T_STATES_PER_SCAN;
        step(h, JOYCE_SCAN, 0, 0);
        if (h->board.clock.beam == 0)
            h->frame_over = 1;
    }
}

/* One instruction, or one prefix of it, then what may follow. Where the core cannot take an interrupt
 * (behind a prefix or EI, INT while interrupts are off) it gives 0, and is offered it again. */
static void instruction(host *h) {
    pass(h, z80ex_step(h->cpu));
    if (h->reset_due) {
        z80ex_reset(h->cpu);
        device_reset(&h->device);       /* the devices have the reset line too */
        pass_disc_line(h);
        h->nmi_latch = 0;
        h->reset_due = 0;
    }
    if (h->nmi_latch) {
        int taken = z80ex_nmi(h->cpu);
        h->nmi_latch = taken == 0;
        pass(h, taken);
    }
    if (h->int_line)
        pass(h, z80ex_int(h->cpu));
}

int host_power_on(host *h, int short_cuts) {
    memset(h, 0, sizeof *h);
    h->short_cuts = short_cuts;
    for (unsigned i = 0; i < RAM_LENGTH; i++)   /* RAM holds anything after power-on */
        h->ram[i] = (uint8_t)((i * 40503u) >> 8);
    device_boot_stream(h->boot);
    device_reset(&h->device);
    /* Only F0 is as the program will have it: the boot stream writes through it. F5 puts the table
     * where the stack will be. */
    if (joyce_refusal(joyce_power_on(&h->board, BLOCKS, BLOCKS, 50, 0x80, 0x84, 0x85, 0x86, 0x00, 0xFF, 0x05))) {
        fputs("power-on refused: sizes or rate\n", stderr);
        return 0;
    }
    h->cpu = z80ex_create(on_read, h, on_write, h, on_in, h, on_out, h, on_acknowledge, h);
    if (h->cpu == NULL) {
        fputs("no memory for the core\n", stderr);
        return 0;
    }
    find_short_cuts(h);
    return 1;
}

int host_frame(host *h) {
    h->frame_over = 0;
    while (!h->frame_over && !h->stopped)
        instruction(h);
    return !h->stopped;
}

void host_power_off(host *h) {
    z80ex_destroy(h->cpu);
}
