/* A program without a C library: its own start, its own memset, and nothing else that libjoyce.a might ask for. It ends with status 0
 * if the board was powered on, stepped and drawn. x86-64 Linux. */

#include "joyce.h"

static joyce_board board;
static uint8_t ram[8 * JOYCE_BLOCK], picture[JOYCE_PICTURE];

void *memset(void *to, int value, size_t count) {
    volatile uint8_t *at = (volatile uint8_t *)to;   /* volatile, or the compiler makes a call of memset of the loop */
    while (count-- > 0) *at++ = (uint8_t)value;
    return to;
}

static uint8_t out(uint32_t port, uint32_t value) {
    return joyce_refusal(joyce_step(&board, JOYCE_OUT, port, value, ram, sizeof ram, NULL, 0));
}

/* A screen that is off and reversed is lit all over. */
static int run(void) {
    uint64_t reply = joyce_power_on(&board, 8, 8, 50, 0x80, 0x81, 0x82, 0x83, 0x00, 0x00, 0x00);
    if (joyce_refusal(reply) != 0 || out(0xF8, 0) != 0 || out(0xF7, 0x80) != 0) return 1;
    reply = joyce_refresh(&board, ram, sizeof ram, picture, sizeof picture);
    if (joyce_count(reply) != 256) return 2;
    for (size_t i = 0; i < sizeof picture; i++)
        if (picture[i] != 0xFF) return 3;
    return 0;
}

/* The system starts a program with the stack at a multiple of 16; a function is called with it 8 below one. */
__attribute__((naked, noreturn)) void _start(void) {
    __asm__("call start");
}

__attribute__((noreturn, used)) void start(void) {
    __asm__ volatile("syscall" : : "a"(60L), "D"((long)run()) : "rcx", "r11", "memory");
    for (;;) {}
}
