; The boot program: 256 bytes at 0002h to 0101h, put there by the boot stream. It loads the main
; program from the host's device and jumps to it.

DEVICE  equ 80h                 ; an expansion port: the board forwards it to the host
MAIN    equ 0200h               ; where the main program is loaded and started

        org 0002h

; CP/M's "Screen" maps: blocks 0, 1, 2 and 7. What they are after power-on is undefined.
        ld a,80h
        out (0F0h),a
        ld a,81h
        out (0F1h),a
        ld a,82h
        out (0F2h),a
        ld a,87h
        out (0F3h),a
        ld sp,0                 ; the stack grows down from FFFFh, in block 7

        out (DEVICE),a          ; any OUT winds the device back to its first byte
        in a,(DEVICE)
        ld c,a                  ; length, low byte first
        in a,(DEVICE)
        ld b,a
        ld hl,MAIN
load:   in a,(DEVICE)
        ld (hl),a
        inc hl
        dec bc
        ld a,b
        or c
        jr nz,load
        jp MAIN

        ds 0038h - $
        halt                    ; an interrupt would end here: a reset has turned them off

        ds 0102h - $            ; zeros up to 256 bytes
