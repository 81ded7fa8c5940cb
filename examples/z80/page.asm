; The main program: CP/M's standard screen with a page of text. Each frame it counts in the bottom
; row; every 16 frames the page rolls up by a row, and the new row is kept in expansion memory.

TABLE   equ 0B600h              ; the pointer table: block 2, place 3600h, so F5 is 5Bh
ROWS    equ 5930h               ; row 0: block 1, place 1930h
ROW     equ 720                 ; bytes in a row: 90 letters of 8
PAST    equ ROWS + 32 * ROW     ; the rows run on from block 1 into block 2 and end here

; Words kept below the program, so that loading it again does not touch them. The host reads the
; first three.
ticks   equ 01F0h               ; ticks taken from the board's counter
rolls   equ 01F2h
nmis    equ 01F4h
once    equ 01F6h               ; ONCE after the first start
ONCE    equ 0A55Ah

        org 0200h

start:  ld a,0C3h               ; INT goes to 0038h: JP tick
        ld (0038h),a
        ld hl,tick
        ld (0039h),hl
        ld (0066h),a            ; NMI goes to 0066h: JP disc
        ld hl,disc
        ld (0067h),hl
        im 1
        ld hl,(once)
        ld de,ONCE
        or a
        sbc hl,de
        jr z,again

; The first start resets the machine, with interrupts on; the reset turns them off. The next byte
; fetched is the first of the boot stream: a HALT at 0000h, where the processor starts, is not met.
        ld a,76h
        ld (0000h),a
        ld (once),de
        ld hl,0
        ld (ticks),hl
        ld (rolls),hl
        ld (nmis),hl
        ei
        halt                    ; the handler takes the ticks since power-on: a reset throws them away
        halt                    ; the next tick, so that it is long until another
        ld a,1
        out (0F8h),a

again:  ei
        call pointers
        ld hl,ROWS
        ld bc,PAST - ROWS - 1
        call clear
        ld a,5Bh                ; table in block 2, place 3600h
        out (0F5h),a
        xor a                   ; its first entry at the top
        out (0F6h),a
        ld a,40h                ; video on
        out (0F7h),a
        call text
        call reverse

loop:   halt                    ; until a tick
frame:  ld hl,(ticks)
        ld de,(counted)
        or a
        sbc hl,de
        ld bc,6                 ; six ticks are a frame
        or a
        sbc hl,bc
        jr c,loop
        ex de,hl
        add hl,bc
        ld (counted),hl
        call count
        jr frame

; The interrupt handler. INT stands until F4 is read. F4 gives the ticks since it was last read,
; more than one if interrupts were off for long, and the bits above are no part of the count.
tick:   push af
        push hl
        in a,(0F4h)
        and 0Fh
        ld hl,ticks
        add a,(hl)
        ld (hl),a
        jr nc,ticked
        inc hl
        inc (hl)
ticked: pop hl
        pop af
        ei
        ret

; The NMI handler: takes the disc controller's result, and its line falls.
disc:   push af
        push hl
        in a,(01h)
        ld hl,(nmis)
        inc hl
        ld (nmis),hl
        pop hl
        pop af
        retn

; Makes the pointer table. The lines of a row start a byte apart, and a row is 720 bytes, 360 in
; pointer words; row 0 is at block 1, place 1930h: 2C98h.
pointers:
        ld hl,TABLE
        ld de,2C98h
        ld c,32
onerow: ld b,8
oneline:
        ld (hl),e
        inc hl
        ld (hl),d
        inc hl
        inc de
        djnz oneline
        push hl
        ld hl,360 - 8
        add hl,de
        ex de,hl
        pop hl
        dec c
        jr nz,onerow
        ret

; Clears the byte at HL and BC bytes after it.
clear:  ld d,h
        ld e,l
        inc de
        ld (hl),0
        ldir
        ret

; Prints the lines of the page.
text:   ld hl,page
onetext:
        ld e,(hl)
        inc hl
        ld d,(hl)
        inc hl
        ld a,d
        or e
        ret z
        call print
        inc hl
        jr onetext

; Prints the text at HL, ended by 0, at DE. The eight bytes of a letter follow each other.
print:  ld a,(hl)
        or a
        ret z
        inc hl
        push hl
        sub ' '
        ld l,a
        ld h,0
        add hl,hl
        add hl,hl
        add hl,hl
        ld bc,font
        add hl,bc
        ld bc,8
        ldir
        pop hl
        jr print

; Shows the title in reverse, by way of block 4, with split maps and the lock of bank 4000h.
reverse:
        ld a,14h                ; reads from block 1, writes to block 4
        call across
        ld a,10h                ; lock: reads from the write block too
        out (0F4h),a
        ld hl,ROWS
        ld bc,ROW
        call invert
        ld hl,ROWS + 24 * 8     ; and back, between the two texts
        ld bc,36 * 8
        call invert
        xor a                   ; no lock
        out (0F4h),a
        ld a,41h                ; reads from block 4, writes to block 1
        call across
        ld a,81h                ; block 1 again
        out (0F1h),a
        ret

; Inverts BC bytes at HL.
invert: ld a,(hl)
        cpl
        ld (hl),a
        cpi                     ; HL up, BC down
        jp pe,invert            ; until BC is 0
        ret

; Copies row 0 onto itself under map A.
across: out (0F1h),a
        ld hl,ROWS
        ld de,ROWS
        ld bc,ROW
        ldir
        ret

; Counts a frame, in the bottom row, and rolls the page at every sixteenth.
count:  ld hl,frames + 4
        call add1
        ld hl,(bottom)
        ld de,18 * 8
        add hl,de
        ex de,hl
        ld hl,frames
        call print
        ld hl,toroll
        dec (hl)
        ret nz
        ld (hl),16

; The row below the bottom row is the one at the top: it gets the new text, then all lines move up
; by eight.
roll:   ld hl,(bottom)
        ld de,ROW
        add hl,de
        ld de,PAST
        or a
        sbc hl,de
        add hl,de
        jr nz,within
        ld hl,ROWS
within: ld (bottom),hl
        ld bc,ROW - 1
        call clear
        ld hl,number + 3
        call add1
        ld hl,line
        ld de,(bottom)
        call print
        ld a,2                  ; the disc controller's next interrupt is an NMI
        out (0F8h),a
        out (01h),a             ; a command: it comes at once
; F6 should only be changed in frame flyback: D6 of F8. D5, the disc controller's line, is off by now.
; Reading F8 leaves the counter as it is.
fly:    in a,(0F8h)
        and 60h
        cp 40h
        jr nz,fly
        ld hl,(rolls)
        inc hl
        ld (rolls),hl
        ld a,l
        add a,a
        add a,a
        add a,a
        out (0F6h),a

; Keeps the new row in block 8, as one of sixteen there. Block 8 stands where the stack is, so
; interrupts are off; the counter keeps the tick that falls into the copying.
        add a,a                 ; 16 x rolls: low four bits of rolls on top
        rrca
        rrca                    ; 4 x the low four bits
        or 0C0h
        ld d,a
        ld e,0
        ld hl,(bottom)
        ld bc,ROW
        di
        ld a,88h
        out (0F3h),a
        ldir
        ld a,87h
        out (0F3h),a
        ei
        ret

; Adds one to the decimal number whose last digit is at HL.
add1:   ld a,(hl)
        inc (hl)
        cp '9'
        ret nz
        ld (hl),'0'
        dec hl
        jr add1

counted:
        dw 0                    ; ticks that went into frames
bottom: dw ROWS + 31 * ROW      ; the row shown at the bottom
toroll: db 16                   ; frames to the next roll
        include "text.inc"
font:
        include "font.inc"
