/*
 * What processors do where there is no Linux (bare.py): each takes its LPIs, and counts them at LOG, 16 bytes for each,
 * the count and the last. The first starts the others, as many as stand at LOG + 0xF000. bare.py has what is assembled:
 * aarch64-linux-gnu-as bare.s -o bare.o && aarch64-linux-gnu-objcopy -O binary bare.o bare.bin
 *
 * SPDX-License-Identifier: MIT OR Apache-2.0
 */
start:
        mov     x1, #7
        msr     S3_0_C12_C12_5, x1
        isb
        mov     x1, #0xff
        msr     S3_0_C4_C6_0, x1
        mov     x1, #1
        msr     S3_0_C12_C12_7, x1
        isb
        mrs     x4, mpidr_el1
        and     x5, x4, #15
        ubfx    x6, x4, #8, #8
        add     x4, x5, x6, lsl #4
        movz    x5, #0x4010, lsl #16
        add     x5, x5, x4, lsl #4
        cbz     x4, others
loop:
        mrs     x2, S3_0_C12_C12_0
        mov     x3, #8192
        cmp     x2, x3
        b.lo    nothing
        msr     S3_0_C12_C12_1, x2
        str     x2, [x5, #8]
        ldr     x6, [x5]
        add     x6, x6, #1
        str     x6, [x5]
        b       loop
nothing:
        wfi
        b       loop
others:
        movz    x7, #0x4010, lsl #16
        movk    x7, #0xf000
        ldr     x7, [x7]
        mov     x8, #1
next:
        cmp     x8, x7
        b.hs    loop
        movz    x0, #3
        movk    x0, #0xc400, lsl #16
        and     x1, x8, #15
        lsr     x2, x8, #4
        orr     x1, x1, x2, lsl #8
        movz    x2, #0x4000, lsl #16
        hvc     #0
        add     x8, x8, #1
        b       next
