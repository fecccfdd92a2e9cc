// Where the first guest begins, at EL1 with the MMU off.
    .section .text.start, "ax"
    .globl _start
_start:
    ldr x1, =0x41000000         // a stack
    mov sp, x1
    ldr x1, =vectors
    msr vbar_el1, x1
    isb
    bl main
    ldr w0, =0x84000008         // PSCI SYSTEM_OFF
    hvc #0
    b .

    .section .text, "ax"
    .balign 2048
vectors:
    .rept 5
    .balign 128
    b .
    .endr
    .balign 128                 // an interrupt
    sub sp, sp, #176
    stp x0, x1, [sp]
    stp x2, x3, [sp, #16]
    stp x4, x5, [sp, #32]
    stp x6, x7, [sp, #48]
    stp x8, x9, [sp, #64]
    stp x10, x11, [sp, #80]
    stp x12, x13, [sp, #96]
    stp x14, x15, [sp, #112]
    stp x16, x17, [sp, #128]
    stp x18, x29, [sp, #144]
    str x30, [sp, #160]
    bl interrupted
    ldp x0, x1, [sp]
    ldp x2, x3, [sp, #16]
    ldp x4, x5, [sp, #32]
    ldp x6, x7, [sp, #48]
    ldp x8, x9, [sp, #64]
    ldp x10, x11, [sp, #80]
    ldp x12, x13, [sp, #96]
    ldp x14, x15, [sp, #112]
    ldp x16, x17, [sp, #128]
    ldp x18, x29, [sp, #144]
    ldr x30, [sp, #160]
    add sp, sp, #176
    eret
