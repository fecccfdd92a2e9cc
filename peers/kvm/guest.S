// What a processor of the inner machine does: it asks the mailbox what to do, does it, tells the result, and asks
// again. Nothing stands at the mailbox, so each access of it goes out to machine.c. The rest goes to KVM.
// machine.c copies this code to the inner machine; it runs wherever it stands.
    .equ    MAILBOX, 0x0a000000     // +0 what to do, +8 an address, +16 a value; +24 takes the result

    .section .rodata
    .balign 8
    .global guest_code
    .global guest_code_end
guest_code:
    mov     x0, #7
    msr     S3_0_C12_C12_5, x0      // ICC_SRE_EL1: system registers
    isb
    mov     x0, #0xff
    msr     S3_0_C4_C6_0, x0        // ICC_PMR_EL1: every priority
    mov     x0, #1
    msr     S3_0_C12_C12_7, x0      // ICC_IGRPEN1_EL1
    isb
    mov     x9, #MAILBOX
next:
    ldr     w0, [x9]
    cbz     w0, next
    ldr     x1, [x9, #8]
    ldr     x2, [x9, #16]
    mov     x3, #0
    cmp     w0, #1
    b.eq    acknowledge
    cmp     w0, #2
    b.eq    read32
    cmp     w0, #3
    b.eq    read64
    cmp     w0, #4
    b.eq    write32
    str     x2, [x1]
    b       told
write32:
    str     w2, [x1]
    b       told
read32:
    ldr     w3, [x1]
    b       told
read64:
    ldr     x3, [x1]
    b       told
acknowledge:
    mrs     x3, S3_0_C12_C12_0      // ICC_IAR1_EL1
    msr     S3_0_C12_C12_1, x3      // ICC_EOIR1_EL1
    isb
told:
    dsb     sy
    str     x3, [x9, #24]
    b       next
guest_code_end:
    .section .note.GNU-stack,"",%progbits
