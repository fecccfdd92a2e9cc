// Where the hypervisor begins at EL2, and how it enters the guest and is entered by it.
// Offsets are those of struct vcpu (hypervisor.h).
#define PC 248
#define FPCR 264
#define STACK 280
#define Q 288

    .section .text.start, "ax"
    .globl _start
_start:                         // the first processor, with the MMU off
    ldr x0, =bss_start
    ldr x1, =bss_end
1:  stp xzr, xzr, [x0], #16
    cmp x0, x1
    b.lo 1b
    ldr x0, =first_stack_end
    bl set_up
    bl main
    b .

    .globl secondary_start
secondary_start:                // another one, which PSCI turned on; x0 is its struct vcpu
    mov x19, x0
    ldr x0, [x0, #STACK]
    bl set_up
    mov x0, x19
    bl secondary_main
    b .

// The stack at x0, and an identity map: devices below 1 GiB, above it normal memory, which the
// library's unaligned reads want.
set_up:
    mov sp, x0
    ldr x0, =vectors
    msr vbar_el2, x0
    mov x0, #0x33ff             // CPTR_EL2: SIMD and floating point aren't trapped
    msr cptr_el2, x0
    ldr x0, =own_map
    msr ttbr0_el2, x0
    mov x0, #0xff00             // MAIR_EL2: 0 is device memory, 1 normal memory, write-back
    msr mair_el2, x0
    ldr x0, =0x80823519         // TCR_EL2: 39 bits, 4 KiB, write-back, inner shareable, 40 bits out
    msr tcr_el2, x0
    tlbi alle2
    dsb sy
    isb
    ldr x0, =0x30c51835         // SCTLR_EL2: M, C and I, and not A
    msr sctlr_el2, x0
    isb
    ret

    .section .rodata, "a"
    .balign 4096
own_map:
    .quad 0x0040000000000401    // 0: device memory, not executed
    .quad 0x0000000040000705    // 1 GiB: normal memory
    .skip 4096 - 16

    .section .text, "ax"
    .macro pairs op
    \op x4, x5, [x0, #32]
    \op x6, x7, [x0, #48]
    \op x8, x9, [x0, #64]
    \op x10, x11, [x0, #80]
    \op x12, x13, [x0, #96]
    \op x14, x15, [x0, #112]
    \op x16, x17, [x0, #128]
    \op x18, x19, [x0, #144]
    \op x20, x21, [x0, #160]
    \op x22, x23, [x0, #176]
    \op x24, x25, [x0, #192]
    \op x26, x27, [x0, #208]
    \op x28, x29, [x0, #224]
    .endm
    .macro vectors_of op
    add x2, x0, #Q
    \op q0, q1, [x2]
    \op q2, q3, [x2, #32]
    \op q4, q5, [x2, #64]
    \op q6, q7, [x2, #96]
    \op q8, q9, [x2, #128]
    \op q10, q11, [x2, #160]
    \op q12, q13, [x2, #192]
    \op q14, q15, [x2, #224]
    \op q16, q17, [x2, #256]
    \op q18, q19, [x2, #288]
    \op q20, q21, [x2, #320]
    \op q22, q23, [x2, #352]
    \op q24, q25, [x2, #384]
    \op q26, q27, [x2, #416]
    \op q28, q29, [x2, #448]
    \op q30, q31, [x2, #480]
    .endm

    .macro from_guest kind
    .balign 128
    stp x0, x1, [sp, #-16]!
    mov x1, #\kind
    b guest_left
    .endm
    .macro from_itself kind
    .balign 128
    mov x0, #\kind
    b trapped
    .endm

    .balign 2048
vectors:
    .irp kind, 0, 1, 2, 3, 4, 5, 6, 7
    from_itself \kind
    .endr
    .irp kind, 0, 1, 2, 3       // 0 an exception, 1 an interrupt
    from_guest \kind
    .endr
    .irp kind, 12, 13, 14, 15
    from_itself \kind
    .endr

// The guest's registers go into its struct vcpu, and come back from there after guest_exited.
guest_left:
    mrs x0, tpidr_el2
    stp x2, x3, [x0, #16]
    ldp x2, x3, [sp], #16
    stp x2, x3, [x0]
    pairs stp
    str x30, [x0, #240]
    mrs x2, elr_el2
    mrs x3, spsr_el2
    stp x2, x3, [x0, #PC]
    mrs x2, fpcr
    mrs x3, fpsr
    stp x2, x3, [x0, #FPCR]
    vectors_of stp
    bl guest_exited
    mrs x0, tpidr_el2

    .globl enter_guest
enter_guest:
    msr tpidr_el2, x0
    ldr x2, [x0, #STACK]
    mov sp, x2
    vectors_of ldp
    ldp x2, x3, [x0, #FPCR]
    msr fpcr, x2
    msr fpsr, x3
    ldp x2, x3, [x0, #PC]
    msr elr_el2, x2
    msr spsr_el2, x3
    ldr x30, [x0, #240]
    pairs ldp
    ldp x2, x3, [x0, #16]
    ldp x0, x1, [x0]
    eret

trapped:                        // an exception of the hypervisor itself
    mrs x1, esr_el2
    mrs x2, elr_el2
    mrs x3, far_el2
    bl own_trap
    b .

    .globl smc
smc:
    smc #0
    ret

    .section .stacks, "aw", %nobits
    .balign 16
    .skip 0x10000
    .globl first_stack_end
first_stack_end:
