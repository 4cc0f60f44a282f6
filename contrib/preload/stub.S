/* The stub of a function of the shim: stacks.c says what for. build writes a line "stub NAME" for each one behind this.
   It keeps all registers of arguments, also al, which a call with a variable number of arguments sets. */
    .section .note.GNU-stack, "", @progbits
    .text
    .hidden on_own, stacks
    .macro stub name
    .globl \name
    .hidden double_\name
    .type \name, @function
    .p2align 4
\name:
    .cfi_startproc
    movq stacks@gottpoff(%rip), %r11
    movq %rsp, %r10
    subq %fs:(%r11), %r10
    cmpq %fs:8(%r11), %r10
    jb double_\name
    leaq double_\name(%rip), %r11
    jmp on_own
    .cfi_endproc
    .size \name, . - \name
    .endm
