# place.s: the code that is linked next starts SHIFT bytes behind a multiple of 64.
    .text
    .balign 64
    .space 64 + SHIFT
    .section .note.GNU-stack, "", %progbits
