// Where an image starts: the stack at the end of memory, then the program, then exit.
__asm__(
    ".section .text.start, \"ax\"\n"
    ".globl _start\n"
    "_start:\n"
    "    lui x2, 0x200\n"
    "    lui x10, 0x100\n"
    "    jal x1, program\n"
    "    addi x17, x0, 0\n"
    "    ecall\n");
