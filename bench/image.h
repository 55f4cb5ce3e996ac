// The image of sort.c as words, for 0x1000 on; the README says how to make it again. The comments are the disassembler's.
static const uint32_t image[] = {
    0x00000293, // 1000: addi x5, x0, 0
    0x001005b7, // 1004: lui x11, 256
    0x00101637, // 1008: lui x12, 257
    0xfa060693, // 100c: addi x13, x12, -96
    0x3e800713, // 1010: addi x14, x0, 1000
    0xfa460793, // 1014: addi x15, x12, -92
    0x00100813, // 1018: addi x16, x0, 1
    0x0140006f, // 101c: jal x0, 0x1030
    0x77062503, // 1020: lw x10, 1904(x12)
    0x00000293, // 1024: addi x5, x0, 0
    0x00100893, // 1028: addi x17, x0, 1
    0x00000073, // 102c: ecall
    0x00229513, // 1030: slli x10, x5, 2
    0x00b508b3, // 1034: add x17, x10, x11
    0x0008a883, // 1038: lw x17, 0(x17)
    0x00d50533, // 103c: add x10, x10, x13
    0x00128293, // 1040: addi x5, x5, 1
    0x01152023, // 1044: sw x17, 0(x10)
    0xfee294e3, // 1048: bne x5, x14, 0x1030
    0x00100513, // 104c: addi x10, x0, 1
    0x00200893, // 1050: addi x17, x0, 2
    0x00078293, // 1054: addi x5, x15, 0
    0x0240006f, // 1058: jal x0, 0x107c
    0xfff38393, // 105c: addi x7, x7, -1
    0x00239393, // 1060: slli x7, x7, 2
    0x00d383b3, // 1064: add x7, x7, x13
    0x0063a023, // 1068: sw x6, 0(x7)
    0x00150513, // 106c: addi x10, x10, 1
    0x00188893, // 1070: addi x17, x17, 1
    0x00428293, // 1074: addi x5, x5, 4
    0xfae504e3, // 1078: beq x10, x14, 0x1020
    0x00251313, // 107c: slli x6, x10, 2
    0x00d30333, // 1080: add x6, x6, x13
    0x00032303, // 1084: lw x6, 0(x6)
    0x00028e13, // 1088: addi x28, x5, 0
    0x00088393, // 108c: addi x7, x17, 0
    0xffce2e83, // 1090: lw x29, -4(x28)
    0xfdd354e3, // 1094: bge x6, x29, 0x105c
    0x01de2023, // 1098: sw x29, 0(x28)
    0xfff38393, // 109c: addi x7, x7, -1
    0xffce0e13, // 10a0: addi x28, x28, -4
    0xfe7846e3, // 10a4: blt x16, x7, 0x1090
    0x00000393, // 10a8: addi x7, x0, 0
    0xfb5ff06f, // 10ac: jal x0, 0x1060
};
