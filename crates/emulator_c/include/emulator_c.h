// What `tools/staticlib emulator_c` hands to C. A slice of Rattle is a pointer and a length.
#ifndef EMULATOR_C_H
#define EMULATOR_C_H

#include <stddef.h>
#include <stdint.h>

// Document 03 §1 and §5: memory, registers, and the longest code and input block, in bytes.
enum { PANEL_MEMORY = 0x200000, PANEL_REGISTERS = 32, PANEL_CODE = 524288, PANEL_INPUT = 0x100000 };

// How a run stopped (document 03 §4).
enum { PANEL_GOING, PANEL_EXIT, PANEL_TRAP, PANEL_FAULT, PANEL_LIMIT };

// The run of an image. The caller owes: memory_size is PANEL_MEMORY, register_count PANEL_REGISTERS, and code and input block are no
// longer than stated above. Memory and registers need no initial value. Returns how the run stopped; `number` is that of the trap or fault.
uint32_t panel_run(const uint8_t *code, size_t code_size, const uint8_t *input, size_t input_size, uint8_t *memory, size_t memory_size,
                   uint32_t *registers, size_t register_count, uint32_t *log, size_t log_room, uint64_t limit, uint32_t *pc,
                   size_t *logged, uint64_t *steps, uint32_t *number);

// The instruction that a word is: the opcode of its row in document 03 §3's table (0: unknown), the row's second column as
// funct7 * 8 + funct3, and its fields, 0 where its format has none. The amount of a shift stands in rs2.
void panel_decode(uint32_t word, uint32_t *opcode, uint32_t *key, uint32_t *rd, uint32_t *rs1, uint32_t *rs2, uint32_t *imm);

// The word of the instruction that a word is (0 for an unknown one).
uint32_t panel_recode(uint32_t word);

#endif
