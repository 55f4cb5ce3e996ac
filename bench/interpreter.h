// A processor of document 03 in plain C, with the parameters of emulator_c's panel_run: what the proved emulator is timed against.
#ifndef INTERPRETER_H
#define INTERPRETER_H

#include <stddef.h>
#include <stdint.h>

// interpreter.c is compiled once a compiler, each time under another name.
#ifndef INTERPRETER
#define INTERPRETER interpreter_run
#endif

uint32_t INTERPRETER(const uint8_t *code, size_t code_size, const uint8_t *input, size_t input_size, uint8_t *memory, size_t memory_size,
                     uint32_t *registers, size_t register_count, uint32_t *log, size_t log_room, uint64_t limit, uint32_t *pc,
                     size_t *logged, uint64_t *steps, uint32_t *number);

#endif
