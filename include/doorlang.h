// Doorlang for programs in C and C++. A rule program is a text that says what a fire panel does: it reads and writes arrays of ints, and emits ints to
// a log. Four functions: check a text, run it (interpret), compile it to an image for the panel's processor (RV32IM), run an image (emulate). An image
// does what its text does, and all four are proved: `tools/staticlib doorlang_c` does that and writes target/staticlib/libdoorlang_c.a, for x86-64.
//
//     #define WORK tokens, DOORLANG_TOKENS, tree, DOORLANG_TREE, starts, DOORLANG_STARTS, core, DOORLANG_CORE
//     static uint32_t tokens[DOORLANG_TOKENS], tree[DOORLANG_TREE], starts[DOORLANG_STARTS], core[DOORLANG_CORE], registers[DOORLANG_REGISTERS], log[8];
//     static uint8_t image[DOORLANG_CODE], input[4 * DOORLANG_ELEMENTS], memory[DOORLANG_MEMORY];
//     static const uint8_t text[] = "var smoke: int[2]; fn main() { if smoke[0] >= 70 { smoke[1] = 1; emit 100; } }";
//     size_t place, elements, size, logged, length = sizeof text - 1;
//     uint32_t stop, number, pc, answer = doorlang_check(text, length, WORK, &place, &elements);
//     uint64_t steps;
//     input[0] = 99; // the lowest byte of the first element
//     if (answer == 0) answer = doorlang_compile(text, length, image, sizeof image, WORK, &size, &place);
//     if (answer == 0) answer = doorlang_emulate(image, size, input, 4 * elements, memory, sizeof memory, registers, DOORLANG_REGISTERS, log, 8, 8,
//                                                1000000, &stop, &number, &pc, &steps, &logged);
//
// Then stop is DOORLANG_EXIT, the log is 100, and memory[DOORLANG_ARRAYS + 4] is 1. Had the answer been 1 or 2, `place` would be the byte at fault.
//
// What holds of all four:
// - A buffer is a pointer and its number of elements. None may be NULL, not even one of no elements, and no two of a call's buffers and figures may
//   overlap. Nothing else is asked: every text, image, block and size gets an answer.
// - The answer is returned, and what else is told is written through the last pointers, the figures. `place` is written where the answer is 1 or 2, and
//   only there; the other figures where the answer is 0, and only there.
// - On a refusal, which is any answer but 0, the buffers stay as they were, working room apart. On 0, what lies beyond a result in its buffer does.
// - Nothing is allocated, and nothing is kept from one call to the next: threads may call at once, each with buffers of its own. Give each 2 MB of
//   stack: the deepest and longest texts tried stay within it, which is measured and not proved.
#ifndef DOORLANG_H
#define DOORLANG_H

#include <stddef.h>
#include <stdint.h>

#ifdef __cplusplus
extern "C" {
#endif

// The answers (document 01 §1, document 03 §5). The smallest that applies is given, but for working room that is too short: that is 6 at once.
enum {
    DOORLANG_ACCEPTED = 0,
    DOORLANG_UNREADABLE = 1, // the text is not of the grammar, or is longer than DOORLANG_TEXT
    DOORLANG_BROKEN = 2,     // the text is readable and breaks a rule: of names, types, calls, returns or sizes
    DOORLANG_TOO_LONG = 3,   // the image is longer than DOORLANG_CODE, or than its buffer
    DOORLANG_BAD_CODE = 4,   // the code is not whole words, or is longer than DOORLANG_CODE
    DOORLANG_BAD_INPUT = 5,  // the input block is not whole words, or is longer than DOORLANG_INPUT; to interpret: is not one word for each element
    DOORLANG_NO_ROOM = 6     // a lent buffer, other than the image's, is shorter than stated
};

// The longest text, in bytes, and the most elements that all arrays of a text have together.
enum { DOORLANG_TEXT = 65536, DOORLANG_ELEMENTS = 16384 };

// Working room, in words of 32 bits: the four buffers that every function which takes a text is lent, at least so long. What they hold before a call
// does not matter, and after it means nothing.
enum { DOORLANG_TOKENS = 196608, DOORLANG_TREE = 524288, DOORLANG_STARTS = 131072, DOORLANG_CORE = 525315 };

// The panel's memory, in bytes, and its registers: at least so many are lent. The longest code and the longest input block, in bytes.
enum { DOORLANG_MEMORY = 0x200000, DOORLANG_REGISTERS = 32, DOORLANG_CODE = 524288, DOORLANG_INPUT = 0x100000 };

// The place of the input block in memory, where the arrays are read after a run.
enum { DOORLANG_ARRAYS = 0x100000 };

// How the run of a text ended (document 01 §5).
enum { DOORLANG_FINISHED, DOORLANG_TRAPPED, DOORLANG_OUT_OF_FUEL };

// How the run of an image stopped (document 03 §4). Of one that has stopped the first is never told.
enum { DOORLANG_GOING, DOORLANG_EXIT, DOORLANG_TRAP, DOORLANG_FAULT, DOORLANG_LIMIT };

// The steps that the run of an image takes at most: so many for each unit of fuel that its text's run uses, and so many besides.
enum { DOORLANG_STEPS_FOR_FUEL = 128, DOORLANG_STEPS_BESIDES = 80 };

// The traps of a rule program, at both ends: division by zero, an index outside its array, more than 64 calls at once, a full log.
enum { DOORLANG_DIVISION = 1, DOORLANG_INDEX = 2, DOORLANG_CALLS = 3, DOORLANG_LOG_FULL = 4 };

// Is this text a rule program? Lent is working room. Answers 0, 1, 2 and 6.
// Gives: `place`, the byte at which a refused text is at fault, counted from 0 (text_size where it ends too soon or has no `main`,
// DOORLANG_TEXT where it is too long);
// `elements`, how many the arrays of an accepted one have together: its input block is four times so many bytes.
uint32_t doorlang_check(const uint8_t *text, size_t text_size, uint32_t *tokens, size_t tokens_size, uint32_t *tree, size_t tree_size, uint32_t *starts,
                        size_t starts_size, uint32_t *core, size_t core_size, size_t *place, size_t *elements);

// The run of a text. `input` is the input block: all arrays in order of declaration, four bytes for each element, the lowest first. `fuel` bounds the
// run: each statement, and each number, truth, name, operator and call of an expression, costs 1. The log takes `room` words at most, and `log_size` is at
// least that; `arrays_size` is at least the number of elements. Answers 0, 1, 2, 5 and 6.
// Gives: in `arrays` and `log`, as words in two's complement, the arrays' elements after the run and what was emitted; `outcome`, how it ended; `number`,
// that of the trap, or 0; `fuel_left`; `logged`, how many words were emitted; `place`, as doorlang_check does.
uint32_t doorlang_interpret(const uint8_t *text, size_t text_size, const uint8_t *input, size_t input_size, uint32_t *arrays, size_t arrays_size,
                            uint32_t *log, size_t log_size, size_t room, uint64_t fuel, uint32_t *tokens, size_t tokens_size, uint32_t *tree,
                            size_t tree_size, uint32_t *starts, size_t starts_size, uint32_t *core, size_t core_size, uint32_t *outcome,
                            uint32_t *number, uint64_t *fuel_left, size_t *logged, size_t *place);

// The image of a text: code for the panel's processor. On an input block of the text it never faults; and where the text's run finishes or traps, the
// image's run with the same block and log room exits or traps alike, with the same log and arrays, in at most DOORLANG_STEPS_FOR_FUEL steps for each
// unit of fuel used and DOORLANG_STEPS_BESIDES besides. A buffer of DOORLANG_CODE bytes is long enough for every image. Answers 0, 1, 2, 3 and 6.
// Gives: the image, at the start of its buffer; `size`, its length in bytes; `place`, as doorlang_check does.
uint32_t doorlang_compile(const uint8_t *text, size_t text_size, uint8_t *image, size_t image_size, uint32_t *tokens, size_t tokens_size, uint32_t *tree,
                          size_t tree_size, uint32_t *starts, size_t starts_size, uint32_t *core, size_t core_size, size_t *size, size_t *place);

// The run of an image, or of any code, on the panel's processor, from its start to its stop or to `limit` steps. `input` is the input block, as for
// doorlang_interpret. The log takes `room` words at most, and `log_size` is at least that. Answers 0, 4, 5 and 6.
// Gives: memory, registers and log as they are at the run's end, whatever they held before; `stop`, how it stopped; `number`, that of the trap or the
// fault, or 0; `pc`; `steps`, how many were made; `logged`, how many words were logged.
uint32_t doorlang_emulate(const uint8_t *code, size_t code_size, const uint8_t *input, size_t input_size, uint8_t *memory, size_t memory_size,
                          uint32_t *registers, size_t register_count, uint32_t *log, size_t log_size, size_t room, uint64_t limit, uint32_t *stop,
                          uint32_t *number, uint32_t *pc, uint64_t *steps, size_t *logged);

#ifdef __cplusplus
}
#endif

#endif
