/*
 * Interprets a program of a stack machine, by a switch in a loop: of the numbers from 1 that are below NUMBERS the
 * program finds the first whose Collatz sequence takes longest to come to 1. Answers that number.
 *
 * Debian clang version 14.0.6 and its wasm-ld made bytecode.wasm:
 *
 *   clang --target=wasm32 -O2 -nostdlib -ffreestanding -matomics -mno-bulk-memory -Wall -Wextra \
 *       -Wl,--no-entry,--strip-all,--initial-memory=65536,--max-memory=65536,-z,stack-size=1024 \
 *       -o bytecode.wasm bytecode.c
 */

#ifndef NUMBERS
#define NUMBERS 1500
#endif

enum operation { PUSH, GET, SET, ADD, SUBTRACT, MULTIPLY, AND, SHIFT_RIGHT, LESS, JUMP, JUMP_IF_ZERO, END };

struct instruction {
    enum operation operation;
    unsigned operand;
};

enum variable { NUMBER, VALUE, LENGTH, LONGEST, ANSWER, VARIABLES };

/* Where the parts of the program begin. */
enum { NEXT_NUMBER = 2, NEXT_VALUE = 10, EVEN = 25, COUNT = 29, ENDED = 34, GO_ON = 42, DONE = 47 };

static const struct instruction program[] = {
    {PUSH, 1}, {SET, NUMBER},
    [NEXT_NUMBER] = {GET, NUMBER}, {PUSH, NUMBERS}, {LESS, 0}, {JUMP_IF_ZERO, DONE},
    {GET, NUMBER}, {SET, VALUE}, {PUSH, 0}, {SET, LENGTH},
    [NEXT_VALUE] = {GET, VALUE}, {PUSH, 1}, {SUBTRACT, 0}, {JUMP_IF_ZERO, ENDED},
    {GET, VALUE}, {PUSH, 1}, {AND, 0}, {JUMP_IF_ZERO, EVEN},
    {GET, VALUE}, {PUSH, 3}, {MULTIPLY, 0}, {PUSH, 1}, {ADD, 0}, {SET, VALUE}, {JUMP, COUNT},
    [EVEN] = {GET, VALUE}, {PUSH, 1}, {SHIFT_RIGHT, 0}, {SET, VALUE},
    [COUNT] = {GET, LENGTH}, {PUSH, 1}, {ADD, 0}, {SET, LENGTH}, {JUMP, NEXT_VALUE},
    [ENDED] = {GET, LONGEST}, {GET, LENGTH}, {LESS, 0}, {JUMP_IF_ZERO, GO_ON},
    {GET, LENGTH}, {SET, LONGEST}, {GET, NUMBER}, {SET, ANSWER},
    [GO_ON] = {GET, NUMBER}, {PUSH, 1}, {ADD, 0}, {SET, NUMBER}, {JUMP, NEXT_NUMBER},
    [DONE] = {END, 0},
};

static unsigned variables[VARIABLES];
static unsigned operands[4];

/* Runs instructions up to the END. */
static void interpret(const struct instruction *code)
{
    const struct instruction *next = code;
    unsigned *top = operands;
    for (;;) {
        struct instruction made = *next++;
        switch (made.operation) {
        case PUSH: *top++ = made.operand; break;
        case GET: *top++ = variables[made.operand]; break;
        case SET: variables[made.operand] = *--top; break;
        case ADD: top--; top[-1] += *top; break;
        case SUBTRACT: top--; top[-1] -= *top; break;
        case MULTIPLY: top--; top[-1] *= *top; break;
        case AND: top--; top[-1] &= *top; break;
        case SHIFT_RIGHT: top--; top[-1] >>= *top; break;
        case LESS: top--; top[-1] = top[-1] < *top; break;
        case JUMP: next = code + made.operand; break;
        case JUMP_IF_ZERO: next = *--top == 0 ? code + made.operand : next; break;
        case END: return;
        }
    }
}

__attribute__((export_name("run"))) unsigned run(void)
{
    interpret(program);
    return variables[ANSWER];
}
