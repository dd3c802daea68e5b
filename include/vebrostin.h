/* Vebrostin: formulas compiled, differentiated and run. Link with target/staticlib/libvebrostin.a (x86-64 Linux).
 *
 * Only numbers and slices cross. A slice is a pointer and a count of elements; a slice of no elements still needs a pointer that
 * is not null. Slices that are written must not overlap any other. The library keeps nothing, allocates nothing and calls nothing of
 * its host. Of the C library it takes `memcpy` and `memset`.
 *
 * docs/PROGRAM.md has the bytes of a program. A formula is nodes of 16 bytes, each followed by its children; the command
 * `vebrostin pack` makes one from text. A name line is `name:kind` joined by commas, with the kinds p (parameter), s (state),
 * t (time), i (input).
 */
#ifndef VEBROSTIN_H
#define VEBROSTIN_H

#include <stdbool.h>
#include <stddef.h>
#include <stdint.h>

#ifdef __cplusplus
extern "C" {
#endif

/* What the functions answer. "At" a place: the path slice then holds its text, as root.arguments[1], and zeros after it.
 * Without a place the path slice isn't written. "At" a node, from 0: the report has its number. 2, 12 and 13 come after 1 and before 3,
 * and of them the first fault in byte order counts. */
enum {
    /* done: a program, a derivative, a value */
    VEBROSTIN_OK = 0,
    /* a slice is too short: the path slice below 8,192 bytes; the program slice below 240 bytes for each 16 bytes of formula, fewer at
     * its end counted as 16 (of the derivative tree, for a derivative); the tree slice below 16 bytes for each node, the list slice below 8; the
     * state below 16 numbers; the report below 8, which is looked at before anything else */
    VEBROSTIN_SLICE_TOO_SHORT = 1,
    /* compile and derive, at the node: one of its fields is wrong */
    VEBROSTIN_WRONG_FIELD = 2,
    /* the name line is not well formed, or has more than 256 names or one twice */
    VEBROSTIN_NAMES = 3,
    /* at root: the formula has more than 256 nodes or 32 levels, or its derivative more than 16,384 nodes or 128 levels */
    VEBROSTIN_TOO_LARGE = 4,
    /* compile and derive, at the place: a wrong number of arguments.
     * run, at root: a wrong number of inputs, too few registers, an input that is not finite, or budget 0 */
    VEBROSTIN_INVALID_INPUT = 5,
    /* at the place: a symbol's number is not in the name line; derive, at root: the symbol to derive by */
    VEBROSTIN_UNKNOWN_SYMBOL = 6,
    /* at the place: a truth value where a number must stand, or the other way; derive, at root: the formula is a truth value */
    VEBROSTIN_TYPE = 7,
    /* at the place: a condition, Floor, Ceil or Modulo depends on a state, the time or an input;
     * derive, at root: a condition, Floor or Ceil depends on the symbol to derive by */
    VEBROSTIN_UNSUPPORTED = 8,
    /* compile and derive, at the place: a number that is not finite.
     * run, at the instruction's place: the result is not finite, or the operation is not defined there */
    VEBROSTIN_DOMAIN = 9,
    /* run: the bytes are no program */
    VEBROSTIN_PROGRAM = 10,
    /* resume and answer: the run is at its end, the state doesn't fit the program, or a value was given while no question pends */
    VEBROSTIN_STATE = 11,
    /* compile and derive, at the node that is missing or not all there: the bytes end before the formula does */
    VEBROSTIN_ENDED_EARLY = 12,
    /* compile and derive, at the number of the formula's nodes: bytes follow its last node */
    VEBROSTIN_LEFT_OVER = 13,
    /* run: a question pends; the state has it. Give its value to vebrostin_answer */
    VEBROSTIN_ASK = 100,
    /* run: the whole budget was completed and code remains. Go on with vebrostin_resume */
    VEBROSTIN_SPENT = 101
};

/* Lengths that are always enough. */
enum {
    VEBROSTIN_PATH_LENGTH = 8192,
    VEBROSTIN_STATE_LENGTH = 16,
    VEBROSTIN_REPORT_LENGTH = 8,
    VEBROSTIN_PROGRAM_PER_NODE = 240,
    VEBROSTIN_LIST_PER_NODE = 8,
    VEBROSTIN_FORMULA_NODES = 256,
    VEBROSTIN_TREE_NODES = 16384
};

/* Places in a state's numbers. Values and arguments are the bits of a double, least significant first as in memory. */
enum {
    VEBROSTIN_POSITION = 0,   /* the next instruction */
    VEBROSTIN_KEPT_COUNT = 1, /* values kept for a half-done Hill or density */
    VEBROSTIN_KEPT = 2,       /* the first of nine places for them */
    VEBROSTIN_QUESTION = 11,  /* 0 for none, else one more than the function's number below */
    VEBROSTIN_FIRST = 12,     /* its argument, or Power's base */
    VEBROSTIN_SECOND = 13,    /* Power's exponent */
    VEBROSTIN_COUNT = 14,     /* instructions completed by the last call that wrote the state */
    VEBROSTIN_VALUE = 15      /* the value where that call answered 0, else 0 */
};

/* Places in a report's numbers, which a call hands out beside its answer and its state. Compile and derive write the node; every other
 * place, and the whole report of the other calls, is left as it was. A report of fewer than 8 numbers is not written at all. */
enum {
    VEBROSTIN_NODE = 0 /* the node of a refusal 2, 12 or 13, else 0 */
};

/* Rules, as a derivative's records name them; docs/DERIVATIVE.md says what each writes. A record has 8 bytes: the rule's number, then the
 * formula node that it is applied at, or that is copied, from 0 in byte order; 4 bytes each, least significant first. */
enum {
    VEBROSTIN_RULE_COPIED = 0, /* the formula's own node, in a copy of a part */
    VEBROSTIN_RULE_SYMBOL = 1,
    VEBROSTIN_RULE_POSITIVE = 2, /* writes nothing, so no record has it */
    VEBROSTIN_RULE_NEGATIVE = 3,
    VEBROSTIN_RULE_ADD = 4,
    VEBROSTIN_RULE_SUBTRACT = 5,
    VEBROSTIN_RULE_MULTIPLY = 6,
    VEBROSTIN_RULE_DIVIDE = 7,
    VEBROSTIN_RULE_POWER = 8,
    VEBROSTIN_RULE_MODULO = 9,
    VEBROSTIN_RULE_CONDITIONAL = 10,
    VEBROSTIN_RULE_IFELSE = 11,
    VEBROSTIN_RULE_MIN_MAX = 12,
    VEBROSTIN_RULE_ABS = 13,
    VEBROSTIN_RULE_DENSITY = 14, /* InverseGaussianDensity */
    VEBROSTIN_RULE_HILL = 15,
    VEBROSTIN_RULE_EXP = 16,
    VEBROSTIN_RULE_LOG = 17,
    VEBROSTIN_RULE_LOG10 = 18,
    VEBROSTIN_RULE_SQRT = 19,
    VEBROSTIN_RULE_SIN = 20,
    VEBROSTIN_RULE_COS = 21,
    VEBROSTIN_RULE_TAN = 22,
    VEBROSTIN_RULE_TANH = 23,
    VEBROSTIN_RULE_TIMES_ZERO = 24,     /* the 0 of a product that has a literal zero */
    VEBROSTIN_RULE_POWER_ZERO = 25,     /* the 1 of a power 0; always simplified away, so no record has it */
    VEBROSTIN_RULE_WITHOUT_SYMBOL = 26, /* the 0 of a part without the symbol */
    VEBROSTIN_RULE_OUTER = 27           /* 0 times formula, plus derivative */
};

/* Functions that a run asks its host for. */
enum {
    VEBROSTIN_EXP = 0,
    VEBROSTIN_LOG = 1,
    VEBROSTIN_LOG10 = 2,
    VEBROSTIN_SIN = 4,
    VEBROSTIN_COS = 5,
    VEBROSTIN_TAN = 6,
    VEBROSTIN_TANH = 7,
    VEBROSTIN_POWER = 16
};

/* Compiles a formula. 0 and a program, zeros after it; or 1 to 9, 12 or 13. 1 to 4, 12 and 13 leave the program slice as it was, 5 to 9
 * all zero. */
size_t vebrostin_compile(const uint8_t *formula, size_t formula_length, const uint8_t *names, size_t names_length,
                         uint8_t *path, size_t path_length, uint8_t *program, size_t program_length,
                         uint64_t *report, size_t report_length);

/* The derivative of a formula by a symbol's number (from 0). 0, its tree as formula bytes, the list of records of the tree's nodes in their
 * order, and the tree's program, zeros after each; or 1 to 9, 12 or 13. A refusal of the formula itself, as 2, 12 and 13 are, leaves the
 * slices for tree and list as they were, a later one all zero; both leave the program slice. */
size_t vebrostin_derive(const uint8_t *formula, size_t formula_length, const uint8_t *names, size_t names_length, uint32_t symbol,
                        uint8_t *path, size_t path_length, uint8_t *tree, size_t tree_length, uint8_t *list, size_t list_length,
                        uint8_t *program, size_t program_length, uint64_t *report, size_t report_length);

/* Whether a run takes the bytes. */
bool vebrostin_is_program(const uint8_t *program, size_t program_length);

/* Instructions of a program, the registers that a run of it needs, and the inputs that it takes. */
size_t vebrostin_instructions(const uint8_t *program, size_t program_length);
size_t vebrostin_registers(const uint8_t *program, size_t program_length);
size_t vebrostin_inputs(const uint8_t *program, size_t program_length);

/* Begins a run and completes at most `budget` instructions. 0 with a value, 100, 101, or 1, 5, 9, 10. Inputs stand in the order of
 * the names. The state's numbers are written, unless a slice of numbers is too short; what they held doesn't matter. Where the run is
 * refused they are those of a fresh state. */
size_t vebrostin_run(const uint8_t *program, size_t program_length, const double *inputs, size_t inputs_length,
                     double *registers, size_t registers_length, uint8_t *path, size_t path_length, size_t budget,
                     uint64_t *state, size_t state_length, uint64_t *report, size_t report_length);

/* Goes on with the same program, inputs, registers and state. A question that pends is put again. 1, 10 and 11 leave all as it was, 5
 * all but the path slice: no number of the state is written, the count and the value neither. */
size_t vebrostin_resume(const uint8_t *program, size_t program_length, const double *inputs, size_t inputs_length,
                        double *registers, size_t registers_length, uint8_t *path, size_t path_length, size_t budget,
                        uint64_t *state, size_t state_length, uint64_t *report, size_t report_length);

/* Goes on with the value for the question that pends; otherwise as vebrostin_resume. */
size_t vebrostin_answer(const uint8_t *program, size_t program_length, const double *inputs, size_t inputs_length,
                        double *registers, size_t registers_length, uint8_t *path, size_t path_length, size_t budget,
                        uint64_t *state, size_t state_length, uint64_t *report, size_t report_length, double value);

/* The same three without the check of the program's bytes that every call above makes. Use them where the bytes are a program and have not
 * changed since: vebrostin_compile or vebrostin_derive answered 0 and wrote them, or vebrostin_is_program said true of them. Then they do and
 * answer what the calls above do, and never 10. 1 for a slice that is too short needs no program. With other bytes the calls
 * neither read nor write outside the slices and end, but maybe only with the budget: a jump that goes back may be done again and again, so a
 * budget of SIZE_MAX is then as good as no end. What they answer, and what they leave in the slices they may write, means nothing; the report
 * is left as it was. */
size_t vebrostin_run_unchecked(const uint8_t *program, size_t program_length, const double *inputs, size_t inputs_length,
                               double *registers, size_t registers_length, uint8_t *path, size_t path_length, size_t budget,
                               uint64_t *state, size_t state_length, uint64_t *report, size_t report_length);

size_t vebrostin_resume_unchecked(const uint8_t *program, size_t program_length, const double *inputs, size_t inputs_length,
                                  double *registers, size_t registers_length, uint8_t *path, size_t path_length, size_t budget,
                                  uint64_t *state, size_t state_length, uint64_t *report, size_t report_length);

size_t vebrostin_answer_unchecked(const uint8_t *program, size_t program_length, const double *inputs, size_t inputs_length,
                                  double *registers, size_t registers_length, uint8_t *path, size_t path_length, size_t budget,
                                  uint64_t *state, size_t state_length, uint64_t *report, size_t report_length, double value);

#ifdef __cplusplus
}
#endif

#endif
