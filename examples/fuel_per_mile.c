/* Fuel and fuel per mile of the trip formula: fuel_per_mile FOLDER SYMBOL VALUE.., FOLDER made by `vebrostin pack`. */
#include "vebrostin.h"
#include <math.h>
#include <stdio.h>
#include <stdlib.h>
#include <string.h>

enum { FORMULA = 16 * VEBROSTIN_FORMULA_NODES, TREE = 1024, PROGRAM = VEBROSTIN_PROGRAM_PER_NODE * TREE, REGISTERS = 5 * TREE };

/* one byte more than the longest formula, to see that a file has more */
static uint8_t formula[FORMULA + 1], names[65536], path[VEBROSTIN_PATH_LENGTH], tree[16 * TREE], list[VEBROSTIN_LIST_PER_NODE * TREE], program[PROGRAM];
static double inputs[256], registers[REGISTERS];
static uint64_t report[VEBROSTIN_REPORT_LENGTH];
static size_t input_count;

static double value_of(uint64_t bits) {
    double value;
    memcpy(&value, &bits, sizeof value);
    return value;
}

/* The C library's answer to the question in a state. */
static double answer(const uint64_t *state) {
    double x = value_of(state[VEBROSTIN_FIRST]);
    switch (state[VEBROSTIN_QUESTION] - 1) {
    case VEBROSTIN_EXP: return exp(x);
    case VEBROSTIN_LOG: return log(x);
    case VEBROSTIN_LOG10: return log10(x);
    case VEBROSTIN_SIN: return sin(x);
    case VEBROSTIN_COS: return cos(x);
    case VEBROSTIN_TAN: return tan(x);
    case VEBROSTIN_TANH: return tanh(x);
    default: return pow(x, value_of(state[VEBROSTIN_SECOND]));
    }
}

static void refused(const char *what, size_t number) {
    if (number == VEBROSTIN_WRONG_FIELD || number == VEBROSTIN_ENDED_EARLY || number == VEBROSTIN_LEFT_OVER)
        fprintf(stderr, "%s: refusal %zu at node %llu\n", what, number, (unsigned long long)report[VEBROSTIN_NODE]);
    else
        fprintf(stderr, "%s: refusal %zu at '%.*s'\n", what, number, VEBROSTIN_PATH_LENGTH, (const char *)path);
    exit(1);
}

/* The value of the program, with its questions answered by libm. */
static double evaluate(const char *what) {
    uint64_t state[VEBROSTIN_STATE_LENGTH];
    size_t number = vebrostin_run(program, PROGRAM, inputs, input_count, registers, REGISTERS, path, sizeof path, SIZE_MAX,
                                  state, VEBROSTIN_STATE_LENGTH, report, VEBROSTIN_REPORT_LENGTH);
    while (number == VEBROSTIN_ASK)
        number = vebrostin_answer(program, PROGRAM, inputs, input_count, registers, REGISTERS, path, sizeof path, SIZE_MAX,
                                  state, VEBROSTIN_STATE_LENGTH, report, VEBROSTIN_REPORT_LENGTH, answer(state));
    if (number != VEBROSTIN_OK)
        refused(what, number);
    return value_of(state[VEBROSTIN_VALUE]);
}

static size_t load(const char *folder, const char *name, uint8_t *bytes, size_t room) {
    char file[4096];
    snprintf(file, sizeof file, "%s/%s", folder, name);
    FILE *f = fopen(file, "rb");
    if (!f) {
        perror(file);
        exit(1);
    }
    size_t length = fread(bytes, 1, room, f);
    fclose(f);
    return length;
}

int main(int count, char **words) {
    if (count < 3) {
        fprintf(stderr, "fuel_per_mile FOLDER SYMBOL VALUE..\n");
        return 2;
    }
    size_t n = load(words[1], "formula.bin", formula, sizeof formula), m = load(words[1], "input", names, sizeof names);
    if (n > FORMULA) {
        fprintf(stderr, "%s/formula.bin: longer than %d bytes\n", words[1], FORMULA);
        return 1;
    }
    const uint8_t *end = memchr(names, '\n', m);
    if (end)
        m = (size_t)(end - names);
    for (int i = 3; i < count && input_count < 256; i++)
        inputs[input_count++] = atof(words[i]);
    size_t number = vebrostin_compile(formula, n, names, m, path, sizeof path, program, PROGRAM, report, VEBROSTIN_REPORT_LENGTH);
    if (number != VEBROSTIN_OK)
        refused("compile", number);
    printf("fuel %g kg\n", evaluate("run"));
    number = vebrostin_derive(formula, n, names, m, (uint32_t)atol(words[2]), path, sizeof path, tree, sizeof tree, list, sizeof list,
                              program, PROGRAM, report, VEBROSTIN_REPORT_LENGTH);
    if (number != VEBROSTIN_OK)
        refused("derive", number);
    printf("fuel per mile %g kg\n", evaluate("run of the derivative"));
    return 0;
}
