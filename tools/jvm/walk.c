/*
 * Runs the sheets of a CASES file (tools/jvm/Methods.java) on the exported library, and tells which differences of the Rust they meet.
 *
 *   walk CASES                a line for each: the last line, a tab, the rows of docs/DIFFERENCES.md that it meets, a tab, its steps
 *   walk --executed CASES     how many methods execute each opcode, each WIDE form, each switch at each alignment, and catch an exception
 *
 * The end comes from workbook_run. The same method is then walked with workbook_step: before each step the opcode and its operands say whether the
 * Rust does something else there. Both ways have to end in the same way.
 */
#include <stdio.h>
#include <stdlib.h>
#include <string.h>

#include "workbook.h"

enum { SHEET = 65536, SLOTS = 131072, POOL = 65536, BUDGET = 10000000, ENTRY = 12 };
#define MINIMUM 0x8000000000000000u

static uint8_t sheet[SHEET], kinds[POOL];
static uint32_t words[POOL], slots[SLOTS], state[WORKBOOK_STATE_WORDS], answer[WORKBOOK_ANSWER_WORDS];
static size_t sheet_len;
static const uint8_t *code, *handlers;
static size_t code_len, handlers_len;

/* Rows that the method meets, in the order of the table. */
enum { ROWS = 47 };
static char met[ROWS];

/* Executed in this method, and how many methods execute it: opcodes, then WIDE by its second byte, then switches by opcode and offset modulo 4, then
   exceptions caught by type 0, by a class, and after another. */
enum { WIDES = 256, SWITCHES = 512, CAUGHT = 520, MARKS = 523 };
static char executed[MARKS];
static long tally[MARKS];

static uint32_t load(void) {
    uint32_t number = workbook_load(sheet, sheet_len, slots, SLOTS, kinds, POOL, words, POOL, state, WORKBOOK_STATE_WORDS, answer, WORKBOOK_ANSWER_WORDS);
    code = sheet + answer[0];
    code_len = answer[1];
    handlers = sheet + answer[2];
    handlers_len = answer[3];
    return number;
}

static uint32_t run(void) {
    return workbook_run(code, code_len, kinds, POOL, words, POOL, handlers, handlers_len, slots, SLOTS, state, WORKBOOK_STATE_WORDS, answer,
                        WORKBOOK_ANSWER_WORDS, BUDGET);
}

static uint32_t step(void) {
    return workbook_step(code, code_len, kinds, POOL, words, POOL, handlers, handlers_len, slots, SLOTS, state, WORKBOOK_STATE_WORDS, answer,
                         WORKBOOK_ANSWER_WORDS);
}

/* ---- what lies on the stack, counted from the top */

static uint32_t word(uint32_t below) { return slots[state[WORKBOOK_MAX_LOCALS] + state[WORKBOOK_DEPTH] - 1 - below]; }

static uint64_t pair(uint32_t below) { return (uint64_t)word(below) << 32 | word(below + 1); }

static int float_nan(uint32_t bits) { return (bits & 0x7FFFFFFF) > 0x7F800000; }

static int double_nan(uint64_t bits) { return (bits & 0x7FFFFFFFFFFFFFFF) > 0x7FF0000000000000; }

static size_t half_at(const uint8_t *at) { return (size_t)at[0] << 8 | at[1]; }

static uint32_t word_at(size_t at) { return (uint32_t)code[at] << 24 | (uint32_t)code[at + 1] << 16 | (uint32_t)code[at + 2] << 8 | code[at + 3]; }

/* ---- the exception table */

/* The first entry that takes an exception and covers an offset; one that starts so many bytes too late counts too. */
static const uint8_t *taker(size_t pc, size_t late) {
    size_t at;
    for (at = 0; at + ENTRY <= handlers_len; at += ENTRY) {
        const uint8_t *entry = handlers + at + 4;
        size_t type = half_at(entry + 6);
        if (half_at(entry) <= pc + late && pc < half_at(entry + 2) && (type == 0 || (kinds[type] == 7 && words[type] == 1))) return entry;
    }
    return NULL;
}

/* ---- the rows of docs/DIFFERENCES.md, section 1, by the number after the point */

/* A division: the Rust throws where the minimum is divided by -1, and its handlers cover one byte more. */
static int division_row(size_t pc, int row, int zero, int edge) {
    if (edge) return row < 3 && taker(pc, 1) ? 46 : row;
    if (!zero || taker(pc, 1) == taker(pc, 0)) return 0;
    return taker(pc, 0) ? 45 : 44;
}

static int int_row(size_t pc, int row) { return division_row(pc, row, word(0) == 0, word(1) == 0x80000000 && word(0) == 0xFFFFFFFF); }

static int long_row(size_t pc, int row) { return division_row(pc, row, pair(0) == 0, pair(2) == MINIMUM && pair(0) + 1 == 0); }

/* LCMP by the sign of a wrapped difference. */
static int lcmp_row(uint64_t a, uint64_t b) {
    int less = (int64_t)a < (int64_t)b, seems_less = (int64_t)(a - b) < 0;
    return less == seems_less ? 0 : less ? 8 : 9;
}

/* A switch whose operands the Rust reads four bytes too early. */
static int padding_row(size_t pc, int lookup) {
    static const int rows[4] = {14, 11, 12, 13};
    return pc % 8 > 3 ? 0 : rows[pc % 8] + 4 * lookup;
}

/* A shift of a long: the Rust takes its count for a long. Below it lies a value, nothing, or a local. */
static int shift_row(int opcode) {
    if (state[WORKBOOK_DEPTH] > 3) return 19 + (opcode - 121) / 2;
    return state[WORKBOOK_MAX_LOCALS] > 0 ? 25 : 22 + (opcode - 121) / 2;
}

/* FADD to DREM with the operands of the step. */
static int nan_row(int opcode) {
    if (opcode != 98) return opcode % 2 ? 33 + (opcode - 99) / 4 : 28 + (opcode - 98) / 4;
    if (float_nan(word(0)) && float_nan(word(1))) return 28;
    return (float_nan(word(0)) && !(word(0) & 0x400000)) || (float_nan(word(1)) && !(word(1) & 0x400000)) ? 27 : 26;
}

/* A returned int that its type is too narrow for. */
static int narrow_row(uint32_t value) {
    switch (state[WORKBOOK_RETURN_TYPE]) {
    case 'B': return value + 0x80 > 0xFF ? 40 : 0;
    case 'C': return value > 0xFFFF ? 41 : 0;
    case 'S': return value + 0x8000 > 0xFFFF ? 42 : 0;
    case 'Z': return value > 1 ? 43 : 0;
    default: return 0;
    }
}

static void meet(int row) {
    if (row > 0) met[row] = 1;
}

/* What the next step meets. A NaN is only known after it: its row is handed back, 0 where none can come. */
static int look(void) {
    size_t pc = state[WORKBOOK_PC];
    int opcode = code[pc];
    switch (opcode) {
    case 108: meet(int_row(pc, 1)); break;
    case 109: meet(long_row(pc, 2)); break;
    case 112: meet(int_row(pc, 3)); break;
    case 113: meet(long_row(pc, 4)); break;
    case 121: case 123: case 125: meet(shift_row(opcode)); break;
    case 132: meet(code[pc + 2] < 128 ? 0 : code[pc + 2] == 128 ? 5 : 6); break;
    case 148: meet(lcmp_row(pair(2), pair(0))); break;
    case 170: meet(word(0) == word_at((pc / 4 + 1) * 4 + 8) ? 10 : 0); /* and its operands */
    /* fall through */
    case 171: meet(padding_row(pc, opcode == 171)); break;
    case 172: meet(narrow_row(word(0))); break;
    case 196: meet(code[pc + 1] == 132 && code[pc + 4] > 127 ? 7 : 0); break;
    case 141: return 38;
    case 144: return 39;
    case 98: case 99: case 102: case 103: case 106: case 107: case 110: case 111: case 114: case 115: return nan_row(opcode);
    default: break;
    }
    return 0;
}

static int nan_on_top(int row) { return row > 32 && row < 39 ? double_nan(pair(0)) : float_nan(word(0)); }

static void note_executed(void) {
    size_t pc = state[WORKBOOK_PC];
    executed[code[pc]] = 1;
    if (code[pc] == 196) executed[WIDES + code[pc + 1]] = 1;
    if (code[pc] == 170 || code[pc] == 171) executed[SWITCHES + 4 * (code[pc] - 170) + pc % 4] = 1;
}

/* Notes whether the next step catches an exception. */
static void note_caught(void) {
    size_t pc = state[WORKBOOK_PC];
    int narrow = code[pc] == 108 || code[pc] == 112, wide = code[pc] == 109 || code[pc] == 113;
    const uint8_t *entry = (narrow && word(0) == 0) || (wide && pair(0) == 0) ? taker(pc, 0) : NULL;
    if (!entry) return;
    if (executed[CAUGHT] || executed[CAUGHT + 1]) executed[CAUGHT + 2] = 1;
    executed[CAUGHT + (half_at(entry + 6) > 0)] = 1;
}

/* ---- a method */

/* Walks to the end with single steps. */
static uint32_t walk(uint64_t *steps) {
    uint32_t number;
    load();
    for (*steps = 0;; ++*steps) {
        int row = look();
        note_executed();
        note_caught();
        number = step();
        if (number != WORKBOOK_OK) return number;
        if (row > 0 && nan_on_top(row)) meet(row);
    }
}

static void print_end(uint32_t number) {
    unsigned long low = answer[0], high = answer[1];
    switch (number) {
    case WORKBOOK_RETURN_INT: printf("return int %08lX", low); break;
    case WORKBOOK_RETURN_FLOAT: printf("return float %08lX", low); break;
    case WORKBOOK_RETURN_REF: printf("return ref %08lX", low); break;
    case WORKBOOK_RETURN_LONG: printf("return long %08lX%08lX", high, low); break;
    case WORKBOOK_RETURN_DOUBLE: printf("return double %08lX%08lX", high, low); break;
    case WORKBOOK_RETURN_VOID: printf("return void"); break;
    case WORKBOOK_THROW_ARITHMETIC: printf("throw arithmetic"); break;
    case WORKBOOK_STOPPED: printf("stopped"); break;
    default: printf("refused %lu", (unsigned long)number); break;
    }
}

static void print_rows(uint64_t steps) {
    const char *before = "\t";
    int row;
    for (row = 1; row < ROWS; row++) {
        if (!met[row]) continue;
        printf("%s1.%d", before, row);
        before = " ";
    }
    printf("%s%lu\n", *before == '\t' ? "\t\t" : "\t", (unsigned long)steps);
}

/* Runs and walks the sheet; whether both end alike. */
static int method(int print) {
    uint32_t number = load(), ran[2];
    uint64_t steps;
    int i;
    if (number != WORKBOOK_OK) {
        if (print) printf("sheet %lu\t\t0\n", (unsigned long)number);
        return 1;
    }
    number = run();
    if (print) print_end(number);
    memset(met, 0, sizeof met);
    memset(executed, 0, sizeof executed);
    if (number == WORKBOOK_STOPPED || number < 100) {
        if (print) print_rows(BUDGET);
        return 1;
    }
    ran[0] = answer[0];
    ran[1] = answer[1];
    if (walk(&steps) != number || (number < WORKBOOK_RETURN_VOID && (ran[0] != answer[0] || ran[1] != answer[1]))) return 0;
    for (i = 0; i < MARKS; i++) tally[i] += executed[i];
    if (print) print_rows(steps);
    return 1;
}

static void print_executed(void) {
    static const char *const how[] = {"by type 0", "by a class", "after another"};
    int i;
    for (i = 0; i < WIDES; i++) if (tally[i]) printf("opcode %d: %ld\n", i, tally[i]);
    for (i = WIDES; i < SWITCHES; i++) if (tally[i]) printf("WIDE %d: %ld\n", i - WIDES, tally[i]);
    for (i = SWITCHES; i < CAUGHT; i++) if (tally[i]) printf("switch %d at offset modulo 4: %d: %ld\n", 170 + (i - SWITCHES) / 4, i % 4, tally[i]);
    for (i = CAUGHT; i < MARKS; i++) if (tally[i]) printf("caught %s: %ld\n", how[i - CAUGHT], tally[i]);
}

int main(int count, char **arguments) {
    int tell = count == 3 && strcmp(arguments[1], "--executed") == 0;
    FILE *cases = fopen(arguments[count - 1], "rb");
    uint8_t length[4];
    if (!cases || count != 2 + tell) {
        fprintf(stderr, "usage: walk [--executed] CASES\n");
        return 2;
    }
    while (fread(length, 1, 4, cases) == 4) {
        sheet_len = (size_t)length[0] << 24 | (size_t)length[1] << 16 | (size_t)length[2] << 8 | length[3];
        if (sheet_len > SHEET || fread(sheet, 1, sheet_len, cases) != sheet_len) {
            fprintf(stderr, "the file of cases is cut\n");
            return 2;
        }
        if (!method(!tell)) {
            printf("a run and a walk end differently\n");
            return 1;
        }
    }
    if (tell) print_executed();
    return 0;
}
