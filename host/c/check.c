/*
 * Checks include/workbook.h against the library, at its boundary.
 *
 *   cc -std=c99 -Wall -Wextra -Iinclude host/c/check.c target/staticlib/libworkbook.a -o check
 *   ./check
 *
 * All lent memory lies in one struct, with guard elements around every part. `have` is what is lent, `want` what it should
 * be after the next call. After each call the number is compared and then the whole struct, so that a word written at a
 * wrong place, or left out, is seen wherever it lies.
 */
#include <stdio.h>
#include <string.h>

#include "workbook.h"

enum { GUARD = 4, SHEET = 96, SLOTS = 8, POOL = 6, HANDLERS = 30, ENTRIES = 6, LIST = 9 };

struct memory {
    uint32_t slots[GUARD + SLOTS + GUARD];
    uint32_t words[GUARD + POOL + GUARD];
    uint32_t log[GUARD + ENTRIES * WORKBOOK_LOG_WORDS + GUARD];
    uint32_t state[GUARD + WORKBOOK_STATE_WORDS + GUARD];
    uint32_t answer[GUARD + WORKBOOK_ANSWER_WORDS + GUARD];
    uint32_t answers[GUARD + LIST * WORKBOOK_PRESS_WORDS + GUARD];
    uint8_t sheet[GUARD + SHEET + GUARD];
    uint8_t kinds[GUARD + POOL + GUARD];
    uint8_t handlers[GUARD + HANDLERS + GUARD];
    uint8_t presses[GUARD + LIST + GUARD];
};

static struct memory have, want;

#define HAVE(part) (have.part + GUARD)
#define WANT(part) (want.part + GUARD)
#define COUNT_OF(table) (sizeof(table) / sizeof(table)[0])

/* The parts that the next call is given. */
struct bytes {
    uint8_t *at;
    size_t len;
};
struct words {
    uint32_t *at;
    size_t len;
};
static struct {
    struct bytes sheet, code, kinds, handlers, presses;
    struct words words, slots, log, state, answer, answers;
} lent;

#define OF(part) lent.part.at, lent.part.len
#define METHOD OF(code), OF(kinds), OF(words)

static uint32_t load(void) { return workbook_load(OF(sheet), OF(slots), OF(kinds), OF(words), OF(state), OF(answer)); }
static uint32_t step(void) { return workbook_step(METHOD, OF(handlers), OF(slots), OF(state), OF(answer)); }
static uint32_t forward(void) { return workbook_forward(METHOD, OF(handlers), OF(slots), OF(log), OF(state), OF(answer)); }
static uint32_t back(void) { return workbook_back(METHOD, OF(slots), OF(log), OF(state)); }
static uint32_t run(uint64_t budget) { return workbook_run(METHOD, OF(handlers), OF(slots), OF(state), OF(answer), budget); }
static uint32_t presses(void) {
    return workbook_presses(METHOD, OF(handlers), OF(slots), OF(log), OF(state), OF(presses), OF(answers));
}

static int checks, failed;

static void check(int holds, int line, const char *what, unsigned long got, unsigned long wanted) {
    checks++;
    if (!holds) {
        failed++;
        printf("line %d: %s: %lu, not %lu\n", line, what, got, wanted);
    }
}

/* The next call is to change nothing but what is said after this. */
static void as_it_is(void) { memcpy(&want, &have, sizeof want); }

/* The number that came back, and every element of the lent parts and of the guards. */
static void expect(int line, uint32_t got, uint32_t wanted) {
    const unsigned char *a = (const unsigned char *)&have, *b = (const unsigned char *)&want;
    size_t same = 0;
    while (same < sizeof have && a[same] == b[same]) same++;
    check(got == wanted, line, "number", got, wanted);
    check(same == sizeof have, line, "bytes of memory as wanted", (unsigned long)same, (unsigned long)sizeof have);
    as_it_is();
}

#define EXPECT(got, wanted) expect(__LINE__, (got), (wanted))

/* State and answer words that are lent past the seventh and the fourth. They are guard words. */
static size_t extra;

/* All memory filled with A5, then some bytes as sheet and as code. Handlers of A5 cover no offset: start is end. */
static void lend(const uint8_t *bytes, size_t size) {
    memset(&have, 0xA5, sizeof have);
    memcpy(HAVE(sheet), bytes, size);
    as_it_is();
    lent.sheet.at = lent.code.at = HAVE(sheet);
    lent.sheet.len = lent.code.len = size;
    lent.kinds.at = HAVE(kinds);
    lent.words.at = HAVE(words);
    lent.kinds.len = lent.words.len = POOL;
    lent.handlers.at = HAVE(handlers);
    lent.handlers.len = HANDLERS;
    lent.slots.at = HAVE(slots);
    lent.slots.len = SLOTS;
    lent.log.at = HAVE(log);
    lent.log.len = ENTRIES * WORKBOOK_LOG_WORDS;
    lent.state.at = HAVE(state);
    lent.state.len = WORKBOOK_STATE_WORDS + extra;
    lent.answer.at = HAVE(answer);
    lent.answer.len = WORKBOOK_ANSWER_WORDS + extra;
    lent.presses.at = HAVE(presses);
    lent.presses.len = 0;
    lent.answers.at = HAVE(answers);
    lent.answers.len = LIST * WORKBOOK_PRESS_WORDS;
}

/* Writes a word of what is lent, as a caller does. */
static void put(uint32_t *part, size_t at, uint32_t word) {
    part[at] = word;
    as_it_is();
}

/* The presses of the next list. */
static void put_presses(const uint8_t *list, size_t size) {
    memcpy(HAVE(presses), list, size);
    as_it_is();
    lent.presses.len = size;
}

static void want_state(uint32_t max_stack, uint32_t max_locals, uint32_t pc, uint32_t depth, uint64_t count) {
    WANT(state)[WORKBOOK_MAX_STACK] = max_stack;
    WANT(state)[WORKBOOK_MAX_LOCALS] = max_locals;
    WANT(state)[WORKBOOK_PC] = pc;
    WANT(state)[WORKBOOK_DEPTH] = depth;
    WANT(state)[WORKBOOK_COUNT_LOW] = (uint32_t)count;
    WANT(state)[WORKBOOK_COUNT_HIGH] = (uint32_t)(count >> 32);
}

static void want_answer(uint32_t low, uint32_t high) {
    WANT(answer)[0] = low;
    WANT(answer)[1] = high;
}

static void want_ran(uint32_t low, uint32_t high, uint64_t steps) {
    want_answer(low, high);
    WANT(answer)[2] = (uint32_t)steps;
    WANT(answer)[3] = (uint32_t)(steps >> 32);
}

static void want_press(size_t n, uint32_t number, uint32_t low, uint32_t high) {
    WANT(answers)[n * WORKBOOK_PRESS_WORDS] = number;
    WANT(answers)[n * WORKBOOK_PRESS_WORDS + 1] = low;
    WANT(answers)[n * WORKBOOK_PRESS_WORDS + 2] = high;
}

/* The sheet of the printed walk (docs/RULES.md): ICONST_3, ICONST_4, IADD, IRETURN. */
static const uint8_t printed[] = {0x4C, 0x4D, 0x00, 0x04, 0x00, 0x02, 0x00, 0x00, 0x43, 0x44,
                                  0x00, 0x04, 0x06, 0x07, 0x60, 0xAC, 0x41, 0x52, 0x00, 0x00};

/* max_stack 4, max_locals 3; LDC2_W 2, LRETURN; an int at 1 and a long at 2; two argument words. */
static const uint8_t full[] = {
    'L', 'M', 0, 4, 0, 4, 0, 3, 'C', 'D', 0, 4, 0x14, 0, 2, 0xAD, 'K', 'I', 0, 7, 0, 1, 3, 0x11, 0x12, 0x13, 0x14,
    'K', 'I', 0, 11, 0, 2, 5, 0x21, 0x22, 0x23, 0x24, 0x25, 0x26, 0x27, 0x28,
    'A', 'R', 0, 8, 0x31, 0x32, 0x33, 0x34, 0x41, 0x42, 0x43, 0x44};

/* A load that is to be accepted, with its code of some bytes at an offset, and with some handlers, which end where the record
   of the argument words begins. The caller has said what it wants of slots, pool and the rest of the state. */
static void load_it(int line, uint32_t return_type, uint32_t offset, uint32_t size, uint32_t handlers, uint32_t arguments) {
    const uint32_t handlers_size = handlers * WORKBOOK_HANDLER_BYTES;
    WANT(state)[WORKBOOK_RETURN_TYPE] = return_type;
    want_answer(offset, size);
    WANT(answer)[2] = (uint32_t)lent.sheet.len - 4 - 4 * arguments - handlers_size;
    WANT(answer)[3] = handlers_size;
    expect(line, load(), WORKBOOK_OK);
    lent.code.at = lent.sheet.at + HAVE(answer)[0];
    lent.code.len = HAVE(answer)[1];
    lent.handlers.at = lent.sheet.at + HAVE(answer)[2];
    lent.handlers.len = HAVE(answer)[3];
}

static void load_printed(void) {
    lend(printed, sizeof printed);
    memset(WANT(kinds), 0, POOL);
    memset(WANT(words), 0, POOL * sizeof(uint32_t));
    memset(WANT(slots), 0, 2 * sizeof(uint32_t));
    want_state(2, 0, 0, 0, 0);
    load_it(__LINE__, 0, 12, 4, 0, 0);
}

static void load_full(void) {
    lend(full, sizeof full);
    memset(WANT(kinds), 0, POOL);
    memset(WANT(words), 0, POOL * sizeof(uint32_t));
    memset(WANT(slots), 0, 7 * sizeof(uint32_t));
    WANT(kinds)[1] = 3;
    WANT(kinds)[2] = 5;
    WANT(words)[1] = 0x11121314;
    WANT(words)[2] = 0x25262728;
    WANT(words)[3] = 0x21222324;
    WANT(slots)[0] = 0x31323334;
    WANT(slots)[1] = 0x41424344;
    want_state(4, 3, 0, 0, 0);
    load_it(__LINE__, 0, 12, 4, 0, 2);
}

/* A method that no sheet was loaded for, at its start, with different words in all slots. Its return type stays A5A5A5A5,
   which is no letter: it counts as 0, and every call is to leave it. */
static void lend_code(const uint8_t *code, size_t size, uint32_t max_stack, uint32_t max_locals) {
    uint32_t i;
    lend(code, size);
    want_state(max_stack, max_locals, 0, 0, 0);
    for (i = 0; i < SLOTS; i++) WANT(slots)[i] = 100 + i;
    memcpy(&have, &want, sizeof have);
}

static void check_load(void) {
    static const struct {
        uint32_t number;
        size_t size;
        uint8_t bytes[28];
    } bad[] = {
        {WORKBOOK_SHEET_CUT, 7, {'L', 'M', 0, 4, 0, 2, 0}},
        {WORKBOOK_SHEET_CUT, 3, {'L', 'M', 0}},
        {WORKBOOK_SHEET_MARK, 8, {'l', 'm', 0, 4, 0, 2, 0, 0}},
        {WORKBOOK_SHEET_ORDER, 0, {0}},
        {WORKBOOK_SHEET_ORDER, 8, {'L', 'M', 0, 4, 0, 2, 0, 0}},
        {WORKBOOK_SHEET_ORDER, 5, {'C', 'D', 0, 1, 0}},
        {WORKBOOK_SHEET_LENGTH, 7, {'L', 'M', 0, 3, 0, 2, 0}},
        {WORKBOOK_SHEET_CONSTANT, 24, {'L', 'M', 0, 4, 0, 2, 0, 0, 'C', 'D', 0, 1, 0, 'K', 'I', 0, 7, 0, 1, 5, 0, 0, 0, 0}},
        /* A class has one word, 0 or 1. */
        {WORKBOOK_SHEET_CONSTANT, 24, {'L', 'M', 0, 4, 0, 2, 0, 0, 'C', 'D', 0, 1, 0, 'K', 'I', 0, 7, 0, 1, 7, 0, 0, 0, 2}},
        {WORKBOOK_SHEET_CONSTANT, 24, {'L', 'M', 0, 4, 0, 2, 0, 0, 'C', 'D', 0, 1, 0, 'K', 'I', 0, 7, 0, 1, 7, 1, 0, 0, 1}},
        {WORKBOOK_SHEET_CONSTANT, 28, {'L', 'M', 0, 4, 0, 2, 0, 0, 'C', 'D', 0, 1, 0, 'K', 'I', 0, 11, 0, 1, 7, 0, 0, 0, 1}},
        {WORKBOOK_SHEET_ARGUMENTS, 21, {'L', 'M', 0, 4, 0, 2, 0, 0, 'C', 'D', 0, 1, 0, 'A', 'R', 0, 4, 0, 0, 0, 0}},
    };
    size_t i;

    load_printed();
    load_full();

    /* A refused sheet; then with nothing lent but the sheet: its own number comes first. */
    for (i = 0; i < COUNT_OF(bad); i++) {
        lend(bad[i].bytes, bad[i].size);
        EXPECT(load(), bad[i].number);
        lent.slots.len = lent.kinds.len = lent.words.len = lent.state.len = lent.answer.len = 0;
        EXPECT(load(), bad[i].number);
    }

    /* 26: slots, pool, state or answer one too short, or kinds and words not equally long. */
    lend(full, sizeof full);
    lent.slots.len = 6;
    EXPECT(load(), WORKBOOK_SHEET_MEMORY);
    lent.slots.len = SLOTS;
    lent.kinds.len = lent.words.len = 3;
    EXPECT(load(), WORKBOOK_SHEET_MEMORY);
    lent.kinds.len = 4;
    lent.words.len = 5;
    EXPECT(load(), WORKBOOK_SHEET_MEMORY);
    lent.words.len = 4;
    lent.state.len = WORKBOOK_STATE_WORDS - 1;
    EXPECT(load(), WORKBOOK_SHEET_MEMORY);
    lent.state.len = WORKBOOK_STATE_WORDS;
    lent.answer.len = WORKBOOK_ANSWER_WORDS - 1;
    EXPECT(load(), WORKBOOK_SHEET_MEMORY);
    lent.state.len = lent.answer.len = 0;
    EXPECT(load(), WORKBOOK_SHEET_MEMORY);
}

/* The printed method by steps, and a long of the pool. */
static void check_step(void) {
    load_printed();
    WANT(slots)[0] = 3;
    want_state(2, 0, 1, 1, 0);
    EXPECT(step(), WORKBOOK_OK);
    WANT(slots)[1] = 4;
    want_state(2, 0, 2, 2, 0);
    EXPECT(step(), WORKBOOK_OK);
    WANT(slots)[0] = 7;
    want_state(2, 0, 3, 1, 0);
    EXPECT(step(), WORKBOOK_OK);
    want_answer(7, 0);
    EXPECT(step(), WORKBOOK_RETURN_INT);
    EXPECT(step(), WORKBOOK_RETURN_INT);

    load_full();
    WANT(slots)[3] = 0x25262728;
    WANT(slots)[4] = 0x21222324;
    want_state(4, 3, 3, 2, 0);
    EXPECT(step(), WORKBOOK_OK);
    want_answer(0x25262728, 0x21222324);
    EXPECT(step(), WORKBOOK_RETURN_LONG);

    /* An ordinary step gives count 0 in both words; an outcome leaves it. */
    load_printed();
    put(HAVE(state), WORKBOOK_COUNT_LOW, 5);
    put(HAVE(state), WORKBOOK_COUNT_HIGH, 6);
    WANT(slots)[0] = 3;
    want_state(2, 0, 1, 1, 0);
    EXPECT(step(), WORKBOOK_OK);
    put(HAVE(state), WORKBOOK_COUNT_HIGH, 6);
    put(HAVE(state), WORKBOOK_PC, 3);
    want_answer(3, 0);
    EXPECT(step(), WORKBOOK_RETURN_INT);
}

/* Each outcome and each refusal of an instruction. */
static void check_ends(void) {
    /* Codes of one-byte instructions up to the last, which ends the method after some steps, at some depth. */
    static const struct {
        uint32_t number, low, high, steps, depth;
        size_t size;
        uint8_t code[4];
    } ends[] = {
        {WORKBOOK_RETURN_INT, 0xFFFFFFFF, 0, 1, 1, 2, {0x02, 0xAC}},
        {WORKBOOK_RETURN_FLOAT, 0x40000000, 0, 1, 1, 2, {0x0D, 0xAE}},
        {WORKBOOK_RETURN_REF, 101, 0, 1, 1, 2, {0x2B, 0xB0}},
        {WORKBOOK_RETURN_LONG, 1, 0, 1, 2, 2, {0x0A, 0xAD}},
        {WORKBOOK_RETURN_DOUBLE, 0, 0x3FF00000, 1, 2, 2, {0x0F, 0xAF}},
        {WORKBOOK_RETURN_VOID, 0, 0, 0, 0, 1, {0xB1}},
        {WORKBOOK_THROW_ARITHMETIC, 0, 0, 2, 2, 3, {0x04, 0x03, 0x6C}},
        {WORKBOOK_REFUSED_OPCODE, 0, 0, 0, 0, 1, {0xCA}},
        {WORKBOOK_REFUSED_OPERANDS, 0, 0, 0, 0, 2, {0x11, 0x00}},
        {WORKBOOK_REFUSED_POP, 0, 0, 1, 1, 2, {0x03, 0x60}},
        {WORKBOOK_REFUSED_PUSH, 0, 0, 2, 2, 3, {0x03, 0x03, 0x03}},
        {WORKBOOK_REFUSED_LOCAL, 0, 0, 0, 0, 2, {0x15, 0x02}},
        {WORKBOOK_REFUSED_CONSTANT, 0, 0, 0, 0, 2, {0x12, 0x00}},
        {WORKBOOK_REFUSED_NEXT_PC, 0, 0, 1, 0, 2, {0x00, 0x03}},
    };
    /* Lowest key 1, highest key 0. */
    static const uint8_t tableswitch[] = {0xAA, 0, 0, 0, 0, 0, 0, 0, 0, 0, 0, 1, 0, 0, 0, 0};
    static const uint8_t list[] = {WORKBOOK_PRESS_FORWARD};
    size_t i, j;

    for (i = 0; i < COUNT_OF(ends); i++) {
        lend_code(ends[i].code, ends[i].size, 2, 2);
        for (j = 0; j < ends[i].steps; j++) check(step() == WORKBOOK_OK, __LINE__, "an ordinary step", (unsigned long)i, 0);
        as_it_is();
        if (WORKBOOK_RETURN_INT <= ends[i].number && ends[i].number <= WORKBOOK_RETURN_VOID) {
            want_answer(ends[i].low, ends[i].high);
        }
        EXPECT(step(), ends[i].number);
        memset(HAVE(answer), 0xA5, 2 * sizeof(uint32_t));
        as_it_is();
        if (WORKBOOK_RETURN_INT <= ends[i].number && ends[i].number <= WORKBOOK_RETURN_VOID) {
            want_answer(ends[i].low, ends[i].high);
        }
        EXPECT(forward(), ends[i].number);
        put_presses(list, sizeof list);
        want_press(0, ends[i].number, ends[i].low, ends[i].high);
        EXPECT(presses(), WORKBOOK_OK);

        /* A run that stands there, and one from the start. */
        want_ran(ends[i].low, ends[i].high, 0);
        EXPECT(run(9), ends[i].number);
        put(HAVE(state), WORKBOOK_PC, 0);
        put(HAVE(state), WORKBOOK_DEPTH, 0);
        want_state(2, 2, ends[i].steps, ends[i].depth, 0);
        want_ran(ends[i].low, ends[i].high, ends[i].steps);
        EXPECT(run(9), ends[i].number);
    }
    lend_code(tableswitch, sizeof tableswitch, 2, 2);
    EXPECT(step(), WORKBOOK_REFUSED_SWITCH);
    lent.code.len--;
    EXPECT(step(), WORKBOOK_REFUSED_OPERANDS);
}

/* What is lent is refused with a number by every function on a state: nothing is written but a run's four zeros and the
   answers of a list, whose two presses get the number each. */
static void refused(int line, uint32_t number) {
    static const uint8_t list[] = {WORKBOOK_PRESS_FORWARD, WORKBOOK_PRESS_BACK};
    expect(line, step(), number);
    expect(line, forward(), number);
    expect(line, back(), number);
    want_ran(0, 0, 0);
    expect(line, run(9), number);
    memset(HAVE(answer), 0xA5, WORKBOOK_ANSWER_WORDS * sizeof(uint32_t));
    as_it_is();
    want_ran(0, 0, 0);
    expect(line, run(0), number);
    put_presses(list, sizeof list);
    want_press(0, number, 0, 0);
    want_press(1, number, 0, 0);
    expect(line, presses(), WORKBOOK_OK);
}

static void check_boundary(void) {
    static const struct {
        uint32_t number;
        size_t at;
        uint32_t word;
    } states[] = {
        {WORKBOOK_REFUSED_LENT, WORKBOOK_MAX_STACK, 65536},
        {WORKBOOK_REFUSED_LENT, WORKBOOK_MAX_STACK, 0x80000002},
        {WORKBOOK_REFUSED_LENT, WORKBOOK_MAX_LOCALS, 65536},
        {WORKBOOK_REFUSED_LENT, WORKBOOK_MAX_LOCALS, 0xFFFFFFFF},
        {WORKBOOK_REFUSED_LENT, WORKBOOK_MAX_LOCALS, SLOTS - 1},
        {WORKBOOK_REFUSED_PC, WORKBOOK_PC, 4},
        {WORKBOOK_REFUSED_PC, WORKBOOK_PC, 65536},
        {WORKBOOK_REFUSED_PC, WORKBOOK_PC, 0xFFFFFFFF},
        {WORKBOOK_REFUSED_DEPTH, WORKBOOK_DEPTH, 3},
        {WORKBOOK_REFUSED_DEPTH, WORKBOOK_DEPTH, 65536},
        {WORKBOOK_REFUSED_DEPTH, WORKBOOK_DEPTH, 0xFFFFFFFF},
    };
    const size_t few = 2 * WORKBOOK_STATE_WORDS;
    size_t i;

    for (i = 0; i < COUNT_OF(states); i++) {
        load_printed();
        put(HAVE(state), WORKBOOK_COUNT_LOW, 1);
        put(HAVE(state), states[i].at, states[i].word);
        refused(__LINE__, states[i].number);
    }
    load_printed();
    lent.words.len--;
    refused(__LINE__, WORKBOOK_REFUSED_LENT);
    load_printed();
    lent.slots.len = 1;
    refused(__LINE__, WORKBOOK_REFUSED_LENT);
    load_printed();
    lent.code.len = 0;
    refused(__LINE__, WORKBOOK_REFUSED_PC);

    /* Fewer than seven state words or four answer words: 1, and nothing is written, also where question 2 says no. */
    for (i = 0; i < few + 2 * WORKBOOK_ANSWER_WORDS; i++) {
        load_printed();
        if (i % 2) put(HAVE(state), WORKBOOK_PC, 4);
        lent.state.len = i < few ? i / 2 : WORKBOOK_STATE_WORDS;
        lent.answer.len = i < few ? WORKBOOK_ANSWER_WORDS : (i - few) / 2;
        lent.presses.len = i % 2;
        EXPECT(step(), WORKBOOK_REFUSED_LENT);
        EXPECT(forward(), WORKBOOK_REFUSED_LENT);
        EXPECT(run(9), WORKBOOK_REFUSED_LENT);
        if (i < few) {
            EXPECT(back(), WORKBOOK_REFUSED_LENT);
            EXPECT(presses(), WORKBOOK_REFUSED_LENT);
        }
    }
}

/* The largest code, pool and frame, and one more of each. The code is NOPs, so that nothing but the state changes. */
static void check_limits(void) {
    static uint8_t code[65536 + GUARD], kinds[65537 + GUARD];
    static uint32_t words[65537 + GUARD], slots[2 * 65535 + GUARD];
    size_t i;

    memset(kinds, 0xA5, sizeof kinds);
    memset(words, 0xA5, sizeof words);
    memset(slots, 0xA5, sizeof slots);
    lend_code(code, 1, 65535, 65535);
    lent.code.at = code;
    lent.code.len = 65535;
    lent.kinds.at = kinds;
    lent.words.at = words;
    lent.kinds.len = lent.words.len = 65536;
    lent.slots.at = slots;
    lent.slots.len = 2 * 65535;
    want_state(65535, 65535, 1, 0, 0);
    EXPECT(step(), WORKBOOK_OK);
    put(HAVE(state), WORKBOOK_DEPTH, 65535);
    want_state(65535, 65535, 65534, 65535, 0);
    want_ran(0, 0, 65533);
    EXPECT(run(UINT64_MAX), WORKBOOK_REFUSED_NEXT_PC);
    lent.code.len++;
    refused(__LINE__, WORKBOOK_REFUSED_PC);
    lent.code.len--;
    lent.kinds.len = lent.words.len = 65537;
    refused(__LINE__, WORKBOOK_REFUSED_LENT);
    lent.kinds.len = lent.words.len = 65536;
    lent.slots.len--;
    refused(__LINE__, WORKBOOK_REFUSED_LENT);
    lent.slots.len++;
    put(HAVE(state), WORKBOOK_DEPTH, 0);
    put(HAVE(state), WORKBOOK_MAX_STACK, 65534);
    put(HAVE(state), WORKBOOK_MAX_LOCALS, 65536);
    refused(__LINE__, WORKBOOK_REFUSED_LENT);
    put(HAVE(state), WORKBOOK_MAX_STACK, 65536);
    put(HAVE(state), WORKBOOK_MAX_LOCALS, 65534);
    refused(__LINE__, WORKBOOK_REFUSED_LENT);
    for (i = 0; i < COUNT_OF(slots) && slots[i] == 0xA5A5A5A5; i++) {
    }
    check(i == COUNT_OF(slots), __LINE__, "slots left", (unsigned long)i, COUNT_OF(slots));

    /* A load into them: the pool is cleared over its length, and left by a refusal. */
    lend(printed, sizeof printed);
    lent.kinds.at = kinds;
    lent.words.at = words;
    lent.kinds.len = lent.words.len = 65537;
    EXPECT(load(), WORKBOOK_SHEET_MEMORY);
    for (i = 0; i < COUNT_OF(words) && kinds[i] == 0xA5 && words[i] == 0xA5A5A5A5; i++) {
    }
    check(i == COUNT_OF(words), __LINE__, "pool left", (unsigned long)i, COUNT_OF(words));
    lent.kinds.len = lent.words.len = 65536;
    memset(WANT(slots), 0, 2 * sizeof(uint32_t));
    want_state(2, 0, 0, 0, 0);
    load_it(__LINE__, 0, 12, 4, 0, 0);
    for (i = 0; i < 65536 && kinds[i] == 0 && words[i] == 0; i++) {
    }
    check(i == 65536, __LINE__, "pool cleared", (unsigned long)i, 65536);
    check(kinds[65536] == 0xA5 && words[65536] == 0xA5A5A5A5, __LINE__, "pool's end", words[65536], 0xA5A5A5A5);
}

/* LCONST_1, DCONST_1, DUP2_X2, LSTORE_0, ISTORE_1, NOP, DRETURN on two locals and six places. Each ordinary step by its
   entry in the log, of which the fifth word on are the old words, and by the words that it writes instead. */
static const uint8_t long_walk[] = {0x0A, 0x0F, 0x5E, 0x3F, 0x3C, 0x00, 0xAF};
static const struct {
    uint32_t depth, entry[WORKBOOK_LOG_WORDS], new_words[6];
} taken[ENTRIES] = {
    {2, {0, 0, 2, 2, 102, 103}, {1, 0}},
    {4, {1, 2, 4, 2, 104, 105}, {0, 0x3FF00000}},
    {6, {2, 4, 2, 6, 1, 0, 0, 0x3FF00000, 106, 107}, {0, 0x3FF00000, 1, 0, 0, 0x3FF00000}},
    {4, {3, 6, 0, 2, 100, 101}, {0, 0x3FF00000}},
    {3, {4, 4, 1, 1, 0x3FF00000}, {0}},
    {3, {5, 3, 0, 0}, {0}},
};

static void want_taken(size_t n, uint64_t count) {
    memcpy(WANT(slots) + taken[n].entry[2], taken[n].new_words, taken[n].entry[3] * sizeof(uint32_t));
    want_state(6, 2, taken[n].entry[0] + 1, taken[n].depth, count);
}
static void want_logged(size_t n) {
    want_taken(n, n + 1);
    memcpy(WANT(log) + n * WORKBOOK_LOG_WORDS, taken[n].entry, sizeof taken[n].entry);
}
static void want_taken_back(size_t n) {
    memcpy(WANT(slots) + taken[n].entry[2], taken[n].entry + 4, taken[n].entry[3] * sizeof(uint32_t));
    want_state(6, 2, taken[n].entry[0], taken[n].entry[1], n);
}

/* All six steps with history. */
static void walk(void) {
    size_t i;
    lend_code(long_walk, sizeof long_walk, 6, 2);
    for (i = 0; i < ENTRIES; i++) {
        want_logged(i);
        EXPECT(forward(), WORKBOOK_OK);
    }
}

static void check_walk(void) {
    size_t i;

    walk();
    want_answer(0x3FF00000, 1);
    EXPECT(forward(), WORKBOOK_RETURN_DOUBLE);
    for (i = ENTRIES; i-- > 0;) {
        want_taken_back(i);
        EXPECT(back(), WORKBOOK_OK);
    }
    EXPECT(back(), WORKBOOK_REFUSED_START);

    lend_code(long_walk, sizeof long_walk, 6, 2);
    for (i = 0; i < ENTRIES; i++) {
        want_taken(i, 0);
        EXPECT(step(), WORKBOOK_OK);
    }
    lend_code(long_walk, sizeof long_walk, 6, 2);
    for (i = 0; i < ENTRIES; i++) want_taken(i, 0);
    want_ran(0x3FF00000, 1, ENTRIES);
    EXPECT(run(ENTRIES + 1), WORKBOOK_RETURN_DOUBLE);

    /* 12: no whole entry is left, and count is 64 bits. */
    lend_code(long_walk, sizeof long_walk, 6, 2);
    lent.log.len = WORKBOOK_LOG_WORDS - 1;
    EXPECT(forward(), WORKBOOK_REFUSED_LOG_FULL);
    lent.log.len = 0;
    EXPECT(forward(), WORKBOOK_REFUSED_LOG_FULL);
    lent.log.len = WORKBOOK_LOG_WORDS;
    put(HAVE(state), WORKBOOK_COUNT_HIGH, 1);
    EXPECT(forward(), WORKBOOK_REFUSED_LOG_FULL);
    put(HAVE(state), WORKBOOK_COUNT_HIGH, 0xFFFFFFFF);
    put(HAVE(state), WORKBOOK_COUNT_LOW, 0xFFFFFFFF);
    EXPECT(forward(), WORKBOOK_REFUSED_LOG_FULL);
}

/* 14: a log that does not reach, and entries that are not sound. The third entry is changed. */
static void check_unsound(void) {
    static const struct {
        size_t at;
        uint32_t word;
    } unsound[] = {{0, 7}, {0, 0x10000}, {1, 7}, {1, 0x10000}, {2, 3}, {2, 0xFFFFFFFF}, {3, 7}, {3, 0xFFFFFFFF}};
    static const uint8_t list[] = {WORKBOOK_PRESS_BACK};
    size_t i;

    walk();
    lent.log.len--;
    EXPECT(back(), WORKBOOK_REFUSED_ENTRY);
    lent.log.len++;
    put(HAVE(state), WORKBOOK_COUNT_LOW, ENTRIES + 1);
    EXPECT(back(), WORKBOOK_REFUSED_ENTRY);
    put(HAVE(state), WORKBOOK_COUNT_LOW, 3);
    put(HAVE(state), WORKBOOK_COUNT_HIGH, 1);
    EXPECT(back(), WORKBOOK_REFUSED_ENTRY);
    put(HAVE(state), WORKBOOK_COUNT_HIGH, 0);
    for (i = 0; i < COUNT_OF(unsound); i++) {
        uint32_t *word = HAVE(log) + 2 * WORKBOOK_LOG_WORDS + unsound[i].at, sound = *word;
        put(word, 0, unsound[i].word);
        EXPECT(back(), WORKBOOK_REFUSED_ENTRY);
        put(word, 0, sound);
    }

    /* Seven places that are in the frame; by a list of presses too. */
    put(HAVE(state), WORKBOOK_COUNT_LOW, ENTRIES);
    put(HAVE(log), (ENTRIES - 1) * WORKBOOK_LOG_WORDS + 3, 7);
    EXPECT(back(), WORKBOOK_REFUSED_ENTRY);
    put_presses(list, sizeof list);
    want_press(0, WORKBOOK_REFUSED_ENTRY, 0, 0);
    EXPECT(presses(), WORKBOOK_OK);
}

static void check_run(void) {
    static const uint8_t loop[] = {0xA7, 0x00, 0x00};
    static const uint64_t enough[] = {4, (uint64_t)1 << 32, UINT64_MAX};
    size_t i;

    /* Stopped after exactly the budget, with no further look. */
    load_printed();
    put(HAVE(state), WORKBOOK_COUNT_LOW, 5);
    put(HAVE(state), WORKBOOK_COUNT_HIGH, 6);
    want_state(2, 0, 0, 0, 0);
    want_ran(0, 0, 0);
    EXPECT(run(0), WORKBOOK_STOPPED);
    WANT(slots)[0] = 3;
    WANT(slots)[1] = 4;
    want_state(2, 0, 2, 2, 0);
    want_ran(0, 0, 2);
    EXPECT(run(2), WORKBOOK_STOPPED);
    WANT(slots)[0] = 7;
    want_state(2, 0, 3, 1, 0);
    want_ran(0, 0, 1);
    EXPECT(run(1), WORKBOOK_STOPPED);
    want_ran(7, 0, 0);
    EXPECT(run(1), WORKBOOK_RETURN_INT);

    /* A return before the budget is used up, which is 64 bits. */
    for (i = 0; i < COUNT_OF(enough); i++) {
        load_printed();
        WANT(slots)[0] = 7;
        WANT(slots)[1] = 4;
        want_state(2, 0, 3, 1, 0);
        want_ran(7, 0, 3);
        EXPECT(run(enough[i]), WORKBOOK_RETURN_INT);
    }
    lend_code(loop, sizeof loop, 2, 2);
    want_ran(0, 0, 1000003);
    EXPECT(run(1000003), WORKBOOK_STOPPED);

    /* A run ends a walk. */
    walk();
    want_state(6, 2, 6, 3, 0);
    want_ran(0x3FF00000, 1, 0);
    EXPECT(run(9), WORKBOOK_RETURN_DOUBLE);
    EXPECT(back(), WORKBOOK_REFUSED_START);
}

static void check_presses(void) {
    /* Any byte but 0 is forward. The return is pressed twice, and back once too often. */
    static const uint8_t printed_list[] = {0, 1, 0xFF, 2, 1, 0x80, 0, 0, 0};
    static const uint32_t printed_numbers[] = {13, 0, 0, 0, 101, 101, 0, 0, 0};
    static const uint8_t there_and_back[] = {1, 1, 1, 1, 0, 1, 0};
    size_t i;

    lend_code(printed + 12, 4, 2, 2);
    put_presses(printed_list, sizeof printed_list);
    for (i = 0; i < sizeof printed_list; i++) want_press(i, printed_numbers[i], printed_numbers[i] == 101 ? 7 : 0, 0);
    memset(WANT(log), 0, 3 * WORKBOOK_LOG_WORDS * sizeof(uint32_t));
    WANT(log)[2] = 2, WANT(log)[3] = 1, WANT(log)[4] = 102;
    WANT(log)[10] = 1, WANT(log)[11] = 1, WANT(log)[12] = 3, WANT(log)[13] = 1, WANT(log)[14] = 103;
    WANT(log)[20] = 2, WANT(log)[21] = 2, WANT(log)[22] = 2, WANT(log)[23] = 1, WANT(log)[24] = 3;
    EXPECT(presses(), WORKBOOK_OK);

    /* The log is full after three; answers past the last press stay. */
    lend_code(long_walk, sizeof long_walk, 6, 2);
    lent.log.len = 4 * WORKBOOK_LOG_WORDS - 1;
    put_presses(there_and_back, sizeof there_and_back);
    for (i = 0; i < sizeof there_and_back; i++) want_press(i, i == 3 ? WORKBOOK_REFUSED_LOG_FULL : 0, 0, 0);
    for (i = 0; i < 3; i++) want_logged(i);
    want_taken_back(2);
    EXPECT(presses(), WORKBOOK_OK);

    /* One word too few for the answers; a list of which three times the length wraps to 2: refused before it is read. */
    lend_code(long_walk, sizeof long_walk, 6, 2);
    put_presses(there_and_back, sizeof there_and_back);
    lent.answers.len = WORKBOOK_PRESS_WORDS * sizeof there_and_back - 1;
    EXPECT(presses(), WORKBOOK_REFUSED_LENT);
    lent.presses.len = SIZE_MAX / 3 + 1;
    EXPECT(presses(), WORKBOOK_REFUSED_LENT);

    /* No press. */
    lent.presses.len = lent.answers.len = 0;
    EXPECT(presses(), WORKBOOK_OK);
    lent.state.len = WORKBOOK_STATE_WORDS - 1;
    EXPECT(presses(), WORKBOOK_REFUSED_LENT);
}

static size_t append(uint8_t *bytes, size_t size, const void *part, size_t part_size) {
    memcpy(bytes + size, part, part_size);
    return size + part_size;
}

/* A sheet of two stack places and one local: a descriptor (none where it is NULL), LDC 1, IRETURN, an int at index 1, and
   argument words of 0. */
static void lend_descriptor(const char *descriptor, uint32_t value, size_t arguments) {
    static const uint8_t limits[] = {'L', 'M', 0, 4, 0, 2, 0, 1}, code[] = {'C', 'D', 0, 3, 0x12, 1, 0xAC};
    const uint8_t constant[] = {'K', 'I', 0, 7, 0, 1, 3, (uint8_t)(value >> 24), (uint8_t)(value >> 16),
                                (uint8_t)(value >> 8), (uint8_t)value};
    const uint8_t described[] = {'D', 'S', 0, descriptor ? (uint8_t)strlen(descriptor) : 0};
    const uint8_t last[] = {'A', 'R', 0, (uint8_t)(4 * arguments), 0, 0, 0, 0, 0, 0, 0, 0};
    uint8_t bytes[SHEET];
    size_t size = 0;

    size = append(bytes, size, limits, sizeof limits);
    if (descriptor) {
        size = append(bytes, size, described, sizeof described);
        size = append(bytes, size, descriptor, strlen(descriptor));
    }
    size = append(bytes, size, code, sizeof code);
    size = append(bytes, size, constant, sizeof constant);
    size = append(bytes, size, last, 4 + 4 * arguments);
    lend(bytes, size);
}

/* That sheet, loaded. */
static void load_descriptor(const char *descriptor, uint32_t value, size_t arguments, uint32_t return_type) {
    lend_descriptor(descriptor, value, arguments);
    memset(WANT(kinds), 0, POOL);
    memset(WANT(words), 0, POOL * sizeof(uint32_t));
    memset(WANT(slots), 0, 3 * sizeof(uint32_t));
    WANT(kinds)[1] = 3;
    WANT(words)[1] = value;
    want_state(2, 1, 0, 0, 0);
    load_it(__LINE__, return_type, descriptor ? 12 + 4 + (uint32_t)strlen(descriptor) : 12, 3, 0, (uint32_t)arguments);
}

/* DS: good ones, bad ones, its place, and the order of the questions. */
static void check_descriptors(void) {
    static const struct {
        uint32_t number;
        const char *descriptor;
        size_t arguments;
    } refused_sheets[] = {
        {WORKBOOK_SHEET_DESCRIPTOR, "", 0},
        {WORKBOOK_SHEET_DESCRIPTOR, "()", 0},
        {WORKBOOK_SHEET_DESCRIPTOR, "()VV", 0},
        {WORKBOOK_SHEET_DESCRIPTOR, "()[V", 0},
        {WORKBOOK_SHEET_DESCRIPTOR, "()La.b;", 0},
        {WORKBOOK_SHEET_DESCRIPTOR, "()L\xC1\xBF;", 0},
        /* Good ones with a wrong number of words. */
        {WORKBOOK_SHEET_DESCRIPTOR, "()V", 1},
        {WORKBOOK_SHEET_DESCRIPTOR, "(I)V", 0},
        {WORKBOOK_SHEET_DESCRIPTOR, "(J)V", 1},
        /* Two words are too many for one local, before they are too many or right for the descriptor. */
        {WORKBOOK_SHEET_ARGUMENTS, "()V", 2},
        {WORKBOOK_SHEET_ARGUMENTS, "(J)V", 2},
        /* A bad descriptor comes before the words. */
        {WORKBOOK_SHEET_DESCRIPTOR, "(V)V", 2},
    };
    static const struct {
        uint32_t number;
        size_t size;
        uint8_t bytes[32];
    } records[] = {
        {WORKBOOK_SHEET_ORDER, 15, {'D', 'S', 0, 3, '(', ')', 'V', 'L', 'M', 0, 4, 0, 2, 0, 1}},
        {WORKBOOK_SHEET_ORDER, 24, {'L', 'M', 0, 4, 0, 2, 0, 1, 'C', 'D', 0, 1, 0xB1, 'D', 'S', 0, 3, '(', ')', 'V',
                                    'A', 'R', 0, 0}},
        {WORKBOOK_SHEET_ORDER, 31, {'L', 'M', 0, 4, 0, 2, 0, 1, 'D', 'S', 0, 3, '(', ')', 'V', 'D', 'S', 0, 3, '(', ')', 'V',
                                    'C', 'D', 0, 1, 0xB1, 'A', 'R', 0, 0}},
        /* Three bytes of arguments where none are taken: 24 before 31. */
        {WORKBOOK_SHEET_LENGTH, 27, {'L', 'M', 0, 4, 0, 2, 0, 1, 'D', 'S', 0, 3, '(', ')', 'V', 'C', 'D', 0, 1, 0xB1,
                                     'A', 'R', 0, 3, 0, 0, 0}},
    };
    size_t i;

    load_descriptor("()B", 128, 0, 'B');
    load_descriptor("(Z)[J", 128, 1, 'L');
    load_descriptor("([[La/b;)La/b;", 128, 1, 'L');
    load_descriptor(NULL, 128, 1, 0);
    for (i = 0; i < COUNT_OF(refused_sheets); i++) {
        lend_descriptor(refused_sheets[i].descriptor, 128, refused_sheets[i].arguments);
        EXPECT(load(), refused_sheets[i].number);
        lent.state.len = WORKBOOK_STATE_WORDS - 1;
        EXPECT(load(), refused_sheets[i].number);
    }
    for (i = 0; i < COUNT_OF(records); i++) {
        lend(records[i].bytes, records[i].size);
        EXPECT(load(), records[i].number);
    }
}

/* What is loaded pushes an int and returns it, by forward, step, back, a list and a run. Each is to give the number, and
   the int that is returned where it is no refusal. */
static void walk_int(uint32_t value, uint32_t number, uint32_t returned) {
    static const uint8_t list[] = {WORKBOOK_PRESS_FORWARD, WORKBOOK_PRESS_FORWARD, WORKBOOK_PRESS_BACK};
    static const uint32_t entry[WORKBOOK_LOG_WORDS] = {0, 0, 1, 1};

    memcpy(WANT(log), entry, sizeof entry);
    WANT(slots)[1] = value;
    want_state(2, 1, 2, 1, 1);
    EXPECT(forward(), WORKBOOK_OK);
    if (number == WORKBOOK_RETURN_INT) want_answer(returned, 0);
    EXPECT(forward(), number);
    EXPECT(step(), number);
    WANT(slots)[1] = 0;
    want_state(2, 1, 0, 0, 0);
    EXPECT(back(), WORKBOOK_OK);
    put_presses(list, sizeof list);
    want_press(0, WORKBOOK_OK, 0, 0);
    want_press(1, number, returned, 0);
    want_press(2, WORKBOOK_OK, 0, 0);
    EXPECT(presses(), WORKBOOK_OK);
    WANT(slots)[1] = value;
    want_state(2, 1, 2, 1, 0);
    want_ran(returned, 0, 1);
    EXPECT(run(9), number);
}

/* An int is narrowed to the return type; a word that is no letter is kept and asks nothing. */
static void check_narrowing(void) {
    static const struct {
        const char *descriptor;
        uint32_t return_type, value, number, returned;
    } ints[] = {
        {"()B", 'B', 128, WORKBOOK_RETURN_INT, 0xFFFFFF80},
        {"()B", 'B', 0x17F, WORKBOOK_RETURN_INT, 0x7F},
        {"()Z", 'Z', 2, WORKBOOK_RETURN_INT, 0},
        {"()Z", 'Z', 0xFFFFFFFF, WORKBOOK_RETURN_INT, 1},
        {"()C", 'C', 0xFFFFFFFF, WORKBOOK_RETURN_INT, 0xFFFF},
        {"()S", 'S', 32768, WORKBOOK_RETURN_INT, 0xFFFF8000},
        {"()I", 'I', 128, WORKBOOK_RETURN_INT, 128},
        {NULL, 0, 128, WORKBOOK_RETURN_INT, 128},
        {"()V", 'V', 128, WORKBOOK_REFUSED_RETURN_TYPE, 0},
        {"()J", 'J', 128, WORKBOOK_REFUSED_RETURN_TYPE, 0},
        {"()[I", 'L', 128, WORKBOOK_REFUSED_RETURN_TYPE, 0},
    };
    static const uint32_t no_letters[] = {0x142, 0x62, 0x56000000, 0xFFFFFFFF};
    size_t i;

    for (i = 0; i < COUNT_OF(ints); i++) {
        load_descriptor(ints[i].descriptor, ints[i].value, 0, ints[i].return_type);
        walk_int(ints[i].value, ints[i].number, ints[i].returned);
    }
    for (i = 0; i < COUNT_OF(no_letters); i++) {
        load_descriptor("()V", 128, 0, 'V');
        put(HAVE(state), WORKBOOK_RETURN_TYPE, no_letters[i]);
        walk_int(128, WORKBOOK_RETURN_INT, 128);
    }
}

/* Each return instruction on two stack places, 102 and 103, with each return type. */
static void check_return_types(void) {
    static const struct {
        uint32_t number, low, high;
        uint8_t opcode;
        const char *suits;
    } returns[] = {
        {WORKBOOK_RETURN_INT, 103, 0, 0xAC, "BCISZ"},  {WORKBOOK_RETURN_LONG, 102, 103, 0xAD, "J"},
        {WORKBOOK_RETURN_FLOAT, 103, 0, 0xAE, "F"},    {WORKBOOK_RETURN_DOUBLE, 102, 103, 0xAF, "D"},
        {WORKBOOK_RETURN_REF, 103, 0, 0xB0, "L"},      {WORKBOOK_RETURN_VOID, 0, 0, 0xB1, "V"},
    };
    static const char letters[] = "BCDFIJLSVZ";
    static const uint8_t list[] = {WORKBOOK_PRESS_FORWARD};
    size_t i, j;

    for (i = 0; i < COUNT_OF(returns); i++) {
        for (j = 0; letters[j]; j++) {
            const int suits = strchr(returns[i].suits, letters[j]) != NULL;
            const uint32_t number = suits ? returns[i].number : (uint32_t)WORKBOOK_REFUSED_RETURN_TYPE;
            const uint32_t low = !suits ? 0 : letters[j] == 'Z' ? 1 : returns[i].low, high = suits ? returns[i].high : 0;

            lend_code(&returns[i].opcode, 1, 2, 2);
            put(HAVE(state), WORKBOOK_DEPTH, 2);
            put(HAVE(state), WORKBOOK_RETURN_TYPE, (uint32_t)letters[j]);
            if (suits) want_answer(low, high);
            EXPECT(step(), number);
            EXPECT(forward(), number);
            put_presses(list, sizeof list);
            want_press(0, number, low, high);
            EXPECT(presses(), WORKBOOK_OK);
            want_ran(low, high, 0);
            EXPECT(run(9), number);
        }
    }
    /* What is popped is asked first. */
    lend_code(&returns[0].opcode, 1, 2, 2);
    put(HAVE(state), WORKBOOK_RETURN_TYPE, 'V');
    EXPECT(step(), WORKBOOK_REFUSED_POP);
}

#define BYTES_OF(number) (uint8_t)((number) >> 8), (uint8_t)(number)
/* An EX record, which is an entry of an exception table. */
#define EX(start, end, handler, type) 'E', 'X', 0, 8, BYTES_OF(start), BYTES_OF(end), BYTES_OF(handler), BYTES_OF(type)

/* ICONST_3, ICONST_5, ICONST_0, IDIV, IRETURN, and from 5 on ASTORE_0, ICONST_M1, IRETURN. */
static const uint8_t dividing[] = {0x06, 0x08, 0x03, 0x6C, 0xAC, 0x4B, 0x02, 0xAC};
enum { DIVISION = 3, HANDLER = 5 };

/* That code in a sheet of three stack places and one local, with an int at 1, a class at 2 to which no ArithmeticException
   can be assigned, one at 3 to which it can, and records between these and AR. */
static void lend_records(const uint8_t *records, size_t records_size) {
    static const uint8_t first[] = {'L', 'M', 0, 4, 0, 3, 0, 1, 'C', 'D', 0, sizeof dividing}, last[] = {'A', 'R', 0, 0};
    static const uint8_t pool[] = {'K', 'I', 0, 7, 0, 1, 3, 0, 0, 0, 1, 'K', 'I', 0, 7, 0, 2, 7, 0, 0, 0, 0,
                                   'K', 'I', 0, 7, 0, 3, 7, 0, 0, 0, 1};
    uint8_t bytes[SHEET];
    size_t size = 0;

    size = append(bytes, size, first, sizeof first);
    size = append(bytes, size, dividing, sizeof dividing);
    size = append(bytes, size, pool, sizeof pool);
    size = append(bytes, size, records, records_size);
    size = append(bytes, size, last, sizeof last);
    lend(bytes, size);
}

/* That sheet, loaded with good EX records. */
static void load_handlers(int line, const uint8_t *records, size_t records_size) {
    static const uint8_t kinds[POOL] = {0, 3, 7, 7};
    static const uint32_t words[POOL] = {0, 1, 0, 1};

    lend_records(records, records_size);
    memcpy(WANT(kinds), kinds, sizeof kinds);
    memcpy(WANT(words), words, sizeof words);
    memset(WANT(slots), 0, 4 * sizeof(uint32_t));
    want_state(3, 1, 0, 0, 0);
    load_it(line, 0, 12, sizeof dividing, (uint32_t)records_size / WORKBOOK_HANDLER_BYTES, 0);
}

/* EX: good ones at their limits, bad ones, their place, and the order of the questions. */
static void check_handler_records(void) {
    static const uint8_t good[][2 * WORKBOOK_HANDLER_BYTES] = {
        {EX(0, 8, 7, 0), EX(7, 8, 0, 2)},
        {EX(0, 1, 0, 3), EX(0, 1, 0, 3)},
    };
    static const struct {
        uint32_t number;
        size_t size;
        uint8_t bytes[24];
    } bad[] = {
        {WORKBOOK_SHEET_HANDLER, 4, {'E', 'X', 0, 0}},
        {WORKBOOK_SHEET_HANDLER, 11, {'E', 'X', 0, 7, 0, 0, 0, 8, 0, 5, 0}},
        {WORKBOOK_SHEET_HANDLER, 13, {'E', 'X', 0, 9, 0, 0, 0, 8, 0, 5, 0, 0, 0}},
        {WORKBOOK_SHEET_HANDLER, 12, {EX(3, 3, 5, 0)}},
        {WORKBOOK_SHEET_HANDLER, 12, {EX(4, 3, 5, 0)}},
        {WORKBOOK_SHEET_HANDLER, 12, {EX(8, 9, 5, 0)}},
        {WORKBOOK_SHEET_HANDLER, 12, {EX(0, 9, 5, 0)}},
        {WORKBOOK_SHEET_HANDLER, 12, {EX(0, 8, 8, 0)}},
        {WORKBOOK_SHEET_HANDLER, 12, {EX(0, 8, 256, 0)}},
        /* Catch types: an int, an index that has nothing, and one past the pool that is lent. */
        {WORKBOOK_SHEET_HANDLER, 12, {EX(0, 8, 5, 1)}},
        {WORKBOOK_SHEET_HANDLER, 12, {EX(0, 8, 5, 4)}},
        {WORKBOOK_SHEET_HANDLER, 12, {EX(0, 8, 5, 65535)}},
        /* A good one before it; a constant after it, which is wrong there. */
        {WORKBOOK_SHEET_HANDLER, 24, {EX(0, 8, 5, 0), EX(0, 8, 8, 0)}},
        {WORKBOOK_SHEET_HANDLER, 23, {EX(0, 8, 8, 0), 'K', 'I', 0, 7, 0, 4, 3, 0, 0, 0, 0}},
        {WORKBOOK_SHEET_ORDER, 23, {EX(0, 8, 5, 0), 'K', 'I', 0, 7, 0, 4, 3, 0, 0, 0, 0}},
        /* A second AR follows. */
        {WORKBOOK_SHEET_ORDER, 16, {'A', 'R', 0, 0, EX(0, 8, 5, 0)}},
        {WORKBOOK_SHEET_CUT, 7, {'E', 'X', 0, 8, 0, 0, 0}},
        {WORKBOOK_SHEET_MARK, 12, {'E', 'x', 0, 8, 0, 0, 0, 8, 0, 5, 0, 0}},
    };
    static const uint8_t early[] = {'L', 'M', 0, 4, 0, 3, 0, 1, EX(0, 1, 0, 0), 'C', 'D', 0, 1, 0xB1, 'A', 'R', 0, 0};
    size_t i;

    load_handlers(__LINE__, good[0], 0);
    for (i = 0; i < COUNT_OF(good); i++) {
        load_handlers(__LINE__, good[i], WORKBOOK_HANDLER_BYTES);
        load_handlers(__LINE__, good[i], sizeof good[i]);
    }
    for (i = 0; i < COUNT_OF(bad); i++) {
        lend_records(bad[i].bytes, bad[i].size);
        EXPECT(load(), bad[i].number);
        lent.answer.len = WORKBOOK_ANSWER_WORDS - 1;
        EXPECT(load(), bad[i].number);
    }
    lend(early, sizeof early);
    EXPECT(load(), WORKBOOK_SHEET_ORDER);
    lend(early + 8, WORKBOOK_HANDLER_BYTES);
    EXPECT(load(), WORKBOOK_SHEET_ORDER);
}

/* The ordinary steps of that sheet where the division is caught: the entry in the log, the pc and depth reached, and the
   word written. */
static const struct {
    uint32_t entry[WORKBOOK_LOG_WORDS], pc, depth, word;
} caught[ENTRIES] = {
    {{0, 0, 1, 1, 0}, 1, 1, 3},
    {{1, 1, 2, 1, 0}, 2, 2, 5},
    {{2, 2, 3, 1, 0}, 3, 3, 0},
    {{DIVISION, 3, 1, 1, 3}, HANDLER, 1, 1},
    {{5, 1, 0, 1, 0}, 6, 0, 1},
    {{6, 0, 1, 1, 1}, 7, 1, 0xFFFFFFFF},
};

static void want_caught(size_t n, uint64_t count) {
    WANT(slots)[caught[n].entry[2]] = caught[n].word;
    want_state(3, 1, caught[n].pc, caught[n].depth, count);
}
static void want_caught_logged(size_t n) {
    want_caught(n, n + 1);
    memcpy(WANT(log) + n * WORKBOOK_LOG_WORDS, caught[n].entry, sizeof caught[n].entry);
}

/* A division that a handler of the sheet catches, by steps, forward and back, a run and a list; and that nothing catches. */
static void check_caught_walk(void) {
    static const uint8_t record[] = {EX(2, 4, HANDLER, 3)};
    static const uint8_t list[] = {1, 1, 1, 1, 1, 1, 1, 0, 0};
    size_t i;

    load_handlers(__LINE__, record, sizeof record);
    for (i = 0; i < ENTRIES; i++) {
        want_caught(i, 0);
        EXPECT(step(), WORKBOOK_OK);
    }
    want_answer(0xFFFFFFFF, 0);
    EXPECT(step(), WORKBOOK_RETURN_INT);

    load_handlers(__LINE__, record, sizeof record);
    for (i = 0; i < ENTRIES; i++) {
        want_caught_logged(i);
        EXPECT(forward(), WORKBOOK_OK);
    }
    for (i = ENTRIES; i-- > 0;) {
        WANT(slots)[caught[i].entry[2]] = caught[i].entry[4];
        want_state(3, 1, caught[i].entry[0], caught[i].entry[1], i);
        EXPECT(back(), WORKBOOK_OK);
    }
    for (i = 0; i < ENTRIES; i++) want_caught(i, 0);
    want_ran(0xFFFFFFFF, 0, ENTRIES);
    EXPECT(run(9), WORKBOOK_RETURN_INT);

    /* Six steps, the return, and two steps back: the handler's second instruction comes next. */
    load_handlers(__LINE__, record, sizeof record);
    put_presses(list, sizeof list);
    for (i = 0; i < ENTRIES; i++) want_caught_logged(i);
    WANT(slots)[0] = 0, WANT(slots)[1] = 1;
    want_state(3, 1, HANDLER, 1, 4);
    for (i = 0; i < sizeof list; i++) want_press(i, 0, 0, 0);
    want_press(ENTRIES, WORKBOOK_RETURN_INT, 0xFFFFFFFF, 0);
    EXPECT(presses(), WORKBOOK_OK);

    /* The same sheet, with no handlers lent. */
    load_handlers(__LINE__, record, sizeof record);
    lent.handlers.len = 0;
    for (i = 0; i < DIVISION; i++) want_caught(i, 0);
    want_ran(0, 0, DIVISION);
    EXPECT(run(9), WORKBOOK_THROW_ARITHMETIC);
    EXPECT(step(), WORKBOOK_THROW_ARITHMETIC);
    EXPECT(forward(), WORKBOOK_THROW_ARITHMETIC);
}

/* Stands at the division of 102 by 0, over 101, with a pool in which 3 and 5 take the exception, and with these handlers. */
static void lend_entries(const uint8_t *entries, size_t size) {
    static const uint8_t kinds[POOL] = {7, 3, 7, 7, 7, 7};
    static const uint32_t words[POOL] = {0, 1, 0, 1, 0x101, 1};

    lend_code(dividing, sizeof dividing, 3, 1);
    memcpy(HAVE(kinds), kinds, sizeof kinds);
    memcpy(HAVE(words), words, sizeof words);
    memcpy(HAVE(handlers), entries, size);
    lent.handlers.len = size;
    put(HAVE(slots), 3, 0);
    put(HAVE(state), WORKBOOK_PC, DIVISION);
    put(HAVE(state), WORKBOOK_DEPTH, 3);
}

static void want_at_handler(uint32_t handler, uint64_t count) {
    WANT(slots)[1] = 1;
    want_state(3, 1, handler, 1, count);
}

/* The division by every function: an ordinary step to the handler where the number is 0, and else that number. */
static void divide(const uint8_t *entries, size_t size, uint32_t number, uint32_t handler) {
    static const uint32_t entry[WORKBOOK_LOG_WORDS] = {DIVISION, 3, 1, 1, 101};
    static const uint8_t list[] = {WORKBOOK_PRESS_FORWARD, WORKBOOK_PRESS_BACK};
    const int ordinary = number == WORKBOOK_OK;

    lend_entries(entries, size);
    if (ordinary) want_at_handler(handler, 0);
    EXPECT(step(), number);

    lend_entries(entries, size);
    if (ordinary) want_at_handler(handler, 1), memcpy(WANT(log), entry, sizeof entry);
    EXPECT(forward(), number);
    if (ordinary) WANT(slots)[1] = 101, want_state(3, 1, DIVISION, 3, 0);
    EXPECT(back(), ordinary ? WORKBOOK_OK : WORKBOOK_REFUSED_START);

    put_presses(list, sizeof list);
    want_press(0, number, 0, 0);
    want_press(1, ordinary ? WORKBOOK_OK : WORKBOOK_REFUSED_START, 0, 0);
    EXPECT(presses(), WORKBOOK_OK);

    if (ordinary) want_at_handler(handler, 0);
    want_ran(0, 0, (uint64_t)ordinary);
    EXPECT(run(1), ordinary ? WORKBOOK_STOPPED : number);
}

/* Handlers that no load gave: which entry covers the division and takes the exception, and where it leads. */
static void check_entries(void) {
    static const struct {
        uint32_t number, handler;
        size_t size;
        uint8_t bytes[HANDLERS];
    } tables[] = {
        /* Start is included and end is not; both have 16 bits. */
        {WORKBOOK_OK, 5, 12, {EX(3, 4, 5, 0)}},
        {WORKBOOK_OK, 7, 12, {EX(0, 65535, 7, 0)}},
        {WORKBOOK_OK, 5, 12, {EX(0, 256, 5, 0)}},
        {WORKBOOK_THROW_ARITHMETIC, 0, 12, {EX(0, 3, 5, 0)}},
        {WORKBOOK_THROW_ARITHMETIC, 0, 12, {EX(4, 8, 5, 0)}},
        {WORKBOOK_THROW_ARITHMETIC, 0, 12, {EX(3, 3, 5, 0)}},
        {WORKBOOK_THROW_ARITHMETIC, 0, 12, {EX(256, 512, 5, 0)}},
        /* Catch types: 3 and 5 take; an int, a word of 0 or 101, and an index past the pool do not. */
        {WORKBOOK_OK, 5, 12, {EX(0, 8, 5, 3)}},
        {WORKBOOK_OK, 5, 12, {EX(0, 8, 5, 5)}},
        {WORKBOOK_THROW_ARITHMETIC, 0, 12, {EX(0, 8, 5, 1)}},
        {WORKBOOK_THROW_ARITHMETIC, 0, 12, {EX(0, 8, 5, 2)}},
        {WORKBOOK_THROW_ARITHMETIC, 0, 12, {EX(0, 8, 5, 4)}},
        {WORKBOOK_THROW_ARITHMETIC, 0, 12, {EX(0, 8, 5, 6)}},
        {WORKBOOK_THROW_ARITHMETIC, 0, 12, {EX(0, 8, 5, 0x300)}},
        {WORKBOOK_THROW_ARITHMETIC, 0, 12, {EX(0, 8, 5, 65535)}},
        /* The first that covers and takes wins, also where its handler is outside of the code. */
        {WORKBOOK_OK, 6, 24, {EX(0, 8, 6, 0), EX(3, 4, 5, 3)}},
        {WORKBOOK_OK, 5, 24, {EX(0, 3, 6, 0), EX(3, 4, 5, 3)}},
        {WORKBOOK_OK, 5, 24, {EX(0, 8, 6, 2), EX(0, 8, 5, 3)}},
        {WORKBOOK_OK, 0, 12, {EX(0, 8, 0, 0)}},
        {WORKBOOK_REFUSED_NEXT_PC, 0, 12, {EX(0, 8, 8, 0)}},
        {WORKBOOK_REFUSED_NEXT_PC, 0, 12, {EX(0, 8, 0x500, 0)}},
        {WORKBOOK_REFUSED_NEXT_PC, 0, 24, {EX(0, 8, 65535, 0), EX(0, 8, 5, 0)}},
        {WORKBOOK_OK, 5, 24, {EX(0, 8, 8, 2), EX(0, 8, 5, 0)}},
        /* Mark and length are not looked at, nor a rest of fewer than 12 bytes. */
        {WORKBOOK_OK, 5, 12, {0, 0, 0xFF, 0xFF, 0, 0, 0, 8, 0, 5, 0, 0}},
        {WORKBOOK_THROW_ARITHMETIC, 0, 0, {0}},
        {WORKBOOK_THROW_ARITHMETIC, 0, 11, {EX(0, 8, 5, 0)}},
        {WORKBOOK_THROW_ARITHMETIC, 0, 23, {EX(0, 3, 6, 0), EX(0, 8, 5, 0)}},
        {WORKBOOK_OK, 5, 30, {EX(0, 3, 6, 0), EX(0, 8, 5, 0), 'E', 'X', 0, 8, 0, 0}},
    };
    size_t i;

    for (i = 0; i < COUNT_OF(tables); i++) divide(tables[i].bytes, tables[i].size, tables[i].number, tables[i].handler);

    /* The handler is asked before the log. */
    lend_entries(tables[0].bytes, tables[0].size);
    lent.log.len = WORKBOOK_LOG_WORDS - 1;
    EXPECT(forward(), WORKBOOK_REFUSED_LOG_FULL);
    HAVE(handlers)[9] = sizeof dividing;
    as_it_is();
    EXPECT(forward(), WORKBOOK_REFUSED_NEXT_PC);
}

int main(void) {
    EXPECT(workbook_version(), WORKBOOK_VERSION);
    for (extra = 0; extra <= 2; extra += 2) {
        check_load();
        check_step();
        check_ends();
        check_boundary();
        check_limits();
        check_walk();
        check_unsound();
        check_run();
        check_presses();
        check_descriptors();
        check_narrowing();
        check_return_types();
        check_handler_records();
        check_caught_walk();
        check_entries();
    }
    printf("%d checks, %d failed\n", checks, failed);
    return failed != 0;
}
