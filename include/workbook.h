/*
 * The exported library: a Java method, stepped forward and back.
 *
 * Link with target/staticlib/libworkbook.a.
 *
 * All memory is the caller's and is lent for the time of a call: nothing is
 * kept. A lent part is a pointer and a length, counted in elements. Pointers
 * are never null, also of an empty part; uint32_t parts are aligned to 4; lent
 * parts do not overlap, but that code and handlers may lie inside the sheet.
 * Every length and every word is met by an answer.
 *
 *   sheet    a whole sheet
 *   code     the part of the sheet that workbook_load handed back as code
 *   kinds    the constant pool: one byte an index,
 *   words      and one word an index, as many as kinds
 *   handlers the part of the sheet that workbook_load handed back as exception
 *            table: 12 bytes an entry
 *   slots    locals, then operand stack
 *   log      ten words an entry
 *   state    seven words
 *   answer   four words
 *   presses  one byte a press
 *   answers  three words a press
 */
#ifndef WORKBOOK_H
#define WORKBOOK_H

#include <stddef.h>
#include <stdint.h>

#ifdef __cplusplus
extern "C" {
#endif

/* The version that this header describes: what workbook_version gives. */
#define WORKBOOK_VERSION 3

/* Words that must be lent. State words past the seventh and answer words past
   the fourth are never written. */
#define WORKBOOK_STATE_WORDS 7
#define WORKBOOK_ANSWER_WORDS 4
/* Words of a log entry, and of a press's answer in answers. */
#define WORKBOOK_LOG_WORDS 10
#define WORKBOOK_PRESS_WORDS 3
/*
 * Bytes of an entry of handlers, which is an EX record: mark and length, which
 * no step looks at, then start, end, handler and catch type, 16 bits each,
 * big-endian. Bytes after the last whole entry count for nothing.
 */
#define WORKBOOK_HANDLER_BYTES 12

/*
 * The words of a state. The return type is the first character of the return
 * descriptor in the sheet's DS, as an ASCII number: one of B C D F I J L S V Z,
 * L for [ too; 0 without DS. Any other number counts as 0. An accepted load
 * gives it, and every step, press and run keeps the word as it stands.
 */
enum workbook_state_word {
    WORKBOOK_MAX_STACK = 0,
    WORKBOOK_MAX_LOCALS = 1,
    WORKBOOK_PC = 2,
    WORKBOOK_DEPTH = 3,
    WORKBOOK_COUNT_LOW = 4,
    WORKBOOK_COUNT_HIGH = 5,
    WORKBOOK_RETURN_TYPE = 6
};

/* The bytes of a list of presses: 0 is back, any other byte is forward. */
#define WORKBOOK_PRESS_BACK 0
#define WORKBOOK_PRESS_FORWARD 1

/* The number that comes back. */
enum workbook_number {
    /* load: accepted; step, forward: an ordinary step; back: granted;
       presses: all made */
    WORKBOOK_OK = 0,

    /* 1 to 99 is a refusal (docs/RULES.md, 'Questions and refusals'), each
       with what was asked. A step, a press or a run: */
    WORKBOOK_REFUSED_LENT = 1,      /* kinds, words, slots and sizes; state and answer words */
    WORKBOOK_REFUSED_PC = 2,        /* code of 1 to 65,535 bytes, pc inside */
    WORKBOOK_REFUSED_DEPTH = 3,     /* depth at most max_stack */
    WORKBOOK_REFUSED_OPCODE = 4,    /* a core opcode */
    WORKBOOK_REFUSED_OPERANDS = 5,  /* operand bytes in the code */
    WORKBOOK_REFUSED_SWITCH = 6,    /* low <= high, pair count, rising keys */
    WORKBOOK_REFUSED_POP = 7,       /* what is popped is there */
    WORKBOOK_REFUSED_PUSH = 8,      /* what is pushed fits max_stack */
    WORKBOOK_REFUSED_LOCAL = 9,     /* locals below max_locals */
    WORKBOOK_REFUSED_CONSTANT = 10, /* the right kind at the pool index */
    WORKBOOK_REFUSED_NEXT_PC = 11,  /* the next pc inside the code, a handler too */
    WORKBOOK_REFUSED_LOG_FULL = 12, /* forward: ten words of log left */
    WORKBOOK_REFUSED_START = 13,    /* back: count above 0 */
    WORKBOOK_REFUSED_ENTRY = 14,    /* back: an entry that stands in the log and is sound */
    /* A return instruction, asked after 10: IRETURN for the return types Z, B, C,
       S and I, LRETURN for J, FRETURN for F, DRETURN for D, ARETURN for L, RETURN
       for V. Where the return type counts as 0 it is not asked. */
    WORKBOOK_REFUSED_RETURN_TYPE = 32,

    /* A sheet: */
    WORKBOOK_SHEET_CUT = 21,       /* four bytes and the body present */
    WORKBOOK_SHEET_MARK = 22,      /* mark known */
    WORKBOOK_SHEET_ORDER = 23,     /* order of the records; AR seen at the end */
    WORKBOOK_SHEET_LENGTH = 24,    /* length right */
    WORKBOOK_SHEET_CONSTANT = 25,  /* KI: tag and index; a class's word 0 or 1 */
    WORKBOOK_SHEET_MEMORY = 26,    /* slots, kinds and words reach; state and answer words;
                                      the length of handlers fits its answer word */
    WORKBOOK_SHEET_ARGUMENTS = 27, /* arguments at most max_locals */
    /* DS, after 24: a method descriptor of JVMS 4.3.3, in modified UTF-8. AR of
       a sheet with DS, after 27: as many words as its parameters take, two for
       a long or a double. */
    WORKBOOK_SHEET_DESCRIPTOR = 31,
    /* EX, after 24: a body of 8 bytes; start below end; start and handler inside
       the code, end at most its length; catch type 0 or the index of a class, that
       is of a KI with tag 7. */
    WORKBOOK_SHEET_HANDLER = 33,

    /* The method returns. Answer word 0 is the value, word 1 is 0; of a long
       and a double word 0 is the low word, word 1 the high word; of void both
       are 0. An int is narrowed where the return type says so: Z keeps bit 0,
       B and S are extended by sign, C by zeros. */
    WORKBOOK_RETURN_INT = 101,
    WORKBOOK_RETURN_FLOAT = 102,
    WORKBOOK_RETURN_REF = 103,
    WORKBOOK_RETURN_LONG = 104,
    WORKBOOK_RETURN_DOUBLE = 105,
    WORKBOOK_RETURN_VOID = 106,

    WORKBOOK_THROW_ARITHMETIC = 110, /* an ArithmeticException that nothing catches */
    WORKBOOK_STOPPED = 120           /* run: the budget is used up */
};

/*
 * The number of the last request that has landed (docs/changes), 0 before the
 * first. A host compares it with WORKBOOK_VERSION before its first call: parts,
 * words and numbers are those of one version. Version 1 brought the return type:
 * the record DS, the seventh state word, and the numbers 31 and 32. Version 2, the
 * page of opcodes, changed no function. Version 3 brought exception tables: the
 * record EX, tag 7 of KI, the part handlers of step, forward, run and presses, the
 * third and fourth answer word of a load, and the number 33.
 */
uint32_t workbook_version(void);

/*
 * Loads a sheet. Accepted: 0; kinds and words are written over their length,
 * the first max_locals + max_stack slots, the seven state words, and four answer
 * words: the offset of the code's first byte in the sheet, its length, the offset
 * of the handlers' first byte, and their length in bytes. That is the part from
 * the first EX record's mark to the end of the last; without EX records it is
 * empty and lies where AR begins. Refused: 21 to 27, 31 or 33, and nothing at all
 * is written. Too few state or answer words belong to 26, and so do handlers of
 * 2 to the 32nd bytes or more, whose length answer word 3 could not hold: the
 * sheet's own numbers come first.
 */
uint32_t workbook_load(
    const uint8_t *sheet, size_t sheet_len,
    uint32_t *slots, size_t slots_len,
    uint8_t *kinds, size_t kinds_len,
    uint32_t *words, size_t words_len,
    uint32_t *state, size_t state_len,
    uint32_t *answer, size_t answer_len);

/*
 * In the functions below fewer than seven state words or four answer words are
 * refused with 1, before everything else, and nothing is written. A state with
 * a max_stack or max_locals word above 65,535 is refused by question 1.
 *
 * IDIV, IREM, LDIV and LREM by 0 throw an ArithmeticException. The first entry of
 * handlers with start <= pc < end, and with catch type 0 or kind 7 and word 1 at
 * that index of the pool, catches it. That is an ordinary step, to the handler,
 * with depth 1 and the word 1 in the lowest place of the operand stack. Where no
 * entry catches it, it is 110.
 */

/*
 * A step without history. Ordinary: 0; slots and state are written, count is
 * 0. A return: 101 to 106; answer words 0 and 1 are written and nothing else.
 * 110 or a refusal: nothing is written.
 */
uint32_t workbook_step(
    const uint8_t *code, size_t code_len,
    const uint8_t *kinds, size_t kinds_len,
    const uint32_t *words, size_t words_len,
    const uint8_t *handlers, size_t handlers_len,
    uint32_t *slots, size_t slots_len,
    uint32_t *state, size_t state_len,
    uint32_t *answer, size_t answer_len);

/*
 * A press of forward: as workbook_step, but an ordinary step also writes the
 * ten log words from 10 times count on, and count rises by one.
 */
uint32_t workbook_forward(
    const uint8_t *code, size_t code_len,
    const uint8_t *kinds, size_t kinds_len,
    const uint32_t *words, size_t words_len,
    const uint8_t *handlers, size_t handlers_len,
    uint32_t *slots, size_t slots_len,
    uint32_t *log, size_t log_len,
    uint32_t *state, size_t state_len,
    uint32_t *answer, size_t answer_len);

/*
 * A press of back. Granted: 0; the old words go into slots, pc and depth are
 * restored, count falls by one, and no log word changes. Refused: 1 to 3, 13 or
 * 14, and nothing is written. There are no answer words, and no handlers: a step
 * that was caught is taken back like any other.
 */
uint32_t workbook_back(
    const uint8_t *code, size_t code_len,
    const uint8_t *kinds, size_t kinds_len,
    const uint32_t *words, size_t words_len,
    uint32_t *slots, size_t slots_len,
    const uint32_t *log, size_t log_len,
    uint32_t *state, size_t state_len);

/*
 * At most budget ordinary steps, without a log: 101 to 106, 110, a refusal, or
 * 120 after exactly budget steps. Slots, the state reached with count 0 and
 * the four answer words are written: the value (0 where there is none), then
 * the steps taken, low word first. A run that is refused by questions 1 to 3
 * writes four answer words of 0 and nothing else.
 */
uint32_t workbook_run(
    const uint8_t *code, size_t code_len,
    const uint8_t *kinds, size_t kinds_len,
    const uint32_t *words, size_t words_len,
    const uint8_t *handlers, size_t handlers_len,
    uint32_t *slots, size_t slots_len,
    uint32_t *state, size_t state_len,
    uint32_t *answer, size_t answer_len,
    uint64_t budget);

/*
 * A list of presses, one after the other. Press i's answer is three words of
 * answers from 3 * i on: the number, then the value's low and high word (0
 * where there is none). A refused press is that press's own answer, and the
 * list goes on: 0 comes back. Fewer than three words of answers for each press,
 * or fewer than seven state words: 1, and nothing is written. Words of answers
 * past the last press stay.
 */
uint32_t workbook_presses(
    const uint8_t *code, size_t code_len,
    const uint8_t *kinds, size_t kinds_len,
    const uint32_t *words, size_t words_len,
    const uint8_t *handlers, size_t handlers_len,
    uint32_t *slots, size_t slots_len,
    uint32_t *log, size_t log_len,
    uint32_t *state, size_t state_len,
    const uint8_t *presses, size_t presses_len,
    uint32_t *answers, size_t answers_len);

#ifdef __cplusplus
}
#endif

#endif
