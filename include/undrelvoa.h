/* The C interface of Undrelvoa, the proved p-code interpreter. docs/REFERENCE.md has every rule; examples/
 * has programs in C and in Rust.
 *
 * Link target/staticlib/libundrelvoa.a, which README.md says how to make, for x86-64 Linux (its C calling
 * convention). It needs no other library, not even the C library.
 *
 * Calls. Every function takes every number; of buffers it asks what the next paragraph says. It answers an
 * undrelvoa_answer: 0 when it has done its work, else what is wrong with the call itself, and then it has
 * changed no buffer. undrelvoa_validate, the runs, the steps and undrelvoa_count_secrets write how they ended,
 * an undrelvoa_ending, into a report: they answer 0 also where they refuse to run or to count.
 *
 * Buffers. A buffer is a pointer and the number of its elements. With 0 elements the pointer may be NULL.
 * Else it points to that many elements and is aligned for their type, as C asks: 8 bytes for uint64_t, any
 * address for uint8_t. A buffer that a call writes overlaps no other buffer of that call; those that it only
 * reads (const) may overlap each other.
 *
 * Threads. The library has no state: nothing is kept from call to call, no memory is allocated, nothing outside
 * the library is called; a thread with a stack of 16 KiB can call. Any thread may call, at any time. But while a
 * call runs, nobody else writes a buffer of it, nor reads one that it writes: the list is checked once, and nothing
 * holds of a call whose list changes after that.
 *
 * Secrets. After a run the spaces hold secret bytes in clear, as they did before it; the labels say which.
 */
#ifndef UNDRELVOA_H
#define UNDRELVOA_H

#include <stddef.h>
#include <stdint.h>

#ifdef __cplusplus
extern "C" {
#endif

/* The version of this header and of the library that it is for: that of the file VERSION. The first number
 * grows where a call changes, in its parameters or in the words that it takes: a program must then be checked
 * and compiled again, since the linker does not notice. The second grows where a call is added or answers
 * otherwise than before, the third where neither is so. */
#define UNDRELVOA_VERSION "4.0.3"
#define UNDRELVOA_VERSION_MAJOR 4
#define UNDRELVOA_VERSION_MINOR 0
#define UNDRELVOA_VERSION_PATCH 3

/* Limits. The verdict, the runs and undrelvoa_count_secrets refuse what is beyond them. */
#define UNDRELVOA_MAX_OPERATIONS 4096   /* operations of a list */
#define UNDRELVOA_MAX_SPACE_BYTES 65536 /* bytes of a space */
#define UNDRELVOA_MAX_SIZE 8            /* bytes of a varnode or an address, and the largest wordsize */
#define UNDRELVOA_MAX_BUDGET UINT32_MAX /* C silently truncates a larger number */
#define UNDRELVOA_MAX_WINDOW 64         /* operations of a window */

/* The words of settings. Their number is exact, and a later version may ask for more. So lend the words that you
 * wrote (sizeof settings / sizeof settings[0]): with UNDRELVOA_SETTINGS_WORDS as their number, one that you do not
 * know of would be a 0 that nobody chose.
 *
 * A wordsize is how many bytes a pointer into that space counts as one, 1 to 8, also where the space is empty.
 * LOAD and STORE multiply the pointer by that of the space which input0 names; nothing wraps, not at the address
 * size either. Offsets of varnodes count bytes, whatever the wordsize. With a wordsize of 1 a pointer is a byte
 * offset, as in version 2. */
#define UNDRELVOA_SETTINGS_ORDER 0             /* byte order: UNDRELVOA_LITTLE or UNDRELVOA_BIG */
#define UNDRELVOA_SETTINGS_ADDRESS_SIZE 1      /* bytes of an address, 1 to 8 */
#define UNDRELVOA_SETTINGS_UNIQUE_WORDSIZE 2   /* wordsize of unique */
#define UNDRELVOA_SETTINGS_REGISTER_WORDSIZE 3 /* wordsize of register */
#define UNDRELVOA_SETTINGS_RAM_WORDSIZE 4      /* wordsize of ram */
#define UNDRELVOA_SETTINGS_WORDS 5

#define UNDRELVOA_LITTLE 0
#define UNDRELVOA_BIG 1

/* The words of a report. */
#define UNDRELVOA_REPORT_ENDING 0   /* an undrelvoa_ending */
#define UNDRELVOA_REPORT_INDEX 1    /* an operation, which one the ending says */
#define UNDRELVOA_REPORT_EXECUTED 2 /* operations executed */
#define UNDRELVOA_REPORT_LOGGED 3   /* log words written */
#define UNDRELVOA_REPORT_VALUE 4    /* the destination of an EXIT */
#define UNDRELVOA_REPORT_WORDS 5

/* The words of a place. */
#define UNDRELVOA_PLACE_SPACE 0
#define UNDRELVOA_PLACE_OFFSET 1
#define UNDRELVOA_PLACE_BYTES 2
#define UNDRELVOA_PLACE_WORDS 3

/* The labels of a byte. */
#define UNDRELVOA_PUBLIC 0
#define UNDRELVOA_SECRET 1

/* Counts of secret bytes: for each space a word for each block, then the total. The last block may be shorter.
 * UNDRELVOA_COUNT_WORDS is the number of words that a space of so many bytes needs, also where it has none. Each
 * space has words of its own, also where nobody reads them: no two of the three buffers overlap. The macro
 * evaluates its argument more than once. */
#define UNDRELVOA_BLOCK_BYTES 64
#define UNDRELVOA_COUNT_WORDS(bytes) \
    ((size_t)(bytes) / UNDRELVOA_BLOCK_BYTES + ((size_t)(bytes) % UNDRELVOA_BLOCK_BYTES != 0 ? 2 : 1))

/* A log word: the index of the operation that wrote it, and what it shows: the byte offset of LOAD and
 * STORE, or 1 for a CBRANCH taken and 0 for one not taken. The words of a window are marked, by
 * UNDRELVOA_WINDOW_MARK added; UNDRELVOA_LOG_AHEAD is 1 for such a word, and 0 for any other. */
#define UNDRELVOA_WINDOW_MARK ((uint64_t)1 << 63)
#define UNDRELVOA_LOG_AHEAD(word) ((uint64_t)(word) >> 63)
#define UNDRELVOA_LOG_INDEX(word) (((uint64_t)(word) & ~UNDRELVOA_WINDOW_MARK) >> 32)
#define UNDRELVOA_LOG_SHOWN(word) ((uint64_t)(word) & 0xffffffffu)

/* The words of a journal that each operation of a window needs. */
#define UNDRELVOA_JOURNAL_WORDS_PER_OPERATION 4

/* An operation is five words: its head, then the offsets of output, input0, input1 and input2. Where an
 * operation has no such varnode, its descriptor is UNDRELVOA_ABSENT and its offset 0. A number that does not
 * fit its field becomes 255 there, which is refused (21 or 22) and never another opcode, space or size. The
 * macros evaluate their arguments more than once. */
#define UNDRELVOA_OPERATION_WORDS 5
#define UNDRELVOA_ABSENT 0
#define UNDRELVOA_DESCRIPTOR(space, size) \
    ((uint64_t)(space) < 16 && (uint64_t)(size) < 16 ? (uint64_t)(space) * 16 + (uint64_t)(size) : (uint64_t)255)
#define UNDRELVOA_HEAD_BYTE(number, at) (((uint64_t)(number) < 256 ? (uint64_t)(number) : (uint64_t)255) << 8 * (at))
#define UNDRELVOA_OPERATION_HEAD(opcode, output, input0, input1, input2)                                      \
    (UNDRELVOA_HEAD_BYTE(opcode, 0) | UNDRELVOA_HEAD_BYTE(output, 1) | UNDRELVOA_HEAD_BYTE(input0, 2)         \
     | UNDRELVOA_HEAD_BYTE(input1, 3) | UNDRELVOA_HEAD_BYTE(input2, 4))

/* The address spaces. A varnode of the constant space has no bytes: its value is its offset. */
enum undrelvoa_space {
    UNDRELVOA_SPACE_CONSTANT = 1,
    UNDRELVOA_SPACE_UNIQUE = 2,
    UNDRELVOA_SPACE_REGISTER = 3,
    UNDRELVOA_SPACE_RAM = 4
};

/* The opcodes. Those from UNDRELVOA_PIECE on have a value. */
enum undrelvoa_opcode {
    UNDRELVOA_COPY = 1,
    UNDRELVOA_LOAD = 2,
    UNDRELVOA_STORE = 3,
    UNDRELVOA_BRANCH = 4,
    UNDRELVOA_CBRANCH = 5,
    UNDRELVOA_BRANCHIND = 6,
    UNDRELVOA_CALL = 7,
    UNDRELVOA_CALLIND = 8,
    UNDRELVOA_RETURN = 9,
    UNDRELVOA_PIECE = 10,
    UNDRELVOA_SUBPIECE = 11,
    UNDRELVOA_POPCOUNT = 12,
    UNDRELVOA_INT_EQUAL = 13,
    UNDRELVOA_INT_NOTEQUAL = 14,
    UNDRELVOA_INT_LESS = 15,
    UNDRELVOA_INT_SLESS = 16,
    UNDRELVOA_INT_LESSEQUAL = 17,
    UNDRELVOA_INT_SLESSEQUAL = 18,
    UNDRELVOA_INT_ZEXT = 19,
    UNDRELVOA_INT_SEXT = 20,
    UNDRELVOA_INT_ADD = 21,
    UNDRELVOA_INT_SUB = 22,
    UNDRELVOA_INT_CARRY = 23,
    UNDRELVOA_INT_SCARRY = 24,
    UNDRELVOA_INT_SBORROW = 25,
    UNDRELVOA_INT_2COMP = 26,
    UNDRELVOA_INT_NEGATE = 27,
    UNDRELVOA_INT_XOR = 28,
    UNDRELVOA_INT_AND = 29,
    UNDRELVOA_INT_OR = 30,
    UNDRELVOA_INT_LEFT = 31,
    UNDRELVOA_INT_RIGHT = 32,
    UNDRELVOA_INT_SRIGHT = 33,
    UNDRELVOA_INT_MULT = 34,
    UNDRELVOA_INT_DIV = 35,
    UNDRELVOA_INT_REM = 36,
    UNDRELVOA_INT_SDIV = 37,
    UNDRELVOA_INT_SREM = 38,
    UNDRELVOA_BOOL_NEGATE = 39,
    UNDRELVOA_BOOL_XOR = 40,
    UNDRELVOA_BOOL_AND = 41,
    UNDRELVOA_BOOL_OR = 42
};

/* What a call answers: whether the call itself could be served. With several faults, the lowest number.
 * These numbers are endings too, where they mean something else, so an answer is never compared with an
 * undrelvoa_ending. Two are easily confused:
 *   11  UNDRELVOA_ANSWER_LENGTH: settings, report, place or result have the wrong number of words. The
 *       ending UNDRELVOA_LENGTH: list, spaces, labels, journal or counts have a wrong length.
 *   24  UNDRELVOA_ANSWER_RANGE: the bytes or values given to undrelvoa_gather, undrelvoa_scatter or
 *       undrelvoa_value do not fit. The ending UNDRELVOA_RANGE: a varnode of an operation does not. */
enum undrelvoa_answer {
    UNDRELVOA_ANSWER_DONE = 0,
    UNDRELVOA_ANSWER_SETTING = 10, /* a byte order that is neither 0 nor 1 */
    UNDRELVOA_ANSWER_LENGTH = 11,  /* settings of another number of words than UNDRELVOA_SETTINGS_WORDS,
                                    * or too few words for report, place or result */
    UNDRELVOA_ANSWER_HEAD = 21,    /* an opcode that has no value */
    UNDRELVOA_ANSWER_SHAPE = 22,   /* a size that is not 1 to 8, an input1 where the opcode has none, or
                                    * none where it has one */
    UNDRELVOA_ANSWER_RANGE = 24,   /* bytes beyond the end of the buffer, or a value not below 256^size */
    UNDRELVOA_ANSWER_SIZE = 25,    /* sizes that the operation does not allow together */
    UNDRELVOA_ANSWER_ZERO = 33     /* a divisor of 0 */
};

/* How a run ended, the first word of a report; the second is the index that stands here. A value other
 * than 0 comes with EXIT alone. The refusals, 10 to 27, come before anything runs, in the order 10, 11, 12,
 * 21 to 26, 27; nothing is executed or written then, but the report. */
enum undrelvoa_ending {
    UNDRELVOA_END = 0,      /* the end of the list: the number of operations */
    UNDRELVOA_EXIT = 1,     /* the exiting operation, which is counted; the value is its destination */
    UNDRELVOA_BUDGET = 2,   /* the budget is spent: the next operation */
    UNDRELVOA_SETTING = 10, /* byte order, address size, a wordsize or the window out of range: 0 */
    UNDRELVOA_LENGTH = 11,  /* words not a multiple of 5, over 4,096 operations, a space over 65,536
                             * bytes, other numbers of labels than of bytes, a journal of fewer words
                             * than four for each operation of the window, or counts of fewer words than
                             * one for each block and one for the total: 0 */
    UNDRELVOA_LABEL = 12,   /* a label that is neither 0 nor 1: 0 */
    /* 21 to 26: the first malformed operation, by the lowest rule that it breaks */
    UNDRELVOA_HEAD = 21,    /* an opcode out of range, or a spare byte of the head that is not 0 */
    UNDRELVOA_SHAPE = 22,   /* a varnode that the opcode has not, or lacks; a descriptor out of range */
    UNDRELVOA_PLACE = 23,   /* a varnode in a space where it may not lie */
    UNDRELVOA_RANGE = 24,   /* a varnode outside its space, or a constant that its size does not hold */
    UNDRELVOA_SIZE = 25,    /* sizes that the operation does not allow together */
    UNDRELVOA_TARGET = 26,  /* a destination that is no index from 0 to the number of operations */
    UNDRELVOA_START = 27,   /* a start above the number of operations: 0 */
    /* 31 to 34: the operation that was not executed; where several hold, the lowest. 34 in a window, and 35:
     * the CBRANCH that opened the window, which is not counted */
    UNDRELVOA_LEAK = 31,    /* a byte that must be public is secret */
    UNDRELVOA_BOUNDS = 32,  /* LOAD or STORE past the end of the space that input0 names, after multiplying */
    UNDRELVOA_ZERO = 33,    /* a divisor of 0 */
    UNDRELVOA_LOG = 34,     /* a log word is due, and the log is full */
    UNDRELVOA_LEAK_AHEAD = 35 /* in a window, a byte that must be public is secret */
};

/* The value of an integer operation.
 *
 *   opcode       an undrelvoa_opcode, 10 to 42
 *   output_size  bytes of the output, 1 to 8
 *   size0        bytes of input0, 1 to 8
 *   size1        bytes of input1, 1 to 8, or 0 for an operation that has no input1
 *   a            the value of input0, below 256^size0
 *   b            the value of input1, below 256^size1 (so 0 for an operation that has no input1)
 *   result       result[0] becomes the value of the output; further words stay as they are
 *   result_len   words of result, at least 1
 *
 * Answers 0, 11, 21, 22, 24, 25 or 33.
 */
uint64_t undrelvoa_value(uint64_t opcode, uint64_t output_size, uint64_t size0, uint64_t size1,
                         uint64_t a, uint64_t b, uint64_t *result, size_t result_len);

/* The value of the `size` bytes at `offset` of a buffer.
 *
 *   order        UNDRELVOA_LITTLE or UNDRELVOA_BIG
 *   bytes        the buffer, only read
 *   bytes_len    its bytes
 *   offset       where the value starts
 *   size         its bytes, 1 to 8; offset + size is at most bytes_len, summed without wrapping
 *   result       result[0] becomes the value; further words stay as they are
 *   result_len   words of result, at least 1
 *
 * Answers 0, 10, 11, 22 or 24.
 */
uint64_t undrelvoa_gather(uint64_t order, const uint8_t *bytes, size_t bytes_len, uint64_t offset,
                          uint64_t size, uint64_t *result, size_t result_len);

/* Writes a value as the `size` bytes at `offset` of a buffer; every other byte stays as it is.
 *
 *   order        UNDRELVOA_LITTLE or UNDRELVOA_BIG
 *   bytes        the buffer, written
 *   bytes_len    its bytes
 *   offset       where the value starts
 *   size         its bytes, 1 to 8; offset + size is at most bytes_len, summed without wrapping
 *   value        the value, below 256^size
 *
 * Answers 0, 10, 22 or 24.
 */
uint64_t undrelvoa_scatter(uint64_t order, uint8_t *bytes, size_t bytes_len, uint64_t offset,
                           uint64_t size, uint64_t value);

/* The verdict on a list of operations.
 *
 *   settings      byte order, address size and wordsizes, only read
 *   settings_len  its words, exactly five
 *   unique_len    bytes of the unique, register and ram spaces, at most 65,536 each
 *   register_len
 *   ram_len
 *   list          the operations, five words each, only read
 *   list_len      its words
 *   report        its first five words become the report; further words stay as they are
 *   report_len    words of report, at least UNDRELVOA_REPORT_WORDS
 *
 * The ending is 0 with the number of operations as index; or 10, 11 with index 0; or 21 to 26, the
 * lowest rule that the first malformed operation breaks, with its index. The last three are 0.
 * Answers 0 when the report is written, or 11.
 */
uint64_t undrelvoa_validate(const uint64_t *settings, size_t settings_len, uint64_t unique_len,
                            uint64_t register_len, uint64_t ram_len, const uint64_t *list,
                            size_t list_len, uint64_t *report, size_t report_len);

/* A run of a list of operations, without labels.
 *
 *   settings, settings_len, list, list_len   as for undrelvoa_validate
 *   start        the index of the first operation to execute, at most the number of operations
 *   budget       the most operations to execute, 0 to UNDRELVOA_MAX_BUDGET
 *   unique, register_space, ram   the three spaces, read and written
 *   unique_len, register_len, ram_len   their bytes, at most 65,536 each
 *   log          its first words become the log words written, one for each LOAD, STORE and CBRANCH
 *                executed; further words stay as they are
 *   log_len      words of log: the log's room
 *   report       its first five words become the report; further words stay as they are
 *   report_len   words of report, at least UNDRELVOA_REPORT_WORDS
 *
 * The endings are those of enum undrelvoa_ending but for 12, 31 and 35. After a refusal the spaces and the
 * log are as lent; after another ending they are as the executed operations left them.
 * Answers 0 when the report is written, or 11.
 */
uint64_t undrelvoa_run(const uint64_t *settings, size_t settings_len, const uint64_t *list,
                       size_t list_len, uint64_t start, uint32_t budget, uint8_t *unique,
                       size_t unique_len, uint8_t *register_space, size_t register_len, uint8_t *ram,
                       size_t ram_len, uint64_t *log, size_t log_len, uint64_t *report,
                       size_t report_len);

/* The same with a budget of 1. Each call checks the whole list anew, so it costs as much as the list is
 * long: to execute many operations, call undrelvoa_run with a larger budget, and go on from its index where
 * it ends with UNDRELVOA_BUDGET. */
uint64_t undrelvoa_step(const uint64_t *settings, size_t settings_len, const uint64_t *list,
                        size_t list_len, uint64_t start, uint8_t *unique, size_t unique_len,
                        uint8_t *register_space, size_t register_len, uint8_t *ram, size_t ram_len,
                        uint64_t *log, size_t log_len, uint64_t *report, size_t report_len);

/* A run with a label for each byte of each space.
 *
 *   unique_labels, register_labels, ram_labels   one byte for each byte of each space, 0 public, 1
 *                secret, read and written
 *   unique_labels_len, register_labels_len, ram_labels_len   their bytes, as many as the space has
 *   unique_counts, register_counts, ram_counts   the counts of each space, read and written: how many bytes
 *                of each block are secret, then how many of the space; further words stay as they are
 *   unique_counts_len, register_counts_len, ram_counts_len   their words, at least UNDRELVOA_COUNT_WORDS
 *                of the space's bytes
 *   the others   as for undrelvoa_run
 *
 * The endings are those of enum undrelvoa_ending but for 35. After a refusal the labels and the counts too are
 * as lent; counts of too few words are 11.
 * LEAK is a secret byte in the pointer of LOAD or STORE, the condition of CBRANCH, input0 of BRANCHIND,
 * CALLIND or RETURN, or the dividend or divisor (input0, input1) of INT_DIV, INT_REM, INT_SDIV or INT_SREM.
 * COPY, LOAD, STORE, PIECE, SUBPIECE, INT_ZEXT and INT_SEXT take the label of each byte along, by significance;
 * zero fill is public, and the fill of INT_SEXT has the label of input0's top byte. All bytes that any other
 * operation writes become secret if a byte that it reads is, else public.
 *
 * Each label that changes moves the count of its block and the total by one, up where the byte becomes secret
 * and down where it becomes public, modulo 2^64; a label written as it was moves nothing. So counts that are
 * true before a call (equal to a recount of the labels, as undrelvoa_count_secrets fills them) are true after it;
 * whoever changes labels between two calls fills them again. They may hold anything: then they move by as much,
 * and nothing else depends on them.
 * Answers 0 when the report is written, or 11.
 */
uint64_t undrelvoa_labelled_run(const uint64_t *settings, size_t settings_len, const uint64_t *list,
                                size_t list_len, uint64_t start, uint32_t budget, uint8_t *unique,
                                size_t unique_len, uint8_t *register_space, size_t register_len,
                                uint8_t *ram, size_t ram_len, uint8_t *unique_labels,
                                size_t unique_labels_len, uint8_t *register_labels,
                                size_t register_labels_len, uint8_t *ram_labels,
                                size_t ram_labels_len, uint64_t *unique_counts,
                                size_t unique_counts_len, uint64_t *register_counts,
                                size_t register_counts_len, uint64_t *ram_counts,
                                size_t ram_counts_len, uint64_t *log, size_t log_len,
                                uint64_t *report, size_t report_len);

/* The same with a budget of 1. Each call checks the whole list and every label anew. */
uint64_t undrelvoa_labelled_step(const uint64_t *settings, size_t settings_len, const uint64_t *list,
                                 size_t list_len, uint64_t start, uint8_t *unique,
                                 size_t unique_len, uint8_t *register_space, size_t register_len,
                                 uint8_t *ram, size_t ram_len, uint8_t *unique_labels,
                                 size_t unique_labels_len, uint8_t *register_labels,
                                 size_t register_labels_len, uint8_t *ram_labels,
                                 size_t ram_labels_len, uint64_t *unique_counts,
                                 size_t unique_counts_len, uint64_t *register_counts,
                                 size_t register_counts_len, uint64_t *ram_counts,
                                 size_t ram_counts_len, uint64_t *log, size_t log_len,
                                 uint64_t *report, size_t report_len);

/* A labelled run that also tries the way not taken, as a processor does that guesses a branch wrongly: the
 * speculative run.
 *
 *   window       the most operations of a window, 0 to UNDRELVOA_MAX_WINDOW
 *   journal      room for what a window overwrites; what it holds before does not matter. Its first 4 * window
 *                words become zeros; further words stay as they are
 *   journal_len  words of journal, at least window * UNDRELVOA_JOURNAL_WORDS_PER_OPERATION
 *   the others   as for undrelvoa_labelled_run
 *
 * Each CBRANCH executed opens a window, after its log word: the way that it does not take is run until
 * `window` operations are done, or the window closes: at the end of the list, or by EXIT, BOUNDS or ZERO.
 * A CBRANCH in a window follows its condition and opens none. Bytes, labels and counts then become again what
 * they were, and the right way goes on. Operations of a window are not counted and spend no budget. Their log words
 * are marked, stay in the log, and are counted in UNDRELVOA_REPORT_LOGGED.
 *
 * In a window, LEAK ends the run as UNDRELVOA_LEAK_AHEAD, and a full log ends it as UNDRELVOA_LOG. Both report
 * the CBRANCH that opened the window, not counted, with value 0; bytes, labels and counts are those before it, and
 * the log words written until then stay, its own too. With a window and a journal in range and any other ending
 * than these two, the report, but for the number of log words, the spaces, the labels, the counts and the words that
 * are not marked are those of undrelvoa_labelled_run.
 *
 * A window over UNDRELVOA_MAX_WINDOW is 10, and a journal of too few words 11. After a refusal the journal too
 * is as lent.
 *
 * A run takes up to window + 1 times the operations of its budget, and writes up to as many log words. With a
 * window of 0 it is undrelvoa_labelled_run.
 * Answers 0 when the report is written, or 11.
 */
uint64_t undrelvoa_speculative_run(const uint64_t *settings, size_t settings_len, const uint64_t *list,
                                   size_t list_len, uint64_t start, uint32_t budget, uint64_t window,
                                   uint8_t *unique, size_t unique_len, uint8_t *register_space,
                                   size_t register_len, uint8_t *ram, size_t ram_len,
                                   uint8_t *unique_labels, size_t unique_labels_len,
                                   uint8_t *register_labels, size_t register_labels_len,
                                   uint8_t *ram_labels, size_t ram_labels_len, uint64_t *unique_counts,
                                   size_t unique_counts_len, uint64_t *register_counts,
                                   size_t register_counts_len, uint64_t *ram_counts,
                                   size_t ram_counts_len, uint64_t *log, size_t log_len,
                                   uint64_t *journal, size_t journal_len, uint64_t *report,
                                   size_t report_len);

/* Counts the secret bytes of each block and of each space: fills the counts that the labelled runs and steps and
 * the speculative run then keep.
 *
 *   unique_labels, register_labels, ram_labels   one byte for each byte of each space, 0 public, 1 secret,
 *                only read
 *   unique_labels_len, register_labels_len, ram_labels_len   their bytes, at most 65,536 each
 *   unique_counts, register_counts, ram_counts   their first words become the counts, one for each block, then
 *                the total; further words stay as they are
 *   unique_counts_len, register_counts_len, ram_counts_len   their words, at least UNDRELVOA_COUNT_WORDS
 *                of the number of labels
 *   report       its first five words become the report; further words stay as they are
 *   report_len   words of report, at least UNDRELVOA_REPORT_WORDS
 *
 * The ending is 0; or 11 for labels over 65,536 or counts of too few words; or else 12 for a label that is neither
 * 0 nor 1. The other four are 0. After 11 and 12 the counts are as lent.
 * Answers 0 when the report is written, or 11.
 */
uint64_t undrelvoa_count_secrets(const uint8_t *unique_labels, size_t unique_labels_len,
                                 const uint8_t *register_labels, size_t register_labels_len,
                                 const uint8_t *ram_labels, size_t ram_labels_len,
                                 uint64_t *unique_counts, size_t unique_counts_len,
                                 uint64_t *register_counts, size_t register_counts_len,
                                 uint64_t *ram_counts, size_t ram_counts_len, uint64_t *report,
                                 size_t report_len);

/* Where the bytes of a varnode lie.
 *
 *   unique, register_space, ram   the three spaces, only read
 *   unique_len, register_len, ram_len   their bytes
 *   space        an undrelvoa_space other than UNDRELVOA_SPACE_CONSTANT
 *   offset       where the varnode starts in its space
 *   size         its bytes, 1 to 8
 *   place        its first three words become space, offset and number of bytes; all three are 0 for
 *                any other space number, a size outside 1 to 8 or a place outside its space; further
 *                words stay as they are
 *   place_len    words of place, at least UNDRELVOA_PLACE_WORDS
 *
 * Answers 0 when the place is written, or 11.
 */
uint64_t undrelvoa_show(const uint8_t *unique, size_t unique_len, const uint8_t *register_space,
                        size_t register_len, const uint8_t *ram, size_t ram_len, uint64_t space,
                        uint64_t offset, uint64_t size, uint64_t *place, size_t place_len);

#ifdef __cplusplus
}
#endif

#endif
