/* Says of two stubs whether they may be released on a board that runs on past a wrongly guessed branch. Both read a table
 * at an index, and then ram at what they found; bytes of somebody else's, which are secret, stand behind the table. One
 * checks the index by a branch, and its labelled run comes to its end; but the way not taken reads a secret byte and uses
 * it as an address. The other has a mask in the place of the branch. */
#include "undrelvoa.h"

#include <inttypes.h>
#include <stddef.h>
#include <stdio.h>

enum { TABLE_BYTES = 8, RAM_BYTES = 16, REGISTER_BYTES = 4, INDEX = 10, BUDGET = 100, LOG_WORDS = 16, WINDOW = 8 };
enum { JOURNAL_WORDS = WINDOW * UNDRELVOA_JOURNAL_WORDS_PER_OPERATION, MOST_WORDS = 4 * UNDRELVOA_OPERATION_WORDS };

#define COUNT(array) (sizeof(array) / sizeof((array)[0]))
#define REGISTER UNDRELVOA_DESCRIPTOR(UNDRELVOA_SPACE_REGISTER, 1)
#define CONSTANT UNDRELVOA_DESCRIPTOR(UNDRELVOA_SPACE_CONSTANT, 1)
#define HEAD(opcode, output, input0, input1) UNDRELVOA_OPERATION_HEAD(opcode, output, input0, input1, UNDRELVOA_ABSENT)

struct stub {
    const char *name;
    size_t words;
    uint64_t list[MOST_WORDS];
};

/* Register 0 is the index, register 1 what the check or the mask comes to, register 2 the entry, register 3 what is found. */
static const struct stub stubs[] = {
    {"a branch that checks the index", 4 * UNDRELVOA_OPERATION_WORDS, {
        HEAD(UNDRELVOA_INT_LESSEQUAL, REGISTER, CONSTANT, REGISTER), 1, TABLE_BYTES, 0, 0,
        HEAD(UNDRELVOA_CBRANCH, UNDRELVOA_ABSENT, CONSTANT, REGISTER), 0, 3, 1, 0,
        HEAD(UNDRELVOA_LOAD, REGISTER, CONSTANT, REGISTER), 2, UNDRELVOA_SPACE_RAM, 0, 0,
        HEAD(UNDRELVOA_LOAD, REGISTER, CONSTANT, REGISTER), 3, UNDRELVOA_SPACE_RAM, 2, 0,
    }},
    {"a mask in the place of the branch", 3 * UNDRELVOA_OPERATION_WORDS, {
        HEAD(UNDRELVOA_INT_AND, REGISTER, REGISTER, CONSTANT), 1, 0, TABLE_BYTES - 1, 0,
        HEAD(UNDRELVOA_LOAD, REGISTER, CONSTANT, REGISTER), 2, UNDRELVOA_SPACE_RAM, 1, 0,
        HEAD(UNDRELVOA_LOAD, REGISTER, CONSTANT, REGISTER), 3, UNDRELVOA_SPACE_RAM, 2, 0,
    }},
};

static const char *name_of(uint64_t ending) {
    switch (ending) {
    case UNDRELVOA_END: return "END";
    case UNDRELVOA_EXIT: return "EXIT";
    case UNDRELVOA_LEAK: return "LEAK";
    case UNDRELVOA_LOG: return "LOG";
    case UNDRELVOA_LEAK_AHEAD: return "LEAK AHEAD";
    default: return "another ending";
    }
}

static void print_log(const uint64_t *log, size_t logged) {
    size_t i;
    for (i = 0; i < logged; i++) {
        printf("  operation %" PRIu64 " shows %" PRIu64 "%s\n", UNDRELVOA_LOG_INDEX(log[i]), UNDRELVOA_LOG_SHOWN(log[i]),
               UNDRELVOA_LOG_AHEAD(log[i]) ? ", on the way not taken" : "");
    }
}

/* Runs a stub with a window of so many operations, prints how it ended, and answers whether it may be released. Without a
 * window this is the labelled run. */
static int check(const struct stub *stub, uint64_t window) {
    const uint64_t settings[] = {UNDRELVOA_LITTLE, 1, 1, 1, 1}; /* 1 byte of an address; each wordsize 1 */
    uint8_t registers[REGISTER_BYTES] = {INDEX}, ram[RAM_BYTES];
    uint8_t register_labels[REGISTER_BYTES] = {UNDRELVOA_PUBLIC}, ram_labels[RAM_BYTES];
    uint64_t unique_counts[UNDRELVOA_COUNT_WORDS(0)] = {0}, register_counts[UNDRELVOA_COUNT_WORDS(REGISTER_BYTES)] = {0};
    uint64_t ram_counts[UNDRELVOA_COUNT_WORDS(RAM_BYTES)] = {0};
    uint64_t log[LOG_WORDS], journal[JOURNAL_WORDS], report[UNDRELVOA_REPORT_WORDS];
    uint64_t answer, ending;
    uint8_t i;

    for (i = 0; i < RAM_BYTES; i++) {
        ram[i] = i ^ (TABLE_BYTES - 1);
        ram_labels[i] = i < TABLE_BYTES ? UNDRELVOA_PUBLIC : UNDRELVOA_SECRET;
    }
    /* the unique space has no bytes here, so its buffers are NULL, but for its total; what journal and counts hold does
     * not matter */
    answer = undrelvoa_speculative_run(settings, COUNT(settings), stub->list, stub->words, 0, BUDGET, window,
                                       NULL, 0, registers, REGISTER_BYTES, ram, RAM_BYTES,
                                       NULL, 0, register_labels, REGISTER_BYTES, ram_labels, RAM_BYTES,
                                       unique_counts, COUNT(unique_counts), register_counts, COUNT(register_counts),
                                       ram_counts, COUNT(ram_counts),
                                       log, LOG_WORDS, journal, JOURNAL_WORDS, report, UNDRELVOA_REPORT_WORDS);
    if (answer != UNDRELVOA_ANSWER_DONE) {
        fprintf(stderr, "the call was refused: %" PRIu64 "\n", answer);
        return 0;
    }
    ending = report[UNDRELVOA_REPORT_ENDING];
    printf("%s, a window of %" PRIu64 ": %s (%" PRIu64 ") at operation %" PRIu64 ", %" PRIu64 " executed\n", stub->name, window,
           name_of(ending), ending, report[UNDRELVOA_REPORT_INDEX], report[UNDRELVOA_REPORT_EXECUTED]);
    print_log(log, (size_t)report[UNDRELVOA_REPORT_LOGGED]);
    return ending == UNDRELVOA_END || ending == UNDRELVOA_EXIT;
}

int main(void) {
    size_t i, good = 0, count = COUNT(stubs);
    for (i = 0; i < count; i++) {
        check(&stubs[i], 0);
        good += (size_t)check(&stubs[i], WINDOW);
    }
    printf("%lu of %lu may be released\n", (unsigned long)good, (unsigned long)count);
    return 0;
}
