/* Says of four stubs whether they may be released: only one whose labelled run comes to its end. A run is made in
 * slices, as by a desk that wants to look at the clock in between; each call checks list and labels anew, so true slices
 * are longer. How many bytes are secret is counted once, before the first slice: each slice keeps the counts. */
#include "undrelvoa.h"

#include <inttypes.h>
#include <stddef.h>
#include <stdio.h>

enum { SPACE_BYTES = 16, LOG_WORDS = 4, WORDS = 3 * UNDRELVOA_OPERATION_WORDS, SLICE = 2, MOST_SLICES = 100 };
enum { COUNT_WORDS = UNDRELVOA_COUNT_WORDS(SPACE_BYTES), TOTAL = COUNT_WORDS - 1 };

#define COUNT(array) (sizeof(array) / sizeof((array)[0]))
#define REGISTER(size) UNDRELVOA_DESCRIPTOR(UNDRELVOA_SPACE_REGISTER, size)
#define CONSTANT(size) UNDRELVOA_DESCRIPTOR(UNDRELVOA_SPACE_CONSTANT, size)

struct stub {
    const char *name;
    uint64_t pointer_size; /* bytes of the register that is the pointer of the LOAD */
    uint8_t index;         /* what that register starts with */
    uint8_t index_label;
};

static const struct stub stubs[] = {
    {"a public index", 4, 5, UNDRELVOA_PUBLIC},
    {"a secret index", 4, 5, UNDRELVOA_SECRET},
    {"an index past the table", 4, 16, UNDRELVOA_PUBLIC},
    {"a pointer of two bytes", 2, 5, UNDRELVOA_PUBLIC},
};

static const char *name_of(uint64_t ending) {
    switch (ending) {
    case UNDRELVOA_END: return "END";
    case UNDRELVOA_EXIT: return "EXIT";
    case UNDRELVOA_BUDGET: return "BUDGET";
    case UNDRELVOA_SIZE: return "SIZE";
    case UNDRELVOA_LEAK: return "LEAK";
    case UNDRELVOA_BOUNDS: return "BOUNDS";
    default: return "another ending";
    }
}

/* The operations of a stub: register 8 = the byte of ram at register 0; register 9 = register 8 xor 0xff; register 10
 * = register 9. */
static void list_of(const struct stub *stub, uint64_t *list) {
    const uint64_t operations[WORDS] = {
        UNDRELVOA_OPERATION_HEAD(UNDRELVOA_LOAD, REGISTER(1), CONSTANT(1), REGISTER(stub->pointer_size), 0),
        8, UNDRELVOA_SPACE_RAM, 0, 0,
        UNDRELVOA_OPERATION_HEAD(UNDRELVOA_INT_XOR, REGISTER(1), REGISTER(1), CONSTANT(1), 0),
        9, 8, 0xff, 0,
        UNDRELVOA_OPERATION_HEAD(UNDRELVOA_COPY, REGISTER(1), REGISTER(1), 0, 0),
        10, 9, 0, 0,
    };
    size_t i;
    for (i = 0; i < WORDS; i++) {
        list[i] = operations[i];
    }
}

static int is_refused(uint64_t answer) {
    if (answer != UNDRELVOA_ANSWER_DONE) {
        fprintf(stderr, "the call was refused: %" PRIu64 "\n", answer);
    }
    return answer != UNDRELVOA_ANSWER_DONE;
}

/* Runs a stub in slices of two operations, prints how it ended, and answers whether it may be released. */
static int check(const struct stub *stub) {
    const uint64_t settings[] = {UNDRELVOA_LITTLE, 4, 1, 1, 1}; /* 4 bytes of an address; each wordsize 1 */
    uint8_t registers[SPACE_BYTES] = {0}, ram[SPACE_BYTES] = {0};
    uint8_t register_labels[SPACE_BYTES] = {0}, ram_labels[SPACE_BYTES];
    uint64_t unique_counts[UNDRELVOA_COUNT_WORDS(0)], register_counts[COUNT_WORDS], ram_counts[COUNT_WORDS];
    uint64_t list[WORDS], log[LOG_WORDS], report[UNDRELVOA_REPORT_WORDS];
    uint64_t start = 0, executed = 0, logged = 0, ending = UNDRELVOA_BUDGET;
    size_t i;
    int slices;

    list_of(stub, list);
    registers[0] = stub->index;
    register_labels[0] = stub->index_label;
    for (i = 0; i < SPACE_BYTES; i++) {
        ram_labels[i] = UNDRELVOA_SECRET;
    }
    if (is_refused(undrelvoa_count_secrets(NULL, 0, register_labels, SPACE_BYTES, ram_labels, SPACE_BYTES,
                                           unique_counts, COUNT(unique_counts), register_counts, COUNT_WORDS,
                                           ram_counts, COUNT_WORDS, report, UNDRELVOA_REPORT_WORDS))
        || report[UNDRELVOA_REPORT_ENDING] != UNDRELVOA_END) {
        return 0;
    }
    for (slices = 0; ending == UNDRELVOA_BUDGET && slices < MOST_SLICES; slices++) {
        /* the unique space has no bytes here, so its buffers are NULL, but for its total; each slice writes behind the log
         * words of the last */
        uint64_t answer = undrelvoa_labelled_run(settings, COUNT(settings), list, WORDS, start, SLICE,
                                                 NULL, 0, registers, SPACE_BYTES, ram, SPACE_BYTES,
                                                 NULL, 0, register_labels, SPACE_BYTES, ram_labels, SPACE_BYTES,
                                                 unique_counts, COUNT(unique_counts), register_counts, COUNT_WORDS,
                                                 ram_counts, COUNT_WORDS,
                                                 log + logged, LOG_WORDS - (size_t)logged, report, UNDRELVOA_REPORT_WORDS);
        if (is_refused(answer)) {
            return 0;
        }
        ending = report[UNDRELVOA_REPORT_ENDING];
        start = report[UNDRELVOA_REPORT_INDEX];
        executed += report[UNDRELVOA_REPORT_EXECUTED];
        logged += report[UNDRELVOA_REPORT_LOGGED];
    }
    printf("%s: %s (%" PRIu64 ") at operation %" PRIu64 ", %" PRIu64 " executed\n", stub->name, name_of(ending), ending,
           start, executed);
    printf("  secret bytes: %" PRIu64 " of register, %" PRIu64 " of ram\n", register_counts[TOTAL], ram_counts[TOTAL]);
    for (i = 0; i < logged; i++) {
        printf("  operation %" PRIu64 " shows the offset %" PRIu64 "\n", UNDRELVOA_LOG_INDEX(log[i]), UNDRELVOA_LOG_SHOWN(log[i]));
    }
    return ending == UNDRELVOA_END || ending == UNDRELVOA_EXIT;
}

int main(void) {
    size_t i, good = 0, count = COUNT(stubs);
    for (i = 0; i < count; i++) {
        good += (size_t)check(&stubs[i]);
    }
    printf("%lu of %lu may be released\n", (unsigned long)good, (unsigned long)count);
    return 0;
}
