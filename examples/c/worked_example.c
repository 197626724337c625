/* The worked example of README.md, through the library: prints what ./run-case prints for
 * cases/operations/worked-example/input. */
#include "undrelvoa.h"

#include <inttypes.h>
#include <stddef.h>
#include <stdio.h>

enum { SPACE_BYTES = 16, LOG_WORDS = 4, COUNT_WORDS = UNDRELVOA_COUNT_WORDS(SPACE_BYTES) };

#define COUNT(array) (sizeof(array) / sizeof((array)[0]))
#define REGISTER(size) UNDRELVOA_DESCRIPTOR(UNDRELVOA_SPACE_REGISTER, size)
#define UNIQUE(size) UNDRELVOA_DESCRIPTOR(UNDRELVOA_SPACE_UNIQUE, size)
#define CONSTANT(size) UNDRELVOA_DESCRIPTOR(UNDRELVOA_SPACE_CONSTANT, size)
#define NONE UNDRELVOA_ABSENT

/* unique 0 = register 0 & 7; unique 4 = the byte of ram at unique 0; register 8 = unique 4. Each operation is its
 * head and the offsets of output, input0, input1 and input2. */
static const uint64_t list[] = {
    UNDRELVOA_OPERATION_HEAD(UNDRELVOA_INT_AND, UNIQUE(4), REGISTER(4), CONSTANT(4), NONE), 0, 0, 7, 0,
    UNDRELVOA_OPERATION_HEAD(UNDRELVOA_LOAD, UNIQUE(1), CONSTANT(1), UNIQUE(4), NONE), 4, UNDRELVOA_SPACE_RAM, 0, 0,
    UNDRELVOA_OPERATION_HEAD(UNDRELVOA_COPY, REGISTER(1), UNIQUE(1), NONE, NONE), 8, 4, 0, 0,
};

/* A space as one line: kind 02 for bytes, 03 for labels. */
static void print_space(unsigned kind, unsigned space, const uint8_t *bytes) {
    size_t i;
    printf("%02x%02x%08x", kind, space, 0u);
    for (i = 0; i < SPACE_BYTES; i++) {
        printf("%02x", bytes[i]);
    }
    printf("\n");
}

int main(void) {
    const uint64_t settings[] = {UNDRELVOA_LITTLE, 4, 1, 1, 1}; /* 4 bytes of an address; each wordsize 1 */
    uint8_t unique[SPACE_BYTES] = {0}, registers[SPACE_BYTES] = {0x0d}, ram[SPACE_BYTES] = {0};
    uint8_t unique_labels[SPACE_BYTES] = {0}, register_labels[SPACE_BYTES] = {0}, ram_labels[SPACE_BYTES] = {0};
    uint64_t unique_counts[COUNT_WORDS] = {0}, register_counts[COUNT_WORDS] = {0}, ram_counts[COUNT_WORDS] = {0};
    uint64_t log[LOG_WORDS], report[UNDRELVOA_REPORT_WORDS], answer, i;
    ram[5] = 0x5a;
    ram_labels[5] = UNDRELVOA_SECRET;

    /* nobody looks at the counts of secret bytes here, so they may start with anything */
    answer = undrelvoa_labelled_run(settings, COUNT(settings), list, COUNT(list), 0, 100,
                                    unique, SPACE_BYTES, registers, SPACE_BYTES, ram, SPACE_BYTES,
                                    unique_labels, SPACE_BYTES, register_labels, SPACE_BYTES, ram_labels, SPACE_BYTES,
                                    unique_counts, COUNT_WORDS, register_counts, COUNT_WORDS, ram_counts, COUNT_WORDS,
                                    log, LOG_WORDS, report, UNDRELVOA_REPORT_WORDS);
    if (answer != UNDRELVOA_ANSWER_DONE) {
        fprintf(stderr, "the call was refused: %" PRIu64 "\n", answer);
        return 1;
    }

    printf("%" PRIu64 " %" PRIu64 " %" PRIu64 " %" PRIu64 " %" PRIu64 "\n", report[UNDRELVOA_REPORT_ENDING],
           report[UNDRELVOA_REPORT_INDEX], report[UNDRELVOA_REPORT_EXECUTED], report[UNDRELVOA_REPORT_LOGGED],
           report[UNDRELVOA_REPORT_VALUE]);
    for (i = 0; i < report[UNDRELVOA_REPORT_LOGGED]; i++) {
        printf("%016" PRIx64 "\n", log[i]);
    }
    print_space(2, UNDRELVOA_SPACE_UNIQUE, unique);
    print_space(2, UNDRELVOA_SPACE_REGISTER, registers);
    print_space(2, UNDRELVOA_SPACE_RAM, ram);
    print_space(3, UNDRELVOA_SPACE_UNIQUE, unique_labels);
    print_space(3, UNDRELVOA_SPACE_REGISTER, register_labels);
    print_space(3, UNDRELVOA_SPACE_RAM, ram_labels);
    return 0;
}
