/* Calls each function of the C interface through its header, and counts the answers that are as the header says. */
#include "undrelvoa.h"

#include <pthread.h>
#include <stdio.h>
#include <string.h>

/* Byte order, address size, and pointers that count bytes. */
static const uint64_t little8[UNDRELVOA_SETTINGS_WORDS] = {UNDRELVOA_LITTLE, 8, 1, 1, 1};
static const uint64_t little1[UNDRELVOA_SETTINGS_WORDS] = {UNDRELVOA_LITTLE, 1, 1, 1, 1};

static int passed, failed;

static void expect(const char *what, uint64_t answer, uint64_t wanted) {
    if (answer == wanted) {
        passed++;
        return;
    }
    failed++;
    printf("%s: %llu, not %llu\n", what, (unsigned long long)answer, (unsigned long long)wanted);
}

/* Known results: f9 by 02 signed = fd, INT_SREM ff; 11223344 without its low byte in 2 bytes is 2233. */
static void values(void) {
    uint64_t out[2] = {7, 9};
    expect("INT_SDIV", undrelvoa_value(UNDRELVOA_INT_SDIV, 1, 1, 1, 0xf9, 0x02, out, 2), 0);
    expect("f9 by 02", out[0], 0xfd);
    expect("INT_SREM", undrelvoa_value(UNDRELVOA_INT_SREM, 1, 1, 1, 0xf9, 0x02, out, 2), 0);
    expect("f9 by 02, remainder", out[0], 0xff);
    expect("SUBPIECE", undrelvoa_value(UNDRELVOA_SUBPIECE, 2, 4, 4, 0x11223344, 1, out, 2), 0);
    expect("11223344 without a byte", out[0], 0x2233);
    expect("INT_DIV by 0", undrelvoa_value(UNDRELVOA_INT_DIV, 1, 1, 1, 1, 0, out, 2), 33);
    expect("the word after a refusal", out[0], 0x2233);
    expect("the word after the result", out[1], 9);
}

/* Known results: 123456 is 56 34 12 little, 12 34 56 big. */
static void bytes(void) {
    uint8_t memory[4] = {0, 0, 0, 0xaa};
    uint64_t out[1] = {0};
    expect("scatter, big", undrelvoa_scatter(1, memory, 4, 0, 3, 0x123456), 0);
    expect("first byte", memory[0], 0x12);
    expect("last byte", memory[2], 0x56);
    expect("byte after", memory[3], 0xaa);
    expect("gather, little", undrelvoa_gather(0, memory, 4, 0, 3, out, 1), 0);
    expect("read in the other order", out[0], 0x563412);
    expect("beyond the end", undrelvoa_gather(0, memory, 4, 2, 3, out, 1), 24);
}

/* Known results: register length 16, size 4: offset 12 passes, 13 is RANGE. The operation is a COPY to unique. */
static void verdicts(void) {
    uint64_t list[5] = {0};
    uint64_t report[6] = {7, 7, 7, 7, 7, 9};
    list[0] = 1 | (uint64_t)0x24 << 8 | (uint64_t)0x34 << 16;
    list[2] = 12;
    expect("validate", undrelvoa_validate(little8, 5, 16, 16, 16, list, 5, report, 6), 0);
    expect("ending", report[0], 0);
    expect("index", report[1], 1);
    expect("the word after the report", report[5], 9);
    list[2] = 13;
    expect("validate", undrelvoa_validate(little8, 5, 16, 16, 16, list, 5, report, 6), 0);
    expect("offset 13", report[0], 24);
    expect("short report", undrelvoa_validate(little8, 5, 16, 16, 16, list, 5, report, 4), 11);
}

/* Known results: bytes 01 02 03 04, COPY of 2 bytes from 0 to 1: 01 01 02 04. Then a BRANCH to ram 7, an exit. */
static void runs(void) {
    uint64_t list[10] = {0x00323201, 1, 0, 0, 0, 0x00410004, 0, 7, 0, 0};
    uint8_t unique[1] = {0}, registers[4] = {1, 2, 3, 4}, ram[8] = {0};
    uint64_t log[1] = {8};
    uint64_t report[6] = {7, 7, 7, 7, 7, 9};
    expect("step", undrelvoa_step(little8, 5, list, 10, 0, unique, 1, registers, 4, ram, 8, log, 1, report, 6), 0);
    expect("budget spent", report[0], 2);
    expect("next index", report[1], 1);
    expect("executed", report[2], 1);
    expect("log words", report[3], 0);
    expect("byte written", registers[1], 1);
    expect("byte written", registers[2], 2);
    expect("byte after", registers[3], 4);
    expect("run", undrelvoa_run(little8, 5, list, 10, 1, 9, unique, 1, registers, 4, ram, 8, log, 1, report, 6), 0);
    expect("exit", report[0], 1);
    expect("destination", report[4], 7);
    expect("the log's word", log[0], 8);
    expect("the word after the report", report[5], 9);
    expect("run", undrelvoa_run(little8, 5, list, 10, 3, 9, unique, 1, registers, 4, ram, 8, log, 1, report, 6), 0);
    expect("start after the end", report[0], 27);
    expect("short report", undrelvoa_run(little8, 5, list, 10, 0, 9, unique, 1, registers, 4, ram, 8, log, 1, report, 4), 11);
    expect("byte after a refusal", registers[2], 2);
}

/* The same COPY with a secret byte at 0: its copy at 1 is secret, the one behind it is not, and a RETURN to the copy is LEAK. */
static void labelled_runs(void) {
    uint64_t list[10] = {0x00323201, 1, 0, 0, 0, 0x00310009, 0, 1, 0, 0};
    uint8_t unique[1] = {0}, registers[4] = {1, 2, 3, 4}, ram[8] = {0};
    uint8_t of_unique[1] = {0}, of_registers[4] = {1, 0, 1, 0}, of_ram[8] = {0};
    uint64_t counts[6] = {0}; /* two words for each space */
    uint64_t log[1] = {8};
    uint64_t report[6] = {7, 7, 7, 7, 7, 9};
    expect("labelled step", undrelvoa_labelled_step(little1, 5, list, 10, 0, unique, 1, registers, 4, ram, 8, of_unique, 1, of_registers, 4, of_ram, 8, counts, 2, counts + 2, 2, counts + 4, 2, log, 1, report, 6), 0);
    expect("budget spent", report[0], 2);
    expect("next index", report[1], 1);
    expect("byte written", registers[2], 2);
    expect("label before", of_registers[0], 1);
    expect("secret label written", of_registers[1], 1);
    expect("public label written", of_registers[2], 0);
    expect("label after", of_registers[3], 0);
    expect("labelled run", undrelvoa_labelled_run(little1, 5, list, 10, 1, 9, unique, 1, registers, 4, ram, 8, of_unique, 1, of_registers, 4, of_ram, 8, counts, 2, counts + 2, 2, counts + 4, 2, log, 1, report, 6), 0);
    expect("secret destination", report[0], 31);
    expect("where it stopped", report[1], 1);
    expect("not executed", report[2], 0);
    expect("no value", report[4], 0);
    of_registers[1] = 0;
    expect("labelled run", undrelvoa_labelled_run(little1, 5, list, 10, 1, 9, unique, 1, registers, 4, ram, 8, of_unique, 1, of_registers, 4, of_ram, 8, counts, 2, counts + 2, 2, counts + 4, 2, log, 1, report, 6), 0);
    expect("exit", report[0], 1);
    expect("destination", report[4], 1);
    expect("the word after the report", report[5], 9);
    expect("labelled run", undrelvoa_labelled_run(little1, 5, list, 10, 0, 9, unique, 1, registers, 4, ram, 8, of_unique, 1, of_registers, 3, of_ram, 8, counts, 2, counts + 2, 2, counts + 4, 2, log, 1, report, 6), 0);
    expect("a label too few", report[0], 11);
    of_registers[3] = 2;
    expect("labelled run", undrelvoa_labelled_run(little1, 5, list, 10, 0, 9, unique, 1, registers, 4, ram, 8, of_unique, 1, of_registers, 4, of_ram, 8, counts, 2, counts + 2, 2, counts + 4, 2, log, 1, report, 6), 0);
    expect("a label of 2", report[0], 12);
    expect("the label after a refusal", of_registers[2], 0);
    expect("short report", undrelvoa_labelled_run(little1, 5, list, 10, 0, 9, unique, 1, registers, 4, ram, 8, of_unique, 1, of_registers, 4, of_ram, 8, counts, 2, counts + 2, 2, counts + 4, 2, log, 1, report, 4), 11);
}

/* A look into a table of ram behind a check of its index, and a LOAD at what is found there. The index is past the table,
 * so the CBRANCH goes to the end, and its window looks. */
static const uint64_t table_stub[] = {
    0x21112111, 2, 4, 0, 0, /* INT_LESSEQUAL: unique 2 = 4 <= the index at unique 0 */
    0x21110005, 0, 3, 2, 0, /* CBRANCH: to the end, by unique 2 */
    0x21112102, 1, 4, 0, 0, /* LOAD: unique 1 = the entry of ram at unique 0 */
    0x21112102, 3, 4, 1, 0, /* LOAD: unique 3 = the byte of ram at unique 1 */
};
enum { STUB_WORDS = sizeof table_stub / sizeof table_stub[0], STUB_BYTES = 4, STUB_RAM = 8, STUB_LOG = 2, STUB_JOURNAL = 9 };

/* Known results: with the byte behind the table public the window ends with the list, and with it secret the second LOAD is
 * LEAK AHEAD. Each run has a journal of two entries and a word more. */
static void speculative_runs(void) {
    const uint64_t good_log[STUB_LOG] = {(uint64_t)1 << 32 | 1, UNDRELVOA_WINDOW_MARK + ((uint64_t)2 << 32 | 5)};
    int secret;
    for (secret = 0; secret <= 1; secret++) {
        uint8_t unique[STUB_BYTES] = {5, 1, 2, 3}, ram[STUB_RAM] = {0}, of_unique[STUB_BYTES] = {0}, of_ram[STUB_RAM] = {0};
        uint64_t log[STUB_LOG + 1] = {8, 8, 8}, journal[STUB_JOURNAL] = {6, 6, 6, 6, 6, 6, 6, 6, 6}, report[6] = {7, 7, 7, 7, 7, 9};
        uint64_t counts[5] = {4, 4, 4, 4, 4}; /* for unique, no register and ram */
        size_t i;
        ram[5] = 9;
        of_ram[5] = (uint8_t)secret;
        expect("speculative run", undrelvoa_speculative_run(little1, 5, table_stub, STUB_WORDS, 0, 9, 2, unique, STUB_BYTES, NULL, 0, ram, STUB_RAM, of_unique, STUB_BYTES, NULL, 0, of_ram, STUB_RAM, counts, 2, counts + 2, 1, counts + 3, 2, log, STUB_LOG + 1, journal, STUB_JOURNAL, report, 6), 0);
        expect("its ending", report[UNDRELVOA_REPORT_ENDING], secret ? UNDRELVOA_LEAK_AHEAD : UNDRELVOA_END);
        expect("its index", report[UNDRELVOA_REPORT_INDEX], secret ? 1 : 4);
        expect("executed", report[UNDRELVOA_REPORT_EXECUTED], secret ? 1 : 2);
        expect("log words", report[UNDRELVOA_REPORT_LOGGED], STUB_LOG);
        expect("no value", report[UNDRELVOA_REPORT_VALUE], 0);
        expect("the word after the report", report[5], 9);
        expect("the word after the log", log[STUB_LOG], 8);
        for (i = 0; i < STUB_LOG; i++) {
            expect("log word", log[i], good_log[i]);
        }
        for (i = 0; i < STUB_JOURNAL; i++) {
            expect("journal word", journal[i], i < 8 ? 0 : 6);
        }
        expect("what the window wrote, undone", unique[1], 1);
        expect("its label, undone", of_unique[1], UNDRELVOA_PUBLIC);
        for (i = 0; i < 5; i++) {
            expect("count, undone", counts[i], 4);
        }
        expect("what the run wrote", unique[2], 1);
    }
}

/* A window out of range and a journal too short, each with every buffer as lent then; and those that are just good. */
static void windows(void) {
    static const struct {
        uint64_t window;
        size_t journal_len;
        uint64_t wanted;
    } calls[] = {
        {0, 0, UNDRELVOA_END},
        {1, 4, UNDRELVOA_END},
        {1, 3, UNDRELVOA_LENGTH},
        {1, 0, UNDRELVOA_LENGTH},
        {63, 252, UNDRELVOA_END},
        {UNDRELVOA_MAX_WINDOW, UNDRELVOA_MAX_WINDOW * UNDRELVOA_JOURNAL_WORDS_PER_OPERATION, UNDRELVOA_END},
        {UNDRELVOA_MAX_WINDOW, UNDRELVOA_MAX_WINDOW * UNDRELVOA_JOURNAL_WORDS_PER_OPERATION - 1, UNDRELVOA_LENGTH},
        {UNDRELVOA_MAX_WINDOW + 1, 300, UNDRELVOA_SETTING},
        {UNDRELVOA_MAX_WINDOW + 1, 0, UNDRELVOA_SETTING},
        {(uint64_t)1 << 62, 0, UNDRELVOA_SETTING},
        {UINT64_MAX, 300, UNDRELVOA_SETTING},
    };
    const uint64_t list[5] = {0x00112101, 0, 9, 0, 0}; /* COPY: unique 0 = 9 */
    size_t call, i;
    for (call = 0; call < sizeof calls / sizeof calls[0]; call++) {
        uint8_t unique[1] = {7}, labels[1] = {UNDRELVOA_SECRET};
        uint64_t counts[4] = {1, 1, 0, 0}, log[1] = {8}, journal[300], report[5] = {7, 7, 7, 7, 7}, changed = 0;
        const int runs = calls[call].wanted == UNDRELVOA_END;
        for (i = 0; i < 300; i++) {
            journal[i] = 6;
        }
        expect("speculative run", undrelvoa_speculative_run(little8, 5, list, 5, 0, 9, calls[call].window, unique, 1, NULL, 0, NULL, 0, labels, 1, NULL, 0, NULL, 0, counts, 2, counts + 2, 1, counts + 3, 1, log, 1, calls[call].journal_len == 0 ? NULL : journal, calls[call].journal_len, report, 5), 0);
        for (i = 0; i < 300; i++) {
            changed += journal[i] != 6;
        }
        expect("a window and its journal", report[UNDRELVOA_REPORT_ENDING], calls[call].wanted);
        expect("their journal words", changed, runs ? calls[call].journal_len : 0);
        expect("their index", report[UNDRELVOA_REPORT_INDEX], runs ? 1 : 0);
        expect("their byte", unique[0], runs ? 9 : 7);
        expect("their label", labels[0], runs ? UNDRELVOA_PUBLIC : UNDRELVOA_SECRET);
        expect("their count", counts[0], runs ? 0 : 1);
        expect("their total", counts[1], runs ? 0 : 1);
        expect("their log", log[0], 8);
    }
}

/* Registers of 65 bytes, of which the last three of the first block and the byte behind them are secret. */
enum { COUNTED_BYTES = 65, COUNTED_WORDS = UNDRELVOA_COUNT_WORDS(COUNTED_BYTES) };

static void mark_secrets(uint8_t *labels) {
    memset(labels, UNDRELVOA_PUBLIC, COUNTED_BYTES);
    memset(labels + 61, UNDRELVOA_SECRET, 4);
}

static void expect_counts(const char *what, const uint64_t *counts, uint64_t first, uint64_t second, uint64_t total) {
    expect(what, counts[0], first);
    expect(what, counts[1], second);
    expect(what, counts[2], total);
    expect("the word after the counts", counts[COUNTED_WORDS], 9);
}

/* Known results: the counts of the blocks are 3 and 1, the total 4. A COPY of a constant over the last two of these bytes
 * makes them 2, 0 and 2, and one of the first of them to the byte before it 3, 0 and 3. */
static void counts_of_secrets(void) {
    const uint64_t list[10] = {0x00123201, 63, 0, 0, 0, 0x00313101, 60, 61, 0, 0};
    uint8_t registers[COUNTED_BYTES] = {0}, labels[COUNTED_BYTES];
    uint64_t none[1] = {8}, totals[1] = {8}, counts[COUNTED_WORDS + 1] = {5, 5, 5, 9}, report[6] = {7, 7, 7, 7, 7, 9};
    size_t i;
    mark_secrets(labels);
    expect("count secrets", undrelvoa_count_secrets(NULL, 0, labels, COUNTED_BYTES, NULL, 0, none, 1, counts, COUNTED_WORDS + 1, totals, 1, report, 6), 0);
    expect_counts("filled", counts, 3, 1, 4);
    expect("an empty space", none[0] + totals[0], 0);
    for (i = 0; i < UNDRELVOA_REPORT_WORDS; i++) {
        expect("a report of zeros", report[i], 0);
    }
    expect("the word after the report", report[5], 9);
    expect("labelled step", undrelvoa_labelled_step(little8, 5, list, 10, 0, NULL, 0, registers, COUNTED_BYTES, NULL, 0, NULL, 0, labels, COUNTED_BYTES, NULL, 0, none, 1, counts, COUNTED_WORDS + 1, totals, 1, NULL, 0, report, 5), 0);
    expect_counts("after a step", counts, 2, 0, 2);
    expect("labelled run", undrelvoa_labelled_run(little8, 5, list, 10, 0, 9, NULL, 0, registers, COUNTED_BYTES, NULL, 0, NULL, 0, labels, COUNTED_BYTES, NULL, 0, none, 1, counts, COUNTED_WORDS + 1, totals, 1, NULL, 0, report, 5), 0);
    expect_counts("after a run", counts, 3, 0, 3);
    /* counts that hold anything move by as much, modulo 2^64 */
    mark_secrets(labels);
    counts[0] = counts[1] = counts[2] = 0;
    expect("labelled run", undrelvoa_labelled_run(little8, 5, list, 10, 0, 9, NULL, 0, registers, COUNTED_BYTES, NULL, 0, NULL, 0, labels, COUNTED_BYTES, NULL, 0, none, 1, counts, COUNTED_WORDS + 1, totals, 1, NULL, 0, report, 5), 0);
    expect_counts("wrapped", counts, 0, UINT64_MAX, UINT64_MAX);
    /* refusals leave them as lent */
    mark_secrets(labels);
    expect("labelled run", undrelvoa_labelled_run(little8, 5, list, 10, 0, 9, NULL, 0, registers, COUNTED_BYTES, NULL, 0, NULL, 0, labels, COUNTED_BYTES, NULL, 0, none, 1, counts, COUNTED_WORDS - 1, totals, 1, NULL, 0, report, 5), 0);
    expect("a word too few", report[UNDRELVOA_REPORT_ENDING], UNDRELVOA_LENGTH);
    expect("labelled step", undrelvoa_labelled_step(little8, 5, list, 10, 0, NULL, 0, registers, COUNTED_BYTES, NULL, 0, NULL, 0, labels, COUNTED_BYTES, NULL, 0, none, 0, counts, COUNTED_WORDS, totals, 1, NULL, 0, report, 5), 0);
    expect("no total", report[UNDRELVOA_REPORT_ENDING], UNDRELVOA_LENGTH);
    expect("speculative run", undrelvoa_speculative_run(little8, 5, list, 10, 0, 9, 0, NULL, 0, registers, COUNTED_BYTES, NULL, 0, NULL, 0, labels, COUNTED_BYTES, NULL, 0, none, 1, counts, COUNTED_WORDS, totals, 0, NULL, 0, NULL, 0, report, 5), 0);
    expect("no total", report[UNDRELVOA_REPORT_ENDING], UNDRELVOA_LENGTH);
    labels[0] = 2;
    expect("count secrets", undrelvoa_count_secrets(NULL, 0, labels, COUNTED_BYTES, NULL, 0, none, 1, counts, COUNTED_WORDS - 1, totals, 1, report, 5), 0);
    expect("a word too few before a label of 2", report[UNDRELVOA_REPORT_ENDING], UNDRELVOA_LENGTH);
    expect("count secrets", undrelvoa_count_secrets(NULL, 0, labels, COUNTED_BYTES, NULL, 0, none, 1, counts, COUNTED_WORDS, totals, 1, report, 5), 0);
    expect("a label of 2", report[UNDRELVOA_REPORT_ENDING], UNDRELVOA_LABEL);
    expect("short report", undrelvoa_count_secrets(NULL, 0, labels, COUNTED_BYTES, NULL, 0, none, 1, counts, COUNTED_WORDS, totals, 1, report, 4), UNDRELVOA_ANSWER_LENGTH);
    expect_counts("after refusals", counts, 0, UINT64_MAX, UINT64_MAX);
}

static void shown(void) {
    uint8_t unique[4] = {0}, registers[4] = {0}, ram[4] = {0};
    uint64_t place[3] = {7, 7, 7};
    expect("show", undrelvoa_show(unique, 4, registers, 4, ram, 4, 3, 1, 3, place, 3), 0);
    expect("space", place[0], 3);
    expect("offset", place[1], 1);
    expect("bytes", place[2], 3);
    expect("show beyond the end", undrelvoa_show(unique, 4, registers, 4, ram, 4, 3, 2, 3, place, 3), 0);
    expect("no bytes", place[2], 0);
}

/* Known results: the worked example's operations in words, as a case of theirs has them in its lines. */
static void names(void) {
    expect("INT_AND head",
           UNDRELVOA_OPERATION_HEAD(UNDRELVOA_INT_AND, UNDRELVOA_DESCRIPTOR(UNDRELVOA_SPACE_UNIQUE, 4),
                                    UNDRELVOA_DESCRIPTOR(UNDRELVOA_SPACE_REGISTER, 4),
                                    UNDRELVOA_DESCRIPTOR(UNDRELVOA_SPACE_CONSTANT, 4), UNDRELVOA_ABSENT),
           0x1434241d);
    expect("STORE head",
           UNDRELVOA_OPERATION_HEAD(UNDRELVOA_STORE, UNDRELVOA_ABSENT,
                                    UNDRELVOA_DESCRIPTOR(UNDRELVOA_SPACE_CONSTANT, 1),
                                    UNDRELVOA_DESCRIPTOR(UNDRELVOA_SPACE_RAM, 8),
                                    UNDRELVOA_DESCRIPTOR(UNDRELVOA_SPACE_UNIQUE, 2)),
           0x2248110003);
    expect("log index", UNDRELVOA_LOG_INDEX(0x0000000100000005), 1);
    expect("what a log word shows", UNDRELVOA_LOG_SHOWN(0x0000000100000005), 5);
    expect("a word of the run", UNDRELVOA_LOG_AHEAD(0x0000000100000005), 0);
    expect("a word of a window", UNDRELVOA_LOG_AHEAD(0x8000000100000005), 1);
    expect("its log index", UNDRELVOA_LOG_INDEX(0x8000000100000005), 1);
    expect("what it shows", UNDRELVOA_LOG_SHOWN(0x8000000100000005), 5);
    expect("a size of 24", UNDRELVOA_DESCRIPTOR(UNDRELVOA_SPACE_REGISTER, 24), 255);
    expect("a space of 16", UNDRELVOA_DESCRIPTOR(16, 1), 255);
    expect("an opcode of 257", UNDRELVOA_OPERATION_HEAD(257, 0, 0, 0, 0), 255);
    expect("a descriptor of 256", UNDRELVOA_OPERATION_HEAD(1, 0, 256, 0, 0), 0x00ff0001);
    expect("version",
           (uint64_t)strcmp(UNDRELVOA_VERSION, VERSION_FILE) == 0
               && UNDRELVOA_VERSION_MAJOR == VERSION_MAJOR && UNDRELVOA_VERSION_MINOR == VERSION_MINOR
               && UNDRELVOA_VERSION_PATCH == VERSION_PATCH,
           1);
}

/* Every number of the header that is no opcode, as the reference has it. */
static void numbers(void) {
    static const struct {
        const char *name;
        uint64_t number, wanted;
    } all[] = {
        {"settings", UNDRELVOA_SETTINGS_ORDER * 10 + UNDRELVOA_SETTINGS_ADDRESS_SIZE, 1},
        {"wordsizes", UNDRELVOA_SETTINGS_UNIQUE_WORDSIZE * 100 + UNDRELVOA_SETTINGS_REGISTER_WORDSIZE * 10 + UNDRELVOA_SETTINGS_RAM_WORDSIZE, 234},
        {"words of settings", UNDRELVOA_SETTINGS_WORDS, 5},
        {"orders", UNDRELVOA_LITTLE * 10 + UNDRELVOA_BIG, 1},
        {"ending", UNDRELVOA_REPORT_ENDING, 0},
        {"index", UNDRELVOA_REPORT_INDEX, 1},
        {"executed", UNDRELVOA_REPORT_EXECUTED, 2},
        {"logged", UNDRELVOA_REPORT_LOGGED, 3},
        {"value", UNDRELVOA_REPORT_VALUE, 4},
        {"words of a report", UNDRELVOA_REPORT_WORDS, 5},
        {"place", UNDRELVOA_PLACE_SPACE * 1000 + UNDRELVOA_PLACE_OFFSET * 100 + UNDRELVOA_PLACE_BYTES * 10 + UNDRELVOA_PLACE_WORDS, 123},
        {"labels", UNDRELVOA_PUBLIC * 10 + UNDRELVOA_SECRET, 1},
        {"spaces", UNDRELVOA_SPACE_CONSTANT * 1000 + UNDRELVOA_SPACE_UNIQUE * 100 + UNDRELVOA_SPACE_REGISTER * 10 + UNDRELVOA_SPACE_RAM, 1234},
        {"done", UNDRELVOA_ANSWER_DONE, 0},
        {"setting", UNDRELVOA_ANSWER_SETTING, 10},
        {"length", UNDRELVOA_ANSWER_LENGTH, 11},
        {"head", UNDRELVOA_ANSWER_HEAD, 21},
        {"shape", UNDRELVOA_ANSWER_SHAPE, 22},
        {"range", UNDRELVOA_ANSWER_RANGE, 24},
        {"size", UNDRELVOA_ANSWER_SIZE, 25},
        {"zero", UNDRELVOA_ANSWER_ZERO, 33},
        {"operations", UNDRELVOA_MAX_OPERATIONS, 4096},
        {"bytes of a space", UNDRELVOA_MAX_SPACE_BYTES, 65536},
        {"bytes of a varnode", UNDRELVOA_MAX_SIZE, 8},
        {"budget", UNDRELVOA_MAX_BUDGET, 4294967295},
        {"operations of a window", UNDRELVOA_MAX_WINDOW, 64},
        {"words of a journal for each", UNDRELVOA_JOURNAL_WORDS_PER_OPERATION, 4},
        {"bytes of a block", UNDRELVOA_BLOCK_BYTES, 64},
        {"words to count 0 bytes", UNDRELVOA_COUNT_WORDS(0), 1},
        {"words to count 1 byte", UNDRELVOA_COUNT_WORDS(1), 2},
        {"words to count 64 bytes", UNDRELVOA_COUNT_WORDS(64), 2},
        {"words to count 65 bytes", UNDRELVOA_COUNT_WORDS(65), 3},
        {"words to count the longest space", UNDRELVOA_COUNT_WORDS(UNDRELVOA_MAX_SPACE_BYTES), 1025},
        {"words to count all bytes that there can be", UNDRELVOA_COUNT_WORDS(SIZE_MAX), SIZE_MAX / 64 + 2},
        {"mark of a window", UNDRELVOA_WINDOW_MARK, 0x8000000000000000},
        {"leak ahead", UNDRELVOA_LEAK_AHEAD, 35},
        {"words of an operation", UNDRELVOA_OPERATION_WORDS, 5},
        {"absent", UNDRELVOA_ABSENT, 0},
    };
    size_t i;
    for (i = 0; i < sizeof all / sizeof all[0]; i++) {
        expect(all[i].name, all[i].number, all[i].wanted);
    }
}

/* A number too many and a number too few of each limit. */
static void limits(void) {
    static uint64_t list[(UNDRELVOA_MAX_OPERATIONS + 1) * UNDRELVOA_OPERATION_WORDS];
    const uint64_t copy = UNDRELVOA_OPERATION_HEAD(UNDRELVOA_COPY, UNDRELVOA_DESCRIPTOR(UNDRELVOA_SPACE_RAM, UNDRELVOA_MAX_SIZE),
                                                   UNDRELVOA_DESCRIPTOR(UNDRELVOA_SPACE_RAM, UNDRELVOA_MAX_SIZE), 0, 0);
    uint64_t report[UNDRELVOA_REPORT_WORDS];
    size_t i, words = UNDRELVOA_MAX_OPERATIONS * UNDRELVOA_OPERATION_WORDS;
    for (i = 0; i <= UNDRELVOA_MAX_OPERATIONS; i++) {
        list[i * UNDRELVOA_OPERATION_WORDS] = copy;
    }
    expect("validate", undrelvoa_validate(little8, 5, 0, 0, UNDRELVOA_MAX_SPACE_BYTES, list, words, report, 5), 0);
    expect("all operations", report[UNDRELVOA_REPORT_ENDING], UNDRELVOA_END);
    expect("their number", report[UNDRELVOA_REPORT_INDEX], UNDRELVOA_MAX_OPERATIONS);
    undrelvoa_validate(little8, 5, 0, 0, UNDRELVOA_MAX_SPACE_BYTES, list, words + UNDRELVOA_OPERATION_WORDS, report, 5);
    expect("an operation too many", report[UNDRELVOA_REPORT_ENDING], UNDRELVOA_LENGTH);
    undrelvoa_validate(little8, 5, 0, 0, UNDRELVOA_MAX_SPACE_BYTES + 1, list, words, report, 5);
    expect("a byte too many", report[UNDRELVOA_REPORT_ENDING], UNDRELVOA_LENGTH);
    list[0] = copy + 1 + ((uint64_t)1 << 8);
    undrelvoa_validate(little8, 5, 0, 0, UNDRELVOA_MAX_SPACE_BYTES, list, words, report, 5);
    expect("a size too large", report[UNDRELVOA_REPORT_ENDING], UNDRELVOA_SHAPE);
}

/* Settings of 0 to 6 words: only five are taken, and a refused call changes nothing. */
static void settings(void) {
    const uint64_t words[6] = {UNDRELVOA_LITTLE, 8, 1, 1, 1, 1};
    uint64_t list[5] = {0, 0, 9, 0, 0};
    size_t n;
    list[0] = UNDRELVOA_OPERATION_HEAD(UNDRELVOA_COPY, UNDRELVOA_DESCRIPTOR(UNDRELVOA_SPACE_UNIQUE, 1),
                                       UNDRELVOA_DESCRIPTOR(UNDRELVOA_SPACE_CONSTANT, 1), 0, 0);
    for (n = 0; n <= 6; n++) {
        uint64_t wanted = n == UNDRELVOA_SETTINGS_WORDS ? UNDRELVOA_ANSWER_DONE : UNDRELVOA_ANSWER_LENGTH;
        int call;
        for (call = 0; call < 6; call++) {
            uint8_t unique[1] = {7}, labels[1] = {UNDRELVOA_SECRET};
            uint64_t counts[4] = {7, 7, 7, 7}, log[1] = {7}, journal[4] = {7, 7, 7, 7}, report[5] = {7, 7, 7, 7, 7}, answer;
            int taken = n == UNDRELVOA_SETTINGS_WORDS, runs = call > 0;
            switch (call) {
            case 0: answer = undrelvoa_validate(words, n, 1, 0, 0, list, 5, report, 5); break;
            case 1: answer = undrelvoa_run(words, n, list, 5, 0, 9, unique, 1, NULL, 0, NULL, 0, log, 1, report, 5); break;
            case 2: answer = undrelvoa_step(words, n, list, 5, 0, unique, 1, NULL, 0, NULL, 0, log, 1, report, 5); break;
            case 3: answer = undrelvoa_labelled_run(words, n, list, 5, 0, 9, unique, 1, NULL, 0, NULL, 0, labels, 1, NULL, 0, NULL, 0, counts, 2, counts + 2, 1, counts + 3, 1, log, 1, report, 5); break;
            case 4: answer = undrelvoa_labelled_step(words, n, list, 5, 0, unique, 1, NULL, 0, NULL, 0, labels, 1, NULL, 0, NULL, 0, counts, 2, counts + 2, 1, counts + 3, 1, log, 1, report, 5); break;
            default: answer = undrelvoa_speculative_run(words, n, list, 5, 0, 9, 1, unique, 1, NULL, 0, NULL, 0, labels, 1, NULL, 0, NULL, 0, counts, 2, counts + 2, 1, counts + 3, 1, log, 1, journal, 4, report, 5);
            }
            expect("settings of n words", answer, wanted);
            expect("the report then", report[UNDRELVOA_REPORT_ENDING], taken ? UNDRELVOA_END : 7);
            expect("the byte then", unique[0], taken && runs ? 9 : 7);
            expect("the label then", labels[0], taken && call > 2 ? UNDRELVOA_PUBLIC : UNDRELVOA_SECRET);
            expect("the count then", counts[0], taken && call > 2 ? 6 : 7);
            expect("the journal then", journal[3], taken && call == 5 ? 0 : 7);
        }
    }
    expect("no settings at all", undrelvoa_validate(NULL, 0, 1, 0, 0, list, 5, NULL, 0), UNDRELVOA_ANSWER_LENGTH);
}

/* Known results: ram of 12 bytes has four 24-bit words. The pointer 3 is the byte offset 9, the pointer 4 is BOUNDS. */
static void wordsizes(void) {
    const uint64_t unique_word = UNDRELVOA_DESCRIPTOR(UNDRELVOA_SPACE_UNIQUE, 3), byte = UNDRELVOA_DESCRIPTOR(UNDRELVOA_SPACE_CONSTANT, 1);
    uint64_t words[UNDRELVOA_SETTINGS_WORDS] = {UNDRELVOA_LITTLE, 1, 1, 1, 1};
    uint64_t list[5] = {0, 0, UNDRELVOA_SPACE_RAM, 3, 0};
    uint8_t unique[3] = {0}, ram[12] = {0}, of_unique[3] = {0}, of_ram[12] = {0};
    uint64_t counts[5] = {0}, log[1] = {8}, report[5] = {7, 7, 7, 7, 7};
    size_t i;
    words[UNDRELVOA_SETTINGS_RAM_WORDSIZE] = 3;
    list[0] = UNDRELVOA_OPERATION_HEAD(UNDRELVOA_LOAD, unique_word, byte, byte, UNDRELVOA_ABSENT);
    ram[9] = 0x12;
    ram[11] = 0x56;
    of_ram[10] = UNDRELVOA_SECRET;
    expect("run", undrelvoa_run(words, 5, list, 5, 0, 9, unique, 3, NULL, 0, ram, 12, log, 1, report, 5), 0);
    expect("the last word", report[UNDRELVOA_REPORT_ENDING], UNDRELVOA_END);
    expect("its byte offset", log[0], 9);
    expect("its first byte", unique[0], 0x12);
    expect("its last byte", unique[2], 0x56);
    expect("labelled run", undrelvoa_labelled_run(words, 5, list, 5, 0, 9, unique, 3, NULL, 0, ram, 12, of_unique, 3, NULL, 0, of_ram, 12, counts, 2, counts + 2, 1, counts + 3, 2, log, 1, report, 5), 0);
    expect("its first label", of_unique[0], UNDRELVOA_PUBLIC);
    expect("its second label", of_unique[1], UNDRELVOA_SECRET);
    expect("its last label", of_unique[2], UNDRELVOA_PUBLIC);
    list[0] = UNDRELVOA_OPERATION_HEAD(UNDRELVOA_STORE, UNDRELVOA_ABSENT, byte, byte, unique_word);
    list[3] = 1;
    expect("labelled step", undrelvoa_labelled_step(words, 5, list, 5, 0, unique, 3, NULL, 0, ram, 12, of_unique, 3, NULL, 0, of_ram, 12, counts, 2, counts + 2, 1, counts + 3, 2, log, 1, report, 5), 0);
    expect("the second word", log[0], 3);
    expect("its first byte", ram[3], 0x12);
    expect("its first label", of_ram[3], UNDRELVOA_PUBLIC);
    expect("its second label", of_ram[4], UNDRELVOA_SECRET);
    expect("its last label", of_ram[5], UNDRELVOA_PUBLIC);
    expect("the byte at the pointer", ram[1], 0);
    expect("the label at the pointer", of_ram[1], UNDRELVOA_PUBLIC);
    list[3] = 4;
    expect("step", undrelvoa_step(words, 5, list, 5, 0, unique, 3, NULL, 0, ram, 12, log, 1, report, 5), 0);
    expect("the word after the last", report[UNDRELVOA_REPORT_ENDING], UNDRELVOA_BOUNDS);
    for (i = UNDRELVOA_SETTINGS_UNIQUE_WORDSIZE; i <= UNDRELVOA_SETTINGS_RAM_WORDSIZE; i++) {
        const uint64_t before = words[i];
        words[i] = 9;
        expect("validate", undrelvoa_validate(words, 5, 3, 0, 12, list, 5, report, 5), 0);
        expect("a wordsize of 9", report[UNDRELVOA_REPORT_ENDING], UNDRELVOA_SETTING);
        words[i] = 0;
        expect("run", undrelvoa_run(words, 5, list, 5, 0, 9, unique, 3, NULL, 0, ram, 12, log, 1, report, 5), 0);
        expect("a wordsize of 0", report[UNDRELVOA_REPORT_ENDING], UNDRELVOA_SETTING);
        words[i] = before;
    }
}

/* Every buffer without elements may be NULL. */
static void empty(void) {
    uint64_t report[5] = {7, 7, 7, 7, 7}, place[3] = {7, 7, 7}, totals[3] = {7, 7, 7};
    expect("value", undrelvoa_value(UNDRELVOA_INT_ADD, 1, 1, 1, 1, 1, NULL, 0), UNDRELVOA_ANSWER_LENGTH);
    expect("gather", undrelvoa_gather(UNDRELVOA_LITTLE, NULL, 0, 0, 1, report, 1), UNDRELVOA_ANSWER_RANGE);
    expect("gather", undrelvoa_gather(UNDRELVOA_LITTLE, NULL, 0, 0, 1, NULL, 0), UNDRELVOA_ANSWER_LENGTH);
    expect("scatter", undrelvoa_scatter(UNDRELVOA_BIG, NULL, 0, 0, 1, 0), UNDRELVOA_ANSWER_RANGE);
    expect("validate", undrelvoa_validate(little8, 5, 0, 0, 0, NULL, 0, report, 5), 0);
    expect("an empty list", report[UNDRELVOA_REPORT_ENDING], UNDRELVOA_END);
    expect("run", undrelvoa_run(little8, 5, NULL, 0, 0, 9, NULL, 0, NULL, 0, NULL, 0, NULL, 0, report, 5), 0);
    expect("an empty run", report[UNDRELVOA_REPORT_ENDING], UNDRELVOA_END);
    expect("step", undrelvoa_step(little8, 5, NULL, 0, 1, NULL, 0, NULL, 0, NULL, 0, NULL, 0, report, 5), 0);
    expect("a step after the end", report[UNDRELVOA_REPORT_ENDING], UNDRELVOA_START);
    expect("labelled run", undrelvoa_labelled_run(little8, 5, NULL, 0, 0, 9, NULL, 0, NULL, 0, NULL, 0, NULL, 0, NULL, 0, NULL, 0, totals, 1, totals + 1, 1, totals + 2, 1, NULL, 0, report, 5), 0);
    expect("an empty run", report[UNDRELVOA_REPORT_ENDING], UNDRELVOA_END);
    expect("its totals", totals[0] + totals[1] + totals[2], 21);
    expect("labelled run", undrelvoa_labelled_run(little8, 5, NULL, 0, 0, 9, NULL, 0, NULL, 0, NULL, 0, NULL, 0, NULL, 0, NULL, 0, NULL, 0, NULL, 0, NULL, 0, NULL, 0, report, 5), 0);
    expect("a run without totals", report[UNDRELVOA_REPORT_ENDING], UNDRELVOA_LENGTH);
    expect("labelled step", undrelvoa_labelled_step(little8, 5, NULL, 0, 0, NULL, 0, NULL, 0, NULL, 0, NULL, 0, NULL, 0, NULL, 0, NULL, 0, NULL, 0, NULL, 0, NULL, 0, NULL, 0), UNDRELVOA_ANSWER_LENGTH);
    expect("speculative run", undrelvoa_speculative_run(little8, 5, NULL, 0, 0, 9, 0, NULL, 0, NULL, 0, NULL, 0, NULL, 0, NULL, 0, NULL, 0, totals, 1, totals + 1, 1, totals + 2, 1, NULL, 0, NULL, 0, report, 5), 0);
    expect("an empty run", report[UNDRELVOA_REPORT_ENDING], UNDRELVOA_END);
    expect("speculative run", undrelvoa_speculative_run(NULL, 0, NULL, 0, 0, 9, 1, NULL, 0, NULL, 0, NULL, 0, NULL, 0, NULL, 0, NULL, 0, NULL, 0, NULL, 0, NULL, 0, NULL, 0, NULL, 0, NULL, 0), UNDRELVOA_ANSWER_LENGTH);
    expect("count secrets", undrelvoa_count_secrets(NULL, 0, NULL, 0, NULL, 0, totals, 1, totals + 1, 1, totals + 2, 1, report, 5), 0);
    expect("no secret bytes", totals[0] + totals[1] + totals[2], 0);
    expect("count secrets", undrelvoa_count_secrets(NULL, 0, NULL, 0, NULL, 0, NULL, 0, NULL, 0, NULL, 0, report, 5), 0);
    expect("no room for a total", report[UNDRELVOA_REPORT_ENDING], UNDRELVOA_LENGTH);
    expect("count secrets", undrelvoa_count_secrets(NULL, 0, NULL, 0, NULL, 0, NULL, 0, NULL, 0, NULL, 0, NULL, 0), UNDRELVOA_ANSWER_LENGTH);
    expect("show", undrelvoa_show(NULL, 0, NULL, 0, NULL, 0, UNDRELVOA_SPACE_RAM, 0, 1, place, UNDRELVOA_PLACE_WORDS), 0);
    expect("nothing to show", place[UNDRELVOA_PLACE_SPACE] + place[UNDRELVOA_PLACE_OFFSET] + place[UNDRELVOA_PLACE_BYTES], 0);
    expect("show", undrelvoa_show(NULL, 0, NULL, 0, NULL, 0, UNDRELVOA_SPACE_RAM, 0, 1, NULL, 0), UNDRELVOA_ANSWER_LENGTH);
}

/* Counts a byte down from `from` in a loop, with the same list and settings as the other threads, and the smallest stack;
 * of three threads one without labels, one with labels, and one with a window of two operations. */
static uint64_t loop[10];

static void *count_down(void *from) {
    const uint8_t turns = *(uint8_t *)from;
    uint8_t registers[2] = {0}, labels[2] = {0};
    uint64_t counts[4] = {0, 0, 0, 0}, log[256], journal[8], report[5], ahead = 0;
    registers[0] = turns;
    switch (turns % 3) {
    case 0: undrelvoa_run(little8, 5, loop, 10, 0, 100000, NULL, 0, registers, 2, NULL, 0, log, 256, report, 5); break;
    case 1: undrelvoa_labelled_run(little8, 5, loop, 10, 0, 100000, NULL, 0, registers, 2, NULL, 0, NULL, 0, labels, 2, NULL, 0, counts, 1, counts + 1, 2, counts + 3, 1, log, 256, report, 5); break;
    default:
        undrelvoa_speculative_run(little8, 5, loop, 10, 0, 100000, 2, NULL, 0, registers, 2, NULL, 0, NULL, 0, labels, 2, NULL, 0, counts, 1, counts + 1, 2, counts + 3, 1, log, 256, journal, 8, report, 5);
        ahead = 1;
    }
    *(uint8_t *)from = report[UNDRELVOA_REPORT_ENDING] == UNDRELVOA_END && registers[0] == 0
                       && report[UNDRELVOA_REPORT_EXECUTED] == 2 * (uint64_t)turns
                       && report[UNDRELVOA_REPORT_LOGGED] == turns + ahead;
    return NULL;
}

/* Known results: n turns of two operations, each with one log word. The way not taken is the end, and of the last turn one
 * turn more: one marked word. */
static void threads(void) {
    enum { COUNT = 64 };
    static uint8_t from[COUNT];
    static pthread_t started[COUNT];
    pthread_attr_t small;
    int i, failures = 0;
    const uint64_t byte = UNDRELVOA_DESCRIPTOR(UNDRELVOA_SPACE_REGISTER, 1), one = UNDRELVOA_DESCRIPTOR(UNDRELVOA_SPACE_CONSTANT, 1);
    loop[0] = UNDRELVOA_OPERATION_HEAD(UNDRELVOA_INT_SUB, byte, byte, one, UNDRELVOA_ABSENT);
    loop[3] = 1;
    loop[5] = UNDRELVOA_OPERATION_HEAD(UNDRELVOA_CBRANCH, UNDRELVOA_ABSENT, one, byte, UNDRELVOA_ABSENT);
    loop[7] = UINT64_MAX;
    failures += pthread_attr_init(&small) != 0;
    failures += pthread_attr_setstacksize(&small, 16384) != 0;
    for (i = 0; i < COUNT; i++) {
        from[i] = (uint8_t)(i * 2 + 1);
        failures += pthread_create(&started[i], &small, count_down, &from[i]) != 0;
    }
    for (i = 0; i < COUNT; i++) {
        failures += pthread_join(started[i], NULL) != 0 || from[i] != 1;
    }
    expect("threads that share a list", (uint64_t)failures, 0);
}

int main(void) {
    names();
    numbers();
    values();
    bytes();
    verdicts();
    runs();
    labelled_runs();
    speculative_runs();
    windows();
    counts_of_secrets();
    shown();
    limits();
    settings();
    wordsizes();
    empty();
    threads();
    printf("%d passed, %d failed\n", passed, failed);
    return failed != 0;
}
