/*
 * Fuzz target over the byte call and the call over words. An input is two bytes of day length, two of memory length (low byte
 * first), one of the number of words of deposits, these words, the day file and the batch. Each input is called three times: in
 * bytes with memories at the border of inaccessible pages, so that a stray access of the library itself ends the run, with
 * exactly sized heap blocks under the sanitizer's eyes, and over words with the deposits, at the border again.
 *
 * Built with -DFUZZ_LOOP it has its own mutation loop and needs no libFuzzer: fuzz_report SECONDS SEED...
 */
#define _DEFAULT_SOURCE
#include "../host/mars.h"

#include <stdio.h>
#include <stdlib.h>
#include <string.h>
#include <sys/mman.h>
#include <time.h>
#include <unistd.h>

#define HEAD 5
#define SERIES_WORDS 15
#define ROOM (128 * 1024)
#define FILL(i) ((uint8_t)((i) * 31 + 7))
#define NUMBERS 52                /* refusal numbers from 0 to 51 */
#define KINDS (NUMBERS * 16 + 59) /* kinds of answer of a call: number and size of place, or lines */

int LLVMFuzzerTestOneInput(const uint8_t *data, size_t size);

#ifndef FUZZ_LOOP
/* The library has no coverage marks: answers by number and size of place, and line counts, guide the fuzzer instead. */
__attribute__((section("__libfuzzer_extra_counters"))) static uint8_t reached[2 * KINDS];
#else
static uint8_t reached[2 * KINDS];
#endif

/* Answers over the whole run, printed at its end; the fuzzer clears its own marks before each input. */
static uint64_t refusals[NUMBERS], reports[59], covered;

static void print_reached(void) {
    uint64_t answers = 0;
    for (int i = 0; i < 59; i++) answers += reports[i];
    for (int i = 0; i < NUMBERS; i++) answers += refusals[i];
    fprintf(stderr, "answers: %llu\nrefusals (number: answers):", (unsigned long long)answers);
    for (int i = 0; i < NUMBERS; i++)
        if (refusals[i]) fprintf(stderr, " %d: %llu", i, (unsigned long long)refusals[i]);
    fprintf(stderr, "\nreports (lines: answers):");
    for (int i = 0; i < 59; i++)
        if (reports[i]) fprintf(stderr, " %d: %llu", i, (unsigned long long)reports[i]);
    fprintf(stderr, "\nreports that deposits change: %llu\n", (unsigned long long)covered);
}

static void must(int holds, const char *what) {
    if (!holds) {
        fprintf(stderr, "VIOLATED: %s\n", what);
        abort();
    }
}

static uint8_t *fenced(void) {
    size_t page = (size_t)sysconf(_SC_PAGESIZE);
    uint8_t *start = mmap(NULL, ROOM + 2 * page, PROT_NONE, MAP_PRIVATE | MAP_ANONYMOUS, -1, 0);
    must(start != MAP_FAILED && mprotect(start + page, ROOM, PROT_READ | PROT_WRITE) == 0, "mmap");
    return start + page;
}

static uint8_t *block(const uint8_t *content, size_t length) {
    uint8_t *out = malloc(length ? length : 1);
    must(out != NULL, "malloc");
    if (length) memcpy(out, content, length);
    return out;
}

static int is_amount(const uint8_t *report, size_t at) {
    uint32_t top = mars_word(report, at);
    return top >> 29 == 5 && (top >> 5 & 0x7fffffu) == 0 && mars_word(report, at + 1) >> 29 == 6 &&
           mars_word(report, at + 2) >> 29 == 6 && !(top >> 28 & 1u && mars_amount_at(report, at) == 0);
}

static uint32_t ones(uint32_t map) {
    uint32_t n = 0;
    for (; map; map &= map - 1) n++;
    return n;
}

/* The form of a report, and totals that add up. */
static void check_report(const uint8_t *report, uint32_t words) {
    uint32_t count = mars_line_count(report);
    must(words == 13 + 19 * count && count <= 58, "length is 13 + 19 x lines");
    must(mars_word(report, 0) >> 29 == 1 && mars_word(report, 1) >> 29 == 4 && mars_word(report, 2) >> 29 == 4, "head");
    must(count == ones(mars_ordinary_groups(report)) + ones(mars_fail_groups(report)), "count is the ones of the maps");
    must(mars_word(report, words - 10) == 7u << 29, "totals' head");
    int64_t sums[2] = {0, 0};
    uint32_t before = 0;
    for (uint32_t i = 0; i < count; i++) {
        uint32_t key = mars_line_key(report, i), group = mars_line_group(report, i);
        int fail = mars_line_fail(report, i);
        must(mars_word(report, 3 + 19 * i) >> 29 == 2 && key < 64 && (i == 0 || key > before), "keys ascend");
        must((fail ? mars_fail_groups(report) : mars_ordinary_groups(report)) >> group & 1u, "line in its map");
        int64_t sum = 0;
        for (uint32_t k = 0; k < 6; k++) must(is_amount(report, 4 + 19 * i + 3 * k), "amount");
        for (int k = MARS_SPREAD; k <= MARS_REQUIREMENT; k++) sum += mars_line_amount(report, i, (enum mars_amount)k);
        must(mars_line_amount(report, i, MARS_MARGIN) == (sum > 0 ? sum : 0), "margin");
        must(mars_line_amount(report, i, MARS_RESIDUAL) == (sum < 0 ? -sum : 0), "residual");
        sums[fail] += mars_line_amount(report, i, MARS_MARGIN);
        before = key;
    }
    for (uint32_t k = 0; k < 3; k++) must(is_amount(report, words - 9 + 3 * k), "amount");
    must(mars_total(report, MARS_ORDINARY) == sums[0] && mars_total(report, MARS_FAIL) == sums[1], "totals");
    must(mars_total(report, MARS_ACCOUNT) == sums[0] + sums[1], "account total");
}

static void check_memory(uint64_t result, const uint8_t *memory, size_t length) {
    size_t written = 0;
    if (mars_number(result) == MARS_REPORT) {
        written = 4 * (size_t)mars_value(result);
        must(written <= length, "report fits");
        check_report(memory, mars_value(result));
    } else if (mars_number(result) == MARS_SHORT_REPORT) {
        must(mars_value(result) > length / 4 && mars_value(result) <= MARS_REPORT_BYTES / 4, "words needed");
    }
    for (size_t i = written; i < length; i++) must(memory[i] == FILL(i), "bytes past the report remain");
}

/* A refusal that names a word: one of a record; of a wrong kind, where the row says so, and else of the right one. */
static void check_word(uint64_t result, const uint8_t *batch, size_t length) {
    static const uint32_t kinds[] = {2, 4, 4, 5, 6, 6};
    uint32_t number = mars_number(result), at = mars_value(result);
    if (!mars_names_word(number)) return;
    must(at >= 1 && at < length / 4, "word of a record");
    must((mars_word(batch, at) >> 29 != kinds[mars_batch_field(at)]) == (number == MARS_BATCH_KIND), "kind");
}

/* Call 0 is the byte call, 1 the call over words. */
static void mark(int call, uint64_t result) {
    uint32_t number = mars_number(result), value = mars_value(result), size = 0;
    uint8_t *kinds = reached + call * KINDS;
    must(number < NUMBERS && (call == 1 || number <= MARS_SHORT_REPORT), "number");
    if (number == 0) {
        kinds[NUMBERS * 16 + (value - 13) / 19] = 1;
        reports[(value - 13) / 19]++;
    } else {
        for (; value >> size; size++) must(size < 15, "place");
        kinds[number * 16 + size] = 1;
        refusals[number]++;
    }
}

/* The call over words beside the byte call's result and memory: equal without deposits; with them they come behind row 30, and
 * neither the length nor any line of a fail changes. */
static void check_deposits(uint64_t result, const uint8_t *memory, uint64_t bytes_result, const uint8_t *bytes, size_t count) {
    uint32_t number = mars_number(result), before = mars_number(bytes_result);
    if (number == MARS_DEPOSIT || number == MARS_UNLIKE_MULTIPLIERS) {
        must(count > 0 && (before == MARS_REPORT || before == MARS_SHORT_REPORT), "deposits are tried between 30 and 40");
        must(mars_value(result) < (count + 1) / MARS_DEPOSIT_WORDS, "place of a deposit");
    } else {
        must(result == bytes_result, "result of the byte call");
    }
    must(count % MARS_DEPOSIT_WORDS == 0 || number != MARS_REPORT, "whole deposits");
    if (number != MARS_REPORT) return;
    size_t length = 4 * (size_t)mars_value(result);
    uint32_t lines = mars_line_count(memory), ordinary = ones(mars_ordinary_groups(memory));
    size_t fails = 4 * (3 + 19 * (size_t)ordinary);
    must(memcmp(memory, bytes, 4 * 3) == 0, "head of the byte call");
    must(memcmp(memory + fails, bytes + fails, 4 * 19 * (size_t)(lines - ordinary)) == 0, "fails of the byte call");
    must(mars_total(memory, MARS_FAIL) == mars_total(bytes, MARS_FAIL), "fail total of the byte call");
    int changed = memcmp(memory, bytes, length) != 0;
    must(count > 0 || !changed, "report of the byte call");
    covered += (uint64_t)changed;
}

/* Where an input's day file and batch begin, and the lengths: of deposits in words, of the files in bytes. */
struct parts {
    size_t deposits, day, day_length, batch, batch_length;
};

static struct parts parts_of(const uint8_t *data, size_t size) {
    struct parts p = {data[4], 0, (size_t)data[0] | (size_t)data[1] << 8, 0, 0};
    if (p.deposits > (size - HEAD) / 4) p.deposits = (size - HEAD) / 4;
    p.day = HEAD + 4 * p.deposits;
    if (p.day_length > size - p.day) p.day_length = size - p.day;
    p.batch = p.day + p.day_length;
    p.batch_length = size - p.batch;
    return p;
}

int LLVMFuzzerTestOneInput(const uint8_t *data, size_t size) {
    static uint8_t *pages[4];
    if (pages[0] == NULL) {
        for (int i = 0; i < 4; i++) pages[i] = fenced();
        must(atexit(print_reached) == 0, "atexit");
    }
    if (size < HEAD || size > ROOM) return 0;
    struct parts p = parts_of(data, size);
    size_t day_length = p.day_length, batch_length = p.batch_length, length = (size_t)data[2] | (size_t)data[3] << 8;
    const uint8_t *day = data + p.day, *batch = data + p.batch;

    /* at the start of the pages for odd memory lengths, else at their end */
    int at_start = (int)(length & 1);
    uint8_t *d = at_start ? pages[0] : pages[0] + ROOM - day_length;
    uint8_t *b = at_start ? pages[1] : pages[1] + ROOM - batch_length;
    uint8_t *r = at_start ? pages[2] : pages[2] + ROOM - length;
    memcpy(d, day, day_length);
    memcpy(b, batch, batch_length);
    for (size_t i = 0; i < length; i++) r[i] = FILL(i);
    uint64_t result = mars_report(d, day_length, b, batch_length, r, length);
    must(memcmp(d, day, day_length) == 0 && memcmp(b, batch, batch_length) == 0, "inputs remain");
    check_memory(result, r, length);
    check_word(result, b, batch_length);

    uint8_t *d2 = block(day, day_length), *b2 = block(batch, batch_length), *r2 = malloc(length ? length : 1);
    must(r2 != NULL, "malloc");
    for (size_t i = 0; i < length; i++) r2[i] = FILL(i);
    must(mars_report(d2, day_length, b2, batch_length, r2, length) == result, "same result");
    must(length == 0 || memcmp(r, r2, length) == 0, "same memory");
    mark(0, result);

    /* the whole words of each, for files that rows 1 and 2 pass */
    if (mars_number(result) > MARS_BATCH_BYTES_BAD || mars_number(result) == MARS_REPORT) {
        size_t room = length / 4;
        uint32_t *words[4];
        const uint8_t *from[3] = {day, batch, data + HEAD};
        const size_t counts[4] = {day_length / 4, batch_length / 4, p.deposits, room};
        for (int i = 0; i < 4; i++) words[i] = (uint32_t *)(at_start ? pages[i] : pages[i] + ROOM - 4 * counts[i]);
        for (int i = 0; i < 3; i++) memcpy(words[i], from[i], 4 * counts[i]);
        for (size_t i = 0; i < 4 * room; i++) ((uint8_t *)words[3])[i] = FILL(i);
        uint64_t over = mars_report_words(words[0], counts[0], words[1], counts[1], words[2], counts[2], words[3], room);
        for (int i = 0; i < 3; i++) must(memcmp(words[i], from[i], 4 * counts[i]) == 0, "inputs remain");
        check_memory(over, (const uint8_t *)words[3], 4 * room);
        check_deposits(over, (const uint8_t *)words[3], result, r2, p.deposits);
        mark(1, over);
    }
    free(d2);
    free(b2);
    free(r2);
    return 0;
}

/* Mutations that know the files' shape. */

static uint32_t next_random(uint64_t *state) {
    *state = *state * 6364136223846793005u + 1442695040888963407u;
    return (uint32_t)(*state >> 33);
}

static uint32_t get(const uint8_t *at) { return mars_word(at, 0); }

static void put(uint8_t *at, uint32_t w) {
    for (int i = 0; i < 4; i++) at[i] = (uint8_t)(w >> 8 * i);
}

/* The size is at least HEAD before and after each change. */
static size_t mutate(uint8_t *data, size_t size, size_t most, uint64_t seed) {
    static const uint32_t payloads[] = {0,        1,        2,         28,        29,        100,      101,
                                        255,      256,      257,       9999,      10000,     10001,    9999999,
                                        10000000, 10000001, 499999999, 500000000, 500000001, 536870911};
    uint64_t state = seed;
    if (size < HEAD + 8) return size;
    for (uint32_t n = 1 + next_random(&state) % 4; n > 0; n--) {
        struct parts p = parts_of(data, size);
        uint8_t *deposits = data + HEAD, *day = data + p.day, *batch = data + p.batch;
        size_t day_words = p.day_length / 4, batch_words = p.batch_length / 4;
        int in_day = next_random(&state) & 1;
        uint8_t *words = in_day ? day : batch;
        size_t count = in_day ? day_words : batch_words;
        if (count == 0) continue;
        uint8_t *at = words + 4 * (next_random(&state) % count);
        size_t classes = day_words ? get(day) & 127u : 0, records = batch_words / 6;
        size_t series_at = 1 + 20 * classes, series = day_words > series_at ? (day_words - series_at) / SERIES_WORDS : 0;
        switch (next_random(&state) % 13) {
        case 0: put(at, get(at) ^ 1u << next_random(&state) % 32); break;
        case 1:
        case 2: put(at, (get(at) & 7u << 29) | payloads[next_random(&state) % (sizeof payloads / sizeof *payloads)]); break;
        case 3: put(at, (get(at) & 7u << 29) | (next_random(&state) >> next_random(&state) % 29 & 0x1fffffffu)); break;
        case 4: put(at, (get(at) & 0x1fffffffu) | next_random(&state) << 29); break;
        case 5: /* a record over another */
            if (in_day && series > 1)
                memmove(day + 4 * (series_at + SERIES_WORDS * (next_random(&state) % series)),
                        day + 4 * (series_at + SERIES_WORDS * (next_random(&state) % series)), 4 * SERIES_WORDS);
            else if (!in_day && records > 1 && batch_words >= 1 + 6 * records)
                memmove(batch + 4 + 24 * (next_random(&state) % records), batch + 4 + 24 * (next_random(&state) % records), 24);
            break;
        case 6: /* a record's series, exercise and fail bits */
            if (records > 0 && batch_words >= 1 + 6 * records && series > 0)
                put(batch + 4 + 24 * (next_random(&state) % records),
                    2u << 29 | next_random(&state) % (uint32_t)series | (next_random(&state) & 0x300u));
            break;
        case 7: /* one record more or fewer, header and all */
            if (records > 0 && batch_words == 1 + 6 * records) { /* so the batch has 28 bytes or more */
                if (next_random(&state) & 1 && size + 24 <= most) {
                    memcpy(data + size, batch + 4 + 24 * (next_random(&state) % records), 24);
                    size += 24;
                    put(batch, 1u << 29 | (uint32_t)(records + 1));
                } else {
                    size -= 24;
                    put(batch, 1u << 29 | (uint32_t)(records - 1));
                }
            }
            break;
        case 8: { /* memory length */
            uint32_t length = next_random(&state) % 3 ? MARS_REPORT_BYTES : next_random(&state) % 4600;
            data[2] = (uint8_t)length;
            data[3] = (uint8_t)(length >> 8);
            break;
        }
        case 9: /* a deposit's class, that of a series where there is one, or its shares */
            if (p.deposits > 1) {
                uint8_t *one = deposits + 8 * (next_random(&state) % (p.deposits / 2));
                size_t from = series ? series_at + SERIES_WORDS * (next_random(&state) % series) : 0;
                if (next_random(&state) & 1)
                    put(one, series ? get(day + 4 * from) >> 23 & 63u : next_random(&state) % 70);
                else
                    put(one + 4, next_random(&state) >> next_random(&state) % 31);
            }
            break;
        case 10: /* one deposit more or fewer */
            if (next_random(&state) & 1 && p.deposits < 128 && size + 8 <= most) {
                memmove(deposits + 8, deposits, size - HEAD);
                put(deposits, next_random(&state) % 64);
                put(deposits + 4, next_random(&state) % 5000);
                size += 8;
                data[4] = (uint8_t)(p.deposits + 2);
            } else if (p.deposits > 1) {
                memmove(deposits, deposits + 8, size - HEAD - 8);
                size -= 8;
                data[4] = (uint8_t)(p.deposits - 2);
            }
            break;
        case 11: /* projected prices of a class: all at its underlying price, which is in order, or two neighbours exchanged */
            if (classes > 0 && day_words >= series_at) {
                uint8_t *one = day + 4 * (1 + 20 * (next_random(&state) % classes));
                uint8_t *price = one + 4 * (10 + next_random(&state) % 9);
                uint32_t w = get(price);
                if (next_random(&state) & 1) {
                    for (size_t i = 10; i < 20; i++) put(one + 4 * i, get(one + 4));
                } else {
                    put(price, get(price + 4));
                    put(price + 4, w);
                }
            }
            break;
        default: /* number of words of deposits, day length or the end of the batch */
            if (next_random(&state) % 8 == 0) data[4] ^= 1;
            if (next_random(&state) % 8 == 0) {
                data[0] = (uint8_t)(data[0] + next_random(&state) % 9 - 4);
            } else if (next_random(&state) % 8 == 0) {
                size_t cut = next_random(&state) % 8;
                size -= cut < size - HEAD ? cut : size - HEAD;
            }
        }
    }
    return size;
}

#ifndef FUZZ_LOOP

size_t LLVMFuzzerMutate(uint8_t *data, size_t size, size_t most);
size_t LLVMFuzzerCustomMutator(uint8_t *data, size_t size, size_t most, unsigned int seed);

size_t LLVMFuzzerCustomMutator(uint8_t *data, size_t size, size_t most, unsigned int seed) {
    if (seed % 8 == 0) return LLVMFuzzerMutate(data, size, most);
    return mutate(data, size, most, seed);
}

#else

int main(int argc, char **argv) {
    static uint8_t seeds[256][ROOM / 4], one[ROOM / 4];
    static size_t sizes[256];
    if (argc < 3) {
        fprintf(stderr, "usage: %s SECONDS SEED...\n", argv[0]);
        return 2;
    }
    uint32_t count = 0;
    for (int i = 2; i < argc && count < 256; i++) {
        FILE *file = fopen(argv[i], "rb");
        if (file == NULL) continue;
        sizes[count] = fread(seeds[count], 1, sizeof one - 64, file);
        count += sizes[count] > 0;
        fclose(file);
    }
    if (count == 0) return 2;
    uint64_t state = 1, runs = 0;
    time_t end = time(NULL) + atoi(argv[1]);
    while (time(NULL) < end) {
        for (int k = 0; k < 1000; k++, runs++) {
            uint32_t from = next_random(&state) % count;
            size_t size = sizes[from];
            memcpy(one, seeds[from], size);
            for (uint32_t n = next_random(&state) % 3; n > 0; n--) size = mutate(one, size, sizeof one, next_random(&state));
            LLVMFuzzerTestOneInput(one, size);
        }
    }
    uint32_t kinds = 0;
    for (size_t i = 0; i < sizeof reached; i++) kinds += reached[i];
    printf("%llu runs, %u kinds of answer, no violation\n", (unsigned long long)runs, kinds);
    return 0;
}

#endif
