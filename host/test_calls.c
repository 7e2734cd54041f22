/* Calls at the edges: unaligned and empty inputs, short memories, memories at the border of inaccessible pages, threads;
 * bad words of a batch by record and field; prices of a class in order and not; many accounts in one call; deposits; an expired
 * future; batches rewritten and records added; a day's worst moment; batches converted to cents and back; printed texts read
 * back. */
#define _DEFAULT_SOURCE
#include "mars.h"

#include <pthread.h>
#include <stdio.h>
#include <stdlib.h>
#include <string.h>
#include <sys/mman.h>
#include <unistd.h>

#define GUARD 64

static int failures;

static void check(int holds, const char *what, size_t at) {
    if (!holds) {
        printf("FAILED %s (%zu)\n", what, at);
        failures++;
    }
}

struct file {
    uint8_t *bytes;
    size_t length;
};

static struct file read_file(const char *folder, const char *name) {
    char path[512];
    snprintf(path, sizeof path, "%s/%s", folder, name);
    FILE *from = fopen(path, "rb");
    if (from == NULL) {
        perror(path);
        exit(2);
    }
    struct file f = {malloc(MARS_DAY_BYTES + 1), 0};
    if (f.bytes == NULL) exit(2);
    f.length = fread(f.bytes, 1, MARS_DAY_BYTES + 1, from);
    fclose(from);
    return f;
}

static struct file day, batch;
static uint8_t expected[MARS_REPORT_BYTES];
static uint64_t expected_result;

/* A block whose length is exactly that of the content, so that a sanitizer sees an access past it. */
static uint8_t *exact(const uint8_t *content, size_t length) {
    uint8_t *block = malloc(length ? length : 1);
    if (block == NULL) exit(2);
    if (length) memcpy(block, content, length);
    return block;
}

/* Inputs and memory at each of four alignments. */
static void unaligned(void) {
    uint8_t *a = malloc(day.length + 4), *b = malloc(batch.length + 4), *r = malloc(MARS_REPORT_BYTES + 4);
    if (a == NULL || b == NULL || r == NULL) exit(2);
    for (size_t shift = 0; shift < 64; shift++) {
        size_t i = shift & 3, j = shift >> 2 & 3, k = shift >> 4;
        memcpy(a + i, day.bytes, day.length);
        memcpy(b + j, batch.bytes, batch.length);
        memset(r, 0, MARS_REPORT_BYTES + 4);
        uint64_t result = mars_report(a + i, day.length, b + j, batch.length, r + k, MARS_REPORT_BYTES);
        check(result == expected_result, "unaligned: result", shift);
        check(memcmp(r + k, expected, 4 * (size_t)mars_value(expected_result)) == 0, "unaligned: report", shift);
    }
    free(a);
    free(b);
    free(r);
}

/* One call with guards around a memory of `room` bytes. The bytes that the call may not write must stay. */
static uint64_t guarded(const uint8_t *d, size_t d_len, const uint8_t *b, size_t b_len, size_t room, const char *what) {
    uint8_t *block = malloc(room + 2 * GUARD);
    if (block == NULL) exit(2);
    for (size_t i = 0; i < room + 2 * GUARD; i++) block[i] = (uint8_t)(i * 7 + 13);
    uint64_t result = mars_report(d, d_len, b, b_len, block + GUARD, room);
    size_t written = mars_number(result) == MARS_REPORT ? 4 * (size_t)mars_value(result) : 0;
    check(written <= room, what, room);
    for (size_t i = 0; i < room + 2 * GUARD; i++) {
        if (i >= GUARD && i < GUARD + written) continue;
        check(block[i] == (uint8_t)(i * 7 + 13), what, i);
    }
    free(block);
    return result;
}

static uint64_t refusal(uint32_t number, uint32_t place) { return (uint64_t)number << 32 | place; }

static void memories(void) {
    uint32_t needed = mars_value(expected_result);
    for (size_t room = 0; room <= 4 * (size_t)needed + 9; room++) {
        uint64_t result = guarded(day.bytes, day.length, batch.bytes, batch.length, room, "short memory");
        check(result == (room / 4 < needed ? refusal(MARS_SHORT_REPORT, needed) : expected_result), "short memory: result", room);
    }
}

static void inputs(void) {
    uint8_t nothing = 0;
    uint8_t *long_day = calloc(MARS_DAY_BYTES + 4, 1), *long_batch = calloc(MARS_BATCH_BYTES + 4, 1);
    if (long_day == NULL || long_batch == NULL) exit(2);
    size_t room = MARS_REPORT_BYTES;
    check(guarded(&nothing, 0, &nothing, 0, 0, "empty") == refusal(MARS_DAY_HEADER, 0), "empty: all", 0);
    check(guarded(&nothing, 0, batch.bytes, batch.length, room, "empty") == refusal(MARS_DAY_HEADER, 0), "empty: day", 0);
    check(guarded(day.bytes, day.length, &nothing, 0, room, "empty") == refusal(MARS_BATCH_HEADER, 0), "empty: batch", 0);
    check(guarded(long_day, MARS_DAY_BYTES + 4, batch.bytes, batch.length, room, "long") == refusal(MARS_DAY_BYTES_BAD, 0),
          "long: day", 0);
    check(guarded(day.bytes, day.length, long_batch, MARS_BATCH_BYTES + 4, room, "long") == refusal(MARS_BATCH_BYTES_BAD, 0),
          "long: batch", 0);
    check(guarded(long_day, MARS_DAY_BYTES, batch.bytes, batch.length, room, "longest") == refusal(MARS_DAY_HEADER, 0),
          "longest: day", 0);
    check(guarded(day.bytes, day.length, long_batch, MARS_BATCH_BYTES, room, "longest") == refusal(MARS_BATCH_HEADER, 0),
          "longest: batch", 0);
    for (size_t n = 0; n < day.length; n++) {
        uint8_t *cut = exact(day.bytes, n);
        uint32_t number = n % 4 ? MARS_DAY_BYTES_BAD : n ? MARS_DAY_LENGTH : MARS_DAY_HEADER;
        check(guarded(cut, n, batch.bytes, batch.length, room, "cut day") == refusal(number, 0), "cut day: result", n);
        free(cut);
    }
    for (size_t n = 0; n < batch.length; n++) {
        uint8_t *cut = exact(batch.bytes, n);
        uint32_t number = n % 4 ? MARS_BATCH_BYTES_BAD : n ? MARS_BATCH_LENGTH : MARS_BATCH_HEADER;
        check(guarded(day.bytes, day.length, cut, n, room, "cut batch") == refusal(number, 0), "cut batch: result", n);
        free(cut);
    }
    free(long_day);
    free(long_batch);
}

/* Pages with an inaccessible one on each side; a stray access ends the program. */
static uint8_t *fenced(size_t length) {
    size_t page = (size_t)sysconf(_SC_PAGESIZE);
    uint8_t *start = mmap(NULL, length + 2 * page, PROT_NONE, MAP_PRIVATE | MAP_ANONYMOUS, -1, 0);
    if (start == MAP_FAILED || mprotect(start + page, length, PROT_READ | PROT_WRITE) != 0) {
        perror("mmap");
        exit(2);
    }
    return start + page;
}

static void borders(void) {
    size_t page = (size_t)sysconf(_SC_PAGESIZE);
    size_t room = (MARS_DAY_BYTES / page + 1) * page;
    size_t words = 4 * (size_t)mars_value(expected_result);
    uint8_t *d = fenced(room), *b = fenced(room), *r = fenced(room);
    for (size_t at_end = 0; at_end < 2; at_end++) {
        uint8_t *d_at = at_end ? d + room - day.length : d;
        uint8_t *b_at = at_end ? b + room - batch.length : b;
        memcpy(d_at, day.bytes, day.length);
        memcpy(b_at, batch.bytes, batch.length);
        mprotect(d, room, PROT_READ);
        mprotect(b, room, PROT_READ);
        for (size_t length = 0; length <= words + 5; length++) {
            uint8_t *r_at = at_end ? r + room - length : r;
            uint64_t result = mars_report(d_at, day.length, b_at, batch.length, r_at, length);
            check((mars_number(result) == MARS_REPORT) == (length >= words), "border: result", length);
            if (length >= words) check(memcmp(r_at, expected, words) == 0, "border: report", length);
        }
        mprotect(d, room, PROT_READ | PROT_WRITE);
        mprotect(b, room, PROT_READ | PROT_WRITE);
    }
}

static void *many_calls(void *differences) {
    uint8_t own[MARS_REPORT_BYTES];
    for (int i = 0; i < 2000; i++) {
        memset(own, 0, sizeof own);
        uint64_t result = mars_report(day.bytes, day.length, batch.bytes, batch.length, own, sizeof own);
        if (result != expected_result || memcmp(own, expected, 4 * (size_t)mars_value(result)) != 0) ++*(int *)differences;
    }
    return NULL;
}

/* Shared inputs, a memory for each thread. */
static void threads(void) {
    pthread_t thread[4];
    int differences[4] = {0, 0, 0, 0};
    for (int i = 0; i < 4; i++)
        if (pthread_create(&thread[i], NULL, many_calls, &differences[i]) != 0) exit(2);
    for (int i = 0; i < 4; i++) {
        pthread_join(thread[i], NULL);
        check(differences[i] == 0, "threads", (size_t)i);
    }
}

static void accessors(void) {
    check(mars_line_count(expected) == 2, "line count", 0);
    check(mars_ordinary_groups(expected) == 1u << 3 && mars_fail_groups(expected) == 1u << 3, "groups", 0);
    check(mars_line_key(expected, 0) == 3 && mars_line_key(expected, 1) == (3 | 1 << 5), "keys", 0);
    check(mars_line_group(expected, 1) == 3 && !mars_line_fail(expected, 0) && mars_line_fail(expected, 1), "books", 0);
    check(mars_line_amount(expected, 0, MARS_SPREAD) == 0, "spread", 0);
    check(mars_line_amount(expected, 0, MARS_MTM) == -2000000, "MTM", 0);
    check(mars_line_amount(expected, 1, MARS_MTM) == 1200000, "MTM", 1);
    check(mars_line_amount(expected, 0, MARS_PREMIUM) == 0, "premium", 0);
    check(mars_line_amount(expected, 0, MARS_REQUIREMENT) == 12500000, "requirement", 0);
    check(mars_line_amount(expected, 0, MARS_MARGIN) == 10500000, "margin", 0);
    check(mars_line_amount(expected, 0, MARS_RESIDUAL) == 0, "residual", 0);
    check(mars_total(expected, MARS_ORDINARY) == 10500000, "total", 0);
    check(mars_total(expected, MARS_FAIL) == 6200000, "total", 1);
    check(mars_total(expected, MARS_ACCOUNT) == 16700000, "total", 2);
}

/* ---- many accounts */

#define MOST_WORDS (65 * (MARS_REPORT_BYTES / 4))

/* The words of a file of bytes. */
static uint32_t *words_of(struct file f) {
    uint32_t *words = malloc(f.length + 4);
    if (words == NULL) exit(2);
    for (size_t i = 0; i < f.length / 4; i++) words[i] = mars_word(f.bytes, i);
    return words;
}

struct account {
    const uint32_t *batch;
    size_t length;
};

/* One call on blocks of exactly these lengths, held to byte calls made in turn, each with the memory still left. */
static uint64_t in_turn(const struct account *accounts, size_t count, size_t entries, size_t room, const char *what) {
    static uint8_t expected_memory[4 * MOST_WORDS];
    uint32_t *d = words_of(day);
    size_t total = 0, at = 0, from = 0;
    for (size_t i = 0; i < count; i++) total += accounts[i].length;
    uint32_t *batches = malloc(4 * total + 4), *lengths = malloc(4 * count + 4), *results = malloc(4 * entries + 4);
    uint32_t *report = malloc(4 * room + 4);
    if (batches == NULL || lengths == NULL || results == NULL || report == NULL) exit(2);
    for (size_t i = 0; i < count; i++) {
        memcpy(batches + from, accounts[i].batch, 4 * accounts[i].length);
        from += accounts[i].length;
        lengths[i] = (uint32_t)accounts[i].length;
    }
    for (size_t i = 0; i < entries; i++) results[i] = 9;
    for (size_t i = 0; i < room; i++) report[i] = (uint32_t)i * 7 + 13;
    memcpy(expected_memory, report, 4 * room);
    uint64_t result =
        mars_reports(d, day.length / 4, batches, total, lengths, count, results, entries, report, room);
    uint32_t number = count > MARS_MOST_ACCOUNTS ? MARS_ACCOUNT_LENGTHS : entries < 2 * count ? MARS_SHORT_RESULTS : MARS_REPORT;
    for (size_t i = 0; number == MARS_REPORT && i < count; i++) {
        uint64_t single = mars_report(day.bytes, day.length, (const uint8_t *)accounts[i].batch, 4 * accounts[i].length,
                                      expected_memory + 4 * at, 4 * (room - at));
        check(results[2 * i] == mars_number(single) && results[2 * i + 1] == mars_value(single), what, i);
        if (mars_number(single) == MARS_REPORT) at += mars_value(single);
    }
    check(result == refusal(number, (uint32_t)at), what, count);
    check(memcmp(report, expected_memory, 4 * room) == 0, what, room);
    for (size_t i = number == MARS_REPORT ? 2 * count : 0; i < entries; i++) check(results[i] == 9, what, i);
    free(d);
    free(batches);
    free(lengths);
    free(results);
    free(report);
    return result;
}

static void accounts(void) {
    static const uint32_t empty[] = {1u << 29}, wrong[] = {2u << 29};
    struct account own = {words_of(batch), batch.length / 4}, none = {empty, 1}, bad = {wrong, 1}, nothing = {empty, 0};
    size_t long_report = mars_value(expected_result);
    struct account many[65];
    for (size_t i = 0; i < 65; i++) many[i] = i % 3 == 1 ? bad : i % 3 == 2 ? none : own;
    static const size_t counts[] = {0, 1, 60, 64, 65};
    for (size_t i = 0; i < sizeof counts / sizeof counts[0]; i++) {
        in_turn(many, counts[i], 2 * counts[i], MOST_WORDS, "accounts: enough memory");
        in_turn(many, counts[i], 2 * counts[i] + 5, MOST_WORDS, "accounts: results past the accounts");
        in_turn(many, counts[i], 2 * counts[i], 10 * long_report, "accounts: memory runs out");
        in_turn(many, counts[i], 2 * counts[i], 0, "accounts: no memory");
        if (counts[i] > 0) in_turn(many, counts[i], 2 * counts[i] - 1, MOST_WORDS, "accounts: short results");
    }
    struct account three[3] = {own, none, own};
    for (size_t room = 0; room <= 2 * long_report + 15; room++) in_turn(three, 3, 6, room, "accounts: every memory");
    struct account refused[3] = {none, bad, nothing};
    check(in_turn(refused, 3, 6, 30, "accounts: refused ones") == 13, "accounts: refused ones", 0);
    /* lengths that add up only where the sum wraps */
    uint32_t wraps[2] = {UINT32_MAX, 2}, results[4] = {9, 9, 9, 9}, report[1] = {9};
    check(mars_reports(empty, 1, empty, 1, wraps, 2, results, 4, report, 1) == refusal(MARS_ACCOUNT_LENGTHS, 0), "accounts: sum", 0);
    wraps[0] = wraps[1] = 1u << 31;
    check(mars_reports(empty, 1, empty, 0, wraps, 2, results, 4, report, 1) == refusal(MARS_ACCOUNT_LENGTHS, 0), "accounts: sum", 1);
    check(results[0] == 9 && results[3] == 9 && report[0] == 9, "accounts: sum", 2);
    /* a refused day file is told for each account; no accounts are accepted with any day file */
    uint32_t one[2] = {1, 0};
    check(mars_reports(empty, 0, empty, 1, one, 2, results, 4, report, 1) == 0, "accounts: no day file", 0);
    check(results[0] == MARS_DAY_HEADER && results[1] == 0 && results[2] == MARS_DAY_HEADER && results[3] == 0, "accounts: no day file", 1);
    check(mars_reports(empty, 0, empty, 0, one, 0, results, 0, report, 0) == 0, "accounts: nothing", 0);
    free((void *)own.batch);
}

/* ---- calls that read three runs of words and write one */

struct words {
    uint32_t *at;
    size_t length;
};

typedef uint64_t words_call(const uint32_t *, size_t, const uint32_t *, size_t, const uint32_t *, size_t, uint32_t *, size_t);

/* The end of such pages: of the three inputs, and of a memory to write. */
static uint8_t *end_of_pages(int which, int protection) {
    static uint8_t *pages[4];
    size_t length = 32 * (size_t)sysconf(_SC_PAGESIZE);
    if (pages[which] == NULL) pages[which] = fenced(length);
    mprotect(pages[which], length, protection);
    return pages[which] + length;
}

/* The words as the input `which`, at the end of its pages, read-only. */
static const uint32_t *lend(int which, struct words given) {
    uint32_t *at = (uint32_t *)end_of_pages(which, PROT_READ | PROT_WRITE) - given.length;
    memcpy(at, given.at, 4 * given.length);
    end_of_pages(which, PROT_READ);
    return at;
}

/* One call with each memory at the end of its pages, the inputs read-only. What is written is left in `out`; words that the call may not
 * write must stay. */
static uint64_t over_words(words_call *call, struct words d, struct words b, struct words more, uint32_t *out, size_t room,
                           const char *what) {
    uint32_t *memory = (uint32_t *)end_of_pages(3, PROT_READ | PROT_WRITE) - room, *from = memory - GUARD;
    for (size_t i = 0; i < GUARD + room; i++) from[i] = (uint32_t)i * 7 + 13;
    uint64_t result = call(lend(0, d), d.length, lend(1, b), b.length, lend(2, more), more.length, memory, room);
    size_t written = mars_number(result) == MARS_REPORT ? mars_value(result) : 0;
    check(written <= room, what, room);
    for (size_t i = 0; i < GUARD + room; i++)
        if (i < GUARD || i >= GUARD + written) check(from[i] == (uint32_t)i * 7 + 13, what, i);
    memcpy(out, memory, 4 * written);
    return result;
}

/* ---- deposits */

static uint64_t deposited(struct words d, struct words b, struct words deposits, uint32_t *report, size_t room, const char *what) {
    return over_words(mars_report_words, d, b, deposits, report, room, what);
}

/* M1's futures, at multiplier 5: March 15 and December 13 short, June 14 and September 19 long. */
static void deposits(const char *folder) {
    static uint32_t report[MARS_REPORT_BYTES / 4];
    static uint8_t bytes[MARS_REPORT_BYTES];
    const uint8_t *read = (const uint8_t *)report;
    struct file day_file = read_file(folder, "day.w32"), batch_file = read_file(folder, "pos.w32");
    struct words d = {words_of(day_file), day_file.length / 4}, b = {words_of(batch_file), batch_file.length / 4};
    uint32_t list[4] = {0, 0, 0, 0};
    struct words none = {list, 0}, half = {list, 1}, one = {list, MARS_DEPOSIT_WORDS};

    for (size_t room = 0; room <= 40; room++) {
        uint64_t result = deposited(d, b, none, report, room, "no deposits");
        check(result == mars_report(day_file.bytes, day_file.length, batch_file.bytes, batch_file.length, bytes, 4 * room),
              "no deposits: result", room);
        check(result == (room < 32 ? refusal(MARS_SHORT_REPORT, 32) : 32), "no deposits: number", room);
        if (room >= 32) check(memcmp(report, bytes, 4 * 32) == 0, "no deposits: report", room);
    }
    check(deposited(d, none, half, report, 32, "no batch") == refusal(MARS_BATCH_HEADER, 0), "no batch: result", 0);
    check(deposited(none, b, half, report, 32, "no day file") == refusal(MARS_DAY_HEADER, 0), "no day file: result", 0);

    /* shares, and the spread margin in euro: 0, 15, 15, 16, 28 and 28 contracts are covered */
    static const uint32_t covers[][2] = {{4, 12700}, {75, 6500}, {79, 6500}, {80, 6000}, {140, 0}, {MARS_MOST_SHARES, 0}};
    for (size_t i = 0; i < sizeof covers / sizeof covers[0]; i++) {
        list[1] = covers[i][0];
        for (size_t room = 0; room < 32; room++)
            check(deposited(d, b, one, report, room, "cover") == refusal(MARS_SHORT_REPORT, 32), "cover: room", room);
        check(deposited(d, b, one, report, 40, "cover") == 32, "cover: result", i);
        check(mars_line_count(read) == 1 && mars_line_group(read, 0) == 1 && !mars_line_fail(read, 0), "cover: line", i);
        check(mars_line_amount(read, 0, MARS_SPREAD) == 10000 * (int64_t)covers[i][1], "cover: spread", i);
        check(mars_total(read, MARS_ACCOUNT) == mars_line_amount(read, 0, MARS_MARGIN), "cover: total", i);
    }

    /* lists that row 50 refuses, and its place: with and without memory, and with a class of unlike multipliers too */
    static const struct {
        size_t count;
        uint32_t words[4], place;
    } bad[] = {
        {1, {0}, 0},         {3, {0, 75, 0}, 0},    {3, {9, 75, 0}, 0},     {4, {9, 75, 0, 75}, 0},
        {4, {0, 75, 0, 5}, 1}, {4, {0, 75, 1, 5}, 1}, {2, {1u << 31, 75}, 0}, {2, {0, MARS_MOST_SHARES + 1}, 0},
    };
    for (int unlike = 0; unlike < 2; unlike++) {
        d.at[21 + 15 * 3 + 1] += (uint32_t)unlike; /* the last future's multiplier */
        for (size_t i = 0; i < sizeof bad / sizeof bad[0]; i++) {
            memcpy(list, bad[i].words, sizeof list);
            struct words words = {list, bad[i].count};
            for (size_t room = 0; room <= 32; room += 32)
                check(deposited(d, b, words, report, room, "50") == refusal(MARS_DEPOSIT, bad[i].place), "50: result", i);
        }
    }
    list[0] = list[1] = 0;
    for (size_t room = 0; room <= 32; room += 32)
        check(deposited(d, b, one, report, room, "51") == refusal(MARS_UNLIKE_MULTIPLIERS, 0), "51: result", room);
    check(deposited(d, b, none, report, 32, "51") == 32, "51: no class named", 0);
    free(d.at);
    free(b.at);
    free(day_file.bytes);
    free(batch_file.bytes);
}

/* Ten expired futures sold, at multiplier 100: each has an MTM of 50 euro and adds another 50 at upside 5. */
static void expired_future(const char *folder) {
    static uint32_t report[MARS_REPORT_BYTES / 4];
    const uint8_t *read = (const uint8_t *)report;
    struct file day_file = read_file(folder, "day.w32"), batch_file = read_file(folder, "pos.w32");
    struct words d = {words_of(day_file), day_file.length / 4}, b = {words_of(batch_file), batch_file.length / 4};
    uint32_t list[MARS_DEPOSIT_WORDS] = {0, 0};
    struct words one = {list, MARS_DEPOSIT_WORDS};

    /* shares, and the margin in euro: 0, 0, 4, 9 and 10 contracts are covered */
    static const uint32_t covers[][2] = {{0, 1000}, {99, 1000}, {450, 600}, {999, 100}, {1000, 0}};
    for (size_t i = 0; i < sizeof covers / sizeof covers[0]; i++) {
        int64_t margin = 10000 * (int64_t)covers[i][1];
        list[1] = covers[i][0];
        check(deposited(d, b, one, report, 32, "expired") == 32, "expired: result", i);
        check(mars_line_amount(read, 0, MARS_MTM) == margin / 2, "expired: MTM", i);
        check(mars_line_amount(read, 0, MARS_REQUIREMENT) == margin / 2, "expired: requirement", i);
        check(mars_total(read, MARS_ACCOUNT) == margin, "expired: margin", i);
    }

    /* a serial, types 7 and 9, an adjustment; a record that is exercised, a fail, has a DVP amount */
    static const struct {
        int in_batch;
        size_t at;
        uint32_t bits, number;
    } bad[] = {
        {0, 21, 1, MARS_SERIES_TYPE},
        {0, 21, (8u ^ 7u) << 19, MARS_SERIES_TYPE},
        {0, 21, (8u ^ 9u) << 19, MARS_SERIES_TYPE},
        {0, 21 + 4, 1, MARS_SERIES_TYPE},
        {1, 1 + MARS_KEY, 1u << 8, MARS_POSITION_EXERCISE},
        {1, 1 + MARS_KEY, 1u << 9, MARS_POSITION_FAIL},
        {1, 1 + MARS_DVP_LOW, 1, MARS_POSITION_DVP},
    };
    for (size_t i = 0; i < sizeof bad / sizeof bad[0]; i++) {
        uint32_t *word = (bad[i].in_batch ? b : d).at + bad[i].at;
        *word ^= bad[i].bits;
        check(deposited(d, b, one, report, 32, "expired: refused") == refusal(bad[i].number, 0), "expired: refused", i);
        *word ^= bad[i].bits;
    }
    free(d.at);
    free(b.at);
    free(day_file.bytes);
    free(batch_file.bytes);
}

/* ---- batches rewritten, records added */

#define LONGEST_BATCH (MARS_BATCH_BYTES / 4)
#define MOST_DVP 5000000000000000
#define EXERCISED (1u << 8)
#define FAIL (1u << 9)

/* With no record. */
static uint64_t rewrite(const uint32_t *d, size_t d_len, const uint32_t *b, size_t b_len, const uint32_t *record, size_t record_len,
                        uint32_t *out, size_t out_len) {
    (void)record;
    (void)record_len;
    return mars_rewrite(d, d_len, b, b_len, out, out_len);
}

/* Two classes of 128 shares, all prices 0. */
static struct words shares(void) {
    static uint32_t at[1 + 20 * 2 + 15 * 256];
    uint32_t *w = at;
    *w++ = 1u << 29 | 2u | 256u << 7;
    for (uint32_t c = 0; c < 2; c++, w += 20) {
        for (size_t i = 1; i < 20; i++) w[i] = (i == 9 ? 4u : 3u) << 29;
        w[0] = 2u << 29 | c << 5;
    }
    for (uint32_t s = 0; s < 256; s++, w += 15) {
        for (size_t i = 2; i < 15; i++) w[i] = 3u << 29;
        w[0] = 2u << 29 | s % 128 | 4u << 19 | s / 128 << 23;
        w[1] = 4u << 29 | 1u;
    }
    return (struct words){at, sizeof at / 4};
}

/* A record's words. */
static struct words record(uint32_t key, uint32_t bought, uint32_t sold, int64_t dvp) {
    static uint32_t at[MARS_RECORD_WORDS];
    uint64_t size = dvp < 0 ? 0 - (uint64_t)dvp : (uint64_t)dvp;
    at[MARS_KEY] = 2u << 29 | key;
    at[MARS_LONG] = 4u << 29 | bought;
    at[MARS_SHORT] = 4u << 29 | sold;
    at[MARS_DVP_HIGH] = 5u << 29 | (uint32_t)(dvp < 0) << 28 | (uint32_t)(size >> 58);
    at[MARS_DVP_MIDDLE] = 6u << 29 | (uint32_t)(size >> 29 & 0x1fffffffu);
    at[MARS_DVP_LOW] = 6u << 29 | (uint32_t)(size & 0x1fffffffu);
    return (struct words){at, MARS_RECORD_WORDS};
}

/* The record as the last of the batch, whose memory has space for it. */
static void append(struct words *b, struct words record) {
    memcpy(b->at + b->length, record.at, 4 * record.length);
    b->length += record.length;
    b->at[0] = 1u << 29 | (uint32_t)(b->length / MARS_RECORD_WORDS);
}

/* The call must write these words wherever they fit. */
static void gives(words_call *call, struct words b, struct words more, struct words expected, const char *what) {
    static uint32_t out[LONGEST_BATCH + 10];
    for (size_t room = 0; room < expected.length + 10; room++) {
        uint64_t result = over_words(call, shares(), b, more, out, room, what);
        int fits = room >= expected.length;
        check(result == (fits ? expected.length : refusal(MARS_SHORT_REPORT, (uint32_t)expected.length)), what, room);
        if (fits) check(memcmp(out, expected.at, 4 * expected.length) == 0, what, room);
    }
}

/* The call must be refused so, with and without memory. */
static void refuses(words_call *call, struct words b, struct words more, uint32_t number, uint32_t place, const char *what) {
    static uint32_t out[LONGEST_BATCH];
    for (size_t room = 0; room <= LONGEST_BATCH; room += LONGEST_BATCH)
        check(over_words(call, shares(), b, more, out, room, what) == refusal(number, place), what, room);
}

static void rewritings(void) {
    static uint32_t of_traded[LONGEST_BATCH], of_held[LONGEST_BATCH], of_more[LONGEST_BATCH];
    struct words none = {of_traded, 0}, traded = {of_traded, 1}, held = {of_held, 1}, more = {of_more, 1};
    of_traded[0] = of_held[0] = of_more[0] = 1u << 29;
    gives(rewrite, traded, none, held, "rewrite: no records");
    refuses(rewrite, none, none, MARS_BATCH_HEADER, 0, "rewrite: no batch");
    refuses(mars_add_record, none, none, MARS_BATCH_HEADER, 0, "add: no batch");
    refuses(mars_add_record, traded, none, MARS_BATCH_LENGTH, 0, "add: no record");

    append(&traded, record(9, 7, 0, 0));
    append(&traded, record(5 | FAIL, 0, 2, 0));
    append(&traded, record(9, 0, 7, -10));
    append(&traded, record(3, 4, 4, 0));
    append(&traded, record(5, 8, 1, 3));
    append(&held, record(5, 7, 0, 3));
    append(&held, record(5 | FAIL, 0, 2, 0));
    append(&held, record(9, 0, 0, -10));
    gives(rewrite, traded, none, held, "rewrite: five records become three");
    gives(rewrite, held, none, held, "rewrite: twice");
    append(&more, record(5, 7, 0, 3));
    append(&more, record(5 | FAIL, 0, 2, 0));
    append(&more, record(8, 0, 1, 0));
    append(&more, record(9, 0, 0, -10));
    gives(mars_add_record, traded, record(8, 0, 1, 0), more, "add: another position");
    gives(mars_add_record, held, record(8, 0, 1, 0), more, "add: to the rewriting");
    more.length = 1 + MARS_RECORD_WORDS;
    append(&more, record(5 | FAIL, 0, 2, 0));
    gives(mars_add_record, traded, record(9, 0, 0, 10), more, "add: a position that is gone");
    /* the record may stand in the batch */
    static uint32_t from_copy[LONGEST_BATCH], from_batch[LONGEST_BATCH];
    struct words own = {traded.at + traded.length - MARS_RECORD_WORDS, MARS_RECORD_WORDS};
    uint64_t result = over_words(mars_add_record, shares(), traded, own, from_copy, LONGEST_BATCH, "add: a copy");
    check(result == held.length, "add: a copy", 0);
    check(mars_add_record(shares().at, shares().length, traded.at, traded.length, own.at, own.length, from_batch, LONGEST_BATCH) == result,
          "add: the batch's own record", 0);
    check(memcmp(from_copy, from_batch, 4 * (size_t)mars_value(result)) == 0, "add: the batch's own record", 1);

    /* a record of the wrong length; one that is refused, by its place behind the five */
    for (size_t length = 0; length <= 2 * MARS_RECORD_WORDS; length++) {
        uint32_t twice[2 * MARS_RECORD_WORDS];
        memcpy(twice, record(8, 0, 1, 0).at, sizeof twice / 2);
        memcpy(twice + MARS_RECORD_WORDS, twice, sizeof twice / 2);
        if (length != MARS_RECORD_WORDS)
            refuses(mars_add_record, traded, (struct words){twice, length}, MARS_BATCH_LENGTH, 0, "add: length");
    }
    refuses(mars_add_record, traded, record(8, 0, 10000001, 0), MARS_BATCH_RANGE, 1 + 6 * 5 + MARS_SHORT, "add: a word");
    refuses(mars_add_record, traded, record(8 | EXERCISED, 1, 0, 0), MARS_POSITION_EXERCISE, 5, "add: a record");
    refuses(mars_add_record, traded, record(5 | FAIL, 0, 10000000, 0), MARS_NET_LIMIT, 1, "add: row 30");

    /* a DVP sum at the limit and above it, of a position whose net is 0 */
    append(&traded, record(9, 1, 1, -MOST_DVP + 10));
    held.length -= MARS_RECORD_WORDS;
    append(&held, record(9, 0, 0, -MOST_DVP));
    gives(rewrite, traded, none, held, "rewrite: at row 31's limit");
    refuses(mars_add_record, traded, record(9, 0, 0, -1), MARS_DVP_LIMIT, 0, "add: row 31");
    append(&traded, record(9, 0, 0, -1));
    refuses(rewrite, traded, none, MARS_DVP_LIMIT, 0, "rewrite: row 31");

    /* 256 shares bought, and the figures of an addition to them */
    traded.length = 1;
    for (uint32_t s = 0; s < 256; s++) append(&traded, record(s, 1, 0, 0));
    gives(rewrite, traded, none, traded, "rewrite: 256 positions");
    refuses(mars_add_record, traded, record(3 | FAIL, 1, 0, 0), MARS_NO_SPACE, 0, "add: row 32");
    gives(mars_add_record, traded, record(3 | FAIL, 1, 1, 0), traded, "add: nothing to 256 positions");
    refuses(mars_add_record, traded, record(3, 10000001, 0, 0), MARS_BATCH_RANGE, 1538, "add: a word to 256 records");
    refuses(mars_add_record, traded, record(3 | EXERCISED, 1, 0, 0), MARS_POSITION_EXERCISE, 256, "add: a record to 256");
    held.length = 1;
    for (uint32_t s = 0; s < 256; s++)
        if (s != 3) append(&held, record(s, 1, 0, 0));
    gives(mars_add_record, traded, record(3, 0, 1, 0), held, "add: one of 256 positions gone");
    of_traded[0]++;
    refuses(mars_add_record, traded, record(3, 1, 0, 0), MARS_BATCH_HEADER, 0, "add: a header of 257 records");
}

/* ---- a day's worst moment */

struct moment {
    int64_t margin;
    uint32_t step, applied, left_out;
};

/* One call with each input at the end of its pages, read-only, and each of the four numbers between two others, which must stay. */
static uint64_t worst(struct words d, struct words b, struct words trades, struct moment *m, const char *what) {
    int64_t margin[3] = {-1, m->margin, -3};
    uint32_t step[3] = {1, m->step, 3}, applied[3] = {4, m->applied, 6}, left_out[3] = {7, m->left_out, 9};
    uint64_t result = mars_worst_moment(lend(0, d), d.length, lend(1, b), b.length, lend(2, trades), trades.length, &margin[1],
                                        &step[1], &applied[1], &left_out[1]);
    check(margin[0] == -1 && margin[2] == -3 && step[0] == 1 && step[2] == 3, what, 0);
    check(applied[0] == 4 && applied[2] == 6 && left_out[0] == 7 && left_out[2] == 9, what, 1);
    *m = (struct moment){margin[1], step[1], applied[1], left_out[1]};
    return result;
}

/* The call must store these four numbers. */
static void finds(struct words d, struct words b, struct words trades, struct moment expected, const char *what) {
    struct moment m = {INT64_MIN, 11, 22, 33};
    check(worst(d, b, trades, &m, what) == 0, what, 2);
    check(m.margin == expected.margin && m.step == expected.step, what, 3);
    check(m.applied == expected.applied && m.left_out == expected.left_out, what, 4);
}

/* The call must be refused so and store nothing. */
static void refuses_day(struct words d, struct words b, struct words trades, uint32_t number, uint32_t place, const char *what) {
    struct moment m = {INT64_MIN, 11, 22, 33};
    check(worst(d, b, trades, &m, what) == refusal(number, place), what, 2);
    check(m.margin == INT64_MIN && m.step == 11 && m.applied == 22 && m.left_out == 33, what, 3);
}

/* The trade as the last of the list, whose memory has space for it. */
static void trade(struct words *list, struct words record) {
    memcpy(list->at + list->length, record.at, 4 * record.length);
    list->length += record.length;
}

/* The share of the sample `share`: short n of it has a margin of 44 n euro, long n none. */
static void worst_moments(const char *folder) {
    static uint32_t of_opening[LONGEST_BATCH], of_trades[MARS_RECORD_WORDS * (MARS_MOST_TRADES + 1)];
    const int64_t one = 440000;
    struct file day_file = read_file(folder, "day.w32");
    struct words d = {words_of(day_file), day_file.length / 4}, opening = {of_opening, 1}, none = {of_trades, 0}, list = none;
    of_opening[0] = 1u << 29;
    finds(d, opening, none, (struct moment){0, 0, 0, 0}, "worst: nothing");

    /* short 10, a series that is absent, long 5, short 5: the last step only equals the first */
    trade(&list, record(0, 0, 10, 0));
    trade(&list, record(1, 0, 10, 0));
    trade(&list, record(0, 5, 0, 0));
    trade(&list, record(0, 0, 5, 0));
    finds(d, opening, list, (struct moment){10 * one, 1, 3, 1}, "worst: the example");
    trade(&list, record(0, 0, 1, 0));
    finds(d, opening, list, (struct moment){11 * one, 5, 4, 1}, "worst: the last step");
    append(&opening, record(0, 0, 11, 0));
    finds(d, opening, none, (struct moment){11 * one, 0, 0, 0}, "worst: no trades");
    finds(d, opening, (struct words){list.at + 2 * MARS_RECORD_WORDS, 3 * MARS_RECORD_WORDS}, (struct moment){12 * one, 3, 3, 0},
          "worst: from an opening");
    finds(d, opening, (struct words){list.at + 2 * MARS_RECORD_WORDS, MARS_RECORD_WORDS}, (struct moment){11 * one, 0, 1, 0},
          "worst: the opening");
    /* the trades may stand in the batch */
    struct moment m = {0, 0, 0, 0};
    uint64_t result = mars_worst_moment(d.at, d.length, opening.at, opening.length, opening.at + 1, MARS_RECORD_WORDS, &m.margin, &m.step,
                                        &m.applied, &m.left_out);
    check(result == 0 && m.margin == 22 * one && m.step == 1 && m.applied == 1 && m.left_out == 0, "worst: the batch's own record", 0);

    /* lists of each length about those of whole trades; the most trades, and one more */
    for (size_t length = 0; length <= list.length; length++)
        if (length % MARS_RECORD_WORDS != 0)
            refuses_day(d, opening, (struct words){list.at, length}, MARS_TRADES, 0, "worst: no whole trades");
    list.length = 0;
    for (size_t i = 0; i < MARS_MOST_TRADES; i++) trade(&list, record(0, 0, 1, 0));
    finds(d, opening, list, (struct moment){(11 + MARS_MOST_TRADES) * one, MARS_MOST_TRADES, MARS_MOST_TRADES, 0}, "worst: 4,096 trades");
    trade(&list, record(0, 0, 1, 0));
    refuses_day(d, opening, list, MARS_TRADES, 0, "worst: 4,097 trades");

    /* what refuses the opening comes before such a list */
    refuses_day(none, opening, list, MARS_DAY_HEADER, 0, "worst: no day file");
    refuses_day(d, none, list, MARS_BATCH_HEADER, 0, "worst: no batch");
    append(&opening, record(0, 0, 0, MOST_DVP));
    append(&opening, record(1, 0, 0, 1));
    refuses_day(d, opening, list, MARS_POSITION_SERIES, 2, "worst: an opening that is refused");
    opening.length -= MARS_RECORD_WORDS;
    append(&opening, record(0, 0, 0, 1));
    refuses_day(d, opening, list, MARS_DVP_LIMIT, 0, "worst: an opening that is not rewritten");
    refuses_day(d, opening, none, MARS_DVP_LIMIT, 0, "worst: the same without trades");

    /* 256 positions: no other one until one of them is gone */
    opening.length = 1;
    for (uint32_t s = 0; s < 256; s++) append(&opening, record(s, 1, 0, 0));
    list.length = 0;
    trade(&list, record(3 | FAIL, 1, 0, 0));
    finds(shares(), opening, list, (struct moment){0, 0, 0, 1}, "worst: a 257th position");
    trade(&list, record(3, 0, 1, 0));
    trade(&list, record(3 | FAIL, 1, 0, 0));
    finds(shares(), opening, list, (struct moment){0, 0, 2, 1}, "worst: a position gone");
    free(d.at);
    free(day_file.bytes);
}

/* ---- batches in cents */

#define MOST_UNITS (100 * (int64_t)MARS_MOST_CENTS)

/* Of the batch alone. */
static uint64_t to_cents(const uint32_t *d, size_t d_len, const uint32_t *b, size_t b_len, const uint32_t *more, size_t more_len,
                         uint32_t *out, size_t out_len) {
    (void)d, (void)d_len, (void)more, (void)more_len;
    return mars_to_cents(b, b_len, out, out_len);
}

static uint64_t from_cents(const uint32_t *d, size_t d_len, const uint32_t *b, size_t b_len, const uint32_t *more, size_t more_len,
                           uint32_t *out, size_t out_len) {
    (void)d, (void)d_len, (void)more, (void)more_len;
    return mars_from_cents(b, b_len, out, out_len);
}

/* The record as the last of a batch in units, and in cents with its amount divided by 100. */
static void append_both(struct words *units, struct words *in_cents, uint32_t key, uint32_t bought, uint32_t sold, int64_t cents) {
    append(units, record(key, bought, sold, 100 * cents));
    append(in_cents, record(key, bought, sold, cents));
    in_cents->at[0] |= MARS_BATCH_CENTS;
}

/* The call refuses the batch with its last record's amount this one, both ways of its sign. */
static void refuses_last(words_call *call, struct words b, int64_t dvp, uint32_t number, uint32_t place, const char *what) {
    struct words none = {b.at, 0};
    for (int64_t z = dvp; z >= -dvp; z -= 2 * dvp) {
        memcpy(b.at + b.length - 3, record(0, 0, 0, z).at + MARS_DVP_HIGH, 12);
        refuses(call, b, none, number, place, what);
    }
}

static void cents(void) {
    static uint32_t of_units[LONGEST_BATCH + MARS_RECORD_WORDS], of_cents[LONGEST_BATCH + MARS_RECORD_WORDS];
    struct words none = {of_units, 0}, units = {of_units, 1}, in_cents = {of_cents, 1};
    of_units[0] = 1u << 29;
    of_cents[0] = 1u << 29 | MARS_BATCH_CENTS;
    gives(to_cents, units, none, in_cents, "cents: no records");
    gives(from_cents, in_cents, none, units, "cents: no records back");
    refuses(to_cents, none, none, MARS_BATCH_HEADER, 0, "cents: no words");
    refuses(from_cents, none, none, MARS_BATCH_HEADER, 0, "cents: no words back");

    /* both signs, none, the limits, more than 29 bits; keys of any bits, any quantities */
    append_both(&units, &in_cents, 0, 0, 0, -815000);
    append_both(&units, &in_cents, 1023, 10000000, 10000000, 1);
    append_both(&units, &in_cents, EXERCISED | 255, 1, 0, 0);
    append_both(&units, &in_cents, FAIL | 1, 0, 1, MARS_MOST_CENTS);
    append_both(&units, &in_cents, 7, 2, 3, -MARS_MOST_CENTS);
    append_both(&units, &in_cents, 7, 2, 3, -(((int64_t)77777 << 29) + 1));
    append_both(&units, &in_cents, 7, 2, 3, (int64_t)1 << 29);
    check(in_cents.at[1 + MARS_DVP_HIGH] == (5u << 29 | 1u << 28) && in_cents.at[1 + MARS_DVP_LOW] == (6u << 29 | 815000u),
          "cents: the example's words", 0);
    gives(to_cents, units, none, in_cents, "cents: seven records");
    gives(from_cents, in_cents, none, units, "cents: seven records back");

    /* the bit, to every call that reads a batch */
    refuses(to_cents, in_cents, none, MARS_BATCH_HEADER, 0, "cents: in cents already");
    refuses(from_cents, units, none, MARS_BATCH_HEADER, 0, "cents: not in cents");
    refuses(mars_report_words, in_cents, none, MARS_BATCH_HEADER, 0, "cents: a report");
    refuses(rewrite, in_cents, none, MARS_BATCH_HEADER, 0, "cents: a rewriting");
    refuses(mars_add_record, in_cents, record(0, 1, 0, 0), MARS_BATCH_HEADER, 0, "cents: a record added");
    refuses_day(shares(), in_cents, none, MARS_BATCH_HEADER, 0, "cents: a worst moment");
    in_cents.at[0] |= 1u << 27;
    refuses(from_cents, in_cents, none, MARS_BATCH_HEADER, 0, "cents: a spare bit");
    in_cents.at[0] ^= 1u << 27;

    /* amounts of the last record that are no whole cents, or above a limit */
    refuses_last(to_cents, units, 150, MARS_NOT_WHOLE_CENTS, 6, "cents: 150 units");
    refuses_last(to_cents, units, 1, MARS_NOT_WHOLE_CENTS, 6, "cents: a unit");
    refuses_last(to_cents, units, MOST_UNITS - 1, MARS_NOT_WHOLE_CENTS, 6, "cents: a unit below the limit");
    refuses_last(to_cents, units, MOST_UNITS + 100, MARS_BATCH_RANGE, 1 + 6 * 6 + MARS_DVP_HIGH, "cents: a cent above the limit");
    refuses_last(to_cents, units, (int64_t)1 << 58, MARS_BATCH_RANGE, 1 + 6 * 6 + MARS_DVP_HIGH, "cents: a high word");
    refuses_last(from_cents, in_cents, (int64_t)1 << 58, MARS_BATCH_RANGE, 1 + 6 * 6 + MARS_DVP_HIGH, "cents: a high word back");
    refuses_last(from_cents, in_cents, MARS_MOST_CENTS + 1, MARS_CENTS_LIMIT, 6, "cents: row 34");
    refuses_last(from_cents, in_cents, MOST_UNITS, MARS_CENTS_LIMIT, 6, "cents: row 34 at row 27's limit");
    refuses_last(from_cents, in_cents, MOST_UNITS + 1, MARS_BATCH_RANGE, 1 + 6 * 6 + MARS_DVP_HIGH, "cents: row 27");

    /* rows of words come first, over all records: here the first record has the amount and the last the word */
    struct words *both[] = {&units, &in_cents};
    words_call *calls[] = {to_cents, from_cents};
    static const uint32_t own[] = {MARS_NOT_WHOLE_CENTS, MARS_CENTS_LIMIT};
    for (size_t i = 0; i < 2; i++) {
        struct words b = *both[i];
        uint32_t last = (uint32_t)b.length - MARS_RECORD_WORDS;
        memcpy(b.at + 1, record(0, 0, 0, MARS_MOST_CENTS + 1).at, 4 * MARS_RECORD_WORDS);
        memcpy(b.at + last, record(0, 0, 0, 0).at, 4 * MARS_RECORD_WORDS);
        refuses(calls[i], b, none, own[i], 0, "cents: a first record");
        b.at[last + MARS_DVP_HIGH] |= 1u << 28;
        refuses(calls[i], b, none, MARS_BATCH_MINUS_ZERO, last + MARS_DVP_HIGH, "cents: minus zero behind it");
        b.at[last + MARS_KEY] |= 1u << 10;
        refuses(calls[i], b, none, MARS_BATCH_RANGE, last + MARS_KEY, "cents: a spare bit behind it");
        b.at[last + MARS_DVP_LOW] ^= 1u << 29;
        refuses(calls[i], b, none, MARS_BATCH_KIND, last + MARS_DVP_LOW, "cents: a kind behind it");
        b.length--;
        refuses(calls[i], b, none, MARS_BATCH_LENGTH, 0, "cents: a length");
    }

    /* 256 records, and 257 */
    units.length = in_cents.length = 1;
    for (uint32_t s = 0; s < 256; s++) append_both(&units, &in_cents, s, s, 0, (int64_t)s * 1000003 - 100000000);
    gives(to_cents, units, none, in_cents, "cents: 256 records");
    gives(from_cents, in_cents, none, units, "cents: 256 records back");
    append_both(&units, &in_cents, 0, 0, 0, 0);
    refuses(to_cents, units, none, MARS_BATCH_HEADER, 0, "cents: 257 records");
    refuses(from_cents, in_cents, none, MARS_BATCH_HEADER, 0, "cents: 257 records back");
}

/* ---- texts */

/* Reads a text of exactly these bytes; the totals must be those given, which are the numbers before where it has none. */
static void reads(const char *text, size_t length, uint64_t result, int64_t ordinary, int64_t fail, int64_t account) {
    int64_t totals[3] = {11, -22, 33};
    uint8_t *block = exact((const uint8_t *)text, length);
    check(mars_read_text(block, length, &totals[0], &totals[1], &totals[2]) == result, text, length);
    check(totals[0] == ordinary && totals[1] == fail && totals[2] == account, text, length);
    free(block);
}

static void reads_report(const char *text, uint32_t lines, int64_t ordinary, int64_t fail, int64_t account) {
    reads(text, strlen(text), lines, ordinary, fail, account);
}

static void reads_refusal(const char *text, uint32_t number, uint32_t place) {
    reads(text, strlen(text), refusal(number, place), 11, -22, 33);
}

/* Printed texts read back, whole, cut and damaged. */
static void texts(void) {
    static const char report[] = "MARGIN 1\nO 3 0 1500000 0 8000000 9500000 0\nTOTAL 9500000 0 9500000\n";
    static const char refused[] = "REFUSED 30 7\n";
    static const char *const damaged[] = {
        "MARGIN 2\nO 3 0 1500000 0 8000000 9500000 0\nTOTAL 9500000 0 9500000\n",
        "MARGIN 0\nO 3 0 1500000 0 8000000 9500000 0\nTOTAL 9500000 0 9500000\n",
        "MARGIN 59\nTOTAL 0 0 0\n",
        "MARGIN 0 \nTOTAL 0 0 0\n",
        "MARGIN -0\nTOTAL 0 0 0\n",
        "MARGIN  0\nTOTAL 0 0 0\n",
        "MARGIN 0\nTOTAL 0 0\n",
        "MARGIN 0\nTOTAL 0 0 0 0\n",
        "MARGIN 0\nTOTAL 0 0 0\n\n",
        "MARGIN 0\nTOTAL 0 0 -0\n",
        "MARGIN 0\nTOTAL 0 0 +1\n",
        "MARGIN 0\nTOTAL 0 9223372036854775808 0\n",
        "MARGIN 0\nTOTAL 0 -9223372036854775808 0\n",
        "MARGIN 0\nTOTAL 0 00000000000000000001 0\n",
        "MARGIN 0\nTOTAL 0 99999999999999999999 0\n",
        "MARGIN 0\nTOTALS 0 0 0\n",
        "margin 0\nTOTAL 0 0 0\n",
        "REFUSED 30 7\r\n",
        "REFUSED 30 7 \n",
        "REFUSED 30 -7\n",
        "REFUSED 0 7\n",
        "REFUSED 4294967295 7\n",
        "REFUSED 30 4294967296\n",
        " REFUSED 30 7\n",
    };
    reads_report(report, 1, 9500000, 0, 9500000);
    reads_report("MARGIN 0\nTOTAL -1 20 19\n", 0, -1, 20, 19);
    reads_report("MARGIN 0\nTOTAL 0 9223372036854775807 -9223372036854775807\n", 0, 0, INT64_MAX, -INT64_MAX);
    reads_refusal(refused, MARS_NET_LIMIT, 7);
    reads_refusal("REFUSED 001 4294967295\n", MARS_DAY_BYTES_BAD, UINT32_MAX);
    for (size_t n = 0; n < sizeof report - 1; n++) reads(report, n, refusal(MARS_UNREADABLE, 0), 11, -22, 33);
    for (size_t n = 0; n < sizeof refused - 1; n++) reads(refused, n, refusal(MARS_UNREADABLE, 0), 11, -22, 33);
    for (size_t i = 0; i < sizeof damaged / sizeof damaged[0]; i++) reads_refusal(damaged[i], MARS_UNREADABLE, 0);
}

/* The file with word `at` replaced. */
static uint8_t *replaced(struct file f, size_t at, uint32_t word) {
    uint8_t *changed = exact(f.bytes, f.length);
    for (size_t i = 0; i < 4; i++) changed[4 * at + i] = (uint8_t)(word >> 8 * i);
    return changed;
}

/* The call with word `at` of the batch replaced must be refused so, and the refusal's place be that field of that record. */
static void refuses_word(size_t at, uint32_t word, uint32_t number, uint32_t record, enum mars_field field) {
    uint8_t *changed = replaced(batch, at, word);
    uint64_t result = guarded(day.bytes, day.length, changed, batch.length, MARS_REPORT_BYTES, "bad word");
    check(mars_number(result) == number && mars_names_word(number), "bad word: number", at);
    check(mars_batch_record(mars_value(result)) == record && mars_batch_field(mars_value(result)) == field, "bad word: place", at);
    free(changed);
}

static void bad_words(void) {
    for (size_t i = 1; i < batch.length / 4; i++) {
        uint32_t word = mars_word(batch.bytes, i), record = (uint32_t)(i > 6);
        refuses_word(i, word ^ 7u << 29, MARS_BATCH_KIND, record, (enum mars_field)(i - 6 * record - 1));
    }
    for (uint32_t r = 0; r < 2; r++) {
        uint32_t at = 1 + 6 * r, high = mars_word(batch.bytes, at + MARS_DVP_HIGH);
        refuses_word(at + MARS_KEY, mars_word(batch.bytes, at) | 1u << 10, MARS_BATCH_RANGE, r, MARS_KEY);
        refuses_word(at + MARS_LONG, 4u << 29 | 10000001u, MARS_BATCH_RANGE, r, MARS_LONG);
        refuses_word(at + MARS_SHORT, 4u << 29 | 10000001u, MARS_BATCH_RANGE, r, MARS_SHORT);
        refuses_word(at + MARS_DVP_HIGH, high | 1u << 5, MARS_BATCH_RANGE, r, MARS_DVP_HIGH);
        /* a middle word that makes the amount too large is told by the amount's first word */
        refuses_word(at + MARS_DVP_MIDDLE, 6u << 29 | 0x1fffffffu, MARS_BATCH_RANGE, r, MARS_DVP_HIGH);
    }
    /* the first record's amount is negative and below 2^29: without its low word it is minus zero */
    refuses_word(1 + MARS_DVP_LOW, 6u << 29, MARS_BATCH_MINUS_ZERO, 0, MARS_DVP_HIGH);
    for (uint32_t number = 0; number < 100; number++)
        check(mars_names_word(number) == (number == 22 || number == 27 || number == 28), "bad word: which rows", number);
}

/* The call with a price of the day file's one class replaced, by the price's word in the class. */
static uint64_t with_price(size_t word, uint32_t price) {
    uint8_t *changed = replaced(day, 1 + word, 3u << 29 | price);
    uint64_t result = guarded(changed, day.length, batch.bytes, batch.length, MARS_REPORT_BYTES, "price order");
    free(changed);
    return result;
}

/* The underlying price is word 1 of a class, its projected prices are words 10 to 19, downside 1 and upside 1 in their middle. No
 * line of the account reads them. */
static void price_order(void) {
    uint32_t prices[20];
    uint64_t refused = refusal(MARS_PRICE_ORDER, 0);
    for (size_t i = 1; i < 20; i++) prices[i] = mars_word(day.bytes, 1 + i) & 0x1fffffffu;
    for (size_t i = 11; i < 20; i++) {
        check(with_price(i, prices[i - 1] - 1) == refused, "price order: below the one before", i);
        /* upside 1 at downside 1 leaves the underlying price above both */
        check(with_price(i, prices[i - 1]) == (i == 15 ? refused : expected_result), "price order: equal", i);
    }
    check(with_price(1, prices[14]) == expected_result && with_price(1, prices[14] - 1) == refused, "price order: downside 1", 1);
    check(with_price(1, prices[15]) == expected_result && with_price(1, prices[15] + 1) == refused, "price order: upside 1", 1);
}

/* The arguments are the folders of the samples `fail`, `spread`, `expired` and `share`. */
int main(int argc, char **argv) {
    if (argc != 5) {
        fprintf(stderr, "usage: %s FAIL SPREAD EXPIRED SHARE\n", argv[0]);
        return 2;
    }
    day = read_file(argv[1], "day.w32");
    batch = read_file(argv[1], "pos.w32");
    expected_result = mars_report(day.bytes, day.length, batch.bytes, batch.length, expected, sizeof expected);
    check(expected_result == 13 + 19 * 2, "report", 0);
    accessors();
    unaligned();
    memories();
    inputs();
    bad_words();
    price_order();
    borders();
    threads();
    accounts();
    deposits(argv[2]);
    expired_future(argv[3]);
    rewritings();
    worst_moments(argv[4]);
    cents();
    texts();
    free(day.bytes);
    free(batch.bytes);
    if (failures == 0) puts("all calls as expected");
    return failures != 0;
}
