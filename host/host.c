/* A host: prints the margin of one account from its day file and position batch. */
#include "mars.h"

#include <inttypes.h>
#include <stdio.h>

/* One byte more than the longest form, so that a longer file is seen as such and refused by the call. */
static uint8_t day[MARS_DAY_BYTES + 1];
static uint8_t batch[MARS_BATCH_BYTES + 1];
static uint8_t report[MARS_REPORT_BYTES];

static int read_file(const char *path, uint8_t *to, size_t room, size_t *length) {
    FILE *file = fopen(path, "rb");
    if (file == NULL) {
        perror(path);
        return 0;
    }
    *length = fread(to, 1, room, file);
    int fine = !ferror(file);
    if (!fine) perror(path);
    fclose(file);
    return fine;
}

static const char *refusal_text(uint32_t number) {
    switch (number) {
    case MARS_DAY_BYTES_BAD: return "day file: length in bytes";
    case MARS_BATCH_BYTES_BAD: return "batch: length in bytes";
    case MARS_DAY_HEADER: return "day file: header";
    case MARS_DAY_LENGTH: return "day file: length";
    case MARS_DAY_WORD: return "day file: word of a record";
    case MARS_CLASS_ORDER: return "class number not above the one before";
    case MARS_CLASS_OFFSET: return "offset differs within the group";
    case MARS_PRICE_ORDER: return "projected prices of a class out of order";
    case MARS_SERIES_CLASS: return "series of an absent class";
    case MARS_SERIES_ORDER: return "series not above the one before";
    case MARS_SERIES_TYPE: return "type of a series";
    case MARS_BATCH_HEADER: return "batch: header";
    case MARS_BATCH_LENGTH: return "batch: length";
    case MARS_BATCH_KIND: return "batch: word of a wrong kind";
    case MARS_BATCH_RANGE: return "batch: spare bit or out of range";
    case MARS_BATCH_MINUS_ZERO: return "batch: minus zero";
    case MARS_POSITION_SERIES: return "no such series";
    case MARS_POSITION_EXERCISE: return "exercise of a non-option";
    case MARS_POSITION_FAIL: return "fail of a non-security";
    case MARS_POSITION_DVP: return "DVP of a non-security";
    case MARS_NET_LIMIT: return "net position above the limit";
    case MARS_SHORT_REPORT: return "report memory too short";
    default: return "unknown";
    }
}

static const char *field_text(enum mars_field field) {
    switch (field) {
    case MARS_KEY: return "key";
    case MARS_LONG: return "long quantity";
    case MARS_SHORT: return "short quantity";
    case MARS_DVP_HIGH: return "DVP amount, first word";
    case MARS_DVP_MIDDLE: return "DVP amount, second word";
    case MARS_DVP_LOW: return "DVP amount, third word";
    default: return "unknown";
    }
}

static void print_refusal(uint32_t number, uint32_t place) {
    printf("refused %" PRIu32 " at %" PRIu32 ": %s", number, place, refusal_text(number));
    if (mars_names_word(number))
        printf(", record %" PRIu32 ", %s", mars_batch_record(place), field_text(mars_batch_field(place)));
    putchar('\n');
}

/* Ten-thousandths of a euro as euro, right-aligned in 22 columns. */
static void print_euro(int64_t amount) {
    uint64_t size = amount < 0 ? 0u - (uint64_t)amount : (uint64_t)amount;
    char text[32];
    snprintf(text, sizeof text, "%s%" PRIu64 ".%04" PRIu64, amount < 0 ? "-" : "", size / 10000, size % 10000);
    printf(" %22s", text);
}

static void print_total(const char *name, int64_t amount) {
    printf("%-14s", name);
    print_euro(amount);
    putchar('\n');
}

int main(int argc, char **argv) {
    size_t day_length, batch_length;
    if (argc != 1 && argc != 3) {
        fprintf(stderr, "usage: %s [DAY BATCH]\n", argv[0]);
        return 2;
    }
    if (!read_file(argc == 3 ? argv[1] : "day.w32", day, sizeof day, &day_length) ||
        !read_file(argc == 3 ? argv[2] : "pos.w32", batch, sizeof batch, &batch_length))
        return 2;

    uint64_t result = mars_report(day, day_length, batch, batch_length, report, sizeof report);
    if (mars_number(result) != MARS_REPORT) {
        print_refusal(mars_number(result), mars_value(result));
        return 1;
    }
    printf("%-8s %5s %22s %22s\n", "book", "group", "margin EUR", "residual credit EUR");
    for (uint32_t i = 0; i < mars_line_count(report); i++) {
        printf("%-8s %5" PRIu32, mars_line_fail(report, i) ? "fail" : "ordinary", mars_line_group(report, i));
        print_euro(mars_line_amount(report, i, MARS_MARGIN));
        print_euro(mars_line_amount(report, i, MARS_RESIDUAL));
        putchar('\n');
    }
    print_total("ordinary total", mars_total(report, MARS_ORDINARY));
    print_total("fail total", mars_total(report, MARS_FAIL));
    print_total("account total", mars_total(report, MARS_ACCOUNT));
    return 0;
}
