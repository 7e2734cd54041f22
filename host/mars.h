/*
 * The MARS margin report of one account, and of all accounts of a broker.
 *
 * mars_report reads a day file and a position batch and writes a report: netting, futures spread, mark-to-market, premium,
 * additional and minimum margin, total margin, fails held separately, one line for each product group of each book.
 * Every amount is exact, in ten-thousandths of a euro; debit is positive, credit negative.
 *
 * A class's offset in the day file is in hundredths of a percent. Nothing marks a file from before request U6, whose offsets
 * are in percent: its 85 reads as 0.85 percent.
 *
 * A series of type 8 is an expired stock future awaiting delivery: its serial is 0 and its strike word the delivery price. Its
 * MTM is net x multiplier x (underlying price - delivery price), and at each point it adds net x multiplier x (projected price -
 * underlying price). It takes no part in the futures spread or in the minimum.
 *
 * All three memories are runs of 32-bit words, low byte first. Over arrays of uint32_t, mars_report_words does the same and
 * takes deposits of shares against short futures, and mars_reports does it for many batches in one call. mars_rewrite makes
 * of a batch the one with a record for each position, and mars_add_record the same with a record added. mars_worst_moment adds
 * a day's trades to a batch one by one and says when its margin was highest. mars_to_cents converts a batch into the edition that
 * has DVP amounts in euro cents, and mars_from_cents back.
 */
#ifndef MARS_H
#define MARS_H

#include <stddef.h>
#include <stdint.h>

#ifdef __cplusplus
extern "C" {
#endif

/* The longest forms, in bytes. A report memory of MARS_REPORT_BYTES is always long enough. */
#define MARS_DAY_BYTES 20484    /* 1 + 20 x 64 + 15 x 256 words */
#define MARS_BATCH_BYTES 6148   /* 1 + 6 x 256 words; also the longest rewriting */
#define MARS_REPORT_BYTES 4460  /* 13 + 19 x 58 words */

/*
 * Computes the report of an account.
 *
 * day, batch   Read during the call only, never written or kept. The caller owns them before, during and after it, and
 *              nothing may write to them while the call runs. They may overlap each other.
 * report       Written during the call only and never kept. It must overlap neither input.
 * *_len        Lengths in bytes. Any length is allowed, zero too; a file whose length is no multiple of 4 is refused, and
 *              the last report_len % 4 bytes of the report memory are never written.
 * Pointers     Not NULL, not even with length zero. No alignment is needed.
 *
 * Result       mars_number is 0 for a report, and mars_value its length in 32-bit words (13 + 19 x lines). Its bytes are
 *              4 x that; bytes past them remain.
 *              Otherwise mars_number is the number of a refusal (enum mars_refusal) and mars_value its place: the first
 *              offending record from 0, the index of the first offending word in the batch (mars_names_word), or of
 *              MARS_SHORT_REPORT the words needed. The report memory is then unchanged.
 *
 * Threads      The call keeps no state. It may run in any threads at once as long as their report memories are distinct;
 *              inputs may be shared.
 *
 * The call has no other condition: every content of every length ends in a report or in one refusal.
 */
uint64_t mars_report(const uint8_t *day, size_t day_len, const uint8_t *batch, size_t batch_len, uint8_t *report,
                     size_t report_len);

/*
 * Computes the report of an account whose client has deposited shares: what mars_report does, over words, with the net short
 * futures that the deposits cover left out of the margin.
 *
 * day, batch   The files' words.
 * deposits     MARS_DEPOSIT_WORDS words a deposit, without kind bits: a class number and a number of shares, 0 to
 *              MARS_MOST_SHARES. A class is named once at the most; the order of the deposits does not matter.
 *              Shares / multiplier contracts, the remainder dropped, are taken from the class's net short futures, open and
 *              expired, in the ordinary book: from the largest on, among equals from the further expiry, where both agree from
 *              the open one, then from the lower series place; each used up before the next. Which lines there are does not
 *              change.
 * report       The report's words; words past them remain.
 * *_len        Lengths in words. Any length is allowed, zero too; with no deposits the call is mars_report over words.
 * Pointers     Not NULL, not even with length zero; aligned as a uint32_t. report overlaps nothing; the three that are read
 *              may overlap each other, and nothing may write to them while the call runs.
 *
 * Result       As of mars_report, without MARS_DAY_BYTES_BAD and MARS_BATCH_BYTES_BAD and with MARS_DEPOSIT and
 *              MARS_UNLIKE_MULTIPLIERS. On a refusal the report memory is unchanged.
 *
 * Threads      The call keeps no state. It may run in any threads at once as long as their report memories are distinct.
 */
#define MARS_DEPOSIT_WORDS 2
#define MARS_MOST_SHARES 10000000
uint64_t mars_report_words(const uint32_t *day, size_t day_len, const uint32_t *batch, size_t batch_len,
                           const uint32_t *deposits, size_t deposits_len, uint32_t *report, size_t report_len);

/*
 * Computes the reports of up to MARS_MOST_ACCOUNTS accounts, one behind the other: what single calls do, made in turn, each with
 * the report memory still left and without deposits. The day file is checked once.
 *
 * day          The day file's words.
 * batches      The accounts' batches, back to back.
 * lengths      The words of each batch, one number an account.
 * results      Two numbers an account, in the order of the batches: 0 and the length of its report in words, or the number and
 *              place of its refusal (10 to 40). Numbers past two an account remain.
 * report       The reports of the accepted accounts, end to end: each starts where the one before ended. A refused account
 *              writes nothing, and the next goes on. Words past the last report remain. MARS_REPORT_BYTES / 4 words an account
 *              are always enough.
 * *_len        Lengths in words (entries). Any length is allowed, zero too.
 * Pointers     Not NULL, not even with length zero; aligned as a uint32_t. results and report overlap nothing; the three that are
 *              read may overlap each other, and nothing may write to them while the call runs.
 *
 * Result       mars_number is 0, and mars_value the words written in all. A refused account or day file is no refusal of the
 *              call: it is told in results.
 *              Otherwise mars_number is MARS_ACCOUNT_LENGTHS or MARS_SHORT_RESULTS, in this order and before every other row, and
 *              mars_value 0. Neither results nor report is changed then.
 *
 * Threads      The call keeps no state. It may run in any threads at once as long as their result lists and report memories are
 *              distinct.
 */
#define MARS_MOST_ACCOUNTS 64
uint64_t mars_reports(const uint32_t *day, size_t day_len, const uint32_t *batches, size_t batches_len,
                      const uint32_t *lengths, size_t lengths_len, uint32_t *results, size_t results_len, uint32_t *report,
                      size_t report_len);

/*
 * Rewrites a batch with one record for each position whose net or DVP is not 0. Its report is the batch's, and its rewriting
 * is itself.
 *
 * day, batch   The files' words.
 * out          The rewriting: the header, then the records by series place, open before exercised, ordinary before fail. A
 *              net long stands in the record's long quantity, a net short in its short quantity, and the other one is 0; both
 *              are where only DVP is left. The DVP amount is the sum of the position's. Words past the rewriting remain.
 *              MARS_BATCH_BYTES / 4 words are always enough.
 * *_len        Lengths in words. Any length is allowed, zero too.
 * Pointers     Not NULL, not even with length zero; aligned as a uint32_t. out overlaps nothing, so that a batch is not
 *              rewritten in its own place; the two that are read may overlap each other, and nothing may write to them while
 *              the call runs.
 *
 * Result       mars_number is 0, and mars_value the words written (1 + 6 x records).
 *              Otherwise mars_number is that of a refusal of mars_report over words, or MARS_DVP_LIMIT, and mars_value its
 *              place; of MARS_SHORT_REPORT, here of out, the words needed. out is then unchanged.
 *
 * Threads      The call keeps no state. It may run in any threads at once as long as their memories out are distinct.
 */
uint64_t mars_rewrite(const uint32_t *day, size_t day_len, const uint32_t *batch, size_t batch_len, uint32_t *out,
                      size_t out_len);

/*
 * Adds a record to a batch: rewrites the batch with that record as its last.
 *
 * day, batch   The files' words; a batch of 256 records too.
 * record       MARS_RECORD_WORDS words, as a record in a batch has them (enum mars_field). It may overlap day and batch.
 * out          As of mars_rewrite.
 * *_len, Pointers, Threads
 *              As of mars_rewrite.
 *
 * Result       As of mars_rewrite; also MARS_BATCH_LENGTH, place 0, where record_len is not MARS_RECORD_WORDS, and
 *              MARS_NO_SPACE. The record is checked with the batch's: where it is refused, the place is the one that it would
 *              have as their last, record P or words 1 + 6P to 6 + 6P behind P records. MARS_BATCH_HEADER looks at the batch
 *              alone.
 */
#define MARS_RECORD_WORDS 6
uint64_t mars_add_record(const uint32_t *day, size_t day_len, const uint32_t *batch, size_t batch_len,
                         const uint32_t *record, size_t record_len, uint32_t *out, size_t out_len);

/*
 * Says when the account margin was highest on a day: adds its trades one by one to an opening batch, each as mars_add_record
 * adds a record to the batch that the steps before have made.
 *
 * day, batch   The files' words; the batch is the opening.
 * trades       MARS_RECORD_WORDS words a trade, as a record in a batch has them; at most MARS_MOST_TRADES trades. The first is
 *              step 1. A step whose record mars_add_record would refuse is left out: the account stays, and the steps behind
 *              keep their numbers.
 * margin       Where the highest account margin over the opening and all steps is stored: the account total of mars_report.
 * step         .. the earliest step that has it, 0 for the opening.
 * applied, left_out
 *              .. how many steps were applied, and how many left out: together one a trade.
 * *_len        Lengths in words. Any length is allowed, zero too; with no trades the opening's margin and 0, 0, 0 are stored.
 * Pointers     Not NULL, not even with length zero; aligned as a uint32_t, margin as an int64_t. The four numbers are distinct
 *              and overlap nothing that is read; the three that are read may overlap each other, and nothing may write to them
 *              while the call runs.
 *
 * Result       mars_number and mars_value are 0.
 *              Otherwise mars_number is that of a refusal of mars_rewrite without MARS_SHORT_REPORT, of the opening, or behind
 *              them MARS_TRADES, and mars_value its place. The four numbers are then unchanged.
 *
 * Threads      The call keeps no state. It may run in any threads at once as long as their numbers are distinct.
 */
#define MARS_MOST_TRADES 4096
uint64_t mars_worst_moment(const uint32_t *day, size_t day_len, const uint32_t *batch, size_t batch_len,
                           const uint32_t *trades, size_t trades_len, int64_t *margin, uint32_t *step, uint32_t *applied,
                           uint32_t *left_out);

/*
 * Converts a batch into the edition that has DVP amounts in euro cents and marks it by MARS_BATCH_CENTS in the header. Of all
 * calls mars_from_cents alone takes that edition: to the others the bit is MARS_BATCH_HEADER.
 *
 * batch        The batch's words. No day file is read: any series place is converted, and any series may have a DVP amount.
 * out          The batch in cents: the header with the bit, then of each record the key and the quantities as they are and the
 *              DVP amount divided by 100. Words past it remain. MARS_BATCH_BYTES / 4 words are always enough.
 * *_len        Lengths in words. Any length is allowed, zero too.
 * Pointers     Not NULL, not even with length zero; aligned as a uint32_t. out does not overlap batch, so that a batch is not
 *              converted in its own place, and nothing may write to batch while the call runs.
 *
 * Result       mars_number is 0, and mars_value the words written, as many as batch has.
 *              Otherwise mars_number is that of a refusal that looks at the batch's words alone, of MARS_BATCH_HEADER to
 *              MARS_BATCH_MINUS_ZERO, then MARS_NOT_WHOLE_CENTS, then MARS_SHORT_REPORT, here of out, and mars_value its place,
 *              or the words needed. MARS_BATCH_HEADER also tells that the bit is there already. out is then unchanged.
 *
 * Threads      The call keeps no state. It may run in any threads at once as long as their memories out are distinct.
 */
#define MARS_BATCH_CENTS (1u << 28)
uint64_t mars_to_cents(const uint32_t *batch, size_t batch_len, uint32_t *out, size_t out_len);

/*
 * Converts a batch in cents back: clears the bit and multiplies each DVP amount by 100. A batch converted to cents and back is
 * the original, and so is one in cents converted back and to cents again.
 *
 * batch        The words of a batch in cents.
 * out          The batch with DVP amounts as the other calls read them.
 * *_len, Pointers, Threads
 *              As of mars_to_cents.
 *
 * Result       As of mars_to_cents, but MARS_BATCH_HEADER tells that the bit is missing, and MARS_CENTS_LIMIT comes in the place
 *              of MARS_NOT_WHOLE_CENTS. An amount above 100 x MARS_MOST_CENTS in size is MARS_BATCH_RANGE, as in any batch.
 */
#define MARS_MOST_CENTS 50000000000000
uint64_t mars_from_cents(const uint32_t *batch, size_t batch_len, uint32_t *out, size_t out_len);

/*
 * Reads back a text that the report program printed.
 *
 * text         Read during the call only, never written or kept. Any bytes are allowed.
 * text_len     Its length in bytes, zero too.
 * ordinary, fail, account
 *              Where the totals of a report are stored: three distinct numbers outside the text, each aligned as an int64_t.
 *              They stay unchanged unless the text is a report's.
 * Pointers     Not NULL, the text's not even with length zero.
 *
 * Result       mars_number is 0 for the text of a report, and mars_value its line count, at most 58. The lines themselves are
 *              passed over.
 *              For the text of a refusal they are its number and place; for a text that is neither, MARS_UNREADABLE and 0.
 *              Leading zeros are read; minus zero, a total of 2^63 or more in size and a place of 2^32 or more are not.
 *
 * Threads      The call keeps no state. It may run in any threads at once as long as their numbers are distinct.
 */
#define MARS_UNREADABLE 4294967295u
uint64_t mars_read_text(const uint8_t *text, size_t text_len, int64_t *ordinary, int64_t *fail, int64_t *account);

/* Refusals in the order in which they are tried, each over all records, words or deposits before the next: the first two by
 * mars_report alone, MARS_DVP_LIMIT by mars_rewrite, mars_add_record and mars_worst_moment, MARS_NO_SPACE by mars_add_record
 * alone, MARS_TRADES by mars_worst_moment alone, those of deposits by mars_report_words alone, MARS_SHORT_REPORT by all but
 * mars_worst_moment, the last two by mars_reports alone, before all others. mars_to_cents and mars_from_cents try those of a
 * batch's header, length and words, then MARS_NOT_WHOLE_CENTS (to cents) or MARS_CENTS_LIMIT (from cents), which they alone have,
 * then MARS_SHORT_REPORT. */
enum mars_refusal {
    MARS_REPORT = 0,            /* no refusal: a report, a rewriting or a conversion was written, or a worst moment stored */
    MARS_DAY_BYTES_BAD = 1,     /* day file's length is no multiple of 4, or exceeds the longest form */
    MARS_BATCH_BYTES_BAD = 2,   /* the same of the batch */
    MARS_DAY_HEADER = 10,       /* day header: no words, wrong kind, spare bits, too many classes or series */
    MARS_DAY_LENGTH = 11,       /* day file's length does not follow from its header */
    MARS_DAY_WORD = 12,         /* a class or series: wrong kind, spare bit, out of range; place: classes, then series */
    MARS_CLASS_ORDER = 13,      /* class number not above the one before; place: class */
    MARS_CLASS_OFFSET = 14,     /* offset differs from an earlier class of the group; place: class */
    MARS_PRICE_ORDER = 18,      /* projected prices fall, or the underlying is outside downside 1 to upside 1; place: class */
    MARS_SERIES_CLASS = 15,     /* the series' class is absent; place: series, here and in the two below */
    MARS_SERIES_ORDER = 16,     /* key, then strike, not above the series before */
    MARS_SERIES_TYPE = 17,      /* type unknown, or serial, strike, expiry or adjustment not 0 where the type has none */
    MARS_BATCH_HEADER = 20,     /* batch header: no words, wrong kind, too many records; the bit of cents, or it is missing */
    MARS_BATCH_LENGTH = 21,     /* batch's length does not follow from its header, or a record to add is not of six words */
    MARS_BATCH_KIND = 22,       /* a word of a record: wrong kind; place: word, here and in the two below */
    MARS_BATCH_RANGE = 27,      /* spare bit or out of range; of an amount its first word */
    MARS_BATCH_MINUS_ZERO = 28, /* an amount of minus zero: its first word */
    MARS_NOT_WHOLE_CENTS = 33,  /* a DVP amount is no multiple of 100; place: record, here and in the one below */
    MARS_CENTS_LIMIT = 34,      /* a DVP amount in cents is above MARS_MOST_CENTS in size */
    MARS_POSITION_SERIES = 23,  /* no such series in the day file; place: record, here and below */
    MARS_POSITION_EXERCISE = 24, /* exercised or assigned, and not an option */
    MARS_POSITION_FAIL = 25,    /* a fail, and not a security */
    MARS_POSITION_DVP = 26,     /* DVP amount not 0, and not a security */
    MARS_NET_LIMIT = 30,        /* a position's net x multiplier above 10,000,000; place: its first record */
    MARS_DVP_LIMIT = 31,        /* a position's DVP sum above that of a record; place: its first record, also with net 0 */
    MARS_NO_SPACE = 32,         /* with the record added there are more than 256 positions; place 0 */
    MARS_TRADES = 62,           /* trades that are not whole records, or more than 4,096; place 0 */
    MARS_DEPOSIT = 50,          /* odd number of words (place 0, first); class unknown or named before, or too many shares */
    MARS_UNLIKE_MULTIPLIERS = 51, /* the class's futures, open and expired, have unlike multipliers; place: deposit, as above */
    MARS_SHORT_REPORT = 40,     /* report memory, or out, too short; the value is the words needed */
    MARS_ACCOUNT_LENGTHS = 60,  /* more than 64 accounts, or lengths that do not add up to the words given */
    MARS_SHORT_RESULTS = 61     /* result list shorter than two numbers an account */
};

/* The words of a record of the batch, the last three its DVP amount. */
enum mars_field { MARS_KEY = 0, MARS_LONG = 1, MARS_SHORT = 2, MARS_DVP_HIGH = 3, MARS_DVP_MIDDLE = 4, MARS_DVP_LOW = 5 };

/* The amounts of a line, and the totals. */
enum mars_amount {
    MARS_SPREAD = 0,
    MARS_MTM = 1,
    MARS_PREMIUM = 2,
    MARS_REQUIREMENT = 3,
    MARS_MARGIN = 4,
    MARS_RESIDUAL = 5
};

enum mars_total { MARS_ORDINARY = 0, MARS_FAIL = 1, MARS_ACCOUNT = 2 };

/* The two parts of a result. */
static inline uint32_t mars_number(uint64_t result) { return (uint32_t)(result >> 32); }
static inline uint32_t mars_value(uint64_t result) { return (uint32_t)(result & 0xffffffffu); }

/* Whether the place of a refusal is the index of a word in the batch. */
static inline int mars_names_word(uint32_t number) {
    return number == MARS_BATCH_KIND || number == MARS_BATCH_RANGE || number == MARS_BATCH_MINUS_ZERO;
}

/* The record of such a word, from 0, and its field there. The index is never 0, the header's. */
static inline uint32_t mars_batch_record(uint32_t index) { return (index - 1u) / 6u; }
static inline enum mars_field mars_batch_field(uint32_t index) { return (enum mars_field)((index - 1u) % 6u); }

/* A word of a report, by its place from 0. A report among uint32_t words is read through a pointer to its first byte. */
static inline uint32_t mars_word(const uint8_t *report, size_t at) {
    const uint8_t *b = report + 4 * at;
    return (uint32_t)b[0] | (uint32_t)b[1] << 8 | (uint32_t)b[2] << 16 | (uint32_t)b[3] << 24;
}

/* An amount of three words: sign and top five bits, the next 29 bits, the low 29. */
static inline int64_t mars_amount_at(const uint8_t *report, size_t at) {
    uint32_t top = mars_word(report, at);
    uint64_t size = (uint64_t)(top & 31u) << 58 | (uint64_t)(mars_word(report, at + 1) & 0x1fffffffu) << 29 |
                    (uint64_t)(mars_word(report, at + 2) & 0x1fffffffu);
    return top >> 28 & 1u ? -(int64_t)size : (int64_t)size;
}

/* The accessors below are for a report that a call has written; i is below the line count. */

static inline uint32_t mars_line_count(const uint8_t *report) { return mars_word(report, 0) & 0x1fffffffu; }

/* Maps of the groups with a line: bit g for group g. */
static inline uint32_t mars_ordinary_groups(const uint8_t *report) { return mars_word(report, 1) & 0x1fffffffu; }
static inline uint32_t mars_fail_groups(const uint8_t *report) { return mars_word(report, 2) & 0x1fffffffu; }

/* A line's key: bits 0-4 group, bit 5 set for a fail. Ordinary lines come first, each book by ascending group. */
static inline uint32_t mars_line_key(const uint8_t *report, uint32_t i) {
    return mars_word(report, 3 + 19 * (size_t)i) & 0x1fffffffu;
}
static inline uint32_t mars_line_group(const uint8_t *report, uint32_t i) { return mars_line_key(report, i) & 31u; }
static inline int mars_line_fail(const uint8_t *report, uint32_t i) { return (int)(mars_line_key(report, i) >> 5 & 1u); }

static inline int64_t mars_line_amount(const uint8_t *report, uint32_t i, enum mars_amount which) {
    return mars_amount_at(report, 4 + 19 * (size_t)i + 3 * (size_t)which);
}

static inline int64_t mars_total(const uint8_t *report, enum mars_total which) {
    return mars_amount_at(report, 4 + 19 * (size_t)mars_line_count(report) + 3 * (size_t)which);
}

#ifdef __cplusplus
}
#endif

#endif
