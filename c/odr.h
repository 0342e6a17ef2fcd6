/* The library for C and C++: target/staticlib/libodr.a, made by tests/library.sh. The functions are those of crates/odr, each
 * proved to answer as its promise there says, for every input. docs/FORMAT.md defines the record, the refusals, blocks and the
 * index of seconds.
 *
 * Records are of one of two editions of the format, that of 1985 (RSC-11-10) or that of 1992 (RSC-11-11). The caller names it by
 * its number; any other number is 25, before every other answer.
 *
 * A buffer is a pointer and its number of elements. Pointers are never null, buffers that a call writes to overlap no other
 * argument, and nobody else uses them during the call; nothing else is asked of a caller. Any number of elements is taken.
 *
 * Numbers come back in structs, by value, so that no buffer for them can be too short. `refusal` is a refusal number, 0 for none;
 * beside a refusal every other member is 0, and a refused call writes nothing at all to what it was lent.
 */
#ifndef ODR_H
#define ODR_H

#include <stdbool.h>
#include <stddef.h>
#include <stdint.h>

#ifdef __cplusplus
extern "C" {
#endif

/* The refusal numbers of docs/FORMAT.md, "Refusal numbers". Where several apply, the first in the order of the call is given. */
enum odr_refusal_number {
    ODR_NONE = 0,                   /* no refusal */
    ODR_TOO_SHORT = 1,              /* fewer bytes than the edition's header, 80 or 166; on a reel also word 3 below 40 or 83 */
    ODR_WRONG_LENGTH = 2,           /* the bytes are not twice word 3; on a reel: fewer are left than that */
    ODR_NOT_8_BITS = 3,             /* conversion bit 1 in 1985, 0 in 1992 */
    ODR_COMPRESSED = 4,             /* compression is not 0001 */
    ODR_NO_SUCH_RATE = 5,           /* none of the edition's sample rates, seven or nineteen */
    ODR_NOT_THE_RATES_LENGTH = 6,   /* the record's length is none of its rate's: two in 1985, one in 1992 */
    ODR_NUMBER_ZERO = 7,            /* tape or record number 0 */
    ODR_NO_SUCH_DATE = 8,           /* year above 99, or day 0 or above 365 (366 in years divisible by 4, 00 too) */
    ODR_PAST_THE_DAY = 9,           /* record or readback time tag above 86,399,999 ms */
    ODR_NO_DIGIT = 10,              /* a decimal digit above 9 */
    ODR_WRONG_SYNC = 11,            /* clock origin 1 and a sync word other than A55A hex */
    ODR_NO_SUCH_SAMPLE = 12,        /* a channel's buffer is too short for the record's samples, or there is no such sample */
    ODR_WRONG_LIMITS = 13,          /* of an index, or of the edition, rate, tape number or date that its opening holds */
    ODR_TOO_FEW_CELLS = 14,         /* of an index */
    ODR_OTHER_REEL = 15,            /* the record is of another edition or reel than the index */
    ODR_NUMBER_OUTSIDE = 16,        /* the record number is not one of 1 to the index's highest */
    ODR_SECOND_OUTSIDE = 17,        /* the second is not one of the index's window */
    ODR_SECOND_FULL = 18,           /* the second holds as many other records as a second has */
    ODR_NOT_HELD = 19,              /* no record of that number is held */
    ODR_NO_SUCH_SEGMENT = 20,       /* the segments are 7, 5, 2, 6, 10, 4 and 8 */
    ODR_TEXT_TOO_LONG = 21,         /* the buffer is too short for the text, the blocks or the record */
    ODR_VALUE_TOO_WIDE = 22,        /* a value to be written does not fit into the bits of its field */
    ODR_SEGMENT_NOT_NEW = 23,       /* in neither record */
    ODR_INPUT_TOO_LONG = 24,        /* only as a line of a listing: the input is longer than ODR_LONGEST_INPUT */
    ODR_NO_SUCH_EDITION = 25,       /* the edition named is neither 1985 nor 1992 */
    ODR_NO_SEGMENTS = 26,           /* records of 1992 have no monitor segments */
    ODR_BAD_CHECK = 27,             /* a whole block's check is not that of its bytes */
    ODR_WRONG_BLOCKS = 28           /* no block or not that one, a part block, or wrong lengths, numbers, indices or padding */
};

/* The editions of the format. */
enum odr_edition {
    ODR_EDITION_1985 = 1985,  /* header of 80 bytes, samples, monitor words */
    ODR_EDITION_1992 = 1992   /* header of 166 bytes, samples, nothing after them */
};

enum {
    ODR_LONGEST_RECORD = 4390,   /* bytes of the longest accepted record: 2,195 words, in 1985; the longest of 1992 has 4,166 */
    ODR_LONGEST_SEGMENT = 90,    /* bytes of the longest monitor segment: 45 words */
    ODR_BLOCK_BYTES = 512,       /* bytes of a block */
    ODR_PAYLOAD_BYTES = 504,     /* bytes of a record that a full block carries */
    ODR_LONGEST_EXPORT = 4608,   /* bytes of the blocks of the longest accepted record: 9 blocks */
    ODR_CELLS = 24,              /* cells of a row, and of a second */
    ODR_LONGEST_INPUT = 65536,   /* a longer one gets the line refused,24 */
    ODR_LONGEST_LISTING = 4335,  /* a buffer of this size holds the listing of any input */
    ODR_FINISHED = 255           /* what odr_step answers at the end of a reel: no refusal has this number */
};

/* ---- Records. A record is any bytes; each call on one gives 25 for an unknown edition, and 1 to 11 where they are not an
 * accepted record of the edition named. */

/* 25, 1 to 11, or 0 where the bytes are an accepted record of the edition. */
uint8_t odr_refusal(uint64_t edition, const uint8_t *record, size_t record_len);

/* The fields of a header: the place of each among its values. docs/FORMAT.md, "The record", has each field's bits and unit.
 * Places 0 to 39, 41 and 42 have the same field in both editions; a list of values is one of the edition that its call names.
 *
 * In capitals: the name in the figure of the header, RSC-11-10-1 of 1985 or figure 2 of 1992; where they differ, that of 1985 and,
 * behind the semicolon, that of 1992. */
enum odr_field {
    ODR_CLOCK_ORIGIN = 0,            /* O. 1: the time is the station clock's */
    ODR_SESSION_START = 1,           /* S */
    ODR_COPY_ERROR = 2,              /* E */
    ODR_CONVERSION = 3,              /* C. Samples of 8 bits: 0 in 1985, 1 in 1992 */
    ODR_COMPRESSION = 4,             /* COMPRES FACTOR; COMPRESSION FACTOR. 1: none */
    ODR_TAPE_NUMBER = 5,             /* TAPE NUMBER */
    ODR_RECORD_NUMBER = 6,           /* RECORD NUMBER */
    ODR_LENGTH_WORDS = 7,            /* LENGTH OF RECORD, of the whole record in words of two bytes */
    ODR_PRIME_FEA = 8,               /* PRIME FEA#; PRIME FEA: number of the prime front end area */
    ODR_SECONDARY_FEA = 9,           /* SECONDARY FEA#; SECONDARY FEA: number of the secondary one */
    ODR_SPACECRAFT = 10,             /* SPACECRAFT NUMBER */
    ODR_SPC = 11,                    /* SPC CODE: designator of the signal processing center */
    ODR_YEAR = 12,                   /* YEAR, of the century */
    ODR_DAY = 13,                    /* DAY OF YEAR, from 1 */
    ODR_TIME_TAG_MS = 14,            /* MILLISECONDS PAST 0h UTC; .. PAST 0 UTC: of the third sample of each channel, sample 2 */
    ODR_PREDICT_0 = 15,              /* PREDICT SET IDENTIFICATION, ten bytes */
    ODR_PREDICT_1 = 16,
    ODR_PREDICT_2 = 17,
    ODR_PREDICT_3 = 18,
    ODR_PREDICT_4 = 19,
    ODR_PREDICT_5 = 20,
    ODR_PREDICT_6 = 21,
    ODR_PREDICT_7 = 22,
    ODR_PREDICT_8 = 23,
    ODR_PREDICT_9 = 24,
    ODR_STATUS = 25,                 /* POCA STATUS */
    ODR_READBACK_UHZ = 26,           /* POCA FREQUENCY (READBACK), microhertz */
    ODR_READBACK_TAG_MS = 27,        /* TIME TAG OF POCA FREQUENCY (READBACK) */
    ODR_CALCULATED_UHZ = 28,         /* POCA FREQUENCY (CALCULATED), microhertz */
    ODR_UPDATE_TAG_MS = 29,          /* TIME TAG OF POCA (UPDATE CYCLE); TIME TAG OF POCA FREQUENCY (UPDATE CYCLE) */
    ODR_FREQUENCY_RATE_DIGITS = 30,  /* POCA FREQUENCY RATE; odr_frequency_rate gives the rate of these three */
    ODR_FREQUENCY_RATE_POWER = 31,   /* MULTIPLIER */
    ODR_FREQUENCY_RATE_SIGN = 32,    /* S. 1 is plus */
    ODR_PHASE_1 = 33,                /* FREQUENCY COUNTER NUMBER 1 CUMULATIVE PHASE; .. NO. 1 ..: counts of 1/256 cycle in 1985,
                                      * of 1/1,048,576 in 1992 */
    ODR_PHASE_2 = 34,                /* FREQUENCY COUNTER NUMBER 2 CUMULATIVE PHASE; .. NO. 2 .. */
    ODR_SELECTOR_1 = 35,             /* TEST SIGNAL */
    ODR_SELECTOR_2 = 36,             /* SAMPLE CONTROL */
    ODR_SELECTOR_3 = 37,             /* COUNTER # 1 MODE; CNTR #1 MODE */
    ODR_SELECTOR_4 = 38,             /* COUNTER #2 MODE; CNTR #2 MODE */
    ODR_COUNTER_TAG_MS = 39,         /* TIME TAG OF FMS COUNTER; TIME TAG OF FMS MEASUREMENT */
    ODR_SAMPLE_RATE_HZ = 41,         /* A/D CONVERTER SAMPLE RATE; A-D ..: samples a second in each channel */
    ODR_SYNC_WORD = 42,              /* A 5 5 A */

    /* 1985 alone. Places 46 and 47 have no field: they are read as 0, and writing any other value there is 22. */
    ODR_FILTER = 40,                 /* FILTER */
    ODR_WORD_39 = 43,                /* '24' COUNTER, 'N' REGISTER */
    ODR_REGISTER_1 = 44,             /* CONVERSION MODE REGISTER */
    ODR_REGISTER_2 = 45,             /* SIGNAL SELECT REGISTER */

    /* 1992 alone. */
    ODR_RF_CONFIGURATION = 40,           /* RFCNF, as the operator selected it: 1 prime, 2 cross, 3 Faraday rotation */
    ODR_RF_CONFIGURATION_REPORTED = 43,  /* RFIF: the same codes, as the IF switch reported it */
    ODR_TIME_OFFSET_DAYS = 44,           /* PREDICT TIME OFFSET (DAYS), of the predict set's times, with the seconds */
    ODR_TIME_OFFSET_SIGN = 45,           /* SGN. 1 is minus, for the days and the seconds */
    ODR_TIME_OFFSET_SECONDS = 46,        /* TIME OFFSET (SECONDS) */
    ODR_FREQUENCY_OFFSET = 47,           /* PREDICT FREQUENCY OFFSET, units of 1/1,048,576 Hz, signed:
                                          * (int64_t)value[ODR_FREQUENCY_OFFSET] */

    ODR_HEADER_VALUES = 48  /* how many there are, in either edition */
};

/* The values of a header: value[ODR_DAY] is the day. */
typedef struct {
    uint64_t value[ODR_HEADER_VALUES];
} odr_header;

/* The header of a record. 25, 1 to 11, and then the header lent stays as it was. */
uint8_t odr_read_header(uint64_t edition, const uint8_t *record, size_t record_len, odr_header *header);

/* The values go into the header of the record, whose other bits stay, words 42 to 79, 82 and 83 of 1992 among them; of what the
 * record held before only its length is judged. 25, 1 to 11 of the values, 22. */
uint8_t odr_write_header(uint64_t edition, uint8_t *record, size_t record_len, const odr_header *header);

/* The frequency rate in units of 0.00001 Hz/s, in both editions. 25, 1 to 11. */
typedef struct {
    uint8_t refusal;
    int64_t units;
} odr_frequency_rate_answer;
odr_frequency_rate_answer odr_frequency_rate(uint64_t edition, const uint8_t *record, size_t record_len);

/* What follows from a sample rate: the samples that each channel has in a record, so how long a channel's buffer must be; the
 * records of a second; the microseconds from a sample to the next. Both editions have 50,000, 20,000, 10,000, 5,000, 2,000, 1,000
 * and 200; 1992 also has 31,250, 25,000, 15,625, 12,500, 6,250, 4,000, 3,125, 2,500, 1,250, 500, 400 and 250. 25, 5. */
typedef struct {
    uint8_t refusal;
    uint64_t samples;
    uint64_t records;
    uint64_t interval_us;
} odr_sample_rate_answer;
odr_sample_rate_answer odr_sample_rate(uint64_t edition, uint64_t hz);

/* The samples of channels 1 to 4, from byte 80 or 166 of the record on, to the start of each buffer; what stands behind them
 * there stays. 25, 1 to 11, 12 where a buffer holds fewer than the record's samples. */
uint8_t odr_read_samples(uint64_t edition, const uint8_t *record, size_t record_len, int8_t *one, size_t one_len,
                         int8_t *two, size_t two_len, int8_t *three, size_t three_len, int8_t *four, size_t four_len);

/* Samples of channels 1 to 4 into the record, from byte 80 or 166 on; its other bytes stay. 25, 1 to 11, 12 where a buffer has
 * fewer than the record. */
uint8_t odr_write_samples(uint64_t edition, uint8_t *record, size_t record_len, const int8_t *one, size_t one_len,
                          const int8_t *two, size_t two_len, const int8_t *three, size_t three_len,
                          const int8_t *four, size_t four_len);

/* The time of sample k, counted from 0, in microseconds from 0 h of the record's day, below zero on the day before: the tag is
 * the time of sample 2, the third. Rounded down. 25, 1 to 11, 12 where the record has no sample k. */
typedef struct {
    uint8_t refusal;
    int64_t microseconds;
} odr_time_answer;
odr_time_answer odr_sample_time(uint64_t edition, const uint8_t *record, size_t record_len, uint64_t k);

/* The two phases in cycles, exactly: the counts over 256 in 1985, over 1,048,576 in 1992. 25, 1 to 11. */
typedef struct {
    uint8_t refusal;
    double first;
    double second;
} odr_phases_answer;
odr_phases_answer odr_phases(uint64_t edition, const uint8_t *record, size_t record_len);

/* The totals of a record's samples, for channels 1 to 4. 25, 1 to 11. */
typedef struct {
    int64_t sum;
    uint64_t squares;
    int8_t least;
    int8_t greatest;
    uint32_t clipped;  /* samples equal to -128 or 127 */
} odr_total;
typedef struct {
    uint8_t refusal;
    odr_total channels[4];
} odr_totals_answer;
odr_totals_answer odr_totals(uint64_t edition, const uint8_t *record, size_t record_len);

/* A monitor segment, from this record if it is new there, else from the earlier one: its bytes are the first `length` ones, and 0
 * follows. The edition is that of both records. 25, 1 to 11 of this record, then of the earlier one; then 26 in 1992, which has
 * no segments; 20, 23. */
typedef struct {
    uint8_t refusal;
    size_t length;
    uint8_t bytes[ODR_LONGEST_SEGMENT];
} odr_segment_answer;
odr_segment_answer odr_segment(uint64_t edition, const uint8_t *this_record, size_t this_len, const uint8_t *earlier,
                               size_t earlier_len, uint64_t number);

/* ---- Reels: records of one edition, back to back. */

/* What stands at a place: 25 on any reel, finished or empty too; else a record, from `start` up to `end`, which is also the next
 * place; or ODR_FINISHED at the end of the reel and past it; or 1 to 11. Where no record stands, `start` and `end` are 0. So this
 * loop ends on every reel:
 *
 *     odr_step_answer step;
 *     for (size_t place = 0; (step = odr_step(edition, reel, reel_len, place)).answer == 0; place = step.end)
 *         use(reel + step.start, step.end - step.start);
 */
typedef struct {
    uint8_t answer;
    size_t start;
    size_t end;
} odr_step_answer;
odr_step_answer odr_step(uint64_t edition, const uint8_t *reel, size_t reel_len, size_t place);

/* ---- Blocks: a record cut into blocks of ODR_BLOCK_BYTES for delivery over poor lines. A block is, each number high byte first:
 *
 *     bytes 0-1      the record number
 *     bytes 2-3      the index of the block, from 0
 *     bytes 4-5      the payload's length, 1 to ODR_PAYLOAD_BYTES; every block but the last is full
 *     bytes 6-509    the payload, the record's next bytes, with zeros after the last used one
 *     bytes 510-511  the check: the sum of each of the first 510 bytes times its place, counted from 1, modulo 65,521
 *
 * One byte changed anywhere in a block whose check is right, or two unequal bytes among its first 510 changing places, makes the
 * check a bad one. Such a block alone is asked for again: odr_bad_block tells which, and odr_export_block makes just that.
 *
 * What is written goes to the start of `out`; bytes past it keep their contents. */

/* The bytes written; 0 beside a refusal. */
typedef struct {
    uint8_t refusal;
    size_t length;
} odr_length_answer;

/* The blocks of a record. length: ODR_BLOCK_BYTES for each block. 25, 1 to 11, 21. */
odr_length_answer odr_export(uint64_t edition, const uint8_t *record, size_t record_len, uint8_t *out, size_t out_len);

/* Block `index` of a record alone, counted from 0: just the bytes that odr_export writes at ODR_BLOCK_BYTES * index. length:
 * ODR_BLOCK_BYTES. 25, 1 to 11, 28 where the record has no block of that index, 21 where `out` holds less than a block. */
odr_length_answer odr_export_block(uint64_t edition, const uint8_t *record, size_t record_len, size_t index, uint8_t *out,
                                   size_t out_len);

/* The record that blocks carry, of which only what odr_export writes is accepted. length: bytes of the record. 25, 27, 28, 1 to 11
 * of the record, 21. */
odr_length_answer odr_import(uint64_t edition, const uint8_t *blocks, size_t blocks_len, uint8_t *out, size_t out_len);

/* The first whole block whose check is bad: its index from 0, where one was found; else `index` is 0. A part block at the end is
 * not looked at. No refusals. */
typedef struct {
    bool found;
    size_t index;
} odr_bad_block_answer;
odr_bad_block_answer odr_bad_block(const uint8_t *blocks, size_t blocks_len);

/* ---- The index of seconds. What opening gave goes into every later call, by value, so that no call can change it. The cells are
 * the caller's: ODR_CELLS for each record number 1 to highest_number in `rows`, and for each second of the window in `seconds`.
 *
 * As long as nobody but these calls writes to the cells, and each call gets what odr_open returned: every call answers as if it
 * had kept the bytes of every record that was inserted and is still held, and worked each second out from nothing. That is proved
 * for every list of calls, refused ones included (crates/odr/proofs/Demand3.antt).
 */
typedef struct {
    uint64_t first_second;
    uint64_t second_count;
    uint64_t highest_number;
    uint64_t edition;
    uint64_t sample_rate_hz;
    uint64_t tape_number;
    uint64_t year;
    uint64_t day;
    uint64_t spacecraft;
    uint64_t spc;
} odr_opening;
typedef struct {
    uint8_t refusal;
    odr_opening opening;
} odr_open_answer;

/* Opens an index for the edition and the reel of the pattern, a record, which is not inserted: the window is `second_count`
 * seconds of the day from `first_second` on, and record numbers go from 1 to `highest_number`. The cells of its rows and seconds
 * become 0. 25, 1 to 11 of the pattern, 13, 14. */
odr_open_answer odr_open(uint64_t edition, const uint8_t *pattern, size_t pattern_len, uint64_t first_second,
                         uint64_t second_count, uint64_t highest_number, uint32_t *rows, size_t rows_len, uint32_t *seconds,
                         size_t seconds_len);

/* Inserts a record of the edition named under its number, in place of any there. Its second is that of its time tag. 25, 1 to 11,
 * 13, 14, 15 also where the edition is not that of the index, 16 to 18. */
uint8_t odr_insert(odr_opening opening, uint64_t edition, const uint8_t *record, size_t record_len, uint32_t *rows,
                   size_t rows_len, uint32_t *seconds, size_t seconds_len);

/* Removes the record of a number. 13, 14, 16, 19. */
uint8_t odr_remove(odr_opening opening, uint64_t number, uint32_t *rows, size_t rows_len, uint32_t *seconds, size_t seconds_len);

/* A second of the day: its records, those with clock origin, those with copy error, the totals of each channel, and whether it is
 * kept. A second of no records has 0 throughout. 13, 14, 17. */
typedef struct {
    uint8_t refusal;
    uint32_t records;
    uint32_t origins;
    uint32_t errors;
    odr_total channels[4];
    bool kept;
} odr_second_answer;
odr_second_answer odr_query(odr_opening opening, uint64_t second, const uint32_t *rows, size_t rows_len, const uint32_t *seconds,
                            size_t seconds_len);

/* Mean and mean square of channels 1 to 4 of a second; both are 0 for no samples. 13, 14, 17. */
typedef struct {
    double mean;
    double mean_square;
} odr_means;
typedef struct {
    uint8_t refusal;
    odr_means channels[4];
} odr_means_answer;
odr_means_answer odr_second_means(odr_opening opening, uint64_t second, const uint32_t *rows, size_t rows_len,
                                  const uint32_t *seconds, size_t seconds_len);

/* The consistency test: whether no held row is of a second outside the window and the second cells are those that the rows give.
 * 13, 14. */
typedef struct {
    uint8_t refusal;
    bool consistent;
} odr_consistency_answer;
odr_consistency_answer odr_is_consistent(odr_opening opening, const uint32_t *rows, size_t rows_len, const uint32_t *seconds,
                                         size_t seconds_len);

/* ---- Text. It goes to the start of the buffer; bytes past it keep their contents. */

typedef struct {
    uint8_t refusal;
    size_t length;
} odr_text_answer;

/* The listing's line of a record of 1985. 1 to 11, 21. */
odr_text_answer odr_record_line(const uint8_t *record, size_t record_len, uint8_t *text, size_t text_len);

/* The whole listing of a reel of 1985; 24 and any other refusal of the reel is a line of it. 21. */
odr_text_answer odr_list(const uint8_t *input, size_t input_len, uint8_t *text, size_t text_len);

#ifdef __cplusplus
}
#endif

#endif
