/* Calls every function of c/odr.h from C and prints its answers, for tests/boundary.sh. What tests/boundary.out has was worked
 * out by hand from docs/FORMAT.md and from modules RSC-11-10 and RSC-11-11, as the comments here say. There is one record of
 * each edition, of noon, with two records in a second:
 *   1985: that of "Cases worked by hand": 780 bytes, 200 samples a second, 100 samples a channel, N = 240, so its monitor words
 *         start at byte 480; year 86, day 24
 *   1992: 583 words, 1,166 bytes, 500 samples a second, 250 samples a channel; year 92, day 275 */
#include "odr.h"

#include <inttypes.h>
#include <stdio.h>
#include <string.h>

#define COUNT(list) (sizeof list / sizeof list[0])
enum { LENGTH_1985 = 780, LENGTH_1992 = 1166, MOST_SAMPLES = 250 };
enum { NUMBERS = 3, SECONDS = 2, NOON = 43200, MONITOR = 480 };

_Static_assert(sizeof(odr_header) == 8 * ODR_HEADER_VALUES, "a header is its values");
_Static_assert(ODR_LONGEST_RECORD == 2 * (40 + 2 * 1000 + 150 + 5), "header, samples, monitor words, operator offsets");
_Static_assert(ODR_LONGEST_RECORD >= 2 * (83 + 2 * 1000), "header and samples of 1992");
_Static_assert(sizeof(odr_opening) == 10 * 8, "an opening is ten numbers");
_Static_assert(sizeof((odr_segment_answer){0}.bytes) == ODR_LONGEST_SEGMENT, "a segment's bytes");
_Static_assert(ODR_LONGEST_SEGMENT == 2 * (50 - 6 + 1), "segment 7 is the longest: monitor words 6 to 50");
_Static_assert(_Generic((odr_time_answer){0}.microseconds, int64_t : 1, default : 0), "a time is signed");
_Static_assert(sizeof((odr_totals_answer){0}.channels) == 4 * sizeof(odr_total), "four channels");
_Static_assert(sizeof((odr_second_answer){0}.channels) == 4 * sizeof(odr_total), "four channels");
_Static_assert(sizeof((odr_means_answer){0}.channels) == 4 * sizeof(odr_means), "four channels");
_Static_assert(sizeof(odr_total) == 8 + 8 + 1 + 1 + 2 + 4, "a total, and two bytes before its count that are nothing");
_Static_assert(ODR_CELLS == 4 + 4 * 5, "four cells of the records and their second, five of each channel");
_Static_assert(ODR_FINISHED > (int)ODR_NO_SEGMENTS && ODR_FINISHED <= UINT8_MAX, "finished is no refusal and fits an answer");
_Static_assert(ODR_FINISHED > (int)ODR_WRONG_BLOCKS, "finished is no refusal of blocks");
_Static_assert(ODR_BLOCK_BYTES == 3 * 2 + ODR_PAYLOAD_BYTES + 2, "number, index, length, payload and check");
_Static_assert(ODR_LONGEST_RECORD == 8 * ODR_PAYLOAD_BYTES + 358 && ODR_LONGEST_EXPORT == 9 * ODR_BLOCK_BYTES, "nine blocks");

/* The longest line: a number of 5 digits, microseconds of 11, an origin of 1, 8 digits of hertz with a point and 6 places, a
 * minus and 7 digits of hertz a second with a point and 5 places, four commas and a line feed. The microseconds are 10,000 before
 * the tag's; those below zero have 6 characters at most, -10000. */
#define LONGEST_LINE "65535,86399989000,1,99999999.999999,-9999900.00000\n"
enum { HEADER_LINE = 41, LINE = 5 + 11 + 1 + 15 + 14 + 4 + 1, RECORDS = ODR_LONGEST_INPUT / LENGTH_1985 };
_Static_assert(sizeof LONGEST_LINE - 1 == LINE && LINE == 51 && RECORDS == 84, "the longest line, the most records");
_Static_assert(ODR_LONGEST_LISTING == HEADER_LINE + RECORDS * LINE + sizeof "refused,1\n" - 1, "the longest listing");

typedef struct {
    uint64_t edition;
    size_t header;  /* bytes of it */
    size_t length;  /* bytes of the record */
    size_t samples; /* of a channel */
    uint8_t bytes[ODR_LONGEST_RECORD];
} example;

static example of_1985 = {ODR_EDITION_1985, 80, LENGTH_1985, 100, {0}};
static example of_1992 = {ODR_EDITION_1992, 166, LENGTH_1992, 250, {0}};

static unsigned word(const uint8_t *bytes, int word) {
    return (unsigned)bytes[2 * word - 2] << 8 | bytes[2 * word - 1];
}

static void set_word(uint8_t *bytes, int word, unsigned value) {
    bytes[2 * word - 2] = (uint8_t)(value >> 8);
    bytes[2 * word - 1] = (uint8_t)value;
}

static void set_words(uint8_t *bytes, const unsigned (*words)[2], size_t count) {
    for (size_t i = 0; i < count; i++) {
        set_word(bytes, (int)words[i][0], words[i][1]);
    }
}

/* A tag of 27 bits: eleven in word 7, behind five that stay, and sixteen in word 8. */
static void set_tag(example *r, uint64_t ms) {
    set_word(r->bytes, 7, (word(r->bytes, 7) & 0xF800) | (unsigned)(ms >> 16));
    set_word(r->bytes, 8, (unsigned)(ms & 0xFFFF));
}

/* The record at another rate, with so many samples a channel: two words for each, beside 40 + 150 others in 1985, 83 in 1992. */
static example at_rate(const example *given, unsigned hz, unsigned samples) {
    example r = *given;
    unsigned words = (r.edition == ODR_EDITION_1985 ? 190 : 83) + 2 * samples;
    r.length = 2 * words;
    r.samples = samples;
    set_word(r.bytes, 3, words);
    set_word(r.bytes, r.edition == ODR_EDITION_1985 ? 37 : 80, hz);
    return r;
}

static uint8_t refusal(const example *r) {
    return odr_refusal(r->edition, r->bytes, r->length);
}

static uint8_t read_header(const example *r, odr_header *header) {
    return odr_read_header(r->edition, r->bytes, r->length, header);
}

static uint8_t write_header(example *r, const odr_header *header) {
    return odr_write_header(r->edition, r->bytes, r->length, header);
}

static void print_channels(const odr_total *channels) {
    for (int c = 0; c < 4; c++) {
        printf("  channel %d: %" PRId64 " %" PRIu64 " %d %d, %" PRIu32 " clipped\n", c + 1, channels[c].sum, channels[c].squares,
               channels[c].least, channels[c].greatest, channels[c].clipped);
    }
}

typedef struct {
    enum odr_field field;
    uint64_t value;
} field_value;

static void set_values(odr_header *header, const field_value *given, size_t count) {
    for (size_t i = 0; i < count; i++) {
        header->value[given[i].field] = given[i].value;
    }
}

/* Every common field that the records have 0 in gets a value by its name, but for session start and copy error. A tag of 27 bits
 * starts at bit 6 of its word, so 7ABCDEF is 07AB and CDEF, and 123456 behind the filter 9 of 1985 is 9012 and 3456; 86,399,999
 * is 5265BFF hex. */
static void set_common(odr_header *header) {
    static const field_value given[] = {
        {ODR_PRIME_FEA, 0x11},
        {ODR_SECONDARY_FEA, 0x22},
        {ODR_SPACECRAFT, 0x33},
        {ODR_SPC, 0x44},
        {ODR_STATUS, 0x5A},
        {ODR_READBACK_TAG_MS, 86399999},
        {ODR_CALCULATED_UHZ, 12345678901234},
        {ODR_UPDATE_TAG_MS, 0x123456},
        {ODR_SELECTOR_1, 1},
        {ODR_SELECTOR_2, 2},
        {ODR_SELECTOR_3, 3},
        {ODR_SELECTOR_4, 4},
        {ODR_COUNTER_TAG_MS, 0x7ABCDEF},
    };
    set_values(header, given, COUNT(given));
    for (uint64_t i = 0; i < 10; i++) {
        header->value[ODR_PREDICT_0 + i] = 0xA0 + i;
    }
}

/* The fields of one edition, and phases of 1.5 and 0.25 cycles in 1985, of 1 and 0.25 in 1992, where 2^20 counts are a cycle. In
 * 1992 word 26 has the codes 01 and 10 in bits 1 to 4, before four bits that stay; word 37 has 300 days in nine bits, five bits
 * that stay, the sign, and the first of the 17 bits of 86,399 seconds, 1517F hex; -1 Hz is -2^20, FFFFFFF00000 hex in 48 bits. */
static void set_fields(const example *r, odr_header *header) {
    static const field_value given_1985[] = {
        {ODR_PHASE_1, 384},    {ODR_PHASE_2, 64},      {ODR_FILTER, 9},
        {ODR_WORD_39, 0x1985}, {ODR_REGISTER_1, 0x56}, {ODR_REGISTER_2, 0x78},
    };
    static const field_value given_1992[] = {
        {ODR_PHASE_1, 1 << 20},           {ODR_PHASE_2, 1 << 18},
        {ODR_RF_CONFIGURATION, 1},        {ODR_RF_CONFIGURATION_REPORTED, 2},
        {ODR_TIME_OFFSET_DAYS, 300},      {ODR_TIME_OFFSET_SIGN, 1},
        {ODR_TIME_OFFSET_SECONDS, 86399}, {ODR_FREQUENCY_OFFSET, (uint64_t)INT64_C(-1048576)},
    };
    set_common(header);
    if (r->edition == ODR_EDITION_1985) {
        set_values(header, given_1985, COUNT(given_1985));
    } else {
        set_values(header, given_1992, COUNT(given_1992));
    }
}

static void print_words(const uint8_t *bytes, int count) {
    for (int w = 1; w <= count; w++) {
        printf("%s%04X", w % 20 == 1 ? "\n  " : " ", word(bytes, w));
    }
}

/* Values are printed as signed numbers: a frequency offset can be below 0, and no other value is above 2^63. Clock origin 2 has
 * no place in one bit, 22; a record tag of 86,400,000 is 9 and not 22. */
static void headers(example *r) {
    odr_header header;
    size_t short_of = r->header - 1;
    printf("refusal %u, of %zu bytes %u\n", refusal(r), short_of, odr_refusal(r->edition, r->bytes, short_of));
    printf("read_header %u\n ", read_header(r, &header));
    for (int i = 0; i < ODR_HEADER_VALUES; i++) {
        printf(" %" PRId64, (int64_t)header.value[i]);
    }
    odr_header kept = header;
    printf("\nread_header of %zu bytes %u", short_of, odr_read_header(r->edition, r->bytes, short_of, &kept));
    printf(", as it was: %s\n", memcmp(&kept, &header, sizeof kept) == 0 ? "yes" : "no");
    set_fields(r, &header);
    printf("write_header %u", write_header(r, &header));
    print_words(r->bytes, (int)r->header / 2);
    printf("\nread_header %u", read_header(r, &kept));
    printf(", as written: %s\n", memcmp(&kept, &header, sizeof kept) == 0 ? "yes" : "no");
    header.value[ODR_CLOCK_ORIGIN] = 2;
    printf("write_header with clock origin 2 %u", write_header(r, &header));
    header.value[ODR_TIME_TAG_MS] = 86400000;
    printf(", and tag 86,400,000 %u\n", write_header(r, &header));
}

/* The rate is 12,345 times 10, negative. */
static void rates_and_phases(const example *r) {
    const size_t lengths[] = {r->length, r->header - 1};
    for (int i = 0; i < 2; i++) {
        odr_frequency_rate_answer rate = odr_frequency_rate(r->edition, r->bytes, lengths[i]);
        odr_phases_answer phases = odr_phases(r->edition, r->bytes, lengths[i]);
        printf("frequency_rate %u %" PRId64 ", phases %u %g %g\n", rate.refusal, rate.units, phases.refusal, phases.first,
               phases.second);
    }
}

/* The examples of the module of 1992, which hold in both editions: 12 hex in word 26, and these words 27, are -1.2345, 123.45 and
 * 0.12345 Hz/s. Counts of 48 ones are 2^40 - 1/256 cycles in 1985, 2^28 - 1/2^20 in 1992. */
static void examples_of_rates(const example *given) {
    static const unsigned words[] = {0x3452, 0x3457, 0x3451};
    example r = *given;
    printf("frequency_rate of");
    for (int i = 0; i < 3; i++) {
        set_word(r.bytes, 27, words[i]);
        odr_frequency_rate_answer rate = odr_frequency_rate(r.edition, r.bytes, r.length);
        printf(" %04X: %u %" PRId64 "%s", words[i], rate.refusal, rate.units, i < 2 ? "," : "\n");
    }
    memset(r.bytes + 54, 0xFF, 12);
    odr_phases_answer phases = odr_phases(r.edition, r.bytes, r.length);
    printf("phases of ones %u %.30g %.30g\n", phases.refusal, phases.first, phases.second);
}

/* The places whose fields the editions do not share: the greatest value of each is written, and the next is 22. Places 46 and 47
 * have no field in 1985, so that nothing but 0 is written there. */
static void widths(const example *given) {
    static const int places[] = {40, 43, 44, 45, 46, 47};
    static const uint64_t greatest[2][6] = {{15, 65535, 255, 255, 0, 0}, {3, 3, 511, 1, 131071, 140737488355327}};
    for (int i = 0; i < 6; i++) {
        uint64_t value = greatest[given->edition == ODR_EDITION_1992][i];
        example r = *given;
        odr_header header = {{0}};
        read_header(&r, &header);
        header.value[places[i]] = value + 1;
        printf("place %d: %" PRIu64 " is %u,", places[i], value + 1, write_header(&r, &header));
        header.value[places[i]] = value;
        printf(" %" PRIu64 " is %u", value, write_header(&r, &header));
        read_header(&r, &header);
        printf(", read back %" PRIu64 "\n", header.value[places[i]]);
    }
}

/* The conversion bit, bit 4 of word 1, is 0 for samples of 8 bits in 1985, and 1 in 1992; the other is 3. 2 has no room there. */
static void conversions(const example *given) {
    for (unsigned value = 0; value < 3; value++) {
        example r = *given;
        odr_header header = {{0}};
        read_header(&r, &header);
        header.value[ODR_CONVERSION] = value;
        printf("conversion %u: written %u", value, write_header(&r, &header));
        set_word(r.bytes, 1, (word(r.bytes, 1) & 0xEFFF) | (value & 1) << 12);
        printf(", its last bit read %u\n", refusal(&r));
    }
}

/* With clock origin 1 the sync word, word 38 or 81, is A55A hex or the record is 11; with 0 it is not judged. */
static void sync_words(const example *given) {
    example r = *given;
    set_word(r.bytes, r.edition == ODR_EDITION_1985 ? 38 : 81, 0xA55B);
    printf("sync word A55B: %u", refusal(&r));
    r.bytes[0] &= 0x7F;
    printf(", with clock origin 0 %u\n", refusal(&r));
}

/* Years divisible by 4 have a day 366, and 00 is one of them; a date that is written is judged as one that is read. Word 6 has
 * the year in its first seven bits and the day in the other nine. */
static void dates(const example *given) {
    static const unsigned asked[][2] = {{84, 366}, {84, 367}, {86, 365}, {86, 366}, {0, 366}, {99, 366}};
    for (size_t i = 0; i < COUNT(asked); i++) {
        example r = *given;
        odr_header header = {{0}};
        read_header(&r, &header);
        header.value[ODR_YEAR] = asked[i][0];
        header.value[ODR_DAY] = asked[i][1];
        uint8_t written = write_header(&r, &header);
        set_word(r.bytes, 6, asked[i][0] << 9 | asked[i][1]);
        printf("day %u of year %02u: read %u, written %u\n", asked[i][1], asked[i][0], refusal(&r), written);
    }
}

/* 48 bits of two's complement go from -2^47, 8000 0000 0000 hex, to 2^47 - 1; all ones are -1. The last three are outside, and
 * the record keeps its -2^20. */
static void frequency_offsets(const example *given) {
    static const int64_t offsets[] = {-1, 0, 140737488355327, -140737488355328, 140737488355328, -140737488355329, INT64_MIN};
    for (size_t i = 0; i < COUNT(offsets); i++) {
        example r = *given;
        odr_header header = {{0}};
        read_header(&r, &header);
        header.value[ODR_FREQUENCY_OFFSET] = (uint64_t)offsets[i];
        printf("frequency_offset %" PRId64 ": %u, words", offsets[i], write_header(&r, &header));
        read_header(&r, &header);
        printf(" %04X %04X %04X, read back %" PRId64 "\n", word(r.bytes, 39), word(r.bytes, 40), word(r.bytes, 41),
               (int64_t)header.value[ODR_FREQUENCY_OFFSET]);
    }
}

static void print_rates(uint64_t edition, const uint64_t *asked, size_t count) {
    for (size_t i = 0; i < count; i++) {
        odr_sample_rate_answer rate = odr_sample_rate(edition, asked[i]);
        printf("sample_rate %" PRIu64 ": %u, %" PRIu64 " samples, %" PRIu64 " records, %" PRIu64 " us\n", asked[i], rate.refusal,
               rate.samples, rate.records, rate.interval_us);
    }
}

/* In 1985 five rates have 1,000 samples in a record, 1,000 has 500 and 200 has 100; in 1992 Table 1 of its module says how many.
 * The rate over that is the records of a second, a million over the rate the microseconds. Two numbers are 200 more than 2^16 and
 * 2^32; 31,250 is a rate of 1992 alone. */
static void sample_rates(const example *r) {
    static const uint64_t asked_1985[] = {50000, 20000, 10000, 5000, 2000,  1000,   200,   0,         1,
                                          100,   199,   201,   500,  31250, 100000, 65736, 4294967496};
    static const uint64_t asked_1992[] = {50000, 31250, 25000, 20000, 15625, 12500,  10000, 6250,      5000,
                                          4000,  3125,  2500,  2000,  1250,  1000,   500,   400,       250,
                                          200,   0,     100,   199,   201,   100000, 65736, 4294967496};
    if (r->edition == ODR_EDITION_1985) {
        print_rates(r->edition, asked_1985, COUNT(asked_1985));
    } else {
        print_rates(r->edition, asked_1992, COUNT(asked_1992));
    }
}

/* Channel 1 is 3, -4 and then 0: sum -1, squares 9 + 16; 2 is 1 throughout; 3 is -128, 16,384 when squared; 4 is 127, 16,129. All
 * samples of 3 and 4 are clipped, and none of the others. The first set of samples stands behind the header, a byte for each
 * channel: 03 01 80 7F. */
static void samples(example *r) {
    int8_t one[MOST_SAMPLES] = {3, -4}, two[MOST_SAMPLES], three[MOST_SAMPLES], four[MOST_SAMPLES], out[4][MOST_SAMPLES + 1];
    const size_t n = r->samples;
    memset(two, 1, sizeof two);
    memset(three, -128, sizeof three);
    memset(four, 127, sizeof four);
    memset(out, 77, sizeof out);
    printf("write_samples %u", odr_write_samples(r->edition, r->bytes, r->length, one, n, two, n, three, n, four, n));
    printf(", %zu in a channel %u\n", n - 1,
           odr_write_samples(r->edition, r->bytes, r->length, one, n, two, n, three, n - 1, four, n));
    printf("bytes from %zu on:", r->header);
    for (size_t i = 0; i < 8; i++) {
        printf(" %02X", r->bytes[r->header + i]);
    }
    printf("\nread_samples %u\n",
           odr_read_samples(r->edition, r->bytes, r->length, out[0], n + 1, out[1], n + 1, out[2], n + 1, out[3], n + 1));
    for (int c = 0; c < 4; c++) {
        printf("  channel %d: %d %d %d %d\n", c + 1, out[c][0], out[c][1], out[c][n - 1], out[c][n]);
    }
}

static void totals(const example *r) {
    odr_totals_answer totals = odr_totals(r->edition, r->bytes, r->length);
    printf("totals %u\n", totals.refusal);
    print_channels(totals.channels);
    totals = odr_totals(r->edition, r->bytes, r->length - 1);
    printf("totals of %zu bytes %u\n", r->length - 1, totals.refusal);
    print_channels(totals.channels);
}

/* Noon is 43,200,000,000 microseconds, and the time of sample 2. Samples are 5,000 apart at 200 a second and 2,000 at 500: sample
 * 0 is 2 * 5,000 or 2 * 2,000 before noon, the last 97 * 5,000 after it in 1985, and 247 * 2,000 in 1992. */
static void times(const example *r) {
    const uint64_t asked[] = {0, r->samples - 1, r->samples, UINT64_MAX};
    for (size_t i = 0; i < COUNT(asked); i++) {
        odr_time_answer time = odr_sample_time(r->edition, r->bytes, r->length, asked[i]);
        printf("sample_time %u %" PRId64 "\n", time.refusal, time.microseconds);
    }
}

static void print_times(const example *given, unsigned hz, unsigned samples) {
    static const uint64_t tags[] = {0, 1, 10, 86399999};
    const uint64_t asked[] = {0, 1, 2, 3, samples - 1, samples};
    example r = at_rate(given, hz, samples);
    for (size_t t = 0; t < COUNT(tags); t++) {
        set_tag(&r, tags[t]);
        printf("sample_time at %u, tag %" PRIu64 ":", hz, tags[t]);
        for (size_t i = 0; i < COUNT(asked); i++) {
            odr_time_answer time = odr_sample_time(r.edition, r.bytes, r.length, asked[i]);
            printf("%s %u %" PRId64, i == 0 ? "" : ",", time.refusal, time.microseconds);
        }
        printf("\n");
    }
}

/* Samples 0 to 3, the last, and the one after it, 12. They are 5,000 apart at 200 a second, 20 at 50,000, the fastest rate of
 * both editions, and 32 at 31,250, which 1992 alone has. The tag is the time of sample 2: samples 0 and 1 are two intervals and
 * one before it, and the last is 97, 997 or 622 after it. With tag 0 the first two are on the day before; with the day's last
 * millisecond, 86,399,999, those from 1 ms after the tag on are on the day after. */
static void times_of_tags(const example *r) {
    print_times(r, 200, 100);
    print_times(r, 50000, 1000);
    if (r->edition == ODR_EDITION_1992) {
        print_times(r, 31250, 625);
    }
}

/* Beside a refusal a time is 0, also that of sample 0 with tag 0: of an unknown edition, 25, and of a byte less than a header, 1;
 * a tag of 86,400,000 is 9. */
static void refused_times(const example *given) {
    example r = *given;
    set_tag(&r, 0);
    odr_time_answer unknown = odr_sample_time(1986, r.bytes, r.length, 0);
    odr_time_answer cut = odr_sample_time(r.edition, r.bytes, r.header - 1, 0);
    set_tag(&r, 86400000);
    odr_time_answer past = odr_sample_time(r.edition, r.bytes, r.length, 0);
    printf("sample_time refused: %u %" PRId64 ", %u %" PRId64 ", %u %" PRId64 "\n", unknown.refusal, unknown.microseconds,
           cut.refusal, cut.microseconds, past.refusal, past.microseconds);
}

static int last_byte(const odr_segment_answer *answer) {
    return answer->length == 0 ? 0 : answer->bytes[answer->length - 1];
}

/* The edition is that of the earlier record. */
static void segment(const char *name, const example *this_record, const example *earlier, uint64_t number) {
    odr_segment_answer answer =
        odr_segment(earlier->edition, this_record->bytes, this_record->length, earlier->bytes, earlier->length, number);
    int others = 0;
    for (size_t i = 0; i < ODR_LONGEST_SEGMENT; i++) {
        others += answer.bytes[i] != 0;
    }
    printf("segment %s %u, %zu bytes: %d to %d, %d not 0\n", name, answer.refusal, answer.length, answer.bytes[0],
           last_byte(&answer), others);
}

/* Segment 7, status bit 1, is monitor words 6 to 50: bytes 10 to 99 from byte 480 on, and is new in the earlier record alone.
 * Segment 2, bit 3, is words 64 to 78: bytes 126 to 155, and is new in both. Segment 5, bit 2, is new in neither; there is no
 * segment 1. */
static void segments(void) {
    example this_record = of_1985, earlier = of_1985;
    this_record.bytes[MONITOR] = 0x20;
    this_record.bytes[MONITOR + 126] = 33;
    this_record.bytes[MONITOR + 155] = 44;
    earlier.bytes[MONITOR] = 0xA0;
    earlier.bytes[MONITOR + 10] = 11;
    earlier.bytes[MONITOR + 99] = 22;
    earlier.bytes[MONITOR + 126] = 55;
    segment("7", &this_record, &earlier, 7);
    segment("2", &this_record, &earlier, 2);
    segment("5", &this_record, &earlier, 5);
    segment("1", &this_record, &earlier, 1);
    earlier.length = 79;
    segment("1 after 79 bytes", &this_record, &earlier, 1);
}

/* All seven, by the paper's first and last words and twice its counts: each monitor word has its own number in its second byte, and
 * in its first 254, so that the status says of every segment that it is new. */
static void numbered_segments(void) {
    static const uint64_t numbers[] = {7, 5, 2, 6, 10, 4, 8};
    example r = of_1985;
    for (int word = 1; word <= 150; word++) {
        r.bytes[MONITOR + 2 * word - 2] = 254;
        r.bytes[MONITOR + 2 * word - 1] = (uint8_t)word;
    }
    for (size_t i = 0; i < COUNT(numbers); i++) {
        odr_segment_answer answer = odr_segment(r.edition, r.bytes, r.length, r.bytes, r.length, numbers[i]);
        printf("segment %" PRIu64 " of numbered words %u, %zu bytes: %d to %d\n", numbers[i], answer.refusal, answer.length,
               answer.bytes[1], last_byte(&answer));
    }
}

/* 1992 has no segments: 26, of any number, after the refusals of this record, where one of 1985 is 3, and of the earlier one. */
static void no_segments(void) {
    example part = of_1992;
    part.length = 165;
    segment("7", &of_1992, &of_1992, 7);
    segment("1", &of_1992, &of_1992, 1);
    segment("1 of 165 bytes", &part, &of_1992, 1);
    segment("1 after 165 bytes", &of_1992, &part, 1);
    segment("1 of 1985 after 165 bytes", &of_1985, &part, 1);
}

/* The loop of c/odr.h: it ends on every reel. */
static void walk(const char *name, uint64_t edition, const uint8_t *reel, size_t reel_len) {
    odr_step_answer step;
    printf("reel %s:", name);
    for (size_t place = 0; (step = odr_step(edition, reel, reel_len, place)).answer == 0; place = step.end) {
        odr_header header = {{0}};
        odr_read_header(edition, reel + step.start, step.end - step.start, &header);
        printf(" %zu to %zu is number %" PRIu64 ",", step.start, step.end, header.value[ODR_RECORD_NUMBER]);
    }
    printf(" then %u %zu %zu\n", step.answer, step.start, step.end);
}

/* Two records, numbers 1 and 2. Cut by a byte, the second is longer than what is left, 2; with a byte less than a header behind
 * them, that is 1; with tape number 0 in the second, 7. Inside the record word 3 starts with 86 or 47 hex, more than is left. */
static void reels(const example *r) {
    uint8_t reel[2 * LENGTH_1992 + 165] = {0};
    const size_t n = r->length;
    memcpy(reel, r->bytes, n);
    memcpy(reel + n, r->bytes, n);
    set_word(reel + n, 2, 2);
    walk("of two records", r->edition, reel, 2 * n);
    walk("cut", r->edition, reel, 2 * n - 1);
    walk(r->header == 80 ? "with 79 bytes left" : "with 165 bytes left", r->edition, reel, 2 * n + r->header - 1);
    reel[n + 1] = 0;
    walk("with tape number 0", r->edition, reel, 2 * n);
    walk("of nothing", r->edition, reel, 0);
    printf("step past the end %u, inside a record %u\n", odr_step(r->edition, reel, n, SIZE_MAX).answer,
           odr_step(r->edition, reel, n, 1).answer);
}

/* A reel of 166 bytes that are 0 but for word 3. Below the words of a header, 40 or 83, it is 1. From there on the bytes are
 * judged: in 1985 their compression 0 is 4, in 1992 their conversion bit 0 is 3. Fewer bytes than a header are 1, not 2. */
static void shortest_lengths(const example *r) {
    static const unsigned lengths[] = {39, 40, 82, 83};
    uint8_t reel[166] = {0};
    printf("step where word 3 is");
    for (int i = 0; i < 4; i++) {
        set_word(reel, 3, lengths[i]);
        printf(" %u: %u,", lengths[i], odr_step(r->edition, reel, sizeof reel, 0).answer);
    }
    printf(" of %zu bytes %u\n", r->header - 1, odr_step(r->edition, reel, r->header - 1, 0).answer);
}

enum { BLOCK = ODR_BLOCK_BYTES, PAYLOAD = ODR_PAYLOAD_BYTES, CHECK = BLOCK / 2, MODULUS = 65521, MOST_INDICES = 65536 };

/* The check, the last word of a block, by its definition: the sum of the first 510 bytes, each times its place, modulo 65,521. */
static void set_check(uint8_t *block) {
    unsigned sum = 0;
    for (unsigned place = 1; place <= 510; place++) {
        sum += place * block[place - 1];
    }
    set_word(block, CHECK, sum % MODULUS);
}

/* Bytes cut into blocks, whether they are a record or not; no bytes are one block of none. The number of the blocks is what stands
 * in the place of word 2. Returns the bytes of the blocks. */
static size_t cut(const uint8_t *bytes, size_t count, uint8_t *blocks) {
    uint8_t *block = blocks;
    for (unsigned index = 0; index == 0 || count > 0; index++) {
        size_t used = count < PAYLOAD ? count : PAYLOAD;
        memset(block, 0, BLOCK);
        memcpy(block + 6, bytes, used);
        set_word(block, 1, word(blocks + 6, 2));
        set_word(block, 2, index);
        set_word(block, 3, (unsigned)used);
        set_check(block);
        bytes += used;
        count -= used;
        block += BLOCK;
    }
    return (size_t)(block - blocks);
}

static const char *match(const uint8_t *one, const uint8_t *other, size_t length) {
    return memcmp(one, other, length) == 0 ? "the same" : "not the same";
}

/* Whether every byte is still the 77 that a buffer was filled with. */
static bool untouched(const uint8_t *bytes, size_t length) {
    size_t kept = 0;
    while (kept < length && bytes[kept] == 77) {
        kept++;
    }
    return kept == length;
}

/* The blocks of a record, the same as those that are cut here: the first three words of each, its check, and the block alone; then
 * the record back. The byte past what is written stays 77. */
static void deliver(const char *name, const example *r) {
    uint8_t out[ODR_LONGEST_EXPORT + 1], expected[ODR_LONGEST_EXPORT], record[ODR_LONGEST_RECORD + 1];
    cut(r->bytes, r->length, expected);
    memset(out, 77, sizeof out);
    memset(record, 77, sizeof record);
    odr_length_answer answer = odr_export(r->edition, r->bytes, r->length, out, sizeof out);
    printf("export %s %u, %zu bytes, %s, then %u\n", name, answer.refusal, answer.length, match(out, expected, answer.length),
           out[answer.length]);
    for (size_t i = 0; i < answer.length / BLOCK; i++) {
        const uint8_t *block = out + BLOCK * i;
        uint8_t one[BLOCK + 1];
        memset(one, 77, sizeof one);
        odr_length_answer alone = odr_export_block(r->edition, r->bytes, r->length, i, one, sizeof one);
        printf("  %04X %04X %04X, check %04X; alone %u, %zu bytes, %s, then %u\n", word(block, 1), word(block, 2), word(block, 3),
               word(block, CHECK), alone.refusal, alone.length, match(one, block, BLOCK), one[BLOCK]);
    }
    odr_length_answer back = odr_import(r->edition, out, answer.length, record, sizeof record);
    printf("import %u, %zu bytes, %s, then %u\n", back.refusal, back.length, match(record, r->bytes, r->length),
           record[back.length]);
}

static void print_room(const char *name, size_t room, odr_length_answer answer, const uint8_t *out, size_t length) {
    printf("%s into %zu bytes %u, %zu bytes, as it was: %s\n", name, room, answer.refusal, answer.length,
           untouched(out, length) ? "yes" : "no");
}

static void into(const example *r, size_t blocks_room, size_t block_room, size_t record_room) {
    uint8_t blocks[ODR_LONGEST_EXPORT], out[ODR_LONGEST_EXPORT];
    const size_t n = r->length, whole = cut(r->bytes, n, blocks);
    memset(out, 77, sizeof out);
    print_room("export", blocks_room, odr_export(r->edition, r->bytes, n, out, blocks_room), out, sizeof out);
    memset(out, 77, sizeof out);
    print_room("export_block", block_room, odr_export_block(r->edition, r->bytes, n, 1, out, block_room), out, sizeof out);
    memset(out, 77, sizeof out);
    print_room("import", record_room, odr_import(r->edition, blocks, whole, out, record_room), out, sizeof out);
}

/* A byte less than the blocks, the block or the record have, and none: 21, and nothing is written. Just so many: 0. */
static void rooms(const example *r, size_t whole) {
    into(r, whole - 1, BLOCK - 1, r->length - 1);
    into(r, 0, 0, 0);
    into(r, whole, BLOCK, r->length);
}

/* The record has blocks 0 and 1. The last four are 1 more than 2^16, 2^32 and 2^55, where 512 times the index passes 2^64, and the
 * greatest. */
static void indices(const example *r) {
    static const uint64_t asked[] = {0, 1, 2, 65537, 4294967297, 36028797018963969, UINT64_MAX};
    uint8_t out[BLOCK];
    for (size_t i = 0; i < COUNT(asked); i++) {
        memset(out, 77, sizeof out);
        odr_length_answer answer = odr_export_block(r->edition, r->bytes, r->length, (size_t)asked[i], out, sizeof out);
        printf("export_block %" PRIu64 ": %u, %zu bytes, as it was: %s\n", asked[i], answer.refusal, answer.length,
               untouched(out, sizeof out) ? "yes" : "no");
    }
}

static void print_answers(const char *name, const odr_length_answer *answers, size_t count) {
    size_t others = 0;
    printf("%s", name);
    for (size_t i = 0; i < count; i++) {
        printf(" %u", answers[i].refusal);
        others += answers[i].refusal != 0 && answers[i].length != 0;
    }
    printf(", with a length beside a refusal: %zu\n", others);
}

/* Everything is wrong at first, and one thing is put right after the other, in the order of the refusals: the edition, 25; for
 * import a check, 27, and an index, 28; the length of the record, 1, for the others, and its conversion bit, 3; the index that is
 * asked for, 28; the room, 21; then 0. */
static void orders(const example *given) {
    uint8_t blocks[2 * BLOCK], out[2 * BLOCK];
    const uint8_t *good = given->bytes;
    const size_t n = given->length;
    example r = *given;
    r.bytes[0] ^= 0x10;
    const odr_length_answer exports[] = {
        odr_export(1986, r.bytes, 79, out, 0),          odr_export(r.edition, r.bytes, 79, out, 0),
        odr_export(r.edition, r.bytes, n, out, 0),      odr_export(r.edition, good, n, out, 0),
        odr_export(r.edition, good, n, out, sizeof out)};
    print_answers("export", exports, COUNT(exports));
    const odr_length_answer alone[] = {
        odr_export_block(1986, r.bytes, 79, 2, out, 0),     odr_export_block(r.edition, r.bytes, 79, 2, out, 0),
        odr_export_block(r.edition, r.bytes, n, 2, out, 0), odr_export_block(r.edition, good, n, 2, out, 0),
        odr_export_block(r.edition, good, n, 1, out, 0),    odr_export_block(r.edition, good, n, 1, out, BLOCK)};
    print_answers("export_block", alone, COUNT(alone));
    odr_length_answer imports[6];
    const size_t whole = cut(r.bytes, n, blocks);
    set_word(blocks + BLOCK, 2, 2);
    imports[0] = odr_import(1986, blocks, whole, out, 0);
    imports[1] = odr_import(r.edition, blocks, whole, out, 0);
    set_check(blocks + BLOCK);
    imports[2] = odr_import(r.edition, blocks, whole, out, 0);
    cut(r.bytes, n, blocks);
    imports[3] = odr_import(r.edition, blocks, whole, out, 0);
    cut(good, n, blocks);
    imports[4] = odr_import(r.edition, blocks, whole, out, 0);
    imports[5] = odr_import(r.edition, blocks, whole, out, n);
    print_answers("import", imports, COUNT(imports));
}

/* What import and bad_block answer to blocks; where import refuses them, it writes nothing. */
static void judge(const char *name, const uint8_t *blocks, size_t length) {
    uint8_t out[ODR_LONGEST_RECORD];
    memset(out, 77, sizeof out);
    odr_length_answer answer = odr_import(ODR_EDITION_1985, blocks, length, out, sizeof out);
    odr_bad_block_answer bad = odr_bad_block(blocks, length);
    printf("%s: import %u, %zu bytes, as it was: %s; bad_block %s %zu\n", name, answer.refusal, answer.length,
           untouched(out, sizeof out) ? "yes" : "no", bad.found ? "yes" : "no", bad.index);
}

/* A byte changed: 27, and which block it was. Blocks are cut at every 512 bytes: of a part block the check is not looked at, and
 * it is 28, but 27 where a whole block before it is bad. */
static void damages(const example *r) {
    uint8_t blocks[2 * BLOCK + 1] = {0};
    const size_t whole = cut(r->bytes, r->length, blocks);
    judge("good blocks", blocks, whole);
    judge("no bytes", blocks, 0);
    judge("1 byte", blocks, 1);
    judge("511 bytes", blocks, BLOCK - 1);
    judge("1023 bytes", blocks, whole - 1);
    judge("1025 bytes", blocks, whole + 1);
    blocks[BLOCK + 100]++;
    judge("block 1 changed", blocks, whole);
    judge("block 1 changed, 1023 bytes", blocks, whole - 1);
    judge("block 1 changed, 1025 bytes", blocks, whole + 1);
    blocks[100]++;
    judge("both changed", blocks, whole);
    blocks[BLOCK + 100]--;
    judge("block 0 changed", blocks, whole);
    judge("block 0 changed, 511 bytes", blocks, BLOCK - 1);
    judge("block 0 changed, 1023 bytes", blocks, whole - 1);
}

/* Each of the 2 * 512 bytes changed into each of its 255 other values: 261,120. */
static void every_change(const example *r) {
    uint8_t blocks[2 * BLOCK], out[LENGTH_1985];
    const size_t whole = cut(r->bytes, r->length, blocks);
    unsigned refused = 0, found = 0;
    for (size_t i = 0; i < whole; i++) {
        for (unsigned more = 1; more < 256; more++) {
            blocks[i] = (uint8_t)(blocks[i] + 1);
            odr_bad_block_answer bad = odr_bad_block(blocks, whole);
            refused += odr_import(r->edition, blocks, whole, out, sizeof out).refusal == 27;
            found += bad.found && bad.index == i / BLOCK;
        }
        blocks[i] = (uint8_t)(blocks[i] + 1);
    }
    printf("bytes changed: 27 %u times, found in their block %u times\n", refused, found);
    judge("all as they were", blocks, whole);
}

/* Two unequal bytes among the first 510 of block 0 change places. 490 of them are 0. Of the other 20 five are 1, in the number, in
 * the length, and in words 1, 2 and 3 of the record, and the others are all different: 510 * 509 / 2 - 490 * 489 / 2 - 10 = 9,980
 * pairs. */
static void every_exchange(const example *r) {
    uint8_t blocks[2 * BLOCK];
    unsigned pairs = 0, found = 0;
    cut(r->bytes, r->length, blocks);
    for (int i = 0; i < 510; i++) {
        for (int j = i + 1; j < 510; j++) {
            const uint8_t one = blocks[i], other = blocks[j];
            blocks[i] = other;
            blocks[j] = one;
            pairs += one != other;
            found += odr_bad_block(blocks, BLOCK).found;
            blocks[i] = one;
            blocks[j] = other;
        }
    }
    printf("bytes exchanged: %u unequal pairs, found %u times\n", pairs, found);
}

/* The payload of block 1 is 276 bytes that are 0, and its sum 131. Byte 765 of the record is byte 261 of it, at place 268: with F4
 * hex, 244, there the sum is 131 + 244 * 268 = 65,523, and the check 2. 2 + 65,521, FFF3 hex, fits two bytes too, and is wrong. */
static void check_too_high(const example *given) {
    uint8_t blocks[2 * BLOCK];
    example r = *given;
    r.bytes[765] = 0xF4;
    deliver("with byte 765 F4", &r);
    const size_t whole = cut(r.bytes, r.length, blocks);
    set_word(blocks + BLOCK, CHECK, 2 + MODULUS);
    judge("check FFF3", blocks, whole);
    set_word(blocks + BLOCK, CHECK, 2);
    judge("check 0002", blocks, whole);
}

/* One byte of the two blocks is another, and the checks are right. Lengths of 275, 277 and 20 are possible in the last block, as
 * all its payload is 0, but make records of 779, 781 and 524 bytes, 2. The last byte of the record is that of a monitor word. */
static void other_bytes(const example *r) {
    static const struct {
        const char *name;
        size_t place;
        uint8_t value;
    } changes[] = {
        {"number 2 in block 0", 1, 2},
        {"number 257 in block 0", 0, 1},
        {"number 2 in block 1", BLOCK + 1, 2},
        {"number 257 in block 1", BLOCK, 1},
        {"word 2 of the record 2", 9, 2},
        {"index 1 in block 0", 3, 1},
        {"index 256 in block 0", 2, 1},
        {"index 0 in block 1", BLOCK + 3, 0},
        {"index 2 in block 1", BLOCK + 3, 2},
        {"index 257 in block 1", BLOCK + 2, 1},
        {"length 503 in block 0", 5, 0xF7},
        {"length 505 in block 0", 5, 0xF9},
        {"length 248 in block 0", 4, 0},
        {"length 505 in block 1", BLOCK + 5, 0xF9},
        {"length 65,300 in block 1", BLOCK + 4, 0xFF},
        {"length 275 in block 1", BLOCK + 5, 0x13},
        {"length 277 in block 1", BLOCK + 5, 0x15},
        {"length 20 in block 1", BLOCK + 4, 0},
        {"last byte of the record 1", BLOCK + 281, 1},
        {"first byte of padding 1", BLOCK + 282, 1},
        {"last byte of padding 1", BLOCK + 509, 1},
        {"tape number 0", 7, 0},
    };
    uint8_t blocks[2 * BLOCK];
    for (size_t i = 0; i < COUNT(changes); i++) {
        const size_t whole = cut(r->bytes, r->length, blocks);
        blocks[changes[i].place] = changes[i].value;
        set_check(blocks);
        set_check(blocks + BLOCK);
        judge(changes[i].name, blocks, whole);
    }
}

/* Block 0 alone is 504 bytes, and word 3 says 780: 2. */
static void arrangements(const example *r) {
    static const char *const orders[] = {"01", "10", "0", "1", "00", "11", "001", "011"};
    uint8_t blocks[2 * BLOCK], arranged[3 * BLOCK];
    char name[] = "blocks 000";
    cut(r->bytes, r->length, blocks);
    for (size_t i = 0; i < COUNT(orders); i++) {
        const size_t count = strlen(orders[i]);
        for (size_t b = 0; b < count; b++) {
            memcpy(arranged + BLOCK * b, blocks + BLOCK * (orders[i][b] - '0'), BLOCK);
        }
        strcpy(name + 7, orders[i]);
        judge(name, arranged, BLOCK * count);
    }
}

/* So many bytes of the record and of zeros behind it, word 3 half of them, cut as if that were one. Fewer than 4 in block 0 are
 * 28, fewer than 80 are 1, an odd number is 2, and what is not 780 or 790, the lengths at 200 a second, 6. */
static void other_lengths(const example *given) {
    static const size_t counts[] = {0, 1, 3, 4, 79, 80, 503, 504, 505, 778, 780, 790, 1008, 1009};
    uint8_t blocks[3 * BLOCK];
    for (size_t i = 0; i < COUNT(counts); i++) {
        char name[20];
        example r = *given;
        set_word(r.bytes, 3, (unsigned)counts[i] / 2);
        sprintf(name, "%zu bytes carried", counts[i]);
        judge(name, blocks, cut(r.bytes, counts[i], blocks));
    }
}

/* Other lengths, the checks right: 505 in a lone block; none in the last; the two lengths exchanged, as many bytes together as
 * before; 504 in both, which are possible, but are not the 780 bytes that word 3 says, 2. */
static void wrong_lengths(const example *r) {
    static const struct {
        const char *name;
        size_t count;
        unsigned lengths[2];
    } given[] = {
        {"505 bytes in a block", 1, {505, 0}},
        {"504 and 0 bytes", 2, {504, 0}},
        {"276 and 504 bytes", 2, {276, 504}},
        {"504 and 504 bytes", 2, {504, 504}},
        {"504 and 505 bytes", 2, {504, 505}},
    };
    uint8_t blocks[2 * BLOCK];
    for (size_t i = 0; i < COUNT(given); i++) {
        cut(r->bytes, r->length, blocks);
        for (size_t b = 0; b < given[i].count; b++) {
            set_word(blocks + BLOCK * b, 3, given[i].lengths[b]);
            set_check(blocks + BLOCK * b);
        }
        judge(given[i].name, blocks, BLOCK * given[i].count);
    }
}

/* Two bytes hold indices to 65,535. So many full blocks carry far more than word 3 can say, 2; one more can have no index of its
 * own, here 0, 28. */
static void most_blocks(const example *r) {
    static uint8_t bytes[(MOST_INDICES + 1) * PAYLOAD], blocks[(MOST_INDICES + 1) * BLOCK];
    memcpy(bytes, r->bytes, r->length);
    const size_t length = cut(bytes, sizeof bytes, blocks);
    judge("65,536 blocks", blocks, length - BLOCK);
    judge("65,537 blocks", blocks, length);
    blocks[length - 1]++;
    judge("65,537 blocks, the last changed", blocks, length);
}

/* Record number 0 in word 2 and in every block is 7; 65,535 is good. */
static void record_numbers(const example *given) {
    static const unsigned numbers[] = {0, 65535};
    uint8_t blocks[2 * BLOCK];
    for (size_t i = 0; i < 2; i++) {
        char name[20];
        example r = *given;
        set_word(r.bytes, 2, numbers[i]);
        sprintf(name, "number %u", numbers[i]);
        judge(name, blocks, cut(r.bytes, r.length, blocks));
    }
}

/* The bad block is asked for again, as c/odr.h says how, and the record is whole. */
static void ask_again(const example *r) {
    uint8_t blocks[ODR_LONGEST_EXPORT];
    const size_t whole = odr_export(r->edition, r->bytes, r->length, blocks, sizeof blocks).length;
    blocks[5 * BLOCK + 77] ^= 1;
    judge("block 5 of 9 changed", blocks, whole);
    size_t bad = odr_bad_block(blocks, whole).index;
    printf("export_block %zu again %u\n", bad,
           odr_export_block(r->edition, r->bytes, r->length, bad, blocks + BLOCK * bad, BLOCK).refusal);
    judge("all 9", blocks, whole);
}

/* The record of "Cases worked by hand" of docs/FORMAT.md, as long as nothing was written to it; the longest one of 1985, of 2,195
 * words at 50,000 a second, the same but for words 3 and 37, 0893 and C350 hex; and the one of 1992 there, of 283 words.
 *
 * The checks were added up by hand from those words, each byte times its place, and once more by a few lines of Python that were
 * given nothing else. The header of a block with number 1 adds 2 + 4 * index, and 5 + 248 * 6 = 1,493 with 504 bytes, 5 + 20 * 6 =
 * 125 with 276, 5 + 102 * 6 = 617 with 358, 62 * 6 = 372 with 62. So a full block of zeros has 1,495 + 4 * index, and the last
 * blocks of the three have 2 + 4 + 125 = 131, 2 + 32 + 617 = 651 and 2 + 4 + 372 = 378. Byte b of the record has place 7 + b in
 * block 0. The words of the first one add 58,059 there: 59,554, E8A2 hex. In the longest one 8 * 11 + 147 * 12 and 195 * 79 + 80 *
 * 80 take the place of 1 * 11 + 134 * 12 and 200 * 80: 65,592, and 71 is left. Those of 1992 add 80,599: 82,094, and 16,573 is
 * left. */
static void blocks(void) {
    static const unsigned words[][2] = {{1, 0x9101}, {2, 0x0001}, {3, 0x011B}, {6, 0xAC18}, {80, 0x00C8}, {81, 0xA55A}};
    example longest = at_rate(&of_1985, 50000, 1000), small = {ODR_EDITION_1992, 166, 566, 100, {0}};
    longest.length = ODR_LONGEST_RECORD;
    set_word(longest.bytes, 3, ODR_LONGEST_RECORD / 2);
    set_words(small.bytes, words, COUNT(words));
    uint8_t bytes[2 * BLOCK];
    printf("blocks\n");
    deliver("of 780 bytes", &of_1985);
    deliver("of 4390 bytes", &longest);
    deliver("of 566 bytes of 1992", &small);
    rooms(&of_1985, 2 * BLOCK);
    rooms(&longest, 9 * BLOCK);
    rooms(&small, 2 * BLOCK);
    indices(&of_1985);
    orders(&of_1985);
    damages(&of_1985);
    every_change(&of_1985);
    every_exchange(&of_1985);
    check_too_high(&of_1985);
    other_bytes(&of_1985);
    arrangements(&of_1985);
    other_lengths(&of_1985);
    wrong_lengths(&of_1985);
    most_blocks(&of_1985);
    record_numbers(&of_1985);
    ask_again(&longest);
    judge("a record of 1992", bytes, cut(small.bytes, small.length, bytes));
}

/* One cell more than the index has in each buffer: no call may touch it. */
enum { ROW_CELLS = ODR_CELLS * NUMBERS + 1, SECOND_CELLS = ODR_CELLS * SECONDS + 1 };
static odr_opening opening;
static uint32_t rows[ROW_CELLS], seconds[SECOND_CELLS];

static size_t count_cells(uint32_t value) {
    size_t count = 0;
    for (size_t i = 0; i < ROW_CELLS; i++) {
        count += rows[i] == value;
    }
    for (size_t i = 0; i < SECOND_CELLS; i++) {
        count += seconds[i] == value;
    }
    return count;
}

static void open(const char *name, const example *r, size_t pattern_len, uint64_t second_count, size_t row_cells) {
    odr_open_answer answer =
        odr_open(r->edition, r->bytes, pattern_len, NOON, second_count, NUMBERS, rows, row_cells, seconds, SECOND_CELLS);
    const odr_opening *o = &answer.opening;
    const uint64_t values[] = {o->first_second, o->second_count, o->highest_number, o->edition, o->sample_rate_hz, o->tape_number,
                               o->year,         o->day,          o->spacecraft,     o->spc};
    printf("open %s %u:", name, answer.refusal);
    for (size_t i = 0; i < COUNT(values); i++) {
        printf(" %" PRIu64, values[i]);
    }
    printf("; %zu cells are 0, %zu as they were\n", count_cells(0), count_cells(0xEEEEEEEE));
    opening = answer.opening;
}

static uint8_t insert_as(uint64_t edition, const example *r) {
    return odr_insert(opening, edition, r->bytes, r->length, rows, ROW_CELLS, seconds, SECOND_CELLS);
}

static uint8_t insert(const example *r, unsigned number) {
    example numbered = *r;
    set_word(numbered.bytes, 2, number);
    return insert_as(r->edition, &numbered);
}

static uint8_t remove_number(uint64_t number) {
    return odr_remove(opening, number, rows, ROW_CELLS, seconds, SECOND_CELLS);
}

static void query(uint64_t second) {
    odr_second_answer answer = odr_query(opening, second, rows, ROW_CELLS, seconds, SECOND_CELLS);
    printf("query %" PRIu64 ": %u, %u records, %u origins, %u errors, %s\n", second, answer.refusal, answer.records,
           answer.origins, answer.errors, answer.kept ? "kept" : "not kept");
    print_channels(answer.channels);
    odr_means_answer means = odr_second_means(opening, second, rows, ROW_CELLS, seconds, SECOND_CELLS);
    printf("second_means %u:", means.refusal);
    for (int c = 0; c < 4; c++) {
        printf(" %g %g", means.channels[c].mean, means.channels[c].mean_square);
    }
    printf("\n");
}

static void test(void) {
    odr_consistency_answer answer = odr_is_consistent(opening, rows, ROW_CELLS, seconds, SECOND_CELLS);
    printf("is_consistent %u %s\n", answer.refusal, answer.consistent ? "yes" : "no");
}

/* 72 row cells and 48 second cells become 0, two stay; 71 row cells are too few, and so are 60, 20 for each number. A second is
 * full with two records, so the third is 18; 4 is above the highest number. Two records have twice the totals of one, over 200
 * samples -2 / 200 and 50 / 200, over 500 -2 / 500 and 50 / 500. The second after has none, the one after that is outside. */
static void fill(const example *r) {
    memset(rows, 0xEE, sizeof rows);
    memset(seconds, 0xEE, sizeof seconds);
    open(r->header == 80 ? "of 79 bytes" : "of 165 bytes", r, r->header - 1, SECONDS, ROW_CELLS);
    open("of no seconds", r, r->length, 0, ROW_CELLS);
    open("of 71 row cells", r, r->length, SECONDS, 71);
    open("of 60 row cells", r, r->length, SECONDS, 60);
    open("whole", r, r->length, SECONDS, ROW_CELLS);
    printf("insert");
    for (unsigned number = 1; number <= 4; number++) {
        printf(" %u: %u,", number, insert(r, number));
    }
    printf(" 1 again: %u\n", insert(r, 1));
    query(NOON);
    query(NOON + 1);
    query(NOON + 2);
}

/* Number 2 goes, and there is room for 3, a second later: 1000 ms is 3E8 hex, and 2E00 + 3E8 = 31E8. A copy error, bit 3 of word
 * 1, and no clock origin, bit 1, in the record that replaces it. */
static void change(const example *given) {
    example r = *given;
    printf("remove 2: %u", remove_number(2));
    printf(", again: %u", remove_number(2));
    printf(", 0: %u\n", remove_number(0));
    set_word(r.bytes, 8, 0x31E8);
    printf("insert 3: %u", insert(&r, 3));
    set_word(r.bytes, 1, (word(r.bytes, 1) & 0x7FFF) | 0x2000);
    printf(", again: %u\n", insert(&r, 3));
    query(NOON);
    query(NOON + 1);
    test();
    seconds[0]++;
    test();
    seconds[0]--;
}

/* Channel 1 is -128, -127, 126, 127 and then 0: two are clipped; sum -2, squares 16,384 + 16,129 + 15,876 + 16,129 = 64,518. 2 is
 * -127 and 126 by turns, none: each pair adds -1 and 32,005. 3 is -128 and 127 by turns, all: each pair adds -1 and 32,513. 4 is 0
 * but for the last, 127. Of two such records in a second everything counts twice. One of zeros in the place of the second takes
 * away what that had; without the first, only the one of zeros is left. */
static void clipped(const example *given) {
    int8_t one[MOST_SAMPLES] = {-128, -127, 126, 127}, two[MOST_SAMPLES], three[MOST_SAMPLES], four[MOST_SAMPLES] = {0};
    example r = *given, zeros = *given;
    const size_t n = r.samples;
    for (size_t k = 0; k < n; k++) {
        two[k] = k % 2 == 0 ? -127 : 126;
        three[k] = k % 2 == 0 ? -128 : 127;
    }
    four[n - 1] = 127;
    memset(zeros.bytes + zeros.header, 0, 4 * n);
    printf("clipped: %u\n", odr_write_samples(r.edition, r.bytes, r.length, one, n, two, n, three, n, four, n));
    print_channels(odr_totals(r.edition, r.bytes, r.length).channels);
    open("for clipped samples", &r, r.length, SECONDS, ROW_CELLS);
    printf("insert 1: %u", insert(&r, 1));
    printf(", 2: %u\n", insert(&r, 2));
    query(NOON);
    printf("insert 2 again: %u\n", insert(&zeros, 2));
    query(NOON);
    printf("remove 1: %u\n", remove_number(1));
    query(NOON);
    test();
}

static void call_all(const char *name, const example *r, uint64_t number, uint64_t second) {
    printf("%s: insert %u, remove %u\n", name, insert(r, 1), remove_number(number));
    query(second);
    test();
}

/* An opening that holds a date which is none, an unknown edition or a rate that its edition does not have, or one that is 0
 * throughout, as a refused odr_open returns it, is 13 in every call. 31,250 is a rate in 1992: there the index is of another rate
 * than the record, 15, and the calls have their other refusals, 16 and 17. */
static void forge(const example *r) {
    odr_opening opened = opening;
    opening.year = 86;
    opening.day = 366;
    call_all("day 366 of year 86 held", r, 1, NOON);
    opening = opened;
    opening.edition = 1986;
    call_all("edition 1986 held", r, 1, NOON);
    opening = opened;
    opening.sample_rate_hz = 31250;
    call_all("rate 31,250 held", r, 0, NOON + 2);
    memset(&opening, 0, sizeof opening);
    call_all("no opening", r, 1, NOON);
}

/* An index of one second: the day's first, its second one, its last. A record's second is that of its tag, though samples 0 and 1
 * are earlier: of tag 0 it is second 0 and not one of the day before, of 999 second 0, of 1,000 second 1. In an index of another
 * second that is 17. Numbers are 1, 2, 3 and 1. */
static void seconds_of_tags(const example *given) {
    static const uint64_t asked[] = {0, 1, 86399}, tags[] = {0, 999, 1000, 86399999};
    example r = *given;
    for (size_t i = 0; i < COUNT(asked); i++) {
        uint64_t second = asked[i];
        odr_open_answer answer =
            odr_open(r.edition, r.bytes, r.length, second, 1, NUMBERS, rows, ROW_CELLS, seconds, SECOND_CELLS);
        opening = answer.opening;
        printf("index of second %" PRIu64 ":", second);
        for (unsigned t = 0; t < COUNT(tags); t++) {
            set_tag(&r, tags[t]);
            printf(" tag %" PRIu64 " is %u,", tags[t], insert(&r, t % NUMBERS + 1));
        }
        printf(" %u records\n", odr_query(opening, second, rows, ROW_CELLS, seconds, SECOND_CELLS).records);
    }
}

/* A record of 1985, and one of 1992 at 200 samples a second, which has 283 words; an index opened with each. Named as the other
 * edition the record is 3, by its conversion bit. A record of the other is 15. So is the record itself where the index holds the
 * other edition, and nothing else differs. */
static void editions_in_an_index(void) {
    example slow = at_rate(&of_1992, 200, 100);
    const example *records[] = {&of_1985, &slow};
    for (int i = 0; i < 2; i++) {
        const example *r = records[i];
        uint64_t other = records[1 - i]->edition;
        open("again", r, r->length, SECONDS, ROW_CELLS);
        printf("insert as what it is %u", insert_as(r->edition, r));
        printf(", as the other %u, as 1986 %u", insert_as(other, r), insert_as(1986, r));
        printf(", a record of the other %u", insert_as(other, records[1 - i]));
        opening.edition = other;
        printf(", into the other's %u\n", insert_as(r->edition, r));
    }
}

/* A record under the other edition is 3. With the bit turned, the rate is read elsewhere, 5: in 1992 it is word 80, samples -128
 * and 127 of the record of 1985; in 1985 it is word 37, the time offset of the other. With 200 there the length is wrong, 6: 390
 * words are not 283, and 583 neither 390 nor 395. */
static void under_the_other(const example *given, uint64_t edition, int rate_word) {
    example r = *given;
    printf("record of %" PRIu64 " under %" PRIu64 ": %u, reel %u", r.edition, edition, odr_refusal(edition, r.bytes, r.length),
           odr_step(edition, r.bytes, r.length, 0).answer);
    r.bytes[0] ^= 0x10;
    printf(", with the other conversion bit %u", odr_refusal(edition, r.bytes, r.length));
    set_word(r.bytes, rate_word, 200);
    printf(", and the rate 200 %u\n", odr_refusal(edition, r.bytes, r.length));
}

/* An unknown edition is 25 in every call that names one: for a whole record and for no bytes, at the end of a reel, past it and
 * on an empty one, with an opening of zeros; and nothing is written. */
static void unknown_edition(uint64_t edition, size_t length) {
    example r = of_1992;
    odr_header header = {{7}}, given = header;
    int8_t channels[4][MOST_SAMPLES], *one = channels[0], *two = channels[1], *three = channels[2], *four = channels[3];
    const size_t n = MOST_SAMPLES;
    memset(channels, 77, sizeof channels);
    const uint8_t answers[] = {
        odr_refusal(edition, r.bytes, length),
        odr_read_header(edition, r.bytes, length, &header),
        odr_write_header(edition, r.bytes, length, &header),
        odr_frequency_rate(edition, r.bytes, length).refusal,
        odr_sample_rate(edition, 200).refusal,
        odr_sample_rate(edition, 0).refusal,
        odr_read_samples(edition, r.bytes, length, one, n, two, n, three, n, four, n),
        odr_write_samples(edition, r.bytes, length, one, n, two, n, three, n, four, n),
        odr_sample_time(edition, r.bytes, length, 0).refusal,
        odr_phases(edition, r.bytes, length).refusal,
        odr_totals(edition, r.bytes, length).refusal,
        odr_segment(edition, r.bytes, length, r.bytes, length, 7).refusal,
        odr_step(edition, r.bytes, length, 0).answer,
        odr_step(edition, r.bytes, length, length).answer,
        odr_step(edition, r.bytes, length, SIZE_MAX).answer,
        odr_open(edition, r.bytes, length, NOON, SECONDS, NUMBERS, rows, ROW_CELLS, seconds, SECOND_CELLS).refusal,
        odr_insert(opening, edition, r.bytes, length, rows, ROW_CELLS, seconds, SECOND_CELLS),
    };
    printf("edition %" PRIu64 ", %zu bytes:", edition, length);
    for (size_t i = 0; i < sizeof answers; i++) {
        printf(" %u", answers[i]);
    }
    int same = memcmp(r.bytes, of_1992.bytes, sizeof r.bytes) == 0 && memcmp(&header, &given, sizeof header) == 0;
    same = same && one[0] == 77 && four[n - 1] == 77 && count_cells(0xEEEEEEEE) == ROW_CELLS + SECOND_CELLS;
    printf(", as it was: %s\n", same ? "yes" : "no");
}

/* The calls on blocks, with what is no edition: 25 before everything else, and nothing is written. */
static void blocks_of_unknown_edition(uint64_t edition, size_t length) {
    const example r = of_1992;
    uint8_t out[ODR_LONGEST_EXPORT];
    memset(out, 77, sizeof out);
    const unsigned one = odr_export(edition, r.bytes, length, out, sizeof out).refusal;
    const unsigned two = odr_export_block(edition, r.bytes, length, 0, out, sizeof out).refusal;
    const unsigned three = odr_import(edition, r.bytes, length, out, sizeof out).refusal;
    printf("blocks of edition %" PRIu64 ", %zu bytes: %u %u %u, as it was: %s\n", edition, length, one, two, three,
           untouched(out, sizeof out) ? "yes" : "no");
}

/* 0, the numbers beside the two, 2^16 and 2^32 more than the two, and the greatest. */
static void unknown_editions(void) {
    static const uint64_t editions[] = {0, 1984, 1986, 1991, 1993, 1985 + 65536, 1992 + ((uint64_t)1 << 32), UINT64_MAX};
    memset(&opening, 0, sizeof opening);
    memset(rows, 0xEE, sizeof rows);
    memset(seconds, 0xEE, sizeof seconds);
    for (size_t i = 0; i < COUNT(editions); i++) {
        unknown_edition(editions[i], LENGTH_1992);
        unknown_edition(editions[i], 0);
    }
    for (size_t i = 0; i < COUNT(editions); i++) {
        blocks_of_unknown_edition(editions[i], LENGTH_1992);
        blocks_of_unknown_edition(editions[i], 0);
    }
}

static void print_text(const char *name, odr_text_answer answer, const uint8_t *text) {
    printf("%s %u, %zu bytes\n%.*s", name, answer.refusal, answer.length, (int)answer.length, (const char *)text);
}

/* The line has 1, 11, 1, 9 and 8 characters, four commas and a line feed: 35. With the header line's 41 that is 76. The lister is
 * of 1985: a record of 1992 is 3 there, and refused,3 and its line feed are 10 bytes. */
static void texts(void) {
    static const uint8_t too_long[ODR_LONGEST_INPUT + 1];
    const uint8_t *record = of_1985.bytes;
    uint8_t text[100];
    print_text("record_line", odr_record_line(record, LENGTH_1985, text, 34), text);
    print_text("record_line", odr_record_line(record, LENGTH_1985, text, 35), text);
    print_text("record_line of 79 bytes", odr_record_line(record, 79, text, sizeof text), text);
    print_text("record_line of 1992", odr_record_line(of_1992.bytes, LENGTH_1992, text, sizeof text), text);
    print_text("list", odr_list(record, LENGTH_1985, text, 75), text);
    print_text("list", odr_list(record, LENGTH_1985, text, 76), text);
    print_text("list of nothing", odr_list(record, 0, text, sizeof text), text);
    print_text("list of 1992", odr_list(of_1992.bytes, LENGTH_1992, text, sizeof text), text);
    print_text("list of 65,537 bytes", odr_list(too_long, sizeof too_long, text, sizeof text), text);
}

static void line_of_tag(const char *name, const example *given, uint64_t tag, size_t room) {
    uint8_t text[100];
    example r = *given;
    set_tag(&r, tag);
    print_text(name, odr_record_line(r.bytes, r.length, text, room), text);
}

/* The second column is two intervals before the tag: 10,000 at 200 a second, 40 at 50,000. In place of the 11 characters of noon
 * it has 6 with tag 0, a minus among them, 5 with tag 9, 1 with tag 10, which is 0 and has none; at 50,000 it has 3 and, at its
 * greatest, 11. So the lines have 30, 29, 25, 27 and 35 bytes. The listing of tags 0 and 10 has 41 + 30 + 25 = 96. */
static void lines_of_tags(void) {
    uint8_t text[100], reel[2 * LENGTH_1985];
    example slow = of_1985, fast = at_rate(&of_1985, 50000, 1000);
    line_of_tag("record_line of tag 0", &slow, 0, 29);
    line_of_tag("record_line of tag 0", &slow, 0, 30);
    line_of_tag("record_line of tag 9", &slow, 9, 100);
    line_of_tag("record_line of tag 10", &slow, 10, 100);
    line_of_tag("record_line at 50,000, tag 0", &fast, 0, 100);
    line_of_tag("record_line at 50,000, tag 86,399,999", &fast, 86399999, 100);
    set_tag(&slow, 0);
    memcpy(reel, slow.bytes, LENGTH_1985);
    set_tag(&slow, 10);
    memcpy(reel + LENGTH_1985, slow.bytes, LENGTH_1985);
    print_text("list of tags 0 and 10", odr_list(reel, sizeof reel, text, 95), text);
    print_text("list of tags 0 and 10", odr_list(reel, sizeof reel, text, 96), text);
}

/* 84 records with the longest line, and the 16 bytes that 65,536 have left, which are 1: 41 + 84 * 51 + 10 = 4,335 bytes. A
 * refusal of two digits takes 80 bytes or more, so that 83 records at most stand before it. Number 65,535; tag 86,399,999,
 * 5265BFF hex; fourteen nines; 99,999 times 10^7 units, bits 13 to 16 of word 27 being 111 and 0, minus. */
static void longest(void) {
    static const unsigned words[][2] = {{2, 0xFFFF},  {7, 0x0526},  {8, 0x5BFF},  {14, 0x0099}, {15, 0x9999},
                                        {16, 0x9999}, {17, 0x9999}, {26, 0x0099}, {27, 0x999E}};
    static uint8_t input[ODR_LONGEST_INPUT], text[ODR_LONGEST_LISTING + 1], expected[ODR_LONGEST_LISTING + 1];
    example r = of_1985;
    set_words(r.bytes, words, COUNT(words));
    char *end = (char *)expected + sprintf((char *)expected, "record,first_us,origin,poca_hz,rate_hz_s\n");
    for (size_t i = 0; i < RECORDS; i++) {
        memcpy(input + i * LENGTH_1985, r.bytes, LENGTH_1985);
        end += sprintf(end, LONGEST_LINE);
    }
    end += sprintf(end, "refused,1\n");
    size_t length = (size_t)(end - (char *)expected);
    memset(text, '#', sizeof text);
    odr_text_answer answer = odr_list(input, sizeof input, text, length - 1);
    printf("longest list, one byte short: %u %zu, first byte %c\n", answer.refusal, answer.length, text[0]);
    answer = odr_list(input, sizeof input, text, ODR_LONGEST_LISTING);
    printf("longest list %u, %zu bytes, %s, then %c\n", answer.refusal, answer.length,
           memcmp(text, expected, length) == 0 ? "as expected" : "not as expected", text[length]);
}

/* What both editions have. */
static void one_edition(example *r) {
    printf("edition %" PRIu64 "\n", r->edition);
    headers(r);
    rates_and_phases(r);
    examples_of_rates(r);
    widths(r);
    conversions(r);
    sync_words(r);
    dates(r);
    sample_rates(r);
    samples(r);
    totals(r);
    times(r);
    times_of_tags(r);
    refused_times(r);
    reels(r);
    shortest_lengths(r);
    fill(r);
    change(r);
    forge(r);
    clipped(r);
    seconds_of_tags(r);
}

/* The record of 1992 by its module: 91 hex is clock origin 1, conversion bit 1, compression 0001; year 92 and day 275 are 1011100
 * and 100010011; its example of a frequency, 41,562,421.673152 Hz; codes 10 and 01, 5 days, 3,600 seconds, and an offset of all
 * ones, -1. The bits that no field has are ones, and words 42 to 79, 82 and 83 are EE hex and their number. */
static void set_1992(void) {
    static const unsigned words[][2] = {{1, 0x9101},  {2, 0x0001},  {3, 0x0247},  {6, 0xB913},  {7, 0xFA93},  {8, 0x2E00},
                                        {14, 0x0041}, {15, 0x5624}, {16, 0x2167}, {17, 0x3152}, {18, 0xF800}, {20, 0xFF00},
                                        {24, 0xF800}, {26, 0x9F12}, {27, 0x3452}, {35, 0xF800}, {37, 0x02FC}, {38, 0x0E10},
                                        {39, 0xFFFF}, {40, 0xFFFF}, {41, 0xFFFF}, {80, 0x01F4}, {81, 0xA55A}};
    for (int w = 42; w <= 83; w++) {
        set_word(of_1992.bytes, w, 0xEE00 + (unsigned)w);
    }
    set_words(of_1992.bytes, words, COUNT(words));
}

int main(void) {
    static const unsigned words[][2] = {{1, 0x8101},  {2, 0x0001},  {3, 0x0186},  {6, 0xAC18},  {7, 0x0293}, {8, 0x2E00},
                                        {16, 0x4200}, {26, 0x0012}, {27, 0x3452}, {37, 0x00C8}, {38, 0xA55A}};
    set_words(of_1985.bytes, words, COUNT(words));
    set_1992();
    blocks();
    one_edition(&of_1985);
    segments();
    numbered_segments();
    one_edition(&of_1992);
    frequency_offsets(&of_1992);
    no_segments();
    printf("both editions\n");
    editions_in_an_index();
    under_the_other(&of_1985, ODR_EDITION_1992, 80);
    under_the_other(&of_1992, ODR_EDITION_1985, 37);
    unknown_editions();
    texts();
    lines_of_tags();
    longest();
    return 0;
}
