//! The verified library of radio science records (ODR), called from Rust: a safe wrapper of each function of c/odr.h, with the
//! same names less `odr_`. docs/FORMAT.md defines the record, the refusals and the index of seconds.
//!
//! Records are of one of two editions of the format, [`EDITION_1985`] or [`EDITION_1992`]. The caller names it; any other number
//! is 25, before every other answer.
//!
//! Every call takes any bytes and ends. An answer has a refusal number first, which is 0 for none ([`mod@refusal`]); beside a
//! refusal every other member is 0, and a refused call writes nothing to what it was lent.
//!
//! ```no_run
//! let reel = std::fs::read("data/sample.odr").unwrap();
//! let (mut place, mut header) = (0, [0; odr::HEADER_VALUES]);
//! loop {
//!     let step = odr::step(odr::EDITION_1985, &reel, place);
//!     if step.answer != odr::refusal::NONE {
//!         break;
//!     }
//!     let record = &reel[step.start..step.end];
//!     assert_eq!(odr::read_header(odr::EDITION_1985, record, &mut header), odr::refusal::NONE);
//!     let first = odr::sample_time(odr::EDITION_1985, record, 0).microseconds;
//!     println!("record {} from {first} us on", header[odr::field::RECORD_NUMBER]);
//!     place = step.end;
//! }
//! ```
//!
//! The compiler does not check that the declarations here are those of c/odr.h and of the library: tests/names.rs compares the
//! names and numbers, and tests/differential.sh runs every call.

/// The edition of 1985, module RSC-11-10: a header of 80 bytes, samples, monitor words.
pub const EDITION_1985: u64 = 1985;
/// The edition of 1992, module RSC-11-11: a header of 166 bytes, samples, nothing after them.
pub const EDITION_1992: u64 = 1992;
/// Bytes of the longest accepted record, one of 1985; the longest of 1992 has 4,166.
pub const LONGEST_RECORD: usize = 4_390;
/// Bytes of the longest monitor segment.
pub const LONGEST_SEGMENT: usize = 90;
/// Bytes of a block.
pub const BLOCK_BYTES: usize = 512;
/// Bytes of a record that a full block carries.
pub const PAYLOAD_BYTES: usize = 504;
/// Bytes of the blocks of the longest accepted record: 9 blocks.
pub const LONGEST_EXPORT: usize = 4_608;
/// Cells of a row, and of a second.
pub const CELLS: usize = 24;
/// A longer input gets the line `refused,24`.
pub const LONGEST_INPUT: usize = 65_536;
/// A buffer of so many bytes holds the listing of any input.
pub const LONGEST_LISTING: usize = 4_335;
/// What [`step`] answers at the end of a reel: no refusal has this number.
pub const FINISHED: u8 = 255;
/// The values of a header, in either edition.
pub const HEADER_VALUES: usize = 48;

/// The refusal numbers of docs/FORMAT.md, "Refusal numbers".
pub mod refusal {
    /// No refusal.
    pub const NONE: u8 = 0;
    /// Fewer bytes than the edition's header, 80 or 166; on a reel also word 3 below 40 or 83.
    pub const TOO_SHORT: u8 = 1;
    /// The bytes are not twice word 3; on a reel: fewer are left than that.
    pub const WRONG_LENGTH: u8 = 2;
    /// Conversion bit 1 in 1985, 0 in 1992.
    pub const NOT_8_BITS: u8 = 3;
    /// Compression is not 0001.
    pub const COMPRESSED: u8 = 4;
    /// None of the edition's sample rates, seven or nineteen.
    pub const NO_SUCH_RATE: u8 = 5;
    /// The record's length is none of its rate's: two in 1985, one in 1992.
    pub const NOT_THE_RATES_LENGTH: u8 = 6;
    /// Tape or record number 0.
    pub const NUMBER_ZERO: u8 = 7;
    /// Year above 99, or day 0 or above 365 (366 in years divisible by 4, 00 too).
    pub const NO_SUCH_DATE: u8 = 8;
    /// Record or readback time tag above 86,399,999 ms.
    pub const PAST_THE_DAY: u8 = 9;
    /// A decimal digit above 9.
    pub const NO_DIGIT: u8 = 10;
    /// Clock origin 1 and a sync word other than A55A hex.
    pub const WRONG_SYNC: u8 = 11;
    /// A channel's buffer is too short for the record's samples, or there is no such sample.
    pub const NO_SUCH_SAMPLE: u8 = 12;
    /// Of an index, or of the edition, rate, tape number or date that its opening holds.
    pub const WRONG_LIMITS: u8 = 13;
    /// Of an index.
    pub const TOO_FEW_CELLS: u8 = 14;
    /// The record is of another edition or reel than the index.
    pub const OTHER_REEL: u8 = 15;
    /// The record number is not one of 1 to the index's highest.
    pub const NUMBER_OUTSIDE: u8 = 16;
    /// The second is not one of the index's window.
    pub const SECOND_OUTSIDE: u8 = 17;
    /// The second holds as many other records as a second has.
    pub const SECOND_FULL: u8 = 18;
    /// No record of that number is held.
    pub const NOT_HELD: u8 = 19;
    /// The segments are 7, 5, 2, 6, 10, 4 and 8.
    pub const NO_SUCH_SEGMENT: u8 = 20;
    /// The buffer is too short for the text, the blocks or the record.
    pub const TEXT_TOO_LONG: u8 = 21;
    /// A value to be written does not fit into the bits of its field.
    pub const VALUE_TOO_WIDE: u8 = 22;
    /// In neither record.
    pub const SEGMENT_NOT_NEW: u8 = 23;
    /// Only as a line of a listing: the input is longer than [`super::LONGEST_INPUT`].
    pub const INPUT_TOO_LONG: u8 = 24;
    /// The edition named is neither 1985 nor 1992.
    pub const NO_SUCH_EDITION: u8 = 25;
    /// Records of 1992 have no monitor segments.
    pub const NO_SEGMENTS: u8 = 26;
    /// A whole block's check is not that of its bytes.
    pub const BAD_CHECK: u8 = 27;
    /// No block or not that one, a part block, or wrong lengths, numbers, indices or padding.
    pub const WRONG_BLOCKS: u8 = 28;
}

/// The fields of a header: the place of each among its values. docs/FORMAT.md, "The record", has each field's bits and unit.
/// Places 0 to 39, 41 and 42 have the same field in both editions; a list of values is one of the edition that its call names.
///
/// In capitals: the name in the figure of the header, RSC-11-10-1 of 1985 or figure 2 of 1992; where they differ, that of 1985
/// and, behind the semicolon, that of 1992.
pub mod field {
    /// O. 1: the time is the station clock's.
    pub const CLOCK_ORIGIN: usize = 0;
    /// S.
    pub const SESSION_START: usize = 1;
    /// E.
    pub const COPY_ERROR: usize = 2;
    /// C. Samples of 8 bits: 0 in 1985, 1 in 1992.
    pub const CONVERSION: usize = 3;
    /// COMPRES FACTOR; COMPRESSION FACTOR. 1: none.
    pub const COMPRESSION: usize = 4;
    /// TAPE NUMBER.
    pub const TAPE_NUMBER: usize = 5;
    /// RECORD NUMBER.
    pub const RECORD_NUMBER: usize = 6;
    /// LENGTH OF RECORD, of the whole record in words of two bytes.
    pub const LENGTH_WORDS: usize = 7;
    /// PRIME FEA#; PRIME FEA: number of the prime front end area.
    pub const PRIME_FEA: usize = 8;
    /// SECONDARY FEA#; SECONDARY FEA: number of the secondary one.
    pub const SECONDARY_FEA: usize = 9;
    /// SPACECRAFT NUMBER.
    pub const SPACECRAFT: usize = 10;
    /// SPC CODE: designator of the signal processing center.
    pub const SPC: usize = 11;
    /// YEAR, of the century.
    pub const YEAR: usize = 12;
    /// DAY OF YEAR, from 1.
    pub const DAY: usize = 13;
    /// MILLISECONDS PAST 0h UTC; .. PAST 0 UTC: of the third sample of each channel, sample 2.
    pub const TIME_TAG_MS: usize = 14;
    /// PREDICT SET IDENTIFICATION, the first byte of ten.
    pub const PREDICT_0: usize = 15;
    pub const PREDICT_1: usize = 16;
    pub const PREDICT_2: usize = 17;
    pub const PREDICT_3: usize = 18;
    pub const PREDICT_4: usize = 19;
    pub const PREDICT_5: usize = 20;
    pub const PREDICT_6: usize = 21;
    pub const PREDICT_7: usize = 22;
    pub const PREDICT_8: usize = 23;
    pub const PREDICT_9: usize = 24;
    /// POCA STATUS.
    pub const STATUS: usize = 25;
    /// POCA FREQUENCY (READBACK), microhertz.
    pub const READBACK_UHZ: usize = 26;
    /// TIME TAG OF POCA FREQUENCY (READBACK).
    pub const READBACK_TAG_MS: usize = 27;
    /// POCA FREQUENCY (CALCULATED), microhertz.
    pub const CALCULATED_UHZ: usize = 28;
    /// TIME TAG OF POCA (UPDATE CYCLE); TIME TAG OF POCA FREQUENCY (UPDATE CYCLE).
    pub const UPDATE_TAG_MS: usize = 29;
    /// POCA FREQUENCY RATE; [`super::frequency_rate`] gives the rate of these digits, the power and the sign.
    pub const FREQUENCY_RATE_DIGITS: usize = 30;
    /// MULTIPLIER.
    pub const FREQUENCY_RATE_POWER: usize = 31;
    /// S. 1 is plus.
    pub const FREQUENCY_RATE_SIGN: usize = 32;
    /// FREQUENCY COUNTER NUMBER 1 CUMULATIVE PHASE; .. NO. 1 ..: counts of 1/256 cycle in 1985, of 1/1,048,576 in 1992.
    pub const PHASE_1: usize = 33;
    /// FREQUENCY COUNTER NUMBER 2 CUMULATIVE PHASE; .. NO. 2 ..
    pub const PHASE_2: usize = 34;
    /// TEST SIGNAL.
    pub const SELECTOR_1: usize = 35;
    /// SAMPLE CONTROL.
    pub const SELECTOR_2: usize = 36;
    /// COUNTER # 1 MODE; CNTR #1 MODE.
    pub const SELECTOR_3: usize = 37;
    /// COUNTER #2 MODE; CNTR #2 MODE.
    pub const SELECTOR_4: usize = 38;
    /// TIME TAG OF FMS COUNTER; TIME TAG OF FMS MEASUREMENT.
    pub const COUNTER_TAG_MS: usize = 39;
    /// A/D CONVERTER SAMPLE RATE; A-D ..: samples a second in each channel.
    pub const SAMPLE_RATE_HZ: usize = 41;
    /// A 5 5 A.
    pub const SYNC_WORD: usize = 42;

    // 1985 alone. Places 46 and 47 have no field: they are read as 0, and writing any other value there is 22.

    /// 1985: FILTER.
    pub const FILTER: usize = 40;
    /// 1985: '24' COUNTER, 'N' REGISTER.
    pub const WORD_39: usize = 43;
    /// 1985: CONVERSION MODE REGISTER.
    pub const REGISTER_1: usize = 44;
    /// 1985: SIGNAL SELECT REGISTER.
    pub const REGISTER_2: usize = 45;

    // 1992 alone.

    /// 1992: RFCNF, as the operator selected it: 1 prime, 2 cross, 3 Faraday rotation.
    pub const RF_CONFIGURATION: usize = 40;
    /// 1992: RFIF: the same codes, as the IF switch reported it.
    pub const RF_CONFIGURATION_REPORTED: usize = 43;
    /// 1992: PREDICT TIME OFFSET (DAYS), of the predict set's times, with the seconds.
    pub const TIME_OFFSET_DAYS: usize = 44;
    /// 1992: SGN. 1 is minus, for the days and the seconds.
    pub const TIME_OFFSET_SIGN: usize = 45;
    /// 1992: TIME OFFSET (SECONDS).
    pub const TIME_OFFSET_SECONDS: usize = 46;
    /// 1992: PREDICT FREQUENCY OFFSET, in units of 1/1,048,576 Hz. The value is signed: `values[FREQUENCY_OFFSET] as i64`.
    pub const FREQUENCY_OFFSET: usize = 47;
}

/// The structs of c/odr.h, which cross by value.
macro_rules! structs {
    ($($(#[$said:meta])* $name:ident { $($(#[$each:meta])* $member:ident: $kind:ty),* $(,)? })*) => {$(
        $(#[$said])*
        #[repr(C)]
        #[derive(Clone, Copy, Debug, Default, PartialEq)]
        pub struct $name { $($(#[$each])* pub $member: $kind),* }
    )*};
}
structs! {
    /// In units of 0.00001 Hz/s.
    FrequencyRateAnswer { refusal: u8, units: i64 }
    /// The samples that each channel has in a record, the records of a second, the microseconds from one sample to the next.
    SampleRateAnswer { refusal: u8, samples: u64, records: u64, interval_us: u64 }
    /// Microseconds from 0 h of the record's day, below zero on the day before.
    TimeAnswer { refusal: u8, microseconds: i64 }
    /// The two phases in cycles.
    PhasesAnswer { refusal: u8, first: f64, second: f64 }
    /// Of the samples of a channel; clipped are those equal to -128 or 127.
    Total { sum: i64, squares: u64, least: i8, greatest: i8, clipped: u32 }
    /// Of channels 1 to 4 of a record.
    TotalsAnswer { refusal: u8, channels: [Total; 4] }
    /// A record from `start` up to `end`, which is also the next place, where `answer` is 0; else both are 0.
    StepAnswer { answer: u8, start: usize, end: usize }
    /// The bytes written.
    LengthAnswer { refusal: u8, length: usize }
    /// The index of the first whole block whose check is bad, from 0; 0 where none was found.
    BadBlockAnswer { found: bool, index: usize }
    /// An index's limits and the values of its reel: what [`open`] gave, for every later call.
    Opening {
        first_second: u64, second_count: u64, highest_number: u64, edition: u64,
        sample_rate_hz: u64, tape_number: u64, year: u64, day: u64, spacecraft: u64, spc: u64,
    }
    OpenAnswer { refusal: u8, opening: Opening }
    /// A second's records, those with clock origin, those with copy error, the totals of each channel, and the verdict.
    SecondAnswer { refusal: u8, records: u32, origins: u32, errors: u32, channels: [Total; 4], kept: bool }
    Means { mean: f64, mean_square: f64 }
    /// Of channels 1 to 4 of a second.
    MeansAnswer { refusal: u8, channels: [Means; 4] }
    ConsistencyAnswer { refusal: u8, consistent: bool }
    /// The bytes of the text that was written.
    TextAnswer { refusal: u8, length: usize }
}

/// A monitor segment: its bytes are the first `length` ones, and 0 follows.
#[repr(C)]
#[derive(Clone, Copy, Debug, PartialEq)]
pub struct SegmentAnswer {
    pub refusal: u8,
    pub length: usize,
    pub bytes: [u8; LONGEST_SEGMENT],
}

impl Default for SegmentAnswer {
    fn default() -> Self {
        SegmentAnswer { refusal: 0, length: 0, bytes: [0; LONGEST_SEGMENT] }
    }
}

extern "C" {
    fn odr_refusal(edition: u64, record: *const u8, record_len: usize) -> u8;
    fn odr_read_header(edition: u64, record: *const u8, record_len: usize, header: *mut [u64; HEADER_VALUES]) -> u8;
    fn odr_write_header(edition: u64, record: *mut u8, record_len: usize, header: *const [u64; HEADER_VALUES]) -> u8;
    fn odr_frequency_rate(edition: u64, record: *const u8, record_len: usize) -> FrequencyRateAnswer;
    fn odr_sample_rate(edition: u64, hz: u64) -> SampleRateAnswer;
    fn odr_read_samples(
        edition: u64, record: *const u8, record_len: usize, one: *mut i8, one_len: usize, two: *mut i8, two_len: usize,
        three: *mut i8, three_len: usize, four: *mut i8, four_len: usize,
    ) -> u8;
    fn odr_write_samples(
        edition: u64, record: *mut u8, record_len: usize, one: *const i8, one_len: usize, two: *const i8, two_len: usize,
        three: *const i8, three_len: usize, four: *const i8, four_len: usize,
    ) -> u8;
    fn odr_sample_time(edition: u64, record: *const u8, record_len: usize, k: u64) -> TimeAnswer;
    fn odr_phases(edition: u64, record: *const u8, record_len: usize) -> PhasesAnswer;
    fn odr_totals(edition: u64, record: *const u8, record_len: usize) -> TotalsAnswer;
    fn odr_segment(
        edition: u64, this_record: *const u8, this_len: usize, earlier: *const u8, earlier_len: usize, number: u64,
    ) -> SegmentAnswer;
    fn odr_step(edition: u64, reel: *const u8, reel_len: usize, place: usize) -> StepAnswer;
    fn odr_export(edition: u64, record: *const u8, record_len: usize, out: *mut u8, out_len: usize) -> LengthAnswer;
    fn odr_export_block(
        edition: u64, record: *const u8, record_len: usize, index: usize, out: *mut u8, out_len: usize,
    ) -> LengthAnswer;
    fn odr_import(edition: u64, blocks: *const u8, blocks_len: usize, out: *mut u8, out_len: usize) -> LengthAnswer;
    fn odr_bad_block(blocks: *const u8, blocks_len: usize) -> BadBlockAnswer;
    fn odr_open(
        edition: u64, pattern: *const u8, pattern_len: usize, first_second: u64, second_count: u64, highest_number: u64,
        rows: *mut u32, rows_len: usize, seconds: *mut u32, seconds_len: usize,
    ) -> OpenAnswer;
    fn odr_insert(
        opening: Opening, edition: u64, record: *const u8, record_len: usize,
        rows: *mut u32, rows_len: usize, seconds: *mut u32, seconds_len: usize,
    ) -> u8;
    fn odr_remove(
        opening: Opening, number: u64, rows: *mut u32, rows_len: usize, seconds: *mut u32, seconds_len: usize,
    ) -> u8;
    fn odr_query(
        opening: Opening, second: u64, rows: *const u32, rows_len: usize, seconds: *const u32, seconds_len: usize,
    ) -> SecondAnswer;
    fn odr_second_means(
        opening: Opening, second: u64, rows: *const u32, rows_len: usize, seconds: *const u32, seconds_len: usize,
    ) -> MeansAnswer;
    fn odr_is_consistent(
        opening: Opening, rows: *const u32, rows_len: usize, seconds: *const u32, seconds_len: usize,
    ) -> ConsistencyAnswer;
    fn odr_record_line(record: *const u8, record_len: usize, text: *mut u8, text_len: usize) -> TextAnswer;
    fn odr_list(input: *const u8, input_len: usize, text: *mut u8, text_len: usize) -> TextAnswer;
}

// Each wrapper passes pointers and lengths of slices that live through the call; the mutable ones overlap nothing.

/// 25, 1 to 11, or 0 where the bytes are an accepted record of the edition.
pub fn refusal(edition: u64, record: &[u8]) -> u8 {
    unsafe { odr_refusal(edition, record.as_ptr(), record.len()) }
}

/// The header of a record, each value at its place ([`field`]). 25, 1 to 11, and then the header lent stays as it was.
pub fn read_header(edition: u64, record: &[u8], header: &mut [u64; HEADER_VALUES]) -> u8 {
    unsafe { odr_read_header(edition, record.as_ptr(), record.len(), header) }
}

/// The values go into the header of the record, whose other bits stay, words 42 to 79, 82 and 83 of 1992 among them; of what the
/// record held before only its length is judged. 25, 1 to 11 of the values, 22.
pub fn write_header(edition: u64, record: &mut [u8], header: &[u64; HEADER_VALUES]) -> u8 {
    unsafe { odr_write_header(edition, record.as_mut_ptr(), record.len(), header) }
}

/// The frequency rate, in the same units in both editions. 25, 1 to 11.
pub fn frequency_rate(edition: u64, record: &[u8]) -> FrequencyRateAnswer {
    unsafe { odr_frequency_rate(edition, record.as_ptr(), record.len()) }
}

/// What follows from a sample rate in samples a second, one of the edition's. 25, 5.
pub fn sample_rate(edition: u64, hz: u64) -> SampleRateAnswer {
    unsafe { odr_sample_rate(edition, hz) }
}

/// The samples of channels 1 to 4, from byte 80 or 166 of the record on, to the start of each buffer. 25, 1 to 11, 12 where a
/// buffer holds fewer than the record's samples.
pub fn read_samples(edition: u64, record: &[u8], [one, two, three, four]: [&mut [i8]; 4]) -> u8 {
    unsafe {
        odr_read_samples(
            edition, record.as_ptr(), record.len(), one.as_mut_ptr(), one.len(), two.as_mut_ptr(), two.len(),
            three.as_mut_ptr(), three.len(), four.as_mut_ptr(), four.len(),
        )
    }
}

/// Samples of channels 1 to 4 into the record, from byte 80 or 166 on; its other bytes stay. 25, 1 to 11, 12 where a buffer has
/// fewer than the record.
pub fn write_samples(edition: u64, record: &mut [u8], [one, two, three, four]: [&[i8]; 4]) -> u8 {
    unsafe {
        odr_write_samples(
            edition, record.as_mut_ptr(), record.len(), one.as_ptr(), one.len(), two.as_ptr(), two.len(),
            three.as_ptr(), three.len(), four.as_ptr(), four.len(),
        )
    }
}

/// The time of sample k, counted from 0, rounded down: the tag is the time of sample 2, the third. 25, 1 to 11, 12 where the
/// record has no sample k.
pub fn sample_time(edition: u64, record: &[u8], k: u64) -> TimeAnswer {
    unsafe { odr_sample_time(edition, record.as_ptr(), record.len(), k) }
}

/// The two phases in cycles, exactly: the counts over 256 in 1985, over 1,048,576 in 1992. 25, 1 to 11.
pub fn phases(edition: u64, record: &[u8]) -> PhasesAnswer {
    unsafe { odr_phases(edition, record.as_ptr(), record.len()) }
}

/// The totals of a record's samples. 25, 1 to 11.
pub fn totals(edition: u64, record: &[u8]) -> TotalsAnswer {
    unsafe { odr_totals(edition, record.as_ptr(), record.len()) }
}

/// A monitor segment, from this record if it is new there, else from the earlier one; the edition is that of both. 25, 1 to 11 of
/// this record, then of the earlier one; then 26 in 1992, which has no segments; 20, 23.
pub fn segment(edition: u64, this: &[u8], earlier: &[u8], number: u64) -> SegmentAnswer {
    unsafe { odr_segment(edition, this.as_ptr(), this.len(), earlier.as_ptr(), earlier.len(), number) }
}

/// What stands at a place of a reel: 25 on any reel, finished or empty too; else a record, or [`FINISHED`] at its end and past
/// it, or 1 to 11.
pub fn step(edition: u64, reel: &[u8], place: usize) -> StepAnswer {
    unsafe { odr_step(edition, reel.as_ptr(), reel.len(), place) }
}

// Blocks. c/odr.h, "Blocks", has the layout of one. What a call writes goes to the start of `out`; bytes past it stay.

/// A record cut into blocks of [`BLOCK_BYTES`]; the length is that of all of them. 25, 1 to 11, 21.
pub fn export(edition: u64, record: &[u8], out: &mut [u8]) -> LengthAnswer {
    unsafe { odr_export(edition, record.as_ptr(), record.len(), out.as_mut_ptr(), out.len()) }
}

/// Block `index` of a record alone, counted from 0: just the bytes that [`export`] writes at `BLOCK_BYTES * index`. 25, 1 to 11,
/// 28 where the record has no block of that index, 21 where `out` holds less than a block.
pub fn export_block(edition: u64, record: &[u8], index: usize, out: &mut [u8]) -> LengthAnswer {
    unsafe { odr_export_block(edition, record.as_ptr(), record.len(), index, out.as_mut_ptr(), out.len()) }
}

/// The record that blocks carry, of which only what [`export`] writes is accepted. 25, 27, 28, 1 to 11 of the record, 21.
pub fn import(edition: u64, blocks: &[u8], out: &mut [u8]) -> LengthAnswer {
    unsafe { odr_import(edition, blocks.as_ptr(), blocks.len(), out.as_mut_ptr(), out.len()) }
}

/// The first whole block whose check is bad, so the one to ask for again with [`export_block`]. A part block at the end is not
/// looked at. No refusals.
pub fn bad_block(blocks: &[u8]) -> BadBlockAnswer {
    unsafe { odr_bad_block(blocks.as_ptr(), blocks.len()) }
}

/// Opens an index for the edition and the reel of the pattern, a record, which is not inserted. `limits` are the first second of
/// the window, the count of its seconds, and the highest record number. The cells of the index become 0: [`CELLS`] in `rows` for
/// each record number, and in `seconds` for each second of the window. 25, 1 to 11 of the pattern, 13, 14.
pub fn open(edition: u64, pattern: &[u8], limits: [u64; 3], rows: &mut [u32], seconds: &mut [u32]) -> OpenAnswer {
    let [first, count, highest] = limits;
    unsafe {
        odr_open(
            edition, pattern.as_ptr(), pattern.len(), first, count, highest,
            rows.as_mut_ptr(), rows.len(), seconds.as_mut_ptr(), seconds.len(),
        )
    }
}

/// Inserts a record of the edition named under its number, in place of any there. Its second is that of its time tag. 25, 1 to
/// 11, 13, 14, 15 also where the edition is not that of the index, 16 to 18.
pub fn insert(opening: Opening, edition: u64, record: &[u8], rows: &mut [u32], seconds: &mut [u32]) -> u8 {
    unsafe {
        odr_insert(
            opening, edition, record.as_ptr(), record.len(),
            rows.as_mut_ptr(), rows.len(), seconds.as_mut_ptr(), seconds.len(),
        )
    }
}

/// Removes the record of a number. 13, 14, 16, 19.
pub fn remove(opening: Opening, number: u64, rows: &mut [u32], seconds: &mut [u32]) -> u8 {
    unsafe { odr_remove(opening, number, rows.as_mut_ptr(), rows.len(), seconds.as_mut_ptr(), seconds.len()) }
}

/// A second's totals and verdict; a second of no records has 0 throughout. 13, 14, 17.
pub fn query(opening: Opening, second: u64, rows: &[u32], seconds: &[u32]) -> SecondAnswer {
    unsafe { odr_query(opening, second, rows.as_ptr(), rows.len(), seconds.as_ptr(), seconds.len()) }
}

/// Mean and mean square of each channel of a second; both are 0 for no samples. 13, 14, 17.
pub fn second_means(opening: Opening, second: u64, rows: &[u32], seconds: &[u32]) -> MeansAnswer {
    unsafe { odr_second_means(opening, second, rows.as_ptr(), rows.len(), seconds.as_ptr(), seconds.len()) }
}

/// The consistency test: whether no held row is of a second outside the window and the second cells are those that the rows give.
/// 13, 14.
pub fn is_consistent(opening: Opening, rows: &[u32], seconds: &[u32]) -> ConsistencyAnswer {
    unsafe { odr_is_consistent(opening, rows.as_ptr(), rows.len(), seconds.as_ptr(), seconds.len()) }
}

/// The listing's line of a record of 1985. 1 to 11, 21.
pub fn record_line(record: &[u8], text: &mut [u8]) -> TextAnswer {
    unsafe { odr_record_line(record.as_ptr(), record.len(), text.as_mut_ptr(), text.len()) }
}

/// The whole listing of a reel of 1985; 24 and any other refusal of the reel is a line of it. 21.
pub fn list(input: &[u8], text: &mut [u8]) -> TextAnswer {
    unsafe { odr_list(input.as_ptr(), input.len(), text.as_mut_ptr(), text.len()) }
}
