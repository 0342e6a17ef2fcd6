#!/usr/bin/env python3
"""Makes the lister's stored cases from docs/FORMAT.md: tests/lister/NAME.in and NAME.out, crates/lister/stdin and stdout.

    make.py            # writes the files
    make.py --check    # writes nothing; fails where a file is not what it would write

It has its own encoder of records and its own formatting of lines, from FORMAT and not from the Rattle code, and the refusal of
each case is written down here, from its table. The second program, second/target/release/second <NAME.in >NAME.out, has to make
the same listings: tests/second.sh. It needs Python 3 alone.
"""
import pathlib
import struct
import sys

HEADER_LINE = "record,first_us,origin,poca_hz,rate_hz_s\n"
SYNC = 0xA55A

# The table of rates: the word N up to which the samples go, of each rate; monitor words and the offsets of OP-B follow.
LAST_SAMPLE_WORD = {50000: 2040, 20000: 2040, 10000: 2040, 5000: 2040, 2000: 2040, 1000: 1040, 200: 240}
MONITOR_WORDS = 150
OFFSET_WORDS = 5


def length_words(rate, software):
    return LAST_SAMPLE_WORD[rate] + MONITOR_WORDS + (OFFSET_WORDS if software == "B" else 0)


class Record:
    """A record by its fields; what is not given is a plain accepted record of 200 a second."""

    def __init__(self, number=1, rate=200, software="A", **fields):
        self.number = number
        self.rate = rate
        self.words = fields.pop("words") if "words" in fields else length_words(rate, software)
        self.origin = fields.pop("origin", 0)
        self.conversion = fields.pop("conversion", 0)
        self.compression = fields.pop("compression", 1)
        self.tape = fields.pop("tape", 1)
        self.year = fields.pop("year", 86)
        self.day = fields.pop("day", 24)
        self.tag_ms = fields.pop("tag_ms", 43_200_000)
        self.readback_tag_ms = fields.pop("readback_tag_ms", 0)
        self.readback_uhz = fields.pop("readback_uhz", 42_000_000)
        self.readback_digits = fields.pop("readback_digits", f"{self.readback_uhz:014d}")
        self.rate_digits = fields.pop("rate_digits", 12345)
        self.power = fields.pop("power", 1)
        self.sign = fields.pop("sign", 0)
        self.sync = fields.pop("sync", SYNC)
        assert not fields, fields

    def bytes(self):
        b = bytearray(80) + bytes((k * 7 + self.number) % 256 for k in range(80, 2 * self.words))

        def word(n, value):
            struct.pack_into(">H", b, 2 * (n - 1), value)

        word(1, self.origin << 15 | self.conversion << 12 | self.compression << 8 | self.tape)
        word(2, self.number)
        word(3, self.words)
        word(6, self.year << 9 | self.day)
        word(7, self.tag_ms >> 16)
        word(8, self.tag_ms & 0xFFFF)
        # A status byte, then 14 digits of four bits each; a digit may be given as a letter.
        b[26:34] = bytes.fromhex("00" + self.readback_digits)
        word(18, self.readback_tag_ms >> 16)
        word(19, self.readback_tag_ms & 0xFFFF)
        b[51] = int(f"{self.rate_digits:05d}"[:2], 16)
        word(27, int(f"{self.rate_digits:05d}"[2:], 16) << 4 | self.power << 1 | self.sign)
        word(37, self.rate)
        word(38, self.sync)
        return bytes(b)

    def first_us(self):
        """The time of sample 0, two intervals before the tag."""
        return 1000 * self.tag_ms + (0 - 2) * 10**6 // self.rate

    def line(self):
        units = self.rate_digits * 10**self.power
        minus = "-" if self.sign == 0 and units > 0 else ""
        hertz = f"{self.readback_uhz // 10**6}.{self.readback_uhz % 10**6:06d}"
        rate = f"{minus}{units // 10**5}.{units % 10**5:05d}"
        return f"{self.number},{self.first_us()},{self.origin},{hertz},{rate}\n"


def listing(records, refusal=None):
    return HEADER_LINE + "".join(r.line() for r in records) + (f"refused,{refusal}\n" if refusal else "")


def joined(records):
    return b"".join(r.bytes() for r in records)


# The case of FORMAT, "Cases worked by hand", word by word, and its listing.
CASE_WORDS = {
    1: 0x8101, 2: 0x0001, 3: 0x0186, 6: 0xAC18, 7: 0x0293, 8: 0x2E00, 16: 0x4200, 26: 0x0012, 27: 0x3452, 37: 0x00C8, 38: 0xA55A,
}
CASE_OUT = "record,first_us,origin,poca_hz,rate_hz_s\n1,43199990000,1,42.000000,-1.23450\n"


def the_case():
    b = bytearray(780)
    for n, value in CASE_WORDS.items():
        struct.pack_into(">H", b, 2 * (n - 1), value)
    return bytes(b)


# Records of every rate and both software versions, with the ends of every column.
MIXED = [
    Record(1, 50000, "A", origin=1, tag_ms=0, readback_uhz=0, rate_digits=0, sign=0),
    Record(2, 20000, "B", tag_ms=1, readback_uhz=1, rate_digits=0, sign=1, power=7),
    Record(3, 10000, "A", tag_ms=86_399_999, readback_uhz=99_999_999_999_999, rate_digits=99999, sign=0, power=7),
    Record(65535, 5000, "B", origin=1, readback_uhz=999_999, rate_digits=99999, sign=1, power=7),
    Record(255, 2000, "A", readback_uhz=1_000_000, rate_digits=1, sign=0, power=0),
    Record(256, 1000, "B", readback_uhz=2_295_000_123_456, rate_digits=12345, sign=1, power=3),
    Record(9, 1000, "A", sync=0, rate_digits=12345, sign=1, power=0),
    Record(10, 200, "B", day=366, year=84, tape=255, rate_digits=10000, sign=0, power=1),
    Record(11, 200, "A", day=366, year=0, rate_digits=12345, sign=0, power=1),
]

# The tags at the ends of the day, at every rate; and sample 0 a millisecond before 0 h, at it and after it.
EDGE_TAGS_MS = [0, 1, 86_399_999]
NEAR_0 = [Record(n, 1000, tag_ms=n) for n in (1, 2, 3)] + [Record(n, 200, tag_ms=n) for n in (9, 10, 11)]

GOOD = Record(7, origin=1)
AFTER = Record(9)

# One record that each of 3 to 11 refuses, between two good ones: the line before stays, and nothing follows the refusal.
REFUSED = {
    "3": Record(8, conversion=1),
    "4": Record(8, compression=2),
    "5": Record(8, rate=201, words=390),
    "6": Record(8, rate=200, words=1190),
    "7": Record(8, tape=0),
    "8": Record(8, year=84, day=367),
    "9": Record(8, tag_ms=86_400_000),
    "10": Record(8, readback_digits="0000004200000A"),
    "11": Record(8, origin=1, sync=0xA55B),
}

# Six lengths that make 65,530 bytes, each at least once: 4390, 4380, 2390, 2380, 790, 780.
FULL_COUNTS = [(50000, "B", 1), (50000, "A", 1), (1000, "B", 1), (1000, "A", 1), (200, "B", 51), (200, "A", 15)]


def full_reel():
    records, number = [], 1
    for rate, software, count in FULL_COUNTS:
        for _ in range(count):
            values = {"origin": number % 2, "tag_ms": 500 * number, "readback_uhz": 10**6 * number + number}
            records.append(Record(number, rate, software, **values))
            number += 1
    return records


def cases():
    yield "empty", b"", HEADER_LINE
    yield "case-of-01", the_case(), CASE_OUT
    yield "every-rate", joined(MIXED), listing(MIXED)
    for tag_ms in EDGE_TAGS_MS:
        tagged = [Record(number, rate, tag_ms=tag_ms) for number, rate in enumerate(LAST_SAMPLE_WORD, 1)]
        yield f"every-rate-tag-{tag_ms}", joined(tagged), listing(tagged)
    yield "first-sample-near-0", joined(NEAR_0), listing(NEAR_0)

    good = GOOD.bytes()
    yield "refused-1", good + AFTER.bytes()[:79], listing([GOOD], 1)
    yield "refused-1-word-3-below-40", good + Record(8, words=39).bytes() + AFTER.bytes(), listing([GOOD], 1)
    yield "refused-2", good + AFTER.bytes()[:-1], listing([GOOD], 2)
    for refusal, record in REFUSED.items():
        yield f"refused-{refusal}", good + record.bytes() + AFTER.bytes(), listing([GOOD], int(refusal))
    yield "refused-7-record-number", good + Record(0).bytes() + AFTER.bytes(), listing([GOOD], 7)
    yield "refused-8-day-366", good + Record(8, year=86, day=366).bytes() + AFTER.bytes(), listing([GOOD], 8)
    yield "refused-9-readback-tag", good + Record(8, readback_tag_ms=86_400_000).bytes(), listing([GOOD], 9)
    yield "refused-first", REFUSED["4"].bytes() + good, listing([], 4)

    full = full_reel()
    assert len(joined(full)) == 65530
    yield "length-65530", joined(full), listing(full)
    yield "length-65536", joined(full) + bytes(6), listing(full, 1)
    yield "length-65537", joined(full) + bytes(7), listing([], 24)
    yield "length-70000", joined(full) + bytes(4470), listing([], 24)
    # The longest listing that an input can have: 84 records of the shortest length with the longest line each, and a refusal.
    longest = [Record(65535, origin=1, tag_ms=86_399_999, readback_uhz=10**14 - 1, rate_digits=99999, power=7, sign=0)] * 84
    yield "longest", joined(longest) + bytes(16), listing(longest, 1)


def files():
    root = pathlib.Path(__file__).resolve().parent.parent.parent
    for name, data, out in cases():
        yield root / "tests" / "lister" / f"{name}.in", data
        yield root / "tests" / "lister" / f"{name}.out", out.encode("ascii")
    yield root / "crates" / "lister" / "stdin", the_case()
    yield root / "crates" / "lister" / "stdout", CASE_OUT.encode("ascii")


def main():
    check = sys.argv[1:] == ["--check"]
    wrong = [path for path, data in files() if check and (not path.exists() or path.read_bytes() != data)]
    if wrong:
        sys.exit("not as make.py makes it: " + ", ".join(str(p) for p in wrong))
    if not check:
        for path, data in files():
            path.parent.mkdir(exist_ok=True)
            path.write_bytes(data)


main()
