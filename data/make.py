#!/usr/bin/env python3
"""Makes the bundled reels data/sample.odr and data/slow.odr, and beside each NAME.csv, its listing by docs/FORMAT.md.

    make.py            # writes the files
    make.py --check    # writes nothing; fails where a file is not what it would write

The values are made up, after RSC-11-10 of 1985: Voyager 2 at Uranus, received in Canberra, software OP-B. Every field of the
header is filled in, the readback follows its own rate, and each channel has a tone and noise. Each second has its L records, the
first with clock origin 1 and none with copy error, so that each is KEPT. It needs Python 3 alone.
"""
import math
import pathlib
import struct
import sys

HEADER_LINE = "record,first_us,origin,poca_hz,rate_hz_s\n"
LONGEST_INPUT = 65_536

# The table of rates, for the rates used here: records a second, samples a channel, words of an OP-B record.
RATES = {10_000: (10, 1000, 2195), 200: (2, 100, 395)}
MONITOR_WORDS, OFFSET_WORDS = 150, 5

# One turn of a sine, and for each channel how far a sample goes along it and how many hundredths of it are taken.
TURN = [round(100 * math.sin(2 * math.pi * i / 64)) for i in range(64)]
CHANNELS = [(3, 90), (5, 70), (7, 45), (11, 20)]


class Reel:
    """A pass at one rate, from a whole second on."""

    def __init__(self, rate, seconds, start_s, readback_uhz, digits, power, sign):
        self.rate, self.seconds, self.start_s, self.readback_uhz = rate, seconds, start_s, readback_uhz
        self.digits, self.power, self.sign = digits, power, sign
        self.per_second, self.samples, self.words = RATES[rate]
        self.noise = 1

    def units(self):
        """The frequency rate, in units of 0.00001 Hz/s."""
        return self.digits * 10**self.power * (1 if self.sign else -1)

    def tag_ms(self, n):
        return 1000 * self.start_s + n * 1000 // self.per_second

    def origin(self, n):
        return 1 if n % self.per_second == 0 else 0

    def first_us(self, n):
        """The time of sample 0, two intervals before the tag."""
        return 1000 * self.tag_ms(n) + (0 - 2) * 10**6 // self.rate

    def frequency_uhz(self, n):
        return self.readback_uhz + self.units() * (self.tag_ms(n) - self.tag_ms(0)) // 100

    def header(self, n):
        b = bytearray(80)

        def word(at, value):
            struct.pack_into(">H", b, 2 * (at - 1), value)

        def tag(at, value, upper=0):
            struct.pack_into(">I", b, 2 * (at - 1), upper << 28 | value)

        def digits(at, value):
            b[2 * at - 1:2 * at + 6] = bytes.fromhex(f"{value:014d}")

        tag_ms, frequency = self.tag_ms(n), self.frequency_uhz(n)
        session_start = 1 if n == 0 else 0
        word(1, self.origin(n) << 15 | session_start << 14 | 1 << 8 | 1)  # no compression, tape 1
        word(2, n + 1)
        word(3, self.words)
        word(4, 43 << 8 | 42)  # prime and secondary FEA
        word(5, 32 << 8 | 40)  # Voyager 2, SPC 40
        word(6, 86 << 9 | 24)
        tag(7, tag_ms)
        b[16:26] = b"VGR2-86024"  # predict set
        b[26] = 0x75  # the normal status: ready, power on, in lock, track and sweep on
        digits(14, frequency)
        tag(18, tag_ms)
        digits(20, frequency - 1_250)
        tag(24, tag_ms - 20, upper=4)  # filter 4
        rate_digits = f"{self.digits:05d}"
        word(26, int(rate_digits[:2], 16))
        word(27, int(rate_digits[2:], 16) << 4 | self.power << 1 | self.sign)
        b[54:60] = (frequency * 256 // 10**6).to_bytes(6, "big")  # cycles a second, 8 bits of fraction; no counter 2
        word(34, 0x1B10)
        tag(35, tag_ms)
        word(37, self.rate)
        word(38, 0xA55A)
        word(40, (0x14 if self.rate >= 2000 else 0x04) << 8 | 0x1B)  # 8 bits, four inputs, each to its own converter
        return bytes(b)

    def next_noise(self):
        self.noise = (1103515245 * self.noise + 12345) % 2**31
        return (self.noise >> 16) % 9 - 4

    def sample_bytes(self, n):
        values = (
            TURN[step * (n * self.samples + k) % 64] * hundredths // 100 + self.next_noise()
            for k in range(self.samples) for step, hundredths in CHANNELS
        )
        return b"".join(struct.pack(">b", value) for value in values)

    def monitor(self, n):
        """Every segment is new in the first record of a second, and stays as it was in the others."""
        second = n // self.per_second
        status = 0xFE00 if self.origin(n) else 0
        return struct.pack(f">{MONITOR_WORDS}H", status, 0, 0, 0, 0, *(16 * j + second for j in range(5, MONITOR_WORDS)))

    def record(self, n):
        b = self.header(n) + self.sample_bytes(n) + self.monitor(n) + bytes(2 * OFFSET_WORDS)
        assert len(b) == 2 * self.words
        return b

    def line(self, n):
        frequency, rate = self.frequency_uhz(n), abs(self.units())
        minus = "-" if self.units() < 0 else ""
        hertz = f"{frequency // 10**6}.{frequency % 10**6:06d}"
        return f"{n + 1},{self.first_us(n)},{self.origin(n)},{hertz},{minus}{rate // 10**5}.{rate % 10**5:05d}\n"

    def files(self, name):
        count = self.seconds * self.per_second
        data = b"".join(self.record(n) for n in range(count))
        assert len(data) <= LONGEST_INPUT
        yield f"{name}.odr", data
        yield f"{name}.csv", (HEADER_LINE + "".join(self.line(n) for n in range(count))).encode("ascii")


def files():
    folder = pathlib.Path(__file__).resolve().parent
    sample = Reel(10_000, seconds=1, start_s=81_000, readback_uhz=41_562_421_673_152, digits=48230, power=2, sign=1)
    slow = Reel(200, seconds=20, start_s=68_400, readback_uhz=41_437_500_250_000, digits=31416, power=0, sign=0)
    for reel, name in (sample, "sample"), (slow, "slow"):
        for file, data in reel.files(name):
            yield folder / file, data


def main():
    if sys.argv[1:] == ["--check"]:
        wrong = [str(path) for path, data in files() if not path.exists() or path.read_bytes() != data]
        if wrong:
            sys.exit("not as data/make.py makes it: " + ", ".join(wrong))
    elif sys.argv[1:]:
        sys.exit("usage: data/make.py [--check]")
    else:
        for path, data in files():
            path.write_bytes(data)


main()
