//! FORMAT: "Samples", "Times and phases"; of "The index of seconds" the totals and means of samples.

use crate::record::{read_header, record_rate, sample_bytes};

pub fn read_samples(edition: u64, bytes: &[u8], channels: [&mut [i8]; 4]) -> Result<(), u8> {
    let samples = &bytes[sample_bytes(edition, bytes)?];
    let count = samples.len() / 4;
    if channels.iter().any(|channel| channel.len() < count) {
        return Err(12);
    }
    for (c, channel) in channels.into_iter().enumerate() {
        for k in 0..count {
            channel[k] = samples[4 * k + c] as i8;
        }
    }
    Ok(())
}

pub fn write_samples(edition: u64, bytes: &mut [u8], channels: [&[i8]; 4]) -> Result<(), u8> {
    let stretch = sample_bytes(edition, bytes)?;
    let samples = &mut bytes[stretch];
    let count = samples.len() / 4;
    if channels.iter().any(|channel| channel.len() < count) {
        return Err(12);
    }
    for (c, channel) in channels.into_iter().enumerate() {
        for k in 0..count {
            samples[4 * k + c] = channel[k] as u8;
        }
    }
    Ok(())
}

/// The sample that the time tag belongs to, counted from 0: that of the third set.
const TAGGED: i64 = 2;

/// In microseconds from 0 h of the record's day, below 0 on the day before.
pub fn sample_time(edition: u64, bytes: &[u8], k: u64) -> Result<i64, u8> {
    let rate = record_rate(edition, bytes)?;
    if k >= rate.samples {
        return Err(12);
    }
    Ok(time_us(read_header(edition, bytes)?.time_tag_ms, k, rate.hz))
}

/// Sample k's time by the tag and the rate, rounded down once: `div_euclid` by a number above 0 does so, `/` goes up below 0.
pub fn time_us(tag_ms: u64, k: u64, hz: u64) -> i64 {
    1000 * tag_ms as i64 + ((k as i64 - TAGGED) * 1_000_000).div_euclid(hz as i64)
}

/// Both phases in cycles.
pub fn phases(edition: u64, bytes: &[u8]) -> Result<(f64, f64), u8> {
    let h = read_header(edition, bytes)?;
    let cycle = (1u64 << h.edition().fraction_bits) as f64;
    Ok((h.phase_1 as f64 / cycle, h.phase_2 as f64 / cycle))
}

#[derive(Clone, Copy, Debug, Default, PartialEq, Eq)]
pub struct Total {
    pub sum: i64,
    pub squares: u64,
    pub least: i8,
    pub greatest: i8,
    /// Samples equal to -128 or 127.
    pub clipped: u32,
}

/// The total of some samples, 0 throughout for none.
pub fn total(samples: &[i8]) -> Total {
    Total {
        sum: samples.iter().map(|&s| i64::from(s)).sum(),
        squares: samples.iter().map(|&s| (i64::from(s) * i64::from(s)) as u64).sum(),
        least: samples.iter().copied().min().unwrap_or(0),
        greatest: samples.iter().copied().max().unwrap_or(0),
        clipped: samples.iter().filter(|&&s| [-128, 127].contains(&s)).count() as u32,
    }
}

/// The samples of each channel, in order.
pub fn channels(edition: u64, bytes: &[u8]) -> Result<[Vec<i8>; 4], u8> {
    let count = record_rate(edition, bytes)?.samples as usize;
    let mut out = [(); 4].map(|_| vec![0; count]);
    read_samples(edition, bytes, out.each_mut().map(|channel| channel.as_mut_slice()))?;
    Ok(out)
}

pub fn totals(edition: u64, bytes: &[u8]) -> Result<[Total; 4], u8> {
    Ok(channels(edition, bytes)?.map(|samples| total(&samples)))
}

#[derive(Clone, Copy, Debug, Default, PartialEq)]
pub struct Means {
    pub mean: f64,
    pub mean_square: f64,
}

/// The means of a total over `count` samples.
pub fn means(total: Total, count: u64) -> Means {
    if count == 0 {
        return Means::default();
    }
    Means { mean: total.sum as f64 / count as f64, mean_square: total.squares as f64 / count as f64 }
}
