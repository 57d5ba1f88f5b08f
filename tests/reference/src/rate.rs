//! A rate computed from passing times, as document 02 defines it in (xiii).

use crate::refusals::{refuse, Outcome, Refusal};

/// The words that are passed to the library's call.
#[derive(Clone, Copy, Debug)]
#[repr(C)]
pub struct PassingTimes {
    pub p1: f64,
    pub p2: f64,
    pub p3: f64,
}

#[derive(Clone, Copy, Debug)]
#[repr(C)]
pub struct RateReply {
    pub number: u32,
    pub place: u32,
    pub rate: f64,
}

/// The signature of the rate's call, for this program and the library.
pub type RateCall = fn(u16, u16, PassingTimes) -> RateReply;

/// Whether a time is from 1/1024 to 1,048,576, both ends included. A NaN is never in range.
fn in_range(time: f64) -> bool {
    (1.0 / 1024.0..=1_048_576.0).contains(&time)
}

pub fn rate(h1: u16, h2: u16, times: PassingTimes) -> Outcome<f64> {
    let PassingTimes { p1, p2, p3 } = times;
    if let Some(place) = [h1, h2].iter().position(|&threshold| threshold == 0) {
        return refuse(8, place + 1);
    }
    if let Some(place) = [p1, p2, p3].iter().position(|&time| !in_range(time)) {
        return refuse(24, place + 1);
    }
    let (h1, h2) = (u64::from(h1), u64::from(h2));
    let second = (h2 - 1) as f64 * p2;
    let first = (h2 * (h1 - 1)) as f64 * p1;
    Ok((h1 * h2) as f64 / (p3 + second + first))
}

/// The answer in numbers, as the library's call returns it.
pub fn reply(h1: u16, h2: u16, times: PassingTimes) -> RateReply {
    match rate(h1, h2, times) {
        Ok(rate) => RateReply { number: 0, place: 0, rate },
        Err(Refusal { number, place }) => RateReply { number, place, rate: 0.0 },
    }
}

/// Whether two answers are the same, with the rates compared bit for bit.
pub fn same(one: RateReply, other: RateReply) -> bool {
    (one.number, one.place, one.rate.to_bits()) == (other.number, other.place, other.rate.to_bits())
}
