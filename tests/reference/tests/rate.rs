//! Cases of the rate: rates that another order of rounding would get wrong, and each refusal at its place.

use reference::rate::{rate, PassingTimes};

fn times(p1: f64, p2: f64, p3: f64) -> PassingTimes {
    PassingTimes { p1, p2, p3 }
}

fn refused(h1: u16, h2: u16, times: PassingTimes) -> (u32, u32) {
    let refusal = rate(h1, h2, times).unwrap_err();
    (refusal.number, refusal.place)
}

#[test]
fn rates_by_their_bits() {
    let passing = times(0.05, 0.2, 1.0);
    assert_eq!(rate(16, 4, passing).unwrap().to_bits(), 0x402B_D37A_6F4D_E9BE);
    assert_eq!(rate(4, 19, passing).unwrap().to_bits(), 0x4024_6716_55E7_F242);
    assert_eq!(rate(65_535, 65_535, passing).unwrap().to_bits(), 0x4033_FFC3_FF38_0410);
}

#[test]
fn one_over_p3_where_both_thresholds_are_1() {
    for p3 in [1.0 / 1024.0, 0.1, 3.0, 1_048_576.0] {
        assert_eq!(rate(1, 1, times(1.0, 1.0, p3)).unwrap().to_bits(), (1.0 / p3).to_bits());
    }
}

#[test]
fn thresholds_before_times() {
    assert_eq!(refused(0, 0, times(1.0, 1.0, 1.0)), (8, 1));
    assert_eq!(refused(1, 0, times(f64::NAN, 1.0, 1.0)), (8, 2));
}

#[test]
fn times_out_of_range() {
    assert_eq!(refused(1, 1, times(-0.0, 0.0, 0.0)), (24, 1));
    assert_eq!(refused(1, 1, times(1.0, f64::INFINITY, f64::NAN)), (24, 2));
    assert_eq!(refused(1, 1, times(1.0, 1.0, f64::from_bits(1))), (24, 3));
    assert_eq!(refused(1, 1, times(1.0, 1.0, f64::from_bits(1_048_576.0_f64.to_bits() + 1))), (24, 3));
    assert!(rate(1, 1, times(1.0 / 1024.0, 1_048_576.0, 1.0)).is_ok());
}
