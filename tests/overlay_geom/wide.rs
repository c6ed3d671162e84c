//! The numbers that cross products are held in, at the ends of their ranges.

use overlay_geom::number::WideIntNumber;
use std::cmp::Ordering;

fn signs<W: WideIntNumber>(low: W, zero: W, high: W) -> [Ordering; 3] {
    [low.sign(), zero.sign(), high.sign()]
}

fn comparisons<W: WideIntNumber>(low: W, high: W) -> [Ordering; 3] {
    [low.compare(high), low.compare(low), high.compare(low)]
}

#[test]
fn signs_at_the_ends(rt: HostRuntime) {
    let want = [Ordering::Less, Ordering::Equal, Ordering::Greater];
    assert_eq!(rt; signs(i32::MIN, 0, i32::MAX), want);
    assert_eq!(rt; signs(i64::MIN, 0, i64::MAX), want);
    assert_eq!(rt; signs(i128::MIN, 0, i128::MAX), want);
}

#[test]
fn comparisons_at_the_ends(rt: HostRuntime) {
    let want = [Ordering::Less, Ordering::Equal, Ordering::Greater];
    assert_eq!(rt; comparisons(i32::MIN, i32::MAX), want);
    assert_eq!(rt; comparisons(i64::MIN, i64::MAX), want);
    assert_eq!(rt; comparisons(i128::MIN, i128::MAX), want);
}

#[test]
fn negated_ends(rt: HostRuntime) {
    assert_eq!(rt; i32::MAX.negate(), -2147483647);
    assert_eq!(rt; i64::MAX.negate(), -9223372036854775807);
    assert_eq!(rt;
        i128::MAX.negate(),
        -170141183460469231731687303715884105727
    );
    assert_eq!(rt; 0i32.negate(), 0);
}
