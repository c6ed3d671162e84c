//! The numbers that coordinates are made of, at the ends of their ranges.

use overlay_geom::number::IntNumber;
use std::cmp::Ordering;
use std::process::Abort;

// The coordinate nearest to the point t / d of the way from one to another.
fn part_i16(rt: &impl Abort, from: i16, to: i16, t: i32, d: i32) -> i16 {
    assert!(rt; from.is_in_range());
    assert!(rt; to.is_in_range());
    assert!(rt; 0 <= t);
    assert!(rt; t <= d);
    assert!(rt; 0 < d);
    from.part_way(to, t, d)
}

fn part_i32(rt: &impl Abort, from: i32, to: i32, t: i64, d: i64) -> i32 {
    assert!(rt; from.is_in_range());
    assert!(rt; to.is_in_range());
    assert!(rt; 0 <= t);
    assert!(rt; t <= d);
    assert!(rt; 0 < d);
    from.part_way(to, t, d)
}

fn part_i64(rt: &impl Abort, from: i64, to: i64, t: i128, d: i128) -> i64 {
    assert!(rt; from.is_in_range());
    assert!(rt; to.is_in_range());
    assert!(rt; 0 <= t);
    assert!(rt; t <= d);
    assert!(rt; 0 < d);
    from.part_way(to, t, d)
}

fn are_in_range<I: IntNumber>(numbers: [I; 4]) -> [bool; 4] {
    let [a, b, c, d] = numbers;
    [
        a.is_in_range(),
        b.is_in_range(),
        c.is_in_range(),
        d.is_in_range(),
    ]
}

fn comparisons<I: IntNumber>(low: I, high: I) -> [Ordering; 3] {
    [low.compare(high), low.compare(low), high.compare(low)]
}

#[test]
fn the_ends_of_the_range(rt: HostRuntime) {
    let want = [false, true, true, false];
    assert_eq!(rt; are_in_range([-16384i16, -16383, 16383, 16384]), want);
    assert_eq!(rt;
        are_in_range([-1073741824i32, -1073741823, 1073741823, 1073741824]),
        want
    );
    let ends = [
        -4611686018427387904i64,
        -4611686018427387903,
        4611686018427387903,
        4611686018427387904,
    ];
    assert_eq!(rt; are_in_range(ends), want);
}

#[test]
fn comparisons_at_the_ends(rt: HostRuntime) {
    let want = [Ordering::Less, Ordering::Equal, Ordering::Greater];
    assert_eq!(rt; comparisons(i16::MIN, i16::MAX), want);
    assert_eq!(rt; comparisons(i32::MIN, i32::MAX), want);
    assert_eq!(rt; comparisons(i64::MIN, i64::MAX), want);
}

#[test]
fn sums_and_differences_at_the_ends(rt: HostRuntime) {
    assert_eq!(rt; 16383i16.plus(16383), 32766);
    assert_eq!(rt; (-16383i16).minus(16383), -32766);
    assert_eq!(rt; 1073741823i32.plus(1073741823), 2147483646);
    assert_eq!(rt; (-1073741823i32).minus(1073741823), -2147483646);
    assert_eq!(rt;
        4611686018427387903i64.plus(4611686018427387903),
        9223372036854775806
    );
    assert_eq!(rt;
        (-4611686018427387903i64).minus(4611686018427387903),
        -9223372036854775806
    );
}

#[test]
fn cross_products_at_the_ends(rt: HostRuntime) {
    assert_eq!(rt; i16::cross(32766, -32766, 32766, 32766), 2147221512);
    assert_eq!(rt;
        i32::cross(2147483646, -2147483646, 2147483646, 2147483646),
        9223372019674906632
    );
    let most = 9223372036854775806;
    assert_eq!(rt;
        i64::cross(most, -most, most, most),
        170141183460469231657900327421045899272
    );
}

#[test]
fn parts_of_short_ways(rt: HostRuntime) {
    assert_eq!(rt; part_i16(&rt, 0, 10, 3, 7), 4);
    assert_eq!(rt; part_i16(&rt, 10, 0, 3, 7), 6);
    assert_eq!(rt; part_i32(&rt, 0, 10, 3, 7), 4);
    assert_eq!(rt; part_i64(&rt, 0, 10, 3, 7), 4);
    assert_eq!(rt; part_i16(&rt, 5, -9, 0, 4), 5);
    assert_eq!(rt; part_i16(&rt, 5, -9, 4, 4), -9);
    assert_eq!(rt; part_i32(&rt, 5, -9, 4, 4), -9);
    assert_eq!(rt; part_i64(&rt, 5, -9, 0, 4), 5);
}

#[test]
fn halves_go_up(rt: HostRuntime) {
    for (from, to, part) in [(0, 1, 1), (1, 0, 1), (0, -1, 0), (-1, 0, 0)] {
        assert_eq!(rt; part_i16(&rt, from, to, 1, 2), part);
    }
    assert_eq!(rt; part_i32(&rt, 1, 0, 1, 2), 1);
    assert_eq!(rt; part_i64(&rt, 0, -1, 1, 2), 0);
}

#[test]
fn a_quarter_of_the_longest_way(rt: HostRuntime) {
    let most = 16383;
    for (from, to, t, part) in [
        (-most, most, 268435456, -8191),
        (-most, most, 268435455, -8192),
        (most, -most, 268435456, 8192),
        (most, -most, 268435457, 8191),
    ] {
        assert_eq!(rt; part_i16(&rt, from, to, t, 1073741824), part);
    }
    let most = 1073741823;
    for (from, to, t, part) in [
        (-most, most, 1152921504606846976, -536870911),
        (-most, most, 1152921504606846975, -536870912),
        (most, -most, 1152921504606846976, 536870912),
        (most, -most, 1152921504606846977, 536870911),
    ] {
        assert_eq!(rt; part_i32(&rt, from, to, t, 4611686018427387904), part);
    }
}

#[test]
fn products_of_more_than_128_bits(rt: HostRuntime) {
    let most = 4611686018427387903;
    let whole = 85070591730234615865843651857942052864;
    let quarter = 21267647932558653966460912964485513216;
    let third = 28356863910078205288614550619314017621;
    for (from, to, t, d, part) in [
        (-most, most, quarter, whole, -2305843009213693951),
        (-most, most, quarter - 1, whole, -2305843009213693952),
        (most, -most, quarter, whole, 2305843009213693952),
        (most, -most, quarter + 1, whole, 2305843009213693951),
        (-most, most, third, whole, -1537228672809129301),
        (-most, most, i128::MAX, i128::MAX, most),
    ] {
        assert_eq!(rt; part_i64(&rt, from, to, t, d), part);
    }
}
