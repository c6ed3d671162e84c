//! Fractions at each coordinate type, up to the greatest numbers.

use overlay_exact::exact_int::ExactInt;
use std::cmp::Ordering;

#[test]
fn thirds_and_sevenths(rt: HostRuntime) {
    assert_eq!(rt; i16::compare_fractions(1, 3, 2, 7), Ordering::Greater);
    assert_eq!(rt; i32::compare_fractions(2, 7, 1, 3), Ordering::Less);
    assert_eq!(rt; i64::compare_fractions(2, 6, 1, 3), Ordering::Equal);
    assert_eq!(rt; i64::compare_fractions(0, 3, 0, 7), Ordering::Equal);
    assert_eq!(rt; i64::compare_fractions(7, 7, 6, 7), Ordering::Greater);
}

// (m - 1) / m is more than (m - 2) / (m - 1): by products (m - 1)^2 is m (m - 2) + 1.
#[test]
fn greatest_numbers(rt: HostRuntime) {
    let m = i32::MAX;
    assert_eq!(rt;
        i16::compare_fractions(m - 1, m, m - 2, m - 1),
        Ordering::Greater
    );
    let m = i64::MAX;
    assert_eq!(rt;
        i32::compare_fractions(m - 1, m, m - 2, m - 1),
        Ordering::Greater
    );
    let m = i128::MAX;
    assert_eq!(rt;
        i64::compare_fractions(m - 1, m, m - 2, m - 1),
        Ordering::Greater
    );
    assert_eq!(rt;
        i64::compare_fractions(m - 2, m - 1, m - 1, m),
        Ordering::Less
    );
    assert_eq!(rt; i64::compare_fractions(m - 1, m, m - 1, m), Ordering::Equal);
    assert_eq!(rt; i64::compare_fractions(m, m, 1, m), Ordering::Greater);
}

// Quotients of neighbours in the sequence of Fibonacci agree the longest. The products of their fractions differ by 1,
// in turns one way and the other.
#[test]
fn long_chains_of_quotients(rt: HostRuntime) {
    let (mut n, mut d) = (1i128, 1i128);
    for turn in 0..180 {
        let sum = n + d;
        let (want, back) = if turn % 2 == 0 {
            (Ordering::Greater, Ordering::Less)
        } else {
            (Ordering::Less, Ordering::Greater)
        };
        assert_eq!(rt; i64::compare_fractions(n, d, d, sum), want);
        assert_eq!(rt; i64::compare_fractions(d, sum, n, d), back);
        (n, d) = (d, sum);
    }
}

// 2^125 / (2^126 - 2) is 2^124 / (2^125 - 1).
#[test]
fn equal_numbers_in_other_terms(rt: HostRuntime) {
    let half = 1i128 << 124;
    assert_eq!(rt;
        i64::compare_fractions(2 * half, 4 * half - 2, half, 2 * half - 1),
        Ordering::Equal
    );
    assert_eq!(rt;
        i64::compare_fractions(2 * half, 4 * half - 3, half, 2 * half - 1),
        Ordering::Greater
    );
}
