//! Many heights in several orders, gaps between them, and numbers drawn at random.

use overlay_geom::error::OverlayError;
use std::alloc::Global;

// Number of heights.
pub(crate) const COUNT: u16 = 10_000;

// In which order they come.
#[derive(Clone, Copy)]
pub(crate) enum Order {
    Rising,
    Falling,
    Zigzag,
    Random,
}

// The n-th number that a generator draws: SplitMix64, begun with zero.
fn drawn(n: u64) -> u64 {
    let z = n.wrapping_mul(0x9E37_79B9_7F4A_7C15);
    let z = (z ^ (z >> 30)).wrapping_mul(0xBF58_476D_1CE4_E5B9);
    let z = (z ^ (z >> 27)).wrapping_mul(0x94D0_49BB_1331_11EB);
    z ^ (z >> 31)
}

// The place-th height from below. After each four of them two numbers are left out, and the highest is 14,997, which
// all coordinate types have.
fn height_of(place: u16) -> u16 {
    let place = place % COUNT;
    place / 4 * 6 + place % 4
}

// Some number as high as a height or a gap, drawn for the n-th time.
pub(crate) fn any_height(n: u64) -> u16 {
    (drawn(n) % 15_000) as u16
}

// The lower number of some gap, drawn for the n-th time.
pub(crate) fn any_gap(n: u64) -> u16 {
    (drawn(n) % 2500) as u16 * 6 + 4
}

// The n-th place in this order. At random places rise until they are swapped.
fn place_at(order: Order, n: u16) -> u16 {
    let n = n % COUNT;
    let last = COUNT - 1;
    match order {
        Order::Rising | Order::Random => n,
        Order::Falling => last - n,
        Order::Zigzag if n % 2 == 0 => n / 2,
        Order::Zigzag => last - n / 2,
    }
}

// Adds the n-th height in place of a height drawn at random, which moves to the end.
fn add_height(heights: &mut Vec<u16, Global>, order: Order, n: u16) -> Result<(), OverlayError> {
    heights.push(height_of(place_at(order, n)))?;
    let count = heights.len();
    if let Order::Random = order {
        let other = (drawn(u64::from(n)) % count as u64) as usize;
        heights.swap(count - 1, other);
    }
    Ok(())
}

// All heights in this order.
pub(crate) fn heights_in(alloc: Global, order: Order) -> Result<Vec<u16, Global>, OverlayError> {
    let mut heights = Vec::new(alloc);
    for n in 0..COUNT {
        add_height(&mut heights, order, n)?;
    }
    Ok(heights)
}
