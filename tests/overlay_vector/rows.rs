//! Filled sides as they are seen on the way back.

use overlay_order::vector::SideFill;
use overlay_vector::side_fill::Reverse;
use std::test::Fail;

// Filled sides, and the same on the way back: left and right change places, in the two lower bits for the
// subject, and in the next two for the clip.
const BACK: [(SideFill, SideFill); 11] = [
    (0b0000, 0b0000),
    (0b0001, 0b0010),
    (0b0010, 0b0001),
    (0b0011, 0b0011),
    (0b0100, 0b1000),
    (0b1000, 0b0100),
    (0b0101, 0b1010),
    (0b0110, 0b1001),
    (0b1011, 0b0111),
    (0b1111, 0b1111),
    (0b1001_0110, 0b1001),
];

#[test]
fn filled_sides_on_the_way_back(rt: HostRuntime) -> Result<(), Fail> {
    for (fill, wanted) in BACK {
        assert!(&rt; fill.reverse() == wanted, "of {fill}");
    }
    Ok(())
}
