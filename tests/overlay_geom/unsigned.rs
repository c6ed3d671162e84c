//! The unsigned numbers that areas are measured in.

use overlay_geom::number::UIntNumber;

fn zero_of<U: UIntNumber>() -> U {
    U::zero()
}

#[test]
fn zeros(rt: HostRuntime) {
    assert_eq!(rt; zero_of::<u32>(), 0);
    assert_eq!(rt; zero_of::<u64>(), 0);
    assert_eq!(rt; zero_of::<u128>(), 0);
}
