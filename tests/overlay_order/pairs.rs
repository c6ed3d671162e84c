//! Lists of pairs, shared by tests of orders.

use std::alloc::Allocator;
use std::test::Fail;

/// A list of pairs.
pub(crate) fn list_of<A: Allocator>(
    alloc: A,
    pairs: &[(usize, u8)],
) -> Result<Vec<(usize, u8), A>, Fail> {
    let mut list = Vec::new(alloc);
    for pair in pairs {
        list.push(*pair)?;
    }
    Ok(list)
}
