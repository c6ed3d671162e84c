//! Lists that are put in the order of small numbers.

use crate::pairs::list_of;
use overlay_order::sort_numbers::order_by_numbers;
use std::process::Abort;
use std::test::Fail;

#[test]
fn items_with_equal_numbers_keep_their_order(rt: HostRuntime) -> Result<(), Fail> {
    let mut list = list_of(rt.alloc(), &[(3, 1), (0, 2), (3, 3), (1, 4), (0, 5)])?;
    order_by_numbers(&mut list, 4, |pair| pair.0)?;
    assert!(rt; list[..] == [(0, 2), (0, 5), (1, 4), (3, 1), (3, 3)]);
    Ok(())
}

#[test]
fn items_with_large_numbers_are_kept(rt: HostRuntime) -> Result<(), Fail> {
    let mut list = list_of(rt.alloc(), &[(usize::MAX, 1), (1, 2), (7, 3), (0, 4)])?;
    order_by_numbers(&mut list, 2, |pair| pair.0)?;
    list.sort_by(|p, q| p.0.cmp(&q.0))?;
    assert!(rt; list[..] == [(0, 4), (1, 2), (7, 3), (usize::MAX, 1)]);
    Ok(())
}
