//! Lists that are put in the order of points.

use overlay_geom::point::IntPoint;
use overlay_order::edge::compare_points;
use overlay_order::sort_points::order_by_points;
use std::alloc::Allocator;
use std::process::Abort;
use std::test::Fail;

// A point, and a number.
type Item = (IntPoint<i64>, i64);

// Items in no order, some with equal points; their numbers rise.
fn dealt<A: Allocator>(alloc: A, count: i64, apart: i64) -> Result<Vec<Item, A>, Fail> {
    let mut list = Vec::new(alloc);
    for number in 0..count {
        let place = number * 7919 % 1031;
        let point = IntPoint::new((place % 31 - 15) * apart, (place / 31 - 15) * apart);
        list.push((point, number))?;
    }
    Ok(list)
}

fn is_before(p: Item, q: Item) -> bool {
    compare_points(p.0, q.0).then(p.1.cmp(&q.1)).is_lt()
}

#[test]
fn items_with_equal_points_keep_their_order(rt: HostRuntime) -> Result<(), Fail> {
    for apart in [1, 1000, 1 << 57] {
        let mut list = dealt(rt.alloc(), 1500, apart)?;
        order_by_points(&mut list, |item| item.0)?;
        assert!(rt; list.len() == 1500);
        for i in 1..list.len() {
            assert!(rt; is_before(list[i - 1], list[i]));
        }
    }
    Ok(())
}

#[test]
fn few_items_are_kept(rt: HostRuntime) -> Result<(), Fail> {
    let mut list = dealt(rt.alloc(), 10, 1)?;
    order_by_points(&mut list, |item| item.0)?;
    for i in 0..list.len() {
        assert!(rt; list[i].1 == i as i64);
    }
    Ok(())
}
