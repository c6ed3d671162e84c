//! Counts with data on a data type of two colours.

ghost use Rattle.std.specs.Prelude.{⊤};

use overlay_geom::point::IntPoint;
use overlay_order::count::{EdgeCount, ShapeCountBoolean};
use overlay_order::data::{CountWithData, EdgeDataMerge, OverlayEdgeData};
use overlay_order::edge::CountedEdge;

#[derive(Debug, Clone, Copy, PartialEq)]
enum Colour {
    Red,
    Green,
    Undefined,
}

// The store counts the edges of two colours.
impl OverlayEdgeData for Colour {
    type Store = u8;

    ghost merges = { λ _ _ _ _ _. ⊤ };

    fn merge(merge: EdgeDataMerge<ShapeCountBoolean, Colour>, store: &mut u8) -> Colour {
        if merge.lhs_data == merge.rhs_data {
            merge.lhs_data
        } else {
            *store = store.saturating_add(1);
            Colour::Undefined
        }
    }

    fn split(self, _store: &mut u8) -> Colour {
        self
    }

    fn reversed(self, _store: &mut u8) -> Colour {
        self
    }
}

fn coloured(subj: i32, clip: i32, edge_data: Colour) -> CountedEdge<i32, CountWithData<Colour>> {
    let count = ShapeCountBoolean { subj, clip };
    CountedEdge {
        a: IntPoint::new(0, 0),
        b: IntPoint::new(2, 1),
        count: CountWithData { count, edge_data },
    }
}

#[test]
fn edges_of_two_colours_have_none(rt: HostRuntime) {
    let mut store = u8::default();
    let red = coloured(1, 0, Colour::Red);
    let green = coloured(-3, 2, Colour::Green);
    let both = red.count.merged(green.count, &mut store);
    assert_eq!(rt; both.count, ShapeCountBoolean { subj: -2, clip: 2 });
    assert_eq!(rt; both.edge_data, Colour::Undefined);
    let twice = green.count.merged(green.count, &mut store);
    assert_eq!(rt; twice.edge_data, Colour::Green);
    assert_eq!(rt; twice.weight(), 10);
    assert_eq!(rt; store, 1);
}

#[test]
fn pieces_have_the_colour(rt: HostRuntime) {
    let mut store = u8::default();
    let edge = coloured(1, -4, Colour::Red);
    let piece = edge.count.split(&mut store);
    let reversed = piece.reversed(&mut store);
    assert_eq!(rt; reversed.count, ShapeCountBoolean { subj: -1, clip: 4 });
    assert_eq!(rt; reversed.edge_data, Colour::Red);
    assert_eq!(rt; reversed.subj(), -1);
    assert_eq!(rt; reversed.clip(), 4);
    assert!(rt; !reversed.is_nothing());
}
