//! String counts: merged, reversed and weighed.

use overlay_order::count::EdgeCount;
use overlay_order::string_count::{STRING_AGAINST, STRING_ALONG, ShapeCountString};

const BOTH: u8 = STRING_ALONG | STRING_AGAINST;

#[test]
fn directions_are_joined(rt: HostRuntime) {
    let along = ShapeCountString {
        subj: 3,
        clip: STRING_ALONG,
    };
    let against = ShapeCountString {
        subj: -1,
        clip: STRING_AGAINST,
    };
    let merged = along.merged(against, &mut ());
    assert_eq!(rt; merged.subj, 2);
    assert_eq!(rt; merged.clip, 3);
    assert_eq!(rt; along.merged(along, &mut ()).weight(), 7);
}

#[test]
fn directions_are_exchanged(rt: HostRuntime) {
    for (clip, exchanged) in [(0, 0), (1, 2), (2, 1), (3, 3), (4, 0), (253, 2)] {
        let count = ShapeCountString { subj: 5, clip };
        let reversed = count.reversed(&mut ());
        assert_eq!(rt; reversed.subj, -5);
        assert_eq!(rt; reversed.clip, exchanged, "at {clip}");
    }
}

#[test]
fn each_direction_weighs_one(rt: HostRuntime) {
    for (subj, clip, weight) in [(0, 0, 0), (-2, 1, 3), (1, 2, 2), (2, BOTH, 4), (0, 4, 0)] {
        let count = ShapeCountString { subj, clip };
        assert_eq!(rt; count.weight(), weight);
        assert_eq!(rt; count.is_nothing(), weight == 0);
        assert_eq!(rt; count.clip(), 0);
    }
}
