//! Overlays two lists of squares again and again, by a call of the crate or of C, for callgrind:
//! `cost KIND COUNT TIMES`.
//!
//! What a call costs is the difference of two counts of instructions, with more and with fewer `TIMES`, divided.
#![allow(
    unsafe_code,
    clippy::unwrap_used,
    clippy::indexing_slicing,
    clippy::arithmetic_side_effects,
    clippy::panic
)]

use polyover::core::{fill_rule::FillRule, overlay::Overlay, overlay_rule::OverlayRule, single::SingleIntOverlay};
use polyover::float::single::SingleFloatOverlay;
use polyover::i_float::int::point::IntPoint;
use polyover::i_shape::flat::buffer::FlatContoursBuffer;

const UNION: OverlayRule = OverlayRule::Union;
const NON_ZERO: FillRule = FillRule::NonZero;

/// `polyover_contours_32`.
#[repr(C)]
struct Contours {
    coordinates: *const i32,
    coordinate_count: usize,
    ends: *const usize,
    end_count: usize,
}

extern "C" {
    fn polyover_overlay_result_32(
        rule: u32,
        fill: u32,
        options: *const [u64; 3],
        subject: *const Contours,
        clip: *const Contours,
        result: *mut [usize; 10],
    ) -> u32;
    fn polyover_free_32(result: *mut [usize; 10]);
}

/// The union by C, which tells how many shapes it has.
fn of_c(one: &(Vec<i32>, Vec<usize>), other: &(Vec<i32>, Vec<usize>)) -> usize {
    let given = |it: &(Vec<i32>, Vec<usize>)| Contours {
        coordinates: it.0.as_ptr(),
        coordinate_count: it.0.len(),
        ends: it.1.as_ptr(),
        end_count: it.1.len(),
    };
    let (subject, clip, mut result) = (given(one), given(other), [0; 10]);
    // (contours may touch, as in the calls of the crate)
    let options = [0, 1, 0];
    // SAFETY: the pointers are of values that outlive the call, with the counts of their lists; a result has ten words.
    unsafe {
        assert_eq!(
            polyover_overlay_result_32(3, 1, &options, &subject, &clip, &mut result),
            0
        );
        let shapes = result[5];
        polyover_free_32(&mut result);
        shapes
    }
}

/// Squares beside each other, moved.
fn squares(count: i32, by: i32) -> Vec<Vec<IntPoint<i32>>> {
    let side = (1..).find(|it| it * it >= count).unwrap();
    let square = |at: i32| {
        let (x, y) = (at % side * 12 + by, at / side * 12 + by);
        [[x, y], [x + 10, y], [x + 10, y + 10], [x, y + 10]]
            .map(IntPoint::from)
            .to_vec()
    };
    (0..count).map(square).collect()
}

fn flat(squares: &[Vec<IntPoint<i32>>]) -> (Vec<i32>, Vec<usize>) {
    let numbers = squares.concat().iter().flat_map(|it| [it.x, it.y]).collect();
    (numbers, (1..=squares.len()).map(|it| it * 4).collect())
}

fn floats(squares: &[Vec<IntPoint<i32>>]) -> Vec<Vec<[f64; 2]>> {
    let point = |it: &IntPoint<i32>| [it.x, it.y].map(|it| f64::from(it) * 0.1);
    squares.iter().map(|it| it.iter().map(point).collect()).collect()
}

fn main() {
    let words: Vec<String> = std::env::args().collect();
    let (kind, count, times) = (
        words[1].as_str(),
        words[2].parse().unwrap(),
        words[3].parse::<usize>().unwrap(),
    );
    let (one, other) = (squares(count, 0), squares(count, 5));
    let (flat_one, flat_other) = (flat(&one), flat(&other));
    let (float_one, float_other) = (floats(&one), floats(&other));
    let overlay = Overlay::from_subj_and_clip(&one, &other);
    let mut buffer = FlatContoursBuffer::default();
    let mut sum = 0;
    for _ in 0..times {
        sum += match kind {
            "c" => of_c(&flat_one, &flat_other),
            "single" => one.overlay(&other, UNION, NON_ZERO).len(),
            "builder" => overlay.try_overlay(UNION, NON_ZERO).unwrap().len(),
            "answer" => overlay.try_answer(UNION, NON_ZERO).unwrap().shapes().len(),
            "into" => {
                overlay.try_overlay_into(UNION, NON_ZERO, &mut buffer).unwrap();
                buffer.ranges.len()
            }
            "float29" => SingleFloatOverlay::overlay_as::<i32>(&float_one, &float_other, UNION, NON_ZERO).len(),
            "float61" => SingleFloatOverlay::overlay(&float_one, &float_other, UNION, NON_ZERO).len(),
            _ => panic!("no kind {kind}"),
        };
    }
    println!("{sum}");
}
