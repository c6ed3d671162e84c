//! What several tests use.

use polyover::core::integer::OverlayInt;
use polyover::i_float::int::number::int::IntNumber;
use polyover::i_float::int::point::IntPoint;
use polyover::vector::edge::{VectorPath, VectorShape};

/// Numbers by chance, the same at each run.
pub struct Random(pub u64);

impl Random {
    pub fn below(&mut self, end: u64) -> u64 {
        self.0 = self
            .0
            .wrapping_mul(6_364_136_223_846_793_005)
            .wrapping_add(1_442_695_040_888_963_407);
        (self.0 >> 33) % end
    }

    fn coordinate(&mut self, reach: i16) -> i16 {
        let reach = i64::from(reach);
        i16::try_from(i64::try_from(self.below(2 * reach as u64 + 1)).unwrap() - reach).unwrap()
    }

    /// One to three contours of three to eleven points, at most `reach` away from 0.
    pub fn contours(&mut self, reach: i16) -> Vec<Vec<[i16; 2]>> {
        let count = 1 + self.below(3);
        let contour = |random: &mut Self| {
            let points = 3 + random.below(9);
            (0..points)
                .map(|_| [random.coordinate(reach), random.coordinate(reach)])
                .collect()
        };
        (0..count).map(|_| contour(self)).collect()
    }
}

/// The contours with coordinates of another type.
pub fn of<T: From<i16> + IntNumber>(contours: &[Vec<[i16; 2]>]) -> Vec<Vec<IntPoint<T>>> {
    let contour = |it: &Vec<[i16; 2]>| it.iter().map(|it| it.map(T::from).into()).collect();
    contours.iter().map(contour).collect()
}

/// The contours of shapes, each from that edge on which is the first one in order.
pub fn turned<I: OverlayInt>(shapes: &[VectorShape<I>]) -> Vec<VectorShape<I>> {
    let contour = |it: &VectorPath<I>| {
        let first = (0..it.len()).min_by_key(|&at| (it[at].a, it[at].b)).unwrap_or(0);
        [&it[first..], &it[..first]].concat()
    };
    shapes.iter().map(|it| it.iter().map(contour).collect()).collect()
}

/// A square, counterclockwise from its low corner.
pub fn square<T: IntNumber>(low: T, high: T) -> Vec<IntPoint<T>> {
    [[low, low], [high, low], [high, high], [low, high]]
        .map(IntPoint::from)
        .to_vec()
}
