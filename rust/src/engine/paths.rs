//! The paths that a builder holds.

use crate::engine::lists::make_room;
use crate::error::OverlayError;
use crate::ffi::{coordinates_of, Given};
use crate::i_float::int::number::int::IntNumber;
use crate::i_float::int::point::IntPoint;
use crate::i_shape::source::int::resource::IntShapeResource;
use alloc::vec::Vec;

/// Paths one behind the other: their points, and how many there are up to the end of each.
#[derive(Debug, Clone)]
pub(crate) struct Paths<I: IntNumber> {
    points: Vec<IntPoint<I>>,
    ends: Vec<usize>,
}

impl<I: IntNumber> Paths<I> {
    /// No path.
    pub(crate) const fn new() -> Self {
        Self {
            points: Vec::new(),
            ends: Vec::new(),
        }
    }

    /// No path, and room for points.
    pub(crate) fn with_capacity(capacity: usize) -> Self {
        Self {
            points: Vec::with_capacity(capacity),
            ends: Vec::new(),
        }
    }

    /// The paths of a resource.
    pub(crate) fn of<R: IntShapeResource<I> + ?Sized>(resource: &R) -> Result<Self, OverlayError> {
        let mut paths = Self::new();
        paths.add_source(resource)?;
        Ok(paths)
    }

    /// Drops all paths.
    pub(crate) fn clear(&mut self) {
        self.points.clear();
        self.ends.clear();
    }

    /// Whether there is no point.
    pub(crate) fn has_no_point(&self) -> bool {
        self.points.is_empty()
    }

    /// Adds a path, or refuses it for memory, and nothing is added then.
    pub(crate) fn add(&mut self, path: &[IntPoint<I>]) -> Result<(), OverlayError> {
        make_room(&mut self.points, path.len())?;
        make_room(&mut self.ends, 1)?;
        self.points.extend_from_slice(path);
        self.ends.push(self.points.len());
        Ok(())
    }

    /// Adds the paths of a resource, or refuses for memory, and nothing is added then.
    pub(crate) fn add_source<R: IntShapeResource<I> + ?Sized>(&mut self, resource: &R) -> Result<(), OverlayError> {
        let (points, ends) = (self.points.len(), self.ends.len());
        let added = resource.iter_paths().try_for_each(|path| self.add(path));
        if added.is_err() {
            self.points.truncate(points);
            self.ends.truncate(ends);
        }
        added
    }

    /// Adds a path, as `Vec::extend` does where memory is refused.
    pub(crate) fn add_iter(&mut self, path: impl Iterator<Item = IntPoint<I>>) {
        self.points.extend(path);
        self.ends.push(self.points.len());
    }

    /// Adds a path point by point, or says why a point cannot be had, and nothing is added then.
    pub(crate) fn add_made(
        &mut self,
        path: impl ExactSizeIterator<Item = Result<IntPoint<I>, OverlayError>>,
    ) -> Result<(), OverlayError> {
        make_room(&mut self.points, path.len())?;
        make_room(&mut self.ends, 1)?;
        let count = self.points.len();
        for point in path {
            match point {
                Ok(point) => self.points.push(point),
                Err(error) => {
                    self.points.truncate(count);
                    return Err(error);
                }
            }
        }
        self.ends.push(self.points.len());
        Ok(())
    }

    /// The paths, to be lent to the library.
    pub(crate) fn as_given(&self) -> Given<'_, I> {
        Given {
            coordinates: coordinates_of(&self.points),
            ends: &self.ends,
        }
    }
}
