//! Room for extractions.

use crate::core::integer::OverlayInt;
use ::core::marker::PhantomData;

/// Room for extractions. The library takes its own, so this one holds none.
#[derive(Debug, Clone)]
pub struct BooleanExtractionBuffer<I: OverlayInt> {
    coordinates: PhantomData<fn(I)>,
}

impl<I: OverlayInt> Default for BooleanExtractionBuffer<I> {
    fn default() -> Self {
        let coordinates = PhantomData;
        Self { coordinates }
    }
}
