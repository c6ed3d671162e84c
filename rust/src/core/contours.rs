//! Calls by which contours are added: the same for each builder of a subject and a clip.

/// Declares calls that add contours to a builder whose fields `subject` and `clip` are lists of paths.
macro_rules! takes_contours {
    ($builder:ident) => {
        impl<I: OverlayInt> $builder<I> {
            fn side(&mut self, shape_type: ShapeType) -> &mut Paths<I> {
                match shape_type {
                    ShapeType::Subject => &mut self.subject,
                    ShapeType::Clip => &mut self.clip,
                }
            }

            /// Adds all contours of a resource.
            ///
            /// # Errors
            /// `Memory`; nothing is added then.
            pub fn try_add_source<R: IntShapeResource<I> + ?Sized>(
                &mut self,
                resource: &R,
                shape_type: ShapeType,
            ) -> Result<(), OverlayError> {
                self.side(shape_type).add_source(resource)
            }

            /// Adds all contours of a resource.
            ///
            /// # Panics
            /// Where [`Self::try_add_source`] is refused.
            #[track_caller]
            pub fn add_source<R: IntShapeResource<I> + ?Sized>(&mut self, resource: &R, shape_type: ShapeType) {
                answered(self.try_add_source(resource, shape_type));
            }

            /// Adds a contour, point by point, as `Vec::extend` does where memory is refused.
            pub fn add_path_iter<It: Iterator<Item = IntPoint<I>>>(&mut self, iter: It, shape_type: ShapeType) {
                self.side(shape_type).add_iter(iter);
            }

            /// Adds a contour.
            ///
            /// # Panics
            /// Where [`Self::try_add_source`] is refused.
            #[track_caller]
            pub fn add_contour(&mut self, contour: &[IntPoint<I>], shape_type: ShapeType) {
                answered(self.side(shape_type).add(contour));
            }

            /// Replaces the contours.
            ///
            /// # Panics
            /// Where [`Self::try_add_source`] is refused.
            #[track_caller]
            pub fn reinit_with_subj_and_clip<R0, R1>(&mut self, subj: &R0, clip: &R1)
            where
                R0: IntShapeResource<I> + ?Sized,
                R1: IntShapeResource<I> + ?Sized,
            {
                self.clear();
                self.add_source(subj, ShapeType::Subject);
                self.add_source(clip, ShapeType::Clip);
            }

            /// Drops all contours.
            pub fn clear(&mut self) {
                self.subject.clear();
                self.clip.clear();
            }
        }
    };
}

/// Declares calls of `i_overlay` that add contours and have another name now.
macro_rules! takes_contours_by_old_names {
    ($builder:ident) => {
        /// Each panics where the call that its note names does.
        impl<I: OverlayInt> $builder<I> {
            /// Adds contours.
            #[deprecated(note = "Use `add_source` instead.")]
            #[track_caller]
            pub fn add_contours(&mut self, contours: &[IntContour<I>], shape_type: ShapeType) {
                self.add_source(contours, shape_type);
            }

            /// Adds a shape.
            #[deprecated(note = "Use `add_source` instead.")]
            #[track_caller]
            pub fn add_shape(&mut self, shape: &IntShape<I>, shape_type: ShapeType) {
                self.add_source(shape, shape_type);
            }

            /// Adds shapes.
            #[deprecated(note = "Use `add_source` instead.")]
            #[track_caller]
            pub fn add_shapes(&mut self, shapes: &[IntShape<I>], shape_type: ShapeType) {
                self.add_source(shapes, shape_type);
            }
        }
    };
}

pub(crate) use {takes_contours, takes_contours_by_old_names};
