//! Builders whose content is seen, and adders that are refused.

use crate::refusals::{Answer, PLENTY, Trial};
use overlay_geom::error::OverlayError;
use std::cell::Cell;
use std::process::Abort;
use std::test::Fail;

/// A builder whose content can be seen.
pub(crate) trait Seen: Drop {
    /// The content that queries show.
    type Content: PartialEq + Drop;

    /// Returns the builder's content, as queries show it.
    fn content(&mut self) -> Answer<Self::Content>;
}

/// Returns whether a call was answered so, for the failed builder that it was made on.
pub(crate) fn is_failed<T: Drop>(answer: Answer<T>) -> bool {
    match answer {
        Ok(_) => false,
        Err(error) => error == OverlayError::Failed,
    }
}

impl<'a, R: Abort> Trial<'a, R> {
    /// Refuses the growths of a constructor of a builder, and compares its content with that of another builder.
    pub(crate) fn makes<B: Seen, C: Fn() -> Answer<B> + Drop>(
        &self,
        name: &str,
        wanted: Answer<B>,
        make: C,
    ) -> Result<(), Fail> {
        let (mut made, mut wanted) = (self.refuse_call(name, make)?, wanted?);
        assert!(self.rt;
            made.content()? == wanted.content()?,
            "{name}: what it holds"
        );
        Ok(())
    }

    /// Refuses the growths of an adder of a path: the content stays, and the path can be added afterwards.
    pub(crate) fn adds_or_keeps<
        B: Seen,
        P: Fn() -> Answer<B> + Drop,
        C: Fn(&mut B) -> Answer<()> + Drop,
    >(&self, name: &str, prepare: P, add: C) -> Result<(), Fail> {
        let mut builder = prepare()?;
        let before = builder.content()?;
        add(&mut builder)?;
        let after = builder.content()?;
        assert!(self.rt; before != after, "{name}: adds nothing");
        let is_kept = |it: &mut B| {
            let is_as_before = it.content()? == before;
            add(it)?;
            Ok(is_as_before && it.content()? == after)
        };
        self.refuse_each(name, &prepare, &add, is_kept)
    }

    /// Refuses the growths of an adder of several paths: the content is then that of the paths before the refused path.
    ///
    /// `with_first(n)` is the builder after the first n paths are added.
    pub(crate) fn adds_those_before<
        B: Seen,
        P: Fn() -> Answer<B> + Drop,
        C: Fn(&mut B) -> Answer<()> + Drop,
        W: Fn(usize) -> Answer<B> + Drop,
    >(&self, name: &str, prepare: P, add: C, all: usize, with_first: W) -> Result<(), Fail> {
        let kept_some = Cell::new(false);
        let is_kept = |it: &mut B| {
            let content = it.content()?;
            for count in 0..all {
                let mut wanted = with_first(count)?;
                if content == wanted.content()? {
                    kept_some.set(kept_some.get() || count > 0);
                    return Ok(true);
                }
            }
            Ok(false)
        };
        self.refuse_each(name, &prepare, &add, is_kept)?;
        assert!(self.rt; kept_some.get(), "{name}: none is kept");
        let (mut builder, mut wanted) = (prepare()?, with_first(all)?);
        add(&mut builder)?;
        assert!(self.rt;
            builder.content()? == wanted.content()?,
            "{name}: what is added"
        );
        Ok(())
    }

    /// Refuses the growths of a query: the builder has failed, and answers as a new builder once it is mended.
    ///
    /// `has_failed` makes all calls that answer `Failed` then, for which no memory is granted.
    pub(crate) fn answers_or_fails<
        B: Drop,
        T: PartialEq + Drop,
        P: Fn() -> Answer<B> + Drop,
        Q: Fn(&mut B) -> Answer<T> + Drop,
        F: Fn(&mut B) -> bool + Drop,
        M: Fn(&mut B) -> Answer<()> + Drop,
    >(&self, name: &str, prepare: P, query: Q, has_failed: F, mend: M) -> Result<(), Fail> {
        let mut builder = prepare()?;
        let wanted = query(&mut builder)?;
        let is_kept = |it: &mut B| {
            self.memory.grant(0);
            let is_failed = has_failed(it);
            self.memory.grant(PLENTY);
            mend(it)?;
            Ok(is_failed && query(it)? == wanted)
        };
        let answer = self.refuse_each(name, &prepare, &query, is_kept)?;
        assert!(self.rt; answer == wanted, "{name}: the answer");
        Ok(())
    }
}
