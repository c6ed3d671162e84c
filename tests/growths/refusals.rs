//! Calls whose growths are refused in turn.

use overlay_geom::error::OverlayError;
use refusing_alloc::refusing::Refusing;
use std::alloc::Global;
use std::process::Abort;
use std::test::Fail;

/// More requests than a call makes.
pub(crate) const PLENTY: u64 = 10000;

/// Memory that may be refused.
pub(crate) type Memory<'a> = &'a Refusing<Global>;

/// The answer of a call.
pub(crate) type Answer<T> = Result<T, OverlayError>;

/// A test, and what it stops by.
#[derive(Drop)]
pub(crate) struct Trial<'a, R: Abort> {
    /// Stops the test.
    pub(crate) rt: &'a R,
    /// The memory of all that is tried.
    pub(crate) memory: Memory<'a>,
}

impl<'a, R: Abort> Trial<'a, R> {
    /// Makes a call with no request granted, then with one, and so on until it answers, and returns that answer.
    ///
    /// Each run begins with a new state. A refusal is `Memory`, comes once all granted requests are spent, and leaves
    /// the state so that `is_kept` holds. An answer takes equally many requests where more are granted.
    pub(crate) fn refuse_each<
        S: Drop,
        T: Drop,
        E: Into<OverlayError> + Drop,
        P: Fn() -> Answer<S> + Drop,
        C: Fn(&mut S) -> Result<T, E> + Drop,
        K: Fn(&mut S) -> Answer<bool> + Drop,
    >(&self, name: &str, prepare: P, call: C, is_kept: K) -> Result<T, Fail> {
        for granted in 0..PLENTY {
            self.memory.grant(PLENTY);
            let mut state = prepare()?;
            self.memory.grant(granted);
            let answer = call(&mut state);
            let left = self.memory.left();
            self.memory.grant(PLENTY);
            assert!(self.rt; left == 0, "{name}: {left} left of {granted}");
            match answer {
                Ok(answer) => {
                    assert!(self.rt; granted > 0, "{name}: takes no memory");
                    let taken = self.requests_of(prepare()?, &call)?;
                    assert!(self.rt;
                        taken == granted,
                        "{name}: {taken} requests, {granted} granted"
                    );
                    return Ok(answer);
                }
                Err(error) => {
                    let error: OverlayError = error.into();
                    assert!(self.rt; error == OverlayError::Memory, "{name}: after {granted}");
                }
            }
            assert!(self.rt;
                is_kept(&mut state)?,
                "{name}: what is left after {granted}"
            );
        }
        assert!(self.rt; false, "{name}: never answered");
        Err(OverlayError::Memory.into())
    }

    /// Number of requests of a call where each is granted.
    pub(crate) fn requests_of<
        S: Drop,
        T: Drop,
        E: Into<OverlayError> + Drop,
        C: Fn(&mut S) -> Result<T, E> + Drop,
    >(&self, mut state: S, call: &C) -> Answer<u64> {
        self.memory.grant(PLENTY);
        if let Err(error) = call(&mut state) {
            return Err(error.into());
        }
        let left = self.memory.left();
        self.memory.grant(PLENTY);
        Ok(PLENTY - left)
    }

    /// Refuses each growth of a call that changes nothing.
    pub(crate) fn refuse_call<
        T: Drop,
        E: Into<OverlayError> + Drop,
        C: Fn() -> Result<T, E> + Drop,
    >(&self, name: &str, call: C) -> Result<T, Fail> {
        self.refuse_each(name, || Ok(()), |_| call(), |_| Ok(true))
    }

    /// Makes a call that takes no memory while none is granted, and gives its answer.
    pub(crate) fn without_memory<T: Drop, C: FnOnce() -> T + Drop>(&self, call: C) -> T {
        self.memory.grant(0);
        let answer = call();
        self.memory.grant(PLENTY);
        answer
    }

    /// Makes a call that may answer a refusal, and takes no memory: it is answered while none is granted.
    pub(crate) fn needs_none<
        T: Drop,
        E: Into<OverlayError> + Drop,
        C: FnOnce() -> Result<T, E> + Drop,
    >(&self, name: &str, call: C) -> Result<T, Fail> {
        let answer = self.without_memory(call);
        assert!(self.rt; answer.is_ok(), "{name}: refused");
        answer.map_err(|error| {
            let error: OverlayError = error.into();
            error.into()
        })
    }
}
