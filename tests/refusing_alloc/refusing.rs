//! An allocator that grants a number of requests and refuses the later ones.

use std::alloc::{AllocError, Allocator};
use std::cell::Cell;

/// Passes requests on to another allocator until the granted number is spent, and then refuses each.
///
/// It gives blocks back at all times. A block that grows is a new block, so growing takes one request. A test lends it
/// as `&memory`.
#[derive(Drop)]
pub struct Refusing<B: Allocator> {
    inner: B,
    left: Cell<u64>,
}

impl<B: Allocator> Refusing<B> {
    /// Grants `granted` requests, from `inner`.
    pub fn new(inner: B, granted: u64) -> Refusing<B> {
        Refusing {
            inner,
            left: Cell::new(granted),
        }
    }

    /// Returns the number of requests still granted.
    pub fn left(&self) -> u64 {
        self.left.get()
    }

    /// Grants `granted` requests from now on.
    pub fn grant(&self, granted: u64) {
        self.left.set(granted);
    }
}

// Spends one of the granted requests, or returns `false` where none is left.
fn takes_turn(left: &Cell<u64>) -> bool {
    let Some(rest) = left.get().checked_sub(1) else {
        return false;
    };
    left.set(rest);
    true
}

unsafe impl<B: Allocator> Allocator for Refusing<B> {
    ghost dealloc_token = { λ heap ty ptr. B.dealloc_token heap.inner ty ptr };

    fn allocate(&self, size: usize, align: usize) -> Result<*mut u8, AllocError> {
        if !takes_turn(&self.left) {
            return Err(AllocError);
        }
        self.inner.allocate(size, align)
    }

    unsafe fn deallocate(&self, ptr: *mut u8, size: usize, align: usize) {
        self.inner.deallocate(ptr, size, align);
    }
}

#[test]
fn what_is_granted_is_granted_once(rt: HostRuntime) {
    let memory = Refusing::new(rt.alloc(), 2);
    let first = Box::new(&memory, 1u8);
    let second = Box::new(&memory, 2u8);
    assert!(rt; first.is_ok() && second.is_ok());
    assert!(rt; Box::new(&memory, 3u8).is_err());
    drop(first);
    assert!(rt; Box::new(&memory, 4u8).is_err());
    memory.grant(1);
    assert!(rt; Box::new(&memory, 5u8).is_ok());
    assert_eq!(rt; memory.left(), 0);
}
