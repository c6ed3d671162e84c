//! The texts of the errors, and how a refusal of memory arrives.

use overlay_geom::error::OverlayError;
use std::alloc::Global;
use std::process::Abort;
use std::test::Fail;

// The error is printed so.
fn check_text(rt: &impl Abort, alloc: Global, error: OverlayError, text: &str) -> Result<(), Fail> {
    assert_eq!(rt; format!(in alloc; "{error}")?.as_str(), text);
    Ok(())
}

#[test]
fn texts(rt: HostRuntime) -> Result<(), Fail> {
    check_text(&rt, rt.alloc(), OverlayError::Memory, "out of memory")?;
    check_text(
        &rt,
        rt.alloc(),
        OverlayError::NotSettled,
        "splitting did not settle",
    )?;
    check_text(
        &rt,
        rt.alloc(),
        OverlayError::TooManyEdges,
        "too many edges",
    )?;
    check_text(&rt, rt.alloc(), OverlayError::Failed, "builder failed")
}

fn with_room(alloc: Global, room: usize) -> Result<Vec<u64>, OverlayError> {
    let mut numbers = Vec::new(alloc);
    numbers.reserve(room)?;
    Ok(numbers)
}

fn one_more(numbers: &mut Vec<u64>, number: u64) -> Result<(), OverlayError> {
    numbers.push(number)?;
    Ok(())
}

#[test]
fn a_refused_growth(rt: HostRuntime) {
    match with_room(rt.alloc(), usize::MAX) {
        Ok(_) => assert!(rt; false, "there is no such room"),
        Err(e) => assert_eq!(rt; e, OverlayError::Memory),
    }
}

#[test]
fn a_growth(rt: HostRuntime) -> Result<(), OverlayError> {
    let mut numbers = with_room(rt.alloc(), 1)?;
    one_more(&mut numbers, 7)?;
    assert_eq!(rt; numbers.as_slice(), [7].as_slice());
    Ok(())
}
