//! Runs of the engine: the output for an input, and the way in which it ends.

use polyover_engine::engine::run;
use polyover_engine::exit::Exit;
use std::io::Read;
use std::process::Abort;

/// Gives the first of the bytes, if there is room for it: how many are given, and the bytes that are left.
pub(crate) fn first_given<'a>(bytes: &'a [u8], buf: &mut [u8]) -> (usize, &'a [u8]) {
    match (bytes.split_first(), buf.first_mut()) {
        (Some((first, rest)), Some(place)) => {
            *place = *first;
            (1, rest)
        }
        _ => (0, bytes),
    }
}

/// Checks the output of the engine for the input, and the way in which it ends.
pub(crate) fn check(rt: &(impl Abort + Alloc), input: &[u8], wanted: &str, exit: Exit) {
    check_reader(rt, input, wanted, exit);
}

/// Checks the output of the engine for the reader's input, and the way in which it ends.
pub(crate) fn check_reader<R: Read + Drop>(
    rt: &(impl Abort + Alloc),
    mut reader: R,
    wanted: &str,
    exit: Exit,
) {
    let mut written = Vec::new(rt.alloc());
    let ended = run(rt.alloc(), &mut reader, &mut written);
    let is_wanted = ended == exit && &written[..] == wanted.as_bytes();
    assert!(rt; is_wanted, "ended with {ended:?}; wanted: {wanted}");
}
