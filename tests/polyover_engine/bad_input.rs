//! Lines and commands that are bad.

use crate::runs::check;
use polyover_engine::exit::Exit;

#[test]
fn bad_lines(rt: HostRuntime) {
    let run_last = "run edges NonZero";
    let rows: [(&[u8], usize); 19] = [
        (b"", 1),
        (b"subject 0 0 1\nrun edges NonZero\n", 1),
        (b"subject 4611686018427387904 0\nrun edges NonZero\n", 1),
        (b"subject 0 -4611686018427387904\nrun edges NonZero\n", 1),
        (b"subject +1 0\nrun edges NonZero\n", 1),
        (b"subject - 0\nrun edges NonZero\n", 1),
        (b"\nsubject \xff\xfe 0\nrun edges NonZero\n", 2),
        (b"run edges NonZero\nsubject\n", 2),
        (b"run edges NonZero\n\nrun edges NonZero\n", 3),
        (b"run edges Odd\n", 1),
        (b"run edges\n", 1),
        (b"run edges NonZero NonZero\n", 1),
        (b"subject\t0 0\nrun edges NonZero\n", 1),
        (b"run edges NonZero\r", 1),
        (b"subject", 2),
        (b"subject 0 0\n\n", 3),
        (b"run overlay Union NonZero\n\nclip\n", 3),
        (b"clip 0 0\nrun merge NonZero\n", 2),
        (b"\nclip 0 0\nrun overlay Union NonZero min\n", 3),
    ];
    for (input, line) in rows {
        check(&rt, input, "", Exit::BadInput(line));
    }
    check(&rt, run_last.as_bytes(), "", Exit::Answered);
}

#[test]
fn bad_commands(rt: HostRuntime) {
    let rows: [&[u8]; 25] = [
        b"run",
        b"run 7",
        b"run overlay",
        b"run overlay Union",
        b"run overlay NonZero",
        b"run overlay NonZero Union",
        b"run overlay union NonZero",
        b"run overlay Both NonZero",
        b"run overlay Union Odd",
        b"run overlay Union NonZero 5",
        b"run overlay Union NonZero clockwise clockwise",
        b"run overlay Union NonZero keep keep",
        b"run overlay Union NonZero keep clockwise keep",
        b"run overlay Union NonZero ogc ogc",
        b"run overlay Union NonZero min",
        b"run overlay Union NonZero min -1",
        b"run overlay Union NonZero min +4",
        b"run overlay Union NonZero min x",
        b"run overlay Union NonZero min keep",
        b"run overlay Union NonZero min 4 4",
        b"run overlay Union NonZero min 4 min 4",
        b"run overlay Union NonZero min 0 keep min 0",
        b"run overlay Union NonZero min 170141183460469231731687303715884105728",
        b"run overlay Union NonZero Clockwise",
        b"overlay Union NonZero",
    ];
    for input in rows {
        check(&rt, input, "", Exit::BadInput(1));
    }
}
