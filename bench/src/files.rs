//! Files: decoding, writing and validating them, from bytes, in pieces and from a reader, against
//! plain Rust.

use crate::measure::{Rival, nanoseconds};
use crate::{plain, samples};
use std::hint::black_box;

unsafe extern "C" {
    fn cm_bench_decode(bytes: *const u8, size: usize) -> usize;
    fn cm_bench_decode_pieces(bytes: *const u8, size: usize) -> usize;
    fn cm_bench_decode_from(bytes: *const u8, size: usize) -> usize;
    fn cm_bench_encode(bytes: *const u8, size: usize) -> usize;
    fn cm_bench_validate(bytes: *const u8, size: usize) -> usize;
}

/// The bytes of one piece, and of one read.
const PIECE: usize = 4_096;

fn plain_decode(bytes: &[u8]) -> usize {
    plain::decode(bytes).map_or(0, |sections| sections.len())
}

/// Joins the pieces before it decodes them.
fn plain_decode_pieces(bytes: &[u8]) -> usize {
    let mut joined = Vec::new();
    for piece in bytes.chunks(PIECE) {
        joined.extend_from_slice(piece);
    }
    plain_decode(&joined)
}

fn plain_encode(bytes: &[u8]) -> usize {
    plain::decode(bytes).map_or(0, |sections| plain::encode(&sections).len())
}

fn plain_validate(bytes: &[u8]) -> usize {
    let checked = plain::decode(bytes).and_then(plain::validate);
    checked.map_or(usize::MAX, |checked| checked.imports.len())
}

/// The same task on both sides, on a file.
type Task = fn(&[u8]) -> usize;

const TASKS: [(&str, Task, Task); 5] = [
    ("decode", |b| unsafe { cm_bench_decode(b.as_ptr(), b.len()) }, plain_decode),
    (
        "decode pieces",
        |b| unsafe { cm_bench_decode_pieces(b.as_ptr(), b.len()) },
        plain_decode_pieces,
    ),
    ("decode from", |b| unsafe { cm_bench_decode_from(b.as_ptr(), b.len()) }, plain_decode_pieces),
    ("decode, encode", |b| unsafe { cm_bench_encode(b.as_ptr(), b.len()) }, plain_encode),
    ("decode, validate", |b| unsafe { cm_bench_validate(b.as_ptr(), b.len()) }, plain_validate),
];

/// A kind of file, whether it has a component, and the one of a size.
type Kind = (&'static str, bool, fn(usize) -> Vec<u8>);

const KINDS: [Kind; 6] = [
    ("types", true, samples::types),
    ("refused", false, samples::refused),
    ("imports", true, samples::importer),
    ("lifts", true, samples::lifts),
    ("module", true, samples::module),
    ("custom", true, samples::custom),
];

/// Does a task on a file of a kind so many times on one side, `ours` or `plain`, for `bench/steps`,
/// and prints how many bytes the file has.
pub fn once(side: &str, kind: &str, task: &str, size: usize, rounds: usize) {
    let (_, _, file_of) = KINDS.iter().find(|it| it.0 == kind).expect("the name of a kind");
    let (_, ours, plain) = TASKS.iter().find(|it| it.0 == task).expect("the name of a task");
    let file = file_of(size);
    let work = if side == "ours" { ours } else { plain };
    for _ in 0..rounds {
        black_box(work(black_box(&file)));
    }
    println!("{}", file.len());
}

pub fn run() {
    println!("files (a ratio above 1: ours is faster)");
    println!(
        "{:8} {:18} {:>9} {:>11} {:>11} {:>6} {:>9}",
        "file", "task", "bytes", "ours µs", "plain µs", "ratio", "ours ns/B"
    );
    for (kind, has_component, file_of) in KINDS {
        for size in [1 << 10, 64 << 10, 1 << 20, samples::LARGEST] {
            let file = file_of(size);
            assert!(file.len() <= samples::LARGEST, "{kind}");
            assert_eq!(plain_decode(&file) != 0, has_component, "{kind}");
            for task in TASKS {
                compare(kind, task, &file);
            }
        }
    }
}

/// Runs one task on a file on both sides, and prints how long each takes.
fn compare(kind: &str, (name, ours, plain): (&str, Task, Task), file: &[u8]) {
    assert_eq!(ours(file), plain(file), "{kind} {name}");
    let times = nanoseconds(&mut [
        Rival::new("ours", || {
            black_box(ours(black_box(file)));
        }),
        Rival::new("plain", || {
            black_box(plain(black_box(file)));
        }),
    ]);
    let [ours, plain] = [times[0] / 1e3, times[1] / 1e3];
    println!(
        "{kind:8} {name:18} {:9} {ours:11.2} {plain:11.2} {:6.2} {:9.2}",
        file.len(),
        plain / ours,
        ours * 1e3 / file.len() as f64
    );
}
