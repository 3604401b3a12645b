//! WIT texts: reading them as packages and printing these, against plain Rust, in one run. Plain
//! Rust reads the same packages (`plain.rs`), and splits the same texts into words, which is less
//! than any reader does. It has a library of its own, since it needs the crates of WIT alone.

#[path = "../../src/heap.rs"]
mod heap;
#[allow(dead_code)] // the names are for other parts
#[path = "../../src/measure.rs"]
mod measure;
mod plain;
mod samples;
mod words;

use measure::{Rival, nanoseconds};
use std::hint::black_box;

unsafe extern "C" {
    fn cm_bench_wit_parse(bytes: *const u8, size: usize) -> usize;
    fn cm_bench_wit_print(bytes: *const u8, size: usize) -> usize;
}

fn parse(text: &str) -> usize {
    unsafe { cm_bench_wit_parse(text.as_ptr(), text.len()) }
}

fn print(text: &str) -> usize {
    unsafe { cm_bench_wit_print(text.as_ptr(), text.len()) }
}

fn plain_parse(text: &str) -> usize {
    plain::parse(text).map_or(0, |file| file.items.len())
}

fn plain_print(text: &str) -> usize {
    plain::parse(text).map_or(0, |file| plain::print(&file).len())
}

/// The same task on both sides, on a text.
type Task = fn(&str) -> usize;

const TASKS: [(&str, Task, Task); 2] =
    [("parse", parse, plain_parse), ("parse, print", print, plain_print)];

/// A kind of text, whether it is a package, and the one of a size in bytes.
type Kind = (&'static str, bool, fn(usize) -> String);

const KINDS: [Kind; 6] = [
    ("interfaces", true, samples::interfaces),
    ("refused", false, samples::refused),
    ("functions", true, samples::functions),
    ("aliases", true, samples::aliases),
    ("one record", true, samples::one_record),
    ("comments", true, samples::comments),
];

/// Does a task so many times on the text of a kind and a size, on one side, and prints how many
/// bytes the text has.
fn once(side: &str, kind: &str, task: &str, size: usize, rounds: usize) {
    let (_, _, text_of) = KINDS.iter().find(|it| it.0 == kind).expect("the name of a kind");
    let (_, ours, plain) = TASKS.iter().find(|it| it.0 == task).expect("the name of a task");
    let text = text_of(size);
    let work = if side == "ours" { ours } else { plain };
    for _ in 0..rounds {
        black_box(work(black_box(&text)));
    }
    println!("{}", text.len());
}

fn main() {
    let words: Vec<String> = std::env::args().skip(1).collect();
    if let [part, side, kind, task, size, rounds] = words.as_slice()
        && part == "once"
    {
        let number = |word: &String| word.parse().expect("a number");
        return once(side, kind, task, number(size), number(rounds));
    }
    println!("WIT (a ratio above 1: ours is faster)");
    println!(
        "{:12} {:13} {:>9} {:>11} {:>11} {:>6} {:>11} {:>6} {:>9}",
        "text", "task", "bytes", "ours µs", "plain µs", "ratio", "words µs", "ratio", "ours ns/B"
    );
    for count in [1_000, 10_000] {
        compare(&format!("{count} items"), true, &samples::one_interface(count));
    }
    for (kind, is_package, text_of) in KINDS {
        for size in [64 << 10, 256 << 10, 1 << 20] {
            compare(kind, is_package, &text_of(size));
        }
    }
}

/// Runs each task on a text on both sides, and prints how long they take. A text that is refused is
/// only parsed.
fn compare(kind: &str, is_package: bool, text: &str) {
    assert_eq!(parse(text) != 0, is_package, "{kind}");
    for (name, ours, plain) in &TASKS[..if is_package { 2 } else { 1 }] {
        assert_eq!(ours(text), plain(text), "{kind} {name}");
        let times = nanoseconds(&mut [
            Rival::new("ours", || {
                black_box(ours(black_box(text)));
            }),
            Rival::new("plain", || {
                black_box(plain(black_box(text)));
            }),
            Rival::new("words", || {
                black_box(words::split(black_box(text)).len());
            }),
        ]);
        let [ours, plain, words] = [times[0] / 1e3, times[1] / 1e3, times[2] / 1e3];
        println!(
            "{kind:12} {name:13} {:9} {ours:11.1} {plain:11.1} {:6.2} {words:11.1} {:6.2} {:9.2}",
            text.len(),
            plain / ours,
            words / ours,
            ours * 1e3 / text.len() as f64
        );
    }
}
