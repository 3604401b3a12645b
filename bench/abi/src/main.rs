//! The adapters of the Canonical ABI against plain Rust, in one run: `scan` and `copy`, with all
//! requests answered between them, and `lift` and `lower`, which make trees of the values. It has a
//! library of its own, since it needs the crates of the adapters alone.
//!
//! Each function of the library makes so many calls in one, so that what is measured of a small
//! value is neither the way into the library nor the layout of its type, which is made once.

#[path = "../../src/heap.rs"]
mod heap;
#[allow(dead_code)] // the names are for other parts
#[path = "../../src/measure.rs"]
mod measure;
mod ours;
mod plain;
mod samples;

use measure::{Rival, nanoseconds};
use ours::{Call, REFUSED, UTF8, UTF16};
use plain::Hand;
use std::hint::black_box;

/// What the texts are cut from.
const TEXTS: [(&str, &str); 4] = [
    (
        "ASCII",
        "The quick brown fox jumps over the lazy dog, 0123456789 times; then it rests. ",
    ),
    (
        "Latin",
        "Où est le garçon? Il a mangé des crêpes à la plage, déjà très fatigué. Die Straße ist schön. ",
    ),
    (
        "CJK",
        "国境の長いトンネルを抜けると雪国であった。夜の底が白くなった。信号所に汽車が止まった。",
    ),
    (
        "mixed",
        "Plain words, café crème, größe; Ελληνικά и кириллица; 漢字かな交じり文 🙂🚀 and 𝄞 again. ",
    ),
];

const SIZES: [usize; 5] = [16, 256, 1 << 10, 64 << 10, 1 << 20];

/// What the memory of a receiver holds before a call.
const FILL: u8 = 0xaa;

/// A value that is passed: what it is called, the call, the room that it takes, the adapter in one
/// pass and the one in the phases of the library.
struct Passing {
    name: &'static str,
    call: Call,
    room: usize,
    plain: fn(&Call, &mut [u8]) -> Result<u64, plain::Fault>,
    hand: for<'a> fn(&mut Hand<'a>, &'a Call, &mut [u8]) -> Result<u64, plain::Fault>,
}

/// How many strings the list has.
const STRINGS: usize = 1_000;

fn passings() -> [Passing; 3] {
    [
        Passing {
            name: "string",
            call: samples::text(&text_of(TEXTS[0].1, 16), UTF8, UTF8),
            room: 16,
            plain: |call, to| plain::text(&call.giver, call.slots[0], call.slots[1], to),
            hand: |hand, call, to| hand.text(&call.giver, call.slots[0], call.slots[1], to),
        },
        Passing {
            name: "record",
            call: samples::record(false),
            room: 256,
            plain: |call, to| plain::record(&call.giver, call.slots[0], to),
            hand: |hand, call, to| hand.record(&call.giver, call.slots[0], to),
        },
        Passing {
            name: "list",
            call: samples::strings(STRINGS, 16, false),
            room: room_for_strings(STRINGS, 16),
            plain: |call, to| plain::strings(&call.giver, call.slots[0], call.slots[1], to),
            hand: |hand, call, to| hand.strings(&call.giver, call.slots[0], call.slots[1], to),
        },
    ]
}

/// Passes a value so many times, for `bench/steps`: by `scan`, `copy`, `lift` or `lower` of the
/// library, in one pass (`plain`) or by hand in the library's phases (`hand`). Prints how many
/// strings it has, and how often the second call took memory.
fn once(who: &str, what: &str, rounds: u32) {
    let all = passings();
    let passing = all.iter().find(|it| it.name == what).expect("the name of a value");
    let call = &passing.call;
    let (wanted, bytes) = passed(call, passing.room);
    let mut to = vec![FILL; passing.room];
    let mut hand = Hand::default();
    let mut go = |rounds: u32| match who {
        "scan" => call.scan(rounds),
        "copy" => call.copy(black_box(&mut to), rounds),
        "lift" => call.lift(rounds),
        "lower" => call.lower(black_box(&mut to), rounds),
        "plain" => (0..rounds).fold(0, |_, _| {
            (passing.plain)(black_box(call), black_box(&mut to)).expect("a value")
        }),
        _ => (0..rounds).fold(0, |_, _| {
            (passing.hand)(&mut hand, black_box(call), black_box(&mut to)).expect("a value")
        }),
    };
    let taken = [1, 2].map(|rounds| {
        heap::begin();
        let answer = go(rounds);
        heap::end();
        assert!(answer == wanted || matches!(who, "scan" | "lift"));
        heap::times()
    });
    black_box(go(rounds));
    assert!(to == bytes || matches!(who, "scan" | "lift"));
    let strings = if what == "list" { STRINGS } else { 1 };
    println!("{strings} {}", taken[1] - taken[0]);
}

fn main() {
    let words: Vec<String> = std::env::args().skip(1).collect();
    if let [_, who, what, rounds] = &words[..] {
        return once(who, what, rounds.parse().expect("a number"));
    }
    println!("Adapters (a ratio above 1: ours is faster); nanoseconds of one call");
    println!(
        "{:26} {:>8} {:>10} {:>10} {:>10} {:>6} {:>10} {:>11} {:>6}",
        "what", "size", "other", "scan", "and copy", "ratio", "lift", "and lower", "ratio"
    );
    numbers(1_000_000);
    for size in SIZES {
        same_encoding(&text_of(TEXTS[0].1, size));
    }
    for (name, sample) in TEXTS {
        for size in SIZES {
            to_utf16(name, &text_of(sample, size));
        }
    }
    for (name, sample) in TEXTS {
        for size in SIZES {
            to_utf8(name, &text_of(sample, size));
        }
    }
    strings(100_000, 16);
    record();
    growth();
}

/// As much of the sample, over and over, as fits the size in UTF-8.
fn text_of(sample: &str, size: usize) -> String {
    let mut text = String::new();
    for scalar in sample.chars().cycle() {
        if text.len() + scalar.len_utf8() > size {
            return text;
        }
        text.push(scalar);
    }
    text
}

/// How many calls one go makes that passes so many bytes.
fn rounds_for(bytes: usize) -> u32 {
    ((1 << 20) / (bytes + 1_000)).clamp(1, 1_000) as u32
}

/// Passes a value by both ways on a memory that is filled: what the receiver has then.
fn passed(call: &Call, room: usize) -> (u64, Vec<u8>) {
    let mut copied = vec![FILL; room];
    let mut lowered = vec![FILL; room];
    let answer = call.copy(&mut copied, 2);
    assert_eq!(answer, call.lower(&mut lowered, 2));
    assert!(copied == lowered, "both ways leave the same bytes");
    assert_eq!(call.scan(1) == REFUSED, answer == REFUSED);
    assert_eq!(call.lift(1) == REFUSED, answer == REFUSED);
    (answer, copied)
}

/// Nanoseconds of one call: of the other side, and of scanning, of copying with it, of lifting and
/// of lowering with it.
fn times(call: &Call, room: usize, rounds: u32, mut other: impl FnMut()) -> [f64; 5] {
    let mut copied = vec![FILL; room];
    let mut lowered = vec![FILL; room];
    let times = nanoseconds(&mut [
        Rival::new("other", || {
            for _ in 0..rounds {
                other();
            }
        }),
        Rival::new("scan", || {
            black_box(black_box(call).scan(rounds));
        }),
        Rival::new("copy", || {
            black_box(black_box(call).copy(black_box(&mut copied), rounds));
        }),
        Rival::new("lift", || {
            black_box(black_box(call).lift(rounds));
        }),
        Rival::new("lower", || {
            black_box(black_box(call).lower(black_box(&mut lowered), rounds));
        }),
    ]);
    [0, 1, 2, 3, 4].map(|i| times[i] / f64::from(rounds))
}

fn print_row(what: &str, size: usize, [other, scan, copy, lift, lower]: [f64; 5]) {
    println!(
        "{what:26} {size:8} {other:10.0} {scan:10.0} {copy:10.0} {:6.2} {lift:10.0} {lower:11.0} {:6.2}",
        other / copy,
        other / lower
    );
}

/// A list of numbers, against a plain copy of its bytes.
fn numbers(count: usize) {
    let call = samples::numbers(count);
    let size = 4 * count;
    let start = call.slots[0] as usize;
    let source = &call.giver[start..start + size];
    let (answer, bytes) = passed(&call, size);
    assert_eq!(answer, (count as u64) << 32);
    assert!(bytes == source);
    let mut target = vec![FILL; size];
    let row = times(&call, size, rounds_for(size), || {
        black_box(&mut target[..]).copy_from_slice(black_box(source));
    });
    print_row("list<u32>, memcpy", count, row);
}

/// A string in UTF-8 on both sides, against Rust's check of it and a plain copy.
fn same_encoding(text: &str) {
    let call = samples::text(text, UTF8, UTF8);
    let (answer, bytes) = passed(&call, text.len());
    assert_eq!(answer, (text.len() as u64) << 32);
    assert!(bytes == text.as_bytes());
    let mut target = vec![FILL; text.len()];
    let row = times(&call, text.len(), rounds_for(text.len()), || {
        let source = black_box(text.as_bytes());
        assert!(std::str::from_utf8(source).is_ok());
        black_box(&mut target[..]).copy_from_slice(source);
    });
    print_row("string, from_utf8, memcpy", text.len(), row);
}

/// A string from UTF-8 to UTF-16, against Rust's own conversion.
fn to_utf16(name: &str, text: &str) {
    let call = samples::text(text, UTF8, UTF16);
    let units: Vec<u16> = text.encode_utf16().collect();
    let wanted: Vec<u8> = units.iter().flat_map(|unit| unit.to_le_bytes()).collect();
    let room = 2 * text.len();
    let (answer, bytes) = passed(&call, room);
    assert_eq!(answer, (units.len() as u64) << 32);
    assert!(bytes[..wanted.len()] == wanted);
    let row = times(&call, room, rounds_for(text.len()), || {
        let text = std::str::from_utf8(black_box(text.as_bytes())).expect("UTF-8");
        black_box(text.encode_utf16().collect::<Vec<u16>>());
    });
    print_row(&format!("UTF-8 to UTF-16, {name}"), text.len(), row);
}

/// A string from UTF-16 to UTF-8, against Rust's own conversion.
fn to_utf8(name: &str, text: &str) {
    let call = samples::text(text, UTF16, UTF8);
    let units: Vec<u16> = text.encode_utf16().collect();
    let room = 3 * units.len();
    let (answer, bytes) = passed(&call, room);
    assert_eq!(answer, (text.len() as u64) << 32);
    assert!(bytes[..text.len()] == *text.as_bytes());
    let row = times(&call, room, rounds_for(text.len()), || {
        black_box(String::from_utf16(black_box(&units)).expect("UTF-16"));
    });
    print_row(&format!("UTF-16 to UTF-8, {name}"), text.len(), row);
}

/// The room that strings of so many bytes take, each in a multiple of 8 bytes, with their list.
fn room_for_strings(count: usize, size: usize) -> usize {
    count * (8 + size.next_multiple_of(8)) + 8
}

/// A list of strings, against an adapter that is written by hand.
fn strings(count: usize, size: usize) {
    let call = samples::strings(count, size, false);
    let room = room_for_strings(count, size);
    let plain = |call: &Call, target: &mut [u8]| {
        plain::strings(&call.giver, call.slots[0], call.slots[1], target)
    };
    let mut target = vec![FILL; room];
    let wanted = plain(&call, &mut target);
    assert!(passed(&call, room) == (wanted.expect("strings"), target.clone()));
    let refused = samples::strings(count, size, true);
    assert_eq!(plain(&refused, &mut target), Err(plain::Fault::BadText));
    assert_eq!(passed(&refused, room).0, REFUSED);
    let row = times(&call, room, 1, || {
        assert!(plain(black_box(&call), black_box(&mut target)).is_ok());
    });
    print_row(&format!("list<string> of {size} bytes"), count, row);
}

/// A record of 16 mixed fields, against an adapter that is written by hand.
fn record() {
    let call = samples::record(false);
    let room = 256;
    let plain = |call: &Call, target: &mut [u8]| plain::record(&call.giver, call.slots[0], target);
    let mut target = vec![FILL; room];
    let wanted = plain(&call, &mut target);
    assert!(passed(&call, room) == (wanted.expect("a record"), target.clone()));
    let refused = samples::record(true);
    assert_eq!(plain(&refused, &mut target), Err(plain::Fault::BadChar));
    assert_eq!(passed(&refused, room).0, REFUSED);
    let row = times(&call, room, 1_000, || {
        assert!(plain(black_box(&call), black_box(&mut target)).is_ok());
    });
    print_row("record of 16 fields", 1, row);
}

/// How the time of one element grows with their number; strings of 8 bytes, since lists and strings
/// of a call have at most 16,777,216 bytes.
fn growth() {
    println!("\nNanoseconds of one element");
    println!(
        "{:>9} {:>12} {:>16} {:>12} {:>16}",
        "elements", "u32: copied", "lifted, lowered", "string: copied", "lifted, lowered"
    );
    for count in [1_000, 10_000, 100_000, 1_000_000] {
        let rounds = (100_000 / count).max(1) as u32;
        let each = |call: &Call, room: usize| {
            let [_, _, copy, _, lower] = times(call, room, rounds, || {});
            [copy, lower].map(|time| time / count as f64)
        };
        let [copied, lowered] = each(&samples::numbers(count), 4 * count);
        let room = room_for_strings(count, 8);
        let [string_copied, string_lowered] = each(&samples::strings(count, 8, false), room);
        println!(
            "{count:9} {copied:12.2} {lowered:16.2} {string_copied:14.2} {string_lowered:16.2}"
        );
    }
}
