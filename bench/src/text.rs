//! Texts in UTF-8 and UTF-16, against Rust's std, ICU and a plain copy.
//!
//! A conversion checks its source, computes the size of its answer and writes it; Rust's std and ICU get
//! targets of the right size, so that they allocate nothing either. The copy moves half of the bytes that the
//! task reads and writes, so that it reads and writes as many in all.

use crate::measure::{Rival, nanoseconds};
use std::hint::black_box;

unsafe extern "C" {
    fn cm_bench_check_utf8(source: *const u8, size: usize) -> bool;
    fn cm_bench_check_utf16(source: *const u8, size: usize) -> bool;
    fn cm_bench_utf8_to_utf16(source: *const u8, size: usize, target: *mut u8, room: usize) -> bool;
    fn cm_bench_utf16_to_utf8(source: *const u8, size: usize, target: *mut u8, room: usize) -> bool;
    fn cm_bench_utf8_as_utf16(source: *const u8, size: usize) -> usize;
    fn cm_bench_utf16_as_utf8(source: *const u8, size: usize) -> usize;
}

mod icu {
    include!(concat!(env!("OUT_DIR"), "/icu.rs"));
}

/// What the texts are cut from.
const SAMPLES: [(&str, &str); 4] = [
    ("ASCII", "The quick brown fox jumps over the lazy dog, 0123456789 times; then it rests. "),
    ("Latin", "Où est le garçon? Il a mangé des crêpes à la plage, déjà très fatigué. Die Straße ist schön, größer und länger. "),
    ("CJK", "国境の長いトンネルを抜けると雪国であった。夜の底が白くなった。信号所に汽車が止まった。向側の座席から娘が立って来て、"),
    ("mixed", "Plain words, café crème, größe; Ελληνικά и кириллица; 漢字かな交じり文 🙂🚀 and 𝄞 again. "),
];

const SIZES: [usize; 8] = [16, 64, 256, 1 << 10, 4 << 10, 16 << 10, 128 << 10, 1 << 20];

/// As much of the sample, over and over, as fits the size in UTF-8.
fn text_of(sample: &str, size: usize) -> String {
    let mut text = String::new();
    for scalar in sample.chars().cycle() {
        if text.len() + scalar.len_utf8() > size {
            return text;
        }
        text.push(scalar);
    }
    text
}

struct Sources {
    utf8: Vec<u8>,
    utf16: Vec<u16>,
}

impl Sources {
    fn new(sample: &str, size: usize) -> Self {
        let text = text_of(sample, size);
        Sources {
            utf16: text.encode_utf16().collect(),
            utf8: text.into_bytes(),
        }
    }

    fn utf16_bytes(&self) -> &[u8] {
        unsafe { std::slice::from_raw_parts(self.utf16.as_ptr().cast(), 2 * self.utf16.len()) }
    }
}

fn copy<'a>(name: &'static str, source: &'a [u8], target: &'a mut [u8]) -> Rival<'a> {
    Rival::new(name, move || black_box(&mut *target).copy_from_slice(black_box(source)))
}

/// Half of the bytes that are read and written, and room for them.
fn moved(bytes: usize) -> (Vec<u8>, Vec<u8>) {
    (vec![b'a'; bytes / 2], vec![0; bytes / 2])
}

fn check_utf8(sources: &Sources) -> Vec<(&'static str, f64)> {
    let source = &sources.utf8[..];
    let (from, mut to) = moved(source.len());
    measured(vec![
        Rival::new("ours", || unsafe {
            assert!(cm_bench_check_utf8(black_box(source.as_ptr()), source.len()));
        }),
        Rival::new("std", || {
            assert!(std::str::from_utf8(black_box(source)).is_ok());
        }),
        copy("copy", &from, &mut to),
    ])
}

fn check_utf16(sources: &Sources) -> Vec<(&'static str, f64)> {
    let source = sources.utf16_bytes();
    let (from, mut to) = moved(source.len());
    measured(vec![
        Rival::new("ours", || unsafe {
            assert!(cm_bench_check_utf16(black_box(source.as_ptr()), source.len()));
        }),
        Rival::new("std", || {
            let units = black_box(&sources.utf16[..]).iter().copied();
            assert!(char::decode_utf16(units).all(|scalar| scalar.is_ok()));
        }),
        copy("copy", &from, &mut to),
    ])
}

fn utf8_to_utf16(sources: &Sources) -> Vec<(&'static str, f64)> {
    let source = &sources.utf8[..];
    let size = 2 * sources.utf16.len();
    let mut ours = vec![0u8; size];
    let mut std = vec![0u16; sources.utf16.len()];
    let mut icu = vec![0u16; sources.utf16.len()];
    let (from, mut to) = moved(source.len() + size);
    let times = measured(vec![
        Rival::new("ours", || unsafe {
            assert!(cm_bench_utf8_to_utf16(black_box(source.as_ptr()), source.len(), ours.as_mut_ptr(), size));
        }),
        Rival::new("std", || {
            let text = std::str::from_utf8(black_box(source)).expect("UTF-8");
            for (unit, place) in text.encode_utf16().zip(std.iter_mut()) {
                *place = unit;
            }
            black_box(&mut std);
        }),
        Rival::new("icu", || unsafe {
            let (mut length, mut status) = (0, 0);
            icu::u_str_from_utf8(icu.as_mut_ptr(), icu.len() as i32, &mut length, black_box(source.as_ptr()), source.len() as i32, &mut status);
            assert!(status <= 0 && length as usize == icu.len());
        }),
        copy("copy", &from, &mut to),
    ]);
    assert!(ours == sources.utf16_bytes() && std == sources.utf16 && icu == sources.utf16);
    times
}

fn utf16_to_utf8(sources: &Sources) -> Vec<(&'static str, f64)> {
    let source = sources.utf16_bytes();
    let size = sources.utf8.len();
    let mut ours = vec![0u8; size];
    let mut std = vec![0u8; size];
    let mut icu = vec![0u8; size];
    let (from, mut to) = moved(source.len() + size);
    let times = measured(vec![
        Rival::new("ours", || unsafe {
            assert!(cm_bench_utf16_to_utf8(black_box(source.as_ptr()), source.len(), ours.as_mut_ptr(), size));
        }),
        Rival::new("std", || {
            let mut at = 0;
            for scalar in char::decode_utf16(black_box(&sources.utf16[..]).iter().copied()) {
                at += scalar.expect("UTF-16").encode_utf8(&mut std[at..]).len();
            }
            black_box(&mut std);
        }),
        Rival::new("icu", || unsafe {
            let (mut length, mut status) = (0, 0);
            icu::u_str_to_utf8(icu.as_mut_ptr(), size as i32, &mut length, black_box(sources.utf16.as_ptr()), sources.utf16.len() as i32, &mut status);
            assert!(status <= 0 && length as usize == size);
        }),
        copy("copy", &from, &mut to),
    ]);
    assert!(ours == sources.utf8 && std == sources.utf8 && icu == sources.utf8);
    times
}

fn utf8_as_utf16(sources: &Sources) -> Vec<(&'static str, f64)> {
    let source = &sources.utf8[..];
    measured(vec![
        Rival::new("ours", || unsafe {
            assert!(cm_bench_utf8_as_utf16(black_box(source.as_ptr()), source.len()) == 2 * sources.utf16.len());
        }),
        Rival::new("std", || {
            let text = std::str::from_utf8(black_box(source)).expect("UTF-8");
            black_box(text.encode_utf16().collect::<Vec<u16>>());
        }),
    ])
}

fn utf16_as_utf8(sources: &Sources) -> Vec<(&'static str, f64)> {
    let source = sources.utf16_bytes();
    measured(vec![
        Rival::new("ours", || unsafe {
            assert!(cm_bench_utf16_as_utf8(black_box(source.as_ptr()), source.len()) == sources.utf8.len());
        }),
        Rival::new("std", || {
            black_box(String::from_utf16(black_box(&sources.utf16[..])).expect("UTF-16"));
        }),
    ])
}

fn measured(mut rivals: Vec<Rival>) -> Vec<(&'static str, f64)> {
    let times = nanoseconds(&mut rivals);
    rivals.iter().map(|rival| rival.name).zip(times).collect()
}

/// How many times the rival's time is ours, or a blank.
fn ratio(times: &[(&str, f64)], name: &str) -> String {
    match times.iter().find(|(rival, _)| *rival == name) {
        Some((_, time)) => format!("{:8.2}", time / times[0].1),
        None => " ".repeat(8),
    }
}

type Task = fn(&Sources) -> Vec<(&'static str, f64)>;

pub fn run() {
    let tasks: [(&str, Task); 6] = [
        ("check UTF-8", check_utf8),
        ("check UTF-16", check_utf16),
        ("UTF-8 to UTF-16", utf8_to_utf16),
        ("UTF-16 to UTF-8", utf16_to_utf8),
        ("UTF-8 to UTF-16, new memory", utf8_as_utf16),
        ("UTF-16 to UTF-8, new memory", utf16_as_utf8),
    ];
    println!("Texts: nanoseconds of ours, and the time of std, ICU and a copy in ours (more than 1: ours is faster)");
    for (task, go) in tasks {
        println!("\n{task}\n{:8} {:>8} {:>10} {:>8} {:>8} {:>8}", "text", "bytes", "ours ns", "std", "ICU", "copy");
        for (name, sample) in SAMPLES {
            for size in SIZES {
                let times = go(&Sources::new(sample, size));
                println!("{name:8} {size:8} {:10.0} {} {} {}", times[0].1, ratio(&times, "std"), ratio(&times, "icu"), ratio(&times, "copy"));
            }
        }
    }
}
