//! Linking a component that exports functions to one that imports and lowers them all, against
//! plain Rust: from the bytes of the two files on, which are decoded and validated first.

use crate::measure::{Rival, nanoseconds};
use crate::{plain, samples};
use std::hint::black_box;

unsafe extern "C" {
    fn cm_bench_link(
        provider: *const u8,
        provider_size: usize,
        user: *const u8,
        user_size: usize,
    ) -> usize;
}

fn ours(provider: &[u8], user: &[u8]) -> usize {
    unsafe { cm_bench_link(provider.as_ptr(), provider.len(), user.as_ptr(), user.len()) }
}

fn checked(file: &[u8]) -> Option<plain::Checked> {
    plain::validate(plain::decode(file)?)
}

fn plain_link(provider: &[u8], user: &[u8]) -> Option<usize> {
    Some(plain::link(vec![checked(provider)?, checked(user)?])?.plan.len())
}

/// Links two files so many times, on one side, and prints how many imports are linked.
pub fn once(side: &str, count: usize, rounds: usize) {
    let [provider, user] = samples::pair(count);
    for _ in 0..rounds {
        let linked = match side {
            "ours" => Some(ours(black_box(&provider), black_box(&user))),
            _ => plain_link(black_box(&provider), black_box(&user)),
        };
        assert_eq!(linked, Some(count));
    }
    println!("{count}");
}

pub fn run() {
    println!("decode, validate and link two files (a ratio above 1: ours is faster)");
    println!("{:>9} {:>9} {:>11} {:>11} {:>6}", "imports", "bytes", "ours µs", "plain µs", "ratio");
    for count in [20, 1_500, 20_000, 300_000] {
        let [provider, user] = samples::pair(count);
        let size = provider.len() + user.len();
        assert_eq!(ours(&provider, &user), count);
        assert_eq!(plain_link(&provider, &user), Some(count));
        let times = nanoseconds(&mut [
            Rival::new("ours", || {
                black_box(ours(black_box(&provider), black_box(&user)));
            }),
            Rival::new("plain", || {
                black_box(plain_link(black_box(&provider), black_box(&user)));
            }),
        ]);
        let [ours, plain] = [times[0] / 1e3, times[1] / 1e3];
        println!("{count:9} {size:9} {ours:11.1} {plain:11.1} {:6.2}", plain / ours);
    }
}
