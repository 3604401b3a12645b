//! Reads standard input and the files that its words name, and reports on them, by Rust's std.
use std::collections::{BTreeMap, HashMap};
use std::io::{self, BufRead, Read, Write};
use std::{env, fs, process, time};

fn main() {
    let words: Vec<String> = env::args().skip(1).collect();
    let begun = time::Instant::now();
    let mut lengths: HashMap<usize, u32> = HashMap::new();
    for line in io::stdin().lock().lines() {
        *lengths.entry(line.expect("text").len()).or_default() += 1;
    }
    let sorted: BTreeMap<_, _> = lengths.iter().collect();
    println!("lengths of lines: {:?}", sorted);
    let mut failed = 0;
    for word in &words {
        match fs::read_to_string(word) {
            Ok(text) => {
                println!("{}: {} chars, {} lines", word, text.chars().count(), text.lines().count())
            }
            Err(error) => {
                eprintln!("{}: {:?}", word, error.kind());
                failed += 1;
            }
        }
    }
    if let Ok(folder) = env::var("OUT") {
        let path = format!("{}/report.txt", folder);
        let mut file = fs::File::create(&path).expect("a file");
        for (length, times) in &sorted {
            writeln!(file, "{} {} {:.4}", length, times, **times as f64 / 3.0).expect("written");
        }
        drop(file);
        let mut again = String::new();
        fs::File::open(&path).unwrap().read_to_string(&mut again).unwrap();
        let names = fs::read_dir(&folder).unwrap().count();
        println!("{} bytes written, {} names, e is {:.10}", again.len(), names, 1f64.exp());
    }
    if begun.elapsed().as_secs() > 100 {
        println!("slow");
    }
    if words.iter().any(|word| word == "panic") {
        let none: Option<u32> = None;
        none.expect("a panic, as asked");
    }
    process::exit(failed);
}
