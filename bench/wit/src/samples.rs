//! WIT texts of about a size that is asked for.

use std::fmt::Write;

/// Eight declarations, which refer to one another; `@` stands for the number of the block.
const BLOCK: &str = "  type bytes-n@ = list<u8>;
  record header-n@ { name: string, value: bytes-n@, next: option<u64> }
  enum error-code-n@ { access, would-block, not-found, interrupted }
  flags open-flags-n@ { create, exclusive, truncate }
  variant failure-n@ { closed, code(error-code-n@), other(string) }
  resource stream-n@ {
    constructor(path: string, how: open-flags-n@);
    read: func(length: u64) -> result<bytes-n@, failure-n@>;
    splice: func(source: borrow<stream-n@>) -> u64;
    pair: static func() -> tuple<stream-n@, stream-n@>;
  }
  send-n@: func(headers: list<header-n@>, body: borrow<stream-n@>) -> result<_, failure-n@>;
  reopen-n@: func(path: string) -> result<stream-n@, error-code-n@>;
";

fn add_blocks(out: &mut String, count: usize) {
    for at in 0..count {
        out.push_str(&BLOCK.replace('@', &at.to_string()));
    }
}

/// One interface of so many declarations, a multiple of eight.
pub fn one_interface(count: usize) -> String {
    let mut out = String::from("package bench:sample@1.0.0;\ninterface everything {\n");
    add_blocks(&mut out, count / 8);
    out.push_str("}\n");
    out
}

/// Interfaces of 42 declarations, each of which uses names of the one before it, and a world.
pub fn interfaces(size: usize) -> String {
    let mut out = String::from("package bench:sample@1.0.0;\n");
    let mut count = 0;
    while out.len() < size {
        writeln!(out, "interface part-n{count} {{").unwrap();
        if count > 0 {
            let before = count - 1;
            writeln!(out, "  use part-n{before}.{{bytes-n0 as taken, stream-n4 as given}};")
                .unwrap();
            writeln!(out, "  join: func(a: taken) -> given;").unwrap();
        }
        add_blocks(&mut out, 5);
        out.push_str("}\n");
        count += 1;
    }
    writeln!(out, "world all {{\n  import part-n{};\n}}", count - 1).unwrap();
    out
}

/// The same, refused at its last byte.
pub fn refused(size: usize) -> String {
    let mut out = interfaces(size);
    out.truncate(out.len() - 2);
    out.push(';');
    out
}

/// One interface of short functions.
pub fn functions(size: usize) -> String {
    let mut out = String::from("package bench:sample;\ninterface all {\n");
    let mut at = 0;
    while out.len() < size {
        writeln!(out, "  call-n{at}: func(a: u32, b: u32) -> u32;").unwrap();
        at += 1;
    }
    out.push_str("}\n");
    out
}

/// Types each of which is the one before it.
pub fn aliases(size: usize) -> String {
    let mut out = String::from("package bench:sample;\ninterface all {\n  type t0 = u8;\n");
    let mut at = 1;
    while out.len() < size {
        writeln!(out, "  type t{at} = t{};", at - 1).unwrap();
        at += 1;
    }
    out.push_str("}\n");
    out
}

/// One record of many fields.
pub fn one_record(size: usize) -> String {
    let mut out = String::from("package bench:sample;\ninterface all {\n  record wide { first: u8");
    let mut at = 0;
    while out.len() < size {
        write!(out, ", field-n{at}: tuple<u32, string>").unwrap();
        at += 1;
    }
    out.push_str(" }\n}\n");
    out
}

/// Comments of a line each, and a short function for each of them.
pub fn comments(size: usize) -> String {
    let mut out = String::from("package bench:sample;\ninterface all {\n");
    let mut at = 0;
    while out.len() < size {
        let lines = "  /// Here stands what the function does, in some words that nobody reads.\n"
            .repeat(3);
        out.push_str(&lines);
        writeln!(out, "  call-n{at}: func();").unwrap();
        at += 1;
    }
    out.push_str("}\n");
    out
}
