//! `component_tool play` and `hux play --values` in process: play PROVIDER USER SCRIPT plays the
//! script on the two files by each.

mod heap;

use std::{env, fs, process::ExitCode};

#[repr(C)]
#[derive(Clone, Copy)]
struct HuxSpan {
    at: usize,
    length: usize,
}

#[repr(C)]
#[derive(Clone, Copy)]
struct HuxFile {
    name: HuxSpan,
    bytes: HuxSpan,
}

#[repr(C)]
#[derive(Clone, Copy)]
struct HuxEnd {
    kind: u32,
    status: u32,
    out: usize,
    err: usize,
}

/// A command in process: bytes, words and files that are parts of them, and two buffers.
type Call = unsafe extern "C" fn(
    *const u8,
    usize,
    *const HuxSpan,
    usize,
    *const HuxFile,
    usize,
    *mut u8,
    usize,
    *mut u8,
    usize,
) -> HuxEnd;

unsafe extern "C" {
    fn hux_tool(
        bytes: *const u8,
        bytes_length: usize,
        words: *const HuxSpan,
        words_length: usize,
        files: *const HuxFile,
        files_length: usize,
        out: *mut u8,
        out_length: usize,
        err: *mut u8,
        err_length: usize,
    ) -> HuxEnd;

    fn hux_main(
        bytes: *const u8,
        bytes_length: usize,
        words: *const HuxSpan,
        words_length: usize,
        files: *const HuxFile,
        files_length: usize,
        out: *mut u8,
        out_length: usize,
        err: *mut u8,
        err_length: usize,
    ) -> HuxEnd;
}

/// What is handed over: bytes, and parts of them.
#[derive(Default)]
struct Given {
    bytes: Vec<u8>,
    words: Vec<HuxSpan>,
    files: Vec<HuxFile>,
}

impl Given {
    fn part(&mut self, bytes: &[u8]) -> HuxSpan {
        let (at, length) = (self.bytes.len(), bytes.len());
        self.bytes.extend_from_slice(bytes);
        HuxSpan { at, length }
    }

    fn word(&mut self, word: &str) {
        let part = self.part(word.as_bytes());
        self.words.push(part);
    }

    fn file(&mut self, name: &str, bytes: &[u8]) {
        let (name, bytes) = (self.part(name.as_bytes()), self.part(bytes));
        self.files.push(HuxFile { name, bytes });
    }

    /// Runs the command with room for so many bytes: how it ended, and what it printed.
    fn run(&self, call: Call, room: usize) -> (HuxEnd, Vec<u8>, Vec<u8>) {
        let (mut out, mut err) = (vec![0; room], vec![0; room]);
        // What is read and written are slices of this function, which overlap nowhere.
        let end = unsafe {
            call(
                self.bytes.as_ptr(),
                self.bytes.len(),
                self.words.as_ptr(),
                self.words.len(),
                self.files.as_ptr(),
                self.files.len(),
                out.as_mut_ptr(),
                room,
                err.as_mut_ptr(),
                room,
            )
        };
        if end.out > room || end.err > room {
            return self.run(call, end.out.max(end.err));
        }
        out.truncate(end.out);
        err.truncate(end.err);
        (end, out, err)
    }
}

/// Runs the command with these words, and prints what it prints. Answers its status.
fn play(call: Call, words: &[&str], names: &[String]) -> std::io::Result<u32> {
    let [provider, user, script] = names else {
        return Ok(2);
    };
    let mut given = Given::default();
    for word in words.iter().chain(&["--script", script, provider, user]) {
        given.word(word);
    }
    for name in names {
        given.file(name, &fs::read(name)?);
    }
    let (end, out, err) = given.run(call, 16);
    print!("{}", String::from_utf8_lossy(&out));
    eprint!("{}", String::from_utf8_lossy(&err));
    Ok(end.status)
}

fn main() -> ExitCode {
    let names: Vec<String> = env::args().skip(1).collect();
    let mut worst = 0;
    for (call, words) in [(hux_tool as Call, &["play"][..]), (hux_main, &["play", "--values"])] {
        match play(call, words, &names) {
            Ok(status) => worst = worst.max(status),
            Err(_) => return ExitCode::from(4),
        }
    }
    ExitCode::from(worst as u8)
}
