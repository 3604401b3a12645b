//! Huxarte's parts against independent implementations: a table of ratios for each, in one run.
//! Words on the command line name the parts; none means all.

mod files;
mod handles;
mod heap;
mod layout;
mod link;
mod machine;
mod measure;
mod plain;
mod plain_machine;
mod samples;
mod sets;
mod text;
mod tight;
mod turns;

fn main() {
    let wanted: Vec<String> = std::env::args().skip(1).collect();
    if runs_once(&wanted) {
        return;
    }
    let parts: [(&str, fn()); 7] = [
        ("text", text::run),
        ("handles", handles::run),
        ("files", files::run),
        ("layout", layout::run),
        ("link", link::run),
        ("sets", sets::run),
        ("machine", || {
            machine::run();
            turns::run();
        }),
    ];
    for (name, run) in parts {
        if wanted.is_empty() || wanted.iter().any(|word| word == name) {
            run();
        }
    }
}

/// Whether the words name a task that is done so many times for `bench/steps`, which it then was.
fn runs_once(words: &[String]) -> bool {
    let number = |word: &String| word.parse().expect("a number");
    match words {
        [part, shape, nodes, rounds] if part == "layout-once" => {
            layout::once(shape, number(nodes), number(rounds) as u32);
            true
        }
        [part, side, kind, task, size, rounds] if part == "files-once" => {
            files::once(side, kind, task, number(size), number(rounds));
            true
        }
        [part, side, count, rounds] if part == "link-once" => {
            link::once(side, number(count), number(rounds));
            true
        }
        [part, side, kind, count, rounds] if part == "sets-once" => {
            sets::once(side, kind, number(count), number(rounds));
            true
        }
        [part, side, name, rounds] if part == "turns-once" => {
            turns::once(side, name, number(rounds) as u32);
            true
        }
        [part] if part == "turns-names" => {
            turns::names().iter().for_each(|name| println!("{name}"));
            true
        }
        _ => false,
    }
}
