//! Layouts and core values of types of some 1,000 and 10,000 nodes in eight shapes, against one pass
//! in plain Rust over trees of the same form, which makes the same layouts.

use crate::measure::{Rival, nanoseconds};
use std::hint::black_box;
use std::rc::Rc;

unsafe extern "C" {
    fn cm_bench_layout(words: *const u32, count: usize, rounds: u32) -> u64;
    fn cm_bench_flatten(words: *const u32, count: usize, rounds: u32) -> u64;
}

// What a word makes, in its low five bits; above them of how many.
const BOOL: u32 = 0;
const U8: u32 = 2;
const U32: u32 = 6;
const U64: u32 = 8;
const STRING: u32 = 10;
const LIST: u32 = 11;
const OPTION: u32 = 12;
const RECORD: u32 = 13;
const TUPLE: u32 = 16;
const VARIANT: u32 = 17;
const RESULT: u32 = 18;
const FIXED: u32 = 19;

fn of(what: u32, count: usize) -> u32 {
    what | (count as u32) << 5
}

/// How deep the deep shapes are, below what holds them.
const DEPTH: usize = 60;

/// Leaves of all sizes, in turn.
fn leaves(words: &mut Vec<u32>, count: usize) {
    words.extend([U8, U32, U64, BOOL, STRING].iter().cycle().take(count));
}

/// At each level a tuple of leaves and of the next level.
fn deep_chain(nodes: usize) -> Vec<u32> {
    let each = nodes / DEPTH - 1;
    let mut words = vec![U8];
    for _ in 0..DEPTH {
        leaves(&mut words, each);
        words.push(of(TUPLE, each + 1));
    }
    words
}

fn wide_record(nodes: usize) -> Vec<u32> {
    let mut words = Vec::new();
    leaves(&mut words, nodes - 1);
    words.push(of(RECORD, nodes - 1));
    words
}

/// Chains of so many steps each, side by side.
fn chains(nodes: usize, leaf: u32, step: u32) -> Vec<u32> {
    let count = nodes / (DEPTH + 1);
    let mut words = Vec::new();
    for _ in 0..count {
        words.push(leaf);
        words.extend([step; DEPTH]);
    }
    words.push(of(TUPLE, count));
    words
}

fn options(nodes: usize) -> Vec<u32> {
    chains(nodes, U64, OPTION)
}

fn nested_lists(nodes: usize) -> Vec<u32> {
    chains(nodes, U8, LIST)
}

/// Variants in variants, each with two cases, and in the innermost a wide tuple.
fn variants(nodes: usize) -> Vec<u32> {
    let wide = nodes - 2 * DEPTH - 1;
    let mut words = Vec::new();
    leaves(&mut words, wide);
    words.push(of(TUPLE, wide));
    for _ in 0..DEPTH {
        words.extend([U32, of(VARIANT, 2)]);
    }
    words
}

/// Tuples of ten in tuples of ten.
fn tuples_of_tuples(nodes: usize) -> Vec<u32> {
    fn push(words: &mut Vec<u32>, nodes: usize) {
        if nodes < 20 {
            leaves(words, nodes.max(1));
            words.push(of(TUPLE, nodes.max(1)));
            return;
        }
        for _ in 0..10 {
            push(words, nodes / 10 - 1);
        }
        words.push(of(TUPLE, 10));
    }
    let mut words = Vec::new();
    push(&mut words, nodes);
    words
}

/// Tuples, each ten times.
fn fixed_lists(nodes: usize) -> Vec<u32> {
    let count = nodes / 102;
    let mut words = Vec::new();
    for _ in 0..count {
        leaves(&mut words, 9);
        words.extend([of(TUPLE, 9), of(FIXED, 10)]);
    }
    words.push(of(TUPLE, count));
    words
}

fn results(nodes: usize) -> Vec<u32> {
    let count = nodes / 3 - 1;
    let mut words = Vec::new();
    for _ in 0..count {
        words.extend([U32, U64, RESULT]);
    }
    words.push(of(TUPLE, count));
    words
}

// ---- plain Rust

enum Type {
    U8,
    U32,
    U64,
    Bool,
    String,
    List(Rc<Type>),
    Option(Rc<Type>),
    Fields(Rc<Vec<Type>>),
    Variant(Rc<Vec<Type>>),
    Result(Rc<Type>, Rc<Type>),
    Fixed(Rc<Type>, u32),
}

fn take(stack: &mut Vec<Type>, count: usize) -> Rc<Vec<Type>> {
    Rc::new(stack.split_off(stack.len() - count))
}

fn type_of(words: &[u32]) -> Type {
    let mut stack = Vec::new();
    for word in words {
        let count = (word >> 5) as usize;
        let mut pop = || Rc::new(stack.pop().expect("a type"));
        let ty = match word & 31 {
            U8 => Type::U8,
            U32 => Type::U32,
            U64 => Type::U64,
            BOOL => Type::Bool,
            STRING => Type::String,
            LIST => Type::List(pop()),
            OPTION => Type::Option(pop()),
            RESULT => {
                let error = pop();
                Type::Result(pop(), error)
            }
            FIXED => Type::Fixed(pop(), count as u32),
            TUPLE | RECORD => Type::Fields(take(&mut stack, count)),
            VARIANT => Type::Variant(take(&mut stack, count)),
            _ => unreachable!(),
        };
        stack.push(ty);
    }
    stack.pop().expect("a type")
}

#[derive(Clone, Copy)]
struct Head {
    size: u32,
    align: u32,
    width: u32,
    is_bulk: bool,
}

#[allow(dead_code)]
struct Layout {
    head: Head,
    form: Form,
}

#[allow(dead_code)]
enum Form {
    Bool,
    Unsigned(u32),
    String,
    List(Rc<Layout>),
    Fixed(Rc<Layout>, u32),
    Fields(Rc<Vec<(u32, Layout)>>),
    Cases {
        discriminant: u32,
        offset: u32,
        payloads: Rc<Vec<Option<Layout>>>,
    },
}

fn align_to(align: u32, end: u32) -> u32 {
    end.div_ceil(align) * align
}

fn head(size: u32, align: u32, width: u32, is_bulk: bool) -> Head {
    Head {
        size,
        align,
        width,
        is_bulk,
    }
}

fn layout_of_fields(types: &[Type]) -> Layout {
    let mut whole = head(0, 1, 0, true);
    let mut parts = Vec::with_capacity(types.len());
    for ty in types {
        let layout = layout_of(ty);
        let field = layout.head;
        let offset = align_to(field.align, whole.size);
        whole = head(
            offset + field.size,
            whole.align.max(field.align),
            whole.width + field.width,
            whole.is_bulk && field.is_bulk && offset == whole.size,
        );
        parts.push((offset, layout));
    }
    let size = align_to(whole.align, whole.size);
    Layout {
        head: head(size, whole.align, whole.width, whole.is_bulk && size == whole.size),
        form: Form::Fields(Rc::new(parts)),
    }
}

fn layout_of_cases(payloads: Vec<Option<Layout>>) -> Layout {
    let discriminant = match payloads.len() {
        0..=256 => 1,
        257..=65_536 => 2,
        _ => 4,
    };
    let mut most = head(0, 1, 0, false);
    for payload in payloads.iter().flatten() {
        let payload = payload.head;
        most = head(
            most.size.max(payload.size),
            most.align.max(payload.align),
            most.width.max(payload.width),
            false,
        );
    }
    let align = most.align.max(discriminant);
    let offset = align_to(most.align, discriminant);
    Layout {
        head: head(align_to(align, offset + most.size), align, 1 + most.width, false),
        form: Form::Cases {
            discriminant,
            offset,
            payloads: Rc::new(payloads),
        },
    }
}

fn layout_of(ty: &Type) -> Layout {
    let number = |bytes| Layout {
        head: head(bytes, bytes, 1, true),
        form: Form::Unsigned(bytes),
    };
    match ty {
        Type::U8 => number(1),
        Type::U32 => number(4),
        Type::U64 => number(8),
        Type::Bool => Layout {
            head: head(1, 1, 1, false),
            form: Form::Bool,
        },
        Type::String => Layout {
            head: head(8, 4, 2, false),
            form: Form::String,
        },
        Type::List(element) => Layout {
            head: head(8, 4, 2, false),
            form: Form::List(Rc::new(layout_of(element))),
        },
        Type::Fixed(element, length) => {
            let element = layout_of(element);
            let one = element.head;
            Layout {
                head: head(length * one.size, one.align, length * one.width, one.is_bulk),
                form: Form::Fixed(Rc::new(element), *length),
            }
        }
        Type::Fields(types) => layout_of_fields(types),
        Type::Variant(types) => {
            layout_of_cases(types.iter().map(|ty| Some(layout_of(ty))).collect())
        }
        Type::Option(some) => layout_of_cases(vec![None, Some(layout_of(some))]),
        Type::Result(ok, error) => {
            layout_of_cases(vec![Some(layout_of(ok)), Some(layout_of(error))])
        }
    }
}

#[derive(Clone, Copy, PartialEq)]
enum Kind {
    I32,
    I64,
}

fn join(kinds: &mut Vec<Kind>, at: usize, kind: Kind) -> usize {
    match kinds.get_mut(at) {
        Some(slot) => {
            if kind == Kind::I64 {
                *slot = kind;
            }
        }
        None => kinds.push(kind),
    }
    at + 1
}

/// Joins the core values of a type into the slots from `at` on, and answers where they end.
fn flatten(kinds: &mut Vec<Kind>, at: usize, ty: &Type) -> usize {
    match ty {
        Type::U8 | Type::U32 | Type::Bool => join(kinds, at, Kind::I32),
        Type::U64 => join(kinds, at, Kind::I64),
        Type::String | Type::List(_) => {
            let at = join(kinds, at, Kind::I32);
            join(kinds, at, Kind::I32)
        }
        Type::Fixed(element, length) => (0..*length).fold(at, |at, _| flatten(kinds, at, element)),
        Type::Fields(types) => types.iter().fold(at, |at, ty| flatten(kinds, at, ty)),
        Type::Variant(types) => {
            let at = join(kinds, at, Kind::I32);
            types.iter().fold(at, |end, ty| end.max(flatten(kinds, at, ty)))
        }
        Type::Option(some) => {
            let at = join(kinds, at, Kind::I32);
            flatten(kinds, at, some)
        }
        Type::Result(ok, error) => {
            let at = join(kinds, at, Kind::I32);
            flatten(kinds, at, ok).max(flatten(kinds, at, error))
        }
    }
}

fn plain_layout(words: &[u32], rounds: u32) -> u64 {
    let ty = type_of(words);
    let mut sum = 0u64;
    for _ in 0..rounds {
        let layout = black_box(layout_of(&ty));
        sum += u64::from(layout.head.size) + u64::from(layout.head.width);
    }
    sum
}

fn plain_flatten(words: &[u32], rounds: u32) -> u64 {
    let ty = type_of(words);
    let mut sum = 0u64;
    for _ in 0..rounds {
        let mut kinds = Vec::new();
        flatten(&mut kinds, 0, &ty);
        sum += black_box(kinds).len() as u64;
    }
    sum
}

/// How often each is done, so that making the type itself counts for little.
const ROUNDS: u32 = 64;

/// The microseconds of one round on each side.
fn compare(words: &[u32], ours: unsafe extern "C" fn(*const u32, usize, u32) -> u64, plain: fn(&[u32], u32) -> u64) -> [f64; 2] {
    let ours = |rounds| unsafe { ours(words.as_ptr(), words.len(), rounds) };
    assert_eq!(ours(3), plain(words, 3));
    let times = nanoseconds(&mut [
        Rival::new("ours", || {
            black_box(ours(black_box(ROUNDS)));
        }),
        Rival::new("plain", || {
            black_box(plain(words, black_box(ROUNDS)));
        }),
    ]);
    [times[0], times[1]].map(|time| time / 1e3 / f64::from(ROUNDS))
}

/// The shapes, by their names, each a function of the number of nodes.
const SHAPES: [(&str, fn(usize) -> Vec<u32>); 8] = [
    ("deep chain", deep_chain),
    ("wide record", wide_record),
    ("options", options),
    ("variants", variants),
    ("nested lists", nested_lists),
    ("tuples of tuples", tuples_of_tuples),
    ("fixed lists", fixed_lists),
    ("results", results),
];

/// Makes the layouts and the core values of a type of a shape so many times, for `bench/steps`.
pub fn once(name: &str, nodes: usize, rounds: u32) {
    let (_, shape) = SHAPES.iter().find(|(it, _)| *it == name).expect("the name of a shape");
    let words = shape(nodes);
    let made = unsafe {
        [
            cm_bench_layout(words.as_ptr(), words.len(), rounds),
            cm_bench_flatten(words.as_ptr(), words.len(), rounds),
        ]
    };
    assert!(!made.contains(&u64::MAX));
}

pub fn run() {
    println!("layout and flatten (a ratio above 1: ours is faster)");
    println!(
        "{:17} {:>6} {:>10} {:>10} {:>6} {:>10} {:>10} {:>6}",
        "shape", "nodes", "layout µs", "plain µs", "ratio", "flatten µs", "plain µs", "ratio"
    );
    for (name, shape) in SHAPES {
        for nodes in [1_000, 9_900] {
            let words = shape(nodes);
            let [ours, plain] = compare(&words, cm_bench_layout, plain_layout);
            let [flat, plain_flat] = compare(&words, cm_bench_flatten, plain_flatten);
            println!(
                "{name:17} {nodes:6} {ours:10.1} {plain:10.1} {:6.2} {flat:10.1} {plain_flat:10.1} {:6.2}",
                plain / ours,
                plain_flat / flat,
            );
        }
    }
}
