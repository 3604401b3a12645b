//! Calls of all kinds between two components, each a list of moves that is made again and again, by
//! `step_in` and by `step`, against a tight machine of the same rules (`src/tight.rs`). The plain
//! machine (`src/plain_machine.rs`) tells what the sums of all three have to be.

use crate::heap;
use crate::measure::{Rival, nanoseconds};
use crate::plain_machine::{Func, Machine, Move, Ty};
use crate::samples::{file, list, number, section, text};
use crate::tight;
use std::hint::black_box;
use std::rc::Rc;

unsafe extern "C" {
    fn cm_bench_turns(
        provider: *const u8,
        provider_size: usize,
        user: *const u8,
        user_size: usize,
        words: *const u32,
        count: usize,
        rounds: u32,
    ) -> u64;
    fn cm_bench_turns_in(
        provider: *const u8,
        provider_size: usize,
        user: *const u8,
        user_size: usize,
        words: *const u32,
        count: usize,
        rounds: u32,
    ) -> u64;
}

const MODULE: [u8; 8] = [0x00, 0x61, 0x73, 0x6D, 0x01, 0x00, 0x00, 0x00];
const U8: u8 = 0x7D;
const U32: u8 = 0x79;
const STRING: u8 = 0x73;

/// A core module, its instance, and what it exports: functions `f` and `r`, and the memory `m`.
fn guest() -> Vec<u8> {
    let alias = |sort: u8, name: &str| [vec![0x00, sort, 0x01, 0x00], text(name)].concat();
    let aliases = [alias(0, "f"), alias(0, "r"), alias(2, "m")];
    [
        section(1, &MODULE),
        section(2, &list(&[vec![0x00, 0x00, 0x00]])),
        section(6, &list(&aliases)),
    ]
    .concat()
}

fn func_type(params: &[Vec<u8>], result: Option<Vec<u8>>) -> Vec<u8> {
    let params: Vec<Vec<u8>> = params
        .iter()
        .enumerate()
        .map(|(at, ty)| [text(&format!("x{at}")), ty.clone()].concat())
        .collect();
    let result = result.map_or(vec![0x01, 0x00], |ty| [vec![0x00], ty].concat());
    [vec![0x40], list(&params), result].concat()
}

/// Memory 0 and allocator 1, where options are wanted.
fn options(are_wanted: bool) -> Vec<u8> {
    let all = [vec![0x03, 0x00], vec![0x04, 0x01]];
    list(if are_wanted { &all } else { &[] })
}

/// One that lifts `f`, and one that lowers it as its core function 2.
fn pair(types: &[Vec<u8>], func: Vec<u8>, with_options: bool) -> [Vec<u8>; 2] {
    let mut all = types.to_vec();
    all.push(func);
    let ty = number(types.len());
    let types = section(7, &list(&all));
    let lift = [vec![0x00, 0x00, 0x00], options(with_options), ty.clone()].concat();
    let lower = [vec![0x01, 0x00, 0x00], options(with_options)].concat();
    let name = [vec![0x00], text("call")].concat();
    let export = [name.clone(), vec![0x01, 0x00, 0x00]].concat();
    let import = [name, vec![0x01], ty].concat();
    [
        file(&[guest(), types.clone(), section(8, &list(&[lift])), section(11, &list(&[export]))]),
        file(&[guest(), types, section(10, &list(&[import])), section(8, &list(&[lower]))]),
    ]
}

/// A resource without a destructor, exported with `see: func(x: borrow<r>)` and `make: func() ->
/// r`, both of core function 0; core function 2 makes handles. The user lowers see and make as its
/// core functions 0 and 1, and drops handles by 2.
fn resources() -> [Vec<u8>; 2] {
    let name = |of: &str| [vec![0x00], text(of)].concat();
    let see = func_type(&[vec![0x02]], None);
    let make = func_type(&[], Some(vec![0x01]));
    let item = |of: &str, sort: u8, at: u8| [name(of), vec![sort, at]].concat();
    let items = [item("r", 3, 0), item("see", 1, 0), item("make", 1, 1)];
    let provider = file(&[
        guest(),
        section(7, &list(&[vec![0x3F, 0x7F, 0x00], vec![0x69, 0x00], vec![0x68, 0x00]])),
        section(7, &list(&[see.clone(), make.clone()])),
        section(8, &list(&[vec![0x02, 0x00]])),
        section(8, &list(&[vec![0x00, 0x00, 0x00, 0x00, 0x03], vec![0x00, 0x00, 0x00, 0x00, 0x04]])),
        section(5, &list(&[[vec![0x01], list(&items)].concat()])),
        section(11, &list(&[[name("i"), vec![0x05, 0x00, 0x00]].concat()])),
    ]);
    let declared = |code: u8, rest: Vec<u8>| [vec![code], rest].concat();
    let declarations = [
        declared(0x04, [name("r"), vec![0x03, 0x01]].concat()),
        declared(0x01, vec![0x69, 0x00]),
        declared(0x01, vec![0x68, 0x00]),
        declared(0x01, see),
        declared(0x01, make),
        declared(0x04, [name("see"), vec![0x01, 0x03]].concat()),
        declared(0x04, [name("make"), vec![0x01, 0x04]].concat()),
    ];
    let alias = |sort: u8, of: &str| [vec![sort, 0x00, 0x00], text(of)].concat();
    let user = file(&[
        section(7, &list(&[[vec![0x42], list(&declarations)].concat()])),
        section(10, &list(&[[name("i"), vec![0x05, 0x00]].concat()])),
        section(6, &list(&[alias(3, "r"), alias(1, "see"), alias(1, "make")])),
        section(8, &list(&[vec![0x01, 0x00, 0x00, 0x00], vec![0x01, 0x00, 0x01, 0x00], vec![0x03, 0x01]])),
    ]);
    [provider, user]
}

/// A case: its name, its files, the same for the plain machine, what is done once, and a turn.
struct Case {
    name: &'static str,
    files: [Vec<u8>; 2],
    core: [Vec<Func>; 2],
    pages: [u32; 2],
    once: Vec<Move>,
    turn: Vec<Move>,
    rounds: [u32; 2],
}

fn call(func: u32, args: &[u32]) -> Move {
    Move::Call { func, args: args.to_vec() }
}

fn back(values: &[u32]) -> Move {
    Move::Return { values: values.to_vec() }
}

fn bytes(at: u32, words: &[u32]) -> Move {
    Move::Write { at, bytes: words.iter().flat_map(|word| word.to_le_bytes()).collect() }
}

fn lowered(params: Vec<Ty>, result: Option<Ty>) -> [Vec<Func>; 2] {
    let lowered = Func::Lowered { callee: 0, func: 0, params: Rc::new(params), result, lower_realloc: 1, lift_realloc: 1 };
    [vec![Func::Guest, Func::Guest], vec![Func::Guest, Func::Guest, lowered]]
}

/// A record of so many numbers, given as its only parameter.
fn record(fields: usize) -> (Vec<u8>, Ty) {
    let fields_of: Vec<Vec<u8>> =
        (0..fields).map(|at| [text(&format!("f{at}")), vec![U32]].concat()).collect();
    ([vec![0x72], list(&fields_of)].concat(), Ty::Record(vec![Ty::U32; fields]))
}

fn cases() -> Vec<Case> {
    let numbers: Vec<u32> = (1..=17).collect();
    let (flat, flat_ty) = record(16);
    let (spilled, spilled_ty) = record(17);
    let mut many = vec![call(2, &[0, 100_000])];
    many.push(back(&[0]));
    many.extend((0..100_000).map(|at| back(&[800_000 + 8 * at])));
    many.push(back(&[]));
    let pointers: Vec<u32> = (0..100_000).flat_map(|_| [800_000, 8]).collect();
    let mut cases = vec![
        Case {
            name: "u32 to u32",
            files: pair(&[], func_type(&[vec![U32]], Some(vec![U32])), false),
            core: lowered(vec![Ty::U32], Some(Ty::U32)),
            pages: [0, 0],
            once: vec![],
            turn: vec![call(2, &[41]), back(&[42])],
            rounds: [1_000, 100_000],
        },
        Case {
            name: "string of 16 bytes",
            files: pair(&[], func_type(&[vec![STRING]], None), true),
            core: lowered(vec![Ty::Text], None),
            pages: [1, 1],
            once: vec![bytes(0, &[0x6162_6364; 4])],
            turn: vec![call(2, &[0, 16]), back(&[64]), back(&[])],
            rounds: [1_000, 100_000],
        },
        Case {
            name: "record of 16, flat",
            files: pair(&[flat], func_type(&[vec![0x00]], None), true),
            core: lowered(vec![flat_ty], None),
            pages: [1, 1],
            once: vec![],
            turn: vec![call(2, &numbers[..16]), back(&[])],
            rounds: [1_000, 100_000],
        },
        Case {
            name: "record of 17, spilled",
            files: pair(&[spilled], func_type(&[vec![0x00]], None), true),
            core: lowered(vec![spilled_ty], None),
            pages: [1, 1],
            once: vec![bytes(0, &numbers)],
            turn: vec![call(2, &[0]), back(&[128]), back(&[])],
            rounds: [1_000, 100_000],
        },
        Case {
            name: "list<u8> of 1,000,000",
            files: pair(&[vec![0x70, U8]], func_type(&[vec![0x00]], None), true),
            core: lowered(vec![Ty::List(Rc::new(Ty::U8))], None),
            pages: [16, 16],
            once: vec![],
            turn: vec![call(2, &[0, 1_000_000]), back(&[0]), back(&[])],
            rounds: [10, 100],
        },
    ];
    cases.push(Case {
        name: "list<string> of 100,000",
        files: pair(&[vec![0x70, STRING]], func_type(&[vec![0x00]], None), true),
        core: lowered(vec![Ty::List(Rc::new(Ty::Text))], None),
        pages: [32, 32],
        once: vec![bytes(0, &pointers)],
        turn: many,
        rounds: [1, 5],
    });
    let see = Func::Lowered { callee: 0, func: 0, params: Rc::new(vec![Ty::Borrow]), result: None, lower_realloc: 1, lift_realloc: 1 };
    let make = Func::Lowered { callee: 0, func: 0, params: Rc::new(vec![]), result: Some(Ty::Own), lower_realloc: 1, lift_realloc: 1 };
    let core = || [vec![Func::Guest, Func::Guest, Func::New], vec![see.clone(), make.clone(), Func::Drop]];
    cases.push(Case {
        name: "borrow",
        files: resources(),
        core: core(),
        pages: [0, 0],
        once: vec![call(1, &[]), call(2, &[7]), back(&[1])],
        turn: vec![call(0, &[1]), back(&[])],
        rounds: [1_000, 100_000],
    });
    cases.push(Case {
        name: "make, new, own, drop",
        files: resources(),
        core: core(),
        pages: [0, 0],
        once: vec![],
        turn: vec![call(1, &[]), call(2, &[7]), back(&[1]), call(2, &[1])],
        rounds: [1_000, 100_000],
    });
    cases
}

/// The words of a case, as the library reads them.
fn words_of(case: &Case) -> Vec<u32> {
    let mut words = vec![case.pages[0], case.pages[1], case.once.len() as u32];
    for made in case.once.iter().chain(&case.turn) {
        match made {
            Move::Write { at, bytes } => {
                words.extend([0, *at, bytes.len() as u32]);
                words.extend(bytes.iter().map(|byte| u32::from(*byte)));
            }
            Move::Call { func, args } => {
                words.extend([2, *func, args.len() as u32]);
                words.extend(args);
            }
            Move::Return { values } => {
                words.extend([3, 0, values.len() as u32]);
                words.extend(values);
            }
        }
    }
    words
}

fn ours(case: &Case, words: &[u32], rounds: u32, by_step_in: bool) -> u64 {
    let [provider, user] = &case.files;
    let call = if by_step_in { cm_bench_turns_in } else { cm_bench_turns };
    unsafe {
        call(
            provider.as_ptr(),
            provider.len(),
            user.as_ptr(),
            user.len(),
            words.as_ptr(),
            words.len(),
            rounds,
        )
    }
}

/// The sum of the numbers that events carry, where none traps.
fn plain(case: &Case, rounds: u32) -> Option<u64> {
    let mut machine = Machine::new(case.core.clone(), case.pages);
    machine.begin(1);
    for made in &case.once {
        machine.step(made)?;
    }
    let mut sum = 0u64;
    for _ in 0..rounds {
        for made in &case.turn {
            sum = sum.wrapping_add(machine.step(black_box(made))?);
        }
    }
    Some(sum)
}

/// The same by the tight machine.
fn tight(case: &Case, rounds: u32) -> Option<u64> {
    let mut machine = tight::Machine::new(&case.core, case.pages);
    machine.begin(1);
    let mut values = tight::Flat::new();
    for made in &case.once {
        let made = tight::move_of(made);
        if let tight::Outcome::Trapped(_) = machine.step_in(&made, &mut values)? {
            return None;
        }
    }
    let turn: Vec<tight::Move> = case.turn.iter().map(tight::move_of).collect();
    let mut sum = 0u64;
    for _ in 0..rounds {
        for made in &turn {
            if let tight::Outcome::Trapped(_) = machine.step_in(black_box(made), &mut values)? {
                return None;
            }
            sum = sum.wrapping_add(tight::sum_of(values.as_slice()));
        }
    }
    Some(sum)
}

/// The difference of two numbers of rounds, so that the making of the set is not counted.
fn each(case: &Case, times: &[f64], at: usize) -> f64 {
    (times[2 * at + 1] - times[2 * at]) / f64::from(case.rounds[1] - case.rounds[0])
}

/// How many times memory is taken by one more turn, behind so many.
fn allocations(case: &Case, words: &[u32], by_step_in: bool) -> usize {
    let count = |rounds| {
        heap::count(|| {
            black_box(ours(case, words, rounds, by_step_in));
        })
    };
    count(3) - count(2)
}

pub fn run() {
    println!("calls of all kinds, by step_in and by step (a ratio above 1: ours is faster)");
    println!(
        "{:24} {:>11} {:>11} {:>11} {:>8} {:>6} {:>12}",
        "turn", "step_in ns", "step ns", "tight ns", "step_in", "step", "allocations"
    );
    for case in cases() {
        let words = words_of(&case);
        let wanted = plain(&case, case.rounds[0]).expect("no trap");
        assert_eq!(ours(&case, &words, case.rounds[0], true), wanted, "{}", case.name);
        assert_eq!(ours(&case, &words, case.rounds[0], false), wanted, "{}", case.name);
        assert_eq!(tight(&case, case.rounds[0]), Some(wanted), "{}", case.name);
        let [few, more] = case.rounds;
        let times = nanoseconds(&mut [
            Rival::new("few", || {
                black_box(ours(&case, &words, few, true));
            }),
            Rival::new("step_in", || {
                black_box(ours(&case, &words, more, true));
            }),
            Rival::new("few", || {
                black_box(ours(&case, &words, few, false));
            }),
            Rival::new("step", || {
                black_box(ours(&case, &words, more, false));
            }),
            Rival::new("few", || {
                black_box(tight(&case, few));
            }),
            Rival::new("tight", || {
                black_box(tight(&case, more));
            }),
        ]);
        let [by_step_in, by_step, by_tight] = [0, 1, 2].map(|at| each(&case, &times, at));
        println!(
            "{:24} {by_step_in:11.0} {by_step:11.0} {by_tight:11.0} {:8.2} {:6.2} {:12}",
            case.name,
            by_tight / by_step_in,
            by_tight / by_step,
            allocations(&case, &words, true),
        );
    }
}

/// Makes the turns of a case so many times, for `bench/steps`.
pub fn once(side: &str, name: &str, rounds: u32) {
    let case = cases().into_iter().find(|case| case.name == name).expect("a case");
    let words = words_of(&case);
    black_box(match side {
        "step_in" => ours(&case, &words, rounds, true),
        "step" => ours(&case, &words, rounds, false),
        "tight" => tight(&case, rounds).expect("no trap"),
        _ => plain(&case, rounds).expect("no trap"),
    });
}

/// The names of the cases.
pub fn names() -> Vec<&'static str> {
    cases().iter().map(|case| case.name).collect()
}
