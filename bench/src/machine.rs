//! Calls from a number to a number, each a call and a return, against a plain machine of the same
//! rules: the same moves, checks in the same order, events, traps and bounds.

use crate::measure::{Rival, nanoseconds};
use crate::samples;
use std::hint::black_box;

unsafe extern "C" {
    fn cm_bench_calls(
        provider: *const u8,
        provider_size: usize,
        user: *const u8,
        user_size: usize,
        calls: u32,
    ) -> u64;
}

const MOST_FRAMES: usize = 64;
const MOST_MEMORY: usize = 67_108_864;
const PAGE: usize = 65_536;

#[derive(Clone, Copy)]
#[allow(dead_code)]
enum CoreValue {
    I32(u32),
    I64(u64),
}

#[allow(dead_code)]
enum Move {
    Write { at: u32, bytes: Vec<u8> },
    Grow { pages: u32 },
    Call { func: u32, args: Vec<CoreValue> },
    Return { values: Vec<CoreValue> },
    Unreachable,
}

/// At most 16 core values, in place.
struct Flat {
    values: [CoreValue; 16],
    count: usize,
}

impl Flat {
    fn new(from: &[CoreValue]) -> Flat {
        let mut values = [CoreValue::I32(0); 16];
        values[..from.len()].copy_from_slice(from);
        Flat { values, count: from.len() }
    }

    fn as_slice(&self) -> &[CoreValue] {
        &self.values[..self.count]
    }
}

#[allow(dead_code)]
enum Event {
    Done,
    Grown(Option<u32>),
    Enter { instance: u32, func: u32, args: Flat },
    Resume { instance: u32, values: Flat },
    Trapped(Trap),
    Ended,
}

#[derive(Clone, Copy)]
enum Trap {
    CoreShape,
    Unreachable,
    GuestBounds,
    MayNotLeave,
    StackFull,
    UnknownFunction,
    CalleeClosed,
}

#[derive(Clone, Copy)]
struct Lowered {
    instance: u32,
    func: u32,
    params: u32,
    has_result: bool,
}

#[derive(Clone, Copy)]
enum CoreFunc {
    Guest,
    Lowered(Lowered),
}

#[derive(Clone, Copy)]
#[allow(dead_code)]
enum Phase {
    Arguments,
    Body,
    Results,
    PostReturn,
}

#[derive(Clone, Copy)]
enum Purpose {
    Root,
    Call { caller: u32, lowered: Lowered, phase: Phase },
}

#[derive(Clone, Copy)]
struct Frame {
    instance: u32,
    purpose: Purpose,
}

struct Machine {
    plan: Vec<Vec<CoreFunc>>,
    memories: Vec<Vec<u8>>,
    closed: Vec<bool>,
    stack: Vec<Frame>,
}

fn actor(frame: &Frame) -> u32 {
    match frame.purpose {
        Purpose::Call { caller, phase: Phase::Results, .. } => caller,
        _ => frame.instance,
    }
}

fn are_i32s(count: u32, values: &[CoreValue]) -> bool {
    values.len() == count as usize && values.iter().all(|value| matches!(value, CoreValue::I32(_)))
}

fn result_count(frame: &Frame) -> u32 {
    match frame.purpose {
        Purpose::Root => 0,
        Purpose::Call { lowered, phase, .. } => match phase {
            Phase::Arguments | Phase::Results => 1,
            Phase::Body => u32::from(lowered.has_result),
            Phase::PostReturn => 0,
        },
    }
}

impl Machine {
    /// The user, instance 1, whose function 0 is the provider's function 0.
    fn pair() -> Machine {
        let lowered = Lowered { instance: 0, func: 0, params: 1, has_result: true };
        Machine {
            plan: vec![vec![CoreFunc::Guest], vec![CoreFunc::Lowered(lowered)]],
            memories: vec![Vec::new(), Vec::new()],
            closed: vec![false, false],
            stack: Vec::with_capacity(MOST_FRAMES),
        }
    }

    fn begin(&mut self, instance: u32) -> Option<Event> {
        if !self.stack.is_empty() || *self.closed.get(instance as usize)? {
            return None;
        }
        self.stack.push(Frame { instance, purpose: Purpose::Root });
        Some(Event::Resume { instance, values: Flat::new(&[]) })
    }

    fn lowered(&self, top: &Frame, func: u32, args: &[CoreValue]) -> Result<Lowered, Trap> {
        let Some(CoreFunc::Lowered(lowered)) = self.plan[actor(top) as usize].get(func as usize)
        else {
            return Err(Trap::UnknownFunction);
        };
        if !are_i32s(lowered.params, args) {
            return Err(Trap::CoreShape);
        }
        if matches!(
            top.purpose,
            Purpose::Call { phase: Phase::Arguments | Phase::Results | Phase::PostReturn, .. }
        ) {
            return Err(Trap::MayNotLeave);
        }
        if self.closed[lowered.instance as usize] {
            return Err(Trap::CalleeClosed);
        }
        if self.stack.len() >= MOST_FRAMES {
            return Err(Trap::StackFull);
        }
        Ok(*lowered)
    }

    fn call(&mut self, top: &Frame, func: u32, args: &[CoreValue]) -> Result<Event, Trap> {
        let lowered = self.lowered(top, func, args)?;
        self.stack.push(Frame {
            instance: lowered.instance,
            purpose: Purpose::Call { caller: actor(top), lowered, phase: Phase::Body },
        });
        Ok(Event::Enter { instance: lowered.instance, func: lowered.func, args: Flat::new(args) })
    }

    fn return_from(&mut self, top: &Frame, values: &[CoreValue]) -> Result<Event, Trap> {
        if !are_i32s(result_count(top), values) {
            return Err(Trap::CoreShape);
        }
        self.stack.pop();
        Ok(match top.purpose {
            Purpose::Root => Event::Ended,
            Purpose::Call { caller, .. } => {
                Event::Resume { instance: caller, values: Flat::new(values) }
            }
        })
    }

    fn advance(&mut self, top: &Frame, made: &Move) -> Result<Event, Trap> {
        let memory = &mut self.memories[actor(top) as usize];
        match made {
            Move::Write { at, bytes } => {
                let at = *at as usize;
                memory
                    .get_mut(at..at + bytes.len())
                    .ok_or(Trap::GuestBounds)?
                    .copy_from_slice(bytes);
                Ok(Event::Done)
            }
            Move::Grow { pages } => {
                let size = memory.len() + *pages as usize * PAGE;
                if size > MOST_MEMORY {
                    return Ok(Event::Grown(None));
                }
                let before = memory.len() / PAGE;
                memory.resize(size, 0);
                Ok(Event::Grown(Some(before as u32)))
            }
            Move::Call { func, args } => self.call(top, *func, args),
            Move::Return { values } => self.return_from(top, values),
            Move::Unreachable => Err(Trap::Unreachable),
        }
    }

    fn step(&mut self, made: &Move) -> Option<Event> {
        let top = *self.stack.last()?;
        Some(self.advance(&top, made).unwrap_or_else(|trap| {
            for frame in self.stack.drain(..) {
                self.closed[frame.instance as usize] = true;
            }
            Event::Trapped(trap)
        }))
    }
}

/// The number that an event carries, 0 where it carries none.
fn number_of(event: &Event) -> u64 {
    match event {
        Event::Enter { args: values, .. } | Event::Resume { values, .. } => match values.as_slice()
        {
            [CoreValue::I32(number)] => u64::from(*number),
            _ => 0,
        },
        _ => 0,
    }
}

fn plain(calls: u32) -> Option<u64> {
    let mut machine = Machine::pair();
    let call = black_box(Move::Call { func: 0, args: vec![CoreValue::I32(41)] });
    let answer = black_box(Move::Return { values: vec![CoreValue::I32(42)] });
    machine.begin(1)?;
    let mut sum = 0u64;
    for _ in 0..calls {
        sum = sum.wrapping_add(number_of(&machine.step(&call)?));
        sum = sum.wrapping_add(number_of(&machine.step(&answer)?));
    }
    Some(sum)
}

pub fn run() {
    let [provider, user] = samples::pair(1);
    let ours = |calls| unsafe {
        cm_bench_calls(provider.as_ptr(), provider.len(), user.as_ptr(), user.len(), calls)
    };
    println!(
        "calls of a function from a number to a number, by step (a ratio above 1: ours is faster)"
    );
    println!(
        "{:>9} {:>9} {:>9} {:>11} {:>6}",
        "calls", "ours ms", "plain ms", "ours ns/call", "ratio"
    );
    for calls in [10_000, 100_000, 1_000_000] {
        assert_eq!(Some(ours(calls)), plain(calls));
        assert_eq!(ours(calls), 83 * u64::from(calls));
        let times = nanoseconds(&mut [
            Rival::new("ours", || {
                black_box(ours(black_box(calls)));
            }),
            Rival::new("plain", || {
                black_box(plain(black_box(calls)));
            }),
        ]);
        let each = times[0] / f64::from(calls);
        println!(
            "{calls:9} {:9.3} {:9.3} {each:11.1} {:6.2}",
            times[0] / 1e6,
            times[1] / 1e6,
            times[1] / times[0]
        );
    }
}
