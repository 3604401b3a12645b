//! A plain machine of the rules of calls between components: moves, events, traps and bounds, values
//! read from one memory and written into the other with no value between, and lists that are kept
//! from call to call.

use std::rc::Rc;

const MOST_FRAMES: usize = 64;
const PAGE: usize = 65_536;
const MOST_CONTENT: u64 = 16_777_216;

/// The types that pass here.
#[derive(Clone)]
pub enum Ty {
    U8,
    U32,
    Text,
    List(Rc<Ty>),
    Record(Vec<Ty>),
    Own,
    Borrow,
}

impl Ty {
    fn size(&self) -> u32 {
        match self {
            Ty::U8 => 1,
            Ty::U32 | Ty::Own | Ty::Borrow => 4,
            Ty::Text | Ty::List(_) => 8,
            Ty::Record(fields) => fields.iter().map(Ty::size).sum(),
        }
    }

    fn align(&self) -> u32 {
        match self {
            Ty::U8 => 1,
            _ => 4,
        }
    }

    fn width(&self) -> usize {
        match self {
            Ty::Text | Ty::List(_) => 2,
            Ty::Record(fields) => fields.iter().map(Ty::width).sum(),
            _ => 1,
        }
    }
}

#[derive(Clone)]
pub enum Func {
    Guest,
    Lowered {
        callee: u32,
        func: u32,
        params: Rc<Vec<Ty>>,
        result: Option<Ty>,
        lower_realloc: u32,
        lift_realloc: u32,
    },
    New,
    Drop,
}

pub enum Move {
    Write { at: u32, bytes: Vec<u8> },
    Call { func: u32, args: Vec<u32> },
    Return { values: Vec<u32> },
}

#[derive(Debug)]
enum Trap {
    CoreShape,
    Bounds,
    Misaligned,
    BadText,
    TooLarge,
    NoHandle,
    StillLent,
    NotOwned,
    BorrowsLeft,
    MayNotLeave,
    Overlap,
    StackFull,
    UnknownFunction,
    CalleeClosed,
}

#[derive(Clone, Copy, PartialEq)]
enum Phase {
    Arguments,
    Body,
    Results,
}

#[derive(Clone, Copy)]
enum Purpose {
    Root,
    Call { caller: u32, func: u32, phase: Phase, first_lend: usize, borrows: u32 },
}

#[derive(Clone, Copy)]
struct Frame {
    instance: u32,
    purpose: Purpose,
}

#[derive(Clone, Copy)]
struct Handle {
    serial: usize,
    rep: u32,
    lends: u32,
    borrower: Option<usize>,
}

#[derive(Clone, Copy)]
enum Place {
    InTable(u32, u32),
    Travelling,
    Abandoned,
    Dropped,
}

/// A part of a value: where it is, where it goes, how large it is.
#[derive(Clone, Copy)]
struct Part {
    from: u32,
    to: u32,
    align: u32,
    size: u32,
}

/// At most 16 core values, in place.
struct Flat {
    values: [u32; 16],
    count: usize,
}

impl Flat {
    fn push(&mut self, value: u32) {
        self.values[self.count] = value;
        self.count += 1;
    }

    fn of(from: &[u32]) -> Flat {
        let mut flat = Flat { values: [0; 16], count: from.len() };
        flat.values[..from.len()].copy_from_slice(from);
        flat
    }
}

/// What passes events: numbers, whose sum is answered.
#[allow(dead_code)]
enum Event {
    Done,
    Enter { instance: u32, func: u32, args: Flat },
    Realloc { instance: u32, func: u32, args: [u32; 4] },
    Resume { instance: u32, value: Option<u32> },
    Ended,
}

#[derive(Default)]
struct Table {
    handles: Vec<Option<Handle>>,
    freed: Vec<u32>,
}

impl Table {
    fn get(&self, index: u32) -> Result<Handle, Trap> {
        self.handles.get(index as usize).copied().flatten().ok_or(Trap::NoHandle)
    }

    fn add(&mut self, handle: Handle) -> u32 {
        if let Some(index) = self.freed.pop() {
            self.handles[index as usize] = Some(handle);
            return index;
        }
        if self.handles.is_empty() {
            self.handles.push(None);
        }
        self.handles.push(Some(handle));
        self.handles.len() as u32 - 1
    }

    fn remove(&mut self, index: u32) {
        self.handles[index as usize] = None;
        self.freed.push(index);
    }
}

pub struct Machine {
    core: [Vec<Func>; 2],
    memories: [Vec<u8>; 2],
    tables: [Table; 2],
    places: Vec<Place>,
    closed: [bool; 2],
    stack: Vec<Frame>,
    lends: Vec<u32>,
    slots: Flat,
    parts: Vec<Part>,
    asked: usize,
    handles: Vec<(Handle, bool)>,
    regions: Vec<(u32, u32)>,
}

fn word(memory: &[u8], at: u32) -> u32 {
    let at = at as usize;
    u32::from_le_bytes(memory[at..at + 4].try_into().expect("four bytes"))
}

fn region(memory: &[u8], at: u32, align: u32, size: u64) -> Result<(), Trap> {
    if at % align != 0 {
        return Err(Trap::Misaligned);
    }
    if u64::from(at) + size > memory.len() as u64 {
        return Err(Trap::Bounds);
    }
    Ok(())
}

/// Reads a value: its parts and handles, in order.
struct Scan<'a> {
    memory: &'a [u8],
    table: &'a mut Table,
    parts: &'a mut Vec<Part>,
    handles: &'a mut Vec<(Handle, bool)>,
    lends: &'a mut Vec<u32>,
    places: &'a mut [Place],
    left: u64,
}

impl Scan<'_> {
    fn part(&mut self, from: u32, align: u32, size: u64, counts: bool) -> Result<(), Trap> {
        region(self.memory, from, align, size)?;
        if counts {
            self.left = self.left.checked_sub(size).ok_or(Trap::TooLarge)?;
        }
        self.parts.push(Part { from, to: 0, align, size: size as u32 });
        Ok(())
    }

    fn pair(&mut self, ty: &Ty, at: u32, count: u32) -> Result<(), Trap> {
        let Ty::List(element) = ty else {
            self.part(at, 1, u64::from(count), true)?;
            let bytes = &self.memory[at as usize..][..count as usize];
            return std::str::from_utf8(bytes).map(|_| ()).map_err(|_| Trap::BadText);
        };
        let size = element.size();
        self.part(at, element.align(), u64::from(count) * u64::from(size), true)?;
        if !matches!(**element, Ty::U8 | Ty::U32) {
            for k in 0..count {
                self.stored(element, at + k * size)?;
            }
        }
        Ok(())
    }

    fn handle(&mut self, ty: &Ty, index: u32) -> Result<(), Trap> {
        let mut handle = self.table.get(index)?;
        if matches!(ty, Ty::Own) {
            if handle.lends > 0 {
                return Err(Trap::StillLent);
            }
            if handle.borrower.is_some() {
                return Err(Trap::NotOwned);
            }
            self.table.remove(index);
            self.places[handle.serial] = Place::Travelling;
            self.handles.push((handle, true));
        } else {
            handle.lends += 1;
            self.table.handles[index as usize] = Some(handle);
            self.lends.push(index);
            self.handles.push((handle, false));
        }
        Ok(())
    }

    fn stored(&mut self, ty: &Ty, at: u32) -> Result<(), Trap> {
        match ty {
            Ty::U8 | Ty::U32 => Ok(()),
            Ty::Text | Ty::List(_) => {
                let (from, count) = (word(self.memory, at), word(self.memory, at + 4));
                self.pair(ty, from, count)
            }
            Ty::Record(fields) => {
                let mut place = at;
                for field in fields {
                    self.stored(field, place)?;
                    place += field.size();
                }
                Ok(())
            }
            Ty::Own | Ty::Borrow => self.handle(ty, word(self.memory, at)),
        }
    }

    fn flat(&mut self, ty: &Ty, slots: &[u32]) -> Result<(), Trap> {
        match ty {
            Ty::U8 | Ty::U32 => Ok(()),
            Ty::Text | Ty::List(_) => self.pair(ty, slots[0], slots[1]),
            Ty::Record(fields) => {
                let mut rest = slots;
                for field in fields {
                    self.flat(field, rest)?;
                    rest = &rest[field.width()..];
                }
                Ok(())
            }
            Ty::Own | Ty::Borrow => self.handle(ty, slots[0]),
        }
    }
}

/// Writes a value into its receiver's memory.
struct Copy<'a> {
    from: &'a [u8],
    to: &'a mut [u8],
    parts: std::slice::Iter<'a, Part>,
    numbers: std::slice::Iter<'a, (Handle, bool)>,
}

impl Copy<'_> {
    /// The address of the next part, whose contents are written.
    fn part(&mut self, ty: &Ty) -> u32 {
        let part = *self.parts.next().expect("a part");
        let (from, to, size) = (part.from as usize, part.to as usize, part.size as usize);
        match ty {
            Ty::List(element) if !matches!(**element, Ty::U8 | Ty::U32) => {
                let each = element.size();
                for k in 0..part.size / each {
                    self.stored(element, part.from + k * each, part.to + k * each);
                }
            }
            _ => self.to[to..to + size].copy_from_slice(&self.from[from..from + size]),
        }
        part.to
    }

    fn stored(&mut self, ty: &Ty, from: u32, to: u32) {
        let put = |memory: &mut [u8], at: u32, number: u32| {
            memory[at as usize..at as usize + 4].copy_from_slice(&number.to_le_bytes());
        };
        match ty {
            Ty::U8 => self.to[to as usize] = self.from[from as usize],
            Ty::U32 => put(self.to, to, word(self.from, from)),
            Ty::Text | Ty::List(_) => {
                let count = word(self.from, from + 4);
                let at = self.part(ty);
                put(self.to, to, at);
                put(self.to, to + 4, count);
            }
            Ty::Record(fields) => {
                let mut place = 0;
                for field in fields {
                    self.stored(field, from + place, to + place);
                    place += field.size();
                }
            }
            Ty::Own | Ty::Borrow => {
                let number = self.numbers.next().expect("a handle").0.rep;
                put(self.to, to, number);
            }
        }
    }

    fn flat(&mut self, ty: &Ty, slots: &[u32], out: &mut Flat) {
        match ty {
            Ty::U8 => out.push(slots[0] & 0xFF),
            Ty::U32 => out.push(slots[0]),
            Ty::Text | Ty::List(_) => {
                let at = self.part(ty);
                out.push(at);
                out.push(slots[1]);
            }
            Ty::Record(fields) => {
                let mut rest = slots;
                for field in fields {
                    self.flat(field, rest, out);
                    rest = &rest[field.width()..];
                }
            }
            Ty::Own | Ty::Borrow => out.push(self.numbers.next().expect("a handle").0.rep),
        }
    }
}

fn is_apart(regions: &mut Vec<(u32, u32)>, parts: &[Part]) -> bool {
    regions.clear();
    regions.extend(parts.iter().filter(|part| part.size > 0).map(|part| (part.to, part.size)));
    regions.sort_unstable();
    regions.windows(2).all(|two| u64::from(two[0].0) + u64::from(two[0].1) <= u64::from(two[1].0))
}

impl Machine {
    pub fn new(core: [Vec<Func>; 2], pages: [u32; 2]) -> Machine {
        Machine {
            core,
            memories: pages.map(|count| vec![0; count as usize * PAGE]),
            tables: [Table::default(), Table::default()],
            places: Vec::new(),
            closed: [false; 2],
            stack: Vec::with_capacity(MOST_FRAMES),
            lends: Vec::new(),
            slots: Flat::of(&[]),
            parts: Vec::new(),
            asked: 0,
            handles: Vec::new(),
            regions: Vec::new(),
        }
    }

    pub fn begin(&mut self, instance: u32) {
        self.stack.push(Frame { instance, purpose: Purpose::Root });
    }

    /// The sum of the numbers that the event carries, none where the move traps.
    pub fn step(&mut self, made: &Move) -> Option<u64> {
        let top = *self.stack.last()?;
        let event = match self.advance(&top, made) {
            Ok(event) => event,
            Err(_) => {
                for frame in self.stack.drain(..) {
                    self.closed[frame.instance as usize] = true;
                }
                for (handle, is_owned) in self.handles.drain(..) {
                    if is_owned {
                        self.places[handle.serial] = Place::Abandoned;
                    }
                }
                return None;
            }
        };
        let sum = |values: &[u32]| values.iter().map(|value| u64::from(*value)).sum();
        Some(match &event {
            Event::Enter { args, .. } => sum(&args.values[..args.count]),
            Event::Realloc { args, .. } => sum(args),
            Event::Resume { value: Some(value), .. } => u64::from(*value),
            _ => 0,
        })
    }

    fn advance(&mut self, top: &Frame, made: &Move) -> Result<Event, Trap> {
        let actor = match top.purpose {
            Purpose::Call { caller, phase: Phase::Results, .. } => caller,
            _ => top.instance,
        };
        match made {
            Move::Write { at, bytes } => {
                let at = *at as usize;
                let memory = &mut self.memories[actor as usize];
                memory.get_mut(at..at + bytes.len()).ok_or(Trap::Bounds)?.copy_from_slice(bytes);
                Ok(Event::Done)
            }
            Move::Call { func, args } => self.call(top, actor, *func, args),
            Move::Return { values } => self.back(top, values),
        }
    }

    fn call(&mut self, top: &Frame, actor: u32, func: u32, args: &[u32]) -> Result<Event, Trap> {
        let core = self.core[actor as usize].get(func as usize).ok_or(Trap::UnknownFunction)?;
        let may_leave = !matches!(
            top.purpose,
            Purpose::Call { phase: Phase::Arguments | Phase::Results, .. }
        );
        match core {
            Func::Guest => Err(Trap::UnknownFunction),
            Func::Lowered { callee, params, .. } => {
                let (callee, params) = (*callee, Rc::clone(params));
                self.lower(actor, func, callee, &params, may_leave, args)
            }
            Func::New | Func::Drop => {
                let [number] = *args else { return Err(Trap::CoreShape) };
                if !may_leave {
                    return Err(Trap::MayNotLeave);
                }
                if matches!(core, Func::New) {
                    let serial = self.places.len();
                    let handle = Handle { serial, rep: number, lends: 0, borrower: None };
                    let index = self.tables[actor as usize].add(handle);
                    self.places.push(Place::InTable(actor, index));
                    return Ok(Event::Resume { instance: actor, value: Some(index) });
                }
                let table = &mut self.tables[actor as usize];
                let handle = table.get(number)?;
                if handle.lends > 0 {
                    return Err(Trap::StillLent);
                }
                table.remove(number);
                match handle.borrower {
                    None => self.places[handle.serial] = Place::Dropped,
                    Some(frame) => {
                        if let Purpose::Call { borrows, .. } = &mut self.stack[frame].purpose {
                            *borrows -= 1;
                        }
                    }
                }
                Ok(Event::Resume { instance: actor, value: None })
            }
        }
    }

    fn lower(
        &mut self,
        caller: u32,
        func: u32,
        callee: u32,
        params: &[Ty],
        may_leave: bool,
        args: &[u32],
    ) -> Result<Event, Trap> {
        let width: usize = params.iter().map(Ty::width).sum();
        let is_spilled = width > 16;
        if args.len() != if is_spilled { 1 } else { width } {
            return Err(Trap::CoreShape);
        }
        if !may_leave {
            return Err(Trap::MayNotLeave);
        }
        if self.closed[callee as usize] {
            return Err(Trap::CalleeClosed);
        }
        if self.stack.len() >= MOST_FRAMES {
            return Err(Trap::StackFull);
        }
        let first_lend = self.lends.len();
        self.scan(caller, params, is_spilled, args)?;
        let purpose =
            Purpose::Call { caller, func, phase: Phase::Arguments, first_lend, borrows: 0 };
        self.stack.push(Frame { instance: callee, purpose });
        self.slots = Flat::of(args);
        self.ask()
    }

    /// Reads the values that slots pass, or those behind the pointer that they are.
    fn scan(&mut self, giver: u32, types: &[Ty], spilled: bool, args: &[u32]) -> Result<(), Trap> {
        self.parts.clear();
        self.handles.clear();
        self.asked = 0;
        let mut scan = Scan {
            memory: &self.memories[giver as usize],
            table: &mut self.tables[giver as usize],
            parts: &mut self.parts,
            handles: &mut self.handles,
            lends: &mut self.lends,
            places: &mut self.places,
            left: MOST_CONTENT,
        };
        if spilled {
            let size: u32 = types.iter().map(Ty::size).sum();
            scan.part(args[0], 4, u64::from(size), false)?;
            let mut at = args[0];
            for ty in types {
                scan.stored(ty, at)?;
                at += ty.size();
            }
        } else {
            let mut rest = args;
            for ty in types {
                scan.flat(ty, rest)?;
                rest = &rest[ty.width()..];
            }
        }
        Ok(())
    }

    /// The topmost call: its caller and link.
    fn link(&self) -> (u32, u32, Phase, &Func) {
        let Some(Frame { purpose: Purpose::Call { caller, func, phase, .. }, .. }) =
            self.stack.last()
        else {
            unreachable!("no call")
        };
        (*caller, *func, *phase, &self.core[*caller as usize][*func as usize])
    }

    fn ask(&mut self) -> Result<Event, Trap> {
        let (caller, _, phase, func) = self.link();
        let Func::Lowered { callee, lower_realloc, lift_realloc, .. } = func else {
            unreachable!("no lower")
        };
        if let Some(part) = self.parts.get(self.asked) {
            let (instance, func) = match phase {
                Phase::Results => (caller, *lower_realloc),
                _ => (*callee, *lift_realloc),
            };
            return Ok(Event::Realloc { instance, func, args: [0, 0, part.align, part.size] });
        }
        self.hand_over()
    }

    fn hand_over(&mut self) -> Result<Event, Trap> {
        let (caller, _, phase, func) = self.link();
        let Func::Lowered { callee, func, params, result, .. } = func.clone() else {
            unreachable!("no lower")
        };
        if !is_apart(&mut self.regions, &self.parts) {
            return Err(Trap::Overlap);
        }
        let receiver = if phase == Phase::Results { caller } else { callee };
        let frame = self.stack.len() - 1;
        let mut borrowed = 0;
        for (handle, is_owned) in &mut self.handles {
            if *is_owned {
                let serial = handle.serial;
                let index = self.tables[receiver as usize].add(Handle { lends: 0, ..*handle });
                self.places[serial] = Place::InTable(receiver, index);
                handle.rep = index;
            } else if receiver != 0 {
                borrowed += 1;
                let borrower = Some(frame);
                handle.rep =
                    self.tables[receiver as usize].add(Handle { lends: 0, borrower, ..*handle });
            }
        }
        let [low, high] = &mut self.memories;
        let (from, to) = if receiver == 0 { (high, low) } else { (low, high) };
        let mut copy =
            Copy { from, to, parts: self.parts.iter(), numbers: self.handles.iter() };
        let mut out = Flat::of(&[]);
        if phase == Phase::Results {
            if let Some(ty) = &result {
                copy.flat(ty, &self.slots.values[..self.slots.count], &mut out);
            }
            self.handles.clear();
            return Ok(self.end(out.values[..out.count].first().copied()));
        }
        let width: usize = params.iter().map(Ty::width).sum();
        if width > 16 {
            let tuple = *copy.parts.next().expect("the tuple");
            let mut place = 0;
            for ty in params.iter() {
                copy.stored(ty, tuple.from + place, tuple.to + place);
                place += ty.size();
            }
            out.push(tuple.to);
        } else {
            let mut rest = &self.slots.values[..self.slots.count];
            for ty in params.iter() {
                copy.flat(ty, rest, &mut out);
                rest = &rest[ty.width()..];
            }
        }
        self.handles.clear();
        if let Some(Frame { purpose: Purpose::Call { phase, borrows, .. }, .. }) =
            self.stack.last_mut()
        {
            *phase = Phase::Body;
            *borrows = borrowed;
        }
        Ok(Event::Enter { instance: callee, func, args: out })
    }

    fn end(&mut self, value: Option<u32>) -> Event {
        let Some(Frame { purpose: Purpose::Call { caller, first_lend, .. }, .. }) =
            self.stack.pop()
        else {
            unreachable!("no call")
        };
        for index in self.lends.drain(first_lend..) {
            if let Some(Some(handle)) =
                self.tables[caller as usize].handles.get_mut(index as usize)
            {
                handle.lends -= 1;
            }
        }
        Event::Resume { instance: caller, value }
    }

    fn back(&mut self, top: &Frame, values: &[u32]) -> Result<Event, Trap> {
        let Purpose::Call { caller, phase, borrows, .. } = top.purpose else {
            if !values.is_empty() {
                return Err(Trap::CoreShape);
            }
            self.stack.pop();
            return Ok(Event::Ended);
        };
        if phase == Phase::Body {
            let (_, _, _, func) = self.link();
            let Func::Lowered { callee, result, .. } = func.clone() else {
                unreachable!("no lower")
            };
            if values.len() != usize::from(result.is_some()) {
                return Err(Trap::CoreShape);
            }
            if borrows > 0 {
                return Err(Trap::BorrowsLeft);
            }
            self.scan(callee, result.as_slice(), false, values)?;
            if let Some(Frame { purpose: Purpose::Call { phase, .. }, .. }) = self.stack.last_mut()
            {
                *phase = Phase::Results;
            }
            self.slots = Flat::of(values);
            return self.ask();
        }
        let [at] = *values else { return Err(Trap::CoreShape) };
        let receiver = if phase == Phase::Results { caller } else { top.instance };
        let part = &mut self.parts[self.asked];
        region(&self.memories[receiver as usize], at, part.align, u64::from(part.size))?;
        part.to = at;
        self.asked += 1;
        self.ask()
    }
}
