//! A set as a Rust type that is freed once: sets PAIR STRINGS plays the first pair and a call with
//! strings. The type is not `Send`: a set stays on the thread that made it.

use std::error::Error;
use std::ffi::c_void;
use std::{env, fmt, fs, ptr};

#[repr(C)]
struct HuxSet {
    at: *mut c_void,
}

#[repr(C)]
struct HuxSpan {
    at: usize,
    length: usize,
}

#[repr(C)]
#[derive(Clone, Copy, Debug)]
struct HuxVerdict {
    kind: u32,
    reason: u32,
    file: usize,
    place: usize,
    item: usize,
}

#[repr(C)]
#[derive(Clone, Copy, Default)]
struct HuxCore {
    bits: u64,
    kind: u32,
}

#[repr(C)]
#[derive(Clone, Copy, Default)]
struct HuxEvent {
    kind: u32,
    instance: u32,
    func: u32,
    number: u32,
    count: u32,
    values: [HuxCore; 16],
}

impl HuxEvent {
    fn number(&self, at: usize) -> u32 {
        self.values[at].bits as u32
    }
}

unsafe extern "C" {
    fn hux_set_new(
        bytes: *const u8,
        bytes_length: usize,
        files: *const HuxSpan,
        files_length: usize,
        pages: *const u32,
        pages_length: usize,
        set: *mut HuxSet,
    ) -> HuxVerdict;
    fn hux_set_free(set: *mut HuxSet);
    fn hux_set_begin(set: *mut HuxSet, instance: u32, event: *mut HuxEvent) -> HuxVerdict;
    fn hux_set_write(
        set: *mut HuxSet,
        at: u32,
        bytes: *const u8,
        bytes_length: usize,
        event: *mut HuxEvent,
    ) -> HuxVerdict;
    fn hux_set_call(
        set: *mut HuxSet,
        func: u32,
        args: *const HuxCore,
        args_length: usize,
        event: *mut HuxEvent,
    ) -> HuxVerdict;
    fn hux_set_return(
        set: *mut HuxSet,
        values: *const HuxCore,
        values_length: usize,
        event: *mut HuxEvent,
    ) -> HuxVerdict;
    fn hux_set_read(
        set: *mut HuxSet,
        number: u32,
        at: usize,
        into: *mut u8,
        into_length: usize,
    ) -> HuxVerdict;
}

/// Why a call did nothing.
#[derive(Debug)]
struct Refused(HuxVerdict);

impl fmt::Display for Refused {
    fn fmt(&self, f: &mut fmt::Formatter<'_>) -> fmt::Result {
        write!(f, "refused: {:?}", self.0)
    }
}

impl Error for Refused {}

fn fine(verdict: HuxVerdict) -> Result<(), Refused> {
    if verdict.kind == 0 { Ok(()) } else { Err(Refused(verdict)) }
}

/// A set of linked components that runs.
struct Set(HuxSet);

impl Drop for Set {
    fn drop(&mut self) {
        unsafe { hux_set_free(&mut self.0) }
    }
}

impl Set {
    /// A set of the components of these files, with so many pages of memory each.
    fn new(files: &[Vec<u8>], pages: &[u32]) -> Result<Set, Refused> {
        let (mut bytes, mut parts) = (Vec::new(), Vec::new());
        for file in files {
            parts.push(HuxSpan { at: bytes.len(), length: file.len() });
            bytes.extend(file);
        }
        let mut set = HuxSet { at: ptr::null_mut() };
        fine(unsafe {
            hux_set_new(
                bytes.as_ptr(),
                bytes.len(),
                parts.as_ptr(),
                parts.len(),
                pages.as_ptr(),
                pages.len(),
                &mut set,
            )
        })?;
        Ok(Set(set))
    }

    fn begin(&mut self, instance: u32) -> Result<HuxEvent, Refused> {
        let mut event = HuxEvent::default();
        fine(unsafe { hux_set_begin(&mut self.0, instance, &mut event) })?;
        Ok(event)
    }

    fn write(&mut self, at: u32, bytes: &[u8]) -> Result<(), Refused> {
        let mut event = HuxEvent::default();
        let count = bytes.len();
        fine(unsafe { hux_set_write(&mut self.0, at, bytes.as_ptr(), count, &mut event) })
    }

    fn call(&mut self, func: u32, args: &[u32]) -> Result<HuxEvent, Refused> {
        let (args, mut event) = (cores(args), HuxEvent::default());
        fine(unsafe { hux_set_call(&mut self.0, func, args.as_ptr(), args.len(), &mut event) })?;
        Ok(event)
    }

    fn give(&mut self, values: &[u32]) -> Result<HuxEvent, Refused> {
        let (values, mut event) = (cores(values), HuxEvent::default());
        let count = values.len();
        fine(unsafe { hux_set_return(&mut self.0, values.as_ptr(), count, &mut event) })?;
        Ok(event)
    }

    fn read(&mut self, instance: u32, at: u32, count: u32) -> Result<Vec<u8>, Refused> {
        let mut bytes = vec![0; count as usize];
        let into = bytes.as_mut_ptr();
        fine(unsafe { hux_set_read(&mut self.0, instance, at as usize, into, bytes.len()) })?;
        Ok(bytes)
    }
}

fn cores(numbers: &[u32]) -> Vec<HuxCore> {
    numbers.iter().map(|&it| HuxCore { bits: it.into(), kind: 0 }).collect()
}

fn pair(folder: &str, pages: u32) -> Result<Set, Box<dyn Error>> {
    let provider = fs::read(format!("{folder}/provider.wasm"))?;
    let user = fs::read(format!("{folder}/user.wasm"))?;
    Ok(Set::new(&[provider, user], &[pages, pages])?)
}

/// The user calls `inc` of the provider with 41.
fn first_pair(mut set: Set) -> Result<(), Refused> {
    set.begin(1)?;
    let value = set.call(0, &[41])?.number(0);
    println!("inc({value}) = {}", set.give(&[value + 1])?.number(0));
    set.give(&[])?;
    Ok(())
}

/// The guests of both components: each allocates behind all that it has.
struct Guests {
    set: Set,
    tops: [u32; 2],
}

impl Guests {
    fn allocate(&mut self, event: &HuxEvent) -> Result<HuxEvent, Refused> {
        let [old, old_size, align, size] = [0, 1, 2, 3].map(|at| event.number(at));
        let top = &mut self.tops[event.instance as usize];
        let at = top.next_multiple_of(align);
        *top = at + size;
        if old_size != 0 {
            let kept = self.set.read(event.instance, old, old_size.min(size))?;
            self.set.write(at, &kept)?;
        }
        self.set.give(&[at])
    }

    /// The provider's answer lies at 64, in UTF-16, and its place and length at 0.
    fn greet(&mut self, event: &HuxEvent) -> Result<HuxEvent, Refused> {
        let name = self.set.read(event.instance, event.number(0), 2 * event.number(1))?;
        let units: Vec<u16> = name.chunks(2).map(|it| u16::from_le_bytes([it[0], it[1]])).collect();
        let answer = format!("Hello, {}!", String::from_utf16_lossy(&units));
        let units: Vec<u16> = answer.encode_utf16().collect();
        let bytes: Vec<u8> = units.iter().flat_map(|it| it.to_le_bytes()).collect();
        self.set.write(64, &bytes)?;
        self.set.write(0, &[64u32.to_le_bytes(), (units.len() as u32).to_le_bytes()].concat())?;
        self.set.give(&[0])
    }

    /// Plays until the user goes on.
    fn go_on(&mut self, mut event: HuxEvent) -> Result<(), Refused> {
        while event.kind != 4 {
            event = match event.kind {
                3 => self.allocate(&event)?,
                2 => self.greet(&event)?,
                _ => self.set.give(&[])?,
            };
        }
        Ok(())
    }
}

fn strings(mut set: Set) -> Result<(), Box<dyn Error>> {
    let name = "Zoë 🦀".as_bytes();
    set.begin(1)?;
    set.write(0, name)?;
    let event = set.call(1, &[0, name.len() as u32, 256])?;
    let mut guests = Guests { set, tops: [1024, 1024] };
    guests.go_on(event)?;
    let place = guests.set.read(1, 256, 8)?;
    let at = u32::from_le_bytes(place[..4].try_into()?);
    let size = u32::from_le_bytes(place[4..].try_into()?);
    println!("{}", String::from_utf8(guests.set.read(1, at, size)?)?);
    guests.set.give(&[])?;
    Ok(())
}

fn main() -> Result<(), Box<dyn Error>> {
    let words: Vec<String> = env::args().collect();
    first_pair(pair(&words[1], 0)?)?;
    strings(pair(&words[2], 1)?)
}
