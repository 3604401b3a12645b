//! Components and sets that strangers may send: what validating and linking them costs a byte of
//! their files, in time and in memory, at two sizes each.

use crate::{heap, plain};
use crate::samples::{file, list, number, section, text};
use std::hint::black_box;
use std::time::Instant;

unsafe extern "C" {
    fn cm_bench_validate(file: *const u8, size: usize) -> usize;
    fn cm_bench_link_set(
        files: *const u8,
        size: usize,
        sizes: *const usize,
        count: usize,
    ) -> usize;
}

fn extern_name(name: &str) -> Vec<u8> {
    [vec![0x00], text(name)].concat()
}

fn func_type(label: &str, ty: &[u8]) -> Vec<u8> {
    let params = list(&[[text(label), ty.to_vec()].concat()]);
    [vec![0x40], params, vec![0x01, 0x00]].concat()
}

fn imports(sort: u8, ty: usize, names: impl Iterator<Item = String>) -> Vec<u8> {
    let items: Vec<Vec<u8>> = names
        .map(|name| [extern_name(&name), vec![sort], number(ty)].concat())
        .collect();
    section(10, &list(&items))
}

fn exports(sort: u8, names: impl Iterator<Item = (String, usize)>) -> Vec<u8> {
    let items: Vec<Vec<u8>> = names
        .map(|(name, at)| [extern_name(&name), vec![sort], number(at), vec![0x00]].concat())
        .collect();
    section(11, &list(&items))
}

fn types(types: &[Vec<u8>]) -> Vec<u8> {
    section(7, &list(types))
}

/// A core module, its instance, its function `f`, its memory `m` and its allocator `r`.
fn guest() -> Vec<u8> {
    let module = [0x00, 0x61, 0x73, 0x6D, 0x01, 0x00, 0x00, 0x00];
    let alias = |sort: u8, name: &str| [vec![0x00, sort, 0x01, 0x00], text(name)].concat();
    let aliases = [alias(0, "f"), alias(0, "r"), alias(2, "m")];
    [
        section(1, &module),
        section(2, &list(&[vec![0x00, 0x00, 0x00]])),
        section(6, &list(&aliases)),
    ]
    .concat()
}

/// The guest's function lifted to a type, with its memory and its allocator.
fn lift(ty: usize) -> Vec<u8> {
    let options = list(&[vec![0x03, 0x00], vec![0x04, 0x01]]);
    section(8, &list(&[[vec![0x00, 0x00, 0x00], options, number(ty)].concat()]))
}

fn names(count: usize) -> impl Iterator<Item = String> {
    (0..count).map(|at| format!("f{at}"))
}

/// Names of eight letters.
fn plain_names(count: usize) -> impl Iterator<Item = String> + Clone {
    (0..count as u64)
        .map(|at| (0..8).map(|digit| (b'a' + (at / 26u64.pow(digit) % 26) as u8) as char).collect())
}

/// The shortest labels of one word: a letter, then letters and digits.
fn short_names(count: usize) -> impl Iterator<Item = String> {
    const REST: &[u8; 36] = b"abcdefghijklmnopqrstuvwxyz0123456789";
    let of_length = |length: u32| {
        (0..26 * 36usize.pow(length - 1)).map(move |at| {
            let rest = (1..length).map(|place| REST[at / 26 / 36usize.pow(place - 1) % 36] as char);
            std::iter::once(REST[at % 26] as char).chain(rest).collect()
        })
    };
    (1..).flat_map(of_length).take(count)
}

/// The factor of the library's hash of a text, by which each byte is added and multiplied.
const FACTOR: u64 = 0x9e37_79b9_7f4a_7c15;

/// The places that a table of 131,072 texts has, of which none was announced: fewer texts have a
/// power of two, too.
const PLACES: u64 = 1 << 20;

/// The places that a table has of which so many texts were announced.
fn announced(count: usize) -> u64 {
    8 * (count as u64 / 2 + 1)
}

/// The letters of a number below 26^4.
fn four_letters(at: u32) -> [u8; 4] {
    [0, 1, 2, 3].map(|digit| b'a' + (at / 26u32.pow(digit) % 26) as u8)
}

/// What four letters add to the hash, where these many follow them.
fn added(letters: [u8; 4], behind: u32) -> u64 {
    let hash = letters.iter().fold(0u64, |hash, letter| {
        hash.wrapping_add(u64::from(*letter)).wrapping_mul(FACTOR)
    });
    (0..behind).fold(hash, |hash, _| hash.wrapping_mul(FACTOR))
}

/// The place, of so many, at which a text of this hash is looked for first.
fn place(hash: u64, places: u64) -> u64 {
    (hash >> 32) % places
}

/// The places that what is behind four letters may have alone, so that the sum of both hashes has
/// the first one: by whether their low halves have a carry, and whether the sum passes 64 bits.
fn places_behind(hash: u64, places: u64) -> Vec<u64> {
    let past = (1 << 32) % places;
    let mut all: Vec<u64> = [(0, 0), (0, 1), (past, 0), (past, 1)]
        .iter()
        .map(|(past, carry)| (past + 2 * places - place(hash, places) - carry) % places)
        .collect();
    all.sort_unstable();
    all.dedup();
    all
}

/// Names of eight letters that the library looks for first at one place, the first, of a table of
/// so many places: the powers of two up to `PLACES`, or as many as for names that are announced.
fn crafted_names(count: usize, places: u64) -> impl Iterator<Item = String> + Clone {
    let mut ends: Vec<(u64, u32)> =
        (0..26u32.pow(4)).map(|at| (added(four_letters(at), 0), at)).collect();
    ends.sort_by_key(|(hash, _)| place(*hash, places));
    let fits = |front: u32| {
        let hash = added(four_letters(front), 4);
        let found: Vec<(u64, u32)> = places_behind(hash, places)
            .into_iter()
            .flat_map(|wanted| {
                let from = ends.partition_point(|(end, _)| place(*end, places) < wanted);
                let to = ends.partition_point(|(end, _)| place(*end, places) <= wanted);
                ends[from..to].to_vec()
            })
            .collect();
        found.into_iter().filter(move |(end, _)| place(hash.wrapping_add(*end), places) == 0)
    };
    let names: Vec<String> = (0..26u32.pow(4))
        .flat_map(|front| fits(front).map(move |(_, end)| [front, end].map(four_letters).concat()))
        .map(|name| String::from_utf8(name).expect("letters"))
        .take(count)
        .collect();
    assert_eq!(names.len(), count);
    names.into_iter()
}

const U8: &[u8] = &[0x7D];
const U32: &[u8] = &[0x79];

/// So many imports of one function.
fn many_imports(count: usize) -> Vec<u8> {
    file(&[types(&[func_type("x", U32)]), imports(1, 0, short_names(count))])
}

/// An instance of so many exports, each a function that is imported, under these names.
fn inline_exports(names: impl Iterator<Item = String>) -> Vec<u8> {
    let items: Vec<Vec<u8>> =
        names.map(|name| [extern_name(&name), vec![0x01], number(0)].concat()).collect();
    let instance = [vec![0x01], list(&items)].concat();
    let import = imports(1, 0, std::iter::once("f".to_string()));
    file(&[types(&[func_type("x", U32)]), import, section(5, &list(&[instance]))])
}

/// A core instance of so many exports, each a function of a module's instance, under these names,
/// each of which is aliased as a memory of a module's instance too.
fn core_exports(names: impl Iterator<Item = String> + Clone) -> Vec<u8> {
    let items: Vec<Vec<u8>> =
        names.clone().map(|name| [text(&name), vec![0x00], number(0)].concat()).collect();
    let instance = [vec![0x01], list(&items)].concat();
    let aliases: Vec<Vec<u8>> =
        names.map(|name| [vec![0x00, 0x02, 0x01, 0x00], text(&name)].concat()).collect();
    file(&[guest(), section(2, &list(&[instance])), section(6, &list(&aliases))])
}

/// So many types, each a tuple of one of 8,191 nodes.
fn large_types(count: usize) -> Vec<u8> {
    let tuple = |parts: &[usize]| {
        let parts: Vec<Vec<u8>> = parts.iter().map(|at| number(*at)).collect();
        [vec![0x6F], list(&parts)].concat()
    };
    let mut all = vec![U8.to_vec()];
    all.extend((0..12).map(|at| tuple(&[at, at])));
    all.extend((0..count).map(|_| tuple(&[12])));
    file(&[types(&all)])
}

/// The type of an instance of so many functions.
fn instance_of_funcs(items: usize) -> Vec<u8> {
    let mut all = vec![[vec![0x01], func_type("x", U32)].concat()];
    all.extend(names(items).map(|name| {
        [vec![0x04], extern_name(&name), vec![0x01, 0x00]].concat()
    }));
    [vec![0x42], list(&all)].concat()
}

/// The type of an instance of so many resources of its own.
fn instance_of_resources(items: usize) -> Vec<u8> {
    let all: Vec<Vec<u8>> = names(items)
        .map(|name| [vec![0x04], extern_name(&name), vec![0x03, 0x01]].concat())
        .collect();
    [vec![0x42], list(&all)].concat()
}

/// So many imports of an instance of so many functions.
fn instances(items: usize, count: usize) -> Vec<u8> {
    file(&[types(&[instance_of_funcs(items)]), imports(5, 0, names(count))])
}

/// So many components that each export so many functions, each from the second on those of the one
/// before it that it imports.
fn chain(components: usize, count: usize) -> Vec<Vec<u8>> {
    let named = |at: usize| (0..count).map(move |of| format!("c{at}-f{of}"));
    (0..components)
        .map(|at| {
            let ty = types(&[func_type("x", U32)]);
            let (made, first) = match at {
                0 => ([guest(), lift(0)].concat(), vec![0; count]),
                _ => (imports(1, 0, named(at - 1)), (0..count).collect()),
            };
            file(&[ty, made, exports(1, named(at).zip(first))])
        })
        .collect()
}

/// One function type with a label of so many bytes, and so many imports of it, all served.
fn long_label(size: usize, count: usize) -> Vec<Vec<u8>> {
    let ty = types(&[func_type(&"a".repeat(size), U32)]);
    vec![
        file(&[ty.clone(), guest(), lift(0), exports(1, names(count).map(|name| (name, 0)))]),
        file(&[ty, imports(1, 0, names(count))]),
    ]
}

/// A record with a label of so many bytes, used so many times in one type.
fn label_in_parts(size: usize, count: usize) -> Vec<Vec<u8>> {
    let record = [vec![0x72], list(&[[text(&"a".repeat(size)), U8.to_vec()].concat()])].concat();
    let tuple = [vec![0x6F], list(&vec![number(0); count])].concat();
    let ty = types(&[record, tuple, func_type("x", &[0x01])]);
    vec![
        file(&[ty.clone(), guest(), lift(2), exports(1, names(1).map(|name| (name, 0)))]),
        file(&[ty, imports(1, 2, names(1))]),
    ]
}

/// An instance of so many resources, exported under so many names, and imports of all of them.
fn resources(items: usize, count: usize) -> Vec<Vec<u8>> {
    let members: Vec<Vec<u8>> = names(items)
        .map(|name| [extern_name(&name), vec![0x03, 0x00]].concat())
        .collect();
    let instance = section(5, &list(&[[vec![0x01], list(&members)].concat()]));
    let provided = exports(5, names(count).map(|name| (name, 0)));
    vec![
        file(&[types(&[vec![0x3F, 0x7F, 0x00]]), instance, provided]),
        file(&[types(&[instance_of_resources(items)]), imports(5, 0, names(count))]),
    ]
}

/// So many components, each with so many versions of one interface that no other is compatible
/// with; the last one imports all of them.
fn versions(components: usize, count: usize) -> Vec<Vec<u8>> {
    let named = move |at: usize| (0..count).map(move |of| format!("a:b/c@{}.0.0", at * count + of + 1));
    let instance = section(5, &list(&[vec![0x01, 0x00]]));
    let mut all: Vec<Vec<u8>> = (0..components - 1)
        .map(|at| file(&[instance.clone(), exports(5, named(at).map(|name| (name, 0)))]))
        .collect();
    let wanted = (0..components - 1).flat_map(named);
    all.push(file(&[types(&[vec![0x42, 0x00]]), imports(5, 0, wanted)]));
    all
}

/// A kind of file, and the one of so many names.
type Kind = (&'static str, fn(usize) -> Vec<u8>);

/// The kinds of files that are counted once; behind each that has crafted names stands the one with
/// other names as long.
const KINDS: [Kind; 7] = [
    ("imports", many_imports),
    ("crafted imports", |count| named_imports(crafted_names(count, announced(count)))),
    ("other imports", |count| named_imports(plain_names(count))),
    ("crafted inline exports", |count| inline_exports(crafted_names(count, PLACES))),
    ("other inline exports", |count| inline_exports(plain_names(count))),
    ("crafted core exports", |count| core_exports(crafted_names(count, PLACES))),
    ("other core exports", |count| core_exports(plain_names(count))),
];

/// Decodes and validates a file so many times, on one side, and prints how many names it has. Plain
/// Rust keeps names in hash maps, and does no more than imports need.
pub fn once(side: &str, kind: &str, count: usize, rounds: usize) {
    let (_, file_of) = KINDS.iter().find(|it| it.0 == kind).expect("the name of a kind");
    let file = file_of(count);
    for _ in 0..rounds {
        match side {
            "ours" => assert_ne!(validate(black_box(&file)), usize::MAX),
            _ => assert!(plain::decode(black_box(&file)).and_then(plain::validate).is_some()),
        }
    }
    println!("{count}");
}

/// A component that exports a function under these names, and one that imports them.
fn named_pair(names: impl Iterator<Item = String> + Clone) -> Vec<Vec<u8>> {
    let ty = types(&[func_type("x", U32)]);
    let exported = names.clone().map(|name| (name, 0));
    vec![
        file(&[ty.clone(), guest(), lift(0), exports(1, exported)]),
        file(&[ty, imports(1, 0, names)]),
    ]
}

/// A component that exports an empty instance so many times, and one that imports it under the last
/// of the names.
fn many_exports(count: usize) -> Vec<Vec<u8>> {
    let instance = section(5, &list(&[vec![0x01, 0x00]]));
    let named = short_names(count).map(|name| (name, 0));
    let wanted = short_names(count).skip(count - 1);
    vec![
        file(&[instance, exports(5, named)]),
        file(&[types(&[vec![0x42, 0x00]]), imports(5, 0, wanted)]),
    ]
}

/// How many imports are linked.
fn link(files: &[Vec<u8>]) -> usize {
    let bytes = files.concat();
    let sizes: Vec<usize> = files.iter().map(Vec::len).collect();
    unsafe { cm_bench_link_set(bytes.as_ptr(), bytes.len(), sizes.as_ptr(), sizes.len()) }
}

fn validate(file: &[u8]) -> usize {
    unsafe { cm_bench_validate(file.as_ptr(), file.len()) }
}

/// Imports of one function under these names.
fn named_imports(names: impl Iterator<Item = String>) -> Vec<u8> {
    file(&[types(&[func_type("x", U32)]), imports(1, 0, names)])
}

/// Measures one go: seconds, and the greatest number of bytes that were taken at a time.
fn measure(what: &str, size: usize, wanted: usize, mut go: impl FnMut() -> usize) {
    heap::begin();
    assert_eq!(go(), wanted, "{what}");
    let peak = heap::end();
    let mut least = f64::INFINITY;
    for _ in 0..3 {
        let start = Instant::now();
        black_box(go());
        least = least.min(start.elapsed().as_secs_f64());
    }
    let (a_byte, memory) = (least * 1e9 / size as f64, peak as f64 / size as f64);
    println!("{what:48} {size:10} {:10.1} {a_byte:8.1} {memory:8.1}", least * 1e3);
}

fn of_file(what: &str, file: &[u8], imports: usize) {
    measure(what, file.len(), imports, || validate(file));
}

fn of_set(what: &str, files: &[Vec<u8>], imports: usize) {
    measure(what, files.iter().map(Vec::len).sum(), imports, || link(files));
}

pub fn run() {
    println!("files and sets of strangers: decode and validate, and for sets link");
    println!("{:48} {:>10} {:>10} {:>8} {:>8}", "", "bytes", "ms", "ns/byte", "memory/byte");
    for count in [20_000, 80_000, 1_900_000] {
        of_file(&format!("{count} imports of one function"), &many_imports(count), count);
    }
    for count in [25_000, 100_000] {
        let crafted = named_imports(crafted_names(count, announced(count)));
        of_file(&format!("{count} imports with crafted names"), &crafted, count);
        let benign = named_imports(plain_names(count));
        of_file(&format!("{count} imports with other names as long"), &benign, count);
        let crafted = inline_exports(crafted_names(count, PLACES));
        let plain = inline_exports(plain_names(count));
        of_file(&format!("{count} inline exports with crafted names"), &crafted, 1);
        of_file(&format!("{count} inline exports with other names"), &plain, 1);
        let crafted = core_exports(crafted_names(count, PLACES));
        let plain = core_exports(plain_names(count));
        of_file(&format!("{count} core exports with crafted names"), &crafted, 0);
        of_file(&format!("{count} core exports with other names"), &plain, 0);
        let crafted = named_pair(crafted_names(count, announced(count)));
        let plain = named_pair(plain_names(count));
        of_set(&format!("{count} crafted names, linked"), &crafted, count);
        of_set(&format!("{count} other names, linked"), &plain, count);
    }
    for count in [1_024, 4_083] {
        of_file(&format!("{count} types, each with 8,191 nodes below it"), &large_types(count), 0);
    }
    for (items, count) in [(2_000, 500), (4_000, 1_000)] {
        let what = format!("{count} imports of an instance of {items} functions");
        of_file(&what, &instances(items, count), count);
    }
    for count in [1_000, 4_000] {
        of_set(&format!("16 components of {count} exports, each imported"), &chain(16, count), 15 * count);
    }
    for count in [430_000, 1_700_000] {
        of_set(&format!("{count} exports, one of them imported"), &many_exports(count), 1);
    }
    for (size, count) in [(1_000_000, 87_500), (8_000_000, 700_000)] {
        let what = format!("{count} imports of a type with a label of {size} bytes");
        of_set(&what, &long_label(size, count), count);
    }
    for (size, count) in [(1_000_000, 4_900), (8_000_000, 4_900)] {
        let what = format!("{count} uses of a record with a label of {size} bytes");
        of_set(&what, &label_in_parts(size, count), 1);
    }
    for count in [500, 1_000, 2_000] {
        let what = format!("{count} imports of an instance of {count} resources");
        of_set(&what, &resources(count, count), count);
    }
    for count in [100, 500] {
        of_set(&format!("16 components, {count} versions each"), &versions(16, count), 15 * count);
    }
}
