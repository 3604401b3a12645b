//! Files of components, of about a size that is asked for.

const COMPONENT: [u8; 8] = [0x00, 0x61, 0x73, 0x6D, 0x0D, 0x00, 0x01, 0x00];
const MODULE: [u8; 8] = [0x00, 0x61, 0x73, 0x6D, 0x01, 0x00, 0x00, 0x00];

/// The most bytes of a file.
pub const LARGEST: usize = 16_777_216;

pub fn number(mut of: usize) -> Vec<u8> {
    let mut out = Vec::new();
    while of >= 0x80 {
        out.push(of as u8 | 0x80);
        of >>= 7;
    }
    out.push(of as u8);
    out
}

pub fn text(of: &str) -> Vec<u8> {
    [number(of.len()), of.as_bytes().to_vec()].concat()
}

pub fn section(code: u8, contents: &[u8]) -> Vec<u8> {
    [vec![code], number(contents.len()), contents.to_vec()].concat()
}

pub fn list(items: &[Vec<u8>]) -> Vec<u8> {
    [number(items.len()), items.concat()].concat()
}

pub fn file(sections: &[Vec<u8>]) -> Vec<u8> {
    [COMPONENT.to_vec(), sections.concat()].concat()
}

/// A function type of so many parameters, whose labels have a size.
fn func_type(params: usize, size: usize) -> Vec<u8> {
    let params: Vec<Vec<u8>> = (0..params)
        .map(|at| {
            let mut label = format!("p{at}");
            while label.len() + 6 <= size {
                label.push_str("-label");
            }
            [text(&label), vec![0x79]].concat()
        })
        .collect();
    [vec![0x40], list(&params), vec![0x00, 0x79]].concat()
}

/// Types with labels: as many types of 8 parameters as there may be, with labels as long as the
/// size wants.
pub fn types(size: usize) -> Vec<u8> {
    let count = (size / 144).clamp(1, 4_000);
    let one = func_type(8, (size / count / 8).max(16) - 3);
    file(&[section(7, &list(&vec![one; count]))])
}

/// The same, refused at its last byte, the type of the last result.
pub fn refused(size: usize) -> Vec<u8> {
    let mut file = types(size);
    if let Some(last) = file.last_mut() {
        *last = 0x40;
    }
    file
}

/// Functions lifted with options: a text's encoding, a memory, a realloc and a post-return.
pub fn lifts(size: usize) -> Vec<u8> {
    let options = list(&[vec![0x00], vec![0x03, 0x00], vec![0x04, 0x00], vec![0x05, 0x00]]);
    let lifts: Vec<Vec<u8>> = (0..size / 15)
        .map(|at| [vec![0x00, 0x00], number(at % 1_000), options.clone(), vec![0x00]].concat())
        .collect();
    file(&[section(8, &list(&lifts))])
}

fn inc_type() -> Vec<u8> {
    section(7, &list(&[func_type(1, 2)]))
}

fn name(at: usize) -> String {
    format!("func-f{at}")
}

fn imports(count: usize) -> Vec<u8> {
    let items: Vec<Vec<u8>> =
        (0..count).map(|at| [vec![0x00], text(&name(at)), vec![0x01, 0x00]].concat()).collect();
    section(10, &list(&items))
}

/// Imports of functions of one type.
pub fn importer(size: usize) -> Vec<u8> {
    file(&[inc_type(), imports(size / 17)])
}

/// One core module.
pub fn module(size: usize) -> Vec<u8> {
    file(&[section(1, &[MODULE.to_vec(), vec![0xA5; size - 32]].concat())])
}

/// One custom section.
pub fn custom(size: usize) -> Vec<u8> {
    file(&[section(0, &[text("notes"), vec![0xA5; size - 32]].concat())])
}

/// A component that exports so many functions, which are one lifted function, and one that imports
/// and lowers them all.
pub fn pair(count: usize) -> [Vec<u8>; 2] {
    let exports: Vec<Vec<u8>> = (0..count)
        .map(|at| [vec![0x00], text(&name(at)), vec![0x01, 0x00, 0x00]].concat())
        .collect();
    let lowers: Vec<Vec<u8>> =
        (0..count).map(|at| [vec![0x01, 0x00], number(at), vec![0x00]].concat()).collect();
    let provider = file(&[
        section(1, &MODULE),
        section(2, &list(&[vec![0x00, 0x00, 0x00]])),
        section(6, &list(&[[vec![0x00, 0x00, 0x01, 0x00], text("f")].concat()])),
        inc_type(),
        section(8, &list(&[vec![0x00, 0x00, 0x00, 0x00, 0x00]])),
        section(11, &list(&exports)),
    ]);
    [provider, file(&[inc_type(), imports(count), section(8, &list(&lowers))])]
}
