//! Component files as a Rust programmer would read, write, check and link them: the forms that
//! Huxarte carries, by the same rules, with no proofs. A fault is only that there is one; names
//! with versions are left out.

use std::collections::{HashMap, HashSet};
use std::rc::Rc;

const COMPONENT: [u8; 8] = [0x00, 0x61, 0x73, 0x6D, 0x0D, 0x00, 0x01, 0x00];
const MODULE: [u8; 8] = [0x00, 0x61, 0x73, 0x6D, 0x01, 0x00, 0x00, 0x00];
const MOST_TYPES: usize = 4_096;
const MOST_BYTES: usize = 16_777_216;
const MOST_PARAMS: usize = 16;

#[derive(Clone, Copy, PartialEq, Eq)]
pub enum ValType {
    U32,
}

pub struct Param {
    pub label: String,
    pub ty: ValType,
}

pub struct FuncType {
    pub params: Vec<Param>,
    pub result: Option<ValType>,
}

pub enum CanonOption {
    Utf8,
    Utf16,
    Latin1Utf16,
    Memory(u32),
    Realloc(u32),
    PostReturn(u32),
}

pub enum Canon {
    Lift { core_func: u32, options: Vec<CanonOption>, ty: u32 },
    Lower { func: u32, options: Vec<CanonOption> },
}

pub struct Import {
    pub name: String,
    pub ty: u32,
}

pub struct Export {
    pub name: String,
    pub func: u32,
}

pub enum Section {
    Custom { name: String, bytes: Vec<u8> },
    CoreModule(Vec<u8>),
    CoreInstances(Vec<(u32, Vec<(String, u32)>)>),
    Aliases(Vec<(u32, String)>),
    Types(Vec<FuncType>),
    Canons(Vec<Canon>),
    Imports(Vec<Import>),
    Exports(Vec<Export>),
}

struct Reader<'a> {
    rest: &'a [u8],
}

impl<'a> Reader<'a> {
    fn byte(&mut self) -> Option<u8> {
        let (first, rest) = self.rest.split_first()?;
        self.rest = rest;
        Some(*first)
    }

    fn fixed(&mut self, byte: u8) -> Option<()> {
        (self.byte()? == byte).then_some(())
    }

    fn number(&mut self) -> Option<u32> {
        let mut number = 0u32;
        for at in 0..5 {
            let byte = self.byte()?;
            if at == 4 && byte > 0x0F {
                return None;
            }
            number |= u32::from(byte & 0x7F) << (7 * at);
            if byte < 0x80 {
                return Some(number);
            }
        }
        None
    }

    fn bytes(&mut self, count: usize) -> Option<&'a [u8]> {
        let (front, rest) = self.rest.split_at_checked(count)?;
        self.rest = rest;
        Some(front)
    }

    fn text(&mut self) -> Option<&'a str> {
        let size = self.number()? as usize;
        std::str::from_utf8(self.bytes(size)?).ok()
    }

    fn extern_name(&mut self) -> Option<String> {
        self.fixed(0x00)?;
        let text = self.text()?;
        is_extern_name(text).then(|| text.to_string())
    }

    fn vec<T>(&mut self, mut item: impl FnMut(&mut Self) -> Option<T>) -> Option<Vec<T>> {
        let count = self.number()?;
        (0..count).map(|_| item(self)).collect()
    }
}

fn is_fragment(text: &str) -> bool {
    match text.as_bytes() {
        [b'a'..=b'z', rest @ ..] => {
            rest.iter().all(|b| b.is_ascii_lowercase() || b.is_ascii_digit())
        }
        [b'A'..=b'Z', rest @ ..] => {
            rest.iter().all(|b| b.is_ascii_uppercase() || b.is_ascii_digit())
        }
        _ => false,
    }
}

fn is_label(text: &str) -> bool {
    text.split('-').all(is_fragment)
}

fn is_extern_name(text: &str) -> bool {
    if let Some(rest) = text.strip_prefix("[method]").or_else(|| text.strip_prefix("[static]")) {
        return rest.split_once('.').is_some_and(|(a, b)| is_label(a) && is_label(b));
    }
    if let Some(rest) = text.strip_prefix("[constructor]") {
        return is_label(rest);
    }
    if text.bytes().any(|b| matches!(b, b':' | b'/' | b'@')) {
        let parts = text.split_once(':').and_then(|(a, rest)| Some((a, rest.split_once('/')?)));
        return parts.is_some_and(|(a, (b, c))| is_label(a) && is_label(b) && is_label(c));
    }
    is_label(text)
}

fn val_type(reader: &mut Reader) -> Option<ValType> {
    reader.fixed(0x79)?;
    Some(ValType::U32)
}

fn func_type(reader: &mut Reader) -> Option<FuncType> {
    reader.fixed(0x40)?;
    let params = reader.vec(|r| {
        let label = r.text()?;
        if !is_label(label) {
            return None;
        }
        Some(Param { label: label.to_string(), ty: val_type(r)? })
    })?;
    let result = match reader.byte()? {
        0x00 => Some(val_type(reader)?),
        0x01 => {
            reader.fixed(0x00)?;
            None
        }
        _ => return None,
    };
    Some(FuncType { params, result })
}

fn core_instance(reader: &mut Reader) -> Option<(u32, Vec<(String, u32)>)> {
    reader.fixed(0x00)?;
    let module = reader.number()?;
    let args = reader.vec(|r| {
        let name = r.text()?.to_string();
        r.fixed(0x12)?;
        Some((name, r.number()?))
    })?;
    Some((module, args))
}

fn alias(reader: &mut Reader) -> Option<(u32, String)> {
    reader.fixed(0x00)?;
    reader.fixed(0x00)?;
    reader.fixed(0x01)?;
    Some((reader.number()?, reader.text()?.to_string()))
}

fn canon_option(reader: &mut Reader) -> Option<CanonOption> {
    match reader.byte()? {
        0x00 => Some(CanonOption::Utf8),
        0x01 => Some(CanonOption::Utf16),
        0x02 => Some(CanonOption::Latin1Utf16),
        0x03 => Some(CanonOption::Memory(reader.number()?)),
        0x04 => Some(CanonOption::Realloc(reader.number()?)),
        0x05 => Some(CanonOption::PostReturn(reader.number()?)),
        _ => None,
    }
}

fn canon(reader: &mut Reader) -> Option<Canon> {
    let form = reader.byte()?;
    reader.fixed(0x00)?;
    match form {
        0x00 => {
            let core_func = reader.number()?;
            let options = reader.vec(canon_option)?;
            Some(Canon::Lift { core_func, options, ty: reader.number()? })
        }
        0x01 => Some(Canon::Lower { func: reader.number()?, options: reader.vec(canon_option)? }),
        _ => None,
    }
}

fn import(reader: &mut Reader) -> Option<Import> {
    let name = reader.extern_name()?;
    reader.fixed(0x01)?;
    Some(Import { name, ty: reader.number()? })
}

fn export(reader: &mut Reader) -> Option<Export> {
    let name = reader.extern_name()?;
    reader.fixed(0x01)?;
    let func = reader.number()?;
    reader.fixed(0x00)?;
    Some(Export { name, func })
}

fn section(reader: &mut Reader) -> Option<Section> {
    let code = reader.byte()?;
    let size = reader.number()? as usize;
    let mut part = Reader { rest: reader.bytes(size)? };
    let section = match code {
        0 => {
            let name = part.text()?.to_string();
            let bytes = part.bytes(part.rest.len())?.to_vec();
            Section::Custom { name, bytes }
        }
        1 if part.rest.starts_with(&MODULE) => {
            Section::CoreModule(part.bytes(part.rest.len())?.to_vec())
        }
        2 => Section::CoreInstances(part.vec(core_instance)?),
        6 => Section::Aliases(part.vec(alias)?),
        7 => Section::Types(part.vec(func_type)?),
        8 => Section::Canons(part.vec(canon)?),
        10 => Section::Imports(part.vec(import)?),
        11 => Section::Exports(part.vec(export)?),
        _ => return None,
    };
    part.rest.is_empty().then_some(section)
}

pub fn decode(bytes: &[u8]) -> Option<Vec<Section>> {
    if bytes.len() > MOST_BYTES {
        return None;
    }
    let mut reader = Reader { rest: bytes.strip_prefix(&COMPONENT)? };
    let mut sections = Vec::new();
    let mut types = 0;
    while !reader.rest.is_empty() {
        let section = section(&mut reader)?;
        if let Section::Types(list) = &section {
            types += list.len();
        }
        sections.push(section);
    }
    (types <= MOST_TYPES).then_some(sections)
}

fn put_number(out: &mut Vec<u8>, mut number: u32) {
    while number >= 0x80 {
        out.push(number as u8 | 0x80);
        number >>= 7;
    }
    out.push(number as u8);
}

fn put_text(out: &mut Vec<u8>, text: &str) {
    put_number(out, text.len() as u32);
    out.extend_from_slice(text.as_bytes());
}

fn put_vec<T>(out: &mut Vec<u8>, items: &[T], put: impl Fn(&mut Vec<u8>, &T)) {
    put_number(out, items.len() as u32);
    for item in items {
        put(out, item);
    }
}

fn put_func_type(out: &mut Vec<u8>, ty: &FuncType) {
    out.push(0x40);
    put_vec(out, &ty.params, |out, param| {
        put_text(out, &param.label);
        out.push(0x79);
    });
    out.extend_from_slice(if ty.result.is_some() { &[0x00, 0x79] } else { &[0x01, 0x00] });
}

fn put_canon_option(out: &mut Vec<u8>, option: &CanonOption) {
    let (code, index) = match option {
        CanonOption::Utf8 => (0x00, None),
        CanonOption::Utf16 => (0x01, None),
        CanonOption::Latin1Utf16 => (0x02, None),
        CanonOption::Memory(index) => (0x03, Some(*index)),
        CanonOption::Realloc(index) => (0x04, Some(*index)),
        CanonOption::PostReturn(index) => (0x05, Some(*index)),
    };
    out.push(code);
    if let Some(index) = index {
        put_number(out, index);
    }
}

fn put_canon(out: &mut Vec<u8>, canon: &Canon) {
    match canon {
        Canon::Lift { core_func, options, ty } => {
            out.extend_from_slice(&[0x00, 0x00]);
            put_number(out, *core_func);
            put_vec(out, options, put_canon_option);
            put_number(out, *ty);
        }
        Canon::Lower { func, options } => {
            out.extend_from_slice(&[0x01, 0x00]);
            put_number(out, *func);
            put_vec(out, options, put_canon_option);
        }
    }
}

/// Writes a section's contents, and answers its code.
fn put_contents(out: &mut Vec<u8>, section: &Section) -> u8 {
    match section {
        Section::Custom { name, bytes } => {
            put_text(out, name);
            out.extend_from_slice(bytes);
            0
        }
        Section::CoreModule(bytes) => {
            out.extend_from_slice(bytes);
            1
        }
        Section::CoreInstances(items) => {
            put_vec(out, items, |out, (module, args)| {
                out.push(0x00);
                put_number(out, *module);
                put_vec(out, args, |out, (name, instance)| {
                    put_text(out, name);
                    out.push(0x12);
                    put_number(out, *instance);
                });
            });
            2
        }
        Section::Aliases(items) => {
            put_vec(out, items, |out, (instance, name)| {
                out.extend_from_slice(&[0x00, 0x00, 0x01]);
                put_number(out, *instance);
                put_text(out, name);
            });
            6
        }
        Section::Types(items) => {
            put_vec(out, items, put_func_type);
            7
        }
        Section::Canons(items) => {
            put_vec(out, items, put_canon);
            8
        }
        Section::Imports(items) => {
            put_vec(out, items, |out, import| {
                out.push(0x00);
                put_text(out, &import.name);
                out.push(0x01);
                put_number(out, import.ty);
            });
            10
        }
        Section::Exports(items) => {
            put_vec(out, items, |out, export| {
                out.push(0x00);
                put_text(out, &export.name);
                out.push(0x01);
                put_number(out, export.func);
                out.push(0x00);
            });
            11
        }
    }
}

pub fn encode(sections: &[Section]) -> Vec<u8> {
    let mut out = COMPONENT.to_vec();
    let mut contents = Vec::new();
    for section in sections {
        contents.clear();
        out.push(put_contents(&mut contents, section));
        put_number(&mut out, contents.len() as u32);
        out.extend_from_slice(&contents);
    }
    out
}

/// A function type with its indices expanded.
#[derive(PartialEq, Eq)]
pub struct Func {
    pub params: Vec<(String, ValType)>,
    pub result: Option<ValType>,
}

#[allow(dead_code)]
pub enum CoreFunc {
    Guest { instance: u32, name: String },
    Lowered { import: u32, ty: Rc<Func> },
}

#[derive(Clone)]
pub enum FuncDef {
    Lifted { core_func: u32, ty: Rc<Func> },
    Imported { import: u32, ty: Rc<Func> },
}

impl FuncDef {
    fn ty(&self) -> &Rc<Func> {
        match self {
            FuncDef::Lifted { ty, .. } | FuncDef::Imported { ty, .. } => ty,
        }
    }
}

/// Names with what they stand for, in order, of which no two are the same without case.
struct Names<T> {
    list: Vec<(String, T)>,
    seen: HashSet<String>,
}

impl<T> Names<T> {
    fn new() -> Self {
        Names { list: Vec::new(), seen: HashSet::new() }
    }

    fn add(&mut self, name: &str, of: T) -> Option<()> {
        if !is_label(name) || !self.seen.insert(name.to_ascii_lowercase()) {
            return None;
        }
        self.list.push((name.to_string(), of));
        Some(())
    }
}

#[allow(dead_code)]
pub struct Checked {
    pub sections: Vec<Section>,
    pub core_funcs: Vec<CoreFunc>,
    pub funcs: Vec<FuncDef>,
    pub imports: Vec<(String, Rc<Func>)>,
    pub exports: Vec<(String, (u32, Rc<Func>))>,
}

fn are_distinct<'a>(names: impl Iterator<Item = &'a str>) -> bool {
    let mut seen = HashSet::new();
    names.into_iter().all(|name| seen.insert(name.to_ascii_lowercase()))
}

fn expand(ty: &FuncType) -> Option<Rc<Func>> {
    if !are_distinct(ty.params.iter().map(|param| param.label.as_str())) {
        return None;
    }
    Some(Rc::new(Func {
        params: ty.params.iter().map(|param| (param.label.clone(), param.ty)).collect(),
        result: ty.result,
    }))
}

pub fn validate(sections: Vec<Section>) -> Option<Checked> {
    let (mut modules, mut instances) = (0u32, 0u32);
    let mut types: Vec<Rc<Func>> = Vec::new();
    let (mut core_funcs, mut funcs) = (Vec::new(), Vec::<FuncDef>::new());
    let (mut imports, mut exports) = (Names::new(), Names::new());
    for section in &sections {
        match section {
            Section::Custom { .. } => {}
            Section::CoreModule(_) => modules += 1,
            Section::CoreInstances(items) => {
                for (module, args) in items {
                    let distinct = are_distinct(args.iter().map(|(name, _)| name.as_str()));
                    if *module >= modules
                        || args.iter().any(|(_, at)| *at >= instances)
                        || !distinct
                    {
                        return None;
                    }
                    instances += 1;
                }
            }
            Section::Aliases(items) => {
                for (instance, name) in items {
                    if *instance >= instances {
                        return None;
                    }
                    core_funcs.push(CoreFunc::Guest { instance: *instance, name: name.clone() });
                }
            }
            Section::Types(items) => {
                for ty in items {
                    types.push(expand(ty)?);
                }
            }
            Section::Canons(items) => {
                for canon in items {
                    match canon {
                        Canon::Lift { options, .. } | Canon::Lower { options, .. }
                            if !options.is_empty() =>
                        {
                            return None;
                        }
                        Canon::Lift { core_func, ty, .. } => {
                            let ty = types.get(*ty as usize)?;
                            let core = core_funcs.get(*core_func as usize)?;
                            if ty.params.len() > MOST_PARAMS
                                || !matches!(core, CoreFunc::Guest { .. })
                            {
                                return None;
                            }
                            funcs.push(FuncDef::Lifted { core_func: *core_func, ty: ty.clone() });
                        }
                        Canon::Lower { func, .. } => match funcs.get(*func as usize)? {
                            FuncDef::Imported { import, ty } if ty.params.len() <= MOST_PARAMS => {
                                core_funcs
                                    .push(CoreFunc::Lowered { import: *import, ty: ty.clone() });
                            }
                            _ => return None,
                        },
                    }
                }
            }
            Section::Imports(items) => {
                for item in items {
                    let ty = types.get(item.ty as usize)?.clone();
                    let import = imports.list.len() as u32;
                    imports.add(&item.name, ty.clone())?;
                    funcs.push(FuncDef::Imported { import, ty });
                }
            }
            Section::Exports(items) => {
                for item in items {
                    let func = funcs.get(item.func as usize)?.clone();
                    exports.add(&item.name, (item.func, func.ty().clone()))?;
                    funcs.push(func);
                }
            }
        }
    }
    Some(Checked { sections, core_funcs, funcs, imports: imports.list, exports: exports.list })
}

/// A line of a plan: which export serves an import, and the lifted function that it reaches.
#[allow(dead_code)]
pub struct Line {
    pub importer: usize,
    pub import: usize,
    pub provider: usize,
    pub export: usize,
    pub reached: Option<(usize, u32)>,
}

#[allow(dead_code)]
pub struct Linked {
    pub components: Vec<Checked>,
    pub plan: Vec<Line>,
}

/// The lifted function that a component's export is, its own or one that it imported.
fn reached(
    components: &[Checked],
    targets: &[Vec<Option<(usize, u32)>>],
    provider: usize,
    export: usize,
) -> Option<(usize, u32)> {
    let component = &components[provider];
    match component.funcs[component.exports[export].1.0 as usize] {
        FuncDef::Lifted { core_func, .. } => Some((provider, core_func)),
        FuncDef::Imported { import, .. } => targets[provider][import as usize],
    }
}

pub fn link(components: Vec<Checked>) -> Option<Linked> {
    if components.is_empty() || components.len() > 16 {
        return None;
    }
    let mut offers: HashMap<&str, (usize, usize, bool)> = HashMap::new();
    let (mut plan, mut targets) = (Vec::new(), Vec::new());
    for (importer, component) in components.iter().enumerate() {
        let mut own = Vec::new();
        for (import, (name, ty)) in component.imports.iter().enumerate() {
            let (provider, export, more) = *offers.get(name.as_str())?;
            if more || components[provider].exports[export].1.1 != *ty {
                return None;
            }
            let reached = reached(&components, &targets, provider, export);
            plan.push(Line { importer, import, provider, export, reached });
            own.push(reached);
        }
        targets.push(own);
        for (export, (name, _)) in component.exports.iter().enumerate() {
            offers
                .entry(name)
                .and_modify(|offer| offer.2 = true)
                .or_insert((importer, export, false));
        }
    }
    Some(Linked { components, plan })
}
