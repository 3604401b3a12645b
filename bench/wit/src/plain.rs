//! WIT packages as a Rust programmer would read and print them, with no proofs: the same grammar,
//! a tree with names of its own, names that are distinct and that lead somewhere, types that do not
//! lead to themselves. A fault is only that there is one. It looks for no borrow behind a name in a
//! result, takes versions as words, and has no cycles of interfaces.

use crate::words::{comment_length, word_length};
use std::collections::{HashMap, HashSet};

pub struct Path {
    package: Option<(String, String)>,
    interface: String,
    version: Option<String>,
}

pub enum Type {
    Primitive(usize),
    Name(String),
    Borrow(String),
    List(Box<Type>),
    FixedList(Box<Type>, u32),
    Option(Box<Type>),
    Tuple(Vec<Type>),
    Result(Option<Box<Type>>, Option<Box<Type>>),
}

pub struct Func {
    params: Vec<(String, Type)>,
    result: Option<Type>,
}

pub enum Method {
    Constructor(Vec<(String, Type)>),
    Method(String, Func),
    Static(String, Func),
}

pub enum Item {
    Use(Path, Vec<(String, Option<String>)>),
    Alias(String, Type),
    Record(String, Vec<(String, Type)>),
    Variant(String, Vec<(String, Option<Type>)>),
    Enum(String, Vec<String>),
    Flags(String, Vec<String>),
    Resource(String, Vec<Method>),
    Func(String, Func),
}

pub enum Extern {
    Path(Path),
    Func(String, Func),
}

pub enum FileItem {
    Interface(String, Vec<Item>),
    World(String, Vec<(bool, Extern)>),
}

pub struct File {
    namespace: String,
    package: String,
    version: Option<String>,
    pub items: Vec<FileItem>,
}

const PRIMITIVES: [&str; 11] =
    ["bool", "s8", "s16", "s32", "s64", "u8", "u16", "u32", "u64", "char", "string"];

const KEYWORDS: [&str; 38] = [
    "package",
    "interface",
    "world",
    "use",
    "as",
    "type",
    "record",
    "variant",
    "enum",
    "flags",
    "resource",
    "func",
    "static",
    "constructor",
    "import",
    "include",
    "export",
    "list",
    "option",
    "result",
    "tuple",
    "own",
    "borrow",
    "bool",
    "s8",
    "s16",
    "s32",
    "s64",
    "u8",
    "u16",
    "u32",
    "u64",
    "f32",
    "f64",
    "char",
    "string",
    "stream",
    "future",
];

fn is_keyword(word: &str) -> bool {
    KEYWORDS.contains(&word) || word == "async" || word == "from"
}

/// A label: words joined by `-`, each from a letter on, of letters of one case and digits.
fn is_label(text: &str) -> bool {
    text.split('-').all(|word| {
        word.as_bytes().first().is_some_and(u8::is_ascii_alphabetic)
            && (word.bytes().all(|b| b.is_ascii_lowercase() || b.is_ascii_digit())
                || word.bytes().all(|b| b.is_ascii_uppercase() || b.is_ascii_digit()))
    })
}

/// Reads the tokens of a text one after another. `word` is the next one, empty at the end.
struct Reader<'a> {
    text: &'a str,
    at: usize,
    word: &'a str,
}

impl<'a> Reader<'a> {
    /// Passes over the next token.
    fn step(&mut self) -> &'a str {
        let word = self.word;
        let bytes = self.text.as_bytes();
        while self.at < bytes.len() {
            let comment = comment_length(&bytes[self.at..]);
            if comment == 0 && !bytes[self.at].is_ascii_whitespace() {
                break;
            }
            self.at += comment.max(1);
        }
        let length = if self.at < bytes.len() { word_length(&bytes[self.at..]) } else { 0 };
        self.word = self.text.get(self.at..self.at + length).unwrap_or("");
        self.at += length;
        word
    }

    fn eat(&mut self, word: &str) -> bool {
        let is_next = self.word == word;
        if is_next {
            self.step();
        }
        is_next
    }

    fn expect(&mut self, word: &str) -> Option<()> {
        self.eat(word).then_some(())
    }

    fn name(&mut self) -> Option<String> {
        let is_escaped = self.eat("%");
        let word = self.step();
        (is_label(word) && (is_escaped || !is_keyword(word))).then(|| word.to_string())
    }

    /// A version, which stands directly behind the `@` that is the next token.
    fn version(&mut self) -> Option<Option<String>> {
        if self.word != "@" {
            return Some(None);
        }
        let rest = &self.text[self.at..];
        let length = rest
            .bytes()
            .enumerate()
            .take_while(|(at, byte)| {
                let is_dot = *byte == b'.'
                    && rest.as_bytes().get(at + 1).is_some_and(u8::is_ascii_alphanumeric);
                byte.is_ascii_alphanumeric() || *byte == b'+' || *byte == b'-' || is_dot
            })
            .count();
        self.at += length;
        self.step();
        (length > 0).then(|| Some(rest[..length].to_string()))
    }

    /// Items with commas between them, up to a mark.
    fn list<T>(&mut self, end: &str, item: fn(&mut Self) -> Option<T>) -> Option<Vec<T>> {
        let mut items = vec![item(self)?];
        while !self.eat(end) {
            self.expect(",")?;
            if self.eat(end) {
                break;
            }
            items.push(item(self)?);
        }
        Some(items)
    }

    fn path_after(&mut self, first: String) -> Option<Path> {
        if !self.eat(":") {
            return Some(Path { package: None, interface: first, version: None });
        }
        let package = Some((first, self.name()?));
        self.expect("/")?;
        Some(Path { package, interface: self.name()?, version: self.version()? })
    }

    fn ty(&mut self) -> Option<Type> {
        self.ty_at(0)
    }

    fn ty_at(&mut self, depth: u32) -> Option<Type> {
        if depth == 64 {
            return None;
        }
        if let Some(number) = PRIMITIVES.iter().position(|name| *name == self.word) {
            self.step();
            return Some(Type::Primitive(number));
        }
        if self.eat("list") {
            self.expect("<")?;
            let element = Box::new(self.ty_at(depth + 1)?);
            let ty = if self.eat(",") {
                Type::FixedList(element, self.step().parse().ok()?)
            } else {
                Type::List(element)
            };
            self.expect(">")?;
            return Some(ty);
        }
        if self.eat("option") {
            self.expect("<")?;
            let ty = Type::Option(Box::new(self.ty_at(depth + 1)?));
            self.expect(">")?;
            return Some(ty);
        }
        if self.eat("tuple") {
            self.expect("<")?;
            let mut parts = vec![self.ty_at(depth + 1)?];
            while !self.eat(">") {
                self.expect(",")?;
                if self.eat(">") {
                    break;
                }
                parts.push(self.ty_at(depth + 1)?);
            }
            return Some(Type::Tuple(parts));
        }
        if self.eat("result") {
            return self.result(depth);
        }
        if self.eat("borrow") {
            self.expect("<")?;
            let name = self.name()?;
            self.expect(">")?;
            return Some(Type::Borrow(name));
        }
        Some(Type::Name(self.name()?))
    }

    fn result(&mut self, depth: u32) -> Option<Type> {
        if !self.eat("<") {
            return Some(Type::Result(None, None));
        }
        let (mut ok, mut error) = (None, None);
        let is_left_out = self.eat("_");
        if !is_left_out {
            ok = Some(Box::new(self.ty_at(depth + 1)?));
        }
        if is_left_out || self.word == "," {
            self.expect(",")?;
            error = Some(Box::new(self.ty_at(depth + 1)?));
        }
        self.expect(">")?;
        Some(Type::Result(ok, error))
    }

    fn typed(&mut self) -> Option<(String, Type)> {
        let name = self.name()?;
        self.expect(":")?;
        Some((name, self.ty()?))
    }

    fn params(&mut self) -> Option<Vec<(String, Type)>> {
        self.expect("(")?;
        if self.eat(")") {
            return Some(Vec::new());
        }
        self.list(")", Self::typed)
    }

    fn func(&mut self) -> Option<Func> {
        self.expect("func")?;
        let params = self.params()?;
        let result = if self.eat("->") { Some(self.ty()?) } else { None };
        self.expect(";")?;
        Some(Func { params, result })
    }

    fn case(&mut self) -> Option<(String, Option<Type>)> {
        let name = self.name()?;
        if !self.eat("(") {
            return Some((name, None));
        }
        let ty = self.ty()?;
        self.expect(")")?;
        Some((name, Some(ty)))
    }

    fn used(&mut self) -> Option<(String, Option<String>)> {
        let name = self.name()?;
        let new = if self.eat("as") { Some(self.name()?) } else { None };
        Some((name, new))
    }

    fn methods(&mut self) -> Option<Vec<Method>> {
        let mut methods = Vec::new();
        if self.eat(";") {
            return Some(methods);
        }
        self.expect("{")?;
        while !self.eat("}") {
            if self.eat("constructor") {
                methods.push(Method::Constructor(self.params()?));
                self.expect(";")?;
                continue;
            }
            let name = self.name()?;
            self.expect(":")?;
            if self.eat("static") {
                methods.push(Method::Static(name, self.func()?));
            } else {
                methods.push(Method::Method(name, self.func()?));
            }
        }
        Some(methods)
    }

    fn head(&mut self) -> Option<String> {
        let name = self.name()?;
        self.expect("{")?;
        Some(name)
    }

    fn item(&mut self) -> Option<Item> {
        match self.word {
            "use" => {
                self.step();
                let first = self.name()?;
                let path = self.path_after(first)?;
                self.expect(".")?;
                self.expect("{")?;
                let names = self.list("}", Self::used)?;
                self.expect(";")?;
                Some(Item::Use(path, names))
            }
            "type" => {
                self.step();
                let name = self.name()?;
                self.expect("=")?;
                let ty = self.ty()?;
                self.expect(";")?;
                Some(Item::Alias(name, ty))
            }
            "record" => {
                self.step();
                Some(Item::Record(self.head()?, self.list("}", Self::typed)?))
            }
            "variant" => {
                self.step();
                Some(Item::Variant(self.head()?, self.list("}", Self::case)?))
            }
            "enum" => {
                self.step();
                Some(Item::Enum(self.head()?, self.list("}", Self::name)?))
            }
            "flags" => {
                self.step();
                let name = self.head()?;
                let flags = self.list("}", Self::name)?;
                (flags.len() <= 32).then_some(Item::Flags(name, flags))
            }
            "resource" => {
                self.step();
                Some(Item::Resource(self.name()?, self.methods()?))
            }
            _ => {
                let name = self.name()?;
                self.expect(":")?;
                Some(Item::Func(name, self.func()?))
            }
        }
    }

    fn world_item(&mut self) -> Option<(bool, Extern)> {
        let is_import = self.eat("import");
        if !is_import {
            self.expect("export")?;
        }
        let name = self.name()?;
        if self.word == ":" {
            // a function's name and a namespace both stand before `:`
            let (at, word) = (self.at, self.word);
            self.step();
            if self.word == "func" {
                return Some((is_import, Extern::Func(name, self.func()?)));
            }
            (self.at, self.word) = (at, word);
        }
        let path = self.path_after(name)?;
        self.expect(";")?;
        Some((is_import, Extern::Path(path)))
    }

    fn file_item(&mut self) -> Option<FileItem> {
        if self.eat("interface") {
            let name = self.head()?;
            let mut items = Vec::new();
            while !self.eat("}") {
                items.push(self.item()?);
            }
            return Some(FileItem::Interface(name, items));
        }
        self.expect("world")?;
        let name = self.head()?;
        let mut items = Vec::new();
        while !self.eat("}") {
            items.push(self.world_item()?);
        }
        Some(FileItem::World(name, items))
    }

    fn file(&mut self) -> Option<File> {
        self.step();
        self.expect("package")?;
        let namespace = self.name()?;
        self.expect(":")?;
        let (package, version) = (self.name()?, self.version()?);
        self.expect(";")?;
        let mut items = Vec::new();
        while !self.word.is_empty() {
            items.push(self.file_item()?);
        }
        Some(File { namespace, package, version, items })
    }
}

/// Whether names are distinct, ASCII case aside.
fn are_distinct<'a>(names: impl Iterator<Item = &'a String>) -> bool {
    let mut seen = HashSet::new();
    names.into_iter().all(|name| seen.insert(name.to_ascii_lowercase()))
}

/// What a name of an interface is.
#[derive(Clone, Copy, PartialEq)]
enum Kind {
    Type,
    Resource,
    Func,
}

/// The names of an interface, each with what it is and the number of its item; none where two are
/// the same.
fn scope(items: &[Item]) -> Option<HashMap<&str, (Kind, usize)>> {
    let mut scope = HashMap::new();
    let mut folded = HashSet::new();
    for (number, item) in items.iter().enumerate() {
        let mut add = |name: &'_ String, kind: Kind| {
            let is_new = folded.insert(name.to_ascii_lowercase());
            is_new.then_some((kind, number))
        };
        match item {
            Item::Use(_, names) => {
                for (name, new) in names {
                    let name = new.as_ref().unwrap_or(name);
                    scope.insert(name.as_str(), add(name, Kind::Resource)?);
                }
            }
            Item::Resource(name, _) => {
                scope.insert(name.as_str(), add(name, Kind::Resource)?);
            }
            Item::Func(name, _) => {
                scope.insert(name.as_str(), add(name, Kind::Func)?);
            }
            Item::Alias(name, _)
            | Item::Record(name, _)
            | Item::Variant(name, _)
            | Item::Enum(name, _)
            | Item::Flags(name, _) => {
                scope.insert(name.as_str(), add(name, Kind::Type)?);
            }
        }
    }
    Some(scope)
}

/// Looks up the names of types, and keeps the numbers of the items that they lead to.
struct Checker<'a> {
    scope: HashMap<&'a str, (Kind, usize)>,
    uses: Vec<usize>,
}

impl Checker<'_> {
    fn ty(&mut self, ty: &Type) -> Option<()> {
        match ty {
            Type::Primitive(_) => Some(()),
            Type::Name(name) => {
                let (kind, number) = *self.scope.get(name.as_str())?;
                if kind == Kind::Type {
                    self.uses.push(number);
                }
                (kind != Kind::Func).then_some(())
            }
            Type::Borrow(name) => {
                (self.scope.get(name.as_str())?.0 == Kind::Resource).then_some(())
            }
            Type::List(ty) | Type::FixedList(ty, _) | Type::Option(ty) => self.ty(ty),
            Type::Tuple(parts) => parts.iter().try_for_each(|ty| self.ty(ty)),
            Type::Result(ok, error) => ok.iter().chain(error).try_for_each(|ty| self.ty(ty)),
        }
    }

    fn func(&mut self, params: &[(String, Type)], result: Option<&Type>) -> Option<()> {
        if !are_distinct(params.iter().map(|(name, _)| name)) {
            return None;
        }
        params.iter().map(|(_, ty)| ty).chain(result).try_for_each(|ty| self.ty(ty))
    }

    fn methods(&mut self, methods: &[Method]) -> Option<()> {
        let constructors = methods.iter().filter(|m| matches!(m, Method::Constructor(_))).count();
        let names = methods.iter().filter_map(|method| match method {
            Method::Constructor(_) => None,
            Method::Method(name, _) | Method::Static(name, _) => Some(name),
        });
        if constructors > 1 || !are_distinct(names) {
            return None;
        }
        methods.iter().try_for_each(|method| match method {
            Method::Constructor(params) => self.func(params, None),
            Method::Method(_, func) | Method::Static(_, func) => {
                self.func(&func.params, func.result.as_ref())
            }
        })
    }

    /// Checks an item, and tells what its type leads to.
    fn item(&mut self, item: &Item) -> Option<Vec<usize>> {
        self.uses.clear();
        let are_good = match item {
            Item::Use(..) => true,
            Item::Alias(_, ty) => self.ty(ty).is_some(),
            Item::Record(_, fields) => self.func(fields, None).is_some(),
            Item::Variant(_, cases) => {
                are_distinct(cases.iter().map(|(name, _)| name))
                    && cases
                        .iter()
                        .filter_map(|(_, ty)| ty.as_ref())
                        .all(|ty| self.ty(ty).is_some())
            }
            Item::Enum(_, names) | Item::Flags(_, names) => are_distinct(names.iter()),
            Item::Resource(_, methods) => {
                self.methods(methods)?;
                self.uses.clear();
                true
            }
            Item::Func(_, func) => {
                self.func(&func.params, func.result.as_ref())?;
                self.uses.clear();
                true
            }
        };
        are_good.then(|| std::mem::take(&mut self.uses))
    }
}

/// Whether no node leads to itself: nodes that nothing waits for are taken away one after another.
fn is_acyclic(uses: &[Vec<usize>]) -> bool {
    let mut waiting = vec![0usize; uses.len()];
    uses.iter().flatten().for_each(|to| waiting[*to] += 1);
    let mut free: Vec<usize> = (0..uses.len()).filter(|at| waiting[*at] == 0).collect();
    let mut taken = 0;
    while let Some(at) = free.pop() {
        taken += 1;
        for to in &uses[at] {
            waiting[*to] -= 1;
            if waiting[*to] == 0 {
                free.push(*to);
            }
        }
    }
    taken == uses.len()
}

fn check(file: &File) -> Option<()> {
    let names = file.items.iter().map(|item| match item {
        FileItem::Interface(name, _) | FileItem::World(name, _) => name,
    });
    if !are_distinct(names) {
        return None;
    }
    let mut scopes = HashMap::new();
    for item in &file.items {
        if let FileItem::Interface(name, items) = item {
            scopes.insert(name.as_str(), scope(items)?);
        }
    }
    for item in &file.items {
        match item {
            FileItem::Interface(name, items) => {
                for item in items {
                    if let Item::Use(Path { package: None, interface, .. }, names) = item {
                        let used = scopes.get(interface.as_str())?;
                        if !names.iter().all(|(name, _)| used.contains_key(name.as_str())) {
                            return None;
                        }
                    }
                }
                let scope = scopes.get(name.as_str())?.clone();
                let mut checker = Checker { scope, uses: Vec::new() };
                let uses: Option<Vec<_>> = items.iter().map(|item| checker.item(item)).collect();
                if !is_acyclic(&uses?) {
                    return None;
                }
            }
            FileItem::World(_, items) => {
                for (_, what) in items {
                    if let Extern::Path(Path { package: None, interface, .. }) = what {
                        scopes.get(interface.as_str())?;
                    }
                }
            }
        }
    }
    Some(())
}

pub fn parse(text: &str) -> Option<File> {
    let file = Reader { text, at: 0, word: "" }.file()?;
    check(&file)?;
    Some(file)
}

fn add_name(out: &mut String, name: &str) {
    if is_keyword(name) {
        out.push('%');
    }
    out.push_str(name);
}

fn add_version(out: &mut String, version: &Option<String>) {
    if let Some(version) = version {
        out.push('@');
        out.push_str(version);
    }
}

fn add_path(out: &mut String, path: &Path) {
    if let Some((namespace, package)) = &path.package {
        add_name(out, namespace);
        out.push(':');
        add_name(out, package);
        out.push('/');
    }
    add_name(out, &path.interface);
    add_version(out, &path.version);
}

fn add_all<T>(out: &mut String, items: &[T], add: fn(&mut String, &T)) {
    for (at, item) in items.iter().enumerate() {
        if at > 0 {
            out.push_str(", ");
        }
        add(out, item);
    }
}

fn add_type(out: &mut String, ty: &Type) {
    match ty {
        Type::Primitive(number) => out.push_str(PRIMITIVES[*number]),
        Type::Name(name) => add_name(out, name),
        Type::Borrow(name) => {
            out.push_str("borrow<");
            add_name(out, name);
            out.push('>');
        }
        Type::List(ty) => {
            out.push_str("list<");
            add_type(out, ty);
            out.push('>');
        }
        Type::FixedList(ty, length) => {
            out.push_str("list<");
            add_type(out, ty);
            out.push_str(&format!(", {length}>"));
        }
        Type::Option(ty) => {
            out.push_str("option<");
            add_type(out, ty);
            out.push('>');
        }
        Type::Tuple(parts) => {
            out.push_str("tuple<");
            add_all(out, parts, add_type);
            out.push('>');
        }
        Type::Result(None, None) => out.push_str("result"),
        Type::Result(ok, error) => {
            out.push_str("result<");
            match ok {
                Some(ty) => add_type(out, ty),
                None => out.push('_'),
            }
            if let Some(ty) = error {
                out.push_str(", ");
                add_type(out, ty);
            }
            out.push('>');
        }
    }
}

fn add_typed(out: &mut String, (name, ty): &(String, Type)) {
    add_name(out, name);
    out.push_str(": ");
    add_type(out, ty);
}

fn add_func(out: &mut String, func: &Func) {
    out.push_str("func(");
    add_all(out, &func.params, add_typed);
    out.push(')');
    if let Some(ty) = &func.result {
        out.push_str(" -> ");
        add_type(out, ty);
    }
    out.push_str(";\n");
}

fn add_method(out: &mut String, method: &Method) {
    out.push_str("    ");
    match method {
        Method::Constructor(params) => {
            out.push_str("constructor(");
            add_all(out, params, add_typed);
            out.push_str(");\n");
        }
        Method::Method(name, func) => {
            add_name(out, name);
            out.push_str(": ");
            add_func(out, func);
        }
        Method::Static(name, func) => {
            add_name(out, name);
            out.push_str(": static ");
            add_func(out, func);
        }
    }
}

fn add_body<T>(out: &mut String, kind: &str, name: &str, items: &[T], add: fn(&mut String, &T)) {
    out.push_str(kind);
    add_name(out, name);
    out.push_str(" { ");
    add_all(out, items, add);
    out.push_str(" }\n");
}

fn add_item(out: &mut String, item: &Item) {
    out.push_str("  ");
    match item {
        Item::Use(path, names) => {
            out.push_str("use ");
            add_path(out, path);
            out.push_str(".{");
            add_all(out, names, |out, (name, new)| {
                add_name(out, name);
                if let Some(new) = new {
                    out.push_str(" as ");
                    add_name(out, new);
                }
            });
            out.push_str("};\n");
        }
        Item::Alias(name, ty) => {
            out.push_str("type ");
            add_name(out, name);
            out.push_str(" = ");
            add_type(out, ty);
            out.push_str(";\n");
        }
        Item::Record(name, fields) => add_body(out, "record ", name, fields, add_typed),
        Item::Variant(name, cases) => {
            add_body(out, "variant ", name, cases, |out, (name, ty)| {
                add_name(out, name);
                if let Some(ty) = ty {
                    out.push('(');
                    add_type(out, ty);
                    out.push(')');
                }
            });
        }
        Item::Enum(name, names) => add_body(out, "enum ", name, names, |out, n| add_name(out, n)),
        Item::Flags(name, names) => add_body(out, "flags ", name, names, |out, n| add_name(out, n)),
        Item::Resource(name, methods) => {
            out.push_str("resource ");
            add_name(out, name);
            if methods.is_empty() {
                out.push_str(";\n");
                return;
            }
            out.push_str(" {\n");
            methods.iter().for_each(|method| add_method(out, method));
            out.push_str("  }\n");
        }
        Item::Func(name, func) => {
            add_name(out, name);
            out.push_str(": ");
            add_func(out, func);
        }
    }
}

fn add_world_item(out: &mut String, (is_import, what): &(bool, Extern)) {
    out.push_str(if *is_import { "  import " } else { "  export " });
    match what {
        Extern::Path(path) => {
            add_path(out, path);
            out.push_str(";\n");
        }
        Extern::Func(name, func) => {
            add_name(out, name);
            out.push_str(": ");
            add_func(out, func);
        }
    }
}

pub fn print(file: &File) -> String {
    let mut out = String::from("package ");
    add_name(&mut out, &file.namespace);
    out.push(':');
    add_name(&mut out, &file.package);
    add_version(&mut out, &file.version);
    out.push_str(";\n");
    for item in &file.items {
        match item {
            FileItem::Interface(name, items) => {
                out.push_str("interface ");
                add_name(&mut out, name);
                out.push_str(" {\n");
                items.iter().for_each(|item| add_item(&mut out, item));
            }
            FileItem::World(name, items) => {
                out.push_str("world ");
                add_name(&mut out, name);
                out.push_str(" {\n");
                items.iter().for_each(|item| add_world_item(&mut out, item));
            }
        }
        out.push_str("}\n");
    }
    out
}
