//! What the static library exports, and the functions of the libraries that it calls, read from formatted sources.

use std::fs;
use std::path::{Path, PathBuf};

/// All exported functions, and the records that they take or give, each in the order of its first use.
#[derive(Debug)]
pub struct Border {
    pub records: Vec<Record>,
    pub functions: Vec<Function>,
    /// The functions of the libraries that those call: they have the same names.
    pub called: Vec<Function>,
}

#[derive(Debug, Clone)]
pub struct Record {
    pub comment: Vec<String>,
    pub name: String,
    pub fields: Vec<Variable>,
}

#[derive(Debug, Clone)]
pub struct Function {
    pub comment: Vec<String>,
    pub name: String,
    pub arguments: Vec<Variable>,
    pub result: Option<Type>,
    /// It asks something of its caller.
    pub requires: bool,
    /// Arguments, result and clauses as they are written.
    pub contract: String,
}

#[derive(Debug, Clone)]
pub struct Variable {
    pub comment: Vec<String>,
    pub name: String,
    pub kind: Type,
}

#[derive(Debug, Clone, PartialEq, Eq)]
pub enum Type {
    /// A number, a bool or a record, by its name in Rattle.
    Plain(String),
    Slice {
        of: String,
        written: bool,
    },
    Array {
        of: String,
        length: usize,
        written: bool,
    },
}

impl Border {
    /// Reads the crates in the order of crates.txt. The exported functions have the order of those that they call.
    pub fn read(root: &Path) -> Border {
        let list = fs::read_to_string(root.join("crates.txt")).expect("crates.txt");
        let crates = list.lines().filter(|line| !line.starts_with('#'));
        let (mut known, mut functions, mut called) = (Vec::new(), Vec::new(), Vec::new());
        for line in crates.filter_map(|line| line.split_once(':')).map(|(line, _)| line) {
            // A static library has that word behind its name.
            let name = line.split(' ').next().unwrap();
            for file in sources(&root.join("crates").join(name).join("src")) {
                let text = fs::read_to_string(&file).unwrap();
                let lines: Vec<&str> = text.lines().collect();
                known.extend(marked(&lines, "#[repr(C)]").map(|at| record(&lines, at)));
                functions
                    .extend(marked(&lines, "#[unsafe(no_mangle)]").map(|at| function(&lines, at)));
                called.extend(starts(&lines, "pub fn springspade_").map(|at| function(&lines, at)));
            }
        }
        let place = |name: &str| called.iter().position(|called: &Function| called.name == name);
        functions.sort_by_key(|function| place(&function.name).expect(&function.name));
        let records = used(&functions, &known);
        Border { records, functions, called }
    }
}

/// The Rattle files below a folder, by name; `lib.rt` comes first, as the others are its modules.
fn sources(folder: &Path) -> Vec<PathBuf> {
    let entries = fs::read_dir(folder).unwrap_or_else(|e| panic!("{}: {e}", folder.display()));
    let mut files = Vec::new();
    for path in entries.map(|entry| entry.unwrap().path()) {
        match path.is_dir() {
            true => files.extend(sources(&path)),
            false => files.push(path),
        }
    }
    files.sort_by_key(|file| (!file.ends_with("lib.rt"), file.clone()));
    files
}

/// The lines that start so.
fn starts<'a>(lines: &'a [&str], start: &'a str) -> impl Iterator<Item = usize> + 'a {
    (0..lines.len()).filter(move |&at| lines[at].starts_with(start))
}

/// The first lines of the items that have this attribute, behind all their attributes.
fn marked<'a>(lines: &'a [&str], attribute: &'a str) -> impl Iterator<Item = usize> + 'a {
    starts(lines, attribute).map(|at| {
        let attributes = lines[at..].iter().take_while(|line| line.starts_with("#["));
        at + attributes.count()
    })
}

/// The records that functions name.
fn used(functions: &[Function], known: &[Record]) -> Vec<Record> {
    let mut records: Vec<Record> = Vec::new();
    for function in functions {
        let arguments = function.arguments.iter().map(|argument| &argument.kind);
        for kind in arguments.chain(&function.result) {
            let name = kind.element();
            let mut found = known.iter().filter(|record| record.name == name);
            if let Some(record) = found.next()
                && records.iter().all(|earlier| earlier.name != name)
            {
                assert!(found.next().is_none(), "two records have the name {name}");
                records.push(record.clone());
            }
        }
    }
    records
}

/// The record that starts at this line.
fn record(lines: &[&str], at: usize) -> Record {
    let head = lines[at].strip_prefix("pub struct ").expect("a public struct");
    let name = head.strip_suffix(" {").expect(head).to_string();
    let fields = lines[at + 1..].iter().take_while(|&&line| line != "}").copied();
    Record { comment: above(lines, at), name, fields: variables(fields, "pub ") }
}

/// The function that starts at this line.
fn function(lines: &[&str], at: usize) -> Function {
    let head = lines[at].strip_prefix("pub ").expect("a public function");
    let head = head.strip_prefix("extern \"C\" ").unwrap_or(head);
    let (name, rest) = head.strip_prefix("fn ").and_then(|head| head.split_once('(')).expect(head);
    let body = lines[at + 1..].iter().take_while(|&&line| line != "{");
    let requires = body.clone().any(|line| line.trim_start().starts_with("requires"));
    let (arguments, end) = match rest.split_once(')') {
        // All on one line.
        Some((arguments, end)) => {
            let arguments = arguments.split(", ").filter(|argument| !argument.is_empty());
            (arguments.map(variable).collect(), end)
        }
        None => {
            let inner = body.clone().take_while(|line| !line.starts_with(')'));
            let end = body.clone().find_map(|line| line.strip_prefix(')')).expect(head);
            (variables(inner.copied(), ""), end)
        }
    };
    let result = end.trim().strip_prefix("-> ").map(Type::parse);
    let contract = body.fold(rest.to_string(), |contract, line| contract + "\n" + line);
    let (name, comment) = (name.to_string(), above(lines, at));
    Function { comment, name, arguments, result, requires, contract }
}

/// The comment lines above the attributes of an item.
fn above(lines: &[&str], at: usize) -> Vec<String> {
    let lines = lines[..at].iter().rev().skip_while(|line| line.starts_with("#["));
    let mut comment: Vec<String> =
        lines.map_while(|line| line.strip_prefix("// ")).map(str::to_string).collect();
    comment.reverse();
    comment
}

/// Variables, a line for each, with comments above some.
fn variables<'a>(lines: impl Iterator<Item = &'a str>, before: &str) -> Vec<Variable> {
    let (mut variables, mut comment) = (Vec::new(), Vec::new());
    for line in lines.map(str::trim) {
        match line.strip_prefix("// ") {
            Some(words) => comment.push(words.to_string()),
            None => {
                let plain = line.strip_prefix(before).and_then(|line| line.strip_suffix(','));
                let found = variable(plain.unwrap_or_else(|| panic!("no variable: {line}")));
                variables.push(Variable { comment: std::mem::take(&mut comment), ..found });
            }
        }
    }
    variables
}

fn variable(text: &str) -> Variable {
    let (name, kind) = text.split_once(": ").unwrap_or_else(|| panic!("no type: {text}"));
    Variable { comment: Vec::new(), name: name.to_string(), kind: Type::parse(kind) }
}

impl Type {
    fn parse(text: &str) -> Type {
        let Some(lent) = text.strip_prefix('&') else {
            return Type::Plain(text.to_string());
        };
        let (inner, written) = match lent.strip_prefix("mut ") {
            Some(inner) => (inner, true),
            None => (lent, false),
        };
        let list = inner.strip_prefix('[').and_then(|inner| inner.strip_suffix(']'));
        let list = list.unwrap_or_else(|| panic!("not a list: {text}"));
        match list.split_once("; ") {
            Some((of, length)) => {
                let length = length.parse().expect(text);
                Type::Array { of: of.to_string(), length, written }
            }
            None => Type::Slice { of: list.to_string(), written },
        }
    }

    /// Whether the function may write to it.
    pub fn is_written(&self) -> bool {
        matches!(self, Type::Slice { written: true, .. } | Type::Array { written: true, .. })
    }

    /// What it is, or what it is a list of.
    pub fn element(&self) -> &str {
        match self {
            Type::Plain(name) | Type::Slice { of: name, .. } | Type::Array { of: name, .. } => name,
        }
    }
}
