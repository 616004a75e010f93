//! Header, Rust declarations and archive say the same as the Rattle sources.

use border::{Border, Function, Type, Variable, files, root};
use std::collections::{BTreeMap, BTreeSet};
use std::fs;

#[test]
fn committed_files_are_those_that_are_made() {
    for (name, text) in files(&Border::read(&root())) {
        let committed = fs::read_to_string(root().join(name)).unwrap_or_default();
        assert!(committed == text, "{name} is not what the crates export: `cargo run -p border`");
    }
}

#[test]
fn every_item_has_a_comment() {
    let border = Border::read(&root());
    for function in &border.functions {
        assert!(!function.comment.is_empty(), "{}", function.name);
    }
    for record in &border.records {
        assert!(!record.comment.is_empty(), "{}", record.name);
        for field in &record.fields {
            assert!(!field.comment.is_empty(), "{}.{}", record.name, field.name);
        }
    }
}

#[test]
fn exports_have_the_contracts_of_what_they_call() {
    let Border { functions, called, .. } = Border::read(&root());
    assert_eq!(functions.len(), called.len());
    for (function, called) in functions.iter().zip(&called) {
        assert_eq!(function.name, called.name);
        assert_eq!(function.contract, called.contract, "{}", function.name);
    }
}

/// The arguments of a function; the numbers of a record stand in its place.
fn arguments(border: &Border, function: &Function) -> Vec<Variable> {
    let numbers = |argument: &Variable| {
        let record =
            border.records.iter().find(|r| argument.kind == Type::Plain(r.name.clone()))?;
        Some(record.fields.clone())
    };
    let arguments = function.arguments.iter();
    arguments.flat_map(|argument| numbers(argument).unwrap_or(vec![argument.clone()])).collect()
}

/// Arguments of one name have one type, and two of them stand in one order, whatever the function. A list that one
/// function fills and another reads counts as two: what is made comes last. A function over bytes may lend any list as
/// bytes.
#[test]
fn arguments_have_one_type_and_one_order() {
    let border = Border::read(&root());
    let (mut types, mut orders) = (BTreeMap::new(), BTreeSet::new());
    for function in &border.functions {
        let arguments = arguments(&border, function);
        for (k, Variable { name, kind, .. }) in arguments.iter().enumerate() {
            let element = kind.element().to_string();
            if !function.name.contains("_bytes") || element != "u8" {
                let known = types.entry(name.clone()).or_insert(element.clone());
                assert_eq!(*known, element, "{name} of {}", function.name);
            }
            let meaning = |a: &Variable| (a.name.clone(), a.kind.is_written());
            for later in &arguments[k + 1..] {
                let (first, second) = (meaning(&arguments[k]), meaning(later));
                let turned = orders.contains(&(second.clone(), first.clone()));
                assert!(!turned, "{} has {name} before {}", function.name, later.name);
                orders.insert((first, second));
            }
        }
    }
}

/// The names in the archive's index, which is its first member: how many, where each is, and then the names.
fn exported(archive: &[u8]) -> Vec<String> {
    let (head, rest) = archive.split_at(8 + 60);
    assert!(head.starts_with(b"!<arch>\n/ "), "no index");
    let number = |at: usize| u32::from_be_bytes(rest[at..at + 4].try_into().unwrap()) as usize;
    let count = number(0);
    let names = rest[4 + 4 * count..].split(|&byte| byte == 0).take(count);
    let mut names: Vec<String> =
        names.map(|name| String::from_utf8(name.to_vec()).unwrap()).collect();
    names.sort();
    names
}

#[test]
fn archive_exports_the_functions_of_the_header() {
    let archive = fs::read(root().join("target/lib/libspringspade.a")).unwrap();
    let functions = Border::read(&root()).functions;
    let mut names: Vec<String> = functions.into_iter().map(|function| function.name).collect();
    names.sort();
    assert_eq!(exported(&archive), names);
}
