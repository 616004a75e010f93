//! The C header.

use crate::{Border, Function, ORIGIN, Record, Type, Variable};

const HEAD: &str = "\
#ifndef SPRINGSPADE_H
#define SPRINGSPADE_H

#include <stdbool.h>
#include <stddef.h>
#include <stdint.h>

#ifdef __cplusplus
extern \"C\" {
#endif

#ifdef __GNUC__
#define SPRINGSPADE_MUST_USE __attribute__((warn_unused_result))
#else
#define SPRINGSPADE_MUST_USE
#endif
";

const FOOT: &str = "
#ifdef __cplusplus
}
#endif

#endif
";

/// The whole text.
pub fn header(border: &Border) -> String {
    let about = [
        "The loop filter of a VP9 decoder: the functions of libspringspade.a.",
        "A list is a pointer and a number, its name with `_len`: so many entries may be read there, and written where the",
        "pointer is not to const. Lists of one call must not overlap. No function keeps a pointer or a state of its own, so",
        "calls may run on several threads.",
        ORIGIN,
    ];
    let mut text = comment(&about.map(str::to_string), "") + HEAD;
    for record in &border.records {
        text += &format!("\n{}", declared_record(record));
    }
    for function in &border.functions {
        text += &format!("\n{}", declared_function(function));
    }
    text + FOOT
}

fn declared_record(record: &Record) -> String {
    let name = type_name(&record.name);
    let mut text = comment(&record.comment, "") + &format!("typedef struct {name} {{\n");
    for field in &record.fields {
        text += &comment(&field.comment, "    ");
        text += &format!("    {};\n", declared(field).join("; "));
    }
    text + &format!("}} {name};\n")
}

fn declared_function(function: &Function) -> String {
    let result = match &function.result {
        Some(kind) => format!("SPRINGSPADE_MUST_USE {}", type_name(kind.element())),
        None => "void".to_string(),
    };
    let arguments: Vec<String> =
        function.arguments.iter().map(|a| declared(a).join(", ")).collect();
    let start = format!("{result} {}(", function.name);
    let line = format!("{start}{});\n", arguments.join(", "));
    let declaration = match line.len() {
        ..=100 => line,
        _ => format!("{start}\n    {});\n", arguments.join(",\n    ")),
    };
    comment(&function.comment, "") + &declaration
}

/// One variable in C, or two where a list has a length.
fn declared(variable: &Variable) -> Vec<String> {
    let name = &variable.name;
    let of = type_name(variable.kind.element());
    let constant = |written| if written { "" } else { "const " };
    match variable.kind {
        Type::Plain(_) => vec![format!("{of} {name}")],
        Type::Array { length, written, .. } => {
            vec![format!("{}{of} {name}[{length}]", constant(written))]
        }
        Type::Slice { written, .. } => {
            vec![format!("{}{of} *{name}", constant(written)), format!("size_t {name}_len")]
        }
    }
}

fn type_name(name: &str) -> String {
    match name {
        "u8" | "u16" | "u32" => format!("uint{}_t", &name[1..]),
        "i8" | "i16" | "i32" => format!("int{}_t", &name[1..]),
        "usize" => "size_t".to_string(),
        "bool" => "bool".to_string(),
        record => format!("Springspade{record}"),
    }
}

fn comment(lines: &[String], indent: &str) -> String {
    match lines {
        [] => String::new(),
        [line] => format!("{indent}/* {line} */\n"),
        lines => format!("{indent}/* {} */\n", lines.join(&format!("\n{indent}   "))),
    }
}
