//! The Rust declarations.

use crate::{Border, Function, ORIGIN, Record, Type, Variable};

/// The whole text.
pub fn declarations(border: &Border) -> String {
    let mut text = String::from(
        "//! The C functions of `libspringspade.a`, as `include/springspade.h` has them.\n",
    );
    text += &format!("//! {ORIGIN}\n\n");
    for record in &border.records {
        text += &declared_record(record);
    }
    text += "unsafe extern \"C\" {\n";
    for (k, function) in border.functions.iter().enumerate() {
        text += if k == 0 { "" } else { "\n" };
        text += &declared_function(function);
    }
    text + "}\n"
}

fn declared_record(record: &Record) -> String {
    let mut text = comment(&record.comment, "");
    text += "#[repr(C)]\n#[derive(Debug, Clone, Copy, PartialEq, Eq, Default)]\n";
    text += &format!("pub struct {} {{\n", record.name);
    for field in &record.fields {
        text += &comment(&field.comment, "    ");
        text += &format!("    pub {}: {},\n", field.name, field.kind.element());
    }
    text + "}\n\n"
}

/// Safe where no pointer goes without its length and nothing is asked of the caller.
fn declared_function(function: &Function) -> String {
    let Function { name, arguments, result, .. } = function;
    let slices = arguments.iter().any(|a| matches!(a.kind, Type::Slice { .. }));
    let safe = if slices || function.requires { "unsafe" } else { "safe" };
    let result = result.as_ref().map_or(String::new(), |kind| format!(" -> {}", kind.element()));
    let arguments: Vec<String> = arguments.iter().flat_map(declared).collect();
    let line = format!("    pub {safe} fn {name}({}){result};\n", arguments.join(", "));
    let declaration = match line.len() {
        ..=101 => line,
        _ => {
            let arguments: String = arguments.iter().map(|a| format!("        {a},\n")).collect();
            format!("    pub {safe} fn {name}(\n{arguments}    ){result};\n")
        }
    };
    let must_use = if function.result.is_some() { "    #[must_use]\n" } else { "" };
    comment(&function.comment, "    ") + must_use + &declaration
}

/// One variable, or two where a list has a length.
fn declared(variable: &Variable) -> Vec<String> {
    let name = &variable.name;
    let of = variable.kind.element();
    let pick = |written, yes, no| if written { yes } else { no };
    match variable.kind {
        Type::Plain(_) => vec![format!("{name}: {of}")],
        Type::Array { length, written, .. } => {
            vec![format!("{name}: {}[{of}; {length}]", pick(written, "&mut ", "&"))]
        }
        Type::Slice { written, .. } => {
            let pointer = format!("{name}: {}{of}", pick(written, "*mut ", "*const "));
            vec![pointer, format!("{name}_len: usize")]
        }
    }
}

fn comment(lines: &[String], indent: &str) -> String {
    lines.iter().map(|line| format!("{indent}/// {line}\n")).collect()
}
