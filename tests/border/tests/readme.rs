//! What the README shows is what is there: programs, numbers, commands.

mod common;

use border::root;
use common::{Folder, cargo};
use springspade::Refused;
use std::fs;

fn readme() -> String {
    fs::read_to_string(root().join("README.md")).unwrap()
}

/// The text between a line of three ticks with this word and the next line of three ticks, the first such.
fn block(readme: &str, word: &str) -> String {
    let (_, behind) = readme.split_once(&format!("\n```{word}\n")).expect(word);
    let (block, _) = behind.split_once("```\n").expect(word);
    block.to_string()
}

#[test]
fn program_compiles_outside_of_the_repository_and_prints_what_is_shown() {
    let (readme, folder) = (readme(), Folder::new("readme"));
    std::os::unix::fs::symlink(root(), folder.path("springspade")).unwrap();
    folder.write("decoder/Cargo.toml", &block(&readme, "toml"));
    folder.write("decoder/src/main.rs", &block(&readme, "rust"));
    let (passed, said) = cargo(&folder.path("decoder"), &["run", "--quiet"]);
    assert!(passed, "{said}");
    let shown = said.trim_end().lines().all(|line| readme.contains(&format!("\n    {line}\n")));
    assert!(shown && !said.is_empty(), "the README does not show:\n{said}");
}

/// A function of a Rust file, from its first line to its closing brace.
fn function(text: &str, head: &str) -> String {
    let at = text.find(head).expect(head);
    let end = text[at..].find("\n}\n").expect(head);
    text[at..at + end + 3].to_string()
}

#[test]
fn recipe_is_the_example() {
    let example = fs::read_to_string(root().join("rust/springspade/examples/frame.rs")).unwrap();
    let recipe = function(&example, "pub fn filter_frame(");
    assert!(readme().contains(&recipe), "the README's recipe is not that of examples/frame.rs");
}

#[test]
fn command_of_the_c_program_is_the_one_in_it() {
    let program = fs::read_to_string(root().join("examples/superblock.c")).unwrap();
    let line = program.lines().find(|line| line.trim().starts_with("cc ")).unwrap();
    assert!(readme().contains(line.trim().trim_end_matches(" */")), "{line}");
}

#[test]
fn refusals_are_those_of_the_table() {
    let readme = readme();
    for number in 1..=17 {
        let refused = Refused { number, place: 5 };
        let row = format!("\n| {number} | {} | ", refused.meaning());
        assert!(readme.contains(&row), "the README's table has no {row:?}");
        let text = format!("refused {number} place 5: {}", refused.meaning());
        assert_eq!(refused.to_string(), text);
    }
    assert!(!readme.contains("\n| 18 | "));
}

/// The headings of the map, and the crates below each, are those of crates.txt behind its first line.
#[test]
fn map_has_the_crates_of_the_list() {
    let list = fs::read_to_string(root().join("crates.txt")).unwrap();
    let listed = list.lines().skip(1).filter(|line| !line.is_empty());
    let names = listed.map(|line| line.split(':').next().unwrap());
    let listed: Vec<&str> = names.map(|name| name.trim_end_matches(" staticlib")).collect();
    let readme = readme();
    let (_, map) = readme.split_once("\n## Map\n").unwrap();
    let shown: Vec<&str> = map
        .lines()
        .filter_map(|line| match line.strip_prefix("##") {
            Some(heading) => Some(heading),
            None => line.strip_prefix("| `").map(|row| row.split('`').next().unwrap()),
        })
        .collect();
    assert_eq!(shown, listed);
}

#[test]
fn lines_are_at_most_120_characters() {
    for line in readme().lines() {
        assert!(line.chars().count() <= 120, "{line}");
    }
}
