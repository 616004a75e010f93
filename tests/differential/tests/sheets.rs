//! Ours against the text of any sheet: random ones, damaged ones, any bytes. Their runs are those that the
//! Rust's pass calls its kernel for, where the Rust is at hand.

use differential::random::Random;
use differential::sheets::damaged;
use differential::sheets::expected::expected;
use differential::sheets::{Sheet, ours, shown};
use differential::{many, say};
use std::collections::BTreeMap;

/// Texts by their first words, and among them runs.
#[derive(Default)]
struct Counts {
    texts: BTreeMap<String, usize>,
    runs: usize,
}

impl Counts {
    fn add(&mut self, text: &str) {
        let runs = text.lines().count() - 1;
        let first: Vec<&str> = text.split_whitespace().take(2).collect();
        let name = match first[..] {
            ["refused", number] => format!("refused {number}"),
            _ if runs == 0 => "accepted without runs".to_string(),
            _ => "accepted with runs".to_string(),
        };
        *self.texts.entry(name).or_default() += 1;
        self.runs += runs;
    }

    fn join(mut self, other: Counts) -> Counts {
        for (name, count) in other.texts {
            *self.texts.entry(name).or_default() += count;
        }
        self.runs += other.runs;
        self
    }

    fn of(&self, name: &str) -> usize {
        self.texts.get(name).copied().unwrap_or(0)
    }
}

/// Half of them in each of two threads.
fn compare_all(sheets: usize, seed: u64, one: fn(&mut Random) -> Vec<u8>) -> Counts {
    let half = |sheets: usize, seed: u64| {
        let mut random = Random(seed);
        let mut counts = Counts::default();
        for _ in 0..sheets {
            let bytes = one(&mut random);
            let text = expected(&bytes);
            assert_eq!(ours(&bytes), text, "{}", shown(&bytes));
            counts.add(&text);
        }
        counts
    };
    std::thread::scope(|scope| {
        let a = scope.spawn(move || half(sheets / 2, seed));
        let b = scope.spawn(move || half(sheets - sheets / 2, seed + 1));
        a.join().unwrap().join(b.join().unwrap())
    })
}

fn count() -> usize {
    many::count("SPRINGSPADE_SHEETS", 20_000)
}

fn say_counts(what: &str, counts: &Counts) {
    let source = if cfg!(oracle) { "the Rust's" } else { "document 01's" };
    let texts: Vec<String> =
        counts.texts.iter().map(|(name, count)| format!("{count} {name}")).collect();
    say(&format!("{what}: {} runs are {source}; {}", counts.runs, texts.join(", ")));
}

/// The numbers that a sheet is refused with.
const NUMBERS: [u32; 9] = [2, 4, 5, 7, 9, 10, 11, 14, 17];

#[test]
fn sheets_equal() {
    let sheets = count();
    let counts = compare_all(sheets, 40, |random| Sheet::random(random).bytes());
    assert!(counts.of("accepted with runs") >= sheets / 2, "{:?}", counts.texts);
    assert!(counts.of("refused 14") >= sheets / 50, "{:?}", counts.texts);
    assert!(counts.of("refused 11") >= sheets / 50, "{:?}", counts.texts);
    say_counts(&format!("{sheets} random sheets"), &counts);
}

#[test]
fn bytes_equal() {
    let strings = 6 * count();
    let counts = compare_all(strings, 42, damaged::bytes);
    assert!(counts.of("accepted with runs") >= strings / 20, "{:?}", counts.texts);
    for number in NUMBERS {
        let often = counts.of(&format!("refused {number}"));
        assert!(often >= strings / 500, "refused {number}: {often} of {strings}");
    }
    say_counts(&format!("{strings} random byte strings"), &counts);
}
