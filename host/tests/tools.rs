//! The tools explain themselves, refuse what they do not know, and do not go on without an oracle that was named.
use std::process::{Command, Output};

fn run(program: &str, line: &str) -> Output {
    Command::new(program).args(line.split_whitespace()).output().expect("a tool that runs")
}

const TOOLS: [&str; 3] = [env!("CARGO_BIN_EXE_compare"), env!("CARGO_BIN_EXE_bench"), env!("CARGO_BIN_EXE_store")];
const COMPARE: &str = TOOLS[0];
const BENCH: &str = TOOLS[1];

fn text(bytes: &[u8]) -> String {
    String::from_utf8_lossy(bytes).to_string()
}

/// It could not run: said on standard error, with nothing done.
fn refuses(program: &str, line: &str, what: &str) {
    let output = run(program, line);
    assert_eq!(output.status.code(), Some(2), "{line}");
    assert!(text(&output.stderr).contains(what), "{line}: {}", text(&output.stderr));
    assert_eq!(text(&output.stdout), "", "{line}");
}

#[test]
fn help_explains_and_does_nothing() {
    for program in TOOLS {
        for line in ["--help", "-h", "--oracle nowhere --help"] {
            let output = run(program, line);
            assert!(output.status.success(), "{line}");
            assert!(text(&output.stdout).starts_with("usage: "), "{line}");
            // Usage alone: no stage, no table.
            assert!(!text(&output.stdout).contains("inputs,") && !text(&output.stdout).contains("Machine"), "{line}");
        }
    }
}

#[test]
fn a_named_oracle_must_be_there() {
    refuses(COMPARE, "--oracle nowhere/oracle", "there is no oracle at nowhere/oracle");
    refuses(BENCH, "--oracle=nowhere/bench", "there is no oracle at nowhere/bench");
    let output = run(TOOLS[2], "nowhere/oracle nowhere/crates");
    assert_eq!(output.status.code(), Some(1));
    assert!(text(&output.stderr).contains("there is no oracle at nowhere/oracle"));
}

#[test]
fn mistakes_are_named() {
    refuses(COMPARE, "--sead 3", "there is no option --sead");
    refuses(COMPARE, "--seed", "--seed needs a value");
    refuses(COMPARE, "--times x", "--times: x is no number");
    refuses(COMPARE, "more", "what is more?");
    refuses(COMPARE, "--only nothing", "no stage's name contains nothing");
    refuses(BENCH, "boxen", "there is no shape boxen");
    refuses(BENCH, "--runs 0", "--runs: 0 is too small");
    refuses(BENCH, "--sizes 1,5", "--sizes: 5 is none of 1, 2, 3, 4");
}

#[test]
fn a_stage_by_its_name() {
    let output = run(COMPARE, "--only known");
    assert!(output.status.success());
    let text = text(&output.stdout);
    assert!(text.contains("verdict of the known false alarm") && !text.contains("random games"), "{text}");
    assert!(text.contains("verdicts: 1 games: 0 agree (0 pass, 0 do not), 1 false alarms, 0 false passes"), "{text}");
}

/// A median, the least and the greatest, where it was a single figure before.
#[test]
fn tables_have_medians_and_bounds() {
    let output = run(BENCH, "--runs 2 --sizes 1 nested");
    let text = text(&output.stdout);
    let row = text.lines().find(|line| line.starts_with("| nested | 1x | 8180 | 8186 | ")).unwrap_or_default();
    let cells: Vec<&str> = row.split(" | ").collect();
    assert!(output.status.success() && cells.len() == 7, "{text}");
    for cell in &cells[4..] {
        let numbers: Vec<f64> = cell.split(['(', ')', ' ', '|']).filter_map(|word| word.parse().ok()).collect();
        let [median, least, most] = numbers[..] else { panic!("no median and bounds: {cell}") };
        assert!(0.0 < least && least <= median && median <= most, "{cell}");
    }
    assert!(!text.contains("Rust text s | Rust text / library"), "no oracle was named");
}

#[test]
fn an_earlier_library_is_a_program_and_measures_runs() {
    refuses(BENCH, "--before nowhere/bench", "there is no program at nowhere/bench");
    refuses(BENCH, &format!("--before {BENCH} million"), "--before measures runs, and million is a text");
}

/// What `bench` prints with these words, and the cells of the row that begins so. Each behind the first ones is a
/// median with the least and the greatest.
fn row_of(line: &str, begins: &str, first: usize) -> (String, usize) {
    let output = run(BENCH, line);
    let text = text(&output.stdout);
    assert!(output.status.success(), "{text}");
    let row = text.lines().find(|line| line.starts_with(begins)).unwrap_or_default();
    let cells: Vec<&str> = row.split(" | ").collect();
    for cell in cells.iter().skip(first) {
        let numbers: Vec<f64> = cell.split(['(', ')', ' ', '|']).filter_map(|word| word.parse().ok()).collect();
        let [median, least, most] = numbers[..] else { panic!("no median and bounds: {cell}") };
        assert!(0.0 < least && least <= median && median <= most, "{cell}");
    }
    let count = cells.len();
    (text, count)
}

/// The library beside itself.
#[test]
fn an_earlier_library_is_measured_in_turn() {
    let line = format!("--before {BENCH} --runs 2 --sizes 1 nested");
    let (text, cells) = row_of(&line, "| nested | 1x | ", 2);
    assert_eq!(cells, 5, "{text}");
    assert!(text.contains("| shape | size | before ms | now ms | now / before |"), "{text}");
}
