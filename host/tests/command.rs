//! The command as people use it: options, exit statuses, messages, bounds, a night's folder.
use hingrezh::{Answer, Formulas, Game, Layout, Model, Player, Refusal, Room, Slices};
use hingrezh::{bytes_of, game_words, read_pgsolver, restrict, words_of, write_pgsolver};
use std::fs;
use std::io::Write;
use std::path::{Path, PathBuf};
use std::process::{Command, Output, Stdio};

/// A folder of its own for each test.
fn folder(name: &str) -> PathBuf {
    let folder = Path::new(env!("CARGO_TARGET_TMPDIR")).join(format!("command-{name}"));
    let _ = fs::remove_dir_all(&folder);
    fs::create_dir_all(&folder).unwrap();
    folder
}

fn hingrezh(folder: &Path, arguments: &str) -> Output {
    let arguments = arguments.split_whitespace();
    let mut command = Command::new(env!("CARGO_BIN_EXE_hingrezh"));
    command.current_dir(folder).args(arguments).stdin(Stdio::null()).output().unwrap()
}

fn status(output: &Output) -> i32 {
    output.status.code().expect("the command ends by itself")
}

fn out(output: &Output) -> String {
    String::from_utf8(output.stdout.clone()).unwrap()
}

fn err(output: &Output) -> String {
    String::from_utf8(output.stderr.clone()).unwrap()
}

fn words(text: &str) -> Vec<u32> {
    text.split_whitespace().map(|word| word.parse().unwrap()).collect()
}

/// Lengths, then the groups.
fn file(folder: &Path, name: &str, groups: &[&str]) {
    let groups: Vec<Vec<u32>> = groups.iter().map(|group| words(group)).collect();
    let lengths: Vec<u32> = groups.iter().map(|group| group.len() as u32).collect();
    fs::write(folder.join(name), bytes_of(&[vec![lengths], groups].concat().concat())).unwrap();
}

/// Two labels (actions 7 and 9), two states, three transitions.
const LABELS: &str = "2 2 0 1 7 9";
const SYSTEM: &str = "2 3 0 2 1 0 1 0 0 1 1";
/// The union of both labels.
const ACTIONS: &str = "3 3 2 2 2 0 1";
/// Always: greatest X, box of X.
const ALWAYS: &str = "3 7 4 8 0 0 0";

fn input(folder: &Path, name: &str) {
    file(folder, name, &[LABELS, SYSTEM, ACTIONS, ALWAYS]);
}

#[test]
fn options_and_statuses() {
    let at = &folder("options");
    input(at, "in.words");
    let whole = hingrezh(at, "build in.words");
    assert_eq!((status(&whole), out(&whole).lines().next()), (0, Some("done 6 6 7")), "{}", err(&whole));
    for cut in ["--limit 3", "--limit=3", "--limit 9 --limit 3"] {
        for line in [format!("build in.words {cut}"), format!("build {cut} -- in.words")] {
            let got = hingrezh(at, &line);
            assert_eq!((status(&got), out(&got).starts_with("cut 3 ")), (3, true), "{line}");
        }
    }
    for written in ["-o out", "-oout", "--output=out", "--output out", "--words out"] {
        let _ = fs::remove_file(at.join("out"));
        let got = hingrezh(at, &format!("build in.words {written}"));
        assert_eq!((status(&got), out(&got)), (0, "done 6 6 7\n".to_string()), "{written}: {}", err(&got));
        assert_eq!(fs::metadata(at.join("out")).unwrap().len(), 4 * game_words(6, 7) as u64, "{written}");
        assert!(!at.join(".out.part").exists());
    }
    let piped = hingrezh(at, "build in.words -o -");
    assert_eq!(piped.stdout, fs::read(at.join("out")).unwrap());
    use std::os::unix::ffi::OsStrExt;
    let mut command = Command::new(env!("CARGO_BIN_EXE_hingrezh"));
    let no_text = command.args([std::ffi::OsStr::from_bytes(b"\xff")]).output().unwrap();
    assert_eq!((status(&no_text), err(&no_text).contains("is no text")), (64, true), "{}", err(&no_text));
    fs::rename(at.join("in.words"), at.join("-dash")).unwrap();
    assert_eq!(status(&hingrezh(at, "build -- -dash")), 0);
}

#[test]
fn wrong_usage() {
    let at = &folder("usage");
    input(at, "in.words");
    for (line, told) in [
        ("", "no command"),
        ("frobnicate", "no command \"frobnicate\""),
        ("build", "one file is wanted"),
        ("build a b c", "one file is wanted"),
        ("build in.words --frob", "no option --frob"),
        ("build in.words --map", "no option --map"),
        ("build in.words -x", "no option -x"),
        ("build in.words --limit", "--limit wants a value"),
        ("build in.words --limit=x", "--limit wants a 32-bit number, not \"x\""),
        ("build in.words --limit 4294967296", "--limit wants a 32-bit number"),
        ("restrict in.words --map=3", "--map takes no value"),
        ("restrict", "exactly one file"),
        ("read a.pg b.pg", "exactly one file"),
        ("read in.words --edges=-1", "--edges wants a 32-bit number"),
        ("read in.words --limit 3", "no option --limit"),
        ("read in.words -o in.words", "the output in.words is the input in.words"),
        ("build in.words --format dot", "--format wants pgsolver, words or lines, not \"dot\""),
        ("night in.words f -o out --format PGSolver", "--format wants pgsolver, words or lines"),
        ("build in.words --counts=3", "--counts takes no value"),
        ("build in.words --counts -o out", "--counts is for lines, and the format is words: add --format lines"),
        ("build in.words --format pgsolver --counts", "--counts is for lines, and the format is pgsolver"),
        ("restrict in.words --counts --format words", "--counts is for lines, and the format is words"),
        ("night in.words f -o out --counts", "--counts is for lines, and the format is pgsolver: add --format lines"),
        ("read in.words --format lines --counts", "no option --counts"),
        ("show in.words --counts", "no option --counts"),
        ("expand", "one file is wanted"),
        ("expand a b c", "one file is wanted"),
        ("expand in.words --limit 3", "no option --limit"),
        ("expand in.words --format words", "no option --format"),
        ("expand in.words -o in.words", "the output in.words is the input in.words"),
        ("restrict in.words --map -o -", "--map is a line"),
        ("restrict in.words --map --format pgsolver", "--map is a line"),
        ("build in.words -o in.words", "the output in.words is the input in.words"),
        ("build in.words -o ./in.words", "is the input in.words"),
        ("night in.words -o out", "at least one formula"),
        ("night in.words f", "-o DIR is wanted"),
        ("night -o out", "a model is wanted"),
        ("night in.words - -o out", "a formula is a file"),
    ] {
        let got = hingrezh(at, line);
        assert_eq!(status(&got), 64, "{line}");
        assert!(err(&got).contains(told) && err(&got).contains("--help"), "{line}: {}", err(&got));
        assert_eq!(out(&got), "", "{line}");
    }
    let before = Model::from_bytes(&fs::read(at.join("in.words")).unwrap());
    assert!(before.is_ok(), "the input is as it was");
    assert!(!at.join("out").exists());
}

#[test]
fn help_and_version() {
    let at = &folder("help");
    let manual = fs::read_to_string(concat!(env!("CARGO_MANIFEST_DIR"), "/man/hingrezh.1")).unwrap();
    let manual = manual.replace("\\-", "-");
    for command in ["build", "night", "read", "restrict", "expand", "show", "where", "dot"] {
        let asked = [format!("{command} --help"), format!("{command} -h x y"), format!("help {command}")];
        let texts = asked.map(|line| {
            let got = hingrezh(at, &line);
            assert_eq!((status(&got), err(&got)), (0, String::new()), "{line}");
            out(&got)
        });
        assert!(texts[0].starts_with(&format!("usage: hingrezh {command} ")));
        assert!(texts[0] == texts[1] && texts[0] == texts[2]);
        let options =
            texts[0].split(|c: char| c.is_whitespace() || "[],;`)".contains(c)).filter(|w| w.starts_with("--"));
        options.for_each(|option| assert!(manual.contains(option), "the manual lacks {option}"));
        assert!(manual.contains(&format!(".B hingrezh {command}")), "the manual lacks {command}");
    }
    for (line, told) in [("--help", "exit status"), ("-h", "night"), ("help", "vertex 0"), ("--version", "hingrezh 0.")]
    {
        let got = hingrezh(at, line);
        assert_eq!(status(&got), 0, "{line}");
        assert!(out(&got).contains(told), "{line}");
    }
    assert!(out(&hingrezh(at, "--version")).contains("\ntoolchain "));
}

/// Each refusal tells the thing: number and place, what is found, what is legal.
#[test]
fn refusals_of_models() {
    let at = &folder("models");
    let labels = |labels: &str| [labels, SYSTEM, ACTIONS, ALWAYS].map(str::to_string);
    let system = |system: &str| [LABELS, system, ACTIONS, ALWAYS].map(str::to_string);
    for (groups, told) in [
        (labels("2"), "refused 11 0: the labels begin with two words, labels and actions, and have 1"),
        (labels("2 3 0 1 7 9"), "refused 11 0: the labels say 3 actions, which makes 8 words, and have 6"),
        (labels("4097 0"), "refused 12 0: there are 4097 labels, and at most 4096 are legal"),
        (
            labels("2 2 0 2 7 9"),
            "refused 13 3: action 9, entry 1 of the labels, belongs to label 2, and there are 2 labels, 0 to 1",
        ),
        (labels("2 2 1 0 7 9"), "refused 13 3: action 9, entry 1 of the labels, belongs to label 0 and stands after"),
        (system("2 3"), "refused 21 0: the system begins with three words"),
        (
            system("2 3 0 2 1"),
            "refused 21 0: the system says 2 states and 3 transitions, which makes 11 words, and has 5",
        ),
        (system("0 0 0"), "refused 22 0: the system has 0 states, and 1 to 65535 are legal"),
        (system("2 3 5 2 1 0 1 0 0 1 1"), "refused 23 2: the initial state is 5, and there are 2 states, 0 to 1"),
        (
            system("2 3 0 2 2 0 1 0 0 1 1"),
            "refused 24 1: the out-degrees of the states sum to 4, and the system says 3",
        ),
        (
            system("2 3 0 2 1 0 1 8 0 1 1"),
            "refused 25 7: transition 2, from state 1 to state 1, has label 8, and there are 2 labels, 0 to 1",
        ),
        (
            system("2 3 0 2 1 0 1 0 0 9 1"),
            "refused 26 9: transition 1, from state 0 by label 1, leads to state 9, and there are 2 states, 0 to 1",
        ),
    ] {
        refused(at, groups, told, "the modeller");
    }
}

#[test]
fn refusals_of_action_formulas() {
    let at = &folder("actions");
    let actions = |actions: &str| [LABELS, SYSTEM, actions, ALWAYS].map(str::to_string);
    for (groups, told) in [
        (actions(""), "refused 31 0: the action formulas have no words"),
        (actions("3 0 0"), "refused 31 0: the first word of the action formulas says 3 nodes, which makes 7 words"),
        (actions("1 6 0"), "refused 33 0: node 0 of the action formulas has kind 6, and the kinds are 0 to 5"),
        (actions("3 3 2 2 2 0 4"), "refused 34 2: action node 2 (multi-action) names label 4, and there are 2 labels"),
        (actions("3 3 2 2 1 0 1"), "refused 34 0: action node 0 (union) has operand 1, and its right child is node 2"),
        (actions("2 5 0 3 0"), "refused 34 0: action node 0 (negation) has operand 3, and it must be 0"),
        (
            actions("3 0 3 2 0 3 0"),
            "refused 34 3: the action tree of node 1 is unfinished: after node 2 (multi-action)",
        ),
    ] {
        refused(at, groups, told, "the formula's writer");
    }
}

#[test]
fn refusals_of_formulas() {
    let at = &folder("formulas");
    let formula = |formula: &str| [LABELS, SYSTEM, ACTIONS, formula].map(str::to_string);
    for (groups, told) in [
        (formula(""), "refused 41 0: the formula has no words"),
        (formula("0"), "refused 42 0: the formula has 0 nodes, and 1 to 1024 are legal"),
        (formula("3 7 9 8 0 0 0"), "refused 43 1: node 1 of the formula has kind 9, and the kinds are 0 to 8"),
        (formula("3 7 4 8 0 1 0"), "refused 44 1: formula node 1 (box) names action node 1, and that is inside the"),
        (
            formula("3 7 5 8 0 3 0"),
            "refused 44 1: formula node 1 (diamond) names action node 3, and there are 3 action",
        ),
        (formula("3 7 4 8 5 0 0"), "refused 44 0: formula node 0 (greatest fixpoint) has operand 5, and it must be 0"),
        (formula("3 2 0 0 1 0 0"), "refused 44 0: formula node 0 (and) has operand 1, and its right child is node 2"),
        (
            formula("3 0 0 0 0 0 0"),
            "refused 44 1: the formula's tree ends before node 1, and nodes 1 to 2 are left over",
        ),
        (
            formula("2 7 4 0 0"),
            "refused 44 2: the formula tree of node 0 is unfinished: after node 1 (box) it needs one",
        ),
        (
            formula("3 7 4 8 0 0 1"),
            "refused 45 2: formula node 2 (reference) names node 1, and that is no fixpoint but box",
        ),
        (
            formula("3 7 4 8 0 0 7"),
            "refused 45 2: formula node 2 (reference) names node 7, and there are 3 nodes, 0 to 2",
        ),
        (
            formula("4 2 7 0 8 3 0 0 1"),
            "refused 45 3: formula node 3 (reference) names node 1, and that greatest fixpoint does not enclose it",
        ),
    ] {
        refused(at, groups, told, "the formula's writer");
    }
}

fn refused<const N: usize>(at: &Path, groups: [String; N], told: &str, who: &str) {
    file(at, "wrong.words", &groups.each_ref().map(|group| group.as_str()));
    for command in ["build", "expand", "show", "dot"] {
        let got = hingrezh(at, &format!("{command} wrong.words"));
        assert_eq!((status(&got), out(&got)), (2, String::new()), "{told}: {}", err(&got));
        assert!(err(&got).starts_with(&format!("hingrezh: wrong.words: {told}")), "{told}: {}", err(&got));
        assert!(err(&got).ends_with(&format!("; to be mended by {who}\n")), "{told}: {}", err(&got));
    }
}

/// Words that are no game, or none that is restricted.
const NO_GAMES: [(&str, &str); 13] = [
    ("1 1", "refused 51 0: a game begins with three words"),
    ("0 0 0 0", "refused 51 0: the game has no vertex"),
    ("1 1 0 0 0 0 1", "refused 51 0: 1 vertices and 1 edges make 11 words, and there are 7; to be"),
    (
        "1 1 0  0  0  0 1  0",
        "refused 51 0: 1 vertices and 1 edges make 11 words, and there are 8: the vertices' states and items and \
         the edges' counts are missing; to be",
    ),
    (
        "1 1 0  0  0  0 1  0  0",
        "refused 51 0: 1 vertices and 1 edges make 11 words, and there are 9: the vertices' states and items are \
         missing; to be",
    ),
    ("1 1 0  0  0  0  0  1 1  0  0", "refused 52 7: the edges of vertex 0 begin at 1 and not at 0"),
    (
        "2 2 0  0 0  0 0  0 0  0 0  0 2 1  0 0  0 0",
        "refused 52 13: the edges of vertex 1 begin at 2 and end before it, at 1",
    ),
    ("1 1 0  0  0  0  0  0 0  0  0", "refused 52 8: the edges of the last vertex, 0, end at 0, and there are 1"),
    ("1 1 3  0  0  0  0  0 1  0  0", "refused 53 2: the initial vertex is 3, and there is one vertex, number 0"),
    ("1 1 0  5  0  0  0  0 1  0  0", "refused 53 3: vertex 0 has owner 5; 0 is Even, 1 is Odd"),
    ("1 1 0  2  0  0  0  0 1  0  0", "refused 53 3: vertex 0 has owner 2; 0 is Even, 1 is Odd"),
    (
        "2 2 0  0 0  0 0  0 0  0 0  0 1 2  0 7  9 9",
        "refused 53 15: edge 1, from vertex 1, leads to vertex 7, and there are 2 vertices",
    ),
    ("1 0 0  2  0  0  0  0 0", "refused 53 3: the game is cut: vertex 0 is still waiting"),
];

#[test]
fn refusals_of_rooms_and_games() {
    let at = &folder("games");
    input(at, "in.words");
    for (line, told) in [
        ("--vertices 0", "in.words: refused 1 0: room for 0 vertices is asked for, and 1 to 1048576 are legal"),
        ("--edges 4194305", "in.words: refused 1 0: room for 4194305 edges is asked for, and 1 to 4194304 are legal"),
        (
            "--vertices 5",
            "in.words: refused 60 0: within the step limit the game needs more than the room of 5 vertices",
        ),
    ] {
        let got = hingrezh(at, &format!("build in.words {line}"));
        assert_eq!(status(&got), 2, "{line}");
        assert!(err(&got).contains(told), "{line}: {}", err(&got));
    }
    for (game, told) in NO_GAMES {
        fs::write(at.join("wrong.game"), bytes_of(&words(game))).unwrap();
        let got = hingrezh(at, "restrict wrong.game");
        assert_eq!((status(&got), out(&got)), (2, String::new()), "{told}");
        assert!(err(&got).starts_with(&format!("hingrezh: wrong.game: {told}")), "{told}: {}", err(&got));
    }
    assert_eq!(status(&hingrezh(at, "build in.words --limit=2 -o cut.game")), 3);
    assert!(err(&hingrezh(at, "restrict cut.game")).contains("cut.game: refused 53 5: the game is cut: vertex 2 is"));
}

/// Files of any size are refused at once, also where there is little memory.
#[test]
fn bounds() {
    let at = &folder("bounds");
    fs::File::create(at.join("large")).unwrap().set_len(1 << 30).unwrap();
    let limited = |kilobytes: u32, line: &str| {
        let line = format!("ulimit -v {kilobytes}; exec \"$0\" {line}");
        let mut shell = Command::new("sh");
        shell.current_dir(at).args(["-c", &line, env!("CARGO_BIN_EXE_hingrezh")]).output().unwrap()
    };
    for command in ["build", "expand", "show", "dot", "restrict", "read", "build -o large.game"] {
        let got = limited(20_000, &format!("{command} large"));
        assert_eq!(status(&got), 65, "{command}: {}", err(&got));
        assert!(err(&got).contains("large: 1073741824 bytes, and the largest legal file has"), "{}", err(&got));
    }
    let endless = limited(20_000, "build /dev/zero");
    assert_eq!((status(&endless), err(&endless).contains("promise 0 words, and more follow")), (65, true));
    assert!(err(&limited(64_000, "restrict /dev/zero")).contains("more bytes than the 54525968"));
    assert_eq!(status(&limited(64_000, "read /dev/zero")), 71);
    input(at, "in.words");
    let no_memory = limited(20_000, "build in.words");
    assert_eq!((status(&no_memory), err(&no_memory).contains("no memory for slices of 121634832 bytes")), (71, true));
    assert_eq!(status(&limited(20_000, "build in.words --vertices 100 --edges 100")), 0);
    largest(at);
    let got = limited(135_000, "night largest.model largest.formula -o out");
    assert_eq!((status(&got), err(&got)), (0, String::new()));
    assert!(out(&got).contains(" 1048560 "), "{}", out(&got));
    let got = limited(135_000, "read out/largest.pg -o largest.game");
    assert_eq!((status(&got), out(&got)), (0, "done 1048560 1048560 3801086\n".to_string()), "{}", err(&got));
    let got = limited(135_000, "restrict largest.game -o restricted.game");
    assert_eq!((status(&got), out(&got)), (0, "done 1048560 1048560 3801086\n".to_string()), "{}", err(&got));
    // Large files, which nobody looks at afterwards.
    fs::remove_dir_all(at).unwrap();
}

/// The most states, transitions, labels, actions and action nodes, and a formula whose game nearly fills the room.
fn largest(at: &Path) {
    let labels: Vec<u32> = [4096, 16384].into_iter().chain((0..16384).map(|i| i / 4)).chain(0..16384).collect();
    let degree = |state: u32| if state == 0 { 8 } else { 4 };
    let mut system = vec![65535, 262144, 0];
    system.extend((0..65535).map(degree));
    system.extend((0..262144).map(|i| i % 4096));
    system.extend((0..65535).flat_map(|state| (0..degree(state)).map(move |k| (4 * state + k + 1) % 65535)));
    let lengths = [labels.len() as u32, system.len() as u32];
    fs::write(at.join("largest.model"), bytes_of(&[&lengths, &labels[..], &system[..]].concat())).unwrap();
    let actions = [&[1024][..], &[0; 2048]].concat();
    let formula = [&[16, 7][..], &[4; 14], &[8], &[0; 16]].concat();
    let lengths = [actions.len() as u32, formula.len() as u32];
    fs::write(at.join("largest.formula"), bytes_of(&[&lengths, &actions[..], &formula[..]].concat())).unwrap();
}

#[test]
fn broken_files() {
    let at = &folder("broken");
    input(at, "in.words");
    let bytes = fs::read(at.join("in.words")).unwrap();
    let written = |bytes: &[u8]| fs::write(at.join("broken"), bytes).unwrap();
    let told = |line: &str, wanted: i32, text: &str| {
        let got = hingrezh(at, line);
        assert_eq!(status(&got), wanted, "{line}: {}", err(&got));
        assert!(err(&got).contains(text), "{line}: {}", err(&got));
    };
    written(&bytes[..bytes.len() - 1]);
    told("build broken", 65, &format!("broken: {} bytes are no whole number of 32-bit words", bytes.len() - 1));
    written(&bytes[..bytes.len() - 4]);
    let sums = "the four lengths promise 31 words, and 30 follow; with regular formulas the five promise 33, and 29";
    told("build broken", 65, &format!("broken: {sums} follow (expected: four lengths, labels, system, action"));
    written(&[0; 12]);
    told("build broken", 65, "broken: there are 3 words, fewer than the lengths");
    let long = [words("6 600000 7 7"), words(LABELS), vec![65535, 267231, 0], vec![0; 600011]].concat();
    written(&bytes_of(&long));
    told(
        "build broken",
        65,
        "broken: the system has 600000 words (65535 states, 267231 transitions), and at most 589826",
    );
    told("night in.words in.words -o out", 65, "in.words: the lengths promise 17 words, and 33 follow (expected: two");
    told("build missing", 66, "missing: No such file");
    told("build .", 66, ".: Is a directory");
    told("build in.words -o no/such/out", 74, "no/such/out: No such file");
    written(&bytes[..bytes.len() - 4]);
    told("dot broken", 65, "broken: neither the words of a game nor four lengths (five with regular formulas) and");
}

/// The actions a7 and a9, each an action formula.
const EACH: &str = "2 2 2 0 1";
/// (a7 + a9)* . a9+ and, at node 7, a7.
const REGULARS: &str = "8 1 3 2 0 0 4 0 0 5 0 4 0 1 0 1 0";
/// Greatest X, and of the box of the first to X, and the diamond of the other.
const OVER: &str = "6 7 2 4 8 5 0 0 4 0 0 7 0";
/// The same for a run.
const EXPANDED: &str = "17 7 2 7 2 2 4 8 4 8 4 7 2 4 8 8 5 0 0 15 0 9 7 0 2 1 2 1 0 14 1 10 0 0 0";

/// A formula over regular formulas as one file and as a formula's, and both as they are expanded.
fn regular_files(at: &Path) {
    file(at, "plan.model", &[LABELS, SYSTEM]);
    file(at, "in.words", &[LABELS, SYSTEM, EACH, REGULARS, OVER]);
    file(at, "over.words", &[EACH, REGULARS, OVER]);
    file(at, "in.plain", &[LABELS, SYSTEM, EACH, EXPANDED]);
    file(at, "over.plain", &[EACH, EXPANDED]);
}

/// An input is expanded to an input, a formula to a formula, and what has no regular formulas to itself.
#[test]
fn expansions() {
    let at = &folder("expand");
    regular_files(at);
    for (from, to) in [
        ("in.words", "in.plain"),
        ("plan.model over.words", "over.plain"),
        ("in.plain", "in.plain"),
        ("plan.model over.plain", "over.plain"),
    ] {
        let wanted = fs::read(at.join(to)).unwrap();
        for options in ["", "-o -"] {
            let got = hingrezh(at, &format!("expand {from} {options}"));
            assert_eq!((status(&got), err(&got)), (0, "hingrezh: done 35 0 0\n".to_string()), "{from}");
            assert_eq!(got.stdout, wanted, "{from}");
        }
        let got = hingrezh(at, &format!("expand {from} -o out"));
        assert_eq!((status(&got), out(&got), err(&got)), (0, "done 35 0 0\n".to_string(), String::new()), "{from}");
        assert_eq!(fs::read(at.join("out")).unwrap(), wanted, "{from}");
    }
    assert_eq!(status(&hingrezh(at, "expand in.words -o no/such/out")), 74);
    assert_eq!(status(&hingrezh(at, "expand missing")), 66);
    // A formula alone has no labels.
    let got = hingrezh(at, "expand over.words");
    assert_eq!((status(&got), err(&got).contains("(expected: four lengths, labels, system")), (65, true));
    // What can't be built is not written, and an old output stays: the system, and a formula that needs no expansion.
    file(at, "bad.model", &[LABELS, "2 3 0 2 1 0 1 0 0 9 1"]);
    file(at, "bad.plain", &[EACH, "1 9 0"]);
    for (from, told) in [
        ("bad.model over.words", "bad.model: refused 26 9: transition 1, from state 0"),
        ("bad.model over.plain", "bad.model: refused 26 9: transition 1, from state 0"),
        ("plan.model bad.plain", "bad.plain: refused 43 0: node 0 of the formula has kind 9"),
    ] {
        let got = hingrezh(at, &format!("expand {from} -o out"));
        assert_eq!((status(&got), out(&got)), (2, String::new()), "{from}");
        assert!(err(&got).starts_with(&format!("hingrezh: {told}")), "{from}: {}", err(&got));
    }
    assert_eq!(fs::read(at.join("out")).unwrap(), fs::read(at.join("over.plain")).unwrap());
}

/// Whatever takes a formula takes one over regular formulas, from files and from standard input.
#[test]
fn regular_formulas_are_expanded() {
    let at = &folder("regular");
    regular_files(at);
    for line in ["build", "build --counts --format lines", "build --format words -o -", "dot"] {
        let wanted = hingrezh(at, &format!("{line} in.plain"));
        assert_eq!(status(&wanted), 0, "{line}: {}", err(&wanted));
        let input = |name: &str| fs::read(at.join(name)).unwrap();
        for got in [
            hingrezh(at, &format!("{line} in.words")),
            hingrezh(at, &format!("{line} plan.model over.words")),
            fed(at, &format!("{line} -"), &input("in.words")),
            fed(at, &format!("{line} -"), &input("in.plain")),
            fed(at, &format!("{line} plan.model -"), &input("over.words")),
            fed(at, &format!("{line} plan.model -"), &input("over.plain")),
            fed(at, &format!("{line} - over.words"), &input("plan.model")),
        ] {
            assert_eq!((status(&got), got.stdout), (0, wanted.stdout.clone()), "{line}");
        }
    }
    let got = fed(at, "expand -", &fs::read(at.join("in.words")).unwrap());
    assert_eq!((status(&got), got.stdout), (0, fs::read(at.join("in.plain")).unwrap()));
    let got = hingrezh(at, "night plan.model over.words -o out");
    assert_eq!((status(&got), err(&got)), (0, String::new()));
    let text = hingrezh(at, "build in.plain --format pgsolver").stdout;
    assert_eq!(fs::read(at.join("out/over.pg")).unwrap(), text);
    assert!(fs::read_to_string(at.join("out/manifest")).unwrap().contains(&sum_of(at, "over.words")));
    // The wrapper's functions.
    let regulars = Some(words(REGULARS));
    let formulas = Formulas { actions: words(EACH), regulars, formula: words(OVER) };
    let mut model = Model { labels: words(LABELS), system: words(SYSTEM), ..Model::default() };
    assert_eq!(formulas.expand(&model.labels), Ok(words(EXPANDED)));
    assert_eq!(model.take(&formulas), Ok(()));
    assert_eq!(model, Model::from_bytes(&fs::read(at.join("in.plain")).unwrap()).unwrap());
    let wrong = Formulas { regulars: Some(words("1 0 2")), ..formulas.clone() };
    assert_eq!(model.take(&wrong), Err(Refusal { number: 61, place: 0 }));
    assert_eq!((&model.actions, &model.formula), (&words(EACH), &words(EXPANDED)));
    assert_eq!(Formulas { regulars: None, ..formulas }.expand(&[]), Ok(words(OVER)));
}

/// Of the night's formulas one is refused before its expansion, one because of it, one is done.
#[test]
fn a_night_with_regular_formulas() {
    let at = &folder("regular-night");
    regular_files(at);
    file(at, "wrong.words", &[EACH, "1 3 0", OVER]);
    file(at, "large.words", &[EACH, "3 2 0 0 2 0 1", "10 5 5 5 5 5 5 5 5 5 0 0 0 0 0 0 0 0 0 0 0"]);
    let line = "night plan.model over.words wrong.words large.words over.plain -o out --format words";
    let got = hingrezh(at, line);
    assert_eq!((status(&got), err(&got).contains("both be written to out/over.game")), (64, true), "{}", err(&got));
    let got = hingrezh(at, &line.replace(" over.plain", ""));
    assert_eq!(status(&got), 2);
    let told = err(&got);
    assert!(told.contains("wrong.words: refused 61 0: the regular tree of node 0 is unfinished"), "{told}");
    assert!(told.contains("large.words: refused 62 0: expanded, the formula has 2045 nodes"), "{told}");
    let rows = ["over     done", "wrong    refused 61 0", "large    refused 62 0"];
    assert!(rows.iter().all(|row| out(&got).contains(row)), "{}", out(&got));
    assert_eq!(files_in(&at.join("out")), ["manifest", "over.game"]);
    let manifest = fs::read_to_string(at.join("out/manifest")).unwrap();
    assert!(manifest.contains(" large.words\n# refused 62 0: no game\n"), "{manifest}");
    // A fault of the labels is the model's, and is told once.
    file(at, "bad.model", &["2 2 1 0 7 9", SYSTEM]);
    let got = hingrezh(at, "night bad.model over.words over.words/../over.plain wrong.words -o out");
    assert_eq!(status(&got), 64, "two formulas of one name");
    let got = hingrezh(at, "night bad.model over.words wrong.words -o out");
    assert_eq!(status(&got), 2);
    assert_eq!(err(&got).matches("bad.model: refused 13 3: action 9").count(), 1, "{}", err(&got));
    assert_eq!(err(&got).lines().count(), 1, "{}", err(&got));
}

/// Each fault of regular formulas tells the thing, though their refusal has no place.
#[test]
fn refusals_of_regular_formulas() {
    let at = &folder("regular-refusals");
    for (regulars, told) in [
        ("", "the regular formulas have no words, not even their number of nodes"),
        ("2 0 0", "the first word of the regular formulas says 2 nodes, which makes 5 words, and there are 3"),
        ("1 5 0", "node 0 of the regular formulas has kind 5, and the kinds are 0 to 4"),
        ("3 3 0 7 9 0 0", "node 2 of the regular formulas has kind 7, and the kinds are 0 to 4"),
        ("1 0 2", "regular node 0 (action formula) names action node 2, and there are 2 action nodes, 0 to 1"),
        ("3 1 0 0 1 0 0", "regular node 0 (sequence) has operand 1, and its right child is node 2, just past its"),
        ("3 2 0 0 3 0 0", "regular node 0 (choice) has operand 3, and its right child is node 2, just past its left"),
        ("2 3 0 1 0", "regular node 0 (star) has operand 1, and it must be 0"),
        ("3 0 4 0 0 1 0", "regular node 1 (plus) has operand 1, and it must be 0"),
        // The operand of a sequence whose left tree is unfinished is not judged.
        ("3 0 1 3 0 9 0", "the regular tree of node 1 is unfinished: after node 2 (star) it needs 2 more subtrees"),
        ("2 1 0 2 0", "the regular tree of node 0 is unfinished: after node 1 (action formula) it needs one more"),
    ] {
        let groups = [LABELS, SYSTEM, EACH, regulars, OVER].map(str::to_string);
        refused(at, groups, &format!("refused 61 0: {told}"), "the formula's writer");
    }
    let many = format!("1025{}", " 0".repeat(2050));
    file(at, "many.words", &[LABELS, SYSTEM, EACH, &many, OVER]);
    let got = hingrezh(at, "build many.words");
    let told = "many.words: the regular formulas have 2051 words (1025 nodes), and at most 2049 are legal (1024 nodes)";
    assert_eq!((status(&got), err(&got).contains(told)), (65, true), "{}", err(&got));
}

/// Actions, regular formulas and formula: modalities are judged by the regular formulas, these by the action formulas.
#[test]
fn refusals_of_formulas_over_regular_formulas() {
    let at = &folder("over-refusals");
    for (formulas, told) in [
        ([ACTIONS, "1 0 1", OVER], "61 0: regular node 0 (action formula) names action node 1, and that is inside the"),
        (["0", "1 0 0", OVER], "61 0: regular node 0 (action formula) names action node 0, and there are no action"),
        ([EACH, "0", OVER], "44 2: formula node 2 (box) names regular node 0, and there are no regular formulas"),
        (
            [EACH, "3 1 0 0 2 0 1", "2 5 0 1 0"],
            "44 0: formula node 0 (diamond) names regular node 1, and that is inside the regular formula that begins",
        ),
        (
            [EACH, "1 0 0", "2 5 0 1 0"],
            "44 0: formula node 0 (diamond) names regular node 1, and there is one regular node, number 0",
        ),
        ([EACH, REGULARS, "1 9 0"], "43 0: node 0 of the formula has kind 9"),
        ([EACH, REGULARS, "1 8 0"], "45 0: formula node 0 (reference) names node 0, and that is no fixpoint"),
        (["1 2 4", REGULARS, OVER], "34 0: action node 0 (multi-action) names label 4, and there are 2 labels"),
        (["1 6 0", "", ""], "33 0: node 0 of the action formulas has kind 6"),
    ] {
        let groups = [&[LABELS, SYSTEM], &formulas[..]].concat();
        let groups: [String; 5] = std::array::from_fn(|i| groups[i].to_string());
        refused(at, groups, &format!("refused {told}"), "the formula's writer");
    }
    let groups = ["2 2 1 0 7 9", SYSTEM, EACH, REGULARS, OVER].map(str::to_string);
    refused(at, groups, "refused 13 3: action 9, entry 1 of the labels", "the modeller");
}

/// How large an expanded formula would be, if that can be counted.
#[test]
fn expansions_that_are_too_large() {
    let at = &folder("too-large");
    let boxes = |count: usize| format!("{}{} 0{} 0", count + 1, " 4".repeat(count), " 0".repeat(count));
    let choice = "3 2 0 0 2 0 1";
    for (regulars, count, told) in [
        (choice, 9, "2045 nodes"),
        (choice, 62, "18446744073709551613 nodes"),
        (choice, 63, "more than 10^19 nodes"),
        (choice, 1023, "more than 10^19 nodes"),
        // Each plus copies what it repeats.
        ("10 4 4 4 4 4 4 4 4 4 0 0 0 0 0 0 0 0 0 0 0", 1, "2046 nodes"),
    ] {
        let groups = [LABELS, SYSTEM, EACH, regulars, &boxes(count)].map(str::to_string);
        let told = format!("refused 62 0: expanded, the formula has {told}, and at most 1024 are legal: each part");
        refused(at, groups, &told, "the formula's writer");
    }
    // Eight choices in a row, and eight pluses around each other, have room.
    let pluses = "9 4 4 4 4 4 4 4 4 0 0 0 0 0 0 0 0 0 0";
    for (regulars, count, words) in [(choice, 8, 2043), (pluses, 1, 2045)] {
        file(at, "in.words", &[LABELS, SYSTEM, EACH, regulars, &boxes(count)]);
        let got = hingrezh(at, "expand in.words -o out");
        assert_eq!((status(&got), out(&got)), (0, format!("done {words} 0 0\n")), "{}", err(&got));
    }
}

/// Wherever a file of formulas ends too early, and where it goes on, both sums are told.
#[test]
fn broken_files_of_formulas() {
    let at = &folder("broken-regular");
    regular_files(at);
    for (line, whole, lengths, shorter) in
        [("build", "in.words", 4, 43), ("build", "in.plain", 4, 0), ("build plan.model", "over.words", 2, 24)]
    {
        let bytes = fs::read(at.join(whole)).unwrap();
        // Where it ends with as many words as without regular formulas, all of its words stand one place off.
        for end in (0..bytes.len()).filter(|&end| end != 4 * shorter) {
            fs::write(at.join("broken"), &bytes[..end]).unwrap();
            let got = hingrezh(at, &format!("{line} broken"));
            assert_eq!((status(&got), out(&got)), (65, String::new()), "{whole} {end}: {}", err(&got));
            let told = match end {
                _ if end % 4 != 0 => format!("broken: {end} bytes are no whole number"),
                _ if end < 4 * lengths => format!("broken: there are {} words, fewer than the lengths", end / 4),
                _ => format!("words, and {} follow", end / 4 - lengths),
            };
            assert!(err(&got).contains(&told), "{whole} {end}: {}", err(&got));
        }
        fs::write(at.join("broken"), &bytes[..4 * shorter]).unwrap();
        let wanted = if shorter == 0 { 65 } else { 2 };
        assert_eq!(status(&hingrezh(at, &format!("{line} broken"))), wanted, "{whole}");
        fs::write(at.join("broken"), [&bytes[..], &[0; 4]].concat()).unwrap();
        let got = hingrezh(at, &format!("{line} broken"));
        assert_eq!((status(&got), err(&got).contains("; with regular formulas the ")), (65, true), "{}", err(&got));
        let got = fed(at, &format!("{line} -"), &[&bytes[..], &[0; 4]].concat());
        let told = if whole == "in.plain" { "follow" } else { "and more follow" };
        assert_eq!((status(&got), err(&got).contains(told)), (65, true), "{whole}: {}", err(&got));
    }
    let told = |bytes: &[u32], wanted: &str| {
        let got = fed(at, "build plan.model -", &bytes_of(bytes));
        assert_eq!((status(&got), err(&got).contains(wanted)), (65, true), "{}", err(&got));
    };
    told(&[2, 3, 9], "standard input: the two lengths promise 5 words, and 1 follow; with regular formulas the three");
    told(&[2, 3000], "standard input: the second length is 3000, and at most 2049 are legal there (expected: two");
    told(&[0, 1, 3000, 9], "standard input: the third length is 3000, and at most 2049 are legal there");
    told(&[0, 0, 0, 9], "the two lengths promise 0 words, with regular formulas the three promise 0 words, and more");
    told(&[0, 1], "standard input: the two lengths promise 1 words, and 0 follow (expected: two lengths");
}

#[test]
fn readable_text() {
    let at = &folder("show");
    // (true and mu X1. <a7|a7 or not tau>X1) or nu X2. [label of 9 actions]X2; the placeholder is X0
    let labels = "3 11 0 0 1 1 1 1 1 1 1 1 1 7 7 1 1 1 1 1 1 1 1 1";
    let actions = "5 3 2 5 2 2 2 0 0 2 1";
    let formula = "9 3 2 0 6 5 8 7 4 8 6 3 0 0 0 3 0 4 6";
    file(at, "in.words", &[labels, "1 1 0 1 2 0", actions, formula]);
    let got = hingrezh(at, "show in.words");
    assert_eq!((status(&got), err(&got)), (0, String::new()));
    for line in [
        "labels: 3",
        "  0  a7|a7",
        "  1  a1|a1|a1|a1|a1|a1|a1|a1|a1",
        "  2  tau",
        "system: 1 states, 1 transitions, initial state 0",
        "  0  0 -tau-> 0",
        "  true && (mu X1. <a7|a7 || !tau>X1) || (nu X2. [label1]X2)",
        "items: 10",
        "  0  mu X0 = true && X1 || X2  (placeholder: the formula is no fixpoint)",
        "  1  mu X1 = <a7|a7 || !tau>X1",
        "  2  nu X2 = [label1]X2",
        "  5  true",
        "  9  [label1]X2",
    ] {
        assert!(out(&got).lines().any(|found| found == line), "{line:?} in\n{}", out(&got));
    }
    file(at, "model", &[labels, "1 1 0 1 2 0"]);
    file(at, "formula", &[actions, formula]);
    assert_eq!(out(&hingrezh(at, "show model formula")), out(&got));
}

/// The formula as it was written, its regular formulas by node, and what it is expanded to.
#[test]
fn readable_regular_formulas() {
    let at = &folder("show-regular");
    regular_files(at);
    let got = hingrezh(at, "show in.words");
    assert_eq!((status(&got), err(&got)), (0, String::new()));
    let text = out(&got);
    let formulas = "\
formula over regular formulas: 6 nodes
  nu X0. [(a7 + a9)* . a9+]X0 && <a7>true
regular formulas: 2
  0  (a7 + a9)* . a9+
  7  a7
expanded formula: 17 nodes
  nu X0. (nu X1. ([a7]X1 && [a9]X1) && [a9](nu X2. [a9]X2 && X0)) && <a7>true
";
    assert!(text.contains(formulas), "{text}");
    let (before, after) = text.split_once(formulas).unwrap();
    let plain = out(&hingrezh(at, "show in.plain"));
    assert!(plain.starts_with(before) && plain.ends_with(after), "{plain}");
    assert!(plain.contains("\nformula: 17 nodes\n"), "{plain}");
    assert_eq!(out(&hingrezh(at, "show plan.model over.words")), text);
    // Brackets where they are needed: a7|a9, not a7, a7 or a9 and a7 as action formulas, alone and in larger ones.
    let actions = "7 2 5 2 3 2 2 2 0 0 1 5 1 2 2";
    let many = |count: usize| format!("{count}{}{}", " 0".repeat(count), " 1".repeat(count));
    for (regulars, shown) in [
        ("1 0 0", "a7|a9"),
        ("1 0 1", "!a7"),
        ("1 0 3", "a7 || a9"),
        ("2 3 0 0 0", "(a7|a9)*"),
        ("2 4 0 0 6", "a9+"),
        ("3 1 0 0 2 1 3", "(!a7) . (a7 || a9)"),
        ("3 3 4 0 0 0 6", "(a9+)*"),
        ("5 1 1 0 0 0 4 3 6 6 6", "(a9 . a9) . a9"),
        ("5 1 0 1 0 0 2 6 4 6 6", "a9 . (a9 . a9)"),
        ("5 2 1 0 0 0 4 3 6 6 6", "a9 . a9 + a9"),
        ("5 1 2 0 0 0 4 3 6 6 6", "(a9 + a9) . a9"),
        ("4 3 1 0 0 0 3 6 6", "(a9 . a9)*"),
        ("5 1 3 0 4 0 3 0 6 0 6", "a9* . a9+"),
        (&many(21), "!a7"),
    ] {
        file(at, "in.words", &["3 4 0 0 1 2 7 9 7 9", "1 0 0 0", actions, regulars, "2 5 0 0 0"]);
        let text = out(&hingrezh(at, "show in.words"));
        assert!(text.contains(&format!("\n  <{shown}>true\nregular formulas: ")), "{shown}: {text}");
        assert!(text.contains(&format!("\n  0  {shown}\n")), "{shown}: {text}");
        assert_eq!(text.contains("\n  19  !a7\n  and 1 more (--all lists them)\n"), regulars.starts_with("21"));
    }
    assert!(out(&hingrezh(at, "show in.words --all")).contains("\n  20  !a7\nexpanded formula: 2 nodes\n"));
}

#[test]
fn graphs() {
    let at = &folder("dot");
    file(at, "in.words", &["1 1 0 7", "1 0 0 0", "1 2 0", "2 5 0 0 0"]);
    let got = hingrezh(at, "dot in.words");
    assert_eq!(status(&got), 0);
    for line in [
        "  0 [shape=box, label=1, xlabel=\"0: s0 i0\"];",
        "  0 -> 1;",
        "  1 [shape=diamond, label=1, xlabel=\"1: s0 i1\"];",
        "  1 -> 1;",
    ] {
        assert!(out(&got).lines().any(|found| found == line), "{line:?} in\n{}", out(&got));
    }
    assert_eq!(status(&hingrezh(at, "build in.words -o in.game")), 0);
    assert_eq!(out(&hingrezh(at, "dot in.game")), out(&got));
    let cut = hingrezh(at, "dot in.words --limit=0 -o cut.dot");
    assert_eq!((status(&cut), out(&cut)), (3, String::new()));
    let waiting = "  0 [shape=ellipse, style=dashed, label=\"?\", xlabel=\"0: s0 i0\"];\n";
    assert!(fs::read_to_string(at.join("cut.dot")).unwrap().contains(waiting));
    // A game that was read from text has nothing to say beside a vertex's number.
    assert_eq!(status(&hingrezh(at, "build in.words --format pgsolver -o in.pg")), 0);
    assert_eq!(status(&hingrezh(at, "read in.pg -o read.game")), 0);
    let read = out(&hingrezh(at, "dot read.game"));
    assert!(read.contains("  0 [shape=box, label=1, xlabel=0];\n") && read.contains("xlabel=1];\n"), "{read}");
    let large = hingrezh(at, "dot in.game --vertices 1");
    assert_eq!((status(&large), err(&large).contains("in.game: the game has 2 vertices")), (2, true));
}

/// Each vertex by its numbers and, with model and formula, in their words.
#[test]
fn what_a_vertex_stands_for() {
    let at = &folder("where");
    input(at, "in.words");
    night_files(at);
    assert_eq!(status(&hingrezh(at, "build in.words -o game")), 0);
    let told = |line: &str, text: &str| {
        let got = hingrezh(at, line);
        assert_eq!((status(&got), out(&got), err(&got)), (0, text.to_string(), String::new()), "{line}");
    };
    let both = "--model plan.model --formula long.words";
    told("where game 0", "vertex 0: state 0, item 0\nowner 0 (Even), priority 0, 1 edge\n");
    told("where game 3", "vertex 3: state 1, item 2\nowner 1 (Odd), priority 0, 1 edge\n");
    for (vertex, numbers, text) in [
        (0, "state 0, item 0\nowner 0 (Even), priority 0, 1 edge", "item 0, an equation: nu X0 = [a7 || a9]X0"),
        (1, "state 0, item 1\nowner 1 (Odd), priority 0, 2 edges", "item 1, a subformula: [a7 || a9]X0"),
        (2, "state 0, item 2\nowner 1 (Odd), priority 0, 1 edge", "item 2, a subformula: X0"),
    ] {
        let state = "state 0: 2 transitions\n  0 -a7-> 0\n  0 -a9-> 1";
        let text = format!("vertex {vertex}: {numbers}\n{text}\n{state}\n");
        told(&format!("where game {vertex} {both}"), &text);
        told(&format!("where --formula=long.words --model=plan.model -- game {vertex}"), &text);
        // The restriction numbers these vertices alike.
        assert_eq!(status(&hingrezh(at, "restrict game -o part")), 0);
        told(&format!("where part {vertex} {both}"), &text);
    }
    let state = "state 1: 1 transition\n  1 -a7-> 1\n";
    let text = "vertex 5: state 1, item 1\nowner 1 (Odd), priority 0, 1 edge\nitem 1, a subformula: [a7 || a9]X0\n";
    told(&format!("where game 5 {both}"), &format!("{text}{state}"));
}

/// Every item of a formula over regular formulas stands as show lists it; the numbers are those of the game.
#[test]
fn vertices_over_regular_formulas() {
    let at = &folder("where-regular");
    regular_files(at);
    assert_eq!(status(&hingrezh(at, "build in.words -o game")), 0);
    let shown = out(&hingrezh(at, "show in.words"));
    let words = words_of(&fs::read(at.join("game")).unwrap()).unwrap();
    let game = Game::of_words(&words).unwrap();
    for vertex in 0..game.vertices() {
        let text = out(&hingrezh(at, &format!("where game {vertex} --model plan.model --formula over.words")));
        let (state, item) = (game.state(vertex), game.item(vertex));
        assert!(text.starts_with(&format!("vertex {vertex}: state {state}, item {item}\n")), "{text}");
        let line = text.lines().nth(2).unwrap().split_once(": ").unwrap().1;
        assert!(shown.contains(&format!("\n  {item}  {line}\n")), "{line}: {shown}");
    }
}

/// The placeholder, a state without transitions and one with many; a waiting vertex of a cut game.
#[test]
fn vertices_of_other_kinds() {
    let at = &folder("where-kinds");
    let degrees = format!("22 0{}{}", " 0".repeat(22), " 1".repeat(22));
    file(at, "plan.model", &["1 1 0 7", &format!("2 22 0 {degrees}")]);
    file(at, "formula", &["1 2 0", "2 5 0 0 0"]);
    let both = "--model plan.model --formula formula";
    assert_eq!(status(&hingrezh(at, "build plan.model formula -o game")), 0);
    let got = out(&hingrezh(at, &format!("where game 0 {both}")));
    let placeholder = "item 0, an equation: mu X0 = <a7>true  (placeholder: the formula is no fixpoint)\n";
    assert!(got.contains(placeholder) && got.contains("\nstate 0: 22 transitions\n  0 -a7-> 1\n"), "{got}");
    assert_eq!((got.lines().count(), got.ends_with("\n  and 2 more\n")), (25, true), "{got}");
    let got = out(&hingrezh(at, &format!("where game 2 {both}")));
    assert_eq!(got.lines().skip(2).collect::<Vec<_>>(), ["item 2, a subformula: true", "state 1: no transitions"]);
    assert_eq!(status(&hingrezh(at, "build plan.model formula --limit 2 -o cut")), 3);
    let got = hingrezh(at, &format!("where cut 2 {both}"));
    let waiting = "vertex 2: state 1, item 2\nowner 2 (it still waits: the game is cut), priority 0, no edges\n";
    assert_eq!((status(&got), out(&got).starts_with(waiting)), (3, true), "{}", out(&got));
    let settled = hingrezh(at, "where cut 1");
    assert_eq!((status(&settled), out(&settled).contains("owner 0 (Even), priority 0, 1 edge")), (3, true));
}

/// What is asked for, the exit status, and what is said.
const NOT_TOLD: [(&str, i32, &str); 18] = [
    ("game", 64, "a game and the number of a vertex are wanted"),
    ("game 1 2", 64, "a game and the number of a vertex are wanted"),
    ("game -1", 64, "no option -1"),
    ("game x", 64, "the vertex is a 32-bit number, not \"x\""),
    ("game 4294967296", 64, "the vertex is a 32-bit number"),
    ("game 1 --model plan.model", 64, "--model and --formula are wanted both, or neither"),
    ("game 1 --formula long.words", 64, "--model and --formula are wanted both, or neither"),
    ("game 6", 2, "game: there is no vertex 6: there are 6 vertices, 0 to 5"),
    ("missing 0", 66, "missing: No such file"),
    ("text 0", 65, "text: this is PGSolver text; `hingrezh read` makes a game's words of it"),
    ("none 0", 2, "none: refused 51 0: 1 vertices and 1 edges make 11 words, and there are 9: the"),
    ("game 0 --model missing --formula long.words", 66, "missing: No such file"),
    ("game 0 --model plan.model --formula wrong.words", 2, "wrong.words: refused 43 0: node 0 of"),
    (
        "read 0 --model plan.model --formula long.words",
        2,
        "read: no game of plan.model, long.words: every vertex has state 0 and item 0: read from text, no states",
    ),
    (
        "game 0 --model one.model --formula long.words",
        2,
        "game: no game of one.model, long.words: vertex 3 has state 1, and there is one state, number 0",
    ),
    (
        "game 0 --model second.model --formula long.words",
        2,
        "vertex 0 has state 0 and item 0, and not 1, the initial state, and 0",
    ),
    ("game 0 --model plan.model --formula short.words", 2, "vertex 0 has owner 0 (Even), and its item 0 has 1 (Odd)"),
    ("game 0 --model plan.model --formula other.words", 2, "vertex 0 has owner 0 (Even), and its item 0 has 1 (Odd)"),
];

/// A vertex that is not there, a file that is no game, a game that has no states or does not fit.
#[test]
fn vertices_that_are_not_told() {
    let at = &folder("where-not");
    input(at, "in.words");
    night_files(at);
    file(at, "other.words", &[ACTIONS, "3 6 4 8 0 0 0"]);
    file(at, "one.model", &[LABELS, "1 1 0 1 0 0"]);
    file(at, "second.model", &[LABELS, "2 3 1 2 1 0 1 0 0 1 1"]);
    assert_eq!(status(&hingrezh(at, "build in.words -o game")), 0);
    assert_eq!(status(&hingrezh(at, "build in.words --format pgsolver -o text")), 0);
    assert_eq!(status(&hingrezh(at, "read text -o read")), 0);
    fs::write(at.join("none"), bytes_of(&words("1 1 0  0  0  0 1  0  0"))).unwrap();
    let both = "--model plan.model --formula long.words";
    for (line, wanted, told) in NOT_TOLD {
        let got = hingrezh(at, &format!("where {line}"));
        assert_eq!((status(&got), out(&got)), (wanted, String::new()), "{line}: {}", err(&got));
        assert!(err(&got).contains(told), "{line}: {}", err(&got));
    }
    let got = hingrezh(at, "where read 3");
    let text =
        "vertex 3: state 0, item 0, as every vertex here: read from text, no states\nowner 1 (Odd), priority 0, ";
    assert_eq!((status(&got), out(&got)), (0, format!("{text}1 edge\n")));
    // Too few items, too.
    let mut game = words_of(&fs::read(at.join("game")).unwrap()).unwrap();
    let items = Layout::of(&game).items();
    game[items.end - 1] = 3;
    fs::write(at.join("game"), bytes_of(&game)).unwrap();
    let got = hingrezh(at, &format!("where game 0 {both}"));
    assert!(err(&got).contains("vertex 5 has item 3, and there are 3 items, 0 to 2"), "{}", err(&got));
}

/// From state 0 by label 0 to 1, 1, 0 and 1, by label 1 to 0; state 1 is stuck. Greatest X, the diamond of label 0, X.
fn counted_input(at: &Path) {
    file(at, "in.words", &[LABELS, "2 5 0 5 0 0 0 1 0 0 1 1 0 0 1", "1 2 0", "3 7 5 8 0 0 0"]);
}

/// Counts in lines where they are wanted, in graphs where there are several transitions; in words always.
#[test]
fn counts() {
    let at = &folder("counts");
    counted_input(at);
    let plain = "done 6 6 7\n0 0 0 1\n1 0 0 2 3\n2 1 0 4\n3 1 0 0\n4 0 0 5\n5 0 1 5\n";
    let counted = "done 6 6 7\n0 0 0 1\n1 0 0 2*3 3*1\n2 1 0 4\n3 1 0 0\n4 0 0 5\n5 0 1 5\n";
    let told = |line: &str, text: &str| {
        let got = hingrezh(at, line);
        assert_eq!((status(&got), out(&got), err(&got)), (0, text.to_string(), String::new()), "{line}");
    };
    told("build in.words", plain);
    told("build in.words --counts", counted);
    told("build in.words --counts --format lines -o -", counted);
    told("build in.words --counts --format lines -o lines", "done 6 6 7\n");
    assert_eq!(fs::read_to_string(at.join("lines")).unwrap(), counted);
    told("build in.words -o game", "done 6 6 7\n");
    told("restrict game", plain);
    told("restrict game --counts", counted);
    told("restrict game --counts --map", &format!("{counted}map 0 1 2 3 4 5\n"));
    let game = words_of(&fs::read(at.join("game")).unwrap()).unwrap();
    assert_eq!(Game::of_words(&game).unwrap().counts(1), [3, 1]);
    let cut = hingrezh(at, "build in.words --limit 2 --counts");
    assert_eq!((status(&cut), out(&cut)), (3, "cut 2 4 3\n0 0 0 1\n1 0 0 2*3 3*1\n2 2 0\n3 2 0\n".to_string()));
    // A text has no counts, and is read with none.
    told("build in.words --format pgsolver -o text", "done 6 6 7\n");
    told("read text --format lines", plain);
    told("read text -o again", "done 6 6 7\n");
    told("restrict again --counts", plain);
    // Any number is a count: it is copied and shown.
    let any = "2 3 1  0 1  0 0  7 8  9 4294967295  0 1 3  0 1 1  5 4294967295 0";
    fs::write(at.join("any"), bytes_of(&words(any))).unwrap();
    told("restrict any --counts", "done 1 1 2\n0 1 0 0*4294967295 0\n");
}

#[test]
fn counts_in_graphs() {
    let at = &folder("counted-graphs");
    counted_input(at);
    let got = hingrezh(at, "dot in.words");
    assert_eq!((status(&got), err(&got)), (0, String::new()));
    let edges: Vec<String> = out(&got).lines().filter(|line| line.contains("->")).map(str::to_string).collect();
    let other = ["  0 -> 1;", "  1 -> 2 [label=3];", "  1 -> 3;", "  2 -> 4;", "  3 -> 0;", "  4 -> 5;", "  5 -> 5;"];
    assert_eq!((edges[0].as_str(), &edges[1..]), ("  start -> 0;", &other.map(str::to_string)[..]));
    assert_eq!(status(&hingrezh(at, "build in.words -o game")), 0);
    assert_eq!(out(&hingrezh(at, "dot game")), out(&got));
    // A game as it was before vertices had states and items, and before edges had counts, too.
    let mut game = words_of(&fs::read(at.join("game")).unwrap()).unwrap();
    let layout = Layout::of(&game);
    game.drain(layout.states().start..layout.items().end);
    for (words, missing) in [(36, "states and items"), (29, "states and items and the edges' counts")] {
        fs::write(at.join("old"), bytes_of(&game[..words])).unwrap();
        let old = hingrezh(at, "dot old");
        let told = "old: refused 51 0: 6 vertices and 7 edges make 48 words, and there are";
        let told = format!("{told} {words}: the vertices' {missing} are missing;");
        assert_eq!((status(&old), err(&old).contains(&told)), (2, true), "{}", err(&old));
    }
}

/// A game's words with all states, items and counts 0, as they are read from its text.
fn as_read(game: &[u8]) -> Vec<u8> {
    let mut words = words_of(game).unwrap();
    let layout = Layout::of(&words);
    for column in [layout.states(), layout.items(), layout.counts()] {
        words[column].fill(0);
    }
    bytes_of(&words)
}

/// The game of `input`.
const TEXT: &str = "parity 5;\n0 0 0 1;\n1 0 1 2,3;\n2 0 1 0;\n3 0 1 4;\n4 0 0 5;\n5 0 1 3;\n";

/// Each format to standard output and into a file; the answer stands where it is in nobody's way.
#[test]
fn formats() {
    let at = &folder("formats");
    input(at, "in.words");
    let lines = out(&hingrezh(at, "build in.words"));
    let words = hingrezh(at, "build in.words -o -").stdout;
    for (format, whole) in [("pgsolver", TEXT.as_bytes()), ("words", &words), ("lines", lines.as_bytes())] {
        let answer = if format == "lines" { "" } else { "hingrezh: done 6 6 7\n" };
        for line in [format!("--format {format}"), format!("--format={format} -o -")] {
            let got = hingrezh(at, &format!("build in.words {line}"));
            assert_eq!((status(&got), err(&got)), (0, answer.to_string()), "{line}");
            assert_eq!(got.stdout, whole, "{line}");
        }
        let got = hingrezh(at, &format!("build in.words --format {format} -o out"));
        assert_eq!((status(&got), out(&got)), (0, "done 6 6 7\n".to_string()), "{format}: {}", err(&got));
        assert_eq!(fs::read(at.join("out")).unwrap(), whole, "{format}");
        // What was built is its own reachable part, and is read back as it was.
        fs::write(at.join("game"), &words).unwrap();
        fs::write(at.join("text"), TEXT).unwrap();
        assert_eq!(hingrezh(at, &format!("restrict game --format {format}")).stdout, whole, "{format}");
        let read = hingrezh(at, &format!("read text --format {format}")).stdout;
        assert_eq!(read, if format == "words" { as_read(whole) } else { whole.to_vec() }, "{format}");
    }
    assert_eq!(hingrezh(at, "read text").stdout, as_read(&words));
    let mapped = hingrezh(at, "restrict game --map --format pgsolver -o out");
    assert_eq!(out(&mapped), "done 6 6 7\nmap 0 1 2 3 4 5\n", "{}", err(&mapped));
    assert_eq!(fs::read_to_string(at.join("out")).unwrap(), TEXT);
}

/// A cut game has no text: nothing is written, and an old output stays. Its words and lines are written as before.
#[test]
fn cut_games_as_text() {
    let at = &folder("cut");
    input(at, "in.words");
    fs::write(at.join("out"), "old").unwrap();
    for line in ["build in.words --limit 3 --format pgsolver", "build in.words --limit 3 --format pgsolver -o out"] {
        let got = hingrezh(at, line);
        assert_eq!((status(&got), out(&got)), (3, String::new()), "{line}");
        let told = "in.words: cut after 3 steps: a cut game has no PGSolver text, and nothing is written";
        assert!(err(&got).contains(told), "{line}: {}", err(&got));
    }
    assert_eq!(fs::read_to_string(at.join("out")).unwrap(), "old");
    assert_eq!(files_in(at), ["in.words", "out"]);
    let words = hingrezh(at, "build in.words --limit 3 --format words -o cut.game");
    assert_eq!((status(&words), out(&words).starts_with("cut 3 ")), (3, true));
    let got = hingrezh(at, "restrict cut.game --format pgsolver");
    assert!(err(&got).contains("restricted or written as PGSolver text"), "{}", err(&got));
}

/// Lines in any order, names, repeated successors; and the room is what the text needs unless it is chosen.
#[test]
fn texts_that_are_read() {
    let at = &folder("read");
    fs::write(at.join("a.pg"), b"parity 1;\n1 4294967295 1 0,1,0 \"b;, \xff\";\n0 2 0 1 \"\";\n").unwrap();
    let got = hingrezh(at, "read a.pg --format lines");
    assert_eq!(out(&got), "done 2 2 3\n0 0 2 1\n1 1 4294967295 0 1\n", "{}", err(&got));
    assert_eq!(out(&hingrezh(at, "read a.pg --format pgsolver")), "parity 1;\n0 2 0 1;\n1 4294967295 1 0,1;\n");
    let got = hingrezh(at, "read a.pg --vertices 2 --edges 3 -o a.game");
    assert_eq!((status(&got), out(&got)), (0, "done 2 2 3\n".to_string()), "{}", err(&got));
    assert_eq!(
        fs::read(at.join("a.game")).unwrap(),
        bytes_of(&words("2 3 0  0 1  2 4294967295  0 0  0 0  0 1 3  1 0 1  0 0 0"))
    );
    for command in ["restrict", "dot"] {
        let got = hingrezh(at, &format!("{command} a.pg"));
        let told = "a.pg: this is PGSolver text; `hingrezh read` makes a game's words of it";
        assert_eq!((status(&got), err(&got).contains(told)), (65, true), "{}", err(&got));
    }
    assert_eq!(status(&hingrezh(at, "read missing.pg")), 66);
    assert_eq!(status(&hingrezh(at, "read a.pg -o no/such/out")), 74);
}

/// Each refusal of a text tells the line and what is wrong there; an old output stays.
#[test]
fn refusals_of_texts() {
    let at = &folder("texts");
    fs::write(at.join("out"), "old").unwrap();
    for (text, told) in [
        ("", "91 0: line 1, column 1: the header `parity`, the highest vertex and a semicolon should stand there, and"),
        ("0 0 0 0;\n", "91 0: line 1, column 1: the header"),
        ("parity 0;\nstart 0;\n0 0 0 0;\n", "91 0: line 2, column 1: the number of a vertex should stand there"),
        ("parity 00;\n0 0 0 0;\n", "91 0: line 1, column 8: a number without leading zeros"),
        ("parity 0;\r\n0 0 0 0;\n", "91 0: line 1, column 10: the end of the line should stand there, and not '\\r'"),
        ("parity 1;\n0 0 0 1;\n1 0 2 0;\n", "91 0: line 3, column 5: the owner, 0 or 1, and a space should stand"),
        ("parity 0;\n0  0 0 0;\n", "91 0: line 2, column 3: a priority should stand there, and not ' '"),
        ("parity 0;\n0 0 0 ;\n", "91 0: line 2, column 7: a successor should stand there, and not ';'"),
        ("parity 0;\n0 0 0 0, 0;\n", "91 0: line 2, column 9: a successor should stand there, and not ' '"),
        ("parity 0;\n0 0 0 0\"\";\n", "91 0: line 2, column 8: a comma, a space and a name, or a semicolon should"),
        ("parity 0;\n0 0 0 0 \"a\nb\";\n", "91 0: line 2, column 11: the double quote that ends the name should"),
        ("parity 0;\n0 0 0 0;", "91 0: line 2, column 9: the end of the line should stand there, and not the end of"),
        ("parity 0;\n0 0 0 0;\n\0", "91 0: line 3, column 1: the number of a vertex should stand there, and not"),
        ("parity 1;\n0 0 0 0;\n", "92 0: vertex 1 has no line, and the header says that 1 is the highest"),
        ("parity 1;\n0 0 0 0;\n0 0 0 0;\n", "92 0: line 3: vertex 0 is given a second time"),
        ("parity 0;\n0 0 0 0;\n1 0 0 0;\n", "92 0: line 3: the vertex is 1, and the header says that 0 is the highest"),
        (
            "parity 0;\n0 0 0 0,4294967296;\n",
            "92 0: line 2: a successor is 4294967296, and the header says that 0 is the",
        ),
        ("parity 0;\n0 0 0 99999999999999999999999;\n", "92 0: line 2: a successor is beyond 64 bits, and the"),
        ("parity 9;\n0 0 0 0;\n", "92 0: vertex 1 has no line, and the header says that 9 is the highest"),
        ("parity 0;\n0 4294967296 0 0;\n", "93 0: line 2: the priority of vertex 0 is above 4294967295"),
    ] {
        fs::write(at.join("wrong.pg"), text).unwrap();
        let got = hingrezh(at, "read wrong.pg -o out");
        assert_eq!((status(&got), out(&got)), (2, String::new()), "{text:?}: {}", err(&got));
        assert!(err(&got).starts_with(&format!("hingrezh: wrong.pg: refused {told}")), "{text:?}: {}", err(&got));
        assert!(err(&got).ends_with("; to be mended by whoever hands over the text\n"), "{text:?}: {}", err(&got));
    }
    assert_eq!(fs::read_to_string(at.join("out")).unwrap(), "old");
}

#[test]
fn refusals_of_rooms_of_texts_and_of_stuck_games() {
    let at = &folder("text-rooms");
    fs::write(at.join("a.pg"), "parity 1;\n0 0 0 0,1,0;\n1 0 0 1;\n").unwrap();
    for (options, told) in [
        ("--vertices 0", "a.pg: refused 1 0: room for 0 vertices is asked for, and 1 to 1048576 are legal"),
        ("--edges 4194305", "a.pg: refused 1 0: room for 4194305 edges is asked for"),
        ("--vertices 1", "a.pg: refused 93 0: the game has 2 vertices, and the room is for 1 (--vertices; at most"),
        ("--edges 2", "a.pg: refused 93 0: the game has more edges than the room's 2, equal ones counted once"),
    ] {
        let got = hingrezh(at, &format!("read a.pg {options}"));
        assert_eq!((status(&got), out(&got)), (2, String::new()), "{options}");
        assert!(err(&got).contains(told), "{options}: {}", err(&got));
    }
    assert_eq!(status(&hingrezh(at, "read a.pg --vertices 2 --edges 3 -o a.game")), 0);
    fs::write(at.join("stuck.game"), bytes_of(&words("3 1 2  0 0 0  0 0 0  0 0 0  0 0 0  0 0 0 1  1  1"))).unwrap();
    let got = hingrezh(at, "restrict stuck.game --format pgsolver -o out");
    assert_eq!((status(&got), out(&got), at.join("out").exists()), (2, String::new(), false));
    let told = "stuck.game: refused 98 0: in the restricted game vertex 1 has no successors, and in PGSolver text";
    assert!(err(&got).contains(told), "{}", err(&got));
    assert!(err(&got).ends_with("; to be mended by whoever hands over the game\n"), "{}", err(&got));
    assert_eq!(status(&hingrezh(at, "restrict stuck.game")), 0);
}

/// A model and formulas: one that is done, one refused, one that needs more steps than 5.
fn night_files(at: &Path) {
    file(at, "plan.model", &[LABELS, SYSTEM]);
    file(at, "short.words", &["0", "1 0 0"]);
    file(at, "wrong.words", &["0", "1 9 0"]);
    file(at, "long.words", &[ACTIONS, ALWAYS]);
}

#[test]
fn a_night() {
    let at = &folder("night");
    night_files(at);
    let all = "night plan.model short.words long.words -o out";
    let got = hingrezh(at, all);
    assert_eq!((status(&got), err(&got)), (0, String::new()));
    let table = out(&got);
    let cells: Vec<Vec<&str>> = table.lines().map(|row| row.split_whitespace().collect()).collect();
    assert_eq!(cells[0], ["formula", "answer", "steps", "vertices", "edges", "seconds"]);
    assert_eq!(cells[1][..5], ["short", "done", "2", "2", "2"]);
    assert_eq!(cells[2][..5], ["long", "done", "6", "6", "7"]);
    assert_eq!(status(&hingrezh(at, "build plan.model long.words --format pgsolver -o long.pg")), 0);
    assert_eq!(fs::read(at.join("out/long.pg")).unwrap(), fs::read(at.join("long.pg")).unwrap());

    // The next night one formula is cut, one refused and one missing: their old games are gone, others stay.
    for name in ["wrong.pg", "missing.pg", "missing.game", "short.lines", "other.pg"] {
        fs::copy(at.join("out/long.pg"), at.join("out").join(name)).unwrap();
    }
    let got = hingrezh(at, "night plan.model short.words long.words wrong.words missing.words -o out --limit=5");
    assert_eq!(status(&got), 66, "the gravest of all");
    assert!(err(&got).contains("long.words: cut after 5 steps"), "{}", err(&got));
    assert!(err(&got).contains("wrong.words: refused 43 0: node 0 of the formula has kind 9"), "{}", err(&got));
    assert!(err(&got).contains("missing.words: No such file"), "{}", err(&got));
    let answers: Vec<String> =
        out(&got).lines().skip(1).map(|row| row.split_whitespace().nth(1).unwrap().into()).collect();
    assert_eq!(answers, ["done", "cut", "refused", "failed"]);
    assert_eq!(files_in(&at.join("out")), ["manifest", "other.pg", "short.pg"]);
    let manifest = fs::read_to_string(at.join("out/manifest")).unwrap();
    assert!(manifest.contains("# cut 5 6 6: no game\n"), "{manifest}");
    let alone = |formula: &str| status(&hingrezh(at, &format!("night plan.model {formula} -o out --limit=5")));
    assert_eq!((alone("long.words"), alone("wrong.words"), alone("short.words")), (3, 2, 0));
}

fn files_in(folder: &Path) -> Vec<String> {
    let names = fs::read_dir(folder).unwrap().map(|file| file.unwrap().file_name().into_string().unwrap());
    let mut names: Vec<String> = names.collect();
    names.sort();
    names
}

/// A game's words with the first of equal edges alone and all states, items and counts 0.
fn without_repeats(words: &[u32]) -> Vec<u32> {
    let game = Game::of_words(words).unwrap();
    let (mut offsets, mut targets) = (vec![0], Vec::new());
    for vertex in 0..game.vertices() {
        let successors = game.successors(vertex).iter().enumerate();
        targets.extend(successors.filter(|(at, to)| !game.successors(vertex)[..*at].contains(to)).map(|(_, &to)| to));
        offsets.push(targets.len() as u32);
    }
    let layout = Layout::of(words);
    let vertices = &words[layout.owners().start..layout.priorities().end];
    let (states_and_items, counts) = (vec![0; 2 * layout.vertices], vec![0; targets.len()]);
    let head = [words[0], targets.len() as u32, 0];
    [&head, vertices, &states_and_items[..], &offsets[..], &targets[..], &counts[..]].concat()
}

/// Each format has its ending, and old games in another one are gone; what was written is read back.
#[test]
fn a_night_in_each_format() {
    let at = &folder("night-formats");
    night_files(at);
    // true and true: two equal edges.
    file(at, "twice.words", &["0", "3 2 0 0 2 0 0"]);
    let night = |options: &str| {
        let got = hingrezh(at, &format!("night plan.model long.words twice.words -o out {options}"));
        assert_eq!((status(&got), err(&got)), (0, String::new()), "{options}");
        fs::read_to_string(at.join("out/manifest")).unwrap().lines().nth(2).unwrap().to_string()
    };
    assert!(night("--format lines").ends_with("; format lines"));
    assert_eq!(files_in(&at.join("out")), ["long.lines", "manifest", "twice.lines"]);
    let lines = || fs::read_to_string(at.join("out/long.lines")).unwrap();
    assert_eq!(lines(), out(&hingrezh(at, "build plan.model long.words")));
    assert!(night("--format lines --counts").ends_with("; format lines with counts"));
    assert_eq!(files_in(&at.join("out")), ["long.lines", "manifest", "twice.lines"]);
    assert_eq!(lines(), out(&hingrezh(at, "build plan.model long.words --counts")));
    assert!(lines().contains("\n1 1 0 2*1 3*1\n"), "{}", lines());
    assert!(night("--format=words").ends_with("; format words"));
    assert_eq!(files_in(&at.join("out")), ["long.game", "manifest", "twice.game"]);
    let games = ["long", "twice"].map(|name| fs::read(at.join(format!("out/{name}.game"))).unwrap());
    assert!(night("").ends_with("; format pgsolver"));
    assert_eq!(files_in(&at.join("out")), ["long.pg", "manifest", "twice.pg"]);
    for (name, game) in ["long", "twice"].into_iter().zip(games) {
        let got = hingrezh(at, &format!("read out/{name}.pg"));
        let words = words_of(&game).unwrap();
        assert_eq!((status(&got), got.stdout), (0, bytes_of(&without_repeats(&words))), "{name}");
        assert_eq!(without_repeats(&words)[1] == words[1], name == "long");
    }
    // A formula's own file is not removed, whatever its ending is.
    fs::copy(at.join("long.words"), at.join("out/other.lines")).unwrap();
    let got = hingrezh(at, "night plan.model out/other.lines -o out");
    assert_eq!((status(&got), err(&got).contains("is the input out/other.lines")), (64, true), "{}", err(&got));
    assert!(at.join("out/other.lines").exists());
}

#[test]
fn a_night_without_a_model() {
    let at = &folder("no-model");
    night_files(at);
    let night = |model: &str| hingrezh(at, &format!("night {model} short.words long.words -o out"));
    assert_eq!(status(&night("plan.model")), 0);
    let got = night("missing.model");
    assert_eq!((status(&got), err(&got).contains("missing.model: No such file")), (66, true));
    assert_eq!(fs::read_dir(at.join("out")).unwrap().count(), 0, "the games of another night are gone");
    // A fault of the model is told once, and is every formula's.
    file(at, "bad.model", &[LABELS, "2 3 0 2 1 0 1 0 0 9 1"]);
    let got = night("bad.model");
    assert_eq!(status(&got), 2);
    assert_eq!(err(&got).matches("bad.model: refused 26 9: transition 1, from state 0").count(), 1, "{}", err(&got));
    assert_eq!(out(&got).matches("refused 26 9").count(), 2, "{}", out(&got));
}

#[test]
fn a_night_loses_nothing() {
    let at = &folder("apart");
    night_files(at);
    fs::create_dir_all(at.join("other")).unwrap();
    fs::copy(at.join("short.words"), at.join("other/short.formula")).unwrap();
    assert_eq!(status(&hingrezh(at, "night plan.model short.words -o out")), 0);
    fs::copy(at.join("long.words"), at.join("out/long.pg")).unwrap();
    fs::copy(at.join("plan.model"), at.join("out/manifest.model")).unwrap();
    let before = |name: &str| fs::read(at.join(name)).unwrap();
    let kept = [before("out/short.pg"), before("out/long.pg"), before("out/manifest")];
    for (line, told) in [
        ("night plan.model short.words other/short.formula -o out", "would both be written to out/short.pg"),
        ("night plan.model short.words out/long.pg -o out", "the output out/long.pg is the input out/long.pg"),
        ("night out/short.pg short.words -o ./out", "the output ./out/short.pg is the input out/short.pg"),
        ("night out/manifest short.words -o out", "the output out/manifest is the input out/manifest"),
    ] {
        let got = hingrezh(at, line);
        assert_eq!((status(&got), err(&got).contains(told)), (64, true), "{line}: {}", err(&got));
    }
    assert_eq!(kept, [before("out/short.pg"), before("out/long.pg"), before("out/manifest")]);
    fs::write(at.join("file"), "no folder").unwrap();
    let got = hingrezh(at, "night plan.model short.words -o file");
    assert_eq!((status(&got), err(&got).starts_with("hingrezh: file: ")), (74, true), "{}", err(&got));
}

#[test]
fn a_night_that_cannot_write() {
    let at = &folder("unwritable");
    night_files(at);
    let line = "night plan.model short.words long.words -o out";
    // What an interrupted night left is no obstacle.
    fs::create_dir_all(at.join("out")).unwrap();
    fs::write(at.join("out/.short.pg.hingrezh-part"), "half").unwrap();
    assert_eq!(status(&hingrezh(at, line)), 0);
    assert!(!at.join("out/.short.pg.hingrezh-part").exists());
    // The folder belongs to one night at a time.
    let taken = fs::File::open(at.join("out")).unwrap();
    taken.lock().unwrap();
    let got = hingrezh(at, line);
    assert_eq!((status(&got), err(&got).contains("out: another night is at work there")), (74, true), "{}", err(&got));
    assert!(at.join("out/short.pg").exists());
    drop(taken);
    // The table is lost, the games are not.
    fs::remove_dir_all(at.join("out")).unwrap();
    let full = fs::OpenOptions::new().write(true).open("/dev/full").unwrap();
    let mut command = Command::new(env!("CARGO_BIN_EXE_hingrezh"));
    let got = command.current_dir(at).args(line.split(' ')).stdout(full).output().unwrap();
    assert_eq!((status(&got), err(&got).starts_with("hingrezh: standard output: ")), (74, true), "{}", err(&got));
    assert!(["short.pg", "long.pg", "manifest"].iter().all(|file| at.join("out").join(file).exists()));
    // An old game that cannot be removed is told, and the others are removed all the same.
    fs::remove_file(at.join("out/short.pg")).unwrap();
    fs::create_dir(at.join("out/short.pg")).unwrap();
    let got = hingrezh(at, line);
    assert_eq!((status(&got), err(&got).contains("removing the old out/short.pg: ")), (74, true), "{}", err(&got));
    assert!(!at.join("out/long.pg").exists() && !at.join("out/manifest").exists());
}

#[test]
fn manifests() {
    let at = &folder("manifest");
    night_files(at);
    assert_eq!(status(&hingrezh(at, "night plan.model short.words wrong.words -o out")), 2);
    let manifest = fs::read_to_string(at.join("out/manifest")).unwrap();
    let lines: Vec<&str> = manifest.lines().collect();
    assert!(lines[0].starts_with("# hingrezh 0.") && lines[1].starts_with("# toolchain "), "{manifest}");
    assert_eq!(lines[2], "# room 1048576 vertices, 4194304 edges; step limit 4294967295; format pgsolver");
    let sums = ["plan.model", "short.words", "out/short.pg", "wrong.words"].map(|file| sum_of(at, file));
    assert_eq!(lines[3], format!("# model {} plan.model", sums[0]));
    assert_eq!(lines[4], format!("# formula {} short.words", sums[1]));
    assert_eq!(lines[5..7], ["# done 2 2 2".to_string(), format!("{}  short.pg", sums[2])]);
    assert_eq!(lines[7..], [format!("# formula {} wrong.words", sums[3]), "# refused 43 0: no game".to_string()]);
}

/// The checksum by another program.
fn sum_of(at: &Path, file: &str) -> String {
    let got = Command::new("sha256sum").current_dir(at).arg(file).output().expect("sha256sum is there");
    out(&got).split_whitespace().next().unwrap().to_string()
}

/// The same with something on standard input.
fn fed(folder: &Path, arguments: &str, bytes: &[u8]) -> Output {
    let mut command = Command::new(env!("CARGO_BIN_EXE_hingrezh"));
    command.current_dir(folder).args(arguments.split_whitespace());
    let mut child = command.stdin(Stdio::piped()).stdout(Stdio::piped()).stderr(Stdio::piped()).spawn().unwrap();
    child.stdin.take().unwrap().write_all(bytes).unwrap();
    child.wait_with_output().unwrap()
}

#[test]
fn standard_input() {
    let at = &folder("stdin");
    input(at, "in.words");
    let got = fed(at, "build -", &fs::read(at.join("in.words")).unwrap());
    assert_eq!(out(&got), out(&hingrezh(at, "build in.words")));
    let text = hingrezh(at, "build in.words --format pgsolver -o -");
    let words = fed(at, "read -", &text.stdout);
    assert_eq!((status(&words), err(&words)), (0, "hingrezh: done 6 6 7\n".to_string()));
    assert_eq!(words.stdout, as_read(&hingrezh(at, "build in.words -o -").stdout));
    assert_eq!(fed(at, "restrict -", &words.stdout).stdout, hingrezh(at, "build in.words").stdout);
    let built = hingrezh(at, "build in.words -o -").stdout;
    assert_eq!(fed(at, "dot -", &built).stdout, hingrezh(at, "dot in.words").stdout);
    assert_eq!(status(&fed(at, "where - 3", &built)), 0);
    let got = fed(at, "read -", b"parity");
    assert_eq!((status(&got), out(&got)), (2, String::new()));
    assert!(err(&got).starts_with("hingrezh: standard input: refused 91 0: line 1, column 1: "), "{}", err(&got));
}

/// The example's night does what its text says, and the graph behind the picture is the one that is drawn.
#[test]
fn examples() {
    let at = &folder("example");
    let night = concat!(env!("CARGO_MANIFEST_DIR"), "/../examples/night");
    let formulas = ["served", "update", "completed"].map(|name| format!("{night}/{name}.words")).join(" ");
    let got = hingrezh(at, &format!("night {night}/rollout.model {formulas} -o out"));
    assert_eq!((status(&got), err(&got)), (0, String::new()));
    let text = fs::read_to_string(format!("{night}/README.md")).unwrap();
    for row in out(&got).lines().skip(1) {
        let row = row.rsplit_once(' ').unwrap().0.trim_end();
        assert!(text.contains(row), "{row}");
    }
    let picture = concat!(env!("CARGO_MANIFEST_DIR"), "/../examples/picture");
    let drawn = out(&hingrezh(at, &format!("dot {picture}/unit.words")));
    assert_eq!(drawn, fs::read_to_string(format!("{picture}/unit.dot")).unwrap());
    let text = fs::read_to_string(at.join("out/served.pg")).unwrap();
    let examples = concat!(env!("CARGO_MANIFEST_DIR"), "/../examples");
    assert_eq!(text, fs::read_to_string(format!("{examples}/rollout.pg")).unwrap());
    assert_eq!(status(&hingrezh(at, &format!("build {examples}/rollout.words -o game"))), 0);
    let both = format!("--model {night}/rollout.model --formula {night}/served.words");
    let got = out(&hingrezh(at, &format!("where game 9 {both}")));
    let lines = got.lines().map(|line| format!("    {line}\n")).collect::<String>();
    let text = fs::read_to_string(format!("{examples}/README.md")).unwrap();
    assert!(got.lines().count() == 7 && text.contains(&lines), "{got}");
}

/// The wrapper's functions, with slices by need.
#[test]
fn texts_by_the_library() {
    let model = Model { labels: words(LABELS), system: words(SYSTEM), actions: words(ACTIONS), formula: words(ALWAYS) };
    let room = Room { vertices: 10, edges: 10 };
    let built = model.build(room, u32::MAX);
    let text = built.view().unwrap().to_pgsolver().unwrap();
    assert_eq!(text, TEXT.as_bytes());
    assert_eq!(write_pgsolver(&built.game).answer, Answer::Done { steps: text.len() as u32, vertices: 0, edges: 0 });
    assert_eq!(Room::of_text(&text), Room { vertices: 6, edges: 7 });
    for room in [room, Room::of_text(&text), Room::MOST] {
        let read = read_pgsolver(&text, room);
        assert_eq!((read.answer, bytes_of(&read.game)), (built.answer, as_read(&bytes_of(&built.game))));
    }
    let refused = |number: u32, place: u32| Answer::Refused(Refusal { number, place });
    assert_eq!(read_pgsolver(&text, Room { vertices: 6, edges: 6 }).answer, refused(93, 0));
    assert_eq!(read_pgsolver(&text, Room { vertices: u32::MAX, edges: u32::MAX }).answer, refused(1, 0));
    assert_eq!(read_pgsolver(b"", Room::of_text(b"")).answer, refused(91, 0));
    assert_eq!(write_pgsolver(&words("1 0 0 0 0 0 0 0 0")).answer, refused(98, 0));
    assert_eq!(write_pgsolver(&words("1 4294967295 0")).answer, refused(51, 0));
    let cut = model.build(room, 1);
    assert_eq!(cut.view().unwrap().to_pgsolver(), Err(Refusal { number: 53, place: 4 }));
    let mut slices = Slices::new(room).unwrap();
    assert_eq!(slices.pgsolver(), Err(Refusal { number: 51, place: 0 }));
    for _ in 0..2 {
        assert_eq!(slices.build(&model, u32::MAX), (built.answer, &built.game[..]));
        assert_eq!(slices.pgsolver(), Ok(TEXT.as_bytes()));
    }
}

#[test]
fn games_by_vertex() {
    let model = Model {
        labels: words(LABELS),
        system: words(SYSTEM),
        actions: words(ACTIONS),
        formula: words("4 6 3 0 8 0 3 0 0"),
    };
    let built = model.build(Room { vertices: 10, edges: 10 }, u32::MAX);
    let game = built.view().unwrap();
    assert_eq!((game.vertices(), game.edges(), game.initial(), game.is_cut()), (4, 5, 0, false));
    assert_eq!((game.owner(0), game.priority(0), game.successors(0)), (Some(Player::Odd), 1, &[1][..]));
    assert_eq!((game.owner(1), game.priority(1), game.successors(1)), (Some(Player::Even), 0, &[2, 3][..]));
    assert_eq!((game.counts(0), game.counts(1)), (&[0][..], &[0, 0][..]));
    let cut = model.build(Room { vertices: 10, edges: 10 }, 1);
    assert_eq!((cut.view().unwrap().first_waiting(), cut.view().unwrap().owner(1)), (Some(1), None));
    let wrong = |text: &str| Game::of_words(&words(text)).map(|_| ());
    assert_eq!(wrong("1 1 0  2  0  0  0  0 1  0  0"), Err(Refusal { number: 53, place: 3 }));
    assert_eq!(wrong("1 1 0  0  0  0  0  0 1  1  0"), Err(Refusal { number: 53, place: 9 }));
    assert_eq!(wrong("1 1 0  0  0  0  0  0 2  0  0"), Err(Refusal { number: 52, place: 8 }));
    assert_eq!(wrong("1 1 0  0  0  0 1  0  0"), Err(Refusal { number: 51, place: 0 }));
    assert_eq!(wrong("1 1 0  0  0  4294967295  4294967295  0 1  0  4294967295"), Ok(()));
    // Three transitions from state 0 to 1 and one to 0; vertex 2 has an added loop. The restriction keeps states, items
    // and counts.
    let model = Model { system: words("2 4 0 4 0 0 0 1 0 1 1 0 1"), formula: words("2 5 0 0 0"), ..model };
    let built = model.build(Room { vertices: 10, edges: 10 }, u32::MAX);
    for game in [built.view().unwrap(), restrict(&built.game).view().unwrap()] {
        assert_eq!((game.successors(1), game.counts(1)), (&[2, 3][..], &[3, 1][..]));
        assert_eq!((game.successors(2), game.counts(2)), (&[2][..], &[0][..]));
        let pairs: Vec<(u32, u32)> = (0..4).map(|vertex| (game.state(vertex), game.item(vertex))).collect();
        assert_eq!((pairs, game.lacks_states()), (vec![(0, 0), (0, 1), (1, 2), (0, 2)], false));
    }
    // So do vertices that wait.
    let cut = model.build(Room { vertices: 10, edges: 10 }, 2);
    let game = cut.view().unwrap();
    assert_eq!((game.owner(2), game.state(2), game.item(2)), (None, 1, 2));
    let error: Box<dyn std::error::Error> = Box::new(Refusal { number: 23, place: 2 });
    assert!(error.to_string().contains("initial state"));
}
