//! Calls with answers written down by hand: the readings where the rules leave room, and every refusal by its causes.
use super::call::Call;
use crate::check::call;
use crate::check::cases::words;
use crate::check::columns::Columns;
use crate::check::places;

pub struct Case {
    pub name: &'static str,
    pub call: Call,
    pub answer: [u32; 4],
    /// The bytes of the text or the words of the game, where they are written down.
    pub text: Option<Vec<u8>>,
    pub game: Option<Vec<u32>>,
}

fn refused(name: &'static str, call: Call, number: u32, place: u32) -> Case {
    Case { name, call, answer: [2, number, place, 0], text: None, game: None }
}

pub fn all() -> Vec<Case> {
    let mut cases = written();
    cases.extend(not_written());
    cases.extend(no_games());
    cases.extend(read());
    cases.extend(rooms());
    cases.extend(NOT_OF_THE_FORM.map(|(name, text)| refused(name, Call::read(text, 4, 4), 91, 0)));
    cases.extend(WRONG_VERTICES.map(|(name, text)| refused(name, Call::read(text, 4, 4), 92, 0)));
    cases.extend(NO_ROOM.map(|(name, text)| refused(name, Call::read(text, 2, 3), 93, 0)));
    cases.extend(long_numbers());
    cases.extend(two_faults());
    cases
}

// ---- writing

/// Games and their texts.
const WRITTEN: [(&str, &str, &str); 7] = [
    ("case 1", "3 3 0  0 0 1  0 0 0  0 0 0  0 1 2  0 1 2 3  1 2 0  0 1 0", "parity 2;\n0 0 0 1;\n1 0 0 2;\n2 0 1 0;\n"),
    ("a loop", "1 1 0  0  0  0  0  0 1  0  0", "parity 0;\n0 0 0 0;\n"),
    ("a game that starts elsewhere", "2 2 1  0 0  0 0  3 4  5 6  0 1 2  0 1  0 0", "parity 1;\n0 0 0 0;\n1 0 0 1;\n"),
    (
        "case 4, two equal edges",
        "3 4 0  1 1 1  1 0 0  0 0 0  0 1 2  0 1 3 4  1 2 2 2  0 0 0 0",
        "parity 2;\n0 1 1 1;\n1 0 1 2;\n2 0 1 2;\n",
    ),
    (
        "successors by first appearance",
        "3 8 0  0 1 0  5 10 0  0 0 0  0 0 0  0 5 7 8  2 0 2 1 0 1 1 0  1 2 3 4 5 6 7 8",
        "parity 2;\n0 5 0 2,0,1;\n1 10 1 1;\n2 0 0 0;\n",
    ),
    (
        "the largest words",
        "1 1 0  1  4294967295  4294967295  4294967295  0 1  0  4294967295",
        "parity 0;\n0 4294967295 1 0;\n",
    ),
    (
        "numbers of several digits",
        "11 12 0  0 0 0 0 0 0 0 0 0 0 1  9 9 10 99 100 1000 0 0 0 0 0  0 0 0 0 0 0 0 0 0 0 0 \
         1 2 3 4 5 6 7 8 9 10 11  0 2 3 4 5 6 7 8 9 10 11 12  10 9 0 1 2 3 4 5 6 7 8 9 0 0 0 0 0 0 0 0 0 0 0 0",
        "parity 10;\n0 9 0 10,9;\n1 9 0 0;\n2 10 0 1;\n3 99 0 2;\n4 100 0 3;\n5 1000 0 4;\n6 0 0 5;\n7 0 0 6;\n\
         8 0 0 7;\n9 0 0 8;\n10 0 1 9;\n",
    ),
];

/// Each into a slice of the text's length, longer ones, one byte fewer, and next to none.
fn written() -> Vec<Case> {
    let mut cases = Vec::new();
    for (name, game, text) in WRITTEN {
        let call = |length: usize| Call::Write { game: words(game), text: length };
        for length in [text.len(), text.len() + 1, text.len() + 11] {
            let answer = [0, text.len() as u32, 0, 0];
            cases.push(Case { name, call: call(length), answer, text: Some(text.into()), game: None });
        }
        cases.extend([text.len() - 1, 1, 0].map(|length| refused(name, call(length), 2, 0)));
    }
    cases
}

/// Games that have no text, each into a slice that is long enough and into an empty one, which is refused later.
fn not_written() -> Vec<Case> {
    let games = [
        ("a vertex alone, without successors", "1 0 0  0  0  0  0  0 0", 98, 0),
        ("vertex 0 has no successors", "2 1 0  0 0  0 0  0 0  0 0  0 0 1  1  0", 98, 0),
        ("vertex 1 has no successors", "2 1 0  1 1  0 0  0 0  0 0  0 1 1  1  0", 98, 0),
        ("a vertex in the middle has no successors", "3 2 0  0 0 0  0 0 0  0 0 0  0 0 0  0 1 1 2  1 1  0 0", 98, 0),
        ("no successors, and a target too large", "2 1 0  0 0  0 0  0 0  0 0  0 1 1  2  0", 53, 14),
        ("no successors, and the first offset is not 0", "2 1 0  0 0  0 0  0 0  0 0  1 1 1  1  0", 52, 11),
        ("a cut game", "1 0 0  2  0  0  0  0 0", 53, 3),
        ("a game and a word more", "1 1 0  0  0  0  0  0 1  0  0  0", 51, 0),
        ("a game without counts", "1 1 0  0  0  0  0  0 1  0", 51, 0),
        ("a game without states and items", "1 1 0  0  0  0 1  0  0", 51, 0),
    ];
    let of = |(name, game, number, place): (&'static str, &str, u32, u32)| {
        [99, 0].map(|text| refused(name, Call::Write { game: words(game), text }, number, place))
    };
    games.into_iter().flat_map(of).collect()
}

/// What the restriction refuses as no game.
fn no_games() -> Vec<Case> {
    let mut cases = Vec::new();
    for (i, case) in places::all().into_iter().enumerate() {
        let [2, number @ 51..=53, place, _] = case.answer else { continue };
        if let call::Call::Restrict { game, .. } = case.call {
            let text = [200, 0, 19][i % 3];
            cases.push(refused("no game", Call::Write { game, text }, number, place));
        }
    }
    cases
}

// ---- reading

/// Texts, a room that holds them exactly, and their games as the Rust original has them: a text says nothing of states,
/// items and counts.
const READ: [(&str, &[u8], u32, u32, &str); 15] = [
    ("case 1", b"parity 2;\n0 0 0 1;\n1 0 0 2;\n2 0 1 0;\n", 3, 3, "3 3 0 0 0 1 0 0 0 0 1 2 3 1 2 0"),
    ("case 1 in another order", b"parity 2;\n2 0 1 0;\n0 0 0 1;\n1 0 0 2;\n", 3, 3, "3 3 0 0 0 1 0 0 0 0 1 2 3 1 2 0"),
    ("an empty name", b"parity 0;\n0 0 0 0 \"\";\n", 1, 1, "1 1 0 0 0 0 1 0"),
    ("a name of many bytes", b"parity 0;\n0 0 0 0 \"a;b, \xff\x00\t\r\\\";\n", 1, 1, "1 1 0 0 0 0 1 0"),
    ("a name like a line", b"parity 0;\n0 7 1 0 \"1 0 0 1;\";\n", 1, 1, "1 1 0 1 7 0 1 0"),
    ("a name that begins with a space", b"parity 0;\n0 7 1 0 \" \";\n", 1, 1, "1 1 0 1 7 0 1 0"),
    ("repeats are no edges", b"parity 0;\n0 0 0 0,0,0,0,0;\n", 1, 1, "1 1 0 0 0 0 1 0"),
    (
        "repeats by first appearance",
        b"parity 2;\n0 0 0 2,1,2,0,1,1,0,2;\n1 0 1 0,0;\n2 0 0 1,2,1;\n",
        3,
        6,
        "3 6 0 0 1 0 0 0 0 0 3 4 6 2 1 0 0 1 2",
    ),
    ("the largest priority", b"parity 0;\n0 4294967295 1 0;\n", 1, 1, "1 1 0 1 4294967295 0 1 0"),
    ("room to spare", b"parity 0;\n0 3 1 0;\n", 3, 5, "1 1 0 1 3 0 1 0"),
    ("one more vertex of room", b"parity 0;\n0 3 1 0;\n", 2, 1, "1 1 0 1 3 0 1 0"),
    ("one more edge of room", b"parity 0;\n0 3 1 0;\n", 1, 2, "1 1 0 1 3 0 1 0"),
    ("names on some lines", b"parity 1;\n1 10 1 1,0 \"init\";\n0 2 0 1;\n", 2, 3, "2 3 0 0 1 2 10 0 1 3 1 1 0"),
    ("all edges of two vertices", b"parity 1;\n0 1 0 0,1;\n1 1 1 1,0;\n", 2, 4, "2 4 0 0 1 1 1 0 2 4 0 1 1 0"),
    (
        "a vertex of two digits",
        b"parity 10;\n10 0 0 0;\n0 0 0 10;\n1 0 0 0;\n2 0 0 0;\n3 0 0 0;\n4 0 0 0;\n5 0 0 0;\n6 0 0 0;\n7 0 0 0;\n\
          8 0 0 0;\n9 0 0 0;\n",
        11,
        11,
        "11 11 0 0 0 0 0 0 0 0 0 0 0 0 0 0 0 0 0 0 0 0 0 0 0 0 1 2 3 4 5 6 7 8 9 10 11 10 0 0 0 0 0 0 0 0 0 0",
    ),
];

fn read() -> Vec<Case> {
    let of = |(name, text, vertices, edges, game)| {
        let original = words(game);
        let [n, m] = [original[0], original[1]].map(|size| vec![0; size as usize]);
        let game = Columns { states: n.clone(), items: n, counts: m }.into_game(&original);
        let answer = [0, game[0], game[0], game[1]];
        Case { name, call: Call::read(text, vertices, edges), answer, text: None, game: Some(game) }
    };
    READ.into_iter().map(of).collect()
}

/// Rooms out of range and game slices of wrong lengths, each with a text that could be read and with one that could
/// not.
fn rooms() -> Vec<Case> {
    let out_of_range = [
        ("V is 0", 0, 4, 1),
        ("E is 0", 4, 0, 1),
        ("V is too large", (1 << 20) + 1, 4, 1),
        ("E is too large", 4, (1 << 22) + 1, 1),
        ("V and E are too large", u32::MAX, u32::MAX, 1),
    ];
    let lengths = [
        ("no game slice", 0),
        ("game slice too short", 31),
        ("game slice too long", 33),
        ("game slice without room for counts", 28),
        ("game slice without room for states and items", 24),
    ];
    let mut cases = Vec::new();
    for text in [READ[0].1, b"", b"parity 9;\n"] {
        for (name, vertices, edges, number) in out_of_range {
            let call = |game| Call::Read { text: text.into(), vertices, edges, game };
            cases.extend([32, 0, 4].map(|game| refused(name, call(game), number, 0)));
        }
        for (name, game) in lengths {
            cases.push(refused(name, Call::Read { text: text.into(), vertices: 4, edges: 4, game }, 2, 0));
        }
    }
    cases
}

const NOT_OF_THE_FORM: [(&str, &[u8]); 83] = [
    ("an empty text", b""),
    ("a newline", b"\n"),
    ("no number in the header", b"parity ;\n"),
    ("the header's word alone", b"parity"),
    ("the header's word and a space", b"parity "),
    ("no header", b"0 0 0 0;\n"),
    ("no semicolon in the header", b"parity 0\n0 0 0 0;\n"),
    ("no newline in the header", b"parity 0;0 0 0 0;\n"),
    ("a header that ends early", b"parity 0;"),
    ("a header without what ends it", b"parity 0"),
    ("a capital letter", b"Parity 0;\n0 0 0 0;\n"),
    ("another word", b"purity 0;\n0 0 0 0;\n"),
    ("no space in the header", b"parity0;\n0 0 0 0;\n"),
    ("two spaces in the header", b"parity  0;\n0 0 0 0;\n"),
    ("a tab in the header", b"parity\t0;\n0 0 0 0;\n"),
    ("a space before the header", b" parity 0;\n0 0 0 0;\n"),
    ("a newline before the header", b"\nparity 0;\n0 0 0 0;\n"),
    ("a space behind the highest number", b"parity 0 ;\n0 0 0 0;\n"),
    ("a space behind the header", b"parity 0; \n0 0 0 0;\n"),
    ("a minus in the header", b"parity -0;\n0 0 0 0;\n"),
    ("a plus in the header", b"parity +0;\n0 0 0 0;\n"),
    ("a leading zero in the header", b"parity 00;\n0 0 0 0;\n"),
    ("a leading zero before another digit", b"parity 01;\n0 0 0 0;\n1 0 0 0;\n"),
    ("a letter in the header", b"parity 0x0;\n0 0 0 0;\n"),
    ("a carriage return in the header", b"parity 0;\r\n0 0 0 0;\n"),
    ("two headers", b"parity 0;\nparity 0;\n0 0 0 0;\n"),
    ("a byte order mark", b"\xef\xbb\xbfparity 0;\n0 0 0 0;\n"),
    ("a start line", b"parity 0;\nstart 0;\n0 0 0 0;\n"),
    ("a start line first", b"start 0;\nparity 0;\n0 0 0 0;\n"),
    ("a blank line behind the header", b"parity 0;\n\n0 0 0 0;\n"),
    ("a blank line between lines", b"parity 1;\n0 0 0 0;\n\n1 0 0 0;\n"),
    ("a blank line at the end", b"parity 0;\n0 0 0 0;\n\n"),
    ("a zero behind the text", b"parity 0;\n0 0 0 0;\n\0"),
    ("zeros behind the text", b"parity 0;\n0 0 0 0;\n\0\0\0\0\0\0\0\0\0\0\0"),
    ("a space behind the text", b"parity 0;\n0 0 0 0;\n "),
    ("a number behind the text", b"parity 0;\n0 0 0 0;\n1"),
    ("a line that ends behind its number", b"parity 0;\n0;\n"),
    ("no last newline", b"parity 0;\n0 0 0 0;"),
    ("no last semicolon", b"parity 0;\n0 0 0 0\n"),
    ("no semicolon and no newline", b"parity 0;\n0 0 0 0"),
    ("two lines in one", b"parity 1;\n0 0 0 0;1 0 0 0;\n"),
    ("a carriage return", b"parity 0;\n0 0 0 0;\r\n"),
    ("a space behind a line", b"parity 0;\n0 0 0 0; \n"),
    ("a space before a line", b"parity 0;\n 0 0 0 0;\n"),
    ("two spaces behind the number", b"parity 0;\n0  0 0 0;\n"),
    ("two spaces behind the priority", b"parity 0;\n0 0  0 0;\n"),
    ("two spaces behind the owner", b"parity 0;\n0 0 0  0;\n"),
    ("a tab behind the number", b"parity 0;\n0\t0 0 0;\n"),
    ("a tab behind the priority", b"parity 0;\n0 0\t0 0;\n"),
    ("a tab behind the owner", b"parity 0;\n0 0 0\t0;\n"),
    ("a leading zero of a vertex", b"parity 0;\n00 0 0 0;\n"),
    ("a leading zero of a priority", b"parity 0;\n0 00 0 0;\n"),
    ("a leading zero of an owner", b"parity 0;\n0 0 00 0;\n"),
    ("owner 01", b"parity 0;\n0 0 01 0;\n"),
    ("a leading zero of a successor", b"parity 0;\n0 0 0 00;\n"),
    ("a leading zero of a later successor", b"parity 0;\n0 0 0 0,00;\n"),
    ("a sign of a vertex", b"parity 0;\n+0 0 0 0;\n"),
    ("a sign of a priority", b"parity 0;\n0 -1 0 0;\n"),
    ("a sign of a successor", b"parity 0;\n0 0 0 -0;\n"),
    ("owner 2", b"parity 0;\n0 0 2 0;\n"),
    ("owner 10", b"parity 0;\n0 0 10 0;\n"),
    ("no owner", b"parity 0;\n0 0 0;\n"),
    ("no successor", b"parity 0;\n0 0 0 ;\n"),
    ("a name in place of successors", b"parity 0;\n0 0 0 \"a\";\n"),
    ("a comma at the end", b"parity 0;\n0 0 0 0,;\n"),
    ("a comma first", b"parity 0;\n0 0 0 ,0;\n"),
    ("two commas", b"parity 0;\n0 0 0 0,,0;\n"),
    ("a comma and a space", b"parity 0;\n0 0 0 0, 0;\n"),
    ("a space and a comma", b"parity 0;\n0 0 0 0 ,0;\n"),
    ("successors parted by a space", b"parity 0;\n0 0 0 0 0;\n"),
    ("a space behind the successors", b"parity 0;\n0 0 0 0 ;\n"),
    ("no space before the name", b"parity 0;\n0 0 0 0\"\";\n"),
    ("two spaces before the name", b"parity 0;\n0 0 0 0  \"\";\n"),
    ("a space behind the name", b"parity 0;\n0 0 0 0 \"\" ;\n"),
    ("a name without an end", b"parity 0;\n0 0 0 0 \"a;\n"),
    ("a text that ends in a name", b"parity 0;\n0 0 0 0 \"a"),
    ("a quote in a name", b"parity 0;\n0 0 0 0 \"a\"b\";\n"),
    ("a newline in a name", b"parity 0;\n0 0 0 0 \"a\nb\";\n"),
    ("a backslash before a quote", b"parity 0;\n0 0 0 0 \"\\\"\";\n"),
    ("two names", b"parity 0;\n0 0 0 0 \"a\" \"b\";\n"),
    ("single quotes", b"parity 0;\n0 0 0 0 'a';\n"),
    ("a letter in a number", b"parity 0;\n0 1e3 0 0;\n"),
    ("a digit of another script", "parity 0;\n0 \u{663} 0 0;\n".as_bytes()),
];

/// Missing, given twice, or above the highest. Numbers that would be right modulo 2^32 or 2^64 are among them.
const WRONG_VERTICES: [(&str, &[u8]); 22] = [
    ("no vertex at all", b"parity 0;\n"),
    ("the highest is missing", b"parity 1;\n0 0 0 0;\n"),
    ("vertex 0 is missing", b"parity 1;\n1 0 0 1;\n"),
    ("ten vertices, and one line", b"parity 9;\n0 0 0 0;\n"),
    ("a vertex twice", b"parity 0;\n0 0 0 0;\n0 0 0 0;\n"),
    ("a vertex twice, another missing", b"parity 1;\n0 0 0 0;\n0 0 0 0;\n"),
    ("a vertex twice, with other words", b"parity 1;\n0 0 0 0;\n1 1 0 1;\n1 2 1 0 \"b\";\n"),
    ("a vertex above the highest", b"parity 0;\n0 0 0 0;\n1 0 0 0;\n"),
    ("a vertex above the highest, one missing", b"parity 1;\n0 0 0 0;\n2 0 0 0;\n"),
    ("a successor above the highest", b"parity 0;\n0 0 0 1;\n"),
    ("a later successor above the highest", b"parity 0;\n0 0 0 0,0,1;\n"),
    ("a successor of 32 bits", b"parity 0;\n0 0 0 4294967295;\n"),
    ("a successor beyond 32 bits", b"parity 0;\n0 0 0 4294967296;\n"),
    ("a successor of 64 bits", b"parity 0;\n0 0 0 18446744073709551615;\n"),
    ("a successor beyond 64 bits", b"parity 0;\n0 0 0 18446744073709551616;\n"),
    ("a vertex beyond 32 bits", b"parity 0;\n4294967296 0 0 0;\n"),
    ("a vertex beyond 64 bits", b"parity 0;\n18446744073709551616 0 0 0;\n"),
    ("a highest of 32 bits, no line", b"parity 4294967295;\n"),
    ("a highest beyond 32 bits", b"parity 4294967296;\n0 0 0 0;\n"),
    ("a highest of 64 bits, no line", b"parity 18446744073709551615;\n"),
    ("a highest beyond 64 bits", b"parity 18446744073709551616;\n0 0 0 0;\n"),
    ("a highest beyond 64 bits, its vertex", b"parity 18446744073709551616;\n18446744073709551616 0 0 0;\n"),
];

/// For two vertices and three edges.
const NO_ROOM: [(&str, &[u8]); 8] = [
    ("three vertices", b"parity 2;\n0 0 0 0;\n1 0 0 0;\n2 0 0 0;\n"),
    ("four edges", b"parity 1;\n0 0 0 0,1;\n1 0 0 1,0;\n"),
    ("four edges beside repeats", b"parity 1;\n0 0 0 1,1,1,0;\n1 0 0 1,1,0,0;\n"),
    ("three vertices and four edges", b"parity 2;\n0 0 0 0;\n1 0 0 0,1;\n2 0 0 0;\n"),
    ("a priority beyond 32 bits", b"parity 0;\n0 4294967296 0 0;\n"),
    ("a later priority beyond 32 bits", b"parity 1;\n0 0 0 0;\n1 9999999999 0 0;\n"),
    ("a priority of 64 bits", b"parity 0;\n0 18446744073709551615 0 0;\n"),
    ("a priority beyond 64 bits", b"parity 0;\n0 18446744073709551616 0 0;\n"),
];

/// Numbers of thousands of digits at each place.
fn long_numbers() -> Vec<Case> {
    let mut cases = Vec::new();
    for digits in [20, 39, 3_000] {
        for long in ["9".repeat(digits), format!("1{}", "0".repeat(digits))] {
            let texts = [
                ("a long highest", format!("parity {long};\n0 0 0 0;\n"), 92),
                ("a long vertex", format!("parity 0;\n{long} 0 0 0;\n"), 92),
                ("a long successor", format!("parity 0;\n0 0 0 {long};\n"), 92),
                ("a later long successor", format!("parity 0;\n0 0 0 0,{long},0;\n"), 92),
                ("a long priority", format!("parity 0;\n0 {long} 0 0;\n"), 93),
                ("a long owner", format!("parity 0;\n0 0 {long} 0;\n"), 91),
                ("a long number with a leading zero", format!("parity 0;\n0 0{long} 0 0;\n"), 91),
            ];
            cases.extend(texts.map(|(name, text, number)| refused(name, Call::read(text, 2, 2), number, 0)));
        }
    }
    cases
}

/// The smaller number is the answer, wherever in the text its fault is.
fn two_faults() -> Vec<Case> {
    let texts: [(&str, &[u8], u32); 9] = [
        ("a vertex missing, no room", b"parity 9;\n0 0 0 0;\n", 92),
        ("a vertex twice, no room for the priority", b"parity 1;\n0 4294967296 0 0;\n0 0 0 0;\n", 92),
        ("a successor above, no room for vertices", b"parity 2;\n0 0 0 3;\n1 0 0 0;\n2 0 0 0;\n", 92),
        ("a successor above, no room for edges", b"parity 1;\n0 0 0 0,1;\n1 0 0 0,1,2;\n", 92),
        ("a vertex twice, a form fault behind it", b"parity 0;\n0 0 0 0;\n0 0 0 0;", 91),
        ("a successor above, a form fault behind it", b"parity 0;\n0 0 0 9 \"\" ;\n", 91),
        ("a priority beyond 32 bits, a form fault behind it", b"parity 0;\n0 4294967296 2 0;\n", 91),
        ("no room for vertices, a form fault behind them", b"parity 2;\n0 0 0 0;\n1 0 0 0;\n2 0 0 0;\n\n", 91),
        ("a highest beyond 64 bits, no newline", b"parity 18446744073709551616;", 91),
    ];
    texts.map(|(name, text, number)| refused(name, Call::read(text, 2, 2), number, 0)).into()
}

#[cfg(test)]
mod tests {
    use super::super::call::{LENT, LIBRARY, PLAIN, perform, unlawful};
    use super::*;

    #[test]
    fn by_library_and_plain() {
        for case in all() {
            for by in [LIBRARY, LENT, PLAIN] {
                let got = perform(&case.call, by, 7);
                let what = format!("{} by {}", case.name, by.name);
                assert_eq!(got.answer, case.answer, "{what}");
                assert_eq!(unlawful(&got, 7), None, "{what}");
                assert!(case.text.as_ref().is_none_or(|text| got.text.starts_with(text)), "{what}");
                assert!(case.game.as_ref().is_none_or(|game| got.game.starts_with(game)), "{what}");
            }
        }
    }
}
