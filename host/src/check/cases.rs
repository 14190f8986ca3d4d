//! Calls with answers written down by hand: the worked cases of the rules, the readings where the rules leave room,
//! and every size at its limit.
use super::call::Call;
use crate::Model;

pub struct Case {
    pub name: &'static str,
    pub call: Call,
    pub answer: [u32; 4],
    /// The game's words and the map, where they are written down.
    pub game: Option<Vec<u32>>,
    pub map: Option<Vec<u32>>,
}

/// Words from a line of numbers.
pub fn words(text: &str) -> Vec<u32> {
    text.split_whitespace().map(|word| word.parse().expect("a number")).collect()
}

/// One state with a loop on label 0, which is action 7; the formula is true.
fn model(system: &str, formula: &str) -> Model {
    Model { labels: words("1 1 0 7"), system: words(system), actions: words("1 2 0"), formula: words(formula) }
}

fn base() -> Model {
    model(LOOP, "1 0 0")
}

const LOOP: &str = "1 1 0 1 0 0";
const STUCK: &str = "1 0 0 0";
const CASE_1: &str = "3 7 5 8 0 0 0";
const CASE_5: &str = "6 3 5 0 2 1 0 3 0 0 5 0 0";

fn case(name: &'static str, call: Call, answer: [u32; 4]) -> Case {
    Case { name, call, answer, game: None, map: None }
}

/// Room for 16 vertices and 32 edges, 99 steps.
fn run(name: &'static str, model: Model, answer: [u32; 4]) -> Case {
    case(name, Call::build(model, 16, 32, 99), answer)
}

fn whole(name: &'static str, model: Model, game: &str) -> Case {
    let game = words(game);
    Case { game: Some(game.clone()), ..run(name, model, [0, game[0], game[0], game[1]]) }
}

fn refused(name: &'static str, model: Model, number: u32, place: u32) -> Case {
    run(name, model, [2, number, place, 0])
}

pub fn all() -> Vec<Case> {
    let mut cases = worked();
    cases.extend(alike());
    cases.extend(counted());
    cases.extend(wide());
    cases.extend(limited());
    cases.extend(refusals());
    cases.extend(sizes());
    cases.extend(readings());
    cases.extend(restrictions());
    cases.extend(no_games());
    cases.extend(lent());
    cases
}

/// The small games to check by.
fn worked() -> Vec<Case> {
    vec![
        whole("1", model(LOOP, CASE_1), "3 3 0  0 0 1  0 0 0  0 0 0  0 1 2  0 1 2 3  1 2 0  0 1 0"),
        whole("2", model(STUCK, "2 5 0 0 0"), "2 2 0  1 0  1 1  0 0  0 1  0 1 2  1 1  0 0"),
        whole("3", model(STUCK, "2 4 0 0 0"), "2 2 0  1 1  1 0  0 0  0 1  0 1 2  1 1  0 0"),
        whole("4", model(LOOP, "3 2 0 0 2 0 0"), "3 4 0  1 1 1  1 0 0  0 0 0  0 1 2  0 1 3 4  1 2 2 2  0 0 0 0"),
        whole(
            "5",
            model(LOOP, CASE_5),
            "6 8 0  1 0 0 1 0 1  1 0 0 0 1 0  0 0 0 0 0 0  0 1 2 4 5 3  0 1 3 4 6 7 8
             1 2 3 5 4 5 4 5  0 0 0 1 0 0 0 0",
        ),
        // Depths 3, 3, 1, 0: X, Y, Z, W are the vertices 0, 2, 6, 8 with priorities 2, 3, 0, 1.
        whole(
            "8",
            model(LOOP, "9 7 6 3 5 8 7 6 5 8 0 0 5 0 0 0 0 0 1"),
            "11 12 0  0 1 1 0 0 1 0 1 1 0 1  2 0 3 0 0 0 0 0 1 0 0
             0 0 0 0 0 0 0 0 0 0 0  0 4 1 5 6 8 2 9 3 10 7  0 1 2 3 5 6 7 8 9 10 11 12
             1 2 3 4 5 10 6 7 8 9 1 0  0 0 0 0 0 1 0 0 0 0 1 0",
        ),
        // X has depth 2.
        whole(
            "9",
            model(LOOP, "4 7 6 7 8 0 0 0 2"),
            "5 5 0  0 1 1 1 0  2 0 1 0 0  0 0 0 0 0  0 3 1 4 2  0 1 2 3 4 5  1 2 3 4 3  0 0 0 0 0",
        ),
        // Two transitions behind the diamond's edge.
        whole("12", model("1 2 0 2 0 0 0 0", CASE_1), "3 3 0  0 0 1  0 0 0  0 0 0  0 1 2  0 1 2 3  1 2 0  0 2 0"),
    ]
}

/// Parts that are alike: one item each.
fn alike() -> Vec<Case> {
    vec![
        whole(
            "an inner fixpoint and its references are one item",
            model(LOOP, "4 7 6 5 8 0 0 0 1"),
            "4 4 0  0 1 1 0  0 0 1 0  0 0 0 0  0 2 1 3  0 1 2 3 4  1 2 3 1  0 0 0 1",
        ),
        whole(
            "labels tau, 7 with 7, and 7",
            Model {
                labels: words("3 3 1 1 2 7 7 7"),
                system: words("2 3 0 3 0 1 0 2 1 0 1"),
                actions: words("5 5 3 2 2 0 0 3 0 1 0"),
                formula: words("6 2 5 0 4 5 0 3 0 0 4 0 0"),
            },
            "6 8 0  1 1 0 1 0 1  1 0 0 0 1 0  0 0 0 0 1 1  0 1 2 4 2 3  0 1 3 4 6 7 8
             1 2 3 5 4 2 4 5  0 0 0 1 2 1 0 0",
        ),
    ]
}

/// From state 0 by label 0 to 1, 2, 1 and 0; between them by label 1 to 2 and 1. Node 0 of the actions is label 0, node
/// 1 is its negation.
fn several(formula: &str) -> Model {
    Model {
        labels: words("2 2 0 1 7 8"),
        system: words("3 6 0  6 0 0  0 1 0 1 0 0  1 2 2 1 1 0"),
        actions: words("3 2 5 2 0 0 0"),
        formula: words(formula),
    }
}

/// Games whose edges have several transitions behind them.
fn counted() -> Vec<Case> {
    let diamond = "2 5 0 0 0";
    let first = Case {
        game: Some(words("5 4 0  1 0 2 2 2  1 0 0 0 0  0 0 1 2 0  0 1 2 2 2  0 1 4 4 4 4  1 2 3 4  0 2 1 1")),
        ..case("cut behind a diamond", Call::build(several(diamond), 16, 32, 2), [1, 2, 5, 4])
    };
    vec![
        whole(
            "several targets",
            several(diamond),
            "5 7 0  1 0 1 1 1  1 0 0 0 0  0 0 1 2 0  0 1 2 2 2  0 1 4 5 6 7  1 2 3 4 2 3 4  0 2 1 1 0 0 0",
        ),
        whole(
            "the other label",
            several("2 5 0 1 0"),
            "4 5 0  1 0 1 1  1 0 0 0  0 0 2 1  0 1 2 2  0 1 3 4 5  1 2 3 2 3  0 1 1 0 0",
        ),
        first,
        // A box in state 0; it is stuck in the others, where the loop is an added one.
        whole(
            "a box and added loops",
            several("3 7 4 8 0 0 0"),
            "9 11 0  0 1 1 1 1 0 1 0 1  0 0 0 0 0 0 0 0 0  0 0 1 2 0 2 2 1 1  0 1 2 2 2 0 1 0 1
             0 1 4 5 6 7 8 9 10 11  1 2 3 4 7 5 0 6 6 8 8  0 2 1 1 0 0 0 0 0 0 0",
        ),
        // The same targets twice: each modality counts for itself.
        whole(
            "two modalities to one vertex",
            several("5 2 5 0 5 0 3 0 0 1 0"),
            "7 11 0  1 1 0 0 1 1 1  1 0 0 0 0 0 0  0 0 0 0 2 1 0  0 1 2 4 3 3 3  0 1 3 6 8 9 10 11
             1 2 3 5 4 6 4 5 4 5 6  0 0 0 2 1 1 1 1 0 0 0",
        ),
    ]
}

/// Room for fewer vertices than the system has states: where there is room for enough edges, the library's marks go on
/// behind their region.
fn wide() -> Vec<Case> {
    // Six transitions of state 0; the other states have none.
    let wide = |states: usize, targets: &str, formula: &str| {
        let degrees = "0 ".repeat(states - 1);
        model(&format!("{states} 6 0  6 {degrees}  0 0 0 0 0 0  {targets}"), formula)
    };
    let once = |v, e, k| Call::build(wide(8, "1 2 1 7 2 1", "2 5 0 0 0"), v, e, k);
    let game = "5 7 0  1 0 1 1 1  1 0 0 0 0  0 0 1 2 7  0 1 2 2 2  0 1 4 5 6 7  1 2 3 4 2 3 4  0 3 2 1 0 0 0";
    let game = || Some(words(game));
    // A second such step follows in state 0.
    let twice = |v, e| Call::build(wide(12, "1 0 1 7 0 1", "3 5 5 0 0 0 0"), v, e, 99);
    vec![
        Case { game: game(), ..case("marks behind their region", once(5, 13, 99), [0, 5, 5, 7]) },
        Case { game: game(), ..case("one edge less", once(5, 12, 99), [0, 5, 5, 7]) },
        Case { game: game(), ..case("room for as many edges as there are", once(5, 7, 99), [0, 5, 5, 7]) },
        case("marks behind their region, cut", once(5, 32, 2), [1, 2, 5, 4]),
        case("marks behind their region, V = 4", once(4, 32, 99), [2, 60, 0, 0]),
        case("marks behind their region, twice", twice(8, 32), [0, 8, 8, 12]),
        case("marks behind their region, twice, V = 7", twice(7, 32), [2, 60, 0, 0]),
        case("marks behind their region once", twice(8, 20), [0, 8, 8, 12]),
    ]
}

/// Step limits and room around case 5, which needs 6 vertices, 8 edges and 6 steps.
fn limited() -> Vec<Case> {
    let five = |v, e, k| Call::build(model(LOOP, CASE_5), v, e, k);
    let cut = "4 3 0  1 0 2 2  1 0 0 0  0 0 0 0  0 1 2 4  0 1 3 3 3  1 2 3  0 0 0";
    vec![
        Case { game: Some(words(cut)), ..case("6", five(16, 32, 2), [1, 2, 4, 3]) },
        case("7", five(6, 8, 6), [0, 6, 6, 8]),
        case("7, V = 5", five(5, 8, 6), [2, 60, 0, 0]),
        case("7, E = 7", five(6, 7, 6), [2, 60, 0, 0]),
        case("7, k = 5", five(6, 8, 5), [1, 5, 6, 7]),
        case("10", Call::build(model(LOOP, CASE_1), 16, 32, 0), [1, 0, 1, 0]),
        case("k = 0 is never 60", Call::build(model(LOOP, CASE_1), 1, 1, 0), [1, 0, 1, 0]),
        case("B6: a cut game counts added self-loops", five(16, 32, 4), [1, 4, 6, 6]),
        case("B7: waiting vertices are known", five(5, 32, 3), [2, 60, 0, 0]),
    ]
}

/// Where a refusal stands, by the readings of A1 to A12.
fn refusals() -> Vec<Case> {
    let labels = |text: &str| Model { labels: words(text), ..base() };
    let system = |text: &str| Model { system: words(text), ..base() };
    let actions = |text: &str| Model { actions: words(text), ..base() };
    let formula = |text: &str| Model { formula: words(text), ..base() };
    vec![
        refused("A1", system("1 1 1 1 0 0"), 23, 2),
        refused("A3", labels("2 2 1 0 7 7"), 13, 3),
        refused("a label number that is L", labels("1 2 0 1 7 7"), 13, 3),
        refused("A4", actions("1 2 1"), 34, 0),
        refused("A5", actions("2 3 0 2 0"), 34, 2),
        refused("A5 in a formula", formula("2 2 0 2 0"), 44, 2),
        refused("A6", actions("2 3 0 5 0"), 34, 0),
        refused("A7", actions("1 3 9"), 34, 1),
        refused("A8", Model { actions: words("2 5 0 0 0"), formula: words("2 5 0 1 0"), ..base() }, 44, 0),
        refused("A10: empty labels", labels(""), 11, 0),
        refused("A11", formula("3 0 2 9 0 0 0"), 43, 2),
        refused("A12", formula("4 2 0 0 6 9 0 0 5"), 44, 0),
        refused("nodes left over", formula("2 0 0 0 0"), 44, 1),
        refused("an unfinished tree", formula("2 6 6 0 0"), 44, 2),
        refused(
            "a modality without action trees",
            Model { actions: words("0"), formula: words("2 4 0 0 0"), ..base() },
            44,
            0,
        ),
        refused("a reference at node 0", formula("1 8 0"), 45, 0),
        refused("a reference to a modality", formula("2 5 8 0 0"), 45, 1),
        refused("a reference beside its fixpoint", formula("4 2 6 0 8 3 0 0 1"), 45, 3),
        refused("the kind of an action", actions("1 6 0"), 33, 0),
    ]
}

/// Sums that must not wrap, and sizes below their least.
fn sizes() -> Vec<Case> {
    let system = |text: &str| Model { system: words(text), ..base() };
    let formula = |text: &str| Model { formula: words(text), ..base() };
    let labels = |text: &str| Model { labels: words(text), ..base() };
    let actions = |text: &str| Model { actions: words(text), ..base() };
    vec![
        refused("2 + 2A does not wrap", labels("1 2147483648"), 11, 0),
        refused("3 + S + 2T does not wrap", system("0 2147483648 0"), 21, 0),
        refused("1 + 2m does not wrap", actions("2147483648"), 31, 0),
        refused("1 + 2n does not wrap", formula("2147483648"), 41, 0),
        refused("degrees do not wrap", system("2 0 0 2147483648 2147483648"), 24, 1),
        refused("degrees too small", system("1 1 0 0 0 0"), 24, 1),
        refused("a transition's label", system("1 1 0 1 1 0"), 25, 4),
        refused("a transition's target", system("1 1 0 1 0 1"), 26, 5),
        refused("no state", system("0 0 0"), 22, 0),
        refused("no formula node", formula("0"), 42, 0),
        refused("no words at all", Model::default(), 11, 0),
    ]
}

/// Readings that show in the game.
fn readings() -> Vec<Case> {
    let twice = words("5 2 5 0 5 0 3 0 0 1 0");
    vec![
        run("A9", model(LOOP, "3 7 6 8 0 0 0"), [0, 4, 4, 4]),
        run("A13", Model { labels: words("4096 0"), ..model(STUCK, "2 5 0 0 0") }, [0, 2, 2, 2]),
        run(
            "B3",
            Model {
                labels: words("2 4 0 0 1 1 7 8 8 7"),
                actions: words("2 2 2 0 1"),
                formula: twice.clone(),
                ..base()
            },
            [0, 4, 4, 5],
        ),
        run("B4", Model { actions: words("4 0 3 0 0 0 3 0 0"), formula: twice, ..base() }, [0, 5, 5, 6]),
        run("B5", model(LOOP, "5 2 7 0 7 0 3 0 0 0 0"), [0, 7, 7, 8]),
        whole("F1", model(STUCK, CASE_1), "2 2 0  0 0  0 1  0 0  0 1  0 1 2  1 1  0 0"),
        whole(
            "B1",
            model(STUCK, "5 2 0 2 0 1 2 0 4 0 0"),
            "5 7 0  1 1 1 1 0  1 0 0 0 1  0 0 0 0 0  0 1 2 3 4  0 1 3 4 6 7  1 2 3 2 2 4 4  0 0 0 0 0 0 0",
        ),
        run(
            "no labels, no actions",
            Model { labels: words("0 0"), actions: words("0"), ..model(STUCK, "1 1 0") },
            [0, 2, 2, 2],
        ),
    ]
}

fn restrictions() -> Vec<Case> {
    let done = |name, game: &str, result: &str, map: &str| {
        let (game, result) = (words(game), words(result));
        let answer = [0, result[0], result[0], result[1]];
        Case { game: Some(result), map: Some(words(map)), ..case(name, Call::restrict(game), answer) }
    };
    vec![
        done("C1", "1 0 0  1  0  0  0  0 0", "1 0 0  1  0  0  0  0 0", "0"),
        done("C3", "2 1 1  0 0  0 0  5 6  7 8  0 0 1  1  9", "1 1 0  0  0  6  8  0 1  0  9", "4294967295 0"),
        done("C7", "1 2 0  0  0  3  4  0 2  0 0  3 4", "1 2 0  0  0  3  4  0 2  0 0  3 4", "0"),
        done(
            "a new number and a priority",
            "2 2 1  0 1  5 6  1 2  3 4  0 1 2  0 1  7 8",
            "1 1 0  1  6  2  4  0 1  0  8",
            "4294967295 0",
        ),
        done(
            "breadth first",
            "3 4 0  0 1 0  4 5 6  1 2 3  7 8 9  0 2 3 4  2 1 0 1  10 11 12 13",
            "3 4 0  0 0 1  4 6 5  1 3 2  7 9 8  0 2 3 4  1 2 2 0  10 11 13 12",
            "0 2 1",
        ),
        done(
            "no state, item or count is wrong",
            "1 2 0  0  0  4294967295  65535  0 2  0 0  4294967295 0",
            "1 2 0  0  0  4294967295  65535  0 2  0 0  4294967295 0",
            "0",
        ),
        done(
            "two vertices with the same state and item",
            "2 2 1  0 1  5 6  9 9  9 9  0 1 2  0 0  7 8",
            "2 2 0  1 0  6 5  9 9  9 9  0 1 2  1 1  8 7",
            "1 0",
        ),
    ]
}

fn no_games() -> Vec<Case> {
    let refused = |name, game: &str, number, place| case(name, Call::restrict(words(game)), [2, number, place, 0]);
    vec![
        refused("C4", "1 1 0  0  0  0  0  0 1  0  0  0", 51, 0),
        refused("C5", "1 0 0  2  0  0  0  0 0", 53, 3),
        refused("C6", "2 2 0  0 0  0 0  0 0  0 0  0 5 2  0 0  0 0", 52, 13),
        refused("a game without states and items", "1 1 0  0  0  0 1  0  0", 51, 0),
        refused("a game without counts, too", "1 1 0  0  0  0 1  0", 51, 0),
        refused("a game without counts", "1 1 0  0  0  0  0  0 1  0", 51, 0),
        refused("a game without items", "1 1 0  0  0  0  0 1  0  0", 51, 0),
        refused("offsets begin at 1", "1 1 0  0  0  0  0  1 1  0  0", 52, 7),
        refused("offsets end at 2", "1 1 0  0  0  0  0  0 2  0  0", 52, 8),
        refused("a target", "1 1 0  0  0  0  0  0 1  1  0", 53, 9),
        refused("an initial vertex and an owner", "1 1 1  2  0  0  0  0 1  0  0", 53, 2),
        refused("no words", "", 51, 0),
        refused("two words", "0 0", 51, 0),
        refused("no vertex", "0 0 0 0", 51, 0),
    ]
}

/// Lent slices and room: order of 1, 2 and the rest.
fn lent() -> Vec<Case> {
    let one = || base();
    let lengths = |name, model, game, work| {
        case(name, Call::Build { model, vertices: 16, edges: 32, limit: 99, game, work }, [2, 2, 0, 0])
    };
    let room = |name, vertices, edges| {
        let call = Call::Build { model: Model::default(), vertices, edges, limit: 9, game: 0, work: 0 };
        case(name, call, [2, 1, 0, 0])
    };
    let lent_to_restrict = |name, game: &str, out, map, work, answer| {
        case(name, Call::Restrict { game: words(game), out, map, work }, answer)
    };
    let game = "1 1 0  0  0  5  6  0 1  0  1";
    vec![
        lengths("game one longer", one(), 149, 192),
        lengths("game one shorter", one(), 147, 192),
        lengths("game without room for states and items, or for counts", one(), 116, 192),
        lengths("game without room for items", one(), 132, 192),
        lengths("game without room for states, items and counts", one(), 84, 192),
        lengths("work one longer", one(), 148, 193),
        lengths("work one shorter", one(), 148, 191),
        lengths("A10: game longer and empty labels", Model { labels: vec![], ..one() }, 149, 192),
        room("1 before 2 and 11: V = 0", 0, 1),
        room("V too large", (1 << 20) + 1, 1),
        room("E = 0", 1, 0),
        room("E too large", 1, (1 << 22) + 1),
        room("both beyond all memory", u32::MAX, u32::MAX),
        lent_to_restrict("C2", "1 1 1  0  0  0  0  0 1  0  0", 0, 0, 0, [2, 53, 2, 0]),
        lent_to_restrict("output shorter", game, 10, 1, 1, [2, 2, 0, 0]),
        lent_to_restrict("output longer", game, 12, 1, 1, [2, 2, 0, 0]),
        lent_to_restrict("output without room for states and items", game, 9, 1, 1, [2, 2, 0, 0]),
        lent_to_restrict("map shorter", game, 11, 0, 1, [2, 2, 0, 0]),
        lent_to_restrict("map longer", game, 11, 2, 1, [2, 2, 0, 0]),
        lent_to_restrict("work shorter", game, 11, 1, 0, [2, 2, 0, 0]),
        lent_to_restrict("work longer", game, 11, 1, 2, [2, 2, 0, 0]),
        lent_to_restrict("all right", game, 11, 1, 1, [0, 1, 1, 1]),
    ]
}

/// Every size at its limit and one past it. These are large and not stored.
pub fn at_limits() -> Vec<Case> {
    let mut cases = Vec::new();
    let past = |over: bool, number: u32, done: [u32; 4]| if over { [2, number, 0, 0] } else { done };
    for over in [false, true] {
        let more = u32::from(over);
        let (l, a) = (4_096 + more, 16_384 + more);
        let labels = Model { labels: vec![l, 0], ..base() };
        cases.push(run("labels", labels, past(over, 12, [0, 2, 2, 2])));
        let actions = [vec![1, a], vec![0; a as usize], (0..a).collect()].concat();
        cases.push(run("actions", Model { labels: actions, ..base() }, past(over, 12, [0, 2, 2, 2])));
        let s = 65_535 + more;
        let states = [vec![s, 0, s - 1], vec![0; s as usize]].concat();
        cases.push(run("states", Model { system: states, ..base() }, past(over, 22, [0, 2, 2, 2])));
        let t = 262_144 + more;
        let transitions = [vec![1, t, 0, t], vec![0; 2 * t as usize]].concat();
        let diamond = Model { system: transitions, ..model(LOOP, "2 5 0 0 0") };
        let counted = words(&format!("3 3 0  1 0 1  1 0 0  0 0 0  0 1 2  0 1 2 3  1 2 2  0 {t} 0"));
        let all_to_one = run("transitions", diamond, past(over, 22, [0, 3, 3, 3]));
        cases.push(Case { game: (!over).then_some(counted), ..all_to_one });
        let m = 1_024 + more;
        let row = [vec![m], vec![0; 2 * m as usize]].concat();
        cases.push(run("action nodes", Model { actions: row, ..base() }, past(over, 32, [0, 2, 2, 2])));
        // All boxes, of which the first is stuck.
        let boxes = [vec![m], vec![4; m as usize - 1], vec![0; m as usize + 1]].concat();
        let stuck = Model { formula: boxes, ..model(STUCK, "1 0 0") };
        cases.push(run("formula nodes", stuck, past(over, 42, [0, 2, 2, 2])));
        let (v, e) = ((1 << 20) + more, (1 << 22) + more);
        cases.push(case("vertices", Call::build(base(), v, 9, 9), past(over, 1, [0, 2, 2, 2])));
        cases.push(case("edges", Call::build(base(), 9, e, 9), past(over, 1, [0, 2, 2, 2])));
        let lonely = [vec![v, 0, v - 1], vec![0; 5 * v as usize + 1]].concat();
        cases.push(case("vertices of a game", Call::restrict(lonely), past(over, 51, [0, 1, 1, 0])));
        let loops = [vec![1, e, 0, 0, 0, 0, 0, 0, e], vec![0; e as usize], vec![u32::MAX; e as usize]].concat();
        cases.push(case("edges of a game", Call::restrict(loops), past(over, 51, [0, 1, 1, e])));
    }
    cases
}
