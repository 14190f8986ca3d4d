//! The worked cases and readings, by the library and by the plain implementation, and the files and lines of the
//! command.
use hingrezh::check::call::{LIBRARY, PLAIN, perform, unlawful};
use hingrezh::check::cases;
use hingrezh::{Answer, FileFault, Layout, Model, Party, Refusal, Room};
use hingrezh::{counted_lines, game_lines, read_pgsolver, restrict, write_pgsolver};

#[test]
fn worked_cases_and_readings() {
    for case in cases::all() {
        for by in [LIBRARY, PLAIN] {
            let got = perform(&case.call, by, 9);
            assert_eq!(got.answer, case.answer, "{} by {}", case.name, by.name);
            assert_eq!(unlawful(&got, 9), None, "{} by {}", case.name, by.name);
            if let Some(game) = &case.game {
                assert_eq!(got.game[..game.len()], game[..], "{} by {}", case.name, by.name);
            }
            if let Some(map) = &case.map {
                assert_eq!(got.map, *map, "{} by {}", case.name, by.name);
            }
        }
    }
}

fn case_1() -> Model {
    Model {
        labels: vec![1, 1, 0, 7],
        system: vec![1, 1, 0, 1, 0, 0],
        actions: vec![1, 2, 0],
        formula: vec![3, 7, 5, 8, 0, 0, 0],
    }
}

#[test]
fn lines_of_case_1() {
    let built = case_1().build(Room { vertices: 512, edges: 1_024 }, 512);
    let mut text = Vec::new();
    game_lines(&mut text, &built.answer, &built.game).unwrap();
    assert_eq!(String::from_utf8(text).unwrap(), "done 3 3 3\n0 0 0 1\n1 0 0 2\n2 1 0 0\n");
    let mut text = Vec::new();
    counted_lines(&mut text, &built.answer, &built.game).unwrap();
    assert_eq!(String::from_utf8(text).unwrap(), "done 3 3 3\n0 0 0 1\n1 0 0 2*1\n2 1 0 0\n");
    assert_eq!(restrict(&built.game).game, built.game);
}

#[test]
fn text_of_case_1() {
    let built = case_1().build(Room { vertices: 512, edges: 1_024 }, 512);
    let written = write_pgsolver(&built.game);
    assert_eq!(written.answer, Answer::Done { steps: 37, vertices: 0, edges: 0 });
    assert_eq!(String::from_utf8(written.text.clone()).unwrap(), "parity 2;\n0 0 0 1;\n1 0 0 2;\n2 0 1 0;\n");
    // The text has no states, items and counts.
    let mut read = built.clone();
    let layout = Layout { vertices: 3, edges: 3 };
    for column in [layout.states(), layout.items(), layout.counts()] {
        read.game[column].fill(0);
    }
    assert_eq!(read_pgsolver(&written.text, Room { vertices: 3, edges: 3 }), read);
}

#[test]
fn files() {
    let bytes = case_1().to_bytes();
    assert_eq!(Model::from_bytes(&bytes), Ok(case_1()));
    assert_eq!(Model::from_bytes(&bytes[..bytes.len() - 1]), Err(FileFault::BrokenWord(bytes.len() - 1)));
    let found = bytes.len() as u64 / 4 - 5;
    assert_eq!(Model::from_bytes(&bytes[..bytes.len() - 4]), Err(FileFault::Lengths { promised: found + 1, found }));
    assert_eq!(Model::from_bytes(&[0; 12]), Err(FileFault::NoLengths(3)));
}

#[test]
fn refusals_in_words() {
    let model = Model { system: vec![1, 1, 1, 1, 0, 0], ..case_1() };
    let refusal = Refusal { number: 23, place: 2 };
    assert_eq!(model.build(Room::MOST, 9).answer, Answer::Refused(refusal));
    assert_eq!(refusal.who(), Party::Modeller);
    assert_eq!(
        refusal.to_string(),
        "refused 23 2: the initial state is not below S (word 2 of the system); to be mended by the modeller"
    );
    // A room beyond all memory is refused before it is asked for.
    let room = Room { vertices: u32::MAX, edges: u32::MAX };
    assert_eq!(model.build(room, 9).answer, Answer::Refused(Refusal { number: 1, place: 0 }));
}
