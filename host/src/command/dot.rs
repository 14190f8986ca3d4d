//! A small game as a Graphviz graph.
use super::input::{Input, STREAM, name, open};
use super::options::Given;
use super::{CUT, DONE, Failure, NO_WORDS, REFUSED, no_room, output, status_of, told};
use crate::explain::lacking;
use crate::regular::model_and_formulas;
use crate::{Answer, Game, Player, Room};
use std::io::{self, BufWriter, Write};

/// A graph that can still be looked at.
const SMALL: Room = Room { vertices: 1_000, edges: 4_000 };

const HEAD: &str = "\
// Diamonds are Even's vertices, boxes Odd's, dashed ones still wait; inside is the priority. Beside it, 5: s1 i3 means
// vertex 5, which stands for state 1 and item 3; hingrezh show lists the items.
// The largest priority seen for ever decides, an even one for Even; the formula holds if Even wins vertex 0.
// A number at an edge says how many transitions are behind it, where there are several.
digraph game {
  node [fontname=\"sans-serif\"];
  start [shape=point];";

pub fn run(given: &Given) -> Result<u8, Failure> {
    let room = given.room(SMALL)?;
    given.output_apart()?;
    let (game, status) = game_of(given, room)?;
    let game = Game::of_words(&game).map_err(|fault| Failure::new(NO_WORDS, fault.to_string()))?;
    let standard = |error| Failure::writing("standard output", error);
    match given.output().filter(|&file| file != STREAM) {
        Some(file) => {
            let text = |mut out: &mut dyn Write| draw(&mut out, game);
            output::write_named(file, text).map_err(|error| Failure::writing(file, error))?;
        }
        None => {
            let out = &mut BufWriter::new(io::stdout().lock());
            draw(out, game).and_then(|()| out.flush()).map_err(standard)?;
        }
    }
    Ok(status)
}

/// A game's words, from a file that holds them or from an input.
fn game_of(given: &Given, room: Room) -> Result<(Vec<u32>, u8), Failure> {
    let [file] = &given.files[..] else { return built(Input::read(&given.files)?, given, room) };
    let words = open(file)?.game().map_err(|error| Failure::reading(&name(file), error))?;
    match (Game::of_words(&words), model_and_formulas(&words)) {
        (Ok(game), _) if game.vertices() > room.vertices || game.edges() > room.edges => {
            let (found, most) = ((game.vertices(), game.edges()), (room.vertices, room.edges));
            let message = format!(
                "{}: the game has {} vertices and {} edges, and at most {} and {} are drawn (--vertices, --edges)",
                name(file),
                found.0,
                found.1,
                most.0,
                most.1
            );
            Err(Failure::new(REFUSED, message))
        }
        (Ok(game), _) => {
            let status = if game.is_cut() { CUT } else { DONE };
            Ok((words, status))
        }
        (_, Ok((model, formulas))) => built(Input::new(model, formulas, &given.files)?, given, room),
        (Err(fault), _) if fault.number == 51 && lacking(&words).is_none() => {
            let message = "neither the words of a game nor four lengths (five with regular formulas) and their words";
            Err(Failure::new(NO_WORDS, format!("{}: {message}", name(file))))
        }
        (Err(fault), _) => Err(Failure::refused(told(&name(file), &fault, &fault.in_game(&words)))),
    }
}

fn built(input: Input, given: &Given, room: Room) -> Result<(Vec<u32>, u8), Failure> {
    let built = input.model.try_build(room, given.limit()?).map_err(no_room)?;
    match built.answer {
        Answer::Refused(refusal) => Err(Failure::refused(input.told(&refusal, room))),
        answer => Ok((built.game, status_of(&answer))),
    }
}

fn draw(out: &mut impl Write, game: Game) -> io::Result<()> {
    let lacking = game.lacks_states();
    // The vertex and what it stands for, if the game says so.
    let beside = |vertex: u32| match lacking {
        true => vertex.to_string(),
        false => format!("\"{vertex}: s{} i{}\"", game.state(vertex), game.item(vertex)),
    };
    writeln!(out, "{HEAD}\n  start -> {};", game.initial())?;
    for vertex in 0..game.vertices() {
        let (priority, beside) = (game.priority(vertex), beside(vertex));
        match game.owner(vertex) {
            Some(Player::Even) => writeln!(out, "  {vertex} [shape=diamond, label={priority}, xlabel={beside}];")?,
            Some(Player::Odd) => writeln!(out, "  {vertex} [shape=box, label={priority}, xlabel={beside}];")?,
            None => writeln!(out, "  {vertex} [shape=ellipse, style=dashed, label=\"?\", xlabel={beside}];")?,
        }
        for (target, &count) in game.successors(vertex).iter().zip(game.counts(vertex)) {
            match count {
                0 | 1 => writeln!(out, "  {vertex} -> {target};")?,
                _ => writeln!(out, "  {vertex} -> {target} [label={count}];")?,
            }
        }
    }
    writeln!(out, "}}")
}
