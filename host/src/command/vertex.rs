//! What a vertex of a game stands for: by its numbers or, with the game's model and formula, in their words.
use super::input::{Input, name, open};
use super::notation::{Item, Notation};
use super::options::Given;
use super::{CUT, DONE, Failure, USAGE, told};
use crate::explain::counted;
use crate::{Game, Model, Player, Refusal, Room};
use std::fmt::{self, Write as _};
use std::io::{self, Write};

/// So many transitions of the vertex's state are listed.
const FEW: usize = 20;

pub fn run(given: &Given) -> Result<u8, Failure> {
    let [file, vertex] = &given.files[..] else {
        return Err(Failure::new(USAGE, "a game and the number of a vertex are wanted"));
    };
    let wrong = |_| Failure::new(USAGE, format!("the vertex is a 32-bit number, not {vertex:?}"));
    let (vertex, named) = (vertex.parse().map_err(wrong)?, given.model_and_formula()?);
    let words = open(file)?.game().map_err(|error| Failure::reading(&name(file), error))?;
    let refused = |refusal: Refusal| Failure::refused(told(&name(file), &refusal, &refusal.in_game(&words)));
    let game = Game::of_words(&words).map_err(refused)?;
    if vertex >= game.vertices() {
        let vertices = counted(game.vertices(), "vertex");
        return Err(Failure::refused(format!("{}: there is no vertex {vertex}: {vertices}", name(file))));
    }
    let mut text = by_numbers(game, vertex);
    if let Some(files) = named {
        let input = Input::read(&files)?;
        if let Some(refusal) = input.model.fault() {
            return Err(Failure::refused(input.told(&refusal, Room::MOST)));
        }
        let notation = Notation::new(&input.model);
        let items = notation.items();
        let owners: Vec<Player> = items.iter().map(|item| notation.owner(item)).collect();
        if let Some(why) = strange(game, &input.model, &owners) {
            return Err(Failure::refused(format!("{}: no game of {}: {why}", name(file), input.name())));
        }
        let place = Place { model: &input.model, notation, items, state: game.state(vertex), item: game.item(vertex) };
        place.tell(&mut text).map_err(|error| Failure::writing("standard output", io::Error::other(error)))?;
    }
    let mut out = io::stdout().lock();
    let written = out.write_all(text.as_bytes()).and_then(|()| out.flush());
    written.map_err(|error| Failure::writing("standard output", error))?;
    Ok(if game.is_cut() { CUT } else { DONE })
}

/// What the game itself says.
fn by_numbers(game: Game, vertex: u32) -> String {
    let (state, item) = (game.state(vertex), game.item(vertex));
    let lacking = if game.lacks_states() { ", as every vertex here: read from text, no states" } else { "" };
    let edges = plural(game.successors(vertex).len(), "edge");
    let owner = told_owner(game.owner(vertex));
    let priority = game.priority(vertex);
    format!("vertex {vertex}: state {state}, item {item}{lacking}\nowner {owner}, priority {priority}, {edges}\n")
}

fn told_owner(owner: Option<Player>) -> &'static str {
    match owner {
        Some(Player::Even) => "0 (Even)",
        Some(Player::Odd) => "1 (Odd)",
        None => "2 (it still waits: the game is cut)",
    }
}

fn plural(count: usize, thing: &str) -> String {
    match count {
        0 => format!("no {thing}s"),
        1 => format!("1 {thing}"),
        _ => format!("{count} {thing}s"),
    }
}

/// Why a game can't be one of a model and a formula whose items have these owners. A game of another formula of the
/// same form is not found out.
fn strange(game: Game, model: &Model, owners: &[Player]) -> Option<String> {
    let (states, initial) = (model.system[0], model.system[2]);
    if game.lacks_states() {
        return Some("every vertex has state 0 and item 0: read from text, no states".to_string());
    }
    if (game.state(0), game.item(0)) != (initial, 0) {
        let (state, item) = (game.state(0), game.item(0));
        return Some(format!(
            "vertex 0 has state {state} and item {item}, and not {initial}, the initial state, and 0"
        ));
    }
    (0..game.vertices()).find_map(|vertex| {
        let (state, item, owner) = (game.state(vertex), game.item(vertex), game.owner(vertex));
        match owners.get(item as usize) {
            _ if state >= states => {
                Some(format!("vertex {vertex} has state {state}, and {}", counted(states, "state")))
            }
            None => Some(format!("vertex {vertex} has item {item}, and {}", counted(owners.len() as u32, "item"))),
            Some(_) if owner.is_none() => None,
            Some(&of_item) if owner == Some(of_item) => None,
            Some(&of_item) => {
                let [found, wanted] = [owner, Some(of_item)].map(told_owner);
                Some(format!("vertex {vertex} has owner {found}, and its item {item} has {wanted}"))
            }
        }
    })
}

/// A state of a model and an item of its formula.
struct Place<'a> {
    model: &'a Model,
    notation: Notation<'a>,
    items: Vec<Item>,
    state: u32,
    item: u32,
}

impl Place<'_> {
    fn tell(&self, text: &mut String) -> fmt::Result {
        let item = &self.items[self.item as usize];
        let what = if matches!(item, Item::Equation(_)) { "an equation" } else { "a subformula" };
        write!(text, "item {}, {what}: ", self.item)?;
        self.notation.item(text, item)?;
        self.transitions(text)
    }

    /// The first transitions that leave the state.
    fn transitions(&self, text: &mut String) -> fmt::Result {
        let [states, transitions] = [0, 1].map(|at| self.model.system[at] as usize);
        let (degrees, rest) = self.model.system[3..].split_at(states);
        let (labels, targets) = rest.split_at(transitions);
        let state = self.state as usize;
        let (first, count) = (degrees[..state].iter().sum::<u32>() as usize, degrees[state] as usize);
        writeln!(text, "\nstate {state}: {}", plural(count, "transition"))?;
        for at in (first..first + count).take(FEW) {
            write!(text, "  ")?;
            self.notation.transition(text, state, labels[at] as usize, targets[at])?;
            writeln!(text)?;
        }
        if count > FEW { writeln!(text, "  and {} more", count - FEW) } else { Ok(()) }
    }
}

#[cfg(all(test, feature = "testing"))]
mod tests {
    use super::{Notation, Player, strange};
    use crate::check::generate::{Random, Sizes, random_model};
    use crate::{Room, restrict};

    /// Every game of a run is taken for one of its model and formula, whole, cut or restricted.
    #[test]
    fn games_of_runs() {
        let mut random = Random::new(9);
        for _ in 0..3_000 {
            let model = random_model(&mut random, Sizes { formula: 20, states: 6, permuted: false });
            let notation = Notation::new(&model);
            let owners: Vec<Player> = notation.items().iter().map(|item| notation.owner(item)).collect();
            for limit in [u32::MAX, random.within(0, 9) as u32] {
                let built = model.build(Room { vertices: 4_096, edges: 16_384 }, limit);
                let restricted = restrict(&built.game);
                for game in built.view().into_iter().chain(restricted.view()) {
                    assert_eq!(strange(game, &model, &owners), None, "{model:?} {limit}");
                }
            }
        }
    }
}
