//! The game of a formula on a model as textbooks have it, with a ranking that is right for every formula: a vertex for
//! each state and node, and a fixpoint has a larger priority than all fixpoints inside it.
//!
//! Solved, it must give the verdict that [`meaning`](super::meaning) gives, always. So a game of the library's that is
//! won otherwise is a matter of its ranking, and not of the solver or of the direct reading.
use super::meaning;
use crate::{Model, game_words};

struct Vertex {
    owner: u32,
    priority: u32,
    targets: Vec<u32>,
}

/// The game's words: the states at node 0, then those at node 1, and so on. So the formula holds in a state exactly if
/// Even wins the vertex with the state's number. The model must be one that is accepted.
pub fn game(model: &Model) -> Vec<u32> {
    let (states, nodes) = (model.system[0], model.formula[0]);
    let priorities = priorities(model);
    let mut vertices: Vec<Vertex> = Vec::new();
    for node in 0..nodes {
        let moves = meaning::moves(model, node as usize);
        for state in 0..states {
            let mut vertex = vertex(model, node, state, &moves);
            vertex.priority = priorities[node as usize];
            // Whoever cannot move has lost.
            if vertex.targets.is_empty() {
                vertex.targets.push(node * states + state);
                vertex.priority = 1 - vertex.owner;
            }
            vertices.push(vertex);
        }
    }
    words(&vertices, model.system[2])
}

/// The fixpoints' priorities, the outermost ones the largest; 0 elsewhere.
fn priorities(model: &Model) -> Vec<u32> {
    let nodes = model.formula[0] as usize;
    let fixpoint = |node: usize| matches!(model.formula[1 + node], 6 | 7);
    let mut priorities = vec![0; nodes];
    // Fixpoints inside another come later in the table.
    for (inside, node) in (0..nodes).rev().filter(|&node| fixpoint(node)).enumerate() {
        priorities[node] = 2 + 2 * inside as u32 + u32::from(model.formula[1 + node] == 6);
    }
    priorities
}

fn vertex(model: &Model, node: u32, state: u32, moves: &[(usize, usize)]) -> Vertex {
    let states = model.system[0];
    let (kinds, operands) = model.formula[1..].split_at(model.formula[0] as usize);
    let (kind, operand) = (kinds[node as usize], operands[node as usize]);
    let at = |node: u32| node * states + state;
    let targets = match kind {
        0 | 1 => vec![],
        2 | 3 => vec![at(node + 1), at(operand)],
        4 | 5 => {
            let from_here = moves.iter().filter(|(source, _)| *source == state as usize);
            from_here.map(|(_, target)| (node + 1) * states + *target as u32).collect()
        }
        6 | 7 => vec![at(node + 1)],
        _ => vec![at(operand)],
    };
    // Even must show a disjunction or a diamond, and is stuck at false; where there is one edge it does not matter.
    Vertex { owner: u32::from(!matches!(kind, 1 | 3 | 5)), priority: 0, targets }
}

fn words(vertices: &[Vertex], initial: u32) -> Vec<u32> {
    let edges: usize = vertices.iter().map(|vertex| vertex.targets.len()).sum();
    let mut words = vec![vertices.len() as u32, edges as u32, initial];
    words.extend(vertices.iter().map(|vertex| vertex.owner));
    words.extend(vertices.iter().map(|vertex| vertex.priority));
    // Nobody asks here which state and item a vertex has.
    words.extend(vec![0; 2 * vertices.len()]);
    let mut offset = 0;
    words.push(0);
    words.extend(vertices.iter().map(|vertex| {
        offset += vertex.targets.len() as u32;
        offset
    }));
    words.extend(vertices.iter().flat_map(|vertex| &vertex.targets));
    // Equal moves are edges of their own here, and who wins does not depend on counts.
    words.resize(game_words(vertices.len(), edges), 0);
    words
}
