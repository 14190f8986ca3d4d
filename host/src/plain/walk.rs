//! The walk over pairs in the work slice, and writing the game.
use super::items::{Compiled, Item};

/// A pair as one word; also the key of its slot.
fn pair(state: u32, item: u32) -> u32 {
    state * 2_048 + item
}

/// The work slice, divided, and the run's counters. A pair's own slot goes by the pair times the factor.
struct Walk<'a, const FACTOR: u32> {
    /// 3V/2 slots, rounded down, of key and vertex + 1 (0: empty), searched upwards from the key's own. With V of 2 or
    /// more one stays empty; the only slot of V = 1 may be taken.
    slots: &'a mut [[u32; 2]],
    /// The pair of each vertex.
    pairs: &'a mut [u32],
    /// The waiting vertices, last numbered last.
    stack: &'a mut [u32],
    /// Of a settled vertex: where its edges begin in `edges`, and how many they are.
    starts: &'a mut [u32],
    degrees: &'a mut [u32],
    /// Of each target, by its state or its vertex: one past the place of the last edge that a modality gave it.
    marks: &'a mut [u32],
    /// Targets in the order of settling, and the transitions behind each.
    edges: &'a mut [u32],
    counts: &'a mut [u32],
    known: usize,
    waiting: usize,
    made: usize,
    settled: usize,
}

/// Why a walk ends early.
enum Stop {
    /// The room is used up.
    Full,
    /// Pairs pile up in few slots: another factor is tried.
    Piled,
}

/// The factor that is tried first: a pair may stand at most so far above its own slot.
const FIRST: u32 = 2_654_435_761;
const FAR: usize = 1_000;

/// With this one it may stand anywhere.
const SECOND: u32 = 2_246_822_519;

impl<'a, const FACTOR: u32> Walk<'a, FACTOR> {
    fn new(work: &'a mut [u32], v: usize, e: usize) -> Self {
        let (slots, rest) = work.split_at_mut(3 * v);
        let (pairs, rest) = rest.split_at_mut(v);
        let (stack, rest) = rest.split_at_mut(v);
        let (starts, rest) = rest.split_at_mut(v);
        let (degrees, rest) = rest.split_at_mut(v);
        let (marks, rest) = rest.split_at_mut(v);
        let (edges, counts) = rest.split_at_mut(e);
        slots.fill(0);
        degrees.fill(0);
        marks.fill(0);
        let slots = slots.as_chunks_mut::<2>().0;
        let (known, waiting, made, settled) = (0, 0, 0, 0);
        Walk { slots, pairs, stack, starts, degrees, marks, edges, counts, known, waiting, made, settled }
    }

    /// The vertex of a pair, a new one if it has none yet.
    // Always inlined, as `target` is: for a call all of the walk would be kept in memory, and a run would take a sixth
    // longer.
    #[inline(always)]
    fn number(&mut self, pair: u32) -> Result<u32, Stop> {
        let product = pair.wrapping_mul(FACTOR) as u64;
        let own = ((product * self.slots.len() as u64) >> 32) as usize;
        let mut at = own;
        while self.slots[at][1] != 0 {
            if self.slots[at][0] == pair {
                return Ok(self.slots[at][1] - 1);
            }
            // The only slot of the smallest room.
            if self.slots.len() == 1 {
                return Err(Stop::Full);
            }
            at += 1;
            if at == self.slots.len() {
                at = 0;
            }
        }
        if FACTOR == FIRST && at > own + FAR {
            return Err(Stop::Piled);
        }
        let vertex = self.known;
        *self.pairs.get_mut(vertex).ok_or(Stop::Full)? = pair;
        self.slots[at] = [pair, vertex as u32 + 1];
        self.stack[self.waiting] = vertex as u32;
        self.waiting += 1;
        self.known += 1;
        Ok(vertex as u32)
    }

    fn edge(&mut self, target: u32, count: u32) -> Result<(), Stop> {
        *self.edges.get_mut(self.made).ok_or(Stop::Full)? = target;
        self.counts[self.made] = count;
        self.made += 1;
        Ok(())
    }

    #[inline(always)]
    fn target(&mut self, state: u32, item: u32) -> Result<(), Stop> {
        let vertex = self.number(pair(state, item))?;
        self.edge(vertex, 0)
    }

    /// Settles the vertex that was numbered last.
    fn step(&mut self, system: &System, compiled: &Compiled) -> Result<(), Stop> {
        self.waiting -= 1;
        let vertex = self.stack[self.waiting];
        let (state, item) = (self.pairs[vertex as usize] / 2_048, self.pairs[vertex as usize] % 2_048);
        let start = self.made;
        let Item { kind, left, right, .. } = compiled.items[item as usize];
        match kind {
            0 | 1 => {}
            // Two edges even if they are equal.
            2 | 3 => {
                self.target(state, left)?;
                self.target(state, right)?;
            }
            4 | 5 => self.modality(system, state, compiled.set(right), left)?,
            _ => self.target(state, left)?,
        }
        if self.made == start {
            self.edge(vertex, 0)?;
        }
        self.starts[vertex as usize] = start as u32;
        self.degrees[vertex as usize] = (self.made - start) as u32;
        self.settled += 1;
        Ok(())
    }

    /// Where there is a mark for each state the marks go by the state: then only the first transition to a state looks
    /// its pair up.
    fn modality(&mut self, system: &System, state: u32, set: &[u64], operand: u32) -> Result<(), Stop> {
        let start = self.made as u32;
        let by_state = system.states() <= self.marks.len();
        let (labels, targets) = system.transitions(state);
        for (&label, &state) in labels.iter().zip(targets) {
            if set[label as usize / 64] >> (label % 64) & 1 == 0 {
                continue;
            }
            if by_state && self.marks[state as usize] > start {
                self.counts[self.marks[state as usize] as usize - 1] += 1;
                continue;
            }
            let vertex = self.number(pair(state, operand))?;
            let mark = &mut self.marks[if by_state { state } else { vertex } as usize];
            if *mark > start {
                self.counts[*mark as usize - 1] += 1;
            } else {
                *mark = self.made as u32 + 1;
                self.edge(vertex, 1)?;
            }
        }
        Ok(())
    }
}

/// The system's words with the place of each state's first transition.
struct System<'a> {
    initial: u32,
    starts: Vec<u32>,
    labels: &'a [u32],
    targets: &'a [u32],
}

impl<'a> System<'a> {
    fn new(words: &'a [u32]) -> Self {
        let (s, t) = (words[0] as usize, words[1] as usize);
        let mut starts = Vec::with_capacity(s + 1);
        let mut start = 0;
        starts.push(0);
        starts.extend(words[3..3 + s].iter().map(|degree| {
            start += degree;
            start
        }));
        System { initial: words[2], starts, labels: &words[3 + s..3 + s + t], targets: &words[3 + s + t..] }
    }

    fn states(&self) -> usize {
        self.starts.len() - 1
    }

    fn transitions(&self, state: u32) -> (&[u32], &[u32]) {
        let (from, to) = (self.starts[state as usize] as usize, self.starts[state as usize + 1] as usize);
        (&self.labels[from..to], &self.targets[from..to])
    }
}

/// What a walk reads.
struct Tables<'a> {
    system: System<'a>,
    compiled: &'a Compiled,
}

/// At most `limit` steps from the beginning, and the game; gives the answer's words.
#[inline(never)]
fn build<const FACTOR: u32>(
    tables: &Tables,
    (v, e): (usize, usize),
    limit: u32,
    game: &mut [u32],
    work: &mut [u32],
) -> Result<[u32; 4], Stop> {
    let mut walk = Walk::<FACTOR>::new(work, v, e);
    walk.number(pair(tables.system.initial, 0))?;
    while walk.waiting > 0 && walk.settled < limit as usize {
        walk.step(&tables.system, tables.compiled)?;
    }
    write_game(&walk, &tables.compiled.items, game);
    Ok([u32::from(walk.waiting > 0), walk.settled as u32, walk.known as u32, walk.made as u32])
}

/// The run on accepted words; gives the answer's words.
pub fn run(
    system: &[u32],
    compiled: &Compiled,
    v: usize,
    e: usize,
    limit: u32,
    game: &mut [u32],
    work: &mut [u32],
) -> [u32; 4] {
    let tables = Tables { system: System::new(system), compiled };
    let answer = match build::<FIRST>(&tables, (v, e), limit, game, work) {
        Err(Stop::Piled) => build::<SECOND>(&tables, (v, e), limit, game, work),
        answer => answer,
    };
    work.fill(0);
    answer.unwrap_or_else(|_| {
        game.fill(0);
        [2, 60, 0, 0]
    })
}

/// Owner and priority of a settled vertex with these edges.
fn owner_and_priority(item: &Item, vertex: usize, targets: &[u32]) -> (u32, u32) {
    // True, false, and, or, box, diamond, least, greatest, reference.
    let owner = [1, 0, 1, 0, 1, 0, 1, 0, 1][item.kind as usize];
    // No pair is its own target, so an edge to itself is an added one; then Even's priority is 1.
    let stuck = targets[0] as usize == vertex;
    (owner, if stuck { 1 - owner } else { item.priority })
}

fn write_game<const FACTOR: u32>(walk: &Walk<FACTOR>, items: &[Item], game: &mut [u32]) {
    let (n, m) = (walk.known, walk.made);
    let (head, rest) = game.split_at_mut(3);
    let (owners, rest) = rest.split_at_mut(n);
    let (priorities, rest) = rest.split_at_mut(n);
    let (states, rest) = rest.split_at_mut(n);
    let (item_numbers, rest) = rest.split_at_mut(n);
    let (offsets, rest) = rest.split_at_mut(n + 1);
    let (targets, rest) = rest.split_at_mut(m);
    let (counts, past) = rest.split_at_mut(m);
    head.copy_from_slice(&[n as u32, m as u32, 0]);
    let mut offset = 0;
    for vertex in 0..n {
        offsets[vertex] = offset as u32;
        let (state, item) = (walk.pairs[vertex] / 2_048, walk.pairs[vertex] % 2_048);
        (states[vertex], item_numbers[vertex]) = (state, item);
        let degree = walk.degrees[vertex] as usize;
        // A settled vertex has an edge.
        if degree == 0 {
            (owners[vertex], priorities[vertex]) = (2, 0);
            continue;
        }
        let start = walk.starts[vertex] as usize;
        let edges = &walk.edges[start..][..degree];
        (owners[vertex], priorities[vertex]) = owner_and_priority(&items[item as usize], vertex, edges);
        targets[offset..offset + degree].copy_from_slice(edges);
        counts[offset..offset + degree].copy_from_slice(&walk.counts[start..][..degree]);
        offset += degree;
    }
    offsets[n] = offset as u32;
    past.fill(0);
}
