//! Who wins a parity game, by Zielonka's recursive algorithm. For small games: it is written to be read.
//!
//! The largest priority that a play sees for ever decides: Even wins if it is even, Odd if it is odd. So a priority's
//! parity is the player that it is good for, and players are numbers as in the owners: 0 is Even, 1 is Odd.
use crate::Layout;

pub const EVEN: u32 = 0;
pub const ODD: u32 = 1;

/// A game in which every vertex has an owner and an edge.
pub struct Arena {
    owners: Vec<u32>,
    priorities: Vec<u32>,
    successors: Vec<Vec<usize>>,
    predecessors: Vec<Vec<usize>>,
}

impl Arena {
    /// From a game's words, without words past its end. A game that is cut has no winner, so it is not taken.
    pub fn of_words(game: &[u32]) -> Result<Arena, String> {
        if game.len() < 2 {
            return Err(format!("{} words are no game", game.len()));
        }
        let layout = Layout::of(game);
        let Layout { vertices: n, edges: m } = layout;
        if n == 0 || game.len() != layout.words() {
            return Err(format!("{} words are no game of {n} vertices and {m} edges", game.len()));
        }
        let [owners, priorities] = [layout.owners(), layout.priorities()].map(|column| game[column].to_vec());
        let [offsets, targets] = [layout.offsets(), layout.targets()].map(|column| &game[column]);
        let mut arena = Arena { owners, priorities, successors: vec![vec![]; n], predecessors: vec![vec![]; n] };
        for vertex in 0..n {
            let edges = targets.get(offsets[vertex] as usize..offsets[vertex + 1] as usize).unwrap_or(&[]);
            if arena.owners[vertex] > ODD || edges.is_empty() || edges.iter().any(|&target| target as usize >= n) {
                return Err(format!("vertex {vertex} has no owner, no edge, or an edge that leads nowhere"));
            }
            for &target in edges {
                arena.successors[vertex].push(target as usize);
                arena.predecessors[target as usize].push(vertex);
            }
        }
        Ok(arena)
    }

    /// The winner from each vertex.
    pub fn winners(&self) -> Vec<u32> {
        let mut winners = vec![EVEN; self.owners.len()];
        self.solve(vec![true; self.owners.len()], &mut winners);
        winners
    }

    /// Writes the winners in the subgame on `region`, whose vertices all have an edge inside it. Each call inside has
    /// a largest priority below this one's, so there are never more calls at once than priorities.
    fn solve(&self, mut region: Vec<bool>, winners: &mut [u32]) {
        while let Some(top) = members(&region).map(|vertex| self.priorities[vertex]).max() {
            let player = top % 2;
            let best = members(&region).filter(|&vertex| self.priorities[vertex] == top).collect();
            let rest = without(&region, &self.attractor(&region, player, best));
            self.solve(rest.clone(), winners);
            let lost: Vec<usize> = members(&rest).filter(|&vertex| winners[vertex] != player).collect();
            if lost.is_empty() {
                members(&region).for_each(|vertex| winners[vertex] = player);
                return;
            }
            // What the opponent wins without the best vertices is won with them, too, and so is what leads there.
            let taken = self.attractor(&region, 1 - player, lost);
            members(&taken).for_each(|vertex| winners[vertex] = 1 - player);
            region = without(&region, &taken);
        }
    }

    /// The vertices of the region from which the player can force a visit to one of `goals`.
    fn attractor(&self, region: &[bool], player: u32, mut goals: Vec<usize>) -> Vec<bool> {
        let mut drawn = vec![false; region.len()];
        goals.iter().for_each(|&vertex| drawn[vertex] = true);
        while let Some(goal) = goals.pop() {
            for &vertex in &self.predecessors[goal] {
                let escapes = || self.successors[vertex].iter().any(|&target| region[target] && !drawn[target]);
                if region[vertex] && !drawn[vertex] && (self.owners[vertex] == player || !escapes()) {
                    drawn[vertex] = true;
                    goals.push(vertex);
                }
            }
        }
        drawn
    }
}

fn members(region: &[bool]) -> impl Iterator<Item = usize> {
    (0..region.len()).filter(|&vertex| region[vertex])
}

fn without(region: &[bool], other: &[bool]) -> Vec<bool> {
    region.iter().zip(other).map(|(&inside, &left_out)| inside && !left_out).collect()
}

#[cfg(test)]
mod tests {
    use super::*;
    use crate::check::generate::Random;

    fn arena(owners: &[u32], priorities: &[u32], successors: &[Vec<usize>]) -> Arena {
        let mut words = vec![owners.len() as u32, successors.iter().map(Vec::len).sum::<usize>() as u32, 0];
        words.extend([owners, priorities, &vec![0; 2 * owners.len()]].concat());
        let mut offset = 0;
        words.push(0);
        words.extend(successors.iter().map(|targets| {
            offset += targets.len() as u32;
            offset
        }));
        words.extend(successors.iter().flatten().map(|&target| target as u32));
        words.resize(Layout::of(&words).words(), 0);
        Arena::of_words(&words).expect("a game")
    }

    fn random_arena(random: &mut Random) -> Arena {
        let (n, top) = (random.within(1, 6), random.within(0, 5));
        let successors: Vec<Vec<usize>> =
            (0..n).map(|_| (0..random.within(1, 3)).map(|_| random.below(n)).collect()).collect();
        let owners: Vec<u32> = (0..n).map(|_| random.below(2) as u32).collect();
        let priorities: Vec<u32> = (0..n).map(|_| random.within(0, top) as u32).collect();
        arena(&owners, &priorities, &successors)
    }

    /// Every way to choose one edge for each vertex of a player; other vertices have edge 0.
    fn strategies(arena: &Arena, player: u32) -> Vec<Vec<usize>> {
        let mut all = vec![vec![]];
        for vertex in 0..arena.owners.len() {
            let edges = if arena.owners[vertex] == player { arena.successors[vertex].len() } else { 1 };
            all = all.iter().flat_map(|some| (0..edges).map(move |edge| [&some[..], &[edge]].concat())).collect();
        }
        all
    }

    /// The winner of the only play that two strategies allow: it ends in a cycle, whose largest priority decides.
    fn play(arena: &Arena, from: usize, even: &[usize], odd: &[usize]) -> u32 {
        let next = |at: usize| {
            let edge = if arena.owners[at] == EVEN { even[at] } else { odd[at] };
            arena.successors[at][edge]
        };
        let on_cycle = (0..arena.owners.len()).fold(from, |at, _| next(at));
        let (mut at, mut top) = (next(on_cycle), arena.priorities[on_cycle]);
        while at != on_cycle {
            top = top.max(arena.priorities[at]);
            at = next(at);
        }
        top % 2
    }

    /// Even wins from a vertex if one strategy of hers wins against all of Odd's: no strategy needs memory.
    fn by_all_strategies(arena: &Arena) -> Vec<u32> {
        let (even, odd) = (strategies(arena, EVEN), strategies(arena, ODD));
        let wins = |from: usize| even.iter().any(|one| odd.iter().all(|other| play(arena, from, one, other) == EVEN));
        (0..arena.owners.len()).map(|from| if wins(from) { EVEN } else { ODD }).collect()
    }

    #[test]
    fn as_by_all_strategies() {
        let mut random = Random::new(12);
        let mut won = [0, 0];
        for _ in 0..4_000 {
            let arena = random_arena(&mut random);
            let winners = arena.winners();
            let what = (&arena.owners, &arena.priorities, &arena.successors);
            assert_eq!(winners, by_all_strategies(&arena), "{what:?}");
            winners.iter().for_each(|&winner| won[winner as usize] += 1);
        }
        assert!(won.iter().all(|&count| count > 1_000), "both players win: {won:?}");
    }

    #[test]
    fn the_largest_priority_decides() {
        // A cycle with priorities 1 and 2: the smallest would let Odd win.
        let winners = |priorities: &[u32]| arena(&[ODD, EVEN], priorities, &[vec![1], vec![0]]).winners();
        assert_eq!(winners(&[1, 2]), [EVEN, EVEN]);
        assert_eq!(winners(&[3, 2]), [ODD, ODD]);
    }

    #[test]
    fn players_choose() {
        // From 0 the owner chooses between a loop of priority 2 and one of priority 3.
        let winners = |owner: u32| arena(&[owner, EVEN, EVEN], &[0, 2, 3], &[vec![1, 2], vec![1], vec![2]]).winners();
        assert_eq!(winners(EVEN), [EVEN, EVEN, ODD]);
        assert_eq!(winners(ODD), [ODD, EVEN, ODD]);
    }

    #[test]
    fn words_that_are_not_solved() {
        let fault = |words: &[u32]| Arena::of_words(words).err().unwrap_or_default();
        assert_eq!(fault(&[]), "0 words are no game");
        assert_eq!(fault(&[1, 1, 0, 0, 0, 0, 1, 0, 0]), "9 words are no game of 1 vertices and 1 edges");
        let vertex = "vertex 0 has no owner, no edge, or an edge that leads nowhere";
        // Waiting as in a cut game, no edge, an edge to vertex 1, offsets beyond the targets.
        assert_eq!(fault(&[1, 1, 0, 2, 0, 0, 0, 0, 1, 0, 0]), vertex);
        assert_eq!(fault(&[1, 0, 0, 0, 0, 0, 0, 0, 0]), vertex);
        assert_eq!(fault(&[1, 1, 0, 0, 0, 0, 0, 0, 1, 1, 0]), vertex);
        assert_eq!(fault(&[1, 1, 0, 0, 0, 0, 0, 9, 1, 0, 0]), vertex);
    }
}
