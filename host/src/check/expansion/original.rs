//! Where the Rust original expands as the document says (docs/DIFFERENCES.md has the rest): there its game of a formula
//! over regular formulas must be the one of the expanded formula.
use super::call::Input;

/// Whether no box has a choice, and what is repeated by a plus is an action formula. The input must be one that is
/// accepted.
pub fn expands_alike(input: &Input) -> bool {
    let (kinds, operands) = input.formula[1..].split_at(input.formula[0] as usize);
    let modality = |(&kind, &operand): (&u32, &u32)| match kind {
        4 => alike(&input.regulars, operand as usize, true),
        5 => alike(&input.regulars, operand as usize, false),
        _ => true,
    };
    kinds.iter().zip(operands).all(modality)
}

fn alike(regulars: &[u32], node: usize, of_box: bool) -> bool {
    let (kinds, operands) = regulars[1..].split_at(regulars[0] as usize);
    let (left, right) = (node + 1, operands[node] as usize);
    match kinds[node] {
        0 => true,
        2 if of_box => false,
        1 | 2 => alike(regulars, left, of_box) && alike(regulars, right, of_box),
        3 => alike(regulars, left, of_box),
        _ => kinds[left] == 0,
    }
}

/// With the actions of each label in order: to the original multi-actions in other orders are not alike.
pub fn ordered(mut input: Input) -> Input {
    let count = input.labels[1] as usize;
    let (numbers, actions) = input.labels[2..].split_at_mut(count);
    let mut listed: Vec<(u32, u32)> = numbers.iter().copied().zip(actions.iter().copied()).collect();
    listed.sort_unstable();
    actions.iter_mut().zip(listed).for_each(|(action, (_, ordered))| *action = ordered);
    input
}
