//! How many nodes an expanded formula has, or would have, for the message of refusal 62. The library has judged by
//! then; what counts here decides nothing, and takes any words.
use crate::Formulas;
use crate::nodes::Nodes;

/// The nodes of the expanded formula; none if they are more than 64 bits can count.
pub fn expanded_nodes(formulas: &Formulas) -> Option<u64> {
    let regulars = formulas.regulars.as_deref().map_or(Vec::new(), |words| regular_sizes(Nodes::of_regulars(words)));
    let formula = Nodes::of_formula(&formulas.formula);
    let mut nodes = vec![Some(0); formula.count() + 1];
    for node in (0..formula.count()).rev() {
        let (below, operand) = (nodes[node + 1], formula.operand(node));
        nodes[node] = match formula.kind(node) {
            2 | 3 => sum(Some(1), sum(below, nodes.get(operand).copied().flatten())),
            4 | 5 => regulars.get(operand).and_then(|size| size.above(below)),
            6 | 7 => sum(Some(1), below),
            _ => Some(1),
        };
    }
    nodes[0]
}

/// How many nodes a modality of a regular formula is expanded to above a formula of so many: `own` and `copies` times
/// as many. None is a number beyond 64 bits.
#[derive(Clone, Copy)]
struct Size {
    own: Option<u64>,
    copies: Option<u64>,
}

impl Size {
    const ONE: Size = Size { own: Some(1), copies: Some(1) };

    /// The nodes of the modality and what it stands above.
    fn above(&self, nodes: Option<u64>) -> Option<u64> {
        sum(self.own, product(self.copies, nodes))
    }

    /// The first modality before the second.
    fn sequence(&self, second: Size) -> Size {
        Size { own: self.above(second.own), copies: product(self.copies, second.copies) }
    }

    /// Both modalities above the same formula, joined by a node.
    fn choice(&self, other: Size) -> Size {
        Size { own: sum(Some(1), sum(self.own, other.own)), copies: sum(self.copies, other.copies) }
    }

    /// A fixpoint, its "and" or "or", and the modality above a reference; the formula stands there once.
    fn star(&self) -> Size {
        Size { own: sum(Some(2), self.above(Some(1))), copies: Some(1) }
    }
}

/// The sizes of all nodes: children come later, so the last node is first.
fn regular_sizes(regulars: Nodes) -> Vec<Size> {
    let mut sizes = vec![Size::ONE; regulars.count() + 1];
    for node in (0..regulars.count()).rev() {
        let left = sizes[node + 1];
        let right = sizes.get(regulars.operand(node)).copied().unwrap_or(Size::ONE);
        sizes[node] = match regulars.kind(node) {
            1 => left.sequence(right),
            2 => left.choice(right),
            3 => left.star(),
            4 => left.sequence(left.star()),
            _ => Size::ONE,
        };
    }
    sizes
}

fn sum(one: Option<u64>, other: Option<u64>) -> Option<u64> {
    one?.checked_add(other?)
}

fn product(one: Option<u64>, other: Option<u64>) -> Option<u64> {
    one?.checked_mul(other?)
}
