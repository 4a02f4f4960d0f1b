//! Random trees: read from a document in any form, or laid into a table by the other maker.

use super::cases::{Case, Cases};
use super::maker::table_of;
use super::parts::rows_of;
use reference::generate::{longer, shortest, tree, Node, Random};

pub fn writes() -> Cases {
    let mut random = Random::new(61);
    (0..310).flat_map(|at| in_some_rooms(at, &mut random)).collect()
}

/// A tree of one of several sizes, at times deep in arrays or foreign documents.
fn random_tree(random: &mut Random) -> Node {
    let mut rows = random.one_of(&[2, 4, 8, 14, 20]);
    let levels = if random.below(6) == 0 { random.below(33) as u32 } else { 0 };
    let foreign = random.below(2) == 0;
    let node = tree(random, levels, 0, &mut rows);
    (0..levels).fold(node, |node, _| if foreign { Node::Foreign(Box::new(node)) } else { Node::Array(vec![node]) })
}

/// Just enough room, and another room around that.
fn in_some_rooms(at: usize, random: &mut Random) -> Cases {
    let node = random_tree(random);
    let (rows, data) = if at.is_multiple_of(2) {
        let document = longer(&node, random);
        (rows_of(&document), document)
    } else {
        table_of(&node)
    };
    let document = shortest(&node);
    let needed = document.len();
    let other = match random.below(5) {
        0 => needed - 1,
        1 => random.below(needed),
        2 => needed + 1,
        _ => needed + random.below(20),
    };
    [needed, other].map(|room| Case::becoming(&rows, &data, &document, room)).to_vec()
}
