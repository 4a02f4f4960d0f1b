//! Documents in longer forms than needed, as the reader lays them into a table.

use super::cases::{Case, Cases};
use super::parts::rows_of;
use super::right::read_tables;
use reference::generate::{encode, shortest, Choose, Node};

pub fn writes() -> Cases {
    let mut cases = Vec::new();
    for node in sampled() {
        let documents = [one_longer(&node), vec![in_forms(&node, &mut |forms| forms - 1)]].concat();
        cases.extend(documents.iter().map(|document| rewritten(document, &node)));
    }
    for node in shrinking() {
        // A small integer has 17 forms, a length or a count at most 10.
        let integers_longest = in_forms(&node, &mut |forms| if forms > 10 { forms - 1 } else { 0 });
        let all_longest = in_forms(&node, &mut |forms| forms - 1);
        let short = shortest(&node);
        for (document, less) in [(integers_longest, 0), (all_longest, 1)] {
            cases.push(Case::becoming(&rows_of(&document), &document, &short, short.len() - less));
            cases.push(rewritten(&document, &node));
        }
    }
    for node in edged() {
        // What stands innermost is chosen first.
        let mut first = Some(1);
        let document = in_forms(&node, &mut |_| first.take().unwrap_or(0));
        cases.push(rewritten(&document, &node));
    }
    cases.extend(read());
    cases
}

/// The tree's document in the forms chosen.
fn in_forms(node: &Node, choose: Choose) -> Vec<u8> {
    let mut document = Vec::new();
    encode(node, choose, &mut document);
    document
}

/// The tree's documents with one form that is not the first, and all others the first.
pub fn one_longer(node: &Node) -> Vec<Vec<u8>> {
    let mut counts = Vec::new();
    in_forms(node, &mut |forms| {
        counts.push(forms);
        0
    });
    let mut documents = Vec::new();
    for (at, form) in counts.iter().enumerate().flat_map(|(at, count)| (1..*count).map(move |form| (at, form))) {
        let mut asked = 0..;
        documents.push(in_forms(node, &mut |_| if asked.next() == Some(at) { form } else { 0 }));
    }
    documents
}

/// A document read, with room for as many bytes, and what it is written as.
fn rewritten(document: &[u8], node: &Node) -> Case {
    Case::becoming(&rows_of(document), document, &shortest(node), document.len())
}

/// Trees with every sort of length, count and number, and integers of every sort.
fn sampled() -> Vec<Node> {
    let text = |size: usize| Node::Text("k".repeat(size));
    let one = || Box::new(Node::None);
    vec![
        text(0),
        text(1),
        text(33),
        text(248),
        Node::Text("né€\u{1d11e}".into()),
        Node::Binary(vec![]),
        Node::Binary(vec![0x0d; 9]),
        Node::Array(vec![]),
        Node::Array(vec![Node::True, Node::Signed(5)]),
        Node::Array(vec![Node::None; 17]),
        Node::Record(vec![]),
        Node::Record(vec![("k".into(), Node::None), ("".into(), Node::False)]),
        Node::Record(vec![("k".repeat(248), Node::None)]),
        Node::Map(vec![(Node::True, Node::Signed(-31))]),
        Node::Map(vec![(Node::True, Node::None); 9]),
        Node::Declaration(vec![Node::Signed(64)], Box::new(Node::Reference(0))),
        Node::Declaration(vec![Node::None; 63], Box::new(Node::Reference(62))),
        Node::Foreign(one()),
        Node::Foreign(Box::new(Node::Foreign(one()))),
        Node::Foreign(Box::new(Node::Array(vec![Node::Unsigned(65), text(2)]))),
        Node::Damaged(vec![0x02, 0x02], 10),
        Node::Damaged(vec![], 2),
        Node::Foreign(Box::new(Node::Damaged(vec![0x0f; 3], 3))),
        Node::Signed(0),
        Node::Signed(-32),
        Node::Signed(200),
        Node::Signed(70_000),
        Node::Unsigned(200),
        Node::Unsigned(70_000),
        Node::Signed(1 << 90),
        Node::Unsigned(1 << 33),
    ]
}

fn foreign(body: Node, levels: usize) -> Node {
    (0..levels).fold(body, |body, _| Node::Foreign(Box::new(body)))
}

/// Foreign documents, in others too, whose bodies become so much shorter that their lengths have a shorter form.
fn shrinking() -> Vec<Node> {
    let mut nodes = Vec::new();
    for (count, levels) in [15, 16, 32].into_iter().flat_map(|count| [1, 3].map(|levels| (count, levels))) {
        nodes.push(foreign(Node::Array(vec![Node::Signed(5); count]), levels));
        let within = Node::Array(vec![foreign(Node::Array(vec![Node::Signed(5); count / 2]), levels); 2]);
        nodes.push(foreign(within, levels));
    }
    nodes.push(foreign(Node::None, 32));
    nodes.push(foreign(Node::Record(vec![("k".into(), foreign(Node::Signed(64), 8))]), 20));
    nodes
}

/// Foreign documents whose body is at an edge of a length's form, so that a byte less is a byte less of length.
fn edged() -> Vec<Node> {
    let sizes = [233, 236, 237, 239, 241, 242, 244, 245, 246, 247, 248, 249, 250, 252, 253];
    sizes
        .into_iter()
        .flat_map(|size| (1..=4).map(move |levels| foreign(Node::Text("k".repeat(size)), levels)))
        .collect()
}

/// The check's documents, whose tables come twice, with rubbish behind the rows and without: these in turn.
fn read() -> impl Iterator<Item = Case> {
    let tables = read_tables().into_iter().enumerate().filter(|(at, case)| (at / 2 + at) % 2 == 0 && case.n <= 130);
    tables.map(|(at, case)| {
        let length = case.data.len();
        Case::checked(case, [length, length + 3, length - 1, length / 2][at / 2 % 4])
    })
}
