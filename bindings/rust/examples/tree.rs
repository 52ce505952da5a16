//! Lays a small tree out at two widths.

use yezhgulo::{Doc, Error};

/// A node of a tree: its name, and the nodes below it.
struct Node(&'static str, Vec<Node>);

/// A node is its name, and the nodes below it in parentheses: on one line where they fit, and else each on its own.
fn document(Node(name, below): &Node) -> Doc {
    if below.is_empty() {
        return Doc::text(name);
    }
    let below = Doc::intersperse(below.iter().map(document), Doc::text(",") + Doc::line());
    (Doc::text(name) + "(" + (Doc::line_() + below).nest(2) + Doc::line_() + ")").group()
}

fn main() -> Result<(), Error> {
    let roots = Node("roots", vec![Node("oak", vec![]), Node("ash", vec![])]);
    let tree = Node("forest", vec![roots, Node("leaves", vec![])]);
    let document = document(&tree);
    println!("{}\n", document.pretty(80)?);
    println!("{}", document.pretty(24)?);
    Ok(())
}
