//! A walk in a binary tree, by paths from the root.

use crate::world::World;

/// A tree: a leaf, or an internal node with two children.
#[derive(Clone)]
enum Tree {
    Leaf,
    Internal(Box<[Tree; 2]>),
}

/// A way down from the root: 0 for left, 1 for right.
type Path = Vec<usize>;

#[derive(Clone)]
pub struct Traversal {
    tree: Tree,
    at: Path,
    /// The nodes in the order of their visits.
    visited: Vec<Path>,
}

/// One for each tree with at most three levels, in the order of the sample's cases.
pub fn traversals() -> Vec<Traversal> {
    let leaf = || Tree::Leaf;
    let node = |left, right| Tree::Internal(Box::new([left, right]));
    let pair = || node(leaf(), leaf());
    let trees = [
        leaf(),
        pair(),
        node(pair(), leaf()),
        node(leaf(), pair()),
        node(pair(), pair()),
    ];
    let traversal = |tree| Traversal {
        tree,
        at: Path::new(),
        visited: Vec::new(),
    };
    trees.map(traversal).into()
}

impl Tree {
    /// The tree below a path, if the path stays inside.
    fn below(&self, path: &[usize]) -> Option<&Tree> {
        match (path, self) {
            ([], _) => Some(self),
            ([_, ..], Tree::Leaf) => None,
            ([side, rest @ ..], Tree::Internal(children)) => children[*side].below(rest),
        }
    }

    fn is_internal(&self) -> bool {
        matches!(self, Tree::Internal(_))
    }

    /// The paths to all nodes depth first: a node, what is left of it, what is right of it.
    fn depth_first(&self, to_here: &Path) -> Vec<Path> {
        let mut paths = vec![to_here.clone()];
        if let Tree::Internal(children) = self {
            for (side, child) in children.iter().enumerate() {
                let to_child = [&to_here[..], &[side]].concat();
                paths.extend(child.depth_first(&to_child));
            }
        }
        paths
    }
}

/// The path to the node with a number, the children of n being 2n and 2n + 1.
fn path_to(number: usize) -> Path {
    if number == 1 {
        return Path::new();
    }
    let mut path = path_to(number / 2);
    path.push(number % 2);
    path
}

impl Traversal {
    /// Whether the nodes were visited depth first, each once.
    pub fn was_depth_first(&self) -> bool {
        self.visited == self.tree.depth_first(&Path::new())
    }

    fn current(&self) -> &Tree {
        self.tree.below(&self.at).expect("a node of the tree")
    }

    /// To a child, if there are any.
    fn descend(&mut self, side: usize) -> bool {
        let internal = self.current().is_internal();
        if internal {
            self.at.push(side);
        }
        internal
    }
}

impl World for Traversal {
    fn act(&mut self, action: &str) -> bool {
        match action {
            "visit" => {
                self.visited.push(self.at.clone());
                true
            }
            "left" => self.descend(0),
            "right" => self.descend(1),
            "up" => self.at.pop().is_some(),
            _ => panic!("no such action: {action}"),
        }
    }

    fn holds(&self, fact: &str) -> bool {
        if fact == "is-internal" {
            return self.current().is_internal();
        }
        let (what, number) = fact.split_once(' ').expect("a node's number");
        let path = path_to(number.parse().expect("a number"));
        match what {
            "at" => self.at == path,
            "visited" => self.visited.contains(&path),
            "internal" => self.tree.below(&path).is_some_and(Tree::is_internal),
            _ => panic!("no such fact: {fact}"),
        }
    }

    fn at_goal(&self) -> bool {
        let nodes = self.tree.depth_first(&Path::new());
        self.at.is_empty() && nodes.iter().all(|node| self.visited.contains(node))
    }
}
