//! Visiting all nodes of a binary tree, depth first, by a procedure that calls itself: the domain Tree of Segovia, Jiménez and
//! Jonsson (2016).
//!
//! Nodes are numbered as in a heap: the root is 1, and node n has the children 2n and 2n + 1.

use super::Sample;
use planning_program::model::{words::*, Action, Bounds, Case, Mistake, TaskBuilder};
use std::ops::RangeInclusive;

/// The nodes of the largest tree, one with three levels.
const NODES: RangeInclusive<u8> = 1..=7;

/// The nodes that have children in the largest tree.
const PARENTS: RangeInclusive<u8> = 1..=3;

/// The internal nodes of every tree with at most three levels in which an internal node has two children.
const TREES: [&[u8]; 5] = [&[], &[1], &[1, 2], &[1, 3], &[1, 2, 3]];

pub fn sample() -> Result<Sample, Mistake> {
    let bounds = Bounds {
        last_line: 8,
        stack: 3,
        steps: 4096,
    };
    let model = TaskBuilder::new(bounds)
        .facts(NODES.map(at))
        .facts(NODES.map(visited))
        .facts(NODES.map(internal))
        .facts(["is-internal"])
        .actions([visit(), to_child("left", 0), to_child("right", 1), up()])
        .procedures(["main"])
        .cases(TREES.map(traversal))
        .build()?;
    let program = model.program([procedure(
        "main",
        [
            act("visit"),
            goto_unless(8, "is-internal"),
            act("left"),
            call("main"),
            act("up"),
            act("right"),
            call("main"),
            act("up"),
            end(),
        ],
    )])?;
    Ok(Sample {
        name: "tree-traversal",
        model,
        program,
    })
}

/// The current node is this one.
fn at(node: u8) -> String {
    format!("at {node}")
}

fn visited(node: u8) -> String {
    format!("visited {node}")
}

/// The node has two children in the tree of the case. Which nodes do never changes in a run.
///
/// The fact `is-internal` says the same of the current node; every move keeps it so.
fn internal(node: u8) -> String {
    format!("internal {node}")
}

fn visit() -> Action {
    action("visit").effects(NODES.map(|node| when([is(at(node))]).raises([visited(node)])))
}

/// From an internal node to its left child (`side` 0) or its right one (`side` 1).
fn to_child(name: &str, side: u8) -> Action {
    let effects = PARENTS.flat_map(|node| {
        let child = 2 * node + side;
        let arrives = when([is(at(node))]).raises([at(child)]).lowers([at(node)]);
        let at_leaf = when([is(at(node)), not(internal(child))]).lowers(["is-internal"]);
        [arrives, at_leaf]
    });
    action(name).needs([is("is-internal")]).effects(effects)
}

/// From a node to its parent, which is always internal.
fn up() -> Action {
    let others = NODES.skip(1);
    let effects = others.map(|node| {
        when([is(at(node))])
            .raises([at(node / 2), "is-internal".to_string()])
            .lowers([at(node)])
    });
    action("up").needs([not(at(1))]).effects(effects)
}

/// The run starts and ends at the root, and visits exactly the nodes of the tree with these internal nodes.
fn traversal(internal_nodes: &[u8]) -> Case {
    let in_tree = |node| node == 1 || internal_nodes.contains(&(node / 2));
    let at_internal_root = internal_nodes.contains(&1).then_some("is-internal");
    case(format!("internal {internal_nodes:?}"))
        .start([at(1)])
        .start(internal_nodes.iter().map(|&node| internal(node)))
        .start(at_internal_root)
        .goal([is(at(1))])
        .goal(NODES.map(|node| {
            if in_tree(node) {
                is(visited(node))
            } else {
                not(visited(node))
            }
        }))
}
