//! Random lawful books of all sizes, some of which contradict themselves.

use super::draft::Draft;
use super::random::Random;
use crate::reference::records::{ENTRY_LIMIT, INDIVIDUALS, NAMES, NODE_LIMIT, ROLES};

/// What a random book is made of.
#[derive(Clone, Debug)]
pub struct Shape {
    pub names: Vec<usize>,
    pub roles: Vec<usize>,
    pub individuals: Vec<usize>,
    pub nodes: usize,
    pub entries: usize,
    /// Struck entries of a hundred.
    pub struck: usize,
}

fn some_below(random: &mut Random, count: usize, limit: usize) -> Vec<usize> {
    let mut all: Vec<usize> = (0..limit).collect();
    random.shuffle(&mut all);
    all.truncate(count);
    if random.percent(10) {
        all.push(limit - 1);
    }
    all
}

impl Shape {
    pub fn small(random: &mut Random) -> Shape {
        let (names, roles, individuals) = (random.between(1, 4), random.between(1, 2), random.between(1, 3));
        Shape {
            names: some_below(random, names, NAMES),
            roles: some_below(random, roles, ROLES),
            individuals: some_below(random, individuals, INDIVIDUALS),
            nodes: random.between(1, 20),
            entries: random.between(0, 12),
            struck: random.pick(&[0, 0, 10, 40]),
        }
    }

    pub fn medium(random: &mut Random) -> Shape {
        let nodes = random.between(20, 120);
        let entries = random.between(5, 60);
        Shape { nodes, entries, names: some_below(random, 8, NAMES), ..Shape::small(random) }
    }

    /// At the limits of a book.
    pub fn largest(random: &mut Random) -> Shape {
        let nodes = random.pick(&[NODE_LIMIT, NODE_LIMIT, NODE_LIMIT - 1]);
        let entries = random.pick(&[ENTRY_LIMIT, ENTRY_LIMIT, ENTRY_LIMIT - 1]);
        Shape {
            names: (0..NAMES).collect(),
            roles: (0..ROLES).collect(),
            individuals: (0..INDIVIDUALS).collect(),
            nodes,
            entries,
            struck: random.pick(&[0, 10, 50, 100]),
        }
    }

    pub fn any(random: &mut Random) -> Shape {
        match random.below(100) {
            0..80 => Shape::small(random),
            80..98 => Shape::medium(random),
            _ => Shape::largest(random),
        }
    }
}

/// A random lawful node after those of the draft.
pub fn add_node(random: &mut Random, draft: &mut Draft, shape: &Shape, plain: &mut Vec<bool>) -> usize {
    let count = draft.nodes.len();
    let any = |random: &mut Random| {
        // mostly recent nodes, so that concepts get deep
        if random.percent(50) { count - 1 - random.below(count.min(5)) } else { random.below(count) }
    };
    let some_plain = |random: &mut Random, plain: &[bool]| {
        let found = (0..8).map(|_| any(random)).find(|&i| plain[i]);
        found.or_else(|| plain.iter().position(|&p| p))
    };
    let role = random.pick(&shape.roles);
    let kind =
        if count == 0 { random.below(3) } else { random.pick(&[0, 1, 2, 2, 2, 3, 3, 4, 4, 5, 5, 6, 6, 7, 7, 8, 8]) };
    let (kind, a, b, is_plain) = match kind {
        0 | 1 => (kind, 0, 0, true),
        3 => {
            let c = any(random);
            (3, c, 0, plain[c])
        }
        4 | 5 => {
            let (c, d) = (any(random), any(random));
            (kind, c, d, plain[c] && plain[d])
        }
        6 | 7 => match some_plain(random, plain) {
            Some(c) => (kind, role, c, true),
            None => (0, 0, 0, true),
        },
        8 => match some_plain(random, plain) {
            Some(c) => (8, c, 0, false),
            None => (1, 0, 0, true),
        },
        _ => (2, random.pick(&shape.names), 0, true),
    };
    plain.push(is_plain);
    draft.node(kind as u8, a, b)
}

/// A random lawful entry over the nodes of the draft, which has one.
pub fn add_entry(random: &mut Random, draft: &mut Draft, shape: &Shape, plain: &[bool]) {
    let count = draft.nodes.len();
    let live = !random.percent(shape.struck);
    let plain_node = (0..8).map(|_| random.below(count)).find(|&i| plain[i]);
    let left = (0..8).map(|_| random.below(count)).find(|&i| plain[i] || draft.nodes[i].kind == 8);
    match (random.below(10), left, plain_node) {
        (0..5, Some(left), Some(right)) => {
            draft.inclusion(left, right);
        }
        (5..7, _, _) => {
            let (from, to) = (random.pick(&shape.individuals), random.pick(&shape.individuals));
            draft.role_fact(random.pick(&shape.roles), from, to);
        }
        _ => {
            draft.fact(random.pick(&shape.individuals), random.below(count));
        }
    }
    if let Some(last) = draft.entries.last_mut() {
        last.1 = live;
    }
}

/// A random lawful book.
pub fn lawful(random: &mut Random, shape: &Shape) -> Draft {
    let mut draft = Draft { note: note(random), ..Draft::default() };
    let mut plain = Vec::new();
    for _ in 0..shape.nodes {
        add_node(random, &mut draft, shape, &mut plain);
    }
    if shape.nodes > 0 {
        for _ in 0..shape.entries {
            add_entry(random, &mut draft, shape, &plain);
        }
    }
    draft
}

/// A note: mostly none, at times one that looks like a sealed book itself.
pub fn note(random: &mut Random) -> Vec<u8> {
    match random.below(20) {
        0..12 => Vec::new(),
        12..18 => {
            let length = random.between(1, 40);
            (0..length).map(|_| random.byte()).collect()
        }
        _ => {
            let shape = Shape { nodes: random.between(0, 5), entries: random.between(0, 3), ..Shape::small(random) };
            let mut inner = Draft::default();
            let mut plain = Vec::new();
            for _ in 0..shape.nodes {
                add_node(random, &mut inner, &shape, &mut plain);
            }
            inner.sealed()
        }
    }
}

/// A random book that contradicts itself, though it may take a while to see it.
pub fn contradictory(random: &mut Random) -> Draft {
    let small = Shape::small(random);
    let shape = Shape { nodes: random.between(2, 8), entries: random.between(0, 4), struck: 0, ..small };
    let mut draft = lawful(random, &shape);
    for _ in 0..random.pick(&[1, 1, 1, 2, 3]) {
        add_contradiction(random, &mut draft, &shape);
    }
    random.shuffle(&mut draft.entries);
    draft
}

fn add_contradiction(random: &mut Random, draft: &mut Draft, shape: &Shape) {
    let plain = draft.plain();
    let some_plain: Vec<usize> = (0..draft.nodes.len()).filter(|&i| plain[i]).collect();
    let fresh = |random: &mut Random, draft: &mut Draft| draft.node(2, random.pick(&shape.names), 0);
    let concept = |random: &mut Random, draft: &mut Draft| {
        if some_plain.is_empty() || random.percent(40) { fresh(random, draft) } else { random.pick(&some_plain) }
    };
    let (c, d) = (concept(random, draft), concept(random, draft));
    let (x, y) = (random.pick(&shape.individuals), random.pick(&shape.individuals));
    let role = random.pick(&shape.roles);
    match random.below(16) {
        0 => {
            let not_c = draft.node(3, c, 0);
            draft.fact(x, c);
            draft.fact(x, not_c);
        }
        1 => {
            let bottom = draft.node(1, 0, 0);
            draft.fact(x, bottom);
        }
        2 => {
            let top = draft.node(0, 0, 0);
            let not_top = draft.node(3, top, 0);
            draft.fact(x, not_top);
        }
        3 => {
            // the most typical elements of all are nowhere
            let (top, bottom) = (draft.node(0, 0, 0), draft.node(1, 0, 0));
            let best = draft.node(8, top, 0);
            draft.inclusion(best, bottom);
        }
        4 => {
            let not_c = draft.node(3, c, 0);
            let (some, all) = (draft.node(7, role, c), draft.node(6, role, not_c));
            draft.fact(x, some);
            draft.fact(x, all);
        }
        5 => {
            let not_c = draft.node(3, c, 0);
            let (all, some) = (draft.node(6, role, c), draft.node(7, role, not_c));
            let (not_all, not_some) = (draft.node(3, all, 0), draft.node(3, some, 0));
            draft.fact(x, not_all);
            draft.fact(x, not_some);
        }
        6 => {
            // two defaults that clash for what is typical of both
            let both = draft.node(4, c, d);
            let not_d = draft.node(3, d, 0);
            let (best_c, best_both) = (draft.node(8, c, 0), draft.node(8, both, 0));
            draft.inclusion(best_c, d);
            draft.inclusion(best_both, not_d);
            draft.fact(x, best_both);
        }
        7 | 8 => {
            // typical of the wider concept and in the narrower, but not typical of that
            draft.inclusion(c, d);
            let (best_c, best_d) = (draft.node(8, c, 0), draft.node(8, d, 0));
            let not_best = draft.node(3, best_c, 0);
            draft.fact(x, best_d);
            draft.fact(x, c);
            draft.fact(x, not_best);
        }
        9 => {
            let either = draft.node(5, c, d);
            let (not_c, not_d) = (draft.node(3, c, 0), draft.node(3, d, 0));
            draft.fact(x, either);
            draft.fact(x, not_c);
            draft.fact(x, not_d);
        }
        10 => {
            let both = draft.node(4, c, d);
            let not_both = draft.node(3, both, 0);
            draft.fact(x, c);
            draft.fact(x, d);
            draft.fact(x, not_both);
        }
        11 => {
            let either = draft.node(5, c, d);
            let neither = draft.node(3, either, 0);
            draft.fact(x, neither);
            draft.fact(x, c);
        }
        12 => {
            // a chain of inclusions from what is to what is not
            let length = random.between(1, 6);
            let mut last = fresh(random, draft);
            draft.fact(x, last);
            for _ in 0..length {
                let next = concept(random, draft);
                draft.inclusion(last, next);
                last = next;
            }
            let not_last = draft.node(3, last, 0);
            draft.fact(x, not_last);
        }
        13 => {
            let (not_c, all) = (draft.node(3, c, 0), draft.node(6, role, c));
            draft.role_fact(role, x, y);
            draft.fact(x, all);
            draft.fact(y, not_c);
        }
        14 => {
            // typical, and not typical, of one concept
            let best = draft.node(8, c, 0);
            let not_best = draft.node(3, best, 0);
            draft.fact(x, best);
            draft.fact(x, not_best);
        }
        _ => {
            // nothing is in the concept, and something is
            let bottom = draft.node(1, 0, 0);
            let some = draft.node(7, role, c);
            draft.inclusion(c, bottom);
            draft.fact(x, some);
        }
    }
}
