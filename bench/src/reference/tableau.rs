//! A tableau that is worked step by step: the branch, the pending splits, and what each step does to them.

use super::book::Book;
use super::lists::List;
use super::records::{ENTRY_LIMIT, Entry, INDIVIDUALS, Node};
use super::refusal::Why;

/// Labels on a branch: 0 to 255.
pub const LABEL_LIMIT: usize = 256;

/// The role of an edge that leads to a better element.
pub const BETTER: u8 = 16;

#[derive(Clone, Copy, Debug, Default, PartialEq, Eq, Hash)]
pub enum Form {
    #[default]
    Holds,
    Fails,
    Bars,
    Admits,
}

/// What a branch says of a label and a node.
#[derive(Clone, Copy, Debug, Default, PartialEq, Eq, Hash)]
pub struct Constraint {
    pub label: u8,
    pub form: Form,
    pub node: u16,
}

#[derive(Clone, Copy, Debug, Default, PartialEq, Eq)]
pub struct Edge {
    pub from: u8,
    pub role: u8,
    pub to: u8,
}

/// A split whose first alternative is worked: the counts at the split, and the second alternative.
#[derive(Clone, Copy, Debug, Default, PartialEq, Eq)]
pub struct Split {
    constraints: u16,
    edges: u16,
    labels: u16,
    second: Constraint,
}

#[derive(Clone, Copy, Debug, Default, PartialEq, Eq, Hash)]
pub struct Step {
    pub op: u8,
    pub a: u16,
    pub b: u16,
}

impl Step {
    pub fn new(op: u8, a: usize, b: usize) -> Step {
        Step { op, a: a as u16, b: b as u16 }
    }

    pub fn from_bytes(&[op, a0, a1, b0, b1]: &[u8; 5]) -> Step {
        Step { op, a: u16::from_le_bytes([a0, a1]), b: u16::from_le_bytes([b0, b1]) }
    }

    pub fn to_bytes(self) -> [u8; 5] {
        let ([a0, a1], [b0, b1]) = (self.a.to_le_bytes(), self.b.to_le_bytes());
        [self.op, a0, a1, b0, b1]
    }

    fn is_well_formed(self) -> Result<(), Why> {
        match self.op {
            2 | 7 | 11 | 12 => Ok(()),
            1 | 3..=6 | 8..=10 | 13 if self.b == 0 => Ok(()),
            1 | 3..=6 | 8..=10 | 13 => Err(Why::UnusedOperand),
            _ => Err(Why::UnknownOp),
        }
    }
}

/// What a step that fits does.
#[derive(Clone, Copy, Debug, PartialEq, Eq)]
pub enum Effect {
    Extend(Constraint),
    ExtendTwice(Constraint, Constraint),
    Connect(Edge),
    /// A new label, an edge to it, and what it says of the label.
    Reach {
        from: u8,
        role: u8,
        form: Form,
        node: u16,
        bars: bool,
    },
    Split(Constraint, Constraint),
    Close,
}

/// The numbers of the entries that ops 1 and 2 named.
#[derive(Clone, Copy, Debug, PartialEq, Eq)]
pub struct Used([bool; ENTRY_LIMIT]);

impl Used {
    pub fn count(&self) -> usize {
        self.0.iter().filter(|&&used| used).count()
    }
}

/// The three lent lists.
pub struct Lists<'a> {
    pub constraints: &'a mut [Constraint],
    pub edges: &'a mut [Edge],
    pub splits: &'a mut [Split],
}

pub struct Tableau<'a, B> {
    book: &'a B,
    constraints: List<'a, Constraint>,
    edges: List<'a, Edge>,
    splits: List<'a, Split>,
    labels: usize,
    used: Used,
    closed: bool,
}

fn holds(label: u8, node: u16) -> Constraint {
    Constraint { label, form: Form::Holds, node }
}

fn fails(label: u8, node: u16) -> Constraint {
    Constraint { label, form: Form::Fails, node }
}

fn bars(label: u8, node: u16) -> Constraint {
    Constraint { label, form: Form::Bars, node }
}

fn admits(label: u8, node: u16) -> Constraint {
    Constraint { label, form: Form::Admits, node }
}

impl<'a, B: Book> Tableau<'a, B> {
    /// The branch with the individuals' labels alone.
    pub fn new(book: &'a B, lists: Lists<'a>) -> Tableau<'a, B> {
        Tableau {
            book,
            constraints: List::new(lists.constraints),
            edges: List::new(lists.edges),
            splits: List::new(lists.splits),
            labels: INDIVIDUALS,
            used: Used([false; ENTRY_LIMIT]),
            closed: false,
        }
    }

    pub fn constraints(&self) -> &[Constraint] {
        self.constraints.records()
    }

    pub fn edges(&self) -> &[Edge] {
        self.edges.records()
    }

    pub fn pending(&self) -> usize {
        self.splits.len()
    }

    /// How many labels the branch has.
    pub fn labels(&self) -> usize {
        self.labels
    }

    pub fn is_closed(&self) -> bool {
        self.closed
    }

    pub fn used(&self) -> Used {
        self.used
    }

    /// Makes the lists blank.
    pub fn blank(&mut self) {
        self.constraints.blank();
        self.edges.blank();
        self.splits.blank();
    }

    /// Takes one step, or leaves all as it is and says why not.
    pub fn step(&mut self, step: Step) -> Result<(), Why> {
        if self.closed {
            return Err(Why::AfterClosing);
        }
        let effect = self.effect(step)?;
        self.apply(effect)?;
        if let 1 | 2 = step.op {
            self.used.0[usize::from(step.a)] = true;
        }
        Ok(())
    }

    /// What a step would do, were there room for it.
    pub fn effect(&self, step: Step) -> Result<Effect, Why> {
        step.is_well_formed()?;
        match step.op {
            1 | 2 => self.of_entry(step),
            _ => self.of_constraint(step),
        }
    }

    /// Ops 1 and 2.
    fn of_entry(&self, Step { op, a, b }: Step) -> Result<Effect, Why> {
        let line = self.book.line(usize::from(a)).ok_or(Why::NoSuchEntry)?;
        if !line.live {
            return Err(Why::StruckEntry);
        }
        if op == 2 && usize::from(b) >= self.labels {
            return Err(Why::NoSuchLabel);
        }
        match (op, line.entry) {
            (1, Entry::Fact { individual, node }) => Ok(Effect::Extend(holds(individual as u8, node))),
            (1, Entry::RoleFact { role, from, to }) => {
                Ok(Effect::Connect(Edge { from: from as u8, role: role as u8, to: to as u8 }))
            }
            (2, Entry::Inclusion { left, right }) => Ok(Effect::Split(fails(b as u8, left), holds(b as u8, right))),
            _ => Err(Why::Misfit),
        }
    }

    fn constraint(&self, number: u16) -> Result<Constraint, Why> {
        self.constraints.get(usize::from(number)).ok_or(Why::NoSuchConstraint)
    }

    fn node(&self, number: u16) -> Result<Node, Why> {
        self.book.node(usize::from(number)).ok_or(Why::Misfit)
    }

    /// Ops 3 to 13.
    fn of_constraint(&self, Step { op, a, b }: Step) -> Result<Effect, Why> {
        let Constraint { label: x, form, node } = self.constraint(a)?;
        match op {
            7 | 11 => {
                let edge = self.edges.get(usize::from(b)).ok_or(Why::NoSuchEdge)?;
                if edge.from != x {
                    return Err(Why::Misfit);
                }
                self.along(op, form, node, edge)
            }
            10 => match form {
                Form::Admits => Ok(Effect::Reach { from: x, role: BETTER, form: Form::Holds, node, bars: true }),
                _ => Err(Why::Misfit),
            },
            12 => {
                let other = self.constraint(b)?;
                let opposite = match form {
                    Form::Holds => fails(x, node),
                    Form::Bars => admits(x, node),
                    _ => return Err(Why::Misfit),
                };
                if other == opposite { Ok(Effect::Close) } else { Err(Why::Misfit) }
            }
            _ => self.apart(op, x, form, self.node(node)?),
        }
    }

    /// Ops 3 to 6, 8, 9 and 13, which take apart the node of their constraint.
    fn apart(&self, op: u8, x: u8, form: Form, node: Node) -> Result<Effect, Why> {
        use Form::{Fails, Holds};
        Ok(match (op, form, node) {
            (3, Holds, Node::Not(c)) => Effect::Extend(fails(x, c)),
            (3, Fails, Node::Not(c)) => Effect::Extend(holds(x, c)),
            (4, Holds, Node::And(c, d)) => Effect::ExtendTwice(holds(x, c), holds(x, d)),
            (4, Fails, Node::Or(c, d)) => Effect::ExtendTwice(fails(x, c), fails(x, d)),
            (5, Holds, Node::Or(c, d)) => Effect::Split(holds(x, c), holds(x, d)),
            (5, Fails, Node::And(c, d)) => Effect::Split(fails(x, c), fails(x, d)),
            (6, Holds, Node::Exists(role, c)) => {
                Effect::Reach { from: x, role: role as u8, form: Holds, node: c, bars: false }
            }
            (6, Fails, Node::All(role, c)) => {
                Effect::Reach { from: x, role: role as u8, form: Fails, node: c, bars: false }
            }
            (8, Holds, Node::Typical(c)) => Effect::ExtendTwice(holds(x, c), bars(x, c)),
            (9, Fails, Node::Typical(c)) => Effect::Split(fails(x, c), admits(x, c)),
            (13, Holds, Node::Bottom) | (13, Fails, Node::Top) => Effect::Close,
            _ => return Err(Why::Misfit),
        })
    }

    /// Ops 7 and 11, along an edge that leaves the label of their constraint.
    fn along(&self, op: u8, form: Form, node: u16, Edge { role, to, .. }: Edge) -> Result<Effect, Why> {
        if op == 11 {
            return match form {
                Form::Bars if role == BETTER => Ok(Effect::ExtendTwice(fails(to, node), bars(to, node))),
                _ => Err(Why::Misfit),
            };
        }
        match (form, self.node(node)?) {
            (Form::Holds, Node::All(r, c)) if r == u16::from(role) => Ok(Effect::Extend(holds(to, c))),
            (Form::Fails, Node::Exists(r, c)) if r == u16::from(role) => Ok(Effect::Extend(fails(to, c))),
            _ => Err(Why::Misfit),
        }
    }

    fn room(&self, constraints: usize, edges: usize, splits: usize) -> Result<(), Why> {
        if !self.constraints.has_room(constraints) {
            return Err(Why::ConstraintsFull);
        }
        if !self.edges.has_room(edges) {
            return Err(Why::EdgesFull);
        }
        if !self.splits.has_room(splits) {
            return Err(Why::SplitsFull);
        }
        Ok(())
    }

    fn apply(&mut self, effect: Effect) -> Result<(), Why> {
        match effect {
            Effect::Extend(added) => {
                self.room(1, 0, 0)?;
                self.constraints.push(added);
            }
            Effect::ExtendTwice(first, second) => {
                self.room(2, 0, 0)?;
                self.constraints.push(first);
                self.constraints.push(second);
            }
            Effect::Connect(edge) => {
                self.room(0, 1, 0)?;
                self.edges.push(edge);
            }
            Effect::Reach { from, role, form, node, bars: is_barred } => {
                if self.labels == LABEL_LIMIT {
                    return Err(Why::LabelsFull);
                }
                self.room(1 + usize::from(is_barred), 1, 0)?;
                let to = self.labels as u8;
                self.labels += 1;
                self.edges.push(Edge { from, role, to });
                self.constraints.push(Constraint { label: to, form, node });
                if is_barred {
                    self.constraints.push(bars(to, node));
                }
            }
            Effect::Split(first, second) => {
                self.room(1, 0, 1)?;
                // a branch has at most two constraints and one edge for each of 8,192 steps
                self.splits.push(Split {
                    constraints: self.constraints.len() as u16,
                    edges: self.edges.len() as u16,
                    labels: self.labels as u16,
                    second,
                });
                self.constraints.push(first);
            }
            Effect::Close => match self.splits.pop() {
                Some(split) => {
                    self.constraints.cut_back(split.constraints.into());
                    self.edges.cut_back(split.edges.into());
                    self.labels = split.labels.into();
                    self.constraints.push(split.second);
                }
                None => self.closed = true,
            },
        }
        Ok(())
    }
}
