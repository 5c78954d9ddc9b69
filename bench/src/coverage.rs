//! Counts what a run of hand-ins has reached: every rule, every refusal, every kind of verdict, every limit.

use std::collections::BTreeSet;
use std::fmt;

use crate::hand_ins::prover::Room;
use crate::hand_ins::{HandIn, Work};
use crate::reference::book::Book;
use crate::reference::marking::{FILE_LIMIT, LIST_RECORDS, Verdict, whole};
use crate::reference::records::{ENTRY_LIMIT, Entry, NODE_LIMIT};
use crate::reference::refusal::Why;
use crate::reference::refute::{STEP_BYTES, STEP_LIMIT};
use crate::reference::sealed::SealedBook;
use crate::reference::tableau::{Form, LABEL_LIMIT, Step, Tableau};

/// The rules, by op and by what the step is about.
const RULES: &[(u8, &str)] = &[
    (1, "fact"),
    (1, "role fact"),
    (2, "inclusion"),
    (3, "holds not"),
    (3, "fails not"),
    (4, "holds and"),
    (4, "fails or"),
    (5, "holds or"),
    (5, "fails and"),
    (6, "holds some"),
    (6, "fails all"),
    (7, "holds all"),
    (7, "fails some"),
    (8, "holds T"),
    (9, "fails T"),
    (10, "admits"),
    (11, "bars"),
    (12, "holds and fails"),
    (12, "bars and admits"),
    (13, "holds bottom"),
    (13, "fails top"),
];

/// Ops that leave an operand unused, and ops that add something.
const WITH_UNUSED: [u8; 9] = [1, 3, 4, 5, 6, 8, 9, 10, 13];
const ADDING: std::ops::RangeInclusive<u8> = 1..=11;

/// Reasons that no hand-in meets: they belong to other calls, or another reason always comes before them. A hand-in
/// that fills the list of pending splits has filled that of constraints, too.
const NEVER: &[Why] =
    &[Why::NodesFull, Why::EntriesFull, Why::NotLive, Why::RanksLength, Why::SplitsFull, Why::ListLength];

macro_rules! limits {
    ($($limit:ident: $text:literal,)*) => {
        /// What lies at a limit and is granted, or just past it.
        #[derive(Clone, Copy)]
        enum Limit { $($limit),* }

        const LIMITS: &[(Limit, &str)] = &[$((Limit::$limit, $text)),*];
    };
}

limits! {
    LastStep: "closed with 8,192 steps",
    MoreSteps: "refused for a step more than 8,192",
    LastConstraint: "4,096 constraints on a branch",
    LastEdge: "4,096 edges on a branch",
    LastSplit: "4,096 pending splits",
    ClosedFull: "closed after 4,096 constraints",
    LastLabel: "label 255 on a branch",
    ClosedAtLastLabel: "closed after label 255",
    UsedAll: "closed, 256 entries used",
    LargestClosed: "closed over 512 nodes and 256 entries",
    LargestSatisfied: "satisfied with 512 nodes and 256 entries",
    OneElement: "satisfied with 1 element",
    AllElements: "satisfied with 32 elements",
    LongestBook: "a lawful book of 65,535 bytes",
    BookCut: "a lawful book whose file is longer than 65,535 bytes",
    StepsCut: "steps in a file longer than 65,535 bytes",
    InterpretationCut: "an interpretation in a file longer than 65,535 bytes",
    PairsCut: "pairs in a file longer than 65,535 bytes",
    StruckLine: "satisfied or closed, with a struck entry in the book",
    EmptyBook: "a lawful book without a record",
    Noted: "a lawful book behind a note",
}

#[derive(Default)]
pub struct Coverage {
    hand_ins: u64,
    closed: u64,
    satisfied: u64,
    reasons: Vec<u64>,
    rules: Vec<u64>,
    /// For each op: steps taken, and steps refused with 8, 9, 10 and 11.
    ops: [[u64; 5]; 14],
    unknown_ops: u64,
    limits: Vec<u64>,
    steps: u64,
    longest_closed: usize,
    /// Closed tableaux, by the number of bits of their step count.
    closed_lengths: [u64; 16],
    entries_used: Vec<u64>,
}

impl Coverage {
    pub fn new() -> Coverage {
        Coverage {
            reasons: vec![0; Why::ALL.len()],
            rules: vec![0; RULES.len()],
            limits: vec![0; LIMITS.len()],
            entries_used: vec![0; ENTRY_LIMIT + 1],
            ..Coverage::default()
        }
    }

    /// Counts a hand-in with its verdict.
    pub fn count(&mut self, hand_in: &HandIn, verdict: Verdict) {
        self.hand_ins += 1;
        match verdict {
            Verdict::Closed { entries } => {
                self.closed += 1;
                self.entries_used[entries] += 1;
            }
            Verdict::Satisfied { .. } => self.satisfied += 1,
            Verdict::Refused(refusal) => self.reasons[refusal.why as usize] += 1,
        }
        self.book(hand_in, verdict);
        match &hand_in.work {
            Work::Tableau { steps } => self.tableau(&hand_in.book, steps, verdict),
            Work::Model { interpretation, pairs } => {
                self.limit(Limit::InterpretationCut, interpretation.len() > FILE_LIMIT);
                self.limit(Limit::PairsCut, pairs.len() > FILE_LIMIT);
                self.limit(Limit::OneElement, verdict == Verdict::Satisfied { elements: 1 });
                self.limit(Limit::AllElements, verdict == Verdict::Satisfied { elements: 32 });
            }
        }
    }

    fn limit(&mut self, limit: Limit, is_met: bool) {
        self.limits[limit as usize] += u64::from(is_met);
    }

    fn book(&mut self, hand_in: &HandIn, verdict: Verdict) {
        let bytes = whole(&hand_in.book);
        let Ok(book) = SealedBook::read(bytes) else { return };
        let (nodes, entries) = (book.node_count(), book.entry_count());
        let is_largest = nodes == NODE_LIMIT && entries == ENTRY_LIMIT;
        let is_accepted = !matches!(verdict, Verdict::Refused(_));
        let is_struck = (0..entries).any(|i| book.line(i).is_some_and(|line| !line.live));
        self.limit(Limit::LargestClosed, is_largest && matches!(verdict, Verdict::Closed { .. }));
        self.limit(Limit::LargestSatisfied, is_largest && matches!(verdict, Verdict::Satisfied { .. }));
        self.limit(Limit::LongestBook, hand_in.book.len() == FILE_LIMIT);
        self.limit(Limit::BookCut, hand_in.book.len() > FILE_LIMIT);
        self.limit(Limit::StruckLine, is_struck && is_accepted);
        self.limit(Limit::EmptyBook, nodes == 0 && entries == 0);
        self.limit(Limit::Noted, bytes.len() > 5 * nodes + 7 * entries + 8);
    }

    /// Works the tableau once more, and counts each step.
    fn tableau(&mut self, book: &[u8], steps: &[u8], verdict: Verdict) {
        let Ok(book) = SealedBook::read(whole(book)) else { return };
        let is_closed = matches!(verdict, Verdict::Closed { .. });
        let too_many = matches!(verdict, Verdict::Refused(refusal) if refusal.why == Why::StepsLength);
        self.limit(Limit::StepsCut, steps.len() > FILE_LIMIT);
        self.limit(Limit::MoreSteps, steps.len() == STEP_BYTES * (STEP_LIMIT + 1) && too_many);
        self.limit(Limit::LastStep, steps.len() == STEP_BYTES * STEP_LIMIT && is_closed);
        self.limit(Limit::UsedAll, verdict == Verdict::Closed { entries: ENTRY_LIMIT });
        if too_many {
            return;
        }
        let mut room = Room::new();
        let mut tableau = Tableau::new(&book, room.lend());
        let mut most = [0; 4];
        for step in steps.as_chunks::<STEP_BYTES>().0 {
            let step = Step::from_bytes(step);
            let rule = rule_of(&book, &tableau, step);
            let taken = tableau.step(step);
            match (taken, rule) {
                (Ok(()), Some(rule)) => {
                    self.steps += 1;
                    self.rules[rule] += 1;
                    self.ops[usize::from(step.op)][0] += 1;
                }
                (Ok(()), None) => panic!("a rule that is not in the list: {step:?}"),
                (Err(why), _) => {
                    match why.number() {
                        8 if why == Why::UnknownOp => self.unknown_ops += 1,
                        number @ 8..=11 => self.ops[usize::from(step.op)][number as usize - 7] += 1,
                        12 => {}
                        number => panic!("a step is refused with {number}: {step:?}"),
                    }
                    break;
                }
            }
            let now = [tableau.constraints().len(), tableau.edges().len(), tableau.pending(), tableau.labels()];
            for (most, now) in most.iter_mut().zip(now) {
                *most = now.max(*most);
            }
        }
        let [constraints, edges, splits, labels] = most;
        self.limit(Limit::LastConstraint, constraints == LIST_RECORDS);
        self.limit(Limit::ClosedFull, constraints == LIST_RECORDS && is_closed);
        self.limit(Limit::LastEdge, edges == LIST_RECORDS);
        self.limit(Limit::LastSplit, splits == LIST_RECORDS);
        self.limit(Limit::LastLabel, labels == LABEL_LIMIT);
        self.limit(Limit::ClosedAtLastLabel, labels == LABEL_LIMIT && is_closed);
        if is_closed {
            let count = steps.len() / STEP_BYTES;
            self.longest_closed = self.longest_closed.max(count);
            self.closed_lengths[count.checked_ilog2().unwrap_or(0) as usize] += 1;
        }
    }

    /// What the hand-ins should have reached and did not.
    pub fn missing(&self) -> Vec<String> {
        let mut missing = Vec::new();
        if self.closed == 0 {
            missing.push("the verdict closed".to_string());
        }
        if self.satisfied == 0 {
            missing.push("the verdict satisfied".to_string());
        }
        for &why in Why::ALL {
            if self.reasons[why as usize] == 0 && !NEVER.contains(&why) {
                missing.push(format!("refusal {} for {why:?}", why.number()));
            }
        }
        for ((op, name), count) in RULES.iter().zip(&self.rules) {
            if *count == 0 {
                missing.push(format!("op {op}, {name}"));
            }
        }
        for op in 1..=13_u8 {
            let [_, unused, absent, misfit, full] = self.ops[usize::from(op)];
            let wanted = [
                (8, unused, WITH_UNUSED.contains(&op)),
                (9, absent, true),
                (10, misfit, true),
                (11, full, ADDING.contains(&op)),
            ];
            for (number, count, is_wanted) in wanted {
                if is_wanted && count == 0 {
                    missing.push(format!("refusal {number} of op {op}"));
                }
            }
        }
        for ((_, text), count) in LIMITS.iter().zip(&self.limits) {
            if *count == 0 {
                missing.push(format!("the limit: {text}"));
            }
        }
        missing
    }
}

/// The rule of a step, by its op and what it names.
fn rule_of(book: &SealedBook<'_>, tableau: &Tableau<'_, SealedBook<'_>>, step: Step) -> Option<usize> {
    let constraint = tableau.constraints().get(usize::from(step.a));
    let is_second = match step.op {
        1 => matches!(book.line(step.a.into())?.entry, Entry::RoleFact { .. }),
        3..=7 | 13 => constraint?.form == Form::Fails,
        12 => constraint?.form == Form::Bars,
        _ => false,
    };
    let first = RULES.iter().position(|&(op, _)| op == step.op)?;
    Some(first + usize::from(is_second))
}

impl fmt::Display for Coverage {
    fn fmt(&self, f: &mut fmt::Formatter<'_>) -> fmt::Result {
        writeln!(f, "{:>10} hand-ins, {} steps taken", self.hand_ins, self.steps)?;
        writeln!(f, "verdicts")?;
        writeln!(f, "{:>10} closed, of up to {} steps", self.closed, self.longest_closed)?;
        for (bits, count) in self.closed_lengths.iter().enumerate().filter(|(_, count)| **count > 0) {
            writeln!(f, "{count:>20} with {} steps or more", 1 << bits)?;
        }
        writeln!(f, "{:>10} satisfied", self.satisfied)?;
        let numbers: BTreeSet<u32> = Why::ALL.iter().map(|why| why.number()).collect();
        for number in numbers {
            let whys = Why::ALL.iter().filter(|why| why.number() == number);
            let told: Vec<String> = whys
                .clone()
                .filter(|&&why| self.reasons[why as usize] > 0 || !NEVER.contains(&why))
                .map(|&why| format!("{why:?} {}", self.reasons[why as usize]))
                .collect();
            if !told.is_empty() {
                let sum: u64 = whys.map(|&why| self.reasons[why as usize]).sum();
                writeln!(f, "{sum:>10} refused {number}: {}", told.join(", "))?;
            }
        }
        writeln!(f, "steps taken, by rule")?;
        for ((op, name), count) in RULES.iter().zip(&self.rules) {
            writeln!(f, "{count:>10} op {op}: {name}")?;
        }
        writeln!(f, "steps refused with 8, 9, 10, 11, by op ({} of no op)", self.unknown_ops)?;
        for (op, [_, unused, absent, misfit, full]) in self.ops.iter().enumerate().skip(1) {
            writeln!(f, "{:>10} op {op}: {unused} {absent} {misfit} {full}", unused + absent + misfit + full)?;
        }
        writeln!(f, "limits")?;
        for ((_, text), count) in LIMITS.iter().zip(&self.limits) {
            writeln!(f, "{count:>10} {text}")?;
        }
        let kinds = self.entries_used.iter().filter(|&&count| count > 0).count();
        writeln!(f, "{kinds:>10} different counts of entries used")
    }
}
