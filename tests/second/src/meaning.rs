//! What a requirement means at a moment of the endless run of a lasso trace.
//!
//! "Over moments of the endless run, not over the stored loop." Moments are the numbers 0, 1, 2 and so on, without end;
//! every operator looks ahead along them, just as its sentence says. "Boolean, plain and e operators are as in 000": a
//! quotation that says "there is" or "for all" is from source document 000.

use std::ops::Range;

use crate::refusal::Refusal;
use crate::requirement::{Family, Mark, Node};
use crate::trace::{check_trace, EXE, INPUT, OUTPUT};

/// How many laps of the loop an operator looks ahead, from its moment or from the loop start, whichever is later.
///
/// The run goes on from a moment as it goes on from that moment's stored position. So the truth of an operand depends
/// only on the stored position, and a moment can show something new only if its stored position did not come before.
/// Up to the loop start every moment has a stored position of its own; after it, one lap meets all that will ever come.
/// Hence one lap shows what "there is" and "for all" ask for, and the first moment at which an until is fulfilled or
/// broken. In a well-formed trace the loop holds an Output, so an Input after it too: every lap meets both. The first
/// of an input or output sequence thus comes within one lap, and the second within two.
pub const LAPS: usize = 2;

/// The endless run of a well-formed lasso trace.
#[derive(Clone, Copy, Debug)]
pub struct EndlessRun<'a> {
    trace: &'a [u8],
    loop_start: usize,
    position_count: usize,
    laps: usize,
}

impl<'a> EndlessRun<'a> {
    /// A trace that is not well-formed is refusal 9.
    pub fn new(trace: &'a [u8], loop_start: usize) -> Result<EndlessRun<'a>, Refusal> {
        let position_count = check_trace(trace, loop_start)?;
        Ok(EndlessRun { trace, loop_start, position_count, laps: LAPS })
    }

    /// The same run, with more laps looked ahead. That must change nothing.
    pub fn looking(self, laps: usize) -> EndlessRun<'a> {
        EndlessRun { laps, ..self }
    }

    pub fn position_count(&self) -> usize {
        self.position_count
    }

    pub fn lap(&self) -> usize {
        self.position_count - self.loop_start
    }

    /// The stored position of a moment: the stored ones in order, and after the last of them the loop, again and again.
    pub fn position(&self, moment: usize) -> usize {
        let mut position = moment;
        while position >= self.position_count {
            position -= self.lap();
        }
        position
    }

    pub fn phase(&self, moment: usize) -> u8 {
        self.trace[5 * self.position(moment)]
    }

    /// "phase, then 32 atoms, atom 0 the lowest bit, low byte first"
    /// "Atom bits without a test in a lent trace are taken as they are."
    pub fn atom(&self, moment: usize, atom: u16) -> bool {
        let byte = self.trace[5 * self.position(moment) + 1 + atom as usize / 8];
        byte >> (atom % 8) & 1 == 1
    }

    /// The moment itself and those after it, as far as the run can show something new.
    pub fn ahead(&self, moment: usize) -> Range<usize> {
        moment..moment.max(self.loop_start) + self.laps * self.lap()
    }

    /// The moments that an operator of that family goes through, from this moment on.
    fn sequence(&self, moment: usize, family: Family) -> impl Iterator<Item = usize> + '_ {
        self.ahead(moment).filter(move |ahead| belongs(self.phase(*ahead), family))
    }

    /// "the first Output at or after the moment": there is one, for the loop holds an Output.
    pub fn first_output(&self, moment: usize) -> usize {
        self.ahead(moment).find(|ahead| self.phase(*ahead) == OUTPUT).expect("the loop holds an Output")
    }
}

/// Plain operators go through every moment. "For i operators the input sequence begins at the first Input at or after
/// the moment [...] o likewise with Output."
fn belongs(phase: u8, family: Family) -> bool {
    match family {
        Family::Plain => true,
        Family::I => phase == INPUT,
        Family::O => phase == OUTPUT,
        Family::E => unreachable!("the e operators look below the first Output"),
    }
}

/// Does the requirement hold at that moment? Every operand is asked anew at every moment: for small ones only.
pub fn holds_at(tree: &Node, run: &EndlessRun, moment: usize) -> bool {
    let operands = tree.operands();
    let first = |ahead| holds_at(operands[0], run, ahead);
    let second = |ahead| holds_at(operands[1], run, ahead);
    node_holds(tree, run, moment, &first, &second)
}

/// The truth of the requirement at each stored position, where the operands' truth is kept by stored position.
pub fn truth_by_position(tree: &Node, run: &EndlessRun) -> Vec<bool> {
    let operands = tree.operands();
    let kept: Vec<Vec<bool>> = operands.iter().map(|operand| truth_by_position(operand, run)).collect();
    let first = |ahead| kept[0][run.position(ahead)];
    let second = |ahead| kept[1][run.position(ahead)];
    (0..run.position_count()).map(|position| node_holds(tree, run, position, &first, &second)).collect()
}

/// Does the node hold at the moment, if `first` and `second` say at which moments its operands do?
fn node_holds(
    node: &Node,
    run: &EndlessRun,
    moment: usize,
    first: &impl Fn(usize) -> bool,
    second: &impl Fn(usize) -> bool,
) -> bool {
    match node {
        Node::Atom(atom) => run.atom(moment, *atom),
        Node::Mark(mark) => run.phase(moment) == phase_of(*mark),
        Node::Not(_) => !first(moment),
        Node::And(_, _) => first(moment) && second(moment),
        Node::X(Family::E, _) => next_in_execution(run, moment, first),
        Node::F(Family::E, _) => some_in_execution(run, moment, first),
        Node::G(Family::E, _) => always_in_execution(run, moment, first),
        Node::U(Family::E, _, _) => until_in_execution(run, moment, first, second),
        Node::X(family, _) => second_of(run.sequence(moment, *family), first),
        Node::F(family, _) => run.sequence(moment, *family).any(first),
        Node::G(family, _) => run.sequence(moment, *family).all(first),
        Node::U(family, _, _) => until(run.sequence(moment, *family), first, second),
    }
}

/// "marks 3 Input, 4 Exe, 5 Output"
fn phase_of(mark: Mark) -> u8 {
    match mark {
        Mark::Input => INPUT,
        Mark::Exe => EXE,
        Mark::Output => OUTPUT,
    }
}

/// "X^i is the second of that sequence." Of all moments the second is the next one, as plain X asks.
fn second_of(mut sequence: impl Iterator<Item = usize>, first: &impl Fn(usize) -> bool) -> bool {
    let moment = sequence.nth(1).expect("two laps of the loop hold two of every phase");
    first(moment)
}

/// "there is k >= 0 such that [the second operand at k] and for all 0 <= j < k [the first operand at j]": if there is
/// such a k, the first moment with the second operand is one. An until that is never fulfilled fails.
fn until(
    sequence: impl Iterator<Item = usize>,
    first: &impl Fn(usize) -> bool,
    second: &impl Fn(usize) -> bool,
) -> bool {
    for moment in sequence {
        if second(moment) {
            return true;
        }
        if !first(moment) {
            return false;
        }
    }
    false
}

/// "pi(k) is not in S_i or S_o": neither Input nor Output.
fn in_execution(run: &EndlessRun, moment: usize) -> bool {
    run.phase(moment) != INPUT && run.phase(moment) != OUTPUT
}

/// "the e operators look below the first Output at or after the moment"
fn below_output(run: &EndlessRun, moment: usize) -> Range<usize> {
    moment..run.first_output(moment)
}

/// X^e: "pi(1) is not in S_i or S_o and [the operand at 1]"
fn next_in_execution(run: &EndlessRun, moment: usize, first: &impl Fn(usize) -> bool) -> bool {
    in_execution(run, moment + 1) && first(moment + 1)
}

/// F^e: "there is 0 <= k < o_1 such that pi(k) is not in S_i or S_o and [the operand at k]"
fn some_in_execution(run: &EndlessRun, moment: usize, first: &impl Fn(usize) -> bool) -> bool {
    below_output(run, moment).any(|ahead| in_execution(run, ahead) && first(ahead))
}

/// G^e: "for all 0 <= k < o_1, pi(k) is not in S_i or S_o and [the operand at k]"
fn always_in_execution(run: &EndlessRun, moment: usize, first: &impl Fn(usize) -> bool) -> bool {
    below_output(run, moment).all(|ahead| in_execution(run, ahead) && first(ahead))
}

/// U^e: "there is 0 <= k < o_1 such that pi(k) is not in S_i or S_o and [the second operand at k] and for all
/// 0 <= j < k, pi(j) is not in S_i or S_o and [the first operand at j]"
fn until_in_execution(
    run: &EndlessRun,
    moment: usize,
    first: &impl Fn(usize) -> bool,
    second: &impl Fn(usize) -> bool,
) -> bool {
    let kept = |ahead| in_execution(run, ahead) && first(ahead);
    let fulfilled = |ahead| in_execution(run, ahead) && second(ahead);
    until(below_output(run, moment), &kept, &fulfilled)
}
