// rust/erase writes this file from crates/p3_util_dispatch/src/parts/lists.rt. Make changes there.
//! The parts of a call, each of which is handed out once, with its share of the list.

use crate::kernels::parts::{ReversalPlan, TransposePlan};

/// How a call is cut into parts. They have the numbers below [`count`](Plan::count).
pub(crate) trait Plan: Copy {
    /// The number of parts.
    fn count(self) -> usize;
}

/// A part of a call. Only [`PartsToRun::hand_out`] makes one, there is no copy of it, and it does not show its plan. So no
/// caller can hand out the parts of its plan again.
pub(crate) struct Part<P: Plan> {
    pub(super) plan: P,
    pub(super) number: usize,
}

/// A list that the parts of a call share. A place has the same index in a share as in the list.
pub(crate) trait Shared {
    /// A share of the list for the next part.
    fn share(&mut self) -> Self
    where
        Self: Sized;
}

/// What each part of a call is given besides its share of the list.
pub(crate) trait Given<P: Plan>: Copy {}

/// The input of a transpose has as many items as the output. A plan without parts may be for any list.
impl<T> Given<TransposePlan> for &[T] {}

/// The number of bytes of each place of a reversal, of which the list is a whole number.
impl Given<ReversalPlan> for usize {}

/// The list of a call and the parts that are left of it: those with the numbers from `next` on. It keeps the list, and there is
/// no copy of it. So each part is handed out once, and gets a share of the list that the plan is for.
pub(crate) struct PartsToRun<L: Shared, P: Plan, I: Given<P>> {
    list: L,
    plan: P,
    next: usize,
    end: usize,
    given: I,
}

/// A part of a call, and its share of the list that the plan is for.
pub(crate) struct PartToRun<L: Shared, P: Plan, I: Given<P>> {
    share: L,
    part: Part<P>,
    given: I,
}

impl<L: Shared, P: Plan, I: Given<P>> PartsToRun<L, P, I> {
    /// All parts of a call on this list.
    pub(crate) fn of(list: L, plan: P, given: I) -> Self {
        PartsToRun { list, plan, next: 0, end: plan.count(), given }
    }

    /// The number of parts that are left.
    pub(crate) fn count(&self) -> usize {
        self.end - self.next
    }

    /// Hands out the next part. Each call that returns a part returns the one with the next number.
    pub(crate) fn hand_out(&mut self) -> Option<PartToRun<L, P, I>> {
        if self.next == self.end {
            return None;
        }
        let number = self.next;
        self.next += 1;
        Some(PartToRun { share: self.list.share(), part: Part { plan: self.plan, number }, given: self.given })
    }
}

impl<L: Shared, P: Plan, I: Given<P>> PartToRun<L, P, I> {
    /// The number of the part.
    pub(crate) fn number(&self) -> usize {
        self.part.number
    }

    /// The share of the list, what the part is given, and the part itself.
    pub(crate) fn taken(self) -> (L, I, Part<P>) {
        (self.share, self.given, self.part)
    }
}
