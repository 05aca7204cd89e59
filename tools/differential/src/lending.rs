//! Calls with all that is lent to them, to be made by the library and by the
//! model.

mod comparing;
mod dispatching;
mod executing;
mod expanding;
mod indexing;
mod judging;
mod reporting;
mod running;
mod starting;

use crate::Call;
pub use comparing::Comparing;
pub use dispatching::{Dispatching, Step};
pub use executing::Executing;
pub use expanding::Expanding;
pub use indexing::Indexing;
pub use judging::Judging;
pub use reporting::Reporting;
pub use running::{image_mut, Running};
pub use starting::Starting;

/// The functions of the library.
#[derive(Clone, Copy, Debug, PartialEq, Eq)]
pub enum Function {
    Expand,
    IsExpansion,
    Start,
    Segment,
    Padding,
    Execute,
    Same,
    IndexBuild,
    IndexAdd,
    Report,
    DispatcherStart,
    DispatcherAdd,
    DispatcherTurn,
}

impl Function {
    pub const ALL: [Self; 13] = [
        Self::Expand,
        Self::IsExpansion,
        Self::Start,
        Self::Segment,
        Self::Padding,
        Self::Execute,
        Self::Same,
        Self::IndexBuild,
        Self::IndexAdd,
        Self::Report,
        Self::DispatcherStart,
        Self::DispatcherAdd,
        Self::DispatcherTurn,
    ];

    pub fn name(self) -> &'static str {
        match self {
            Function::Expand => "expand",
            Function::IsExpansion => "is_expansion",
            Function::Start => "start",
            Function::Segment => "segment",
            Function::Padding => "padding",
            Function::Execute => "execute",
            Function::Same => "same",
            Function::IndexBuild => "index_build",
            Function::IndexAdd => "index_add",
            Function::Report => "report",
            Function::DispatcherStart => "dispatcher_start",
            Function::DispatcherAdd => "dispatcher_add",
            Function::DispatcherTurn => "dispatcher_turn",
        }
    }

    /// The numbers that it can answer. A fresh cursor or dispatcher has no answer,
    /// which counts as 0.
    pub fn answers(self) -> &'static [u64] {
        match self {
            Function::Expand => &[0, 1, 2, 6],
            Function::IsExpansion | Function::Same => &[0, 1],
            Function::Start | Function::DispatcherStart => &[0],
            Function::Segment => &[0, 1, 2, 3, 4, 5, 6],
            Function::Padding => &[0, 1, 2, 3, 4, 6],
            Function::Execute => &[0, 1, 2, 3, 5, 6],
            // No log in memory has over 2^62 records.
            Function::IndexBuild => &[0, 6, 7, 8],
            Function::IndexAdd => &[0, 5, 6, 7, 8],
            Function::Report => &[0, 6, 9, 10],
            Function::DispatcherAdd => &[0, 11, 12],
            Function::DispatcherTurn => &[0, 11],
        }
    }
}

/// All that is lent to one call, with guard words around every part.
pub trait Lend: Clone {
    /// The library's answer.
    fn library(&mut self) -> u64;
    /// The model's answer, which leaves every word as the library must.
    fn model(&mut self) -> u64;
    /// An error where a word, or a guard, is not the wanted one.
    fn compare(&self, wanted: &Self) -> Result<(), String>;
    /// The numbers and lengths of the call, in words.
    fn about(&self) -> String;
}

/// A call, and what the model makes of it.
pub struct Modelled<L> {
    pub before: L,
    pub after: L,
    pub answer: u64,
}

impl<L: Lend> Modelled<L> {
    pub fn new(before: L) -> Self {
        let mut after = before.clone();
        let answer = after.model();
        Modelled {
            before,
            after,
            answer,
        }
    }

    /// An error where an answer, and what was found after it, is not the model's.
    pub fn compare(&self, answer: u64, found: &L) -> Result<(), String> {
        if answer != self.answer {
            let wanted = self.answer;
            return Err(format!("answer: found {answer}, wanted {wanted}"));
        }
        found.compare(&self.after)
    }
}

/// Makes a call and compares all of it with the model. Gives the answer and what
/// is left.
pub fn check<L: Lend>(before: L, call: impl FnOnce(&mut L) -> u64) -> Result<(u64, L), String> {
    let modelled = Modelled::new(before);
    let mut found = modelled.before.clone();
    let answer = call(&mut found);
    modelled.compare(answer, &found)?;
    Ok((answer, found))
}

/// Any of the calls.
#[derive(Clone)]
pub enum Lending<'a> {
    Expand(Expanding<'a>),
    IsExpansion(Judging),
    Start(Starting),
    Run(Running<'a>),
    Execute(Executing<'a>),
    Same(Comparing),
    Index(Indexing),
    Report(Reporting),
    Dispatch(Dispatching),
}

impl Lending<'_> {
    pub fn function(&self) -> Function {
        match self {
            Lending::Expand(_) => Function::Expand,
            Lending::IsExpansion(_) => Function::IsExpansion,
            Lending::Start(_) => Function::Start,
            Lending::Run(running) => match running.call {
                Call::Segment => Function::Segment,
                Call::Padding => Function::Padding,
            },
            Lending::Execute(_) => Function::Execute,
            Lending::Same(_) => Function::Same,
            Lending::Index(indexing) => match indexing.earlier {
                None => Function::IndexBuild,
                Some(_) => Function::IndexAdd,
            },
            Lending::Report(_) => Function::Report,
            Lending::Dispatch(dispatching) => match dispatching.step {
                Step::Start { .. } => Function::DispatcherStart,
                Step::Add { .. } => Function::DispatcherAdd,
                Step::Turn => Function::DispatcherTurn,
            },
        }
    }
}

impl Lend for Lending<'_> {
    fn library(&mut self) -> u64 {
        match self {
            Lending::Expand(lent) => lent.library(),
            Lending::IsExpansion(lent) => lent.library(),
            Lending::Start(lent) => lent.library(),
            Lending::Run(lent) => lent.library(),
            Lending::Execute(lent) => lent.library(),
            Lending::Same(lent) => lent.library(),
            Lending::Index(lent) => lent.library(),
            Lending::Report(lent) => lent.library(),
            Lending::Dispatch(lent) => lent.library(),
        }
    }

    fn model(&mut self) -> u64 {
        match self {
            Lending::Expand(lent) => lent.model(),
            Lending::IsExpansion(lent) => lent.model(),
            Lending::Start(lent) => lent.model(),
            Lending::Run(lent) => lent.model(),
            Lending::Execute(lent) => lent.model(),
            Lending::Same(lent) => lent.model(),
            Lending::Index(lent) => lent.model(),
            Lending::Report(lent) => lent.model(),
            Lending::Dispatch(lent) => lent.model(),
        }
    }

    fn compare(&self, wanted: &Self) -> Result<(), String> {
        match (self, wanted) {
            (Lending::Expand(found), Lending::Expand(wanted)) => found.compare(wanted),
            (Lending::IsExpansion(found), Lending::IsExpansion(wanted)) => found.compare(wanted),
            (Lending::Start(found), Lending::Start(wanted)) => found.compare(wanted),
            (Lending::Run(found), Lending::Run(wanted)) => found.compare(wanted),
            (Lending::Execute(found), Lending::Execute(wanted)) => found.compare(wanted),
            (Lending::Same(found), Lending::Same(wanted)) => found.compare(wanted),
            (Lending::Index(found), Lending::Index(wanted)) => found.compare(wanted),
            (Lending::Report(found), Lending::Report(wanted)) => found.compare(wanted),
            (Lending::Dispatch(found), Lending::Dispatch(wanted)) => found.compare(wanted),
            _ => panic!("calls of two kinds"),
        }
    }

    fn about(&self) -> String {
        match self {
            Lending::Expand(lent) => lent.about(),
            Lending::IsExpansion(lent) => lent.about(),
            Lending::Start(lent) => lent.about(),
            Lending::Run(lent) => lent.about(),
            Lending::Execute(lent) => lent.about(),
            Lending::Same(lent) => lent.about(),
            Lending::Index(lent) => lent.about(),
            Lending::Report(lent) => lent.about(),
            Lending::Dispatch(lent) => lent.about(),
        }
    }
}
