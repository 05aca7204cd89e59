//! The static library beside a model of it: the reference and the tables of
//! refusals. Calls with all that is lent to them, random rounds of such calls,
//! and wrong variants that the rounds must tell from the model.

#![forbid(unsafe_code)]

mod counts;
mod damage;
mod dispatch;
mod dispatchers;
mod figures;
mod index;
mod lending;
mod lent;
mod limits;
mod logs;
mod machine;
mod programs;
mod random;
mod reasons;
mod report;
mod rounds;
mod wrong;

pub use lending::{check, Comparing, Dispatching, Executing, Expanding, Indexing, Judging};
pub use lending::{Function, Lend, Lending, Modelled, Reporting, Running, Starting, Step};
pub use lent::{Lent, GUARDS};
pub use machine::{image_of, Call, Rom};
pub use programs::{known_word, live_word, ordinary_word, program, register_shift, stage_word};
pub use programs::{Expansion, ADDI, ECALL, SLL, STAGES};
pub use records::pack;
pub use report::Report;
pub use rng::Rng;
pub use rounds::LIMITS;
pub use wrong::{notice, notice_at_limits, Noticed};
