//! A reference judge of REG1TEST version 1 logs for Sumpquince.
//!
//! It is written from the rules alone and apart from the judge it is compared
//! with. It favours plain code over speed: what it answers should be evident
//! from reading it beside the rules.

pub mod calls;
pub mod chewing;
pub mod draft;
pub mod faults;
pub mod fields;
pub mod generate;
pub mod judging;
pub mod link;
pub mod links;
pub mod mending;
pub mod random;
pub mod reading;
pub mod screen;
pub mod session;
pub mod strikes;
pub mod striking;
pub mod values;
pub mod verbs;
pub mod writing;

pub use fields::MODES;
pub use judging::{judge, Totals};
pub use mending::{mend, Change, Mended, Rooms};
pub use reading::{read, view, Log, Refusal, View};
pub use session::{Lent, Session};
pub use striking::strike;
pub use writing::write;

/// What the desk program writes for a log on its standard input.
pub fn desk(bytes: &[u8]) -> String {
    match read(bytes) {
        Ok(log) => {
            let (totals, _) = judging::judge_log(&log);
            let mut lines = format!(
                "QSOS {}\nPOINTS {}\nWWLS {}\nEXCHANGES {}\nDXCCS {}\nTOTAL {}\n",
                totals.credited,
                totals.points,
                totals.squares,
                totals.exchanges,
                totals.countries,
                totals.total
            );
            for (mode, number) in MODES.iter().zip(totals.modes) {
                let name = if mode.is_empty() { "-" } else { mode };
                lines += &format!("MODE {name} {number}\n");
            }
            lines
        }
        Err(refusal) => {
            format!("REFUSED {} {} {}\n", refusal.number, refusal.line, refusal.field)
        }
    }
}
