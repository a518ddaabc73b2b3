//! Prep sheet shapes: templates, scripts, their two typings, grids to judge and bookings to tidy, by the proved
//! library.
//!
//! ```
//! use prep::{Card, Desk, Part, Script, ScriptBuilder, TemplateBuilder};
//!
//! // What an application keeps: a script owns what it was read from.
//! struct Rundown {
//!     script: Script,
//!     host: Card,
//! }
//!
//! let mut template = TemplateBuilder::new();
//! let (next, guest) = (template.kind(), template.kind());
//! let (item, person) = (template.shape(), template.shape());
//! // An item leads to the next one and to its guests; a person is one at whom items point.
//! template.define(item, Part::all([Part::link(next, item, 0..=1), Part::link(guest, person, 1..)]));
//! template.define(person, Part::incoming(guest, item, 1..));
//! let template = template.read()?;
//!
//! let mut script = ScriptBuilder::new();
//! let (opener, host) = (script.card(), script.card());
//! script.link(opener, guest, host);
//! let rundown = Rundown { script: script.read(&template)?, host };
//!
//! // If the host is to be a person, the opener has to be an item.
//! let booked = [(Desk::Radio, rundown.host, person)];
//! let smallest = rundown.script.smallest(&booked, Desk::Radio)?;
//! assert!(smallest.typing.has(opener, item));
//! // For the television desk, which books nothing, nobody has to be anything.
//! assert_eq!(rundown.script.smallest(&booked, Desk::Television)?.pairs, 0);
//!
//! // A grid of another program: the opener an item, the host a person, and nothing else.
//! rundown.script.judge(&booked, Desk::Radio, &[1, 0, 0, 1])?;
//!
//! // A pair that a desk books twice is refused; a list that was stored without desks is tidied once.
//! let refused = rundown.script.smallest(&[booked[0], booked[0]], Desk::Radio).unwrap_err();
//! assert_eq!(refused.number, prep::refusals::BOOKINGS_TWICE);
//! let stored = [(rundown.host, person), (rundown.host, person)];
//! assert_eq!(rundown.script.tidy(&stored)?, booked);
//! # Ok::<(), prep::Refusal>(())
//! ```
#![warn(missing_docs)]

mod booking;
mod numbers;
mod part;
pub mod raw;
mod refusal;
mod script;
mod template;
#[cfg(test)]
mod tests;
mod typing;

pub use booking::{Booking, Desk};
pub use numbers::{Card, Kind, Shape};
pub use part::{Bounds, Part};
pub use refusal::{refusals, File, Place, Refusal};
pub use script::{Link, Script, ScriptBuilder};
pub use template::{Template, TemplateBuilder};
pub use typing::{Both, Largest, Smallest, Typing};

/// The version of the library that is linked: major, minor and patch.
pub fn version() -> (u32, u32, u32) {
    let version = raw::version();
    (version / 10_000, version / 100 % 100, version % 100)
}
