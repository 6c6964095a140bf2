//! A safe interface to the proved planner, checker, book and planning program.
//!
//! Every function takes any arguments at all: what the rules turn down comes back as a [`Refusal`],
//! and then nothing that was lent has changed.
//!
//! ```
//! use ring_planner::{Book, Crew, Holder, Way};
//!
//! let mut book = Book::open(4, 1)?;
//! assert_eq!(book.grant(0, 2, Way::Plain, 0, Crew::DESK)?, 1);
//! let refusal = book.grant(1, 3, Way::Plain, 0, Crew::DESK).unwrap_err();
//! assert_eq!(refusal.ground(), "that colour is held on a link of the way");
//! // Another crew does not learn whose order it is.
//! assert_eq!(book.holder(1, 0, Crew::DESK)?, Holder::HeldBy(1));
//! assert_eq!(book.holder(1, 0, Crew(7))?, Holder::Held);
//! assert_eq!(book.show(1, Crew(7)).unwrap_err().number, 14);
//! // It pays for the metres of its way: those of links 0 and 1, at three rates in cents per kilometre.
//! let lengths = [20_000, 40_000, 1_000, 1_000];
//! assert_eq!(book.charge(1, &lengths, [30, 20, 10])?, 1_700);
//! // A removed order holds its colour until the pull of its patch is confirmed.
//! let stored = book.bytes().to_vec();
//! book.remove(1)?;
//! assert_eq!(book.charge(1, &lengths, [30, 20, 10]).unwrap_err().number, 15);
//! assert_eq!(book.holder(1, 0, Crew::DESK)?, Holder::HeldBy(1));
//! book.confirm(1)?;
//! assert_eq!(book.holder(1, 0, Crew::DESK)?, Holder::Free);
//! // A file from before the removal does not bring the order back to one who knows the revision.
//! let refusal = Book::from_bytes(&stored, book.revision()).unwrap_err();
//! assert_eq!(refusal.ground(), "revision too low");
//! // The old form has no room for pending marks and crews.
//! assert_eq!(Book::from_old(&book.to_old()?)?, book);
//! book.grant(2, 3, Way::Plain, 0, Crew(7))?;
//! assert_eq!(book.to_old().unwrap_err().number, 27);
//! # Ok::<(), ring_planner::Refusal>(())
//! ```

mod books;
pub mod buffers;
mod plans;
mod raw;
mod refusals;
mod texts;

pub use books::{Book, Circuit, Crew, Holder, Line, Preview, Stop, Way};
pub use plans::{check, plan, Part, Summary};
pub use refusals::Refusal;
pub use texts::answer;
