//! A second implementation of the six calls, of copying, storing and restoring a book and of the session, written from docs/SPEC.md
//! and docs/LAYOUT.md alone. It shares no code with the proved crates. It takes any limits; the library has those called `OFFICE`.

// Each program uses a part.
#![allow(dead_code, unused_imports)]

mod archive;
mod area;
mod book;
mod calls;
mod random;
mod report;
mod session;
mod soundness;
mod table;
mod value;

pub use archive::{are_distinct, arguments_are_lower, decode_numbers, encode_list, renumbered, restore_book, restored_bytes};
pub use archive::{restored_terms, store_book, stored_bytes, stored_terms, Restore, Store};
pub use area::{read, store, Limits, OFFICE};
pub use book::{decode, encode, has_arities, has_two_arities, push_number, written_back, Part, Term};
pub use calls::{copy_book, perform, Answer, Call, CopyBook, Perform};
pub use random::{book_over, bytes_of, first_seed, random_book, signature, times, Random};
pub use session::{session, End, Session, CAPACITY, LONGEST};
pub use soundness::{faults, Fault, Faults};
pub use table::{Entry, State};
pub use value::{one_symbol, Values};
