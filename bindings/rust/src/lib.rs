//! Sheets of text with embeds and attributes: a port of the text type of yrs 0.28.0 whose every call is proved.
//!
//! [`Sheet`] has yrs's calls under yrs's names, without documents, clients and transactions: a sheet owns its buffers, and
//! [`Sheet::begin`] starts what [`Sheet::event`] tells. No call panics: each ends with an answer or with a [`Refusal`], and a
//! refused call has changed nothing. Keys are numbers 0 to 15 and values 1 to 255 (0 is null); a [`Table`] gives them out for
//! names, bools, integers and strings.
//!
//! What is proved ends at the archive's calls; this crate passes strings and slices to them and back, and is tested.
mod attrs;
mod op;
mod refusal;
mod sheet;
mod sys;
mod table;

pub use attrs::Attrs;
pub use op::{Content, Op};
pub use refusal::Refusal;
pub use sheet::{Run, Sheet, ITEMS, UNITS};
pub use table::{Table, Value};
