//! The amended withholding file of 275 characters, entity code WHAM: document 02 (vi).
//!
//! Its rules are read from that request, from source document 001 and from the rule list
//! docs/formats/wham.md, whose sections the comments here name by their numbers ("1.2", "2.1").
//! They are read twice: `edits` and `walk` go from line to line with a state, and stop at the first
//! broken edit; `meaning` looks at the lines alone, gathers all that is broken, and tells the first.
//! `agree` holds the two against each other.

pub mod ack;
pub mod agree;
mod alike;
pub mod big;
mod bounds;
mod breaks;
pub mod draft;
mod edits;
pub mod gen;
pub mod ignored;
pub mod kinds;
mod layout;
pub mod meaning;
mod mutations;
pub mod needed;
mod own;
pub mod pairs;
mod record;
mod rules;
pub mod scripts;
pub mod valid;
pub mod walk;
pub mod write;

/// The editions of the layout. What differs between them takes one as an argument.
#[derive(Clone, Copy, Debug, PartialEq, Eq)]
pub enum Edition {
    /// Source document 001.
    Of2024,
}
