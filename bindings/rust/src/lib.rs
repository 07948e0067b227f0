//! Reads and writes [VCD (Value Change Dump)][wp] files by a proved library, in the shapes of crate vcd 0.7.0.
//!
//! A user of that crate changes the import and hands over a byte slice: `vcd = { package = "vcd_proved", path = ".." }` in Cargo.toml,
//! and `Parser::new(&bytes[..])`. Names, types, fields, methods and error kinds are the crate's; the differences are
//!
//! * an input is wholly in memory and at most 4,294,967,295 bytes long, and there is no `Parser::reader`;
//! * a header has at most 4,096 items and 64 open scopes (refused by 20 and 19);
//! * what would not read back, or may not stand there, is not written but refused by 22;
//! * an error tells the library's refusal, its number and name ([`Refusal::of`]);
//! * and the few of docs/DIFFERENCES.md.
//!
//! Added: [`Parser::changes`], the changes of one variable.
//!
//! Commands, headers and ids are read, and commands and ids written, by the library. Plain Rust makes the tree of a header from its
//! rows, looks up in it, converts single names, values and indexes to and from text, and a real's text to and from `f64`.
//!
//! [`raw`] has all the exported functions.
//!
//! [wp]: https://en.wikipedia.org/wiki/Value_change_dump
#![deny(unsafe_code)]
#![warn(missing_docs)]

mod changes;
mod error;
mod idcode;
mod named;
mod parser;
#[allow(missing_docs)]
pub mod raw;
mod record;
mod scope;
mod vector;
mod write;

pub use changes::{Change, ChangeKind, Changes};
pub use error::{ParseError, ParseErrorKind, Refusal};
pub use idcode::{IdCode, InvalidIdCode};
pub use named::{InvalidScopeType, InvalidTimescaleUnit, InvalidValue, InvalidVarType};
pub use named::{ScopeType, SimulationCommand, TimescaleUnit, Value, VarType};
pub use parser::Parser;
pub use scope::{Header, InvalidReferenceIndex, ReferenceIndex, Scope, ScopeItem, Var};
pub use vector::{Vector, VectorIter};
pub use write::Writer;

/// An element in a VCD file.
#[derive(Debug, PartialEq, Clone)]
#[non_exhaustive]
pub enum Command {
    /// A `$comment` command
    Comment(String),

    /// A `$date` command
    Date(String),

    /// A `$version` command
    Version(String),

    /// A `$timescale` command
    Timescale(u32, TimescaleUnit),

    /// A `$scope` command
    ScopeDef(ScopeType, String),

    /// An `$upscope` command
    Upscope,

    /// A `$var` command
    VarDef(VarType, u32, IdCode, String, Option<ReferenceIndex>),

    /// An `$enddefinitions` command
    Enddefinitions,

    /// A `#xxx` timestamp
    Timestamp(u64),

    /// A `0a` change to a scalar variable
    ChangeScalar(IdCode, Value),

    /// A `b0000 a` change to a vector variable
    ChangeVector(IdCode, Vector),

    /// A `r1.234 a` change to a real variable
    ChangeReal(IdCode, f64),

    /// A `sSTART a` change to a string variable
    ChangeString(IdCode, String),

    /// A beginning of a simulation command. Unlike header commands, which are parsed atomically, simulation commands emit a Begin,
    /// followed by the data changes within them, followed by End.
    Begin(SimulationCommand),

    /// An end of a simulation command.
    End(SimulationCommand),
}
