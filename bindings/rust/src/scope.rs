//! The tree of a header: scopes, variables, comments. Look-ups go over the tree, which is the user's to change, as the crate's do.
use crate::named::unit_error;
use crate::{IdCode, ScopeType, TimescaleUnit, VarType};
use std::borrow::Borrow;
use std::fmt::{self, Display};
use std::str::FromStr;

/// Structure containing the data from the header of a VCD file.
///
/// A `Header` can be parsed from VCD with [`crate::Parser::parse_header`], or create an empty `Header` with [`Header::default`].
#[derive(Debug, Default)]
#[non_exhaustive]
pub struct Header {
    /// `$date` text
    pub date: Option<String>,

    /// `$version` text
    pub version: Option<String>,

    /// Parsed `$timescale` indicating the time unit used in the file
    pub timescale: Option<(u32, TimescaleUnit)>,

    /// Top-level variables, scopes, and comments
    pub items: Vec<ScopeItem>,
}

impl Header {
    /// Find the scope object at a specified path.
    pub fn find_scope<S: Borrow<str>>(&self, path: &[S]) -> Option<&Scope> {
        let (name, parents) = path.split_last()?;
        scope_named(items_at(&self.items, parents)?, name.borrow())
    }

    /// Find the variable object at a specified path.
    pub fn find_var<S: Borrow<str>>(&self, path: &[S]) -> Option<&Var> {
        let (name, parents) = path.split_last()?;
        var_named(items_at(&self.items, parents)?, name.borrow())
    }
}

fn items_at<'a, S: Borrow<str>>(items: &'a [ScopeItem], path: &[S]) -> Option<&'a [ScopeItem]> {
    path.iter().try_fold(items, |items, name| Some(&scope_named(items, name.borrow())?.items[..]))
}

fn scope_named<'a>(items: &'a [ScopeItem], name: &str) -> Option<&'a Scope> {
    items.iter().find_map(|item| match item {
        ScopeItem::Scope(s) if s.identifier == name => Some(s),
        _ => None,
    })
}

fn var_named<'a>(items: &'a [ScopeItem], name: &str) -> Option<&'a Var> {
    items.iter().find_map(|item| match item {
        ScopeItem::Var(v) if v.reference == name => Some(v),
        _ => None,
    })
}

/// An item in a scope
#[derive(Debug, Clone, PartialEq)]
#[non_exhaustive]
pub enum ScopeItem {
    /// `$scope` - Child scope
    Scope(Scope),

    /// `$var` - Variable
    Var(Var),

    /// `$comment` - Comment
    Comment(String),
}

/// Information on a VCD scope as represented by a `$scope` command and its children.
#[derive(Debug, Clone, PartialEq)]
#[non_exhaustive]
pub struct Scope {
    /// Type of scope.
    pub scope_type: ScopeType,

    /// Name of the scope.
    pub identifier: String,

    /// Items within the scope.
    pub items: Vec<ScopeItem>,
}

impl Scope {
    /// Create a `Scope`.
    pub fn new(scope_type: ScopeType, identifier: String) -> Self {
        Self { scope_type, identifier, items: Vec::new() }
    }

    /// Looks up a variable by reference.
    pub fn find_var<'a>(&'a self, reference: &str) -> Option<&'a Var> {
        var_named(&self.items, reference)
    }
}

impl Default for Scope {
    fn default() -> Scope {
        Scope::new(ScopeType::Module, String::new())
    }
}

/// Information on a VCD variable as represented by a `$var` command.
#[derive(Debug, Clone, PartialEq)]
#[non_exhaustive]
pub struct Var {
    /// Type of variable.
    pub var_type: VarType,

    /// Width in bits.
    pub size: u32,

    /// Internal code used in value changes to link them back to this variable; several variables can share one.
    pub code: IdCode,

    /// Name of the variable.
    pub reference: String,

    /// Optional bit index or range associated with the `reference`.
    pub index: Option<ReferenceIndex>,
}

impl Var {
    /// Create a `Var`.
    pub fn new(var_type: VarType, size: u32, code: IdCode, reference: String, index: Option<ReferenceIndex>) -> Self {
        Self { var_type, size, code, reference, index }
    }
}

/// Index of a VCD variable reference: either a bit select index `[i]` or a range index `[msb:lsb]`
#[derive(Debug, Copy, Clone, PartialEq)]
pub enum ReferenceIndex {
    /// Single bit (e.g `[0]`)
    BitSelect(i32),

    /// Range of bits (e.g. `[7:0]`)
    Range(i32, i32),
}

unit_error!(InvalidReferenceIndex, "invalid reference index");

impl FromStr for ReferenceIndex {
    type Err = InvalidReferenceIndex;
    fn from_str(s: &str) -> Result<Self, Self::Err> {
        let number = |s: &str| s.trim().parse().map_err(|_| InvalidReferenceIndex);
        let inner = s.strip_prefix('[').and_then(|s| s.strip_suffix(']')).ok_or(InvalidReferenceIndex)?;
        match inner.split_once(':') {
            Some((msb, lsb)) => Ok(ReferenceIndex::Range(number(msb)?, number(lsb)?)),
            None => Ok(ReferenceIndex::BitSelect(number(inner)?)),
        }
    }
}

impl Display for ReferenceIndex {
    fn fmt(&self, f: &mut fmt::Formatter<'_>) -> fmt::Result {
        match self {
            ReferenceIndex::BitSelect(i) => write!(f, "[{i}]"),
            ReferenceIndex::Range(msb, lsb) => write!(f, "[{msb}:{lsb}]"),
        }
    }
}
