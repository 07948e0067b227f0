//! Types that are lists of names: numbered from 0 in the order of the exported functions, printed and read by name. The names and
//! their order are the crate's.
use std::fmt::{self, Display};
use std::str::FromStr;

macro_rules! named {
    ($(#[$attr:meta])* $name:ident { $($(#[$doc:meta])* $case:ident $text:literal,)* }) => {
        $(#[$attr])*
        #[derive(Debug, Copy, Clone, Eq, PartialEq)]
        pub enum $name { $($(#[$doc])* $case,)* }

        impl $name {
            const ALL: &'static [$name] = &[$($name::$case),*];

            pub(crate) fn of(number: u64) -> Option<$name> {
                Self::ALL.get(usize::try_from(number).ok()?).copied()
            }

            pub(crate) fn number(self) -> u64 {
                self as u64
            }

            fn name(self) -> &'static str {
                match self { $($name::$case => $text,)* }
            }
        }

        impl Display for $name {
            fn fmt(&self, f: &mut fmt::Formatter<'_>) -> fmt::Result {
                f.write_str(self.name())
            }
        }
    };
}

macro_rules! unit_error {
    ($error:ident, $says:literal) => {
        #[doc = concat!("Parse error for ", $says, ".")]
        #[derive(Debug, Copy, Clone, PartialEq, Eq, Hash)]
        #[non_exhaustive]
        pub struct $error;

        impl Display for $error {
            fn fmt(&self, f: &mut fmt::Formatter<'_>) -> fmt::Result {
                f.write_str($says)
            }
        }

        impl std::error::Error for $error {}
    };
}
pub(crate) use unit_error;

macro_rules! read_by_name {
    ($name:ident, $error:ident, $says:literal) => {
        unit_error!($error, $says);

        impl FromStr for $name {
            type Err = $error;
            fn from_str(s: &str) -> Result<Self, Self::Err> {
                Self::ALL.iter().copied().find(|x| x.name() == s).ok_or($error)
            }
        }
    };
}

named! {
    /// A unit of time for the `$timescale` command.
    TimescaleUnit {
        /// Second
        S "s",
        /// Millisecond (10^-3)
        MS "ms",
        /// Microsecond (10^-6)
        US "us",
        /// Nanosecond (10^-9)
        NS "ns",
        /// Picosecond (10^-12)
        PS "ps",
        /// Femtosecond (10^-15)
        FS "fs",
    }
}
read_by_name!(TimescaleUnit, InvalidTimescaleUnit, "invalid timescale unit");

impl TimescaleUnit {
    /// The number of timescale ticks per second.
    pub fn divisor(&self) -> u64 {
        1000u64.pow(*self as u32)
    }

    /// The duration of a timescale tick in seconds.
    pub fn fraction(&self) -> f64 {
        1.0 / (self.divisor() as f64)
    }
}

named! {
    /// A type of scope, as used in the `$scope` command.
    #[non_exhaustive]
    #[allow(missing_docs)]
    ScopeType {
        Module "module", Task "task", Function "function", Begin "begin", Fork "fork",
    }
}
read_by_name!(ScopeType, InvalidScopeType, "invalid scope type");

named! {
    /// A type of variable, as used in the `$var` command.
    #[non_exhaustive]
    #[allow(missing_docs)]
    VarType {
        Event "event", Integer "integer", Parameter "parameter", Real "real", Reg "reg", Supply0 "supply0", Supply1 "supply1",
        Time "time", Tri "tri", TriAnd "triand", TriOr "trior", TriReg "trireg", Tri0 "tri0", Tri1 "tri1", WAnd "wand",
        Wire "wire", WOr "wor", String "string",
    }
}
read_by_name!(VarType, InvalidVarType, "invalid variable type");

named! {
    /// A simulation command type, used in `Command::Begin` and `Command::End`.
    #[non_exhaustive]
    #[allow(missing_docs)]
    SimulationCommand {
        Dumpall "dumpall", Dumpoff "dumpoff", Dumpon "dumpon", Dumpvars "dumpvars",
    }
}

named! {
    /// A four-valued logic scalar value.
    Value {
        /// Logic low
        V0 "0",
        /// Logic high
        V1 "1",
        /// An uninitialized or unknown value
        X "x",
        /// The "high-impedance" value
        Z "z",
    }
}
unit_error!(InvalidValue, "invalid VCD logic value");

impl Value {
    pub(crate) fn parse(byte: u8) -> Result<Value, InvalidValue> {
        match byte {
            b'0' => Ok(Value::V0),
            b'1' => Ok(Value::V1),
            b'x' | b'X' => Ok(Value::X),
            b'z' | b'Z' => Ok(Value::Z),
            _ => Err(InvalidValue),
        }
    }

    pub(crate) fn byte(self) -> u8 {
        b"01xz"[self as usize]
    }
}

impl FromStr for Value {
    type Err = InvalidValue;
    fn from_str(s: &str) -> Result<Self, Self::Err> {
        match s.as_bytes() {
            [byte] => Value::parse(*byte),
            _ => Err(InvalidValue),
        }
    }
}

impl From<bool> for Value {
    /// `true` converts to `V1`, `false` to `V0`
    fn from(v: bool) -> Value {
        if v {
            Value::V1
        } else {
            Value::V0
        }
    }
}
