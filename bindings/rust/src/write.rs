//! Writing: each command is made by the proved library and handed to an [`io::Write`] whole.
use crate::raw::{self, Record};
use crate::record::{index_words, kind};
use crate::{Command, Header, IdCode, ReferenceIndex, Refusal, Scope, ScopeItem, ScopeType, SimulationCommand};
use crate::{TimescaleUnit, Value, Var, VarType};
use std::io;

/// The longest real that can be read back.
const REAL: usize = 32;

/// Struct wrapping an [`std::io::Write`] with methods for writing VCD commands and data.
///
/// A command that would not read back as itself, or may not stand where it is to be written, is refused by 22 ([`Refusal::of`]) with
/// nothing written; the crate writes some of these, and stops at others.
///
/// ```
/// use vcd_proved::{Refusal, Writer};
/// let mut buf = Vec::new();
/// let mut writer = Writer::new(&mut buf);
/// writer.add_module("top").unwrap();
/// let refused = writer.add_wire(1, "two names").unwrap_err();
/// assert_eq!(Refusal::of(&refused).unwrap().name(), "NotWritable");
/// writer.add_wire(1, "clock").unwrap();
/// assert_eq!(buf, b"$scope module top $end\n$var wire 1 ! clock $end\n");
/// ```
pub struct Writer<W: io::Write> {
    writer: W,
    state: raw::Writer,
    out: Vec<u8>,
}

impl<W: io::Write> Writer<W> {
    /// Creates a Writer wrapping an [`io::Write`].
    pub fn new(writer: W) -> Writer<W> {
        Writer { writer, state: raw::WRITER_START, out: vec![0; 128] }
    }

    /// Get the wrapped [`io::Write`].
    pub fn writer(&mut self) -> &mut W {
        &mut self.writer
    }

    /// Flush the wrapped [`io::Write`].
    pub fn flush(&mut self) -> io::Result<()> {
        self.writer.flush()
    }

    /// Writes a complete header with the fields from a [`Header`] struct from the parser.
    pub fn header(&mut self, h: &Header) -> io::Result<()> {
        if let Some(s) = &h.date {
            self.date(s)?;
        }
        if let Some(s) = &h.version {
            self.version(s)?;
        }
        if let Some((v, u)) = h.timescale {
            self.timescale(v, u)?;
        }
        self.items(&h.items)?;
        self.enddefinitions()
    }

    /// Writes a `$comment` command.
    pub fn comment(&mut self, v: &str) -> io::Result<()> {
        self.put_text(kind::COMMENT, 0, 0, v.as_bytes())
    }

    /// Writes a `$date` command.
    pub fn date(&mut self, v: &str) -> io::Result<()> {
        self.put_text(kind::DATE, 0, 0, v.as_bytes())
    }

    /// Writes a `$version` command.
    pub fn version(&mut self, v: &str) -> io::Result<()> {
        self.put_text(kind::VERSION, 0, 0, v.as_bytes())
    }

    /// Writes a `$timescale` command.
    pub fn timescale(&mut self, ts: u32, unit: TimescaleUnit) -> io::Result<()> {
        self.put_plain(kind::TIMESCALE, unit.number(), ts.into(), 0)
    }

    /// Writes a `$scope` command.
    pub fn scope_def(&mut self, t: ScopeType, i: &str) -> io::Result<()> {
        self.put_text(kind::SCOPE, t.number(), 0, i.as_bytes())
    }

    /// Writes a `$scope` command for a module.
    ///
    /// Convenience wrapper around [`Writer::scope_def`].
    pub fn add_module(&mut self, identifier: &str) -> io::Result<()> {
        self.scope_def(ScopeType::Module, identifier)
    }

    /// Writes an `$upscope` command.
    pub fn upscope(&mut self) -> io::Result<()> {
        self.put_plain(kind::UPSCOPE, 0, 0, 0)
    }

    /// Writes a `$scope` command, a series of `$var` commands, and an `$upscope` commands from a [`Scope`] structure from the parser.
    pub fn scope(&mut self, s: &Scope) -> io::Result<()> {
        self.scope_def(s.scope_type, &s.identifier)?;
        self.items(&s.items)?;
        self.upscope()
    }

    /// Writes a `$var` command with a specified id.
    pub fn var_def(
        &mut self,
        var_type: VarType,
        width: u32,
        id: IdCode,
        reference: &str,
        index: Option<ReferenceIndex>,
    ) -> io::Result<()> {
        let [form, first, second] = index_words(index);
        let len = reference.len() as u64;
        let record = [kind::VAR, var_type.number(), width.into(), id.0, 0, len, form, first, second];
        self.put(record, reference.as_bytes())
    }

    /// Writes a `$var` command with the next available ID, returning the assigned ID.
    ///
    /// Convenience wrapper around [`Writer::var_def`].
    pub fn add_var(
        &mut self,
        var_type: VarType,
        width: u32,
        reference: &str,
        index: Option<ReferenceIndex>,
    ) -> io::Result<IdCode> {
        let id = IdCode(self.state[1]);
        self.var_def(var_type, width, id, reference, index)?;
        Ok(id)
    }

    /// Adds a `$var` for a wire with the next available ID, returning the assigned ID.
    ///
    /// Convenience wrapper around [`Writer::add_var`].
    pub fn add_wire(&mut self, width: u32, reference: &str) -> io::Result<IdCode> {
        self.add_var(VarType::Wire, width, reference, None)
    }

    /// Writes a `$var` command from a [`Var`] structure from the parser.
    pub fn var(&mut self, v: &Var) -> io::Result<()> {
        self.var_def(v.var_type, v.size, v.code, &v.reference, v.index)
    }

    /// Writes a `$enddefinitions` command to end the header.
    pub fn enddefinitions(&mut self) -> io::Result<()> {
        self.put_plain(kind::ENDDEFINITIONS, 0, 0, 0)
    }

    /// Writes a `#xxx` timestamp.
    pub fn timestamp(&mut self, ts: u64) -> io::Result<()> {
        self.put_plain(kind::TIME, 0, ts, 0)
    }

    /// Writes a change to a scalar variable.
    pub fn change_scalar<V: Into<Value>>(&mut self, id: IdCode, v: V) -> io::Result<()> {
        self.put_plain(kind::SCALAR, v.into().number(), 0, id.0)
    }

    /// Writes a change to a vector variable.
    pub fn change_vector(&mut self, id: IdCode, v: impl IntoIterator<Item = Value>) -> io::Result<()> {
        let text: Vec<u8> = v.into_iter().map(Value::byte).collect();
        self.put_text(kind::VECTOR, 0, id.0, &text)
    }

    /// Writes a change to a real variable: as the crate does where that can be read back, and else with an exponent.
    pub fn change_real(&mut self, id: IdCode, v: f64) -> io::Result<()> {
        let mut text = v.to_string();
        if text.len() > REAL {
            text = format!("{v:e}");
        }
        self.put_text(kind::REAL, 0, id.0, text.as_bytes())
    }

    /// Writes a change to a string variable.
    pub fn change_string(&mut self, id: IdCode, v: &str) -> io::Result<()> {
        self.put_text(kind::STRING, 0, id.0, v.as_bytes())
    }

    /// Writes the beginning of a simulation command.
    pub fn begin(&mut self, c: SimulationCommand) -> io::Result<()> {
        self.put_plain(kind::BEGIN, c.number(), 0, 0)
    }

    /// Writes an `$end` to end a simulation command.
    pub fn end(&mut self) -> io::Result<()> {
        // With none open any is refused.
        self.put_plain(kind::END, self.state[2].saturating_sub(1), 0, 0)
    }

    /// Writes a command from a [`Command`] enum as parsed by the parser.
    pub fn command(&mut self, c: &Command) -> io::Result<()> {
        use Command::*;
        match c {
            Comment(c) => self.comment(c),
            Date(c) => self.date(c),
            Version(c) => self.version(c),
            Timescale(v, u) => self.timescale(*v, *u),
            ScopeDef(t, i) => self.scope_def(*t, i),
            Upscope => self.upscope(),
            VarDef(t, s, i, r, index) => self.var_def(*t, *s, *i, r, *index),
            Enddefinitions => self.enddefinitions(),
            Timestamp(t) => self.timestamp(*t),
            ChangeScalar(i, v) => self.change_scalar(*i, *v),
            ChangeVector(i, v) => self.change_vector(*i, v),
            ChangeReal(i, v) => self.change_real(*i, *v),
            ChangeString(i, v) => self.change_string(*i, v),
            Begin(c) => self.begin(*c),
            End(c) => self.put_plain(kind::END, c.number(), 0, 0),
        }
    }

    fn items(&mut self, items: &[ScopeItem]) -> io::Result<()> {
        items.iter().try_for_each(|item| match item {
            ScopeItem::Var(v) => self.var(v),
            ScopeItem::Scope(s) => self.scope(s),
            ScopeItem::Comment(c) => self.comment(c),
        })
    }

    fn put_plain(&mut self, kind: u64, kind_type: u64, number: u64, id: u64) -> io::Result<()> {
        self.put([kind, kind_type, number, id, 0, 0, 0, 0, 0], &[])
    }

    fn put_text(&mut self, kind: u64, kind_type: u64, id: u64, text: &[u8]) -> io::Result<()> {
        self.put([kind, kind_type, 0, id, 0, text.len() as u64, 0, 0, 0], text)
    }

    /// Writes the command of a record. Where there is no room, nothing is changed, so that it can be tried again with more.
    fn put(&mut self, record: Record, src: &[u8]) -> io::Result<()> {
        let mut count = 0;
        loop {
            match raw::command(&mut self.state, src, &record, &mut self.out, &mut count) {
                raw::OK => return self.writer.write_all(&self.out[..count as usize]),
                raw::NO_ROOM => self.out.resize(2 * self.out.len(), 0),
                refusal => return Err(Refusal::from(refusal).into()),
            }
        }
    }
}
