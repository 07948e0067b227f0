//! Answers to writing: the crate's bytes where document 01 accepts a call, else its refusal.
use crate::form;
use crate::script::{self, Call, State, Text, NAMES};
use crate::stops::caught;
use crate::table::header;
use std::fmt::Write;
use std::str::from_utf8;
use vcd::{IdCode, VarType, Vector, Writer};

/// What an accepted call wrote, the state after it, and the id that it gave.
pub struct Wrote {
    pub bytes: Vec<u8>,
    pub state: State,
    id: Option<u64>,
}

impl Wrote {
    pub fn nothing(state: State) -> Wrote {
        Wrote { bytes: Vec::new(), state, id: None }
    }
}

pub fn answer(out: &mut String, case: &[u8]) {
    let script = script::split(case);
    let mut state = script.state;
    for line in script.calls.lines() {
        let (room, rest) = line.split_once(' ').expect("a room and a call");
        let (number, call) = script::call(rest);
        let (refusal, wrote) = step(script.source, state, &call, room.parse().expect("a room"));
        state = wrote.state;
        out.push_str(NAMES[number - 1]);
        let _ = match refusal {
            Some(number) => write!(out, " refused {number}"),
            None => write!(out, " ok"),
        };
        if refusal.is_none() || matches!(call, Call::Header(_)) {
            print(out, &wrote);
        }
        out.push('\n');
    }
}

fn print(out: &mut String, wrote: &Wrote) {
    let _ = write!(out, " {}", wrote.bytes.len());
    form::text(out, &wrote.bytes);
    let _ = write!(out, " {} {}", wrote.state.depth, wrote.state.next);
    form::open(out, wrote.state.open);
    if let Some(id) = wrote.id {
        let _ = write!(out, " {id}");
    }
}

/// What a call writes, and the refusal that stopped it: only a header's call writes and is refused.
pub fn step(source: &[u8], state: State, call: &Call, room: usize) -> (Option<u8>, Wrote) {
    if let Call::Header(table) = call {
        return header(source, state, table, room);
    }
    match perform(source, state, call, room) {
        Ok(wrote) => (None, wrote),
        Err(number) => (Some(number), Wrote::nothing(state)),
    }
}

// page: the order of refusals is 25, 22, 21, and a refused call changes nothing.
pub fn perform(source: &[u8], state: State, call: &Call, room: usize) -> Result<Wrote, u8> {
    let text = match text_of(call) {
        Some(place) => bytes_at(source, place).ok_or(25)?,
        None => b"",
    };
    if unwritable(state, call, text) {
        return Err(22);
    }
    // page: where an assertion or an overflow stops the crate, the port refuses; all these are on 22's list.
    let wrote = caught(|| by_crate(state, call, text));
    assert_eq!(wrote.is_none(), stopping(state, call));
    let wrote = wrote.ok_or(22)?;
    if room < wrote.bytes.len() {
        return Err(21);
    }
    Ok(wrote)
}

pub fn text_of(call: &Call) -> Option<Text> {
    use Call::*;
    match *call {
        Comment(t) | Date(t) | Version(t) | ScopeDef(_, t) | AddModule(t) => Some(t),
        VarDef(_, _, _, t, _) | AddVar(_, _, t, _) | AddWire(_, t) => Some(t),
        ChangeVector(_, t) | ChangeReal(_, t) | ChangeString(_, t) => Some(t),
        Timescale(..) | Upscope | Enddefinitions | Timestamp(_) | ChangeScalar(..) => None,
        Begin(_) | End(_) | Header(_) => None,
    }
}

pub fn bytes_at(source: &[u8], text: Text) -> Option<&[u8]> {
    let end = text.start.checked_add(text.len)?;
    source.get(text.start as usize..end as usize)
}

// page: what 22 lists and the crate would write.
fn unwritable(state: State, call: &Call, text: &[u8]) -> bool {
    use Call::*;
    match *call {
        Comment(_) | Date(_) | Version(_) => bad_remark(text),
        Timescale(quantity, _) => quantity > 99_999_999,
        ScopeDef(..) | AddModule(_) => state.depth >= 64 || bad_name(text),
        VarDef(..) | AddVar(..) | AddWire(..) => bad_name(text),
        ChangeScalar(id, _) => id == u64::MAX,
        ChangeVector(id, _) => id == u64::MAX || vector(text).is_none(),
        ChangeReal(id, _) => id == u64::MAX || real(text).is_none(),
        ChangeString(id, _) => id == u64::MAX || bad_name(text),
        End(command) => state.open != Some(command),
        Upscope | Enddefinitions | Timestamp(_) | Begin(_) | Header(_) => false,
    }
}

/// The rest of 22's list, where the crate stops by itself.
fn stopping(state: State, call: &Call) -> bool {
    match *call {
        Call::Upscope => state.depth == 0,
        Call::VarDef(_, _, id, _, _) => state.depth == 0 || id == u64::MAX,
        Call::AddVar(..) | Call::AddWire(..) => state.depth == 0 || state.next == u64::MAX,
        Call::Enddefinitions => state.depth > 0,
        _ => false,
    }
}

fn bad_remark(text: &[u8]) -> bool {
    match from_utf8(text) {
        Ok(s) => s.trim() != s || s.contains("$end"),
        Err(_) => true,
    }
}

fn bad_name(text: &[u8]) -> bool {
    text.is_empty() || from_utf8(text).is_err() || text.iter().any(|b| b" \n\r\t".contains(b))
}

fn vector(text: &[u8]) -> Option<Vector> {
    let values: Vector = from_utf8(text).ok()?.parse().ok()?;
    (values.len() > 0).then_some(values)
}

fn real(text: &[u8]) -> Option<f64> {
    let value = from_utf8(text).ok()?.parse().ok()?;
    (text.len() <= 32).then_some(value)
}

fn by_crate(state: State, call: &Call, text: &[u8]) -> Wrote {
    let mut writer = primed(state);
    writer.writer().clear();
    let id = make(&mut writer, call, text);
    let bytes = std::mem::take(writer.writer());
    let open = match *call {
        Call::Begin(c) => Some(c),
        Call::End(_) => None,
        _ => state.open,
    };
    let (depth, next) = probed(writer);
    Wrote { bytes, state: State { depth, next, open }, id }
}

/// A writer of the crate in the given state.
fn primed(state: State) -> Writer<Vec<u8>> {
    let mut writer = Writer::new(Vec::new());
    if let Some(last) = state.next.checked_sub(1) {
        writer.add_module("m").unwrap();
        writer.var_def(VarType::Wire, 1, IdCode::from(last), "w", None).unwrap();
        writer.upscope().unwrap();
    }
    for _ in 0..state.depth {
        writer.add_module("m").unwrap();
    }
    writer
}

/// The writer's depth and next id, which it shows only by what it does and where it stops.
fn probed(mut writer: Writer<Vec<u8>>) -> (u64, u64) {
    writer.add_module("m").unwrap();
    let given = caught(|| writer.add_wire(1, "w").unwrap());
    let next = given.map_or(u64::MAX, form::code);
    let mut ups = 0;
    while caught(|| writer.upscope().unwrap()).is_some() {
        ups += 1;
    }
    (ups - 1, next)
}

fn make(w: &mut Writer<Vec<u8>>, call: &Call, text: &[u8]) -> Option<u64> {
    let words = from_utf8(text).expect("judged before");
    let done = match *call {
        Call::Comment(_) => w.comment(words),
        Call::Date(_) => w.date(words),
        Call::Version(_) => w.version(words),
        Call::Timescale(quantity, unit) => w.timescale(quantity, unit),
        Call::ScopeDef(t, _) => w.scope_def(t, words),
        Call::AddModule(_) => w.add_module(words),
        Call::Upscope => w.upscope(),
        Call::VarDef(t, width, id, _, index) => w.var_def(t, width, IdCode::from(id), words, index),
        Call::AddVar(t, width, _, index) => return w.add_var(t, width, words, index).ok().map(form::code),
        Call::AddWire(width, _) => return w.add_wire(width, words).ok().map(form::code),
        Call::Enddefinitions => w.enddefinitions(),
        Call::Timestamp(time) => w.timestamp(time),
        Call::ChangeScalar(id, value) => w.change_scalar(IdCode::from(id), value),
        Call::ChangeVector(id, _) => w.change_vector(IdCode::from(id), &vector(text).unwrap()),
        Call::ChangeReal(id, _) => {
            change_real(w, IdCode::from(id), text);
            Ok(())
        }
        Call::ChangeString(id, _) => w.change_string(IdCode::from(id), words),
        Call::Begin(c) => w.begin(c),
        Call::End(_) => w.end(),
        Call::Header(_) => panic!("a header is many commands"),
    };
    done.unwrap();
    None
}

// page: a real keeps its text where the crate writes its f64; the rest of the layout is the crate's.
fn change_real(writer: &mut Writer<Vec<u8>>, id: IdCode, text: &[u8]) {
    let value = real(text).expect("judged before");
    writer.change_real(id, value).unwrap();
    let shown = value.to_string().len();
    writer.writer().splice(1..1 + shown, text.iter().copied());
}
