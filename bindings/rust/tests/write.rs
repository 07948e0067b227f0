//! Writing held to the crate's writer over all recorded dumps, and to the recorded answers of the write cases.
mod common;
use common::{cases, dumps, file, take_line};
use std::io;
use std::panic::{self, AssertUnwindSafe};
use vcd_proved::{
    Command, IdCode, Parser, ReferenceIndex, Refusal, ScopeType, SimulationCommand, TimescaleUnit, Value, VarType,
    Vector, Writer,
};

/// The crate's stops are answers here, and none of the test's own.
fn hush_the_crate() {
    let usual = panic::take_hook();
    panic::set_hook(Box::new(move |info| {
        if !info.location().map_or(false, |l| l.file().contains("docs/src/src")) {
            usual(info);
        }
    }));
}

/// Both writers, which must stay in the same state.
struct Pair {
    ours: Writer<Vec<u8>>,
    theirs: vcd::Writer<Vec<u8>>,
    depth: usize,
}

/// What became of one command.
#[derive(Copy, Clone, PartialEq)]
enum Met {
    Same,
    Stopped,
    TooDeep,
    LongReal,
}

impl Pair {
    fn new() -> Pair {
        Pair { ours: Writer::new(Vec::new()), theirs: vcd::Writer::new(Vec::new()), depth: 0 }
    }

    fn command(&mut self, ours: &Command, theirs: &vcd::Command) -> Met {
        self.ours.writer().clear();
        self.theirs.writer().clear();
        let written = panic::catch_unwind(AssertUnwindSafe(|| self.theirs.command(theirs)));
        let refused = self.ours.command(ours).err();
        if let Some(e) = refused {
            assert_eq!(Refusal::of(&e).unwrap().name(), "NotWritable");
            assert!(self.ours.writer().is_empty());
            return self.refused(ours, written.is_ok());
        }
        written.expect("the crate must not stop where nothing is refused").unwrap();
        self.depth = match ours {
            Command::ScopeDef(_, _) => self.depth + 1,
            Command::Upscope => self.depth - 1,
            _ => self.depth,
        };
        self.same(ours)
    }

    /// Refused here: the crate stops too, but for the 65th scope.
    fn refused(&self, command: &Command, written: bool) -> Met {
        if !written {
            return Met::Stopped;
        }
        assert!(
            matches!(command, Command::ScopeDef(_, _)) && self.depth == 64,
            "refused {command:?}, which the crate writes"
        );
        Met::TooDeep
    }

    /// The same bytes, but for a real that the crate writes longer than it reads.
    fn same(&mut self, command: &Command) -> Met {
        let (ours, theirs) = (self.ours.writer().clone(), self.theirs.writer().clone());
        if ours == theirs {
            return Met::Same;
        }
        let long = matches!(command, Command::ChangeReal(_, v) if v.to_string().len() > 32);
        assert!(long, "{command:?}: other bytes");
        let (back, lost) = (Parser::new(&ours).next(), vcd::Parser::new(&theirs[..]).next());
        assert_eq!(&back.unwrap().unwrap(), command);
        assert!(lost.unwrap().is_err());
        Met::LongReal
    }
}

/// The commands that both read, up to the first error or the first that only the crate writes.
fn rewrite(dump: &[u8], mut pair: Pair, count: &mut [usize; 4]) {
    let (ours, theirs) = (Parser::new(dump), vcd::Parser::new(dump));
    for (a, b) in ours.zip(theirs) {
        let met = match (a, b) {
            (Ok(a), Ok(b)) => pair.command(&a, &b),
            _ => return,
        };
        count[met as usize] += 1;
        if met == Met::TooDeep {
            return;
        }
    }
}

#[test]
fn commands_are_written_as_the_crate_does() {
    hush_the_crate();
    let mut count = [0; 4];
    dumps().iter().for_each(|dump| rewrite(dump, Pair::new(), &mut count));
    let [same, stopped, deep, reals] = count;
    println!("{same} commands written alike, {stopped} refused where the crate stops, {deep} too deep, {reals} reals over 32 bytes");
    assert!(same > 10_000 && stopped > 100 && deep > 0 && reals > 0);
}

/// What `header` and `command` write of a dump before an error, and whether there was none.
fn reformatted(dump: &[u8]) -> (Vec<u8>, bool) {
    let (mut parser, mut writer) = (Parser::new(dump), Writer::new(Vec::new()));
    let mut run = || -> io::Result<()> {
        writer.header(&parser.parse_header()?)?;
        parser.try_for_each(|command| writer.command(&command?))
    };
    let whole = run().is_ok();
    (std::mem::take(writer.writer()), whole)
}

fn reformatted_by_crate(dump: &[u8]) -> Vec<u8> {
    let (mut parser, mut writer) = (vcd::Parser::new(dump), vcd::Writer::new(Vec::new()));
    let run = || -> io::Result<()> {
        writer.header(&parser.parse_header()?)?;
        parser.try_for_each(|command| writer.command(&command?))
    };
    let _ = panic::catch_unwind(AssertUnwindSafe(run));
    std::mem::take(writer.writer())
}

#[test]
fn whole_dumps_are_rewritten_as_the_crate_does() {
    hush_the_crate();
    let (mut wholes, mut parts, mut long) = (0, 0, 0);
    for dump in dumps() {
        let ((ours, whole), theirs) = (reformatted(&dump), reformatted_by_crate(&dump));
        // A real that the crate writes longer than it reads; the test of commands looks at it.
        if theirs.split(|b| *b == b'\n').any(|line| line.starts_with(b"r") && line.len() > 34) {
            long += 1;
            continue;
        }
        assert!(theirs.starts_with(&ours), "{:?}", String::from_utf8_lossy(&dump));
        assert!(!whole || ours == theirs, "{:?}", String::from_utf8_lossy(&dump));
        wholes += usize::from(whole);
        parts += usize::from(!whole && !ours.is_empty());
    }
    println!("{wholes} dumps rewritten whole, {parts} in part, {long} with a real over 32 bytes left out");
    assert!(wholes > 300 && parts > 300 && long < 5);
}

/// The words of a script's line.
struct Words<'a>(std::str::Split<'a, char>);

impl<'a> Words<'a> {
    fn of(line: &'a str) -> Words<'a> {
        Words(line.split(' '))
    }

    fn number<T: std::str::FromStr>(&mut self) -> Option<T> {
        self.0.next()?.parse().ok()
    }

    /// None where it does not lie in the source or is no UTF-8: such a text cannot be handed over.
    fn text<'s>(&mut self, source: &'s [u8]) -> Option<&'s str> {
        let (start, len): (usize, usize) = (self.number()?, self.number()?);
        std::str::from_utf8(source.get(start..start.checked_add(len)?)?).ok()
    }

    fn index(&mut self) -> Option<Option<ReferenceIndex>> {
        Some(match self.number()? {
            0 => None,
            1 => Some(ReferenceIndex::BitSelect(self.number()?)),
            _ => Some(ReferenceIndex::Range(self.number()?, self.number()?)),
        })
    }

    fn one_of<T: Copy>(&mut self, all: &[T]) -> Option<T> {
        all.get(self.number::<usize>()?).copied()
    }
}

const UNITS: [TimescaleUnit; 6] =
    [TimescaleUnit::S, TimescaleUnit::MS, TimescaleUnit::US, TimescaleUnit::NS, TimescaleUnit::PS, TimescaleUnit::FS];
const SCOPES: [ScopeType; 5] =
    [ScopeType::Module, ScopeType::Task, ScopeType::Function, ScopeType::Begin, ScopeType::Fork];
const VALUES: [Value; 4] = [Value::V0, Value::V1, Value::X, Value::Z];
const NAMES: [&str; 19] = [
    "", "comment", "date", "version", "timescale", "scope_def", "add_module", "upscope", "var_def", "add_var",
    "add_wire", "enddefinitions", "timestamp", "change_scalar", "change_vector", "change_real", "change_string",
    "begin", "end",
];

fn var_type(n: usize) -> Option<VarType> {
    let names =
        "event integer parameter real reg supply0 supply1 time tri triand trior trireg tri0 tri1 wand wire wor string";
    names.split(' ').nth(n)?.parse().ok()
}

fn simulation_command(n: usize) -> Option<SimulationCommand> {
    use SimulationCommand::*;
    [Dumpall, Dumpoff, Dumpon, Dumpvars].get(n.checked_sub(1)?).copied()
}

fn id(words: &mut Words) -> Option<IdCode> {
    words.number::<u64>().map(IdCode::from)
}

/// A real is handed over as f64, so that only texts that f64 prints can be asked for.
fn real(words: &mut Words, source: &[u8]) -> Option<f64> {
    let text = words.text(source)?;
    text.parse().ok().filter(|v: &f64| v.to_string() == text)
}

fn vector(words: &mut Words, source: &[u8]) -> Option<Vector> {
    words.text(source)?.parse().ok()
}

/// Makes the call of a line, and answers the id that it gave; none where safe Rust cannot ask for it.
fn call(w: &mut Writer<Vec<u8>>, source: &[u8], line: &str) -> Option<io::Result<Option<IdCode>>> {
    let words = &mut Words::of(line);
    let _room: u64 = words.number()?;
    let done = match words.number()? {
        1 => w.comment(words.text(source)?),
        2 => w.date(words.text(source)?),
        3 => w.version(words.text(source)?),
        4 => w.timescale(words.number()?, words.one_of(&UNITS)?),
        5 => w.scope_def(words.one_of(&SCOPES)?, words.text(source)?),
        6 => w.add_module(words.text(source)?),
        7 => w.upscope(),
        8 => w.var_def(var_type(words.number()?)?, words.number()?, id(words)?, words.text(source)?, words.index()?),
        9 => {
            return Some(
                w.add_var(var_type(words.number()?)?, words.number()?, words.text(source)?, words.index()?).map(Some),
            )
        }
        10 => return Some(w.add_wire(words.number()?, words.text(source)?).map(Some)),
        11 => w.enddefinitions(),
        12 => w.timestamp(words.number()?),
        13 => w.change_scalar(id(words)?, words.one_of(&VALUES)?),
        14 => w.change_vector(id(words)?, &vector(words, source)?),
        15 => w.change_real(id(words)?, real(words, source)?),
        16 => w.change_string(id(words)?, words.text(source)?),
        17 => w.begin(simulation_command(words.number()?)?),
        _ => w.command(&Command::End(simulation_command(words.number()?)?)),
    };
    Some(done.map(|()| None))
}

/// A writer brought to a script's first state by calls; none where that cannot be.
fn brought(first: &str) -> Option<Writer<Vec<u8>>> {
    let mut words = Words::of(first);
    let (_, depth, next, open): (u64, u64, u64, usize) =
        (words.number()?, words.number()?, words.number()?, words.number()?);
    let mut w = Writer::new(Vec::new());
    if next > 0 {
        w.add_module("m").unwrap();
        w.var_def(VarType::Wire, 1, IdCode::from(next - 1), "v", None).unwrap();
        w.upscope().unwrap();
    }
    for _ in 0..depth {
        w.add_module("m").ok()?;
    }
    if open > 0 {
        w.begin(simulation_command(open)?).unwrap();
    }
    Some(w)
}

/// The answer's line as recorded, without the state.
fn answer(name: &str, result: io::Result<Option<IdCode>>, bytes: &[u8]) -> String {
    match result {
        Err(e) => format!("{name} refused {}", Refusal::of(&e).unwrap().number()),
        Ok(_) => {
            let escape = |b: &u8| match b {
                33..=126 if *b != b'\\' => char::from(*b).to_string(),
                _ => format!("\\x{b:02x}"),
            };
            format!("{name} ok {} \"{}", bytes.len(), bytes.iter().map(escape).collect::<String>())
        }
    }
}

/// Makes a call and compares its answer; answers whether it could be asked for.
fn compare_call(w: &mut Writer<Vec<u8>>, source: &[u8], line: &str, wanted: &str) -> bool {
    w.writer().clear();
    // Room is made as it is needed, and a text cannot lie outside.
    if wanted.ends_with("refused 21") || wanted.ends_with("refused 25") {
        return false;
    }
    let result = match call(w, source, line) {
        Some(result) => result,
        None => {
            // A real's text that f64 prints otherwise is left out; it changes no state.
            assert!(!wanted.contains(" ok ") || wanted.starts_with("change_real"), "{line} cannot be asked for");
            return false;
        }
    };
    let given = result.as_ref().ok().copied().flatten();
    let name = NAMES[Words::of(line).0.nth(1).unwrap().parse::<usize>().unwrap()];
    let got = answer(name, result, w.writer());
    assert!(wanted == got || wanted.starts_with(&format!("{got} ")), "{line}: {got}, recorded {wanted}");
    if let Some(id) = given {
        assert_eq!(format!("{id:?}"), format!("IdCode({})", wanted.rsplit(' ').next().unwrap()));
    }
    true
}

/// A header's call over the words of a table, which safe Rust does not hand over; the C driver makes it.
fn is_header(line: &str) -> bool {
    Words::of(line).0.nth(1) == Some("19")
}

/// Calls compared and left out, in one case: those from a header's call on are left out, for it moves the state.
fn replay(case: &[u8], recorded: &[&str]) -> (usize, usize) {
    let mut rest = case;
    let first = take_line(&mut rest);
    let (source, calls) = rest.split_at(Words::of(&first).number().unwrap());
    let calls: Vec<&str> = std::str::from_utf8(&calls[1..]).unwrap().lines().collect();
    assert_eq!(calls.len(), recorded.len());
    let asked = match brought(&first) {
        None => 0,
        Some(mut w) => {
            let asked = calls.iter().zip(recorded).take_while(|(line, _)| !is_header(line));
            asked.filter(|(line, wanted)| compare_call(&mut w, source, line, wanted)).count()
        }
    };
    (asked, calls.len() - asked)
}

#[test]
fn scripts_are_answered_as_recorded() {
    let recorded = String::from_utf8(file("crates/replay_write/stdout")).unwrap();
    let answers: Vec<&str> = recorded.split("case ").skip(1).collect();
    let cases = cases("write");
    assert_eq!(answers.len(), cases.len());
    let (mut asked, mut left) = (0, 0);
    for (case, answer) in cases.iter().zip(answers) {
        let lines: Vec<&str> = answer.lines().skip(1).collect();
        let (a, l) = replay(case, &lines);
        asked += a;
        left += l;
    }
    println!("{asked} calls answered as recorded, {left} left out");
    assert!(asked > 3000);
}

#[test]
fn end_names_the_open_command() {
    let mut w = Writer::new(Vec::new());
    assert!(w.end().is_err());
    for c in
        [SimulationCommand::Dumpall, SimulationCommand::Dumpoff, SimulationCommand::Dumpon, SimulationCommand::Dumpvars]
    {
        w.begin(c).unwrap();
        w.end().unwrap();
        assert!(w.end().is_err());
    }
    let mut theirs = vcd::Writer::new(Vec::new());
    use vcd::SimulationCommand::*;
    for c in [Dumpall, Dumpoff, Dumpon, Dumpvars] {
        theirs.begin(c).unwrap();
        theirs.end().unwrap();
    }
    assert_eq!(w.writer(), theirs.writer());
}
