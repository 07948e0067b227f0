//! The small types held to the crate's: names, numbers, texts and refusals.
use std::fmt::{Debug, Display};
use std::str::FromStr;

/// What a text is read as, and how that is printed, in both crates.
fn told<T: FromStr + Debug + Display>(text: &str) -> String
where
    T::Err: Debug + Display,
{
    match text.parse::<T>() {
        Ok(v) => format!("{v:?} {v}"),
        Err(e) => format!("{e:?} {e}"),
    }
}

const TEXTS: &str = "s ms us ns ps fs S m module task function begin fork Module event integer parameter real reg supply0 supply1 \
    time tri triand trior trireg tri0 tri1 wand wire wor string Wire 0 1 x X z Z 01xz XZ 2 01q [0] [7:0] [12:-4] [-2147483648] \
    [2147483648] [ ] [1 1] [1:2:3] [] [:] [+1] [é] ! ~ !! ~~~~~~~~~ !!!!!!!!!! n999999999 n9999999999 hPpi,%>22@ gPpi,%>22@ iPpi,%>22@ é \
    \u{7f} ~\u{1f} ~~~~~~~~~~~";

fn texts() -> Vec<String> {
    let mut texts: Vec<String> = TEXTS.split(' ').map(str::to_string).collect();
    texts.extend(["", " ", "[ 1 ]", "[ 0 : 8 ]", "[\u{a0}3]", "[3\u{200b}]", "a b"].map(str::to_string));
    texts
}

macro_rules! same {
    ($($name:ident)*) => {
        $(for text in texts() {
            let (ours, theirs) = (told::<vcd_proved::$name>(&text), told::<vcd::$name>(&text));
            assert_eq!(ours, theirs, "{} of {text:?}", stringify!($name));
        })*
    };
}

#[test]
fn texts_are_read_and_printed_as_the_crate_does() {
    same!(TimescaleUnit ScopeType VarType Value Vector ReferenceIndex IdCode);
}

#[test]
fn every_name_is_met() {
    let met = |ok: &dyn Fn(&str) -> bool| texts().iter().filter(|t| ok(t)).count();
    assert_eq!(met(&|t| t.parse::<vcd::TimescaleUnit>().is_ok()), 6);
    assert_eq!(met(&|t| t.parse::<vcd::ScopeType>().is_ok()), 5);
    assert_eq!(met(&|t| t.parse::<vcd::VarType>().is_ok()), 18);
    assert_eq!(met(&|t| t.parse::<vcd::Value>().is_ok()), 6);
    assert!(met(&|t| t.parse::<vcd::IdCode>().is_ok()) > 50);
}

#[test]
fn ids_are_the_crates() {
    let mut codes: Vec<u64> = (0..10_000).collect();
    codes.extend((0..64).map(|n| u64::MAX >> n));
    codes.extend((0..100_000).step_by(97).map(|n: u64| n.wrapping_mul(0x9e37_79b9_7f4a_7c15)));
    for code in codes {
        let (ours, theirs) = (vcd_proved::IdCode::from(code), vcd::IdCode::from(code));
        assert_eq!(ours.to_string(), theirs.to_string());
        assert_eq!(told::<vcd_proved::IdCode>(&ours.to_string()), told::<vcd::IdCode>(&theirs.to_string()));
    }
    assert_eq!(format!("{:?}", vcd_proved::IdCode::FIRST.next()), format!("{:?}", vcd::IdCode::FIRST.next()));
    assert_eq!(vcd_proved::IdCode::from(7u32), vcd_proved::IdCode::from(7u64));
}

#[test]
fn units_have_the_crates_sizes() {
    for name in ["s", "ms", "us", "ns", "ps", "fs"] {
        let (ours, theirs): (vcd_proved::TimescaleUnit, vcd::TimescaleUnit) =
            (name.parse().unwrap(), name.parse().unwrap());
        assert_eq!(ours.divisor(), theirs.divisor());
        assert_eq!(ours.fraction().to_bits(), theirs.fraction().to_bits());
    }
}

#[test]
fn simulation_commands_print_the_crates_names() {
    use vcd_proved::SimulationCommand::*;
    let theirs = [
        vcd::SimulationCommand::Dumpall,
        vcd::SimulationCommand::Dumpoff,
        vcd::SimulationCommand::Dumpon,
        vcd::SimulationCommand::Dumpvars,
    ];
    for (a, b) in [Dumpall, Dumpoff, Dumpon, Dumpvars].iter().zip(theirs) {
        assert_eq!(format!("{a} {a:?}"), format!("{b} {b:?}"));
    }
}

#[test]
fn vectors_are_the_crates() {
    use vcd_proved::{Value, Vector};
    let vector: Vector = "01xz".parse().unwrap();
    let theirs: vcd::Vector = "01xz".parse().unwrap();
    assert_eq!(vector.len(), theirs.len());
    for i in 0..5 {
        assert_eq!(format!("{:?}", vector.get(i)), format!("{:?}", theirs.get(i)));
    }
    assert_eq!(vector.iter().collect::<Vec<_>>(), [Value::V0, Value::V1, Value::X, Value::Z]);
    assert_eq!(Vector::from([Value::V0; 3]), Vector::zeros(3));
    assert_eq!(
        Vector::from(Vec::from(Vector::filled(Value::Z, 2))).to_string(),
        vcd::Vector::filled(vcd::Value::Z, 2).to_string()
    );
    assert_eq!((Value::from(true), Value::from(false)), (Value::V1, Value::V0));
}

#[test]
fn refusals_have_the_pages_names() {
    let page =
        String::from_utf8(std::fs::read(concat!(env!("CARGO_MANIFEST_DIR"), "/../../README.md")).unwrap()).unwrap();
    let table = page.split("\n## ").find(|part| part.starts_with("Refusals")).expect("the refusals' part");
    let mut names = Vec::new();
    for row in table.lines().filter(|l| l.starts_with("| ")) {
        let cells: Vec<&str> = row.split('|').map(str::trim).collect();
        let numbers = cells[1].split(", ").map(str::parse::<u64>).collect::<Result<Vec<_>, _>>();
        if let Ok(numbers) = numbers {
            names.extend(numbers.into_iter().zip(cells[2].split(", ").map(str::to_string)));
        }
    }
    assert_eq!(names.len(), 25);
    for (number, name) in names {
        assert_eq!(vcd_proved::Refusal::from_number(number).unwrap().name(), name);
    }
}
