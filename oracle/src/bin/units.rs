//! `units`: runs the inputs of the crate's own unit tests (value.rs, idcode.rs, scope.rs) and prints what it answers,
//! in the form that the port's program `unit_tests` prints. `oracle/record` keeps it as that program's stored output.
use oracle::form;
use vcd::{IdCode, InvalidIdCode, ReferenceIndex, Vector};

fn vector(s: &str) {
    let v: Vector = s.parse().expect("a vector");
    let bits: String = (0..=v.len()).map(|i| v.get(i).map_or(" -".to_string(), |b| format!(" {b}"))).collect();
    println!("vector {s} {}{bits} {v}", v.len());
}

/// As the crate's test: ten thousand codes from the first on, each of which must read back. Every 500th is shown.
fn codes() {
    let mut id = IdCode::FIRST;
    let mut back = 0;
    for i in 0..10000 {
        let text = id.to_string();
        if text.parse::<IdCode>().is_ok_and(|read| read == id) {
            back += 1;
        }
        if i % 500 == 0 {
            println!("code {i} {text}");
        }
        id = id.next();
    }
    println!("back {back}");
}

fn id(s: &str) {
    match s.parse::<IdCode>() {
        Ok(id) => println!("id {s} {} {id}", form::code(id)),
        Err(InvalidIdCode::Empty) => println!("id {s} refused 16"),
        Err(InvalidIdCode::InvalidChars) => println!("id {s} refused 17"),
        Err(InvalidIdCode::TooLong) => println!("id {s} refused 18"),
    }
}

fn index(s: &str) {
    let mut line = "index".to_string();
    form::text(&mut line, s.as_bytes());
    match s.parse::<ReferenceIndex>() {
        Ok(i) => println!("{line} {i}"),
        Err(_) => println!("{line} refused 14"),
    }
}

fn main() {
    ["1010", "xz", "X", "01xz", "01x"].into_iter().for_each(vector);
    codes();
    ["!", "!!!!!!!!!!", "~", "~~~~~~~~~", "n999999999", "n9999999999", ""].into_iter().for_each(id);
    ["[0]", "[ 1 ]", "[7:0]", "[12:-4]", "[ 0 : 8 ]", "[7"].into_iter().for_each(index);
}
