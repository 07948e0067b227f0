//! `finds`: looks up paths of names by the crate's `find_scope` and `find_var`, and prints what they find, in the form that
//! the port's program `find_tests` prints. Standard input: a dump, a line `--`, then paths, one a line, names parted by spaces.
//! `oracle/record` keeps the answers as that program's stored output.
use oracle::form;
use std::io::Read;

fn main() {
    let mut all = String::new();
    std::io::stdin().read_to_string(&mut all).expect("standard input");
    let (dump, paths) = all.split_once("--\n").expect("a dump and paths");
    let header = vcd::Parser::new(dump.as_bytes()).parse_header().expect("a header");
    for line in paths.lines() {
        let path: Vec<&str> = if line.is_empty() { Vec::new() } else { line.split(' ').collect() };
        match header.find_scope(&path) {
            Some(s) => println!("scope {} {}", s.scope_type, s.identifier),
            None => println!("scope -"),
        }
        match header.find_var(&path) {
            Some(v) => println!("var {} {} {} {}", v.var_type, v.size, form::code(v.code), v.reference),
            None => println!("var -"),
        }
    }
}
