//! The examples of the crate's documentation: its texts with the import changed, and byte slices handed over where it takes a reader.
use vcd_proved as vcd;

use std::io;
use std::io::ErrorKind::InvalidInput;
use vcd::{SimulationCommand, TimescaleUnit, Value};

/// Write out a clock and data signal to a VCD file
fn write_clocked_vcd(shift_reg: u32, w: &mut dyn io::Write) -> io::Result<()> {
    let mut writer = vcd::Writer::new(w);

    // Write the header
    writer.timescale(1, TimescaleUnit::US)?;
    writer.add_module("top")?;
    let clock = writer.add_wire(1, "clock")?;
    let data = writer.add_wire(1, "data")?;
    writer.upscope()?;
    writer.enddefinitions()?;

    // Write the initial values
    writer.begin(SimulationCommand::Dumpvars)?;
    writer.change_scalar(clock, Value::V0)?;
    writer.change_scalar(data, Value::V0)?;
    writer.end()?;

    // Write the data values
    let mut t = 0;
    for i in 0..32 {
        t += 4;
        writer.timestamp(t)?;
        writer.change_scalar(clock, Value::V1)?;
        writer.change_scalar(data, ((shift_reg >> i) & 1) != 0)?;

        t += 4;
        writer.timestamp(t)?;
        writer.change_scalar(clock, Value::V0)?;
    }
    Ok(())
}

/// Parse a VCD file containing a clocked signal and decode the signal
fn read_clocked_vcd(r: &[u8]) -> io::Result<u32> {
    let mut parser = vcd::Parser::new(r);

    // Parse the header and find the wires
    let header = parser.parse_header()?;
    let clock =
        header.find_var(&["top", "clock"]).ok_or_else(|| io::Error::new(InvalidInput, "no wire top.clock"))?.code;
    let data = header.find_var(&["top", "data"]).ok_or_else(|| io::Error::new(InvalidInput, "no wire top.data"))?.code;

    // Iterate through the remainder of the file and decode the data
    let mut shift_reg = 0;
    let mut data_val = Value::X;
    let mut clock_val = Value::X;

    for command_result in parser {
        let command = command_result?;
        use vcd::Command::*;
        match command {
            ChangeScalar(i, v) if i == clock => {
                if clock_val == Value::V1 && v == Value::V0 {
                    // falling edge on clock
                    let shift_bit = match data_val {
                        Value::V1 => 1 << 31,
                        _ => 0,
                    };
                    shift_reg = (shift_reg >> 1) | shift_bit;
                }
                clock_val = v;
            }
            ChangeScalar(i, v) if i == data => {
                data_val = v;
            }
            _ => (),
        }
    }

    Ok(shift_reg)
}

#[test]
fn clocked() {
    let mut buf = Vec::new();
    let data = 0xC0DE1234;
    write_clocked_vcd(data, &mut buf).expect("Failed to write");
    let value = read_clocked_vcd(&buf[..]).expect("Failed to read");
    assert_eq!(value, data);
    // The recorded output of the example: the crate's dump, then the number that it decodes.
    let recorded = std::fs::read(concat!(env!("CARGO_MANIFEST_DIR"), "/../../crates/clocked/stdout")).unwrap();
    assert!(recorded.starts_with(&buf));
}

#[test]
fn find_scope_and_var() {
    let mut parser = vcd::Parser::new(
        &b"
    $scope module a $end
    $scope module b $end
    $var integer 16 n0 counter $end
    $upscope $end
    $upscope $end
    $enddefinitions $end
    "[..],
    );
    let header = parser.parse_header().unwrap();
    let scope = header.find_scope(&["a", "b"]).unwrap();
    assert_eq!(scope.identifier, "b");
    let var = header.find_var(&["a", "b", "counter"]).unwrap();
    assert_eq!(var.reference, "counter");
    assert_eq!(scope.find_var("counter"), Some(var));
}

#[test]
fn looping_over_commands() -> Result<(), Box<dyn std::error::Error>> {
    use vcd::{Command, Parser};
    let mut reader = Parser::new(b"$enddefinitions $end #5 1! b10 ! r1.5 ! sab ! $dumpon $end\n".to_vec());
    reader.parse_header()?;

    let mut lines = Vec::new();
    while let Some(command) = reader.next().transpose()? {
        lines.push(match command {
            Command::Timestamp(t) => format!("Time is {t}"),
            Command::ChangeScalar(i, v) => format!("{i} set to {v}"),
            Command::ChangeVector(i, v) => format!("{i} set to {v}"),
            Command::ChangeReal(i, v) => format!("{i} set to {v}"),
            Command::ChangeString(i, v) => format!("{i} set to {v}"),
            command => format!("Unexpected {command:?} at line {line}", line = reader.line()),
        });
    }
    assert_eq!(lines[..5], ["Time is 5", "! set to 1", "! set to 10", "! set to 1.5", "! set to ab"]);
    assert_eq!(lines[5..], ["Unexpected Begin(Dumpon) at line 1", "Unexpected End(Dumpon) at line 1"]);
    Ok(())
}

#[test]
fn error_handling() {
    use vcd::{ParseError, ParseErrorKind, Parser};
    let text = "AAAAA";
    let res = Parser::new(text.as_bytes()).parse_header();
    let err: std::io::Error = res.unwrap_err();
    let vcd_err: Option<&ParseError> = err.get_ref().and_then(|e| e.downcast_ref());
    assert_eq!(vcd_err.unwrap().line(), 1);
    assert!(matches!(vcd_err.unwrap().kind(), ParseErrorKind::UnexpectedCharacter));
}

#[test]
fn reference_index() {
    use vcd::ReferenceIndex;
    assert_eq!("[7:0]".parse(), Ok(ReferenceIndex::Range(7, 0)));
}

#[test]
fn writing_a_clock() -> Result<(), Box<dyn std::error::Error>> {
    let mut writer = vcd::Writer::new(io::BufWriter::new(Vec::new()));

    writer.timescale(1, TimescaleUnit::US)?;
    writer.add_module("top")?;
    let clock = writer.add_wire(1, "clock")?;
    writer.upscope()?;
    writer.enddefinitions()?;

    let mut t = 0;
    while t < 100 {
        writer.timestamp(t)?;
        writer.change_scalar(clock, Value::V0)?;
        t += 2;

        writer.timestamp(t)?;
        writer.change_scalar(clock, Value::V1)?;
        t += 2;
    }
    writer.flush()?;
    let commands = vcd::Parser::new(writer.writer().get_ref()).count();
    assert_eq!(commands, 5 + 100);
    Ok(())
}
