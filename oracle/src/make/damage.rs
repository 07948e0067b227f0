//! Damaged copies: a byte changed, dropped, added or doubled, or the rest cut off, at every place.

/// The bytes that are put in.
const BYTES: &[u8] = b"\x00\n\r $#01xz![+-.e~\x7f\x80\xa0\xc3\xe2\xff";

/// Short dumps, each with another command, that are damaged in every way.
const BASES: &[&[u8]] = &[
    b"$comment a b $end\n0!\n",
    "$date\n\t\u{3000}2005-01-02 é\u{2003}\n$end\n#1\n".as_bytes(),
    b"$version\r\n v 1 \r\n$end $end\n",
    b"$timescale 10 ns $end #7\n",
    b"$timescale 1ps $end\n",
    b"$timescale\n 100\n fs\n$end\n#1 ",
    b"$scope module top $end\n$upscope $end\n",
    b"$scope fork \xc3\xa9 $end 1! ",
    b"$var wire 1 ! clk $end\n",
    b"$var reg 32 \"~ bus [31:0] $end x! ",
    b"$var real 64 n999999999 r $end\n",
    b"$var tri 8 ! a [-7] $end\n",
    "$var wire 2 # b [\u{a0}1\u{2003}:0] $end\n".as_bytes(),
    b"$enddefinitions $end\n#0\n",
    b"$dumpvars 0! x\" $end $dumpoff\n$end\n",
    b"$dumpall\n$dumpon\n1!\n$end $end\n",
    b"#18446744073709551615\n#+5 \n0!\n",
    b"b01xzXZ !\nB1 ~~~~~~~~~ #1 ",
    b"b \n 1\n#100\n",
    b"r-1.25e+10 ! R.5 \" rnan ! rINF # ",
    b"sSTART ! S\xc3\xa9 $end\n",
    b"1!\n0\"\nx#\nz$\nX%\nZ&\n",
];

fn ways(base: &[u8]) -> usize {
    (3 + 2 * BYTES.len()) * (base.len() + 1)
}

/// How many damaged copies the short dumps have.
pub fn size() -> usize {
    BASES.iter().map(|base| ways(base)).sum()
}

/// Damaged copy `n` of the short dumps.
pub fn nth(mut n: usize) -> Vec<u8> {
    for base in BASES {
        if n < ways(base) {
            return damaged(base, n);
        }
        n -= ways(base);
    }
    panic!("past the last copy");
}

/// Copy `n` (of any number) of `base`, damaged at one place in one way.
pub fn damaged(base: &[u8], n: usize) -> Vec<u8> {
    let n = n % ways(base);
    let at = n % (base.len() + 1);
    let way = n / (base.len() + 1);
    let (head, tail) = base.split_at(at);
    let rest = tail.get(1..).unwrap_or(b"");
    match way {
        0 => head.to_vec(),
        1 => [head, rest].concat(),
        2 => [head, &tail[..tail.len().min(1)], tail].concat(),
        _ => {
            let byte = &BYTES[(way - 3) / 2..][..1];
            let kept = if way % 2 == 1 { rest } else { tail };
            [head, byte, kept].concat()
        }
    }
}
