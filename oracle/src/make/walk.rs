//! Exhaustive short inputs: all strings up to a length over a list of symbols, at a place of a dump.

type Symbols = &'static [&'static [u8]];

/// All strings of up to `most` symbols between `before` and `after`.
pub struct Walk {
    before: &'static [u8],
    symbols: Symbols,
    most: u32,
    after: &'static [u8],
}

impl Walk {
    fn size(&self) -> usize {
        (0..=self.most).map(|length| self.symbols.len().pow(length)).sum()
    }

    fn nth(&self, mut n: usize) -> Vec<u8> {
        let base = self.symbols.len();
        let mut length = 0;
        while n >= base.pow(length) {
            n -= base.pow(length);
            length += 1;
        }
        let mut bytes = self.before.to_vec();
        for _ in 0..length {
            bytes.extend_from_slice(self.symbols[n % base]);
            n /= base;
        }
        bytes.extend_from_slice(self.after);
        bytes
    }
}

pub fn size(walks: &[Walk]) -> usize {
    walks.iter().map(Walk::size).sum()
}

/// String `n` of all the walks together.
pub fn nth(walks: &[Walk], mut n: usize) -> Vec<u8> {
    for walk in walks {
        if n < walk.size() {
            return walk.nth(n);
        }
        n -= walk.size();
    }
    panic!("past the last walk");
}

/// A walk with nothing round it.
const fn whole(symbols: Symbols, most: u32) -> Walk {
    Walk { before: b"", symbols, most, after: b"" }
}

/// Every byte that a rule mentions by itself, and some of each class that it does not.
const BYTES: Symbols = &[
    b" ", b"\n", b"\r", b"\t", b"$", b"#", b"0", b"1", b"2", b"9", b"x", b"X", b"z", b"Z", b"b", b"B", b"r", b"R",
    b"s", b"S", b"+", b"-", b".", b"e", b"E", b"[", b"]", b":", b"!", b"\"", b"~", b"a", b"d", b"f", b"i", b"n", b"\\",
    b"\x00", b"\x0b", b"\x7f", b"\x80", b"\x85", b"\xa0", b"\xc2", b"\xe3", b"\xff",
];

/// Inputs for reading, whole and at each place where a rule speaks.
pub const READ: &[Walk] = &[
    whole(BYTES, 3),
    whole(&[b"b", b"1", b"r", b"s", b"#", b" ", b"\n"], 6),
    whole(&[b"$dumpall ", b"$dumpoff\n", b"$dumpon ", b"$dumpvars\n", b"$end ", b"$end\n", b"1!\n"], 5),
    Walk {
        before: b"$",
        symbols: &[
            b"end", b"definitions", b"dump", b"all", b"off", b"on", b"vars", b"var", b"up", b"scope", b"time",
            b"scale", b"comment", b"date", b"version", b" ",
        ],
        most: 3,
        after: b" ",
    },
    Walk {
        before: b"#",
        symbols: &[b"+", b"-", b"0", b"5", b"6", b"a", b"1844674407370955161"],
        most: 4,
        after: b"\n",
    },
    Walk {
        before: b"r",
        symbols: &[b"+", b"-", b".", b"e", b"E", b"0", b"7", b"inf", b"inity", b"NaN"],
        most: 4,
        after: b" !\n",
    },
    Walk { before: b"b", symbols: &[b"0", b"1", b"x", b"Z", b"2", b" ", b"\n"], most: 5, after: b" !\n" },
    Walk {
        before: b"0",
        symbols: &[b"!", b"~", b"~~~", b"~~~~~", b"\x7f", "é".as_bytes(), b"n99999999"],
        most: 4,
        after: b"\n",
    },
    Walk {
        before: b"$timescale ",
        symbols: &[b"1", b"0", b"n", b"s", b" ", "é".as_bytes(), "²".as_bytes()],
        most: 5,
        after: b" $end\n",
    },
    Walk { before: b"$upscope ", symbols: &[b"$", b"e", b"n", b"d", b" "], most: 6, after: b"\n" },
    Walk {
        before: b"$comment ",
        symbols: &[b"$", b"e", b"n", b"d", b" ", "\u{a0}".as_bytes(), b"\xe2"],
        most: 5,
        after: b"$end\n",
    },
    Walk {
        before: b"$scope ",
        symbols: &[b"module", b"fork", "é".as_bytes(), b" ", b"\n", b"$end", b"\xff"],
        most: 4,
        after: b" $end\n",
    },
    Walk {
        before: b"$var ",
        symbols: &[b"wire ", b"1 ", b"! ", b"a ", b"[0] ", b"$end ", b"\xff "],
        most: 5,
        after: b"\n",
    },
    Walk {
        before: b"$var reg ",
        symbols: &[b"+", b"-", b"0", b"5", b"6", b"x", b"429496729"],
        most: 4,
        after: b" ! r $end\n",
    },
    Walk {
        before: b"$var reg 8 ! r [",
        symbols: &[b"]", b":", b"-", b"+", b"7", b"214748364", "\u{2003}".as_bytes()],
        most: 5,
        after: b" $end\n",
    },
];

/// Headers of few commands in every order.
pub const HEADER: &[Walk] = &[
    whole(
        &[
            b"$scope module a $end ", b"$upscope $end\n", b"$var wire 1 ! v $end ", b"$comment c $end",
            b"$date d $end\n", b"$enddefinitions $end\n", b"$timescale 1 ns $end\n",
        ],
        6,
    ),
    Walk {
        before: b"$scope task t $end\n",
        symbols: &[
            b"$scope fork f $end\n", b"$upscope $end ", b"$var real 64 # r $end\n", b"$version v $end ", b"$dumpvars ",
            b"$end ", b"#5 ", b"1! ",
        ],
        most: 4,
        after: b"$upscope $end $enddefinitions $end\n",
    },
    Walk {
        before: b"",
        symbols: &[
            b"$date a $end ", b"$date b $end\n", b"$version c $end ", b"$version $end\n", b"$timescale 1 s $end ",
            b"$timescale 10us $end\n", b"$comment d $end ",
        ],
        most: 4,
        after: b"$enddefinitions $end ",
    },
];

/// Dumps of few commands in every order: changes, variables and scopes, commands behind the header.
pub const WHOLE: &[Walk] = &[
    Walk {
        before: b"$scope module m $end $var wire 1 ! a $end $var reg 3 \" b $end $var reg 2 ! c $end $upscope $end\n\
            $enddefinitions $end\n",
        symbols: &[b"#5 ", b"1!\n", b"X\" ", b"b1Z !\n", b"r.5 \" ", b"sq !\n", b"$dumpon ", b"$end\n"],
        most: 5,
        after: b"",
    },
    Walk {
        before: b"",
        symbols: &[
            b"$scope module a $end ", b"$upscope $end\n", b"$var wire 1 ! v $end ", b"$var reg 2 \" w $end\n",
            b"$comment c $end", b"$enddefinitions $end\n", b"1! ",
        ],
        most: 5,
        after: b"$enddefinitions $end\n#1 0! b1 \"\n",
    },
    Walk {
        before: b"$enddefinitions $end ",
        symbols: &[
            b"$scope fork f $end\n", b"$upscope $end ", b"$var wire 1 ! v $end\n", b"$enddefinitions $end\n",
            b"$dumpall ", b"$dumpvars\n", b"$end ", b"$date d$end\n",
        ],
        most: 5,
        after: b"#1\n",
    },
];

/// Scripts of few calls in every order, over the source `abc`.
pub const WRITE: &[Walk] = &[
    Walk {
        before: b"3 0 0 0\nabc\n",
        symbols: &[
            b"99 5 0 0 1\n", b"99 7\n", b"99 10 1 1 2\n", b"99 8 15 8 7 0 1 1 -3\n", b"99 9 4 8 0 2 2 7 0\n",
            b"99 11\n", b"20 7\n", b"99 1 0 3\n",
        ],
        most: 5,
        after: b"",
    },
    Walk {
        before: b"3 0 0 0\nabc\n",
        symbols: &[
            b"99 17 1\n", b"99 17 2\n", b"99 17 3\n", b"99 17 4\n", b"99 18 1\n", b"99 18 2\n", b"99 18 3\n",
            b"99 18 4\n", b"4 18 1\n",
        ],
        most: 4,
        after: b"99 12 5\n",
    },
    Walk {
        before: b"3 63 18446744073709551613 0\nabc\n",
        symbols: &[
            b"99 6 0 1\n", b"99 7\n", b"99 10 1 1 2\n", b"99 8 0 1 18446744073709551614 0 1 0\n",
            b"99 8 0 1 18446744073709551615 0 1 0\n", b"99 13 18446744073709551615 2\n",
        ],
        most: 4,
        after: b"",
    },
];
