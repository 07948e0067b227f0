//! The fixed cases of the listing program and the rewriting program: one for each thing that their rules speak of, and
//! the simulators' dumps; the long ones last.
use super::dumps::DUMPS;
use crate::kind::Kind;

/// A longer case is a long one.
const LONG: usize = 3_500;

/// Document 01's example.
const EXAMPLE: &str = "$timescale 1 ns $end\n$var wire 1 ! sel $end\n$var wire 2 \" mask $end\n$enddefinitions $end\n\
    #0\n0!\nb1 \"\n#5\n1!\nb10 \"\n";

const ONE: &str = "$var wire 1 ! a $end\n";
const TWO: &str = "$var wire 1 ! a $end\n$var reg 4 \" b [3:0] $end\n";

/// A dump with these variables in a scope, and this data.
fn under(vars: &str, data: &str) -> String {
    format!("$scope module m $end\n{vars}$upscope $end\n$enddefinitions $end\n{data}")
}

/// A dump without variables, and this data.
fn bare(data: &str) -> String {
    format!("$enddefinitions $end\n{data}")
}

/// The cases, and how many of them are recorded: the short ones and the first of the long ones; of those that fill what a
/// call is lent, only where it matters.
pub fn all(kind: Kind) -> (Vec<Vec<u8>>, usize) {
    let own = [headers(), changes(), listings(), commands()].concat();
    let (long_dumps, short_dumps): (Vec<&[u8]>, Vec<&[u8]>) = DUMPS.iter().partition(|dump| dump.len() > LONG);
    let mut cases: Vec<Vec<u8>> = own.into_iter().map(String::into_bytes).collect();
    cases.extend(short_dumps.into_iter().map(<[u8]>::to_vec));
    let recorded = cases.len() + if kind == Kind::List { 2 } else { 3 };
    cases.extend(long().into_iter().map(String::into_bytes));
    cases.extend(long_dumps.into_iter().map(<[u8]>::to_vec));
    (cases, recorded)
}

/// Headers: refused ones, deep ones, the most rows, variables at top.
fn headers() -> Vec<String> {
    let deep = |n: usize| {
        let (open, close) = ("$scope fork f $end\n".repeat(n), "$upscope $end\n".repeat(n));
        format!("{open}{ONE}{close}$enddefinitions $end\n#1\n1!\n")
    };
    let rows = |n: usize| under(&(ONE.to_string() + &"$comment $end".repeat(n - 2)), "#1\n1!\n");
    vec![
        EXAMPLE.to_string(),
        "".to_string(),
        "\n\n".to_string(),
        format!("$scope module m $end\n{ONE}$dumpvars\n1!\n"),
        "$scope module m $end\n$upscope $end\n$upscope $end\n$enddefinitions $end\n1!\n".to_string(),
        "$date d $end\n$enddefinitions $end".to_string(),
        "hello\n".to_string(),
        "$timescale 1\u{b5}s $end\n$enddefinitions $end\n".to_string(),
        format!("$comment c $end\n{ONE}$scope task t $end\n{ONE}$upscope $end\n{ONE}$enddefinitions $end\n#1\n1!\n"),
        format!("$scope task t $end\n{ONE}$upscope $end\n{TWO}$enddefinitions $end\n#1\n1!\nb1 \"\n"),
        deep(64),
        deep(65),
        rows(256),
        rows(257),
        "$date $end$version  v\n1 $end $timescale 99999999 fs $end\n$date e $end\n".to_string() + &bare("#1\n"),
        "$var event 0 n999999999 e $end\n".to_string() + &bare("1n999999999\n"),
    ]
}

/// Changes: of every kind, before any time, of one code with two names, wide and narrow ones.
fn changes() -> Vec<String> {
    let width = |n: u32| format!("$var reg {n} ! w{n} $end\n");
    let widths: String = [0, 1, 3, 1_023, 1_024, 1_025, u32::MAX].into_iter().map(width).collect();
    let many = |n: usize| "X".repeat(n);
    vec![
        under(TWO, "1!\nb10 \"\nx\"\n#3\n0!\n"),
        under(&format!("{TWO}$var wire 8 ! other $end\n$upscope $end\n$scope begin s $end\n{ONE}"), "#1\n1!\nb101 !\n"),
        under(
            "$var real 64 # v $end\n$var string 1 $ s [-3] $end\n",
            "r1.50 #\nR-inf #\nrNaN #\n#7\nr+1E9 #\nsidle $\nS\u{e9} $\nr.25 $\nsr1 #\n",
        ),
        under(TWO, "b01xzXZ !\n#1\nb11111 \"\nb1111 \"\nb111 \"\nbz \"\nB0 \"\n"),
        under(&widths, "b1x !\n0!\nb0101 !\n"),
        under(&width(1_024), &format!("b{} !\nb{} !\n", many(1_024), many(1_025))),
        under(TWO, "X!\nZ!\n#1\nbXZxz \"\nBX \"\nZ\"\n"),
        "$comment a $end$comment\nb\nc $end\n".to_string()
            + &under(
                "$comment $end\n$var wire 1 ! a $end $comment d$end\n",
                "$comment e $end#1\n$comment\n\nf $end 1!\n$dumpvars $comment g $end 0!\n$end $comment h $end",
            ),
        under(ONE, "#+5\r\n1!\r\n#00000000000000000000000000000012\r\n0\t!\r\n#18446744073709551615\n b \n1\n\n!\n"),
        under(ONE, "1\"\n#1\nb1 ~~\nsx #\n"),
        under(ONE, ""),
        bare("#1\n1!\n"),
    ]
}

/// Listings that are full, and refusals in the data.
fn listings() -> Vec<String> {
    let times = |n: usize| "1!\n".repeat(n);
    let three = format!("{ONE}$var wire 2 ! b $end\n$comment $end\n$var real 1 ! c $end\n");
    vec![
        under(&three, &("#1\n".to_string() + &times(1_025))),
        under(ONE, &(times(1_024) + "$comment e $end\n")),
        under(ONE, &(times(1_025) + "q\n")),
        under(ONE, &(times(1_024) + "q\n")),
        under(TWO, &("b1 \"\n".to_string() + &times(1_030) + "b0 \"\n\n#7\nb2 \"\n")),
        under(TWO, "#1\n1!\nb1 \"\n#2\n0!\nq\n1!\n"),
        under(TWO, "#1\n1!\n0"),
        under(TWO, "#1\n1!\n#2"),
        under(TWO, "#1\n1!\n$end\n0!\n"),
        under(TWO, "1!\nb10\n\n\n\"\u{7f}\n"),
        under(TWO, "$timescale \u{e9} $end\n"),
        bare("#1\n1!\nq\n"),
    ]
}

/// Commands behind the header, as the writer takes them or not.
fn commands() -> Vec<String> {
    let scope = "$scope fork f $end\n";
    vec![
        bare("$date\n d $end\n$version $end\n$timescale 1s $end\n$enddefinitions $end\n#1\n"),
        bare(&format!("{scope}{TWO}$upscope $end\n$enddefinitions $end\n#1\n")),
        bare("#1\n$upscope $end\n#2\n"),
        bare(&format!("#1\n{ONE}#2\n")),
        bare(&format!("{scope}#1\n$enddefinitions $end\n#2\n")),
        bare(&(scope.repeat(64) + "#1\n" + scope + "#2\n")),
        bare(&(scope.to_string() + "$var wire 1 n999999999 a $end\n1n999999999\n#1\n")),
        bare("$dumpall\n$dumpvars\n1!\n$end\n$dumpoff $end\n$dumpon\n"),
    ]
}

/// Dumps of one byte more than is taken and of as many as are, read and written.
fn long() -> Vec<String> {
    let most = 65_536;
    vec![padded(most + 1), padded(most), remarks(most), written(most), written(most + 1), long_names()]
}

/// A dump of so many bytes: a long comment, and changes behind it.
fn padded(length: usize) -> String {
    let rest = under(TWO, "$comment $end\n#1\n1!\nb1 \"\n#2\n0!\n");
    let comment = format!("$comment {}$end", "c".repeat(length - rest.len()));
    rest.replace("$comment $end", &comment)
}

/// So many comments, of so many bytes of text in all.
fn comments(count: usize, text: usize) -> String {
    let comment = |n: usize| format!("$comment {}$end", "c".repeat(text / count + (n < text % count) as usize));
    (0..count).map(comment).collect()
}

/// What a comment takes beside its text, in `comments` and written anew.
const HERE: usize = "$comment $end".len();
const WRITTEN: usize = "$comment\n    \n$end\n".len();

/// A dump of so many bytes, with the most rows. When it is written the comments but the last six take as many bytes.
fn remarks(length: usize) -> String {
    let end = bare("#1\n");
    let first = length - 250 * WRITTEN;
    let last = length - end.len() - 256 * HERE - first;
    comments(250, first) + &comments(6, last) + &end
}

/// A header of which so many bytes are written.
fn written(length: usize) -> String {
    let end = bare("");
    comments(256, length - end.len() - 256 * WRITTEN) + &end + "#1\n"
}

/// Lines longer than the program's buffer has room for twice.
fn long_names() -> String {
    let (name, values) = ("n".repeat(32_000), "1".repeat(33_000));
    under(&format!("$var reg 1 ! {name} $end\n$var reg 1024 ! m $end\n"), &format!("b{values} !\n1!\nb1 !\n#1\n0!\n"))
}
