//! The program `session_list` compared with the second lister: the input on its standard input, every byte of its
//! output.

use std::io::Write;
use std::process::{Command, Stdio};
use std::thread;

use common::questions::STRAP;
use common::random::Random;
use common::session::SLOTS;

use crate::cases;
use crate::check::Report;
use crate::lister;
use crate::model::Model;
use crate::strap_model::LENGTH;

const PROGRAM: &str = concat!(env!("CARGO_MANIFEST_DIR"), "/../../target/bin/session_list");

/// The example of docs/REQUIREMENTS.md: the input, and the output.
const EXAMPLE: (&[u8], &str) = (
    b"1201120130233023\n1211120130233021\n-\n3023302312011201\n0001000100010001\n120112013023302\n\
     2312231201300130\n3023302312011201\n",
    "ms rate zone wrong margin\n0 141 - 0 8\n1024 141 0 2 5\n2048 missed\n3072 141 - 0 8\n4096 doubtful\nbad\n\
     5120 141 - 0 8\n6144 141 1 0 8\n",
);

/// What the gate runs the program on, and what it must print: more than one chunk of input and of output.
const STORED: (&[u8], &str) =
    (include_bytes!("../../../crates/session_list/stdin"), include_str!("../../../crates/session_list/stdout"));

/// Inputs that are easily taken wrongly.
const INPUTS: [&[u8]; 21] = [
    b"",
    b"\n",
    b"\n\n",
    b"-",
    b"-\n",
    b"-\n\n-",
    b"--\n-\n",
    b" -\n- \n-\r\n-\0\n\0-\n\0\n",
    b"1201120130233023",
    b"1201120130233023\r\n1201120130233023\n",
    b"1201120130233023 \n 1201120130233023\n1201120130233023\n",
    b"120112013023302\n12011201302330230\n1201120130233023\n",
    b"1201120130233024\n/201120130233023\n1201120130233023\n",
    b"120112013023302\x001\n\x001201120130233023\n1201120130233023\0\n",
    b"1201120130233023\x0b1201120130233023\x0c\n1201120130233023\x1a\n",
    b"\xef\xbb\xbf1201120130233023\n\xb1\xb2\xb0\xb1\xb1\xb2\xb0\xb1\xb3\xb0\xb2\xb3\xb3\xb0\xb2\xb3\n",
    b"1201120130233023-\n-1201120130233023\n",
    b"1201120130233023\n\r\n\n-\n\n1201120130233023\n\n",
    b"12011201\n30233023\n",
    b"-\n-\n1201120130233023\n2312231201300130\n0001000100010001\n2312231201300130\n3023302312011201",
    b"over\nbad\nmissed\n0 141 - 0 8\n",
];

/// The kinds of printed lines, and how often each was seen.
#[derive(Default)]
struct Kinds([u64; 5]);

const KINDS: [&str; 5] = ["read", "doubtful", "missed", "bad", "over"];

impl Kinds {
    fn count(&mut self, text: &str) {
        for line in text.lines().skip(1) {
            let last = line.rsplit(' ').next().unwrap_or(line);
            self.0[KINDS.iter().position(|&kind| kind == last).unwrap_or(0)] += 1;
        }
    }
}

/// The comparison of the session list.
pub struct Listings<'a> {
    model: &'a Model,
    kinds: Kinds,
    runs: u32,
}

impl Listings<'_> {
    pub fn new(model: &Model) -> Listings<'_> {
        Listings { model, kinds: Kinds::default(), runs: 0 }
    }

    fn compare(&mut self, report: &mut Report, input: &[u8]) {
        let due = lister::list(self.model, input);
        let printed = run(input);
        report.require(printed.as_deref() == Ok(due.as_bytes()), || {
            let start = String::from_utf8_lossy(&input[..input.len().min(400)]).into_owned();
            format!("session_list on {} bytes that start with {start:?}\n  {}", input.len(), difference(&due, &printed))
        });
        self.kinds.count(&due);
        self.runs += 1;
        report.cases += 1;
    }

    /// That example and the stored run, which the second lister must list as they stand; inputs that are
    /// easily taken wrongly; lines around the size of any buffer.
    pub fn edges(&mut self, report: &mut Report) {
        for (input, output) in [EXAMPLE, STORED] {
            let listed = lister::list(self.model, input);
            report.require(listed == output, || {
                format!("the second lister: {}", difference(output, &Ok(listed.into_bytes())))
            });
            self.compare(report, input);
        }
        for input in INPUTS {
            self.compare(report, input);
        }
        for (length, byte) in
            [(1 << 20, b'1'), (1 << 20, b'-'), (3 << 19, 0), (65_536, b'0'), (4096, b'3'), (4097, b'2')]
        {
            let mut input = vec![byte; length];
            self.compare(report, &input);
            input.extend(b"\n1201120130233023\n");
            self.compare(report, &input);
        }
    }

    /// Random inputs of a few lines each.
    pub fn random(&mut self, report: &mut Report, random: &mut Random, runs: u32) {
        for _ in 0..runs {
            let mut input = Vec::new();
            for _ in 0..random.below(60) {
                input.extend(any_line(random));
                input.push(b'\n');
            }
            if random.one_in(2) {
                input.pop();
            }
            self.compare(report, &input);
        }
    }

    /// A full session, a bad line after it, and a slot that is over, after which nothing is read.
    pub fn full(&mut self, report: &mut Report, random: &mut Random) {
        let mut input = Vec::new();
        for _ in 0..SLOTS {
            if random.one_in(64) {
                input.extend(b"bad line\n");
            }
            input.extend(if random.one_in(32) { b"-".to_vec() } else { word(random) });
            input.push(b'\n');
        }
        self.compare(report, &input);
        input.extend(b"0123\n");
        for last in [&b"1201120130233023"[..], b"-"] {
            self.compare(report, &[&input, last].concat());
            self.compare(report, &[&input, last, b"\n-\nbad\n1201120130233023\n"].concat());
        }
    }

    /// Prints the counts; a kind of line never printed is a failure.
    pub fn finish(&self, report: &mut Report) {
        let texts: Vec<String> = KINDS.iter().zip(self.kinds.0).map(|(kind, seen)| format!("{kind} {seen}")).collect();
        println!("session_list: {} runs, lines {}", self.runs, texts.join(", "));
        for (kind, seen) in KINDS.iter().zip(self.kinds.0) {
            report.require(seen > 0, || format!("session_list: no line of the kind {kind}"));
        }
    }
}

/// What the program prints for an input. A thread feeds it, since it prints while it reads and may end before the end.
fn run(input: &[u8]) -> Result<Vec<u8>, String> {
    let text = |error: std::io::Error| format!("{PROGRAM}: {error}");
    let mut child = Command::new(PROGRAM).stdin(Stdio::piped()).stdout(Stdio::piped()).spawn().map_err(text)?;
    let mut feed = child.stdin.take().expect("a pipe");
    let output = thread::scope(|scope| {
        scope.spawn(move || feed.write_all(input));
        child.wait_with_output().map_err(text)
    })?;
    if output.status.success() {
        Ok(output.stdout)
    } else {
        Err(format!("ended with {}", output.status))
    }
}

/// The first line that differs.
fn difference(due: &str, printed: &Result<Vec<u8>, String>) -> String {
    let printed = match printed {
        Ok(bytes) => String::from_utf8_lossy(bytes),
        Err(text) => return text.clone(),
    };
    let (mut left, mut right) = (due.split('\n'), printed.split('\n'));
    for line in 1.. {
        match (left.next(), right.next()) {
            (None, None) => break,
            (a, b) if a == b => {}
            (a, b) => return format!("line {line}: expected {a:?}, got {b:?}"),
        }
    }
    String::from("the bytes differ")
}

/// The digits of a word, damaged around a quarter.
fn word(random: &mut Random) -> Vec<u8> {
    let (q, m) = STRAP;
    let message = random.symbols(q, LENGTH);
    let count = cases::damage_count(random, 1 << m);
    cases::damaged(random, q, &message, count).iter().map(|symbol| symbol + b'0').collect()
}

/// One line without its newline: mostly a word, else a miss or any kind of bad line.
fn any_line(random: &mut Random) -> Vec<u8> {
    let mut line = word(random);
    let place = random.below(16);
    match random.below(20) {
        0 => return b"-".to_vec(),
        1 => return b"--".to_vec(),
        2 => line.clear(),
        3 => line.truncate(place),
        4 => line.extend(vec![b'0'; 1 + place]),
        5 => line[place] = random.next() as u8,
        6 => line[place] = random.pick(b"4/:9- \r\t\0"),
        7 => line.insert(place, random.pick(b"0 \r\0-")),
        8 => line.push(b'\r'),
        9 => line.insert(0, b' '),
        10 => line = random.bytes(place),
        11 if random.one_in(8) => line = random.bytes(3000 * place),
        _ => {}
    }
    line.retain(|&byte| byte != b'\n');
    line
}
