//! The tables of times, as Markdown: what is measured, the ratios, and in words whether each bar holds.

use std::path::{Path, PathBuf};
use std::{env, fmt, fs};

use common::questions::{CODES, GREATEST_M, LEAST_M, STRAP};

use crate::inputs::{self, COUNT, DISTANCES, KINDS};
use crate::passes::{self, Pass};
use crate::{calls, processes, proved, timing};

/// The rows of a table are measured over and over, so many times in all, and the best times count: a load on the
/// machine comes and goes.
const MEASUREMENTS: usize = 256;
const ROUNDS: usize = 40;
const RUNS: usize = 200;

/// The places where a bar is missed are named where they are so few.
const NAMED: usize = 9;

/// The time of one call: the proved code's first, then those of the others.
pub type Times<const C: usize> = [f64; C];

/// How many times as fast the proved code is as another, with two digits, and where.
struct Ratio {
    value: f64,
    place: String,
}

impl Ratio {
    fn new(other: f64, proved: f64, place: &str) -> Ratio {
        Ratio { value: (100.0 * other / proved).round() / 100.0, place: String::from(place) }
    }
}

impl fmt::Display for Ratio {
    fn fmt(&self, f: &mut fmt::Formatter) -> fmt::Result {
        write!(f, "{:.2}", self.value)
    }
}

/// The best times of one call in each row, over all sweeps, and over those in the file of this name, which other builds
/// of this program have left there: how fast code runs depends on where the linker happens to put it, so several
/// layouts are measured.
fn sweep<R, const C: usize>(name: &str, rows: &[R], passes: impl Fn(&R) -> [Pass<'_>; C]) -> Vec<Times<C>> {
    let mut best = kept(name).unwrap_or_else(|| vec![[f64::MAX; C]; rows.len()]);
    for _ in 0..MEASUREMENTS / rows.len() {
        for (row, best) in rows.iter().zip(&mut best) {
            let times = timing::best(ROUNDS, passes(row));
            for (best, time) in best.iter_mut().zip(times) {
                *best = best.min(time / COUNT as f64);
            }
        }
    }
    keep(name, &best);
    best
}

/// Where the times of a table are kept: in the folder that BENCH_TIMES names, if it names one.
fn file(name: &str) -> Option<PathBuf> {
    let folder = env::var_os("BENCH_TIMES").filter(|folder| !folder.is_empty())?;
    Some(Path::new(&folder).join(name))
}

/// The times that an earlier build kept.
pub fn kept<const C: usize>(name: &str) -> Option<Vec<Times<C>>> {
    let text = fs::read_to_string(file(name)?).ok()?;
    let times = |line: &str| {
        let numbers: Vec<f64> = line.split(' ').map(|time| time.parse().expect("a time")).collect();
        numbers.try_into().expect("as many times as competitors")
    };
    Some(text.lines().map(times).collect())
}

fn keep<const C: usize>(name: &str, times: &[Times<C>]) {
    let line = |times: &Times<C>| times.map(|time| time.to_string()).join(" ") + "\n";
    if let Some(file) = file(name) {
        fs::write(file, times.iter().map(line).collect::<String>()).expect("the folder of times can be written to");
    }
}

fn head(titles: &[&str]) {
    println!("| {} |", titles.join(" | "));
    println!("|{}", "---:|".repeat(titles.len()));
}

fn row(cells: impl IntoIterator<Item = String>) {
    println!("| {} |", cells.into_iter().collect::<Vec<_>>().join(" | "));
}

/// The ratios to a competitor, in rows of a code and words that have a name.
fn ratios<I, const C: usize>(rows: &[(u32, u32, &str, I)], times: &[Times<C>], other: usize) -> Vec<Ratio> {
    let place = |q, m, name| format!("q {q}, m {m}, {name}");
    let each = rows.iter().zip(times);
    each.map(|((q, m, name, _), times)| Ratio::new(times[other], times[0], &place(q, m, name))).collect()
}

/// Names the least ratio.
fn least<'a>(what: &str, ratios: impl IntoIterator<Item = &'a Ratio>) {
    let least = ratios.into_iter().min_by(|x, y| x.value.total_cmp(&y.value)).expect("a ratio");
    println!("\nThe least ratio {what} is {least} ({}).", least.place);
}

/// Says whether each ratio reaches the bar, and where the others are.
fn verdict<'a>(bar: f64, what: &str, ratios: impl IntoIterator<Item = &'a Ratio>) {
    let ratios: Vec<&Ratio> = ratios.into_iter().collect();
    least(what, ratios.iter().copied());
    let missed: Vec<&str> = ratios.iter().filter(|ratio| ratio.value < bar).map(|ratio| ratio.place.as_str()).collect();
    let places = if missed.len() > NAMED { String::new() } else { format!(" ({})", missed.join("; ")) };
    if missed.is_empty() {
        println!("The bar, {bar:.2}, **holds**.");
    } else {
        println!("The bar, {bar:.2}, **does not hold**: it is missed in {} of {}{places}.", missed.len(), ratios.len());
    }
}

/// Decode: every code, with words of every kind.
pub fn decode() {
    let kinds = || KINDS.into_iter().zip(["clean", "lightly damaged", "doubtful"]);
    let rows: Vec<_> = CODES
        .into_iter()
        .flat_map(|(q, m)| kinds().map(move |(kind, name)| (q, m, name, inputs::words(q, m, kind))))
        .collect();
    let times = sweep("decode", &rows, |&(q, m, _, ref words)| {
        [
            passes::read(proved::decode, q, m, words),
            passes::read(calls::plain_read, q, m, words),
            passes::read(calls::safe_read_each, q, m, words),
            passes::read(calls::safe_read, q, m, words),
        ]
    });
    let [plain, best, one] = [1, 2, 3].map(|other| ratios(&rows, &times, other));
    let titles = ["ns, clean", "ns, light", "ns, doubtful"].map(|ns| [ns, "(a)", "(b)", "(c)"]);
    head(&[vec!["q", "m"], titles.concat()].concat());
    for (first, (q, m)) in (0..).step_by(KINDS.len()).zip(CODES) {
        let cells =
            |i: usize| [format!("{:.0}", times[i][0]), plain[i].to_string(), best[i].to_string(), one[i].to_string()];
        row([q, m].map(|x| x.to_string()).into_iter().chain((first..first + KINDS.len()).flat_map(cells)));
    }
    least("to (a)", &plain);
    let raised = |(q, m, ..): &(u32, u32, &str, Vec<Vec<u8>>)| *m == 8 || (*q, *m) == STRAP;
    least("to (c)", &one);
    verdict(1.0, "to (b) at any code", &best);
    let high = rows.iter().zip(&best).filter(|(row, _)| raised(row));
    verdict(1.6, "to (b) at q 4, m 4 and at m 8", high.map(|(_, ratio)| ratio));
}

/// Encode: every code.
pub fn encode() {
    let rows: Vec<_> = CODES.into_iter().map(|(q, m)| (q, m, inputs::messages(q, m))).collect();
    let times = sweep("encode", &rows, |&(q, m, ref messages)| {
        [
            passes::write(proved::encode, q, m, messages),
            passes::write(calls::plain_write, q, m, messages),
            passes::write(calls::safe_write_each, q, m, messages),
            passes::write(calls::safe_write, q, m, messages),
        ]
    });
    let ratios = |other: usize| -> Vec<Ratio> {
        let each = times.iter().zip(CODES);
        each.map(|(times, (q, m))| Ratio::new(times[other], times[0], &format!("q {q}, m {m}"))).collect()
    };
    let (plain, best, one) = (ratios(1), ratios(2), ratios(3));
    head(&["q", "m", "ns", "(a)", "(b)", "(c)"]);
    for (i, (q, m)) in CODES.into_iter().enumerate() {
        let cells = [&plain, &best, &one].map(|ratios| ratios[i].to_string());
        row([q.to_string(), m.to_string(), format!("{:.1}", times[i][0])].into_iter().chain(cells));
    }
    least("to (c)", &one);
    verdict(1.0, "to (b)", &best);
}

/// Near: every code, with words at every distance, beside decode of the same words.
pub fn near() {
    let distances = || DISTANCES.into_iter().zip(["clean", "everywhere", "just near"]);
    let rows: Vec<_> = CODES
        .into_iter()
        .flat_map(|(q, m)| distances().map(move |(distance, name)| (q, m, name, inputs::pairs(q, m, distance))))
        .collect();
    let times = sweep("near", &rows, |&(q, m, _, ref pairs)| {
        [
            passes::near(proved::near, q, m, pairs),
            passes::read(proved::decode, q, m, &pairs.words),
            passes::near(calls::plain_near, q, m, pairs),
            passes::near(calls::near_by_places, q, m, pairs),
            passes::near(calls::near_by_quarters, q, m, pairs),
        ]
    });
    let [decode, plain, places, quarters] = [1, 2, 3, 4].map(|other| ratios(&rows, &times, other));
    let titles = ["ns, clean", "ns, everywhere"].map(|ns| [ns, "decode", "(a)", "(b)", "(c)"]).concat();
    head(&[&["q", "m"], &titles[..], &["ns, just near", "decode", "(b)", "(c)"]].concat());
    for (first, (q, m)) in (0..).step_by(DISTANCES.len()).zip(CODES) {
        let cells = |i: usize, shown: &[&[Ratio]]| -> Vec<String> {
            [format!("{:.1}", times[i][0])]
                .into_iter()
                .chain(shown.iter().map(|ratios| ratios[i].to_string()))
                .collect()
        };
        let ends = [first, first + 1].map(|i| cells(i, &[&decode, &plain, &places, &quarters])).concat();
        let just = cells(first + 2, &[&decode, &places, &quarters]);
        row([vec![q.to_string(), m.to_string()], ends, just].concat());
    }
    near_words(&decode, &plain, &places, &quarters);
}

/// The ratios on the first two kinds of words, where every code has those on three.
fn at_ends(ratios: &[Ratio]) -> impl Iterator<Item = &Ratio> {
    ratios.chunks(DISTANCES.len()).flat_map(|code| &code[..2])
}

/// What the table of near says, in words.
fn near_words(decode: &[Ratio], plain: &[Ratio], places: &[Ratio], quarters: &[Ratio]) {
    let ends = "on words that are clean or differ everywhere";
    verdict(1.0, &format!("to decode {ends}"), at_ends(decode));
    verdict(1.0, &format!("to (b) {ends}"), at_ends(places));
    least(&format!("to (a) {ends}"), at_ends(plain));
    least(&format!("to (c) {ends}"), at_ends(quarters));
    for (name, ratios) in [("decode", decode), ("(b)", places), ("(c)", quarters)] {
        least(&format!("to {name} on words just near"), ratios.iter().skip(2).step_by(DISTANCES.len()));
    }
}

/// The groups that are timed, as (count of words, m): those that the bar is for, and a few of the rest.
const BARRED: [(u32, u32); 4] = [(2, 4), (4, 4), (16, 4), (16, 8)];
const OTHERS: [(u32, u32); 5] = [(1, 8), (3, 4), (8, 4), (16, 2), (7, 8)];

/// Interleave: rearranging groups of words and putting them back, q 4.
pub fn interleave() {
    let rows: Vec<_> = BARRED.into_iter().chain(OTHERS).map(|(w, m)| (w, m, inputs::groups(4, m, w))).collect();
    let forth = sweep("interleave", &rows, |&(w, m, ref groups)| {
        [
            passes::rearrange(proved::interleave, 4, m, w, groups),
            passes::rearrange(calls::plain_interleave, 4, m, w, groups),
            passes::rearrange(calls::safe_interleave, 4, m, w, groups),
        ]
    });
    let back = sweep("deinterleave", &rows, |&(w, m, ref groups)| {
        [
            passes::rearrange(proved::deinterleave, 4, m, w, groups),
            passes::rearrange(calls::plain_deinterleave, 4, m, w, groups),
            passes::rearrange(calls::safe_deinterleave, 4, m, w, groups),
        ]
    });
    let ratios = |other: usize| -> Vec<[Ratio; 2]> {
        let each = rows.iter().zip(forth.iter().zip(&back));
        each.map(|((w, m, _), (forth, back))| {
            [(forth, "rearranged"), (back, "put back")]
                .map(|(times, name)| Ratio::new(times[other], times[0], &format!("words {w}, m {m}, {name}")))
        })
        .collect()
    };
    let (plain, best) = (ratios(1), ratios(2));
    head(&["words", "m", "ns, rearranged", "(a)", "(b)", "ns, put back", "(a)", "(b)"]);
    for (i, (w, m, _)) in rows.iter().enumerate() {
        let cells = |side: usize, times: &Times<3>| {
            [format!("{:.1}", times[0]), plain[i][side].to_string(), best[i][side].to_string()]
        };
        row([vec![w.to_string(), m.to_string()], [cells(0, &forth[i]), cells(1, &back[i])].concat()].concat());
    }
    least("to (a)", plain.as_flattened());
    let (barred, others) = best.split_at(BARRED.len());
    verdict(1.0, "to (b) of 2, 4 and 16 words at m 4 and of 16 at m 8", barred.as_flattened());
    least("to (b) of the other groups", others.as_flattened());
}

/// One soft vote and the soft read: every m.
pub fn soft() {
    let rows: Vec<_> = (LEAST_M..=GREATEST_M).map(|m| (m, inputs::samples(m))).collect();
    let votes = sweep("votes", &rows, |&(m, ref samples)| {
        [passes::soft_vote(proved::soft_vote, m, samples), passes::soft_vote(calls::soft_vote, m, samples)]
    });
    let reads = sweep("reads", &rows, |&(m, ref samples)| {
        [passes::soft_read(proved::soft_read, m, samples), passes::soft_read(calls::soft_read, m, samples)]
    });
    let ratios = |times: &[Times<2>]| -> Vec<Ratio> {
        (LEAST_M..).zip(times).map(|(m, [proved, rust])| Ratio::new(*rust, *proved, &format!("m {m}"))).collect()
    };
    let (vote, read) = (ratios(&votes), ratios(&reads));
    head(&["m", "ns, vote", "vote", "ns, read", "read"]);
    for (i, (m, _)) in rows.iter().enumerate() {
        let ns = |times: &[Times<2>]| format!("{:.0}", times[i][0]);
        row([m.to_string(), ns(&votes), vote[i].to_string(), ns(&reads), read[i].to_string()]);
    }
    verdict(1.0, "of the soft vote", &vote);
    verdict(1.0, "of the soft read", &read);
}

/// The session list over a full session, as two processes, which must print the same.
pub fn list(proved: &Path, rust: &Path, session: &Path, nothing: &Path) -> Result<(), String> {
    let (text, rust_text) = (processes::output(proved, session)?, processes::output(rust, session)?);
    if text != rust_text || !text.ends_with(b"\nover\n") {
        return Err(String::from("the session list and its Rust counterpart print different lists of a full session"));
    }
    let whole = processes::best(RUNS, [proved, rust], session)?;
    let start = processes::best(RUNS, [proved, rust], nothing)?;
    let net = [whole[0] - start[0], whole[1] - start[1]];
    head(&["", "ms", "ratio"]);
    let ratios = [("whole process", whole), ("without start and end", net)].map(|(name, [proved, rust])| {
        let ratio = Ratio::new(rust, proved, name);
        row([String::from(name), format!("{:.1}", proved / 1e6), ratio.to_string()]);
        ratio
    });
    verdict(1.0, "of the list", &ratios);
    Ok(())
}
