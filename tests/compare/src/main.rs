//! Compares the proved code, called through its exported functions, with a second implementation: the answer, the
//! session and every byte of the buffers, case by case; and what the program `session_list` prints with what a second
//! lister does. The seed is fixed.
//!
//! The last line is `compare: ok, N cases`; any mismatch is printed and ends the program with status 1.

mod bursts;
mod cases;
mod check;
mod codec;
mod examples;
mod groups;
mod interleave;
mod interleave_cases;
mod interleave_model;
mod lister;
mod listings;
mod model;
mod near;
mod near_cases;
mod session_model;
mod sessions;
mod soft;
mod soft_cases;
mod soft_model;
mod strap;
mod strap_model;
mod whole;

use std::process::ExitCode;

use bursts::Bursts;
use check::Report;
use codec::Codec;
use common::random::Random;
use groups::Groups;
use interleave::Interleave;
use listings::Listings;
use model::Model;
use near::Near;
use sessions::Sessions;
use soft::Soft;
use strap::Strap;
use whole::Whole;

const SEED: u64 = 0x5742_7d01_e5a1_9c33;
const RANDOM_ENCODES: u32 = 250_000;
const RANDOM_DECODES: u32 = 800_000;
const QUARTER_ROUNDS: u32 = 1000;
const NEAR_ROUNDS: u32 = 50;
const NEAR_READS: u32 = 500;
const RANDOM_NEARS: u32 = 200_000;
const GROUP_ROUNDS: u32 = 16;
const RANDOM_GROUPS: u32 = 200_000;
const BURSTS: u32 = 64;
const WHOLE_GROUPS: u32 = 8;
const RANDOM_OPENINGS: u32 = 5000;
const ANY_LISTS: u32 = 80_000;
const WHOLE_LISTS: u32 = 40;
const WHOLE_SLOTS: u32 = 64;
const LISTINGS: u32 = 300;
const SOFT_LINE: u32 = 30_000;
const SOFT_WORDS: u32 = 20_000;
const SOFT_RANDOM: u32 = 200_000;

fn main() -> ExitCode {
    let mut report = Report::default();
    let mut random = Random::new(SEED);
    let model = Model::new();
    words(&mut report, &mut random, &model);
    sessions(&mut report, &mut random, &model);
    listings(&mut report, &mut random, &model);
    soft(&mut report, &mut random);
    strap(&mut report, &mut random);
    near(&mut report, &mut random);
    groups(&mut report, &mut random, &model);
    finish(&report)
}

fn words(report: &mut Report, random: &mut Random, model: &Model) {
    let mut codec = Codec::new(model);
    println!("compare: the worked examples");
    examples::run(&mut codec, report);
    println!("compare: every message of the codes with at most {}", model::FEW_MESSAGES);
    codec.every_message(report);
    println!("compare: every word of the small codes");
    codec.every_word(report);
    println!("compare: damage up to a quarter");
    codec.up_to_the_quarter(report, random, QUARTER_ROUNDS);
    println!("compare: random cases, {RANDOM_ENCODES} encoded and {RANDOM_DECODES} decoded");
    codec.random(report, random, RANDOM_ENCODES, RANDOM_DECODES);
    codec.finish(report);
}

fn sessions(report: &mut Report, random: &mut Random, model: &Model) {
    let mut sessions = Sessions::new(model);
    let mut whole = Whole::new();
    println!("compare: openings, and {ANY_LISTS} lists of calls on any sessions");
    sessions.openings(report, random, RANDOM_OPENINGS);
    sessions.any_lists(report, random, ANY_LISTS);
    println!("compare: {WHOLE_LISTS} whole sessions of {WHOLE_SLOTS} slots in each code, and a full one");
    whole.lists(&mut sessions, report, random, WHOLE_LISTS, WHOLE_SLOTS);
    whole.full(&mut sessions, report, random);
    sessions.finish(report);
    whole.finish(report);
}

fn listings(report: &mut Report, random: &mut Random, model: &Model) {
    let mut listings = Listings::new(model);
    println!("compare: the session list");
    listings.edges(report);
    listings.random(report, random, LISTINGS);
    listings.full(report, random);
    listings.finish(report);
}

fn soft(report: &mut Report, random: &mut Random) {
    let mut soft = Soft::new();
    println!(
        "compare: soft samples on the edges and on the line, of {SOFT_WORDS} words, and {SOFT_RANDOM} random ones"
    );
    soft.edges(report);
    soft.near_the_line(report);
    soft.on_the_line(report, random, SOFT_LINE);
    soft.words(report, random, SOFT_WORDS);
    soft.random(report, random, SOFT_RANDOM);
    soft.finish(report);
}

fn strap(report: &mut Report, random: &mut Random) {
    let mut strap = Strap::new();
    println!("compare: every record and every message of the strap, and messages that are not sound");
    strap.example(report);
    strap.every_record(report, random);
    strap.every_message(report, random);
    strap.every_byte(report, random);
    strap.every_length(report, random);
    strap.finish(report);
}

fn near(report: &mut Report, random: &mut Random) {
    let mut near = Near::new();
    println!("compare: near, every message and every word of the codes with four places");
    near.every_word(report);
    println!(
        "compare: near around the quarter, beside decode, with every combination of faults, and {RANDOM_NEARS} random"
    );
    near.around_the_quarter(report, random, NEAR_ROUNDS);
    near.beside_decode(report, random, NEAR_READS);
    near.every_fault(report, random);
    near.random(report, random, RANDOM_NEARS);
    near.finish(report);
}

fn groups(report: &mut Report, random: &mut Random, model: &Model) {
    let mut interleave = Interleave::new();
    let mut bursts = Bursts::new();
    let mut groups = Groups::new();
    println!("compare: groups of every number of words, there and back, every small one, and where each symbol goes");
    interleave.every_group(report, random, GROUP_ROUNDS);
    interleave.every_place(report, random);
    println!("compare: groups with every count of words, with every combination of faults, and {RANDOM_GROUPS} random");
    interleave.every_number(report, random);
    interleave.every_fault(report, random);
    interleave.random(report, random, RANDOM_GROUPS);
    println!("compare: bursts from every place, {BURSTS} and {BURSTS} longer in groups of every number of words");
    bursts.every_start(&mut interleave, report, random);
    bursts.random(&mut interleave, report, random, BURSTS);
    println!("compare: whole sessions of {WHOLE_GROUPS} groups, of every number of words in each code");
    groups.lists(&mut Sessions::new(model), &mut interleave, report, random, WHOLE_GROUPS);
    interleave.finish(report);
    bursts.finish(report);
    groups.finish(report);
}

fn finish(report: &Report) -> ExitCode {
    if report.failures > 0 {
        println!("compare: failed, {} mismatches in {} cases", report.failures, report.cases);
        return ExitCode::FAILURE;
    }
    println!("compare: ok, {} cases", report.cases);
    ExitCode::SUCCESS
}
