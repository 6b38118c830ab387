//! Cases: what is asked of both implementations.

use mirokdeul::{Flow, REPLY_LEN, WORK_LEN};

use crate::dice::Dice;
use crate::value::{write, Style};
use crate::{damage, limits, loose, sites, stored, things};

/// One question to both.
#[derive(Clone, Debug)]
pub enum Case {
    /// Build a table; then ask it for some flows.
    Build(Build),
    /// Ask stored bytes for some flows.
    Verdict {
        /// The stored bytes.
        stored: Vec<u8>,
        /// The flows.
        flows: Vec<Flow>,
    },
}

/// What a build is given.
#[derive(Clone, Debug)]
pub struct Build {
    /// The kind of case, for a report.
    pub kind: &'static str,
    /// The MUD file.
    pub file: Vec<u8>,
    /// The site table.
    pub site: Vec<u8>,
    /// The length of the reply buffer.
    pub reply_len: usize,
    /// The length of the work buffer, in words.
    pub work_len: usize,
}

impl Case {
    /// The case that the dice give.
    pub fn any(dice: &mut Dice) -> Case {
        let case = match dice.below(100) {
            0..=13 => build("valid", any_style(things::thing(dice), dice), sites::site(dice)),
            14..=19 => build("edge", at_edge(dice), sites::site(dice)),
            20..=26 => build("loose", any_style(loose::thing(dice), dice), sites::site(dice)),
            27..=29 => build("header", any_style(loose::header(dice), dice), sites::site(dice)),
            30..=32 => build("lists", any_style(loose::lists(dice), dice), sites::site(dice)),
            33..=43 => build("structure", damaged_structure(dice), sites::site(dice)),
            44..=48 => build("bytes", damaged_bytes(dice), sites::site(dice)),
            49..=51 => build("grammar", damaged_grammar(dice), sites::site(dice)),
            52..=55 => build("surrogates", with_surrogates(dice), sites::site(dice)),
            56..=61 => pair("entries", limits::entries(dice)),
            62..=67 => pair("lines", limits::lines(dice)),
            68..=69 => pair("names", limits::names(dice)),
            70..=72 => build("length", limits::length(some_thing(dice), dice), some_site(dice)),
            73..=76 => build("depth", limits::depth(some_thing(dice), dice), sites::site(dice)),
            77..=83 => build("site", any_style(some_thing(dice), dice), sites::damaged(dice)),
            84..=85 => wrong_buffers(dice),
            _ => return verdicts(dice),
        };
        Case::Build(case)
    }
}

impl Case {
    /// The inputs, each with the name of a file for it.
    pub fn inputs(&self) -> Vec<(&'static str, Vec<u8>)> {
        match self {
            Case::Build(build) => vec![("thing.json", build.file.clone()), ("site.txt", build.site.clone())],
            Case::Verdict { stored, .. } => vec![("stored.bin", stored.clone())],
        }
    }
}

fn build(kind: &'static str, file: Vec<u8>, site: Vec<u8>) -> Build {
    Build { kind, file, site, reply_len: REPLY_LEN, work_len: WORK_LEN }
}

fn pair(kind: &'static str, (file, site): limits::Case) -> Build {
    build(kind, file, site)
}

fn any_style(file: crate::value::Value, dice: &mut Dice) -> Vec<u8> {
    write(&file, Style::any(dice), dice)
}

/// Mostly a good file, at times a damaged one.
fn some_thing(dice: &mut Dice) -> crate::value::Value {
    let mut file = things::thing(dice);
    if dice.chance(20) {
        damage::structure(&mut file, dice);
    }
    file
}

/// Mostly a good site table, at times a damaged one.
fn some_site(dice: &mut Dice) -> Vec<u8> {
    if dice.chance(15) {
        sites::damaged(dice)
    } else {
        sites::site(dice)
    }
}

fn at_edge(dice: &mut Dice) -> Vec<u8> {
    let mut file = things::small_thing(dice);
    damage::edge(&mut file, dice);
    any_style(file, dice)
}

fn damaged_structure(dice: &mut Dice) -> Vec<u8> {
    let mut file = things::thing(dice);
    damage::structure(&mut file, dice);
    any_style(file, dice)
}

fn damaged_bytes(dice: &mut Dice) -> Vec<u8> {
    let text = any_style(some_thing(dice), dice);
    damage::bytes(text, dice)
}

fn damaged_grammar(dice: &mut Dice) -> Vec<u8> {
    let mut file = some_thing(dice);
    damage::grammar(&mut file, dice);
    any_style(file, dice)
}

fn with_surrogates(dice: &mut Dice) -> Vec<u8> {
    let text = write(&some_thing(dice), Style { blanks: dice.one(&[0, 10]), escapes: 0 }, dice);
    damage::surrogates(text, dice)
}

/// Buffers of other lengths, with a file and a site table of any kind.
fn wrong_buffers(dice: &mut Dice) -> Build {
    let file = any_style(some_thing(dice), dice);
    let mut build = build("buffers", file, some_site(dice));
    if dice.chance(60) {
        build.reply_len = dice.one(&[0, 1, 72, 512, REPLY_LEN - 1, REPLY_LEN + 1, 2 * REPLY_LEN]);
    }
    if dice.chance(60) {
        build.work_len = dice.one(&[0, 1, 8, WORK_LEN - 1, WORK_LEN + 1, 2 * WORK_LEN]);
    }
    build
}

fn verdicts(dice: &mut Dice) -> Case {
    let stored = stored::stored(dice);
    let flows = (0..4).map(|_| stored::flow(&stored, dice)).collect();
    Case::Verdict { stored, flows }
}
