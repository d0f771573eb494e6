//! The Rust's answers as records, for the program `replay`, which holds the engine to them where the
//! source is not at hand. `crates/replay/README.md` says what the words of a record are.

use crate::analytic::{rust_answer, Answer, Classifier};
use crate::check::Left;
use crate::directions::{row_9, rust_of, Directions};
use crate::grids::{held_beside, mesh_row, row_5, rust_grid};
use crate::helpers::{conversion_by_fields, minimum_number_of};
use crate::islands;
use crate::marks::exchange;
use crate::meshes::{permutation, Flat, Lattice, Lists, FREQUENCIES};
use crate::operands::{each_exponent, special_numbers, Class, COMPARANDS, RADICANDS, TRIPLES};
use crate::pairs::{pair, side, FACTORS};
use crate::patterns::{Patterns, Random, SIGN};
use crate::queries::{self, Answers, Slices};
use crate::renumber::{self, State};
use crate::rows::{adjacency_row, by_hand, damage, Reason};
use crate::steps;
use crate::walk;
use crate::zeros::{self, first_of_both};
use icotable_oracle as rust;
use koshirga::{Built, Conversion, Located, Nearest, Vector3};
use std::path::Path;
use std::{fs, io};

/// Cases of a class of operands that are gone through, and how many of them one is taken.
const CLASS_CASES: usize = 110_000;
const CLASS_STEP: usize = 547;
/// Random patterns, and pairs of them.
const PATTERNS: usize = 2000;
/// The last frequencies whose lattices are written out, and whose grids are hashed.
const WHOLE_UP_TO: usize = 4;
const GRIDS_UP_TO: usize = 60;
/// Frequencies whose locators are asked, and the directions of each.
const LOCATORS: [usize; 5] = [1, 2, 3, 7, 20];
const DIRECTIONS: usize = 300;
/// Directions of each rare kind.
const RARE: usize = 5;
/// Random meshes, calls of the renumbering and grids: half of them are damaged.
const MESHES: usize = 300;
const RENUMBERINGS: usize = 200;
const GRIDS: usize = 200;
/// Directions of a random grid.
const QUERIES: usize = 6;
/// Drawn grids with zeros of both signs among the weights: so many for each sign that comes first.
const ZERO_GRIDS: usize = 5;
/// Meshes whose lists ascend, almost ascend or were sorted, and renumberings by the identity.
const ORDERED: usize = 60;
const IDENTITIES: usize = 6;
/// Frequencies whose lattices are packed, and random grids that are.
const PACKED: [usize; 5] = [1, 2, 3, 7, 20];
const PACKINGS: usize = 60;
/// Random meshes that are searched, half of them damaged, and the calls on each; the vertices of a path.
const SEARCHED: usize = 120;
const SEARCHES: usize = 8;
const PATH: usize = 40;
/// Lattices of frequency 1 side by side, and meshes of them; random meshes whose neighbours are mutual;
/// the walks over all islands of each mesh.
const SIDE_BY_SIDE: usize = 3;
const UNIONS: usize = 3;
const MUTUAL: usize = 60;
const WALKS: usize = 2;

/// What the wrong records are made of: the file of a right one, the record in it, and the word of its
/// answers that is changed, both counted from 0.
const WRONG: [(&str, usize, usize); 40] = [
    ("mul_add", 0, 0),
    ("sqrt", 0, 0),
    // The conversion, of a negative number and of a positive one.
    ("integral", 0, 2),
    ("integral", 3, 2),
    // What became of it.
    ("integral", 3, 3),
    ("total_order", 2, 0),
    ("face_choices", 0, 1),
    // The second weight.
    ("analytic_queries", 3, 5),
    // A coordinate: whole list of f64.
    ("lattices", 8, 20),
    // The hashes of positions and queue: f64 and u32.
    ("lattice_hashes", 2, 2),
    ("lattice_hashes", 2, 10),
    // The count of conversions held, at the first frequency that has one; the hash of the cell ids:
    // u16.
    ("grid_hashes", 36, 8),
    ("grid_hashes", 2, 10),
    // A vertex of the order: whole list of u32.
    ("meshes", 70, 9),
    // An entry: whole list of u16.
    ("renumberings", 0, 82),
    // The number of candidates of the fourth direction.
    ("grid_queries", 34, 44),
    // The minimum of +0 and the number next below zero.
    ("minimum_number", 3, 0),
    // The binary32 of 0.1.
    ("to_f32", 0, 0),
    // Of the grid of (1, 1, 1): where the cell ids begin, a cell start, a rounded coordinate.
    ("packings", 0, 3),
    ("packings", 0, 13),
    ("packings", 0, 40),
    // The hashes of words and floats: u32 and f32.
    ("packed_lattices", 0, 14),
    ("packed_lattices", 0, 15),
    // Of the third search, which is accepted: refusal, steps, entries read; the refusal of one that
    // finds no path.
    ("steps_between", 0, 8),
    ("steps_between", 0, 9),
    ("steps_between", 0, 10),
    ("steps_between", 0, 16),
    // Of the first list: refusal, count, the second vertex, the first place behind; of one that is
    // refused: a place.
    ("vertices_within", 0, 0),
    ("vertices_within", 0, 1),
    ("vertices_within", 0, 4),
    ("vertices_within", 0, 6),
    ("vertices_within", 0, 58),
    // Of the first walk over all islands: refusal, islands, entries read, a vertex of the order and of
    // the queue, the second island's start, the first place behind the starts; of one that is refused: a
    // place of the starts.
    ("walk_islands", 0, 0),
    ("walk_islands", 0, 1),
    ("walk_islands", 0, 2),
    ("walk_islands", 0, 6),
    ("walk_islands", 0, 12),
    ("walk_islands", 0, 17),
    ("walk_islands", 0, 19),
    ("walk_islands", 0, 38),
];
/// The same for the mark after a lattice, a reading and a renumbering: the file, and what becomes of
/// the mark. The shortest record of this kind is taken.
const WRONG_MARKS: [(&str, Marked); 4] = [
    ("lattices", refused(true)),
    ("lattice_hashes", accepted(false, true)),
    ("meshes", accepted(true, false)),
    ("renumberings", accepted(false, true)),
];
/// The same for the index of row 18: the file, and the call whose first index is changed.
const WRONG_INDICES: [(&str, &str); 10] = [
    ("meshes", READING),
    ("meshes", WALK),
    ("meshes", BUILDER),
    ("renumberings", RENUMBERING),
    ("grid_queries", NEAREST),
    ("grid_queries", LOCATION),
    ("packings", PACKING),
    ("steps_between", SEARCH),
    ("vertices_within", WITHIN),
    ("walk_islands", ISLANDS),
];
/// Files of which one record has +0 for −0 in its answers, where the clause tells the two apart: a
/// minimum, and a least weight that was +0 by document 01.
const WRONG_ZEROS: [&str; 2] = ["minimum_number", "grid_queries"];
/// The same for the locators: the side of the first record, and a weight on the grid.
const WRONG_LOCATORS: [(usize, usize); 2] = [(0, 2), (1, 19)];

/// The calls that read starts.
const READING: &str = "reading";
const WALK: &str = "walk";
const BUILDER: &str = "builder";
const RENUMBERING: &str = "renumbering";
const NEAREST: &str = "nearest";
const LOCATION: &str = "location";
const PACKING: &str = "packing";
const SEARCH: &str = "search";
const WITHIN: &str = "within";
const ISLANDS: &str = "islands";
/// The rows that have to refuse some call of a file.
const REACHED: [(&str, &[u32]); 7] = [
    ("meshes", &[2, 3, 17, 18, 4, 5, 8, 13]),
    ("renumberings", &[2, 3, 17, 18, 4, 6, 7, 8]),
    ("grid_queries", &[2, 3, 9, 18, 11, 4, 12]),
    ("packings", &[2, 19, 20, 3, 17, 18, 4, 5, 8]),
    ("steps_between", &[2, 3, 17, 18, 4, 14, 8, 15]),
    ("vertices_within", &[2, 3, 17, 18, 4, 14, 8]),
    ("walk_islands", &[2, 3, 17, 18, 4, 8]),
];

/// A call that is lent the mark: whether it is accepted, and the mark before and after it.
#[derive(Clone, Copy, PartialEq)]
struct Marked {
    accepted: bool,
    before: bool,
    after: bool,
}

const fn accepted(before: bool, after: bool) -> Marked {
    Marked {
        accepted: true,
        before,
        after,
    }
}

const fn refused(mark: bool) -> Marked {
    Marked {
        accepted: false,
        before: mark,
        after: mark,
    }
}

/// What has to become of the mark in some call of a file.
const MARKED: [(&str, &[Marked]); 4] = [
    (
        "lattices",
        &[
            accepted(false, true),
            accepted(true, true),
            refused(false),
            refused(true),
        ],
    ),
    (
        "lattice_hashes",
        &[accepted(false, true), accepted(true, true)],
    ),
    (
        "meshes",
        &[
            accepted(false, true),
            accepted(true, true),
            accepted(false, false),
            accepted(true, false),
            refused(false),
            refused(true),
        ],
    ),
    (
        "renumberings",
        &[
            accepted(false, true),
            accepted(true, true),
            refused(false),
            refused(true),
        ],
    ),
];

/// What stands in lent places before a call.
const F64_BEFORE: f64 = 1.5;
const F32_BEFORE: f32 = 1.5;
const U32_BEFORE: u32 = 0xdead_beef;
const U16_BEFORE: u16 = 0xbeef;

/// A record being written: its words and the places of those that are answers. Of calls that read
/// starts, the rows that refuse them, and which of the answers is the index that row 18 carries; of
/// the one that is lent the mark, what became of it, and which answer it is after the call; of a
/// renumbered mesh, how the Rust left its lists; of minima and locations, where zeros of both signs
/// have −0 as their least.
#[derive(Clone, Default)]
struct Record {
    words: Vec<String>,
    answers: Vec<usize>,
    answering: bool,
    rows: Vec<u32>,
    indices: Vec<(&'static str, usize)>,
    marked: Option<(Marked, usize)>,
    left: Left,
    zeros: Zeros,
}

/// By the zero that comes first, the places among the answers of leasts that are −0.
#[derive(Clone, Default)]
struct Zeros {
    positive_first: Vec<usize>,
    negative_first: Vec<usize>,
}

impl Record {
    /// The words from here on are inputs.
    fn call(mut self) -> Self {
        self.answering = false;
        self
    }

    /// The words from here on are answers.
    fn outcome(mut self) -> Self {
        self.answering = true;
        self
    }

    fn word(mut self, word: String) -> Self {
        if self.answering {
            self.answers.push(self.words.len());
        }
        self.words.push(word);
        self
    }

    fn number(self, number: impl Into<u64>) -> Self {
        self.word(format!("{:x}", number.into()))
    }

    fn length(self, length: usize) -> Self {
        self.number(length as u64)
    }

    /// Every NaN is the same word.
    fn double(self, x: f64) -> Self {
        if x.is_nan() {
            self.word("nan".to_string())
        } else {
            self.number(x.to_bits())
        }
    }

    fn numbers<T: Copy + Into<u64>>(self, list: &[T]) -> Self {
        list.iter().fold(self, |record, &x| record.number(x))
    }

    fn doubles(self, list: &[f64]) -> Self {
        list.iter().fold(self, |record, &x| record.double(x))
    }

    /// Each by its bit pattern. None is a NaN.
    fn floats(self, list: &[f32]) -> Self {
        list.iter()
            .fold(self, |record, x| record.number(x.to_bits()))
    }

    fn lengths(self, lengths: &[usize]) -> Self {
        lengths
            .iter()
            .fold(self.call(), |record, &length| record.length(length))
    }

    fn direction(self, v: Vector3) -> Self {
        self.call().doubles(&[v.x, v.y, v.z])
    }

    fn analytic(self, answer: &Answer) -> Self {
        let record = self.outcome();
        match answer {
            Ok((ids, w)) => record.number(0u32).numbers(ids).doubles(&[w.u, w.v, w.w]),
            Err(number) => record.number(*number).numbers(&[0u32; 6]),
        }
    }

    fn vertex(self, answer: Result<u32, u32>) -> Self {
        match answer {
            Ok(id) => self.outcome().number(0u32).number(id),
            Err(number) => self.outcome().number(number).number(0u32),
        }
    }

    /// The number of a refusal, 0 where there is none.
    fn refusal(mut self, row: Option<Reason>) -> Self {
        self.rows.extend(row.map(|reason| reason.number));
        self.number(row.map_or(0, |reason| reason.number))
    }

    /// The index of a refusal, 0 where it carries none.
    fn index(mut self, call: &'static str, row: Option<Reason>) -> Self {
        let index = row.and_then(|reason| reason.index);
        self.indices
            .extend(index.map(|_| (call, self.answers.len())));
        self.length(index.unwrap_or(0))
    }

    fn mark(self, lists_ascend: bool) -> Self {
        self.number(u32::from(lists_ascend))
    }

    /// The mark after a call.
    fn marked(mut self, marked: Marked) -> Self {
        self.marked = Some((marked, self.answers.len()));
        self.mark(marked.after)
    }

    /// The answer of a walk, with the entries read; the builder's begins so, with the side.
    fn counted(self, call: &'static str, answer: Result<u32, Reason>) -> Self {
        self.outcome()
            .refusal(answer.err())
            .number(answer.unwrap_or(0))
            .index(call, answer.err())
    }

    /// The answer of the builder.
    fn built(self, answer: Result<Built, Reason>) -> Self {
        self.counted(BUILDER, answer.map(|built| built.side))
            .number(answer.map_or(0, |built| built.held))
    }

    /// The answer of a packing.
    fn packed(self, answer: Result<[u32; 7], Reason>) -> Self {
        self.outcome()
            .refusal(answer.err())
            .numbers(&answer.unwrap_or_default())
            .index(PACKING, answer.err())
    }

    /// The answer of a search, steps and entries read; that of a walk over all islands has their number
    /// first.
    fn found(self, call: &'static str, answer: Result<[u32; 2], Reason>) -> Self {
        self.outcome()
            .refusal(answer.err())
            .numbers(&answer.unwrap_or_default())
            .index(call, answer.err())
    }

    fn answers(self, answers: &Answers) -> Self {
        let row = answers.nearest.as_ref().err().copied();
        let record = self.outcome().refusal(row);
        let nearest = match &answers.nearest {
            Ok(Nearest {
                id,
                candidates,
                distance,
            }) => record.numbers(&[*id, *candidates]).double(*distance),
            Err(_) => record.numbers(&[0u32; 3]),
        }
        .index(NEAREST, row);
        let row = answers.located.as_ref().err().copied();
        let record = nearest.refusal(row);
        match &answers.located {
            Ok(Located {
                triple,
                weights: w,
                least,
            }) => {
                let weights = [w.u, w.v, w.w];
                let record = record.numbers(triple).doubles(&weights);
                record.least(&weights, *least)
            }
            Err(_) => record.numbers(&[0u32; 7]),
        }
        .index(LOCATION, row)
    }

    /// The least of some numbers. Its place is kept where they hold zeros of both signs and it is one.
    fn least(mut self, numbers: &[f64], least: f64) -> Self {
        if let Some(first) = first_of_both(numbers).filter(|_| least == 0.0) {
            let places = match first.is_sign_negative() {
                true => &mut self.zeros.negative_first,
                false => &mut self.zeros.positive_first,
            };
            places.push(self.answers.len());
        }
        self.double(least)
    }

    /// The words of another record behind this one's.
    fn followed_by(mut self, other: Record) -> Self {
        let places = other.answers.iter().map(|place| self.words.len() + place);
        self.answers.extend(places);
        self.words.extend(other.words);
        self
    }

    fn has(&self, mark: Marked) -> bool {
        self.marked.is_some_and(|(marked, _)| marked == mark)
    }

    /// The record with one word of its answers changed in its last bit.
    fn wrong(&self, answer: usize) -> Self {
        let mut record = self.clone();
        let word = &mut record.words[self.answers[answer]];
        let number = u64::from_str_radix(word, 16).expect("a changed word is a number");
        *word = format!("{:x}", number ^ 1);
        record
    }

    /// The record with +0 for the first least that is −0 and stands behind +0.
    fn wrong_zero(&self) -> Option<Self> {
        let mut record = self.clone();
        let place = self.zeros.positive_first.first()?;
        record.words[self.answers[*place]] = "0".to_string();
        Some(record)
    }

    fn line(&self) -> String {
        self.words.join(" ")
    }
}

/// FNV-1a, 64 bits.
fn hash<const N: usize>(elements: impl Iterator<Item = [u8; N]>) -> u64 {
    elements
        .flatten()
        .fold(0xcbf2_9ce4_8422_2325, |hash, byte| {
            (hash ^ u64::from(byte)).wrapping_mul(0x100_0000_01b3)
        })
}

fn hash_f64s(list: &[f64]) -> u64 {
    hash(list.iter().map(|x| x.to_bits().to_le_bytes()))
}

fn hash_f32s(list: &[f32]) -> u64 {
    hash(list.iter().map(|x| x.to_bits().to_le_bytes()))
}

fn hash_u32s(list: &[u32]) -> u64 {
    hash(list.iter().map(|x| x.to_le_bytes()))
}

fn hash_u16s(list: &[u16]) -> u64 {
    hash(list.iter().map(|x| x.to_le_bytes()))
}

/// The records of a file.
type Records = Vec<Record>;

/// All files in the order in which the program reads them, written below a folder, with what the
/// program is to print.
pub fn write(folder: &Path) -> io::Result<()> {
    let mut files: Vec<(String, Records)> = [
        ("mul_add", mul_add as fn() -> Records),
        ("sqrt", sqrt),
        ("integral", integral),
        ("total_order", total_order),
        ("face_choices", face_choices),
        ("analytic_queries", analytic_queries),
        ("lattices", lattices),
        ("lattice_hashes", lattice_hashes),
        ("grid_hashes", grid_hashes),
        ("meshes", meshes),
        ("renumberings", renumberings),
        ("grid_queries", grid_queries),
        ("minimum_number", minimum_number),
        ("to_f32", to_f32),
        ("packings", packings),
        ("packed_lattices", packed_lattices),
        ("steps_between", steps_between),
        ("vertices_within", vertices_within),
        ("walk_islands", walk_islands),
    ]
    .map(|(name, records)| (name.to_string(), records()))
    .into();
    files.extend(LOCATORS.map(|frequency| (format!("locators_{frequency}"), locators(frequency))));
    for (name, rows) in REACHED {
        all_reached(name, right(&files, name).1, rows)?;
    }
    for (name, marks) in MARKED {
        all_marked(name, right(&files, name).1, marks)?;
    }
    for name in ["meshes", "renumberings"] {
        some_sorted(name, right(&files, name).1)?;
    }
    for name in WRONG_ZEROS {
        both_first(name, right(&files, name).1)?;
    }
    let mut printed = String::new();
    fs::create_dir_all(folder.join("data"))?;
    for (name, records) in &files {
        let text: String = records.iter().map(|record| record.line() + "\n").collect();
        fs::write(folder.join("data").join(name), &text)?;
        printed += &format!("{name}: {} records, 0 differences\n", records.len());
        println!("{name}: {} records, {} bytes", records.len(), text.len());
    }
    for (name, text) in [
        ("wrong_records", wrong_records(&files)),
        ("wrong_locators", wrong_locators(&files)),
    ] {
        let count = text.lines().count();
        fs::write(folder.join("data").join(name), &text)?;
        printed += &format!("{name}: {count} records, {count} noticed\n");
        println!("{name}: {count} records, {} bytes", text.len());
    }
    fs::write(folder.join("stdout"), printed)
}

/// Prints how often each row refuses. Never is an error.
fn all_reached(name: &str, records: &Records, rows: &[u32]) -> io::Result<()> {
    let mut counts = Vec::new();
    for row in rows {
        let refusing = records.iter().flat_map(|record| &record.rows);
        let count = refusing.filter(|&number| number == row).count();
        if count == 0 {
            let message = format!("no call of {name} is refused by row {row}");
            return Err(io::Error::other(message));
        }
        counts.push(format!("{count} by row {row}"));
    }
    println!("{name}: calls refused: {}", counts.join(", "));
    Ok(())
}

/// Prints how often the mark went so. Never is an error.
fn all_marked(name: &str, records: &Records, marks: &[Marked]) -> io::Result<()> {
    let mut counts = Vec::new();
    for mark in marks {
        let count = records.iter().filter(|record| record.has(*mark)).count();
        let (before, after) = (mark.before, mark.after);
        let call = if mark.accepted { "accepted" } else { "refused" };
        if count == 0 {
            let message = format!("no {call} call of {name} has the mark {before}, then {after}");
            return Err(io::Error::other(message));
        }
        counts.push(format!("{count} {call}: {before}, then {after}"));
    }
    println!("{name}: mark before and after: {}", counts.join("; "));
    Ok(())
}

/// Prints how many lists the Rust's renumberings left, and how many of them were out of order before
/// they were sorted. None is an error.
fn some_sorted(name: &str, records: &Records) -> io::Result<()> {
    let sum = |of: fn(&Left) -> u64| -> u64 { records.iter().map(|record| of(&record.left)).sum() };
    let lists = sum(|left| left.lists);
    let out_of_order = sum(|left| left.out_of_order);
    let with_repeats = sum(|left| left.with_repeats);
    if out_of_order == 0 || with_repeats == 0 {
        let message = format!("no list of {name} was out of order, or none with a repeat");
        return Err(io::Error::other(message));
    }
    println!("{name}: the Rust's renumberings left {lists} lists, {out_of_order} of them out of order, then sorted, {with_repeats} of these with a repeat");
    Ok(())
}

/// Prints how many leasts of zeros of both signs there are, by the zero that comes first. None of one
/// kind is an error.
fn both_first(name: &str, records: &Records) -> io::Result<()> {
    let sum =
        |of: fn(&Zeros) -> usize| -> usize { records.iter().map(|record| of(&record.zeros)).sum() };
    let positive = sum(|zeros| zeros.positive_first.len());
    let negative = sum(|zeros| zeros.negative_first.len());
    if positive == 0 || negative == 0 {
        let message = format!("no least of {name} is -0 behind +0, or none is -0 before +0");
        return Err(io::Error::other(message));
    }
    println!(
        "{name}: leasts of zeros of both signs: {positive} with +0 first, {negative} with -0 first"
    );
    Ok(())
}

/// The number of a file in the program's order, and its records.
fn right<'a>(files: &'a [(String, Records)], name: &str) -> (usize, &'a Records) {
    let at = files.iter().position(|(file, _)| file == name);
    let number = at.expect("a file of right records");
    (number, &files[number].1)
}

/// Lines that are wrong on purpose, each behind the number of its kind.
fn wrong_records(files: &[(String, Records)]) -> String {
    let mut lines: Vec<String> = WRONG
        .iter()
        .map(|&(name, at, answer)| {
            let (kind, records) = right(files, name);
            format!("{kind:x} {}", records[at].wrong(answer).line())
        })
        .collect();
    lines.extend(WRONG_MARKS.map(|(name, mark)| {
        let (kind, records) = right(files, name);
        let of_kind = records.iter().filter(|record| record.has(mark));
        let shortest = of_kind.min_by_key(|record| record.line().len());
        let wrong = shortest.and_then(|record| Some(record.wrong(record.marked?.1)));
        let wrong = wrong.expect("a call with this mark");
        format!("{kind:x} {}", wrong.line())
    }));
    lines.extend(WRONG_INDICES.map(|(name, call)| {
        let (kind, records) = right(files, name);
        let wrong = records.iter().find_map(|record| {
            let mut indices = record.indices.iter();
            let (_, answer) = indices.find(|(of, _)| *of == call)?;
            Some(record.wrong(*answer))
        });
        let wrong = wrong.expect("a call that row 18 refuses");
        format!("{kind:x} {}", wrong.line())
    }));
    lines.extend(WRONG_ZEROS.map(|name| {
        let (kind, records) = right(files, name);
        let wrong = records.iter().filter_map(Record::wrong_zero);
        let shortest = wrong.min_by_key(|record| record.line().len());
        let shortest = shortest.expect("a least that is -0 behind +0");
        format!("{kind:x} {}", shortest.line())
    }));
    // A word too many; one too few, and as it was 0 no other rule sees that; an upper-case digit; no
    // line feed at the end.
    let (kind, roots) = right(files, "sqrt");
    let record = roots[0].line();
    let (x, root) = record.split_once(' ').expect("two words");
    let upper_case = root.replacen('e', "E", 1);
    assert_ne!(root, upper_case, "the root has a digit e");
    for wrong in [
        format!("{x} {root} 0"),
        "0".to_string(),
        format!("{x} {upper_case}"),
        format!("{x} {root}"),
    ] {
        lines.push(format!("{kind:x} {wrong}"));
    }
    lines.join("\n")
}

/// A file of the locators' form, with every line wrong on purpose.
fn wrong_locators(files: &[(String, Records)]) -> String {
    let (_, records) = right(files, "locators_1");
    WRONG_LOCATORS
        .iter()
        .map(|&(at, answer)| records[at].wrong(answer).line() + "\n")
        .collect()
}

/// Cases from all over each class.
fn operands<const N: usize>(classes: &[Class<N>]) -> Vec<[f64; N]> {
    let mut taken = Vec::new();
    for class in classes {
        let mut at = 0;
        class.each(CLASS_CASES.min(class.count), |operands| {
            if at % CLASS_STEP == 0 {
                taken.push(operands);
            }
            at += 1;
        });
    }
    taken
}

fn mul_add() -> Records {
    operands(TRIPLES)
        .into_iter()
        .map(|[a, b, c]| {
            Record::default()
                .doubles(&[a, b, c])
                .outcome()
                .double(a.mul_add(b, c))
        })
        .collect()
}

/// Cases from all over each class: random numbers, subnormals, squares and their neighbours, roots
/// next to halfway, as none is halfway. Then the special numbers, the least and the greatest among
/// them, and every exponent.
fn sqrt() -> Records {
    operands(RADICANDS)
        .into_iter()
        .map(|[x]| x)
        .chain(special_numbers())
        .chain(each_exponent())
        .map(|x| Record::default().double(x).outcome().double(x.sqrt()))
        .collect()
}

/// Without signs: zero, ends of the ranges, 0.5, 1 and the next double, 2^53, infinity.
const MAGNITUDES: [u64; 10] = [
    0x0000_0000_0000_0000,
    0x0000_0000_0000_0001,
    0x000f_ffff_ffff_ffff,
    0x0010_0000_0000_0000,
    0x3fe0_0000_0000_0000,
    0x3ff0_0000_0000_0000,
    0x3ff0_0000_0000_0001,
    0x4340_0000_0000_0000,
    0x7fef_ffff_ffff_ffff,
    0x7ff0_0000_0000_0000,
];

/// All pairs of twenty numbers and a NaN, then cases from all over each class. The minimum is read
/// from the clause, as Rust's own leaves the sign of a zero open.
fn minimum_number() -> Records {
    let numbers = MAGNITUDES.iter().flat_map(|&bits| [bits, bits | SIGN]);
    let of_pairs: Vec<f64> = numbers.map(f64::from_bits).chain([f64::NAN]).collect();
    let pairs = of_pairs
        .iter()
        .flat_map(|&x| of_pairs.iter().map(move |&y| [x, y]));
    pairs
        .chain(operands(COMPARANDS))
        .map(|[x, y]| {
            Record::default()
                .doubles(&[x, y])
                .outcome()
                .least(&[x, y], minimum_number_of(x, y))
        })
        .collect()
}

/// The least normal binary32 and the greatest finite one; and 2^128 − 2^103, from which on a double
/// gives an infinity (IEEE 754-2019, 4.3.1).
const LEAST_NORMAL_FLOAT: f64 = f32::MIN_POSITIVE as f64;
const GREATEST_FLOAT: f64 = f32::MAX as f64;
const FIRST_INFINITE: u64 = 0x47ef_ffff_f000_0000;

/// Without signs: plain numbers and ties; both ends of the finite binary32, of its subnormal ones and
/// of what gives zero, with the doubles beside them; zero, both ends of the doubles, and an infinity.
fn converted_by_hand() -> Vec<f64> {
    let beside = |x: f64| [x.next_down(), x, x.next_up()];
    let half_of_least = 2f64.powi(-150);
    let ends = [
        half_of_least,
        3.0 * half_of_least,
        LEAST_NORMAL_FLOAT,
        LEAST_NORMAL_FLOAT - half_of_least,
        LEAST_NORMAL_FLOAT - 2.0 * half_of_least,
        GREATEST_FLOAT,
        f64::from_bits(FIRST_INFINITE),
        2f64.powi(128),
    ];
    let plain = [
        0.1,
        1.0,
        1.0 + 2f64.powi(-24),
        1.0 + 3.0 * 2f64.powi(-24),
        2f64.powi(-151),
    ];
    let of_doubles = [
        0.0,
        f64::from_bits(1),
        f64::MIN_POSITIVE,
        f64::MAX,
        f64::INFINITY,
    ];
    [&plain[..], &ends.map(beside).concat(), &of_doubles].concat()
}

/// Of a binary32 that is not negative and has a finite next one: halfway to that; and the double before
/// this tie, the double behind it, or the binary32 itself, in turn.
fn beside_a_tie(at: usize, bits: u32) -> [f64; 2] {
    let value = f64::from(f32::from_bits(bits));
    let tie = 0.5 * (value + f64::from(f32::from_bits(bits + 1)));
    [tie, [tie.next_down(), tie.next_up(), value][at % 3]]
}

/// Numbers by hand with both signs, and a NaN; in every exponent of binary32 two ties, behind an even
/// significand and behind an odd one, with a double beside each; random patterns.
fn to_f32() -> Records {
    let mut random = Random::new(111);
    let mut ties = Vec::new();
    for field in 0..255u32 {
        for parity in [0, 1] {
            let at = (2 * field + parity) as usize;
            // The greatest fraction is left out: an infinity may stand behind it.
            let fraction = random.below((1 << 22) - 1) as u32 * 2 + parity;
            let sign = if random.below(2) == 0 { 1.0 } else { -1.0 };
            ties.extend(beside_a_tie(at, field << 23 | fraction).map(|x| sign * x));
        }
    }
    let mut patterns = Patterns::new(112);
    let by_hand = converted_by_hand().into_iter().flat_map(|x| [x, -x]);
    by_hand
        .chain([f64::NAN])
        .chain(ties)
        .chain((0..PATTERNS / 10).map(|_| f64::from_bits(patterns.random())))
        .map(|x| {
            let record = Record::default().double(x).outcome();
            let converted = x as f32;
            if converted.is_nan() {
                record.double(f64::NAN)
            } else {
                record.floats(&[converted])
            }
        })
        .collect()
}

/// The header's numbers.
fn conversion_code(how: Conversion) -> u32 {
    match how {
        Conversion::Kept => 0,
        Conversion::Cut => 1,
        Conversion::Held => 2,
        Conversion::NotANumber => 3,
    }
}

fn integral() -> Records {
    let mut patterns = Patterns::new(101);
    let record = |bits| {
        let x = f64::from_bits(bits);
        Record::default()
            .double(x)
            .outcome()
            .doubles(&[x.floor(), x.ceil()])
            .number(x as i64 as u64)
            .number(conversion_code(conversion_by_fields(bits)))
    };
    (0..PATTERNS).map(|_| record(patterns.random())).collect()
}

fn total_order() -> Records {
    let mut patterns = Patterns::new(102);
    let record = |x: u64, y: u64| {
        let order = f64::from_bits(x).total_cmp(&f64::from_bits(y));
        Record::default()
            .numbers(&[x, y])
            .outcome()
            .number((order as i8 + 1) as u64)
    };
    (0..PATTERNS)
        .map(|_| {
            let bits = patterns.random();
            record(bits, patterns.beside(bits))
        })
        .collect()
}

/// All 64 cases.
fn face_choices() -> Records {
    (0..64u64)
        .map(|case| {
            let bits = [5, 4, 3, 2, 1, 0].map(|place| case >> place & 1);
            let [i, j, k, first, second, third] = bits.map(|bit| bit as usize);
            let line = rust::FACE_MAPPING[i][j][k];
            let face = line.get(first + 2 * second + 3 * third);
            Record::default()
                .numbers(&bits)
                .vertex(face.map(|&face| face as u32).ok_or(10))
        })
        .collect()
}

/// Rows 1, 8, 9 and 4, and tables that none of them refuses.
fn analytic_queries() -> Records {
    let mut records = Records::new();
    let mut record = |n: u32, ids: &[u16], v: Vector3, answer: Answer, nearest| {
        let query = Record::default().number(n).length(ids.len()).numbers(ids);
        records.push(query.direction(v).analytic(&answer).vertex(nearest));
    };
    let direction = Vector3::new(0.25, -0.5, 1.0);
    for n in [0, 81, u32::MAX] {
        record(n, &[], Vector3::ZERO, Err(1), Err(1));
    }
    for frequency in 1..=2 {
        let n = frequency as u32;
        let ids = Lattice::new(frequency).ids;
        let oracle = rust::AnalyticLattice::new(frequency);
        let (triple, [u, v, w]) = oracle.locate(&rust_of(direction));
        let nearest = oracle.find_nearest_vertex(&rust_of(direction));
        let foreign = 10 * n * n + 2;
        let is_read = |id: u16| triple.contains(&usize::from(id));
        // An id is tested where it is read, and nowhere else.
        let tables: [&dyn Fn(u16) -> u16; 5] = [
            &|id| id,
            &|_| foreign as u16 - 1,
            &|_| foreign as u16,
            &|id| if is_read(id) { foreign as u16 } else { id },
            &|id| if is_read(id) { id } else { foreign as u16 },
        ];
        for table in tables {
            let of = |id: usize| u32::from(table(id as u16));
            let mut lent: Vec<u16> = ids.iter().map(|&id| table(id)).collect();
            let (answer, nearest) = if triple.iter().any(|&id| of(id) >= foreign) {
                (Err(4), Err(4))
            } else {
                let weights = koshirga::Weights { u, v, w };
                (Ok((triple.map(of), weights)), Ok(of(nearest)))
            };
            record(n, &lent, direction, answer, nearest);
            record(n, &lent, Vector3::ZERO, Err(9), Err(9));
            record(n, &lent[1..], direction, Err(8), Err(8));
            lent.extend([u16::MAX; 3]);
            record(n, &lent, direction, answer, nearest);
        }
        record(n, &[], Vector3::ZERO, Err(8), Err(8));
    }
    records
}

/// `list` written from the front of so many places.
fn over<T: Copy>(before: T, places: usize, list: &[T]) -> Vec<T> {
    let surplus = vec![before; places - list.len()];
    [list, &surplus].concat()
}

fn needed(mesh: &Flat, ids: &[u16]) -> [usize; 4] {
    [
        mesh.positions.len(),
        mesh.starts.len(),
        mesh.entries.len(),
        ids.len(),
    ]
}

/// Slices exactly as long as the lattice, longer, and too short; and frequencies that row 1 refuses.
/// Then the walk of what stands in the slices.
fn lattices() -> Records {
    let mut random = Random::new(107);
    let mut records = Records::new();
    let mut record = |n: u32, places: [usize; 4], answer: Result<&Lattice, u32>| {
        // Two records with each value in turn.
        let before = records.len() % 4 > 1;
        let (mesh, ids) = match answer {
            Ok(lattice) => (lattice.lists.flat(), &lattice.ids[..]),
            Err(_) => (Flat::default(), &[][..]),
        };
        let after = Flat {
            positions: over(F64_BEFORE, places[0], &mesh.positions),
            starts: over(U32_BEFORE, places[1], &mesh.starts),
            entries: over(U16_BEFORE, places[2], &mesh.entries),
        };
        let call = Record::default()
            .number(n)
            .lengths(&places)
            .mark(before)
            .outcome()
            .number(answer.err().unwrap_or(0))
            .marked(match answer {
                Ok(_) => accepted(before, true),
                Err(_) => refused(before),
            });
        let left = mesh_words(call, &after).numbers(&over(U16_BEFORE, places[3], ids));
        records.push(walk_words(&mut random, left, &after));
    };
    for n in [0, 81, 82, u32::MAX] {
        record(n, [50; 4], Err(1));
        record(n, [0; 4], Err(1));
    }
    for frequency in 1..=WHOLE_UP_TO {
        let n = frequency as u32;
        let lattice = Lattice::new(frequency);
        let exact = needed(&lattice.lists.flat(), &lattice.ids);
        for surplus in [[0; 4], [1, 2, 3, 4], [0, 0, 0, 5]] {
            record(n, [0, 1, 2, 3].map(|i| exact[i] + surplus[i]), Ok(&lattice));
        }
        if frequency <= 2 {
            for short in 0..4 {
                let mut places = exact;
                places[short] -= 1;
                record(n, places, Err(8));
            }
        }
        record(n, [0; 4], Err(8));
    }
    records
}

/// With the mark before the call, where it is recorded.
fn lattice_hash(frequency: usize, lattice: &Lattice, before: Option<bool>) -> Record {
    let mesh = lattice.lists.flat();
    let head = Record::default()
        .length(frequency)
        .lengths(&needed(&mesh, &lattice.ids));
    let answered = match before {
        Some(before) => head
            .mark(before)
            .outcome()
            .number(0u32)
            .marked(accepted(before, true)),
        None => head.outcome().number(0u32),
    };
    answered
        .number(hash_f64s(&mesh.positions))
        .number(hash_u32s(&mesh.starts))
        .number(hash_u16s(&mesh.entries))
        .number(hash_u16s(&lattice.ids))
}

/// All 80 lattices and their walks.
fn lattice_hashes() -> Records {
    FREQUENCIES
        .map(|frequency| {
            let lattice = Lattice::new(frequency);
            let count = lattice.lists.vertices.len();
            let (walk, order, queue) = walk::rust_outcome(&lattice.lists.neighbors, count, count);
            lattice_hash(frequency, &lattice, Some(frequency % 2 == 0))
                .lengths(&[count, count])
                .counted(WALK, walk)
                .number(hash_u32s(&order))
                .number(hash_u32s(&queue))
        })
        .collect()
}

fn grid_lengths(grid: &Slices) -> [usize; 4] {
    [
        grid.cell_starts.len(),
        grid.cell_ids.len(),
        grid.triangle_starts.len(),
        grid.triples.len(),
    ]
}

/// The Rust's side, and the count worked out beside it.
fn built_beside(grid: &Slices) -> Built {
    let side = grid.side;
    let held = held_beside(&grid.positions, side);
    Built { side, held }
}

fn grid_hashes() -> Records {
    (1..=GRIDS_UP_TO)
        .map(|frequency| {
            let lattice = Lattice::new(frequency);
            let grid = rust_grid(&lattice.lists);
            lattice_hash(frequency, &lattice, None)
                .lengths(&grid_lengths(&grid))
                .built(Ok(built_beside(&grid)))
                .number(hash_u32s(&grid.cell_starts))
                .number(hash_u16s(&grid.cell_ids))
                .number(hash_u32s(&grid.triangle_starts))
                .number(hash_u16s(&grid.triples))
        })
        .collect()
}

/// A random mesh of few vertices and entries.
fn small(random: &mut Random, vertices: usize, entries: usize) -> Lists {
    loop {
        let lists = Lists::random(random);
        let size: usize = lists.neighbors.iter().map(Vec::len).sum();
        if lists.vertices.len() <= vertices && size <= entries {
            return lists;
        }
    }
}

fn mesh_words(record: Record, mesh: &Flat) -> Record {
    record
        .doubles(&mesh.positions)
        .numbers(&mesh.starts)
        .numbers(&mesh.entries)
}

/// The reading of the lists, walk and grid of random meshes, of meshes in order, and of the starts by
/// hand. Places are as many as are filled, or some more, or one less.
fn meshes() -> Records {
    let mut random = Random::new(103);
    let mut records = Records::new();
    for at in 0..MESHES {
        let mut mesh = small(&mut random, 14, 90).flat();
        if at % 2 == 1 {
            for _ in 0..random.below(3) {
                damage(&mut random, &mut mesh);
            }
            if random.below(4) == 0 && !mesh.positions.is_empty() {
                let at = random.below(mesh.positions.len() as u64) as usize;
                mesh.positions[at] = [f64::NAN, f64::INFINITY, 1e7, -2e6][random.below(4) as usize];
            }
        }
        records.push(mesh_record(&mut random, &mesh, at % 4 > 1));
    }
    records.extend(ordered_meshes());
    let by_hand = by_hand().enumerate();
    records.extend(by_hand.map(|(at, (mesh, _))| mesh_record(&mut random, &mesh, at % 2 == 1)));
    records
}

/// In turn a mesh whose lists ascend, one with two entries exchanged, and one that the Rust
/// renumbered, its lists then sorted.
fn ordered_meshes() -> Records {
    let mut random = Random::new(108);
    let mut ordered = |at: usize| {
        let mut lists = small(&mut random, 14, 90);
        let count = lists.vertices.len();
        if at % 3 < 2 {
            lists.sort();
        }
        if at % 3 == 1 {
            exchange(&mut random, &mut lists);
        }
        let mut mesh = lists.flat();
        let mut left = Left::default();
        if at % 3 == 2 {
            let order = permutation(&mut random, count);
            let start = State {
                mesh,
                lists_ascend: false,
                values: Vec::new(),
            };
            let rust = renumber::rust_renumbered(&mut left, &start, &order, 1);
            mesh = rust.state.mesh;
        }
        Record {
            left,
            ..mesh_record(&mut random, &mesh, at % 2 == 1)
        }
    };
    (0..ORDERED).map(&mut ordered).collect()
}

/// With the mark before the lists are read.
fn mesh_record(random: &mut Random, mesh: &Flat, before: bool) -> Record {
    let head = Record::default().lengths(&needed(mesh, &[])[..3]);
    let read = reading_words(mesh_words(head, mesh), mesh, before);
    let record = walk_words(random, read, mesh);
    grid_words(random, record, mesh)
}

/// The mark by Rust's own `is_sorted`.
fn reading_words(record: Record, mesh: &Flat, before: bool) -> Record {
    let row = adjacency_row(mesh);
    let marked = match row {
        Some(_) => refused(before),
        None => accepted(before, mesh.lists().ascend()),
    };
    record
        .call()
        .mark(before)
        .outcome()
        .refusal(row)
        .index(READING, row)
        .marked(marked)
}

/// So many places, or up to two more, or one less.
fn about(random: &mut Random, places: usize) -> usize {
    (places + [0, 0, 0, 1, 2, 1, 0, 0][random.below(8) as usize])
        .saturating_sub(usize::from(random.below(8) == 0))
}

fn walk_words(random: &mut Random, record: Record, mesh: &Flat) -> Record {
    let places = [0; 2].map(|_| about(random, mesh.count()));
    let short = places.iter().any(|&length| length < mesh.count());
    let row = adjacency_row(mesh).or(short.then_some(Reason::row(8)));
    let (answer, order, queue) = match row {
        Some(reason) => walk::refused(reason, places[0], places[1]),
        None => walk::rust_outcome(&mesh.lists().neighbors, places[0], places[1]),
    };
    record
        .lengths(&places)
        .counted(WALK, answer)
        .numbers(&order)
        .numbers(&queue)
}

fn grid_words(random: &mut Random, record: Record, mesh: &Flat) -> Record {
    let row = mesh_row(mesh);
    let grid = row.is_none().then(|| rust_grid(&mesh.lists()));
    let exact = grid.as_ref().map_or([20; 4], grid_lengths);
    let places = exact.map(|length| about(random, length));
    let short = (0..4).any(|i| places[i] < exact[i]);
    let row = row.or(short.then_some(Reason::row(8)));
    let written = grid.filter(|_| row.is_none());
    let built = written
        .as_ref()
        .map_or(Built { side: 0, held: 0 }, built_beside);
    let [a, b, c, d] = places;
    record
        .lengths(&places)
        .built(row.map_or(Ok(built), Err))
        .numbers(&over(
            U32_BEFORE,
            a,
            written.as_ref().map_or(&[], |grid| &grid.cell_starts),
        ))
        .numbers(&over(
            U16_BEFORE,
            b,
            written.as_ref().map_or(&[], |grid| &grid.cell_ids),
        ))
        .numbers(&over(
            U32_BEFORE,
            c,
            written.as_ref().map_or(&[], |grid| &grid.triangle_starts),
        ))
        .numbers(&over(
            U16_BEFORE,
            d,
            written.as_ref().map_or(&[], |grid| &grid.triples),
        ))
}

/// Lattices by their walks and reversed, with one value a vertex and one a pair; random permutations
/// of random meshes with data of any length; rows 2, 3, 17, 18, 4, 6, 7 and 8; the identity on lists
/// out of order; the starts by hand.
fn renumberings() -> Records {
    let mut records = Records::new();
    for (frequency, pairs) in [(1, false), (1, true), (2, false)] {
        let lists = Lattice::new(frequency).lists;
        let mesh = lists.flat();
        let count = mesh.count();
        let each = if pairs { count } else { 1 };
        let walk = rust::bfs_vertex_permutation(&lists.neighbors);
        for order in [walk, (0..count).rev().collect()] {
            let state = State {
                values: numbered(count * each + 3),
                lists_ascend: records.len() % 2 == 1,
                mesh: mesh.clone(),
            };
            let ids: Vec<u32> = order.iter().map(|&id| id as u32).collect();
            let places = [state.longest(&ids); 5];
            records.push(renumbering(&state, &ids, each, places));
        }
    }
    let mut random = Random::new(104);
    for at in 0..RENUMBERINGS {
        records.push(random_renumbering(&mut random, at % 2 == 1, at % 4 > 1));
    }
    let mut random = Random::new(109);
    let out_of_order = (0..IDENTITIES).map(|_| loop {
        let lists = small(&mut random, 8, 60);
        if !lists.ascend() {
            return lists.flat();
        }
    });
    let meshes: Vec<Flat> = out_of_order
        .chain(by_hand().map(|(mesh, _)| mesh))
        .collect();
    records.extend(meshes.into_iter().enumerate().map(|(at, mesh)| {
        let ids: Vec<u32> = (0..mesh.count() as u32).collect();
        let state = State {
            values: numbered(ids.len()),
            lists_ascend: at % 2 == 1,
            mesh,
        };
        renumbering(&state, &ids, 1, [state.longest(&ids); 5])
    }));
    records
}

/// Different values.
fn numbered(length: usize) -> Vec<f64> {
    (0..length).map(|at| at as f64 - 2.0).collect()
}

fn random_renumbering(random: &mut Random, damaged: bool, lists_ascend: bool) -> Record {
    let mut mesh = small(random, 8, 60).flat();
    let count = mesh.count();
    let mut each = [1, count][random.below(2) as usize];
    let slab = count * each;
    let length = random.below(3) as usize * slab + random.below(slab as u64 + 2) as usize;
    let mut ids: Vec<u32> = permutation(random, count)
        .into_iter()
        .map(|id| id as u32)
        .collect();
    if damaged {
        match random.below(6) {
            0 | 1 => damage(random, &mut mesh),
            2 => drop(ids.pop()),
            3 => ids[0] = random.below(2 * count as u64) as u32,
            4 => each = random.below(2 + count as u64) as usize,
            _ => (),
        }
    }
    let state = State {
        values: numbered(length),
        lists_ascend,
        mesh,
    };
    let mut places = [state.longest(&ids); 5];
    if damaged && random.below(2) == 0 {
        places[random.below(5) as usize] -= 1;
    }
    renumbering(&state, &ids, each, places)
}

fn renumbering(state: &State, ids: &[u32], each: usize, places: [usize; 5]) -> Record {
    let row = renumber::renumbering_row(state, ids, each, places);
    let before = state.lists_ascend;
    let mut left = Left::default();
    let (marked, after) = match row {
        Some(_) => (refused(before), state.clone()),
        None => {
            let order: Vec<usize> = ids.iter().map(|&id| id as usize).collect();
            let rust = renumber::rust_renumbered(&mut left, state, &order, each);
            (accepted(before, true), rust.state)
        }
    };
    let head = Record::default()
        .lengths(&needed(&state.mesh, &[])[..3])
        .lengths(&[state.values.len(), ids.len()]);
    let call = mesh_words(head, &state.mesh)
        .doubles(&state.values)
        .numbers(ids)
        .length(each)
        .lengths(&places)
        .mark(before)
        .outcome()
        .refusal(row)
        .index(RENUMBERING, row)
        .marked(marked);
    Record {
        left,
        ..mesh_words(call, &after.mesh).doubles(&after.values)
    }
}

/// A grid as it is stored.
fn stored(slices: &Slices) -> Record {
    Record::default()
        .length(slices.positions.len())
        .lengths(&grid_lengths(slices))
        .number(slices.side)
        .doubles(&slices.positions)
        .numbers(&slices.cell_starts)
        .numbers(&slices.cell_ids)
        .numbers(&slices.triangle_starts)
        .numbers(&slices.triples)
}

/// A grid, and how many directions follow.
fn grid_record(slices: &Slices, directions: usize) -> Record {
    stored(slices).length(directions)
}

/// Queries of random grids, and of such as have zeros of both signs among the weights. A damaged
/// grid's answers are those of document 01's checks, as the Rust makes none; also where the nearest
/// vertex has no triangle, for which the Rust has no answer.
fn grid_queries() -> Records {
    let mut random = Random::new(105);
    let mut records = Records::new();
    while records.len() < GRIDS {
        let lists = small(&mut random, 14, 90);
        let without_neighbours = lists.neighbors.iter().any(Vec::is_empty);
        if without_neighbours || row_5(&lists.flat()) {
            continue;
        }
        let grid = rust::FaceGrid::new(&lists.vertices, &lists.neighbors);
        let mut slices = Slices::new(&lists, &grid);
        let damaged = records.len() % 2 == 1;
        if damaged {
            queries::damage(&mut random, &mut slices);
        }
        let mut inputs = Directions::new(106 + records.len() as u64, &lists);
        let mut record = grid_record(&slices, QUERIES);
        for _ in 0..QUERIES {
            let v = inputs.direction();
            let text = queries::answers_by_the_text(&slices, v);
            let answers = if damaged || text.located.is_err() {
                text
            } else {
                queries::rust_answers(&slices, &grid, v)
            };
            record = record.direction(v).answers(&answers);
        }
        records.push(record);
    }
    records.extend(zero_grids());
    records
}

/// The grids by hand, and drawn ones, with +0 first and then with −0 first.
fn zero_grids() -> Records {
    let by_hand = zeros::BY_HAND.iter().filter_map(|by_hand| {
        let lists = Lists::complete(by_hand.vertices.to_vec());
        zero_grid(&lists, &[by_hand.direction], by_hand.leasts[0])
    });
    let mut random = Random::new(110);
    let mut drawn = |first: f64| loop {
        let mesh = zeros::SmallMesh::random(&mut random);
        let directions = [0; 4 * QUERIES].map(|_| mesh.direction(&mut random));
        if let Some(record) = zero_grid(&mesh.lists, &directions, first) {
            return record;
        }
    };
    let firsts = [[0.0; ZERO_GRIDS], [-0.0; ZERO_GRIDS]].concat();
    by_hand.chain(firsts.into_iter().map(&mut drawn)).collect()
}

/// Queries of those directions, six at most and no two with the same bits, whose location has zeros
/// of both signs among its weights, this one first. None where there is no such direction.
fn zero_grid(lists: &Lists, directions: &[Vector3], first: f64) -> Option<Record> {
    let grid = rust::FaceGrid::new(&lists.vertices, &lists.neighbors);
    let slices = Slices::new(lists, &grid);
    let bits = |v: &Vector3| [v.x, v.y, v.z].map(f64::to_bits);
    let mut asked: Vec<(Vector3, Answers)> = Vec::new();
    for v in directions {
        let answers = queries::rust_answers(&slices, &grid, *v);
        let is_wanted = answers.located.as_ref().is_ok_and(|located| {
            let w = located.weights;
            first_of_both(&[w.u, w.v, w.w]).map(f64::to_bits) == Some(first.to_bits())
        });
        let is_new = asked.iter().all(|(other, _)| bits(other) != bits(v));
        if is_wanted && is_new && asked.len() < QUERIES {
            asked.push((*v, answers));
        }
    }
    let record = grid_record(&slices, asked.len());
    let record = asked.iter().fold(record, |record, (v, answers)| {
        record.direction(*v).answers(answers)
    });
    (!asked.is_empty()).then_some(record)
}

/// A call of the packing: a grid, and of words and floats the places and how many of them are taken.
#[derive(Clone)]
struct Packing {
    grid: Slices,
    places: [usize; 2],
    taken: [usize; 2],
}

impl Packing {
    /// With so many places more than are taken and filled.
    fn new(grid: Slices, taken: [usize; 2], surplus: [usize; 2]) -> Self {
        let filled = [grid_lengths(&grid).iter().sum(), grid.positions.len()];
        Packing {
            grid,
            places: [0, 1].map(|i: usize| taken[i] + filled[i] + surplus[i]),
            taken,
        }
    }

    /// The call that the Rust's packing of the grid answers, or that is refused.
    fn record(&self, answer: Result<&rust::FaceGrid, Reason>) -> Record {
        let (mut words, mut floats) = (Vec::new(), Vec::new());
        let level = answer.map(|grid| {
            words.resize(self.taken[0], U32_BEFORE);
            floats.resize(self.taken[1], F32_BEFORE);
            grid.pack(&mut words, &mut floats)
        });
        stored(&self.grid)
            .double(self.grid.settings.factor)
            .number(self.grid.settings.margin)
            .lengths(&self.places)
            .lengths(&self.taken)
            .packed(level)
            .numbers(&over(U32_BEFORE, self.places[0], &words))
            .floats(&over(F32_BEFORE, self.places[1], &floats))
    }
}

type Change = fn(&mut Packing);

/// Rows, and the changes by which each refuses a packing of three vertices, one on each axis: what the
/// row names alone, or beside what a row that comes later does.
const REFUSED_PACKINGS: [(Reason, &[Change]); 17] = [
    (
        Reason::row(2),
        &[
            |call| call.grid.positions.clear(),
            |call| shorten(&mut call.grid.positions),
            |call| {
                shorten(&mut call.grid.positions);
                call.grid.settings.factor = f64::NAN;
            },
        ],
    ),
    (
        Reason::row(19),
        &[
            |call| call.grid.settings.factor = 0.5f64.next_down(),
            |call| call.grid.settings.factor = 4.0f64.next_up(),
            |call| call.grid.settings.factor = f64::INFINITY,
            |call| call.grid.settings = pair(f64::NAN, 4),
        ],
    ),
    (
        Reason::row(20),
        &[
            |call| call.grid.settings.margin = 4,
            |call| call.grid.settings.margin = u32::MAX,
            |call| {
                call.grid.settings.margin = 4;
                call.grid.side = 3;
            },
        ],
    ),
    (
        Reason::row(2),
        &[
            |call| call.grid.side = 0,
            |call| call.grid.side = 3,
            |call| {
                call.grid.side = 1;
                shorten(&mut call.grid.cell_starts);
            },
        ],
    ),
    (
        Reason::row(3),
        &[
            |call| call.grid.cell_starts.clear(),
            |call| shorten(&mut call.grid.cell_starts),
            |call| lengthen(&mut call.grid.cell_starts),
            |call| call.grid.triangle_starts.clear(),
            |call| shorten(&mut call.grid.triangle_starts),
            |call| lengthen(&mut call.grid.triangle_starts),
            |call| {
                call.grid.cell_starts[0] = 1;
                lengthen(&mut call.grid.triangle_starts);
            },
        ],
    ),
    (
        Reason::row(17),
        &[
            |call| call.grid.cell_starts[0] = 1,
            |call| lengthen(&mut call.grid.cell_ids),
            |call| shorten(&mut call.grid.cell_ids),
            |call| call.grid.triangle_starts[0] = 1,
            |call| lengthen(&mut call.grid.triples),
            |call| shorten(&mut call.grid.triples),
            |call| call.grid.triples.extend([0, 1, 2]),
            |call| call.grid.triples.truncate(1),
            |call| {
                fall(&mut call.grid.cell_starts, 2);
                call.grid.triangle_starts[0] = 1;
            },
        ],
    ),
    (
        Reason::fall(2),
        &[|call| fall(&mut call.grid.cell_starts, 2)],
    ),
    (
        Reason::fall(9),
        &[|call| {
            fall(&mut call.grid.cell_starts, 9);
            fall(&mut call.grid.cell_starts, 20);
        }],
    ),
    (
        Reason::fall(24),
        &[|call| fall(&mut call.grid.cell_starts, 24)],
    ),
    (
        Reason::fall(2),
        &[|call| fall(&mut call.grid.triangle_starts, 2)],
    ),
    (
        Reason::fall(3),
        &[|call| fall(&mut call.grid.triangle_starts, 3)],
    ),
    (
        Reason::fall(16),
        &[|call| {
            fall(&mut call.grid.cell_starts, 16);
            fall(&mut call.grid.triangle_starts, 2);
        }],
    ),
    (
        Reason::fall(3),
        &[|call| {
            fall(&mut call.grid.triangle_starts, 3);
            call.grid.cell_ids[0] = 3;
        }],
    ),
    (
        Reason::row(4),
        &[
            |call| call.grid.cell_ids[0] = 3,
            |call| set_last(&mut call.grid.cell_ids, 3),
            |call| call.grid.triples[0] = 3,
            |call| set_last(&mut call.grid.triples, u16::MAX),
            |call| {
                call.grid.triples[0] = 3;
                call.grid.positions[0] = f64::NAN;
            },
        ],
    ),
    (
        Reason::row(5),
        &[
            |call| call.grid.positions[0] = f64::INFINITY,
            |call| set_last(&mut call.grid.positions, f64::NAN),
            |call| call.grid.positions[4] = 2f64.powi(20).next_up(),
            |call| call.grid.positions[..3].fill(0.0),
            |call| {
                call.grid.positions[..3].fill(0.0);
                call.places = [0; 2];
            },
        ],
    ),
    (
        Reason::row(8),
        &[
            |call| call.places[0] -= 1,
            |call| call.places[1] -= 1,
            |call| call.taken[0] += 1,
            |call| call.taken[1] += 1,
        ],
    ),
    // The count of taken places alone.
    (
        Reason::row(8),
        &[
            |call| call.taken[0] = call.places[0] + 1,
            |call| call.taken[1] = call.places[1] + 1,
            |call| call.taken[0] = usize::MAX,
            |call| call.taken[1] = usize::MAX,
        ],
    ),
];

fn shorten<T>(list: &mut Vec<T>) {
    list.pop();
}

/// The last one stands there twice.
fn lengthen<T: Copy>(list: &mut Vec<T>) {
    list.extend(list.last().copied());
}

fn set_last<T>(list: &mut [T], value: T) {
    if let Some(last) = list.last_mut() {
        *last = value;
    }
}

/// The start there is below the one before it, which is not the first.
fn fall(starts: &mut [u32], at: usize) {
    starts[at - 1] = starts[at] + 1;
}

/// The grid of (1, 1, 1) twice, the second behind the first; random grids behind taken places, with
/// places left, each with a pair that gives its side, as the lists alone are packed; and the refusals.
fn packings() -> Records {
    let of = |lists: &Lists| {
        let grid = rust::FaceGrid::new(&lists.vertices, &lists.neighbors);
        (Slices::new(lists, &grid), grid)
    };
    let (slices, grid) = of(&Lists::complete(vec![[1.0; 3]]));
    let mut records: Records = [[0, 0], [30, 3]]
        .map(|taken| Packing::new(slices.clone(), taken, [0; 2]).record(Ok(&grid)))
        .into();
    let mut random = Random::new(113);
    while records.len() < 2 + PACKINGS {
        let lists = small(&mut random, 14, 90);
        if !row_5(&lists.flat()) {
            let (mut slices, grid) = of(&lists);
            let count = lists.vertices.len();
            let same_side = |factor: &f64| side(count, *factor) == slices.side as usize;
            let factors: Vec<f64> = FACTORS.into_iter().filter(same_side).collect();
            let factor = factors[random.below(factors.len() as u64) as usize];
            slices.settings = pair(factor, random.below(4) as u32);
            let [taken, surplus] = [4, 3].map(|limit| [0; 2].map(|_| random.below(limit) as usize));
            records.push(Packing::new(slices, taken, surplus).record(Ok(&grid)));
        }
    }
    let axes = [[1.0, 0.0, 0.0], [0.0, 1.0, 0.0], [0.0, 0.0, 1.0]];
    let exact = Packing::new(of(&Lists::complete(axes.into())).0, [2, 1], [0; 2]);
    for (reason, changes) in REFUSED_PACKINGS {
        records.extend(changes.iter().map(|change| {
            let mut packing = exact.clone();
            change(&mut packing);
            packing.record(Err(reason))
        }));
    }
    records
}

/// Lattices packed by the Rust, each behind the one before it, some of them renumbered by their walks,
/// and so many places of words and floats more than are filled.
fn packed_together(lattices: &[(usize, bool)], surplus: [usize; 2]) -> Record {
    let (mut words, mut floats) = (Vec::new(), Vec::new());
    let mut grids = Record::default();
    for &(frequency, is_renumbered) in lattices {
        let lattice = Lattice::new(frequency);
        let mesh = lattice.lists.flat();
        let lengths = needed(&mesh, &lattice.ids);
        grids = grids
            .length(frequency)
            .lengths(&lengths)
            .outcome()
            .number(0u32)
            .call()
            .mark(is_renumbered);
        let lists = if is_renumbered {
            let count = mesh.count();
            let (walk, order, queue) = walk::rust_outcome(&lattice.lists.neighbors, count, count);
            let state = State {
                values: Vec::new(),
                lists_ascend: true,
                mesh,
            };
            grids = grids
                .lengths(&[count; 2])
                .counted(WALK, walk)
                .number(hash_u32s(&order))
                .number(hash_u32s(&queue))
                .lengths(&[1])
                .lengths(&[state.longest(&order); 5])
                .mark(true)
                .outcome()
                .refusal(None)
                .index(RENUMBERING, None)
                .mark(true);
            let permutation = rust::bfs_vertex_permutation(&lattice.lists.neighbors);
            let mut left = Left::default();
            let renumbered = renumber::rust_renumbered(&mut left, &state, &permutation, 1);
            renumbered.state.mesh.lists()
        } else {
            lattice.lists
        };
        let grid = rust::FaceGrid::new(&lists.vertices, &lists.neighbors);
        let slices = Slices::new(&lists, &grid);
        grids = grids
            .lengths(&grid_lengths(&slices))
            .built(Ok(built_beside(&slices)))
            .packed(Ok(grid.pack(&mut words, &mut floats)));
    }
    let words = over(U32_BEFORE, words.len() + surplus[0], &words);
    let floats = over(F32_BEFORE, floats.len() + surplus[1], &floats);
    Record::default()
        .lengths(&[words.len(), floats.len()])
        .length(lattices.len())
        .followed_by(grids)
        .outcome()
        .number(hash_u32s(&words))
        .number(hash_f32s(&floats))
}

/// Each lattice alone, as it is and renumbered; all one behind another; all renumbered; and some in turn.
fn packed_lattices() -> Records {
    let both = PACKED.map(|frequency| [(frequency, false), (frequency, true)]);
    let of = |is_renumbered| PACKED.map(|frequency| (frequency, is_renumbered));
    let mut records: Records = both
        .concat()
        .iter()
        .map(|lattice| packed_together(&[*lattice], [0; 2]))
        .collect();
    records.push(packed_together(&of(false), [5, 4]));
    records.push(packed_together(&of(true), [0, 1]));
    records.push(packed_together(&both[..4].concat(), [3, 0]));
    records
}

/// A mesh of lists by hand.
fn searched(lists: &[&[u16]]) -> Flat {
    unplaced(lists.iter().map(|list| list.to_vec()).collect())
}

/// A mesh whose positions are zeros, as searches and walks have no row for coordinates.
fn unplaced(neighbors: Vec<Vec<u16>>) -> Flat {
    let vertices = vec![[0.0; 3]; neighbors.len()];
    Lists {
        vertices,
        neighbors,
    }
    .flat()
}

/// So many vertices, each a neighbour of the one before it and of the one behind it.
fn path(count: u16) -> Flat {
    let beside = |v: u16| [v.checked_sub(1), (v + 1 < count).then_some(v + 1)];
    let lists = (0..count).map(|v| beside(v).into_iter().flatten().collect());
    unplaced(lists.collect())
}

/// The ids that the Rust's walk begun at a vertex reaches, in its order.
fn walk_begun_at(from: usize, lists: &[Vec<u16>]) -> Vec<usize> {
    let new_of_old = steps::rust_walk(lists, from);
    let mut reached: Vec<usize> = (0..lists.len())
        .filter(|&id| new_of_old[id] != usize::MAX)
        .collect();
    reached.sort_by_key(|&id| new_of_old[id]);
    reached
}

/// The length of the shortest path to each vertex, after Bellman and Ford: none is known at first but
/// that to the vertex itself, and each entry may shorten one.
fn shortest_paths(from: usize, lists: &[Vec<u16>]) -> Vec<Option<usize>> {
    let mut lengths = vec![None; lists.len()];
    lengths[from] = Some(0);
    for _ in lists {
        for (v, list) in lists.iter().enumerate() {
            let Some(length) = lengths[v] else { continue };
            for &id in list {
                let known = &mut lengths[usize::from(id)];
                *known = Some(known.map_or(length + 1, |known: usize| known.min(length + 1)));
            }
        }
    }
    lengths
}

/// Steps and entries read: the walk's lists are read entry by entry, until one is the target.
fn steps_beside(from: usize, to: usize, lists: &[Vec<u16>]) -> Result<[u32; 2], Reason> {
    if from == to {
        return Ok([0, 0]);
    }
    let steps = shortest_paths(from, lists)[to].ok_or(Reason::row(15))?;
    let walk = walk_begun_at(from, lists);
    let mut entries = walk.iter().flat_map(|&v| &lists[v]);
    let before = entries.position(|&id| usize::from(id) == to);
    let read = before.expect("an entry that a path leads over") + 1;
    Ok([steps as u32, read as u32])
}

/// Those of the walk's ids that a path so short leads to.
fn within_beside(vertex: usize, steps: usize, lists: &[Vec<u16>]) -> Vec<u32> {
    let lengths = shortest_paths(vertex, lists);
    let is_near = |&v: &usize| lengths[v].is_some_and(|length| length <= steps);
    let walk = walk_begun_at(vertex, lists).into_iter();
    walk.filter(is_near).map(|v| v as u32).collect()
}

/// So many places are asked of scratch.
fn longest(mesh: &Flat) -> usize {
    let lengths = needed(mesh, &[]);
    lengths.into_iter().max().unwrap_or(0)
}

/// The rows of both calls: those of the mesh, 14 for the given vertices, and 8 where a slice is short.
fn search_row(mesh: &Flat, given: &[u32], is_short: bool) -> Option<Reason> {
    let is_id = |&v: &u32| (v as usize) < mesh.count();
    adjacency_row(mesh)
        .or((!given.iter().all(is_id)).then_some(Reason::row(14)))
        .or(is_short.then_some(Reason::row(8)))
}

/// A search: its ends, and the lengths of order and queue.
#[derive(Clone, Copy)]
struct Search {
    from: u32,
    to: u32,
    places: [usize; 2],
}

impl Search {
    fn answer(&self, mesh: &Flat) -> Result<[u32; 2], Reason> {
        let is_short = self.places.iter().any(|&length| length < longest(mesh));
        match search_row(mesh, &[self.from, self.to], is_short) {
            Some(reason) => Err(reason),
            None => {
                let lists = mesh.lists().neighbors;
                steps_beside(self.from as usize, self.to as usize, &lists)
            }
        }
    }
}

/// A call that lists vertices: the one that it begins at, the number of steps, and the lengths of order
/// and list.
#[derive(Clone, Copy)]
struct Within {
    vertex: u32,
    steps: usize,
    places: [usize; 2],
}

impl Within {
    fn answer(&self, mesh: &Flat) -> Result<Vec<u32>, Reason> {
        let [order, list] = self.places;
        let is_short = order < longest(mesh) || list < mesh.count();
        match search_row(mesh, &[self.vertex], is_short) {
            Some(reason) => Err(reason),
            None => {
                let lists = mesh.lists().neighbors;
                Ok(within_beside(self.vertex as usize, self.steps, &lists))
            }
        }
    }
}

/// A mesh, and how many calls follow.
fn searched_record(mesh: &Flat, calls: usize) -> Record {
    let head = Record::default().lengths(&needed(mesh, &[])[..3]);
    mesh_words(head, mesh).length(calls)
}

/// Searches of a mesh, with their answers.
fn searches(mesh: &Flat, calls: &[(Search, Result<[u32; 2], Reason>)]) -> Record {
    let record = searched_record(mesh, calls.len());
    calls.iter().fold(record, |record, (search, answer)| {
        record
            .call()
            .numbers(&[search.from, search.to])
            .lengths(&search.places)
            .found(SEARCH, *answer)
    })
}

/// Lists of vertices of a mesh, with their answers.
fn lists_within(mesh: &Flat, calls: &[(Within, Result<Vec<u32>, Reason>)]) -> Record {
    let record = searched_record(mesh, calls.len());
    calls.iter().fold(record, |record, (within, answer)| {
        let filled = answer.as_ref().map_or(&[][..], Vec::as_slice);
        let counted = answer.as_ref().map(|list| list.len() as u32);
        record
            .call()
            .number(within.vertex)
            .lengths(&[within.steps])
            .lengths(&within.places)
            .counted(WITHIN, counted.map_err(|reason| *reason))
            .numbers(&over(U32_BEFORE, within.places[1], filled))
    })
}

/// Searches of a mesh with the answers that are read beside it.
fn searches_beside(mesh: &Flat, calls: Vec<Search>) -> Record {
    let answered = |search: Search| (search, search.answer(mesh));
    searches(mesh, &calls.into_iter().map(answered).collect::<Vec<_>>())
}

fn lists_within_beside(mesh: &Flat, calls: Vec<Within>) -> Record {
    let answered = |within: Within| (within, within.answer(mesh));
    lists_within(mesh, &calls.into_iter().map(answered).collect::<Vec<_>>())
}

/// Neighbour lists by hand: a path of four vertices, and one apart that lists itself; lists with repeats
/// and an own vertex; steps that lead one way alone.
const ISLAND: [&[u16]; 5] = [&[1], &[2, 0], &[3, 1], &[2], &[4]];
const REPEATS: [&[u16]; 3] = [&[2, 2, 1], &[0], &[1, 1, 2]];
const ONE_WAY: [&[u16]; 4] = [&[1, 2], &[0], &[3], &[]];

/// Such a mesh with starts that fall at 2.
fn falling(lists: &[&[u16]]) -> Flat {
    let mut mesh = searched(lists);
    fall(&mut mesh.starts, 2);
    mesh
}

/// Searches worked out by hand: from, to, the lengths of order and queue, the answer.
fn searches_by_hand() -> Records {
    let [room, vertex, no_path] = [8, 14, 15].map(|number| Err(Reason::row(number)));
    let of = |mesh: &Flat, calls: &[(u32, u32, [usize; 2], Result<[u32; 2], Reason>)]| {
        let calls = calls.iter().map(|&(from, to, places, answer)| {
            let search = Search { from, to, places };
            (search, answer)
        });
        searches(mesh, &calls.collect::<Vec<_>>())
    };
    vec![
        of(
            &searched(&ISLAND),
            &[
                (0, 1, [15; 2], Ok([1, 1])),
                (0, 2, [15; 2], Ok([2, 2])),
                (0, 3, [15; 2], Ok([3, 4])),
                (3, 0, [16, 17], Ok([3, 5])),
                (0, 4, [15; 2], no_path),
                (4, 0, [15; 2], no_path),
                (4, 4, [15; 2], Ok([0, 0])),
                (5, 0, [1; 2], vertex),
                (0, 5, [15; 2], vertex),
                (u32::MAX, u32::MAX, [0; 2], vertex),
                (4, 0, [14, 15], room),
                (4, 0, [15, 14], room),
                (4, 4, [14; 2], room),
            ],
        ),
        of(
            &searched(&REPEATS),
            &[
                (0, 1, [9; 2], Ok([1, 3])),
                (0, 2, [9; 2], Ok([1, 1])),
                (2, 0, [9; 2], Ok([2, 4])),
                (2, 2, [9; 2], Ok([0, 0])),
            ],
        ),
        of(
            &searched(&ONE_WAY),
            &[
                (0, 3, [12; 2], Ok([2, 4])),
                (1, 3, [12; 2], Ok([3, 4])),
                (3, 0, [12; 2], no_path),
            ],
        ),
        of(&falling(&ISLAND), &[(9, 0, [15; 2], Err(Reason::fall(2)))]),
        of(
            &Lattice::new(1).lists.flat(),
            &[
                (0, 4, [60; 2], Ok([2, 14])),
                (0, 9, [60; 2], Ok([3, 34])),
                (9, 0, [60; 2], Ok([3, 31])),
                (4, 9, [60; 2], Ok([1, 5])),
                (3, 3, [60; 2], Ok([0, 0])),
            ],
        ),
    ]
}

/// Lists of vertices worked out by hand: vertex, steps, the lengths of order and list, the answer.
fn lists_by_hand() -> Records {
    type Listed = Result<&'static [u32], Reason>;
    let [room, vertex] = [8, 14].map(|number| Err(Reason::row(number)));
    let of = |mesh: &Flat, calls: &[(u32, usize, [usize; 2], Listed)]| {
        let calls = calls.iter().map(|&(vertex, steps, places, answer)| {
            let within = Within {
                vertex,
                steps,
                places,
            };
            (within, answer.map(<[u32]>::to_vec))
        });
        lists_within(mesh, &calls.collect::<Vec<_>>())
    };
    vec![
        of(
            &searched(&ISLAND),
            &[
                (1, 1, [15, 6], Ok(&[1, 2, 0])),
                (1, 9, [15, 5], Ok(&[1, 2, 0, 3])),
                (1, 0, [15, 5], Ok(&[1])),
                (1, usize::MAX, [16, 5], Ok(&[1, 2, 0, 3])),
                (4, usize::MAX, [15, 5], Ok(&[4])),
                (5, 1, [0; 2], vertex),
                (1, 1, [14, 5], room),
                (1, 0, [15, 4], room),
                (u32::MAX, 0, [15, 5], vertex),
            ],
        ),
        of(
            &searched(&REPEATS),
            &[
                (0, 1, [9, 3], Ok(&[0, 2, 1])),
                (2, 1, [9, 3], Ok(&[2, 1])),
                (2, 2, [9, 3], Ok(&[2, 1, 0])),
            ],
        ),
        of(
            &searched(&ONE_WAY),
            &[
                (0, 1, [12, 4], Ok(&[0, 1, 2])),
                (1, 2, [12, 4], Ok(&[1, 0, 2])),
                (3, 9, [12, 4], Ok(&[3])),
            ],
        ),
        of(&falling(&ISLAND), &[(9, 1, [15, 5], Err(Reason::fall(2)))]),
        of(
            &Lattice::new(1).lists.flat(),
            &[
                (4, 1, [60, 12], Ok(&[4, 2, 3, 5, 8, 9])),
                (4, 2, [60, 12], Ok(&[4, 2, 3, 5, 8, 9, 0, 1, 7, 10, 11])),
                (4, 3, [60, 12], Ok(&[4, 2, 3, 5, 8, 9, 0, 1, 7, 10, 11, 6])),
            ],
        ),
    ]
}

/// Meshes, and the vertices at which a call begins: all of the first lattice, three of the second, both
/// ends of a path and one between.
fn begun_at() -> [(Flat, Vec<u32>); 3] {
    let lattice = |frequency| Lattice::new(frequency).lists.flat();
    [
        (lattice(1), (0..12).collect()),
        (lattice(2), vec![0, 13, 41]),
        (path(PATH as u16), vec![0, 17, PATH as u32 - 1]),
    ]
}

/// Random meshes, every second one damaged, their positions zeros but for what is damaged; then the
/// starts by hand.
fn searched_meshes(random: &mut Random) -> Vec<Flat> {
    let mut drawn = |at: usize| {
        let mut mesh = small(random, 20, 200).flat();
        mesh.positions.fill(0.0);
        if at % 2 == 1 {
            damage(random, &mut mesh);
        }
        mesh
    };
    let drawn: Vec<Flat> = (0..SEARCHED).map(&mut drawn).collect();
    let by_hand = by_hand().map(|(mesh, _)| mesh);
    drawn.into_iter().chain(by_hand).collect()
}

/// A vertex, or one time in twelve no id: the count, or the greatest number.
fn given(random: &mut Random, count: usize) -> u32 {
    match random.below(24) {
        0 => count as u32,
        1 => u32::MAX,
        _ => random.below(count.max(1) as u64) as u32,
    }
}

/// Searches by hand; of lattices and a path to every vertex; of random meshes, one in eight of them from
/// a vertex to itself.
fn steps_between() -> Records {
    let mut records = searches_by_hand();
    records.extend(begun_at().map(|(mesh, vertices)| {
        let places = [longest(&mesh); 2];
        let all = 0..mesh.count() as u32;
        let calls = vertices.iter().flat_map(|&from| {
            let to_all = all.clone();
            to_all.map(move |to| Search { from, to, places })
        });
        searches_beside(&mesh, calls.collect())
    }));
    let mut random = Random::new(114);
    for mesh in searched_meshes(&mut random) {
        let mut search = || {
            let [from, to] = [0; 2].map(|_| given(&mut random, mesh.count()));
            let to = if random.below(8) == 0 { from } else { to };
            let places = [0; 2].map(|_| about(&mut random, longest(&mesh)));
            Search { from, to, places }
        };
        let calls = (0..SEARCHES).map(|_| search()).collect();
        records.push(searches_beside(&mesh, calls));
    }
    records
}

/// Lists by hand; of lattices and a path with every number of steps up to the last that adds a vertex,
/// and one more; of random meshes with few steps, and with the greatest number.
fn vertices_within() -> Records {
    let mut records = lists_by_hand();
    records.extend(begun_at().map(|(mesh, vertices)| {
        let places = [longest(&mesh), mesh.count()];
        let lists = mesh.lists().neighbors;
        let calls = vertices.iter().flat_map(|&vertex| {
            let lengths = shortest_paths(vertex as usize, &lists);
            let farthest = lengths.into_iter().flatten().max().unwrap_or(0);
            (0..=farthest + 1).map(move |steps| Within {
                vertex,
                steps,
                places,
            })
        });
        lists_within_beside(&mesh, calls.collect())
    }));
    let mut random = Random::new(115);
    for mesh in searched_meshes(&mut random) {
        let mut within = || {
            let vertex = given(&mut random, mesh.count());
            let steps = [0, 1, 1, 2, 2, 3, 4, usize::MAX][random.below(8) as usize];
            let places = [longest(&mesh), mesh.count()].map(|most| about(&mut random, most));
            Within {
                vertex,
                steps,
                places,
            }
        };
        let calls = (0..SEARCHES).map(|_| within()).collect();
        records.push(lists_within_beside(&mesh, calls));
    }
    records
}

/// What a walk over all islands numbers: the ids in their new order, the first number of each island,
/// and how many entries are read.
#[derive(Default)]
struct Islands {
    queue: Vec<u32>,
    starts: Vec<u32>,
    entries_read: u32,
}

impl Islands {
    /// The new id at each old one.
    fn order(&self) -> Vec<u32> {
        let mut order = vec![0; self.queue.len()];
        for (new, &old) in (0..).zip(&self.queue) {
            order[old as usize] = new;
        }
        order
    }
}

/// Each island as the Rust walks the mesh of what the islands before it leave.
fn islands_beside(lists: &[Vec<u16>]) -> Islands {
    let mut found = Islands::default();
    for island in islands::of_what_is_left(lists) {
        found.starts.push(found.queue.len() as u32);
        found.queue.extend(island.iter().map(|&id| id as u32));
        let read: usize = island.iter().map(|&id| lists[id].len()).sum();
        found.entries_read += read as u32;
    }
    found
}

/// Walks over all islands of a mesh: the lengths of order, queue and the islands' starts, and what is
/// found.
fn island_walks(mesh: &Flat, calls: &[([usize; 3], Result<&Islands, Reason>)]) -> Record {
    let record = searched_record(mesh, calls.len());
    let nothing = Islands::default();
    calls.iter().fold(record, |record, (places, found)| {
        let counts = found.map(|islands| [islands.starts.len() as u32, islands.entries_read]);
        let filled = found.unwrap_or(&nothing);
        record
            .lengths(places)
            .found(ISLANDS, counts)
            .numbers(&over(U32_BEFORE, places[0], &filled.order()))
            .numbers(&over(U32_BEFORE, places[1], &filled.queue))
            .numbers(&over(U32_BEFORE, places[2], &filled.starts))
    })
}

/// The same with what is found beside the engine: one place a vertex is asked of each slice.
fn island_walks_beside(mesh: &Flat, places: &[[usize; 3]]) -> Record {
    let row = adjacency_row(mesh);
    let islands = match row {
        Some(_) => Islands::default(),
        None => islands_beside(&mesh.lists().neighbors),
    };
    let answered = |places: &[usize; 3]| {
        let is_short = places.iter().any(|&length| length < mesh.count());
        let row = row.or(is_short.then_some(Reason::row(8)));
        (*places, row.map_or(Ok(&islands), Err))
    };
    island_walks(mesh, &places.iter().map(answered).collect::<Vec<_>>())
}

/// Neighbour lists by hand: islands of two, three and one; two of two; three of one; and four whose
/// neighbours are not mutual.
const APART: [&[u16]; 6] = [&[4], &[3, 2], &[1], &[1], &[0], &[]];
const ACROSS: [&[u16]; 4] = [&[3], &[2], &[1], &[0]];
const NO_NEIGHBOURS: [&[u16]; 3] = [&[], &[], &[]];
const LATER_NAMES_EARLIER: [&[u16]; 4] = [&[1], &[0], &[], &[2]];
const SECOND_NAMES_FIRST: [&[u16]; 2] = [&[], &[0]];
const ROUND: [&[u16]; 3] = [&[2], &[], &[1]];
const LAST_NAMES_FIRST: [&[u16]; 3] = [&[1], &[0], &[0]];

/// Walks over all islands worked out by hand: queue, starts, entries read; then the lattice of frequency
/// 1, and starts that fall, with slices too short.
fn islands_by_hand() -> Records {
    let of = |queue: &[u32], starts: &[u32], entries_read| Islands {
        queue: queue.to_vec(),
        starts: starts.to_vec(),
        entries_read,
    };
    let room = Err(Reason::row(8));
    let islands = of(&[0, 4, 1, 3, 2, 5], &[0, 2, 5], 6);
    let mut records: Records = [
        &[([6, 6, 6], Ok(&islands)), ([6, 6, 5], room)][..],
        &[
            ([7, 8, 9], Ok(&islands)),
            ([6, 5, 6], room),
            ([5, 6, 6], room),
        ],
    ]
    .map(|calls| island_walks(&searched(&APART), calls))
    .into();
    let others: [(&[&[u16]], Islands); 6] = [
        (&ACROSS, of(&[0, 3, 1, 2], &[0, 2], 4)),
        (&NO_NEIGHBOURS, of(&[0, 1, 2], &[0, 1, 2], 0)),
        (&LATER_NAMES_EARLIER, of(&[0, 1, 2, 3], &[0, 2, 3], 3)),
        (&SECOND_NAMES_FIRST, of(&[0, 1], &[0, 1], 1)),
        (&ROUND, of(&[0, 2, 1], &[0], 2)),
        (&LAST_NAMES_FIRST, of(&[0, 1, 2], &[0, 2], 3)),
    ];
    records.extend(others.iter().map(|(lists, islands)| {
        let places = [lists.len(); 3];
        island_walks(&searched(lists), &[(places, Ok(islands))])
    }));
    let lattice = of(&[0, 1, 2, 3, 6, 7, 5, 10, 4, 8, 11, 9], &[0], 60);
    let flat = Lattice::new(1).lists.flat();
    records.push(island_walks(&flat, &[([12; 3], Ok(&lattice))]));
    let falling = falling(&APART);
    records.push(island_walks(&falling, &[([0; 3], Err(Reason::fall(2)))]));
    records
}

/// Lattices of frequency 1 side by side, renumbered at random.
fn side_by_side(random: &mut Random) -> Flat {
    let lattice = Lattice::new(1).lists;
    let whole = islands::side_by_side(&[&lattice; SIDE_BY_SIDE]);
    unplaced(islands::renumbered(random, &whole).neighbors)
}

/// Up to 20 vertices, and random pairs of neighbours, at most as many as vertices: a pair may come
/// again, or be a vertex and itself.
fn mutual(random: &mut Random) -> Flat {
    let count = 1 + random.below(20);
    let mut neighbors = vec![Vec::new(); count as usize];
    for _ in 0..random.below(count + 1) {
        let [v, w] = [0; 2].map(|_| random.below(count));
        neighbors[v as usize].push(w as u16);
        if v != w {
            neighbors[w as usize].push(v as u16);
        }
    }
    unplaced(neighbors)
}

/// Walks over all islands by hand; of a lattice and a path; of lattices side by side; of random meshes
/// whose neighbours are mutual, and of such as are searched.
fn walk_islands() -> Records {
    let mut records = islands_by_hand();
    let mut random = Random::new(116);
    let mut meshes = vec![Lattice::new(2).lists.flat(), path(PATH as u16)];
    meshes.extend((0..UNIONS).map(|_| side_by_side(&mut random)));
    meshes.extend((0..MUTUAL).map(|_| mutual(&mut random)));
    meshes.extend(searched_meshes(&mut random));
    records.extend(meshes.iter().map(|mesh| {
        let mut places = || [0; 3].map(|_| about(&mut random, mesh.count()));
        let calls: Vec<[usize; 3]> = (0..WALKS).map(|_| places()).collect();
        island_walks_beside(mesh, &calls)
    }));
    records
}

/// Lattice and grid, then directions: the answers of both locators. No weight is NaN, as then the
/// Rust's nearest vertex depends on the bits of a NaN.
fn locators(frequency: usize) -> Records {
    let lattice = Lattice::new(frequency);
    let mesh = lattice.lists.flat();
    let grid = rust::FaceGrid::new(&lattice.lists.vertices, &lattice.lists.neighbors);
    let slices = Slices::new(&lattice.lists, &grid);
    let oracle = rust::AnalyticLattice::new(frequency);
    let classifier = Classifier::new(&oracle);
    let mut inputs = Directions::new(400 + frequency as u64, &lattice.lists);
    let mut records = vec![Record::default()
        .length(frequency)
        .lengths(&needed(&mesh, &lattice.ids))
        .outcome()
        .number(0u32)
        .lengths(&grid_lengths(&slices))
        .built(Ok(built_beside(&slices)))];
    let mut record = |v: Vector3| {
        let located = rust_answer(&oracle, &classifier, v);
        let nearest = match located {
            Err(number) => Err(number),
            Ok((_, w)) if [w.u, w.v, w.w].iter().any(|weight| weight.is_nan()) => return,
            Ok(_) => Ok(oracle.find_nearest_vertex(&rust_of(v)) as u32),
        };
        let answers = queries::rust_answers(&slices, &grid, v);
        records.push(
            Record::default()
                .direction(v)
                .analytic(&located)
                .vertex(nearest)
                .answers(&answers),
        );
    };
    for _ in 0..DIRECTIONS {
        record(inputs.direction());
    }
    // Row 10, and the sum 3 by the flags 1 and 2, are rare.
    let (mut refused, mut two_flags) = (0, 0);
    while refused < RARE || two_flags < RARE {
        let v = inputs.near_an_icosahedron_vertex();
        if row_9(v) {
            continue;
        }
        match classifier.flag_sum(&rust_of(v)) {
            (4.., _) if refused < RARE => refused += 1,
            (3, [true, true, false]) if two_flags < RARE => two_flags += 1,
            _ => continue,
        }
        record(v);
    }
    records
}
