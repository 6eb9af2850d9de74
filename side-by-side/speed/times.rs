//! Asks the original what the program `bench` asks the port, and prints the same lines: times [--times] PATH
//! or answers one address, from reading on: times --address A PATH
//! After building, all is asked of one context, except for the lookups that are `cold`: each of these is asked of a new one.

#[allow(dead_code)]
#[path = "../reference/description.rs"]
mod description;

use description::Description;
use pdb::{DBISectionContribution, Image, PDB};
use pdb_addr2line::{contribution_count, Context, ContextPdbData, Error, Frame, Function, Listing};
use std::fs::File;
use std::time::{Duration, Instant};

/// How many addresses are asked in each part, and how many of new contexts.
const ASKED: usize = 10_000;
const COLD: usize = 8;

type Data<'d> = ContextPdbData<'d, 'd, File>;

fn main() {
    let words: Vec<String> = std::env::args().skip(1).collect();
    match words.iter().map(String::as_str).collect::<Vec<_>>()[..] {
        [path] => run(path, false),
        ["--times", path] => run(path, true),
        ["--address", address, path] => answer(address, path),
        _ => panic!("times [--times | --address A] PATH"),
    }
}

fn read(path: &str) -> Description {
    let bytes = std::fs::read(path).expect("the file can be read");
    description::read(&bytes).unwrap_or_else(|error| panic!("{path}: {error}"))
}

fn data(image: &Image) -> Data<'_> {
    ContextPdbData::try_from_pdb(PDB::over(image)).expect("nothing here fails")
}

fn answer(address: &str, path: &str) {
    let address = match address.strip_prefix("0x") {
        Some(digits) => u32::from_str_radix(digits, 16),
        None => address.parse(),
    };
    let address = address.expect("an address is a number");
    let description = read(path);
    let data = data(&description.image);
    let context = data.make_context().expect("the image is not refused");
    println!("image {path}");
    match context.find_function(address).expect("no address is refused") {
        Some(Function { start_rva, end_rva: Some(end), name }) => {
            println!("{address:#x} function {start_rva:#x} {end:#x} {name:?}")
        }
        Some(Function { start_rva, end_rva: None, name }) => {
            println!("{address:#x} function {start_rva:#x} - {name:?}")
        }
        None => println!("{address:#x} none"),
    }
}

// What is printed.

struct Report {
    times: bool,
}

impl Report {
    fn line(&self, line: String, spent: Duration) {
        match self.times {
            true => println!("{line} nanoseconds {}", spent.as_nanos()),
            false => println!("{line}"),
        }
    }
}

fn timed<T>(work: impl FnOnce() -> T) -> (T, Duration) {
    let start = Instant::now();
    let answer = work();
    (answer, start.elapsed())
}

/// What was answered: how many answers of each kind, how many frames, and a sum over all that the answers tell.
#[derive(Default)]
struct Tally {
    found: usize,
    none: usize,
    refused: usize,
    frames: usize,
    sum: u64,
}

impl Tally {
    fn feed(&mut self, number: u64) {
        self.sum = (self.sum ^ number).wrapping_mul(0x100_0000_01b3);
    }

    fn feed_extent(&mut self, start: u32, end: Option<u32>) {
        self.feed(start.into());
        self.feed(end.map_or(u64::MAX, u64::from));
    }

    /// Of a name its length is fed, and of none the greatest number. The names of inlined calls are left out: the original keeps them as texts.
    fn feed_name(&mut self, name: Option<&str>) {
        self.feed(name.map_or(u64::MAX, |name| name.len() as u64));
    }

    fn add_function(&mut self, answer: Result<Option<Function>, Error>) {
        match answer {
            Ok(Some(function)) => {
                self.found += 1;
                self.feed_extent(function.start_rva, function.end_rva);
                self.feed_name(function.name.as_deref());
            }
            Ok(None) => self.none += 1,
            Err(_) => self.refused += 1,
        }
    }

    fn add_frames(&mut self, context: &Context, address: u32) {
        match context.find_frames(address) {
            Ok(Some(found)) => {
                self.found += 1;
                self.frames += found.frames.len();
                self.feed_extent(found.start_rva, found.end_rva);
                for frame in &found.frames {
                    self.add_frame(frame);
                }
                self.feed_name(found.frames.last().and_then(|frame| frame.function.as_deref()));
            }
            Ok(None) => self.none += 1,
            Err(_) => self.refused += 1,
        }
    }

    fn add_frame(&mut self, frame: &Frame) {
        self.feed_name(frame.file.as_deref());
        self.feed(frame.line.map_or(u64::MAX, u64::from));
    }
}

impl std::fmt::Display for Tally {
    fn fmt(&self, f: &mut std::fmt::Formatter) -> std::fmt::Result {
        let Tally { found, none, refused, frames, sum } = self;
        write!(f, "found {found} none {none} refused {refused} frames {frames} sum {sum:#x}")
    }
}

// What is asked.

/// Addresses within contributions, by a linear congruential generator.
struct Places<'i> {
    image: &'i Image,
    state: u64,
}

impl Places<'_> {
    fn number(&mut self) -> u32 {
        self.state = self.state.wrapping_mul(6_364_136_223_846_793_005).wrapping_add(1_442_695_040_888_963_407);
        (self.state >> 32) as u32
    }

    /// One address, if there are contributions.
    fn address(&mut self, rows: &[DBISectionContribution]) -> Option<u32> {
        let chosen = (self.number() as usize).checked_rem(rows.len())?;
        let place = self.number().checked_rem(rows[chosen].size).unwrap_or(0);
        let offset = rows[chosen].offset;
        let section = usize::from(offset.section).checked_sub(1).and_then(|index| self.image.sections.get(index));
        let address = section.map_or(0, |section| section.virtual_address);
        Some(address.wrapping_add(offset.offset).wrapping_add(place))
    }

    fn addresses(&mut self, rows: &[DBISectionContribution], count: usize) -> Vec<u32> {
        (0..count).filter_map(|_| self.address(rows)).collect()
    }
}

/// The contributions of the module that the contribution in the middle is of.
fn of_one_module(rows: &[DBISectionContribution]) -> Vec<DBISectionContribution> {
    let Some(middle) = rows.get(rows.len() / 2) else { return Vec::new() };
    rows.iter().filter(|row| row.module == middle.module).copied().collect()
}

fn functions_at(context: &Context, addresses: &[u32]) -> Tally {
    let mut tally = Tally::default();
    for address in addresses {
        tally.add_function(context.find_function(*address));
    }
    tally
}

fn frames_at(context: &Context, addresses: &[u32]) -> Tally {
    let mut tally = Tally::default();
    for address in addresses {
        tally.add_frames(context, *address);
    }
    tally
}

/// The addresses have been listed before.
fn all_functions(context: &Context) -> Tally {
    let mut tally = Tally::default();
    for function in context.functions() {
        tally.add_function(Ok(Some(function)));
    }
    tally
}

/// Each address is asked of a new context. Only the asking is timed.
fn functions_of_new(data: &Data, addresses: &[u32]) -> (Tally, Duration) {
    let mut tally = Tally::default();
    let mut spent = Duration::ZERO;
    for address in addresses {
        let context = data.make_context().expect("it was built before");
        let (answer, time) = timed(|| context.find_function(*address));
        tally.add_function(answer);
        spent += time;
    }
    (tally, spent)
}

fn run(path: &str, times: bool) {
    let report = Report { times };
    println!("image {path}");
    let (description, spent) = timed(|| read(path));
    let image = &description.image;
    let (publics, rows, modules) = (image.publics.items.len(), &image.contributions.items, image.modules.len());
    report.line(format!("read publics {publics} contributions {} modules {modules}", rows.len()), spent);
    let data = data(image);
    let (context, spent) = timed(|| data.make_context().expect("the image is not refused"));
    let blocks = contribution_count(&context);
    report.line(format!("build starts {} contributions {blocks}", context.function_count()), spent);

    let mut places = Places { image, state: 1 };
    let near = places.addresses(&of_one_module(rows), ASKED);
    let far = places.addresses(rows, ASKED);
    let (tally, spent) = functions_of_new(&data, &far[..far.len().min(COLD)]);
    report.line(format!("cold {tally}"), spent);
    let (tally, spent) = timed(|| functions_at(&context, &near));
    report.line(format!("near {tally}"), spent);
    let (tally, spent) = timed(|| functions_at(&context, &far));
    report.line(format!("far {tally}"), spent);
    let (tally, spent) = timed(|| frames_at(&context, &near));
    report.line(format!("near-frames {tally}"), spent);
    let (tally, spent) = timed(|| frames_at(&context, &far));
    report.line(format!("far-frames {tally}"), spent);
    let (listing, spent) = timed(|| Listing::of(&context));
    report.line(format!("list addresses {}", listing.count()), spent);
    let (tally, spent) = timed(|| all_functions(&context));
    report.line(format!("cursor {tally}"), spent);
}
