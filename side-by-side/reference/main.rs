//! Builds the original's context of each image that is described, and prints what it holds and answers, in the words of
//! docs/FORMAT.md: reference [--one-context] [--function-count] PATH..
//! Each question is asked of a new context, or with --one-context all of one, which shows what the original keeps.
//! The count of functions is that of the named starts, or with --function-count what the original's call of this name answers.

mod description;

use description::{Description, Question};
use pdb::PDB;
use pdb_addr2line::maybe_owned::MaybeOwned;
use pdb_addr2line::{held, named_starts, Context, ContextPdbData, Error, Frame, Function, Listing};
use std::fmt::Write as _;
use std::fs::File;
use std::io::Write as _;
use std::panic::{catch_unwind, AssertUnwindSafe};

fn main() {
    std::panic::set_hook(Box::new(|_| {}));
    let mut out = std::io::stdout().lock();
    let mut paths = std::env::args().skip(1).peekable();
    let mut option = |name: &str| paths.next_if(|word| word == name).is_some();
    let options = Options { one_context: option("--one-context"), function_count: option("--function-count") };
    for path in paths {
        let bytes = std::fs::read(&path).map_err(|error| error.to_string());
        let image = match bytes.and_then(|bytes| description::read(&bytes)) {
            Ok(description) => image_lines(&description, options),
            Err(error) => format!("unread: {error}\n"),
        };
        write!(out, "image {path}\n{image}").expect("standard output can be written");
    }
}

#[derive(Clone, Copy)]
struct Options {
    one_context: bool,
    function_count: bool,
}

/// What a piece of work prints, or that the original panicked in it.
fn caught(work: impl FnOnce() -> String) -> String {
    catch_unwind(AssertUnwindSafe(work)).unwrap_or("panicked\n".into())
}

fn image_lines(description: &Description, options: Options) -> String {
    caught(|| {
        let data = ContextPdbData::try_from_pdb(PDB::<File>::over(&description.image)).unwrap();
        let context = match data.make_context() {
            Ok(context) => context,
            Err(error) => return refused(error),
        };
        let mut lines = String::new();
        for (number, section) in (1..).zip(&description.image.sections) {
            let (address, size) = (section.virtual_address, section.virtual_size);
            let kind = if section.characteristics.execute() { "executable" } else { "data" };
            writeln!(lines, "section {number} {address:#x} {size:#x} {kind}").unwrap();
        }
        lines += &held(&context);
        let count = if options.function_count { context.function_count() } else { named_starts(&context) };
        writeln!(lines, "functions {count}").unwrap();
        let ask = || match options.one_context {
            true => MaybeOwned::Borrowed(&context),
            false => MaybeOwned::Owned(data.make_context().expect("it was built before")),
        };
        for question in &description.questions {
            lines += &question_lines(question, ask);
        }
        lines
    })
}

fn question_lines<'a: 'c, 'c>(
    question: &Question,
    context: impl Fn() -> MaybeOwned<'c, Context<'a, 'a>>,
) -> String {
    match *question {
        Question::Find(address) => {
            format!("{address:#x} ") + &caught(|| found(context().find_function(address)))
        }
        Question::Frames(address) => {
            format!("{address:#x} ") + &caught(|| frame_lines(&context(), address))
        }
        Question::Same(first, second) => {
            let answer = caught(|| same(context().find_function(first), context().find_function(second)));
            format!("same {first:#x} {second:#x} {answer}")
        }
        Question::List => caught(|| {
            let mut listing = Listing::of(&context());
            let mut lines = format!("addresses {}\n", listing.count());
            while let Some(function) = listing.next(&context()) {
                lines += &format!("listed {}\n", extent_and_name(&function));
            }
            lines
        }),
    }
}

fn found(answer: Result<Option<Function>, Error>) -> String {
    match answer {
        Ok(Some(function)) => format!("function {}\n", extent_and_name(&function)),
        Ok(None) => "none\n".into(),
        Err(error) => refused(error),
    }
}

fn same(first: Result<Option<Function>, Error>, second: Result<Option<Function>, Error>) -> String {
    match (first, second) {
        (Err(error), _) | (Ok(_), Err(error)) => refused(error),
        (Ok(Some(first)), Ok(Some(second))) => {
            let extents = [&first, &second].map(|function| (function.start_rva, function.end_rva));
            if extents[0] == extents[1] { "yes\n".into() } else { "no\n".into() }
        }
        _ => "unknown\n".into(),
    }
}

fn frame_lines(context: &Context, address: u32) -> String {
    let stack = match context.find_frames(address) {
        Ok(Some(stack)) => stack,
        Ok(None) => return "none\n".into(),
        Err(error) => return refused(error),
    };
    let (extent, count) = (extent(stack.start_rva, stack.end_rva), stack.frames.len());
    let mut lines = format!("frames {extent} {count}\n");
    for (number, frame) in stack.frames.iter().enumerate() {
        lines += &format!("{address:#x} frame {number} {}\n", frame_words(frame));
    }
    lines
}

fn frame_words(frame: &Frame) -> String {
    let mut words = name(&frame.function);
    if let Some(file) = &frame.file {
        words += &format!(" {file}");
    }
    if let Some(line) = frame.line {
        words += &format!(" line {line}");
    }
    words
}

fn extent_and_name(function: &Function) -> String {
    format!("{} {}", extent(function.start_rva, function.end_rva), name(&function.name))
}

fn extent(start: u32, end: Option<u32>) -> String {
    let end = end.map_or("-".into(), |end| format!("{end:#x}"));
    format!("{start:#x} {end}")
}

/// A name that was not formatted comes as it is, in quotes.
fn name(name: &Option<String>) -> String {
    match name {
        None => "unnamed".into(),
        Some(name) if name.starts_with('"') => format!("raw {name}"),
        Some(name) => name.clone(),
    }
}

/// The number of the refusal that this error is, and what the error tells.
fn refused(error: Error) -> String {
    match error {
        Error::Pdb(pdb::Error::Fault { list, code }) => format!("refused 16: code {code}, list {list}\n"),
        Error::UnorderedSectionContributions(module, section) => {
            format!("refused 9: module {module}, section {section}\n")
        }
        Error::OverlappingSectionContributions(section, first, second) => {
            format!("refused 10: modules {first} and {second}, section {section}\n")
        }
        error => format!("refused: {error:?}\n"),
    }
}
