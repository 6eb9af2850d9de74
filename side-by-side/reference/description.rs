//! Reads the description of an image, as docs/FORMAT.md defines it. Only good descriptions are wanted here: what is
//! wrong with another one is said in a few words.

use pdb::{
    DBISectionContribution, FileIndex, Image, ImageSectionHeader, LineInfo, List, ModuleRows, Part,
    PdbInternalSectionOffset, Record, Row, SectionCharacteristics, State, SymbolIndex,
};
use std::collections::HashSet;

pub enum Question {
    Find(u32),
    Frames(u32),
    Same(u32, u32),
    List,
}

#[derive(Default)]
pub struct Description {
    pub image: Image,
    pub questions: Vec<Question>,
    hidden: HashSet<usize>,
    /// The newest `lines` and `inlined` of the last module.
    lines: Option<PdbInternalSectionOffset>,
    inlined: Option<(SymbolIndex, PdbInternalSectionOffset)>,
}

type Reading<T> = Result<T, String>;

pub fn read(bytes: &[u8]) -> Reading<Description> {
    let mut description = Description::default();
    for (number, line) in (1..).zip(bytes.split(|byte| *byte == b'\n')) {
        description.read_line(line).map_err(|error| format!("line {number}: {error}"))?;
    }
    let modules = &mut description.image.modules;
    for number in &description.hidden {
        if let Some(module) = modules.get_mut(*number) {
            module.state = State::Absent;
        }
    }
    Ok(description)
}

enum Word {
    Plain(String),
    Quoted(Vec<u8>),
}

fn cut(mut line: &[u8]) -> Reading<Vec<Word>> {
    let mut words = Vec::new();
    while let Some(first) = line.first() {
        match first {
            b' ' | b'\t' | b'\r' => line = &line[1..],
            b'#' => break,
            b'"' => {
                let (bytes, rest) = unquote(&line[1..])?;
                words.push(Word::Quoted(bytes));
                line = rest;
            }
            _ => {
                let ends = |byte: &u8| b" \t\r#\"".contains(byte);
                let length = line.iter().position(ends).unwrap_or(line.len());
                words.push(Word::Plain(String::from_utf8_lossy(&line[..length]).into_owned()));
                line = &line[length..];
            }
        }
    }
    Ok(words)
}

/// The bytes up to the closing quote, and what stands after it.
fn unquote(mut line: &[u8]) -> Reading<(Vec<u8>, &[u8])> {
    let mut bytes = Vec::new();
    loop {
        let (byte, rest) = match line {
            [b'"', rest @ ..] => return Ok((bytes, rest)),
            [b'\\', b'n', rest @ ..] => (b'\n', rest),
            [b'\\', b't', rest @ ..] => (b'\t', rest),
            [b'\\', b'r', rest @ ..] => (b'\r', rest),
            [b'\\', b'x', high, low, rest @ ..] => {
                let digit = |byte: u8| char::from(byte).to_digit(16).ok_or("an escape");
                ((digit(*high)? * 16 + digit(*low)?) as u8, rest)
            }
            [b'\\', byte @ (b'"' | b'\\'), rest @ ..] => (*byte, rest),
            [b'\\', ..] => return Err("an escape".into()),
            [byte, rest @ ..] => (*byte, rest),
            [] => return Err("no closing quote".into()),
        };
        bytes.push(byte);
        line = rest;
    }
}

struct Words(std::vec::IntoIter<Word>);

impl Words {
    fn plain(&mut self) -> Reading<String> {
        match self.0.next() {
            Some(Word::Plain(word)) => Ok(word),
            _ => Err("a plain word is missing".into()),
        }
    }

    fn quoted(&mut self) -> Reading<Vec<u8>> {
        match self.0.next() {
            Some(Word::Quoted(bytes)) => Ok(bytes),
            _ => Err("a quoted word is missing".into()),
        }
    }

    fn number(&mut self) -> Reading<u32> {
        number(&self.plain()?)
    }

    fn small(&mut self) -> Reading<u16> {
        small(self.number()?)
    }

    fn offset(&mut self) -> Reading<PdbInternalSectionOffset> {
        let word = self.plain()?;
        let (section, offset) = word.split_once(':').ok_or("an offset")?;
        Ok(PdbInternalSectionOffset::new(small(number(section)?)?, number(offset)?))
    }

    fn ending(&mut self) -> Reading<Option<u16>> {
        match self.plain()?.as_str() {
            "clean" | "readable" => Ok(None),
            "fault" => self.small().map(Some),
            _ => Err("an ending".into()),
        }
    }

    /// The ending after the start of a list, which is clean if nothing is said.
    fn list_ending(&mut self) -> Reading<Option<u16>> {
        if self.0.len() == 0 { Ok(None) } else { self.ending() }
    }

    /// The ending of a whole list, after the word `end`.
    fn end(&mut self) -> Reading<Option<u16>> {
        if self.plain()? == "end" { self.ending() } else { Err("an ending".into()) }
    }
}

fn number(word: &str) -> Reading<u32> {
    let number = match word.strip_prefix("0x") {
        Some(digits) => u32::from_str_radix(digits, 16),
        None => word.parse(),
    };
    number.map_err(|_| format!("no number: {word}"))
}

fn small(number: u32) -> Reading<u16> {
    u16::try_from(number).map_err(|_| "a number of 16 bits".into())
}

impl Description {
    fn read_line(&mut self, line: &[u8]) -> Reading<()> {
        let mut words = Words(cut(line)?.into_iter());
        if words.0.len() == 0 {
            return Ok(());
        }
        let first = words.plain()?;
        self.read_row(&first, &mut words)?;
        if words.0.len() == 0 { Ok(()) } else { Err("a word too many".into()) }
    }

    fn read_row(&mut self, first: &str, words: &mut Words) -> Reading<()> {
        match first {
            "text" => self.image.text.extend(words.quoted()?),
            "section" => {
                let (virtual_address, virtual_size) = (words.number()?, words.number()?);
                let executable = words.plain()? == "executable";
                let characteristics = SectionCharacteristics { executable };
                let section = ImageSectionHeader { virtual_address, virtual_size, characteristics };
                self.image.sections.push(section);
            }
            "public" => {
                let index = self.image.publics.items.len() as u32;
                let row = Row::Public { offset: words.offset()?, name: self.name(words)? };
                self.image.publics.items.push(Record { index, row });
            }
            "contribution" => {
                let (offset, size) = (words.offset()?, words.number()?);
                let module = usize::from(words.small()?);
                self.image.contributions.items.push(DBISectionContribution { offset, size, module });
            }
            "publics" => self.image.publics.fault = words.end()?,
            "contributions" => self.image.contributions.fault = words.end()?,
            // The original has no such tables.
            "table" => {
                words.plain()?;
                words.number()?;
            }
            "module" => self.add_module(&words.plain()?)?,
            "symbols" => self.module()?.symbols.fault = words.end()?,
            "extras" => self.module()?.extras_fault = words.ending()?,
            "file" => {
                let (number, name) = (words.number()?, self.name(words)?);
                self.module()?.files.insert(FileIndex(number), name);
            }
            "lines" => {
                let start = words.offset()?;
                let list = List { items: Vec::new(), fault: words.list_ending()? };
                self.module()?.lines.insert(start, list);
                self.lines = Some(start);
            }
            "inlined" => {
                let key = (SymbolIndex(words.number()?), words.offset()?);
                let list = List { items: Vec::new(), fault: words.list_ending()? };
                self.module()?.inlined.insert(key, list);
                self.inlined = Some(key);
            }
            "line" => {
                let start = self.lines.ok_or("no lines stand above")?;
                let row = line_info(start, words.number()?, None, words)?;
                self.module()?.lines.get_mut(&start).ok_or("no lines")?.items.push(row);
            }
            "range" => {
                let key = self.inlined.ok_or("no inlined stands above")?;
                let place = words.number()?;
                let length = match words.plain()?.as_str() {
                    "none" => None,
                    word => Some(number(word)?),
                };
                let row = line_info(key.1, place, length, words)?;
                self.module()?.inlined.get_mut(&key).ok_or("no inlined")?.items.push(row);
            }
            "hide" => {
                self.hidden.insert(usize::from(words.small()?));
            }
            "find" => self.questions.push(Question::Find(words.number()?)),
            "frames" => self.questions.push(Question::Frames(words.number()?)),
            "same" => self.questions.push(Question::Same(words.number()?, words.number()?)),
            "list" => self.questions.push(Question::List),
            _ => self.add_record(first, words)?,
        }
        Ok(())
    }

    fn add_record(&mut self, first: &str, words: &mut Words) -> Reading<()> {
        let index = words.number()?;
        let row = match first {
            "procedure" => Row::Procedure {
                offset: words.offset()?,
                len: words.number()?,
                end: words.number()?,
                number: words.number()?,
                name: self.name(words)?,
            },
            "thunk" => Row::Thunk {
                offset: words.offset()?,
                len: words.small()?,
                end: words.number()?,
                name: self.name(words)?,
            },
            "separated" => Row::Separated {
                offset: words.offset()?,
                len: words.number()?,
                end: words.number()?,
                parent: words.offset()?,
            },
            "site" => Row::Site { inlinee: words.number()?, end: words.number()? },
            "other" => Row::Other,
            _ => return Err(format!("no row: {first}")),
        };
        self.module()?.symbols.items.push(Record { index, row });
        Ok(())
    }

    fn add_module(&mut self, word: &str) -> Reading<()> {
        let state = match word {
            "present" => State::Present,
            "absent" => State::Absent,
            "broken" => State::Broken,
            _ => return Err("a module's state".into()),
        };
        self.image.modules.push(ModuleRows {
            state,
            symbols: List::default(),
            extras_fault: None,
            lines: Default::default(),
            inlined: Default::default(),
            files: Default::default(),
        });
        self.lines = None;
        self.inlined = None;
        Ok(())
    }

    fn module(&mut self) -> Reading<&mut ModuleRows> {
        self.image.modules.last_mut().ok_or("no module stands above".into())
    }

    /// A quoted name goes to the end of the text.
    fn name(&mut self, words: &mut Words) -> Reading<Part> {
        match words.0.next() {
            Some(Word::Quoted(bytes)) => {
                let part = Part { start: self.image.text.len(), len: bytes.len() };
                self.image.text.extend(bytes);
                Ok(part)
            }
            Some(Word::Plain(word)) => {
                let (start, len) = word.split_once('+').ok_or("a name")?;
                Ok(Part { start: number(start)? as usize, len: number(len)? as usize })
            }
            None => Err("a name is missing".into()),
        }
    }
}

fn line_info(
    start: PdbInternalSectionOffset,
    place: u32,
    length: Option<u32>,
    words: &mut Words,
) -> Reading<LineInfo> {
    let offset = PdbInternalSectionOffset::new(start.section, place);
    let (file_index, line_start) = (FileIndex(words.number()?), words.number()?);
    Ok(LineInfo { offset, length, file_index, line_start })
}
