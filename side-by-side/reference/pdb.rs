//! Stands in for the crate of this name: what the original asks of it, answered from an image that was described. With `--cfg plain` names come
//! without quotes and escapes and, as of the crate itself, where they can without being copied.

use std::borrow::Cow;
use std::collections::HashMap;
use std::marker::PhantomData;

// The image, as a description says it.

#[derive(Default)]
pub struct Image {
    pub text: Vec<u8>,
    pub sections: Vec<ImageSectionHeader>,
    pub publics: List<Record>,
    pub contributions: List<DBISectionContribution>,
    pub modules: Vec<ModuleRows>,
}

/// A list with its ending, which is clean or a fault with a code.
#[derive(Clone)]
pub struct List<T> {
    pub items: Vec<T>,
    pub fault: Option<u16>,
}

impl<T> Default for List<T> {
    fn default() -> Self {
        List { items: Vec::new(), fault: None }
    }
}

#[derive(Clone, Copy, PartialEq)]
pub enum State {
    Present,
    Absent,
    Broken,
}

pub struct ModuleRows {
    pub state: State,
    pub symbols: List<Record>,
    pub extras_fault: Option<u16>,
    pub lines: HashMap<PdbInternalSectionOffset, List<LineInfo>>,
    pub inlined: HashMap<(SymbolIndex, PdbInternalSectionOffset), List<LineInfo>>,
    pub files: HashMap<FileIndex, Part>,
}

/// A part of the text.
#[derive(Clone, Copy)]
pub struct Part {
    pub start: usize,
    pub len: usize,
}

#[derive(Clone, Copy)]
pub struct Record {
    pub index: u32,
    pub row: Row,
}

#[derive(Clone, Copy)]
pub enum Row {
    Public { offset: PdbInternalSectionOffset, name: Part },
    Procedure { offset: PdbInternalSectionOffset, len: u32, end: u32, number: u32, name: Part },
    Thunk { offset: PdbInternalSectionOffset, len: u16, end: u32, name: Part },
    Separated { offset: PdbInternalSectionOffset, len: u32, end: u32, parent: PdbInternalSectionOffset },
    Site { inlinee: u32, end: u32 },
    Other,
}

// Errors and iterators.

#[derive(Clone, Debug)]
pub enum Error {
    Fault { list: &'static str, code: u16 },
    Broken,
    Unparsed,
}

pub type Result<T> = std::result::Result<T, Error>;

pub trait FallibleIterator: Sized {
    type Item;

    fn next(&mut self) -> Result<Option<Self::Item>>;

    fn filter<P: FnMut(&Self::Item) -> Result<bool>>(self, keep: P) -> Filter<Self, P> {
        Filter { items: self, keep }
    }

    fn map<B, F: FnMut(Self::Item) -> Result<B>>(self, change: F) -> Map<Self, F> {
        Map { items: self, change }
    }

    fn collect<C: FromIterator<Self::Item>>(mut self) -> Result<C> {
        std::iter::from_fn(|| self.next().transpose()).collect()
    }
}

pub struct Filter<I, P> {
    items: I,
    keep: P,
}

impl<I: FallibleIterator, P: FnMut(&I::Item) -> Result<bool>> FallibleIterator for Filter<I, P> {
    type Item = I::Item;

    fn next(&mut self) -> Result<Option<I::Item>> {
        while let Some(item) = self.items.next()? {
            if (self.keep)(&item)? {
                return Ok(Some(item));
            }
        }
        Ok(None)
    }
}

pub struct Map<I, F> {
    items: I,
    change: F,
}

impl<B, I: FallibleIterator, F: FnMut(I::Item) -> Result<B>> FallibleIterator for Map<I, F> {
    type Item = B;

    fn next(&mut self) -> Result<Option<B>> {
        self.items.next()?.map(&mut self.change).transpose()
    }
}

/// The items of a list from some place on. The list's fault comes after them.
pub struct Items<'t, T> {
    items: &'t [T],
    fault: Option<Error>,
}

impl<'t, T> Items<'t, T> {
    fn of(list: &'t List<T>, name: &'static str) -> Self {
        let fault = list.fault.map(|code| Error::Fault { list: name, code });
        Items { items: &list.items, fault }
    }
}

impl<T: Copy> FallibleIterator for Items<'_, T> {
    type Item = T;

    fn next(&mut self) -> Result<Option<T>> {
        match (self.items.split_first(), &self.fault) {
            (Some((item, rest)), _) => {
                self.items = rest;
                Ok(Some(*item))
            }
            (None, Some(fault)) => Err(fault.clone()),
            (None, None) => Ok(None),
        }
    }
}

// Numbers and addresses.

#[derive(Clone, Copy, Debug, PartialEq, Eq, Hash)]
pub struct FileIndex(pub u32);

#[derive(Clone, Copy, Debug, PartialEq, Eq, PartialOrd, Ord)]
pub struct IdIndex(pub u32);

#[derive(Clone, Copy, Debug, PartialEq, Eq)]
pub struct TypeIndex(pub u32);

#[derive(Clone, Copy, Debug, PartialEq, Eq, PartialOrd, Ord, Hash)]
pub struct SymbolIndex(pub u32);

#[derive(Clone, Copy, Debug, PartialEq, Eq, Hash)]
pub struct PdbInternalSectionOffset {
    pub offset: u32,
    pub section: u16,
}

pub struct Rva(pub u32);

pub struct AddressMap<'s> {
    sections: &'s [ImageSectionHeader],
}

impl PdbInternalSectionOffset {
    pub fn new(section: u16, offset: u32) -> Self {
        PdbInternalSectionOffset { offset, section }
    }

    /// None without such a section, or where the address has more than 32 bits.
    pub fn to_rva(self, map: &AddressMap) -> Option<Rva> {
        let section = map.sections.get(usize::from(self.section).checked_sub(1)?)?;
        section.virtual_address.checked_add(self.offset).map(Rva)
    }
}

impl Rva {
    /// The first section that contains the address, and the place in it.
    pub fn to_internal_offset(self, map: &AddressMap) -> Option<PdbInternalSectionOffset> {
        (1..).zip(map.sections).find_map(|(number, section)| {
            let offset = self.0.checked_sub(section.virtual_address)?;
            (offset < section.virtual_size).then(|| PdbInternalSectionOffset::new(number, offset))
        })
    }
}

#[derive(Clone, Copy)]
pub struct ImageSectionHeader {
    pub virtual_address: u32,
    pub virtual_size: u32,
    pub characteristics: SectionCharacteristics,
}

#[derive(Clone, Copy)]
pub struct SectionCharacteristics {
    pub executable: bool,
}

impl SectionCharacteristics {
    pub fn execute(&self) -> bool {
        self.executable
    }
}

// The file and its streams.

pub trait Source<'s> {}

impl Source<'_> for std::fs::File {}

pub struct PDB<'s, S> {
    image: &'s Image,
    source: PhantomData<S>,
}

impl<'s, S: Source<'s>> PDB<'s, S> {
    pub fn over(image: &'s Image) -> Self {
        PDB { image, source: PhantomData }
    }

    pub fn global_symbols(&mut self) -> Result<SymbolTable<'s>> {
        Ok(SymbolTable { image: self.image })
    }

    pub fn debug_information(&mut self) -> Result<DebugInformation<'s>> {
        Ok(DebugInformation { image: self.image })
    }

    pub fn type_information(&mut self) -> Result<TypeInformation<'s>> {
        Ok(TypeInformation(PhantomData))
    }

    pub fn id_information(&mut self) -> Result<IdInformation<'s>> {
        Ok(IdInformation(PhantomData))
    }

    pub fn address_map(&mut self) -> Result<AddressMap<'s>> {
        Ok(AddressMap { sections: &self.image.sections })
    }

    pub fn string_table(&mut self) -> Result<StringTable<'s>> {
        Ok(StringTable(&self.image.text))
    }

    pub fn sections(&mut self) -> Result<Option<Vec<ImageSectionHeader>>> {
        Ok(Some(self.image.sections.clone()))
    }

    pub fn module_info(&mut self, module: &Module) -> Result<Option<ModuleInfo<'s>>> {
        let rows = &self.image.modules[module.number];
        match rows.state {
            State::Absent => Ok(None),
            State::Broken => Err(Error::Broken),
            State::Present => Ok(Some(ModuleInfo { text: &self.image.text, rows })),
        }
    }
}

pub struct TypeInformation<'s>(PhantomData<&'s ()>);
pub struct IdInformation<'s>(PhantomData<&'s ()>);
pub struct StringTable<'s>(&'s [u8]);

pub struct SymbolTable<'s> {
    image: &'s Image,
}

impl SymbolTable<'_> {
    pub fn iter(&self) -> SymbolIter<'_> {
        SymbolIter::over(&self.image.text, &self.image.publics, "public symbols")
    }
}

pub struct DebugInformation<'s> {
    image: &'s Image,
}

impl DebugInformation<'_> {
    pub fn modules(&self) -> Result<ModuleIter<'_>> {
        Ok(ModuleIter { numbers: 0..self.image.modules.len(), of: PhantomData })
    }

    pub fn section_contributions(&self) -> Result<Items<'_, DBISectionContribution>> {
        Ok(Items::of(&self.image.contributions, "contributions"))
    }
}

#[derive(Clone, Copy)]
pub struct DBISectionContribution {
    pub offset: PdbInternalSectionOffset,
    pub size: u32,
    pub module: usize,
}

pub struct Module<'m> {
    number: usize,
    of: PhantomData<&'m ()>,
}

pub struct ModuleIter<'m> {
    numbers: std::ops::Range<usize>,
    of: PhantomData<&'m ()>,
}

impl<'m> FallibleIterator for ModuleIter<'m> {
    type Item = Module<'m>;

    fn next(&mut self) -> Result<Option<Module<'m>>> {
        Ok(self.numbers.next().map(|number| Module { number, of: self.of }))
    }
}

// What a module says.

pub struct ModuleInfo<'s> {
    text: &'s [u8],
    rows: &'s ModuleRows,
}

impl<'s> ModuleInfo<'s> {
    pub fn symbols(&self) -> Result<SymbolIter<'_>> {
        Ok(SymbolIter::over(self.text, &self.rows.symbols, "symbols"))
    }

    pub fn symbols_at(&self, index: SymbolIndex) -> Result<SymbolIter<'_>> {
        let mut symbols = self.symbols()?;
        symbols.pass(index);
        Ok(symbols)
    }

    /// A fault of the extras is met here, or by the inlinees, or at their end, as its code says.
    fn extras(&self, part: u16) -> Result<()> {
        match self.rows.extras_fault {
            Some(code) if code % 3 == part => Err(Error::Fault { list: "extras", code }),
            _ => Ok(()),
        }
    }

    pub fn line_program(&self) -> Result<LineProgram<'_>> {
        self.extras(0)?;
        Ok(LineProgram { rows: self.rows })
    }

    pub fn inlinees(&self) -> Result<InlineeIter<'_>> {
        self.extras(1)?;
        Ok(InlineeIter { rows: self.rows, records: self.rows.symbols.items.iter(), end: self.extras(2) })
    }
}

#[derive(Clone, Copy)]
pub struct LineInfo {
    pub offset: PdbInternalSectionOffset,
    pub length: Option<u32>,
    pub file_index: FileIndex,
    pub line_start: u32,
}

static NOTHING: List<LineInfo> = List { items: Vec::new(), fault: None };

pub struct LineProgram<'m> {
    rows: &'m ModuleRows,
}

impl<'m> LineProgram<'m> {
    pub fn lines_for_symbol(&self, offset: PdbInternalSectionOffset) -> Items<'m, LineInfo> {
        Items::of(self.rows.lines.get(&offset).unwrap_or(&NOTHING), "line rows")
    }

    pub fn get_file_info(&self, index: FileIndex) -> Result<FileInfo> {
        let part = self.rows.files.get(&index).copied();
        Ok(FileInfo { name: StringRef { index, part } })
    }
}

pub struct FileInfo {
    pub name: StringRef,
}

pub struct StringRef {
    index: FileIndex,
    part: Option<Part>,
}

impl StringRef {
    /// Every number is answered, so that what is printed can tell a file without a name from no file.
    pub fn to_string_lossy<'s>(&self, table: &'s StringTable) -> Result<Cow<'s, str>> {
        let name = self.part.map(|part| RawString(part.of(table.0)).to_string());
        if cfg!(plain) {
            return name.ok_or(Error::Unparsed);
        }
        let name = name.unwrap_or("unnamed".into());
        Ok(Cow::Owned(format!("file {} {name}", self.index.0)))
    }
}

pub struct Inlinee<'m> {
    index: IdIndex,
    rows: &'m ModuleRows,
}

impl<'m> Inlinee<'m> {
    pub fn index(&self) -> IdIndex {
        self.index
    }

    pub fn lines(&self, start: PdbInternalSectionOffset, site: &InlineSiteSymbol) -> Items<'m, LineInfo> {
        Items::of(self.rows.inlined.get(&(site.index, start)).unwrap_or(&NOTHING), "site rows")
    }
}

/// The inlinees of a module's sites. One that comes twice is listed twice.
pub struct InlineeIter<'m> {
    rows: &'m ModuleRows,
    records: std::slice::Iter<'m, Record>,
    end: Result<()>,
}

impl<'m> FallibleIterator for InlineeIter<'m> {
    type Item = Inlinee<'m>;

    fn next(&mut self) -> Result<Option<Inlinee<'m>>> {
        for record in &mut self.records {
            if let Row::Site { inlinee, .. } = record.row {
                return Ok(Some(Inlinee { index: IdIndex(inlinee), rows: self.rows }));
            }
        }
        self.end.clone().map(|()| None)
    }
}

// Symbols.

pub struct SymbolIter<'t> {
    text: &'t [u8],
    records: Items<'t, Record>,
}

impl<'t> SymbolIter<'t> {
    fn over(text: &'t [u8], list: &'t List<Record>, name: &'static str) -> Self {
        SymbolIter { text, records: Items::of(list, name) }
    }

    fn pass(&mut self, index: SymbolIndex) {
        let passed = self.records.items.partition_point(|record| record.index < index.0);
        self.records.items = &self.records.items[passed..];
    }

    /// The first record at or past the index, of those that are left.
    pub fn skip_to(&mut self, index: SymbolIndex) -> Result<Option<Symbol<'t>>> {
        self.pass(index);
        self.next()
    }
}

impl<'t> FallibleIterator for SymbolIter<'t> {
    type Item = Symbol<'t>;

    fn next(&mut self) -> Result<Option<Symbol<'t>>> {
        let record = self.records.next()?;
        Ok(record.map(|record| Symbol { text: self.text, record }))
    }
}

pub struct Symbol<'t> {
    text: &'t [u8],
    record: Record,
}

/// The kinds that CodeView has for one and the same row. The index of a record chooses among them, so that all are tried.
const PUBLICS: &[u16] = &[0x110e, 0x1009];
const PROCEDURES: &[u16] = &[0x1110, 0x110f, 0x1147, 0x1146, 0x100b, 0x100a, 0x1155, 0x1156];
const THUNKS: &[u16] = &[0x1102, 0x0206];
const SITES: &[u16] = &[0x114d, 0x115d];
/// The end of a scope, a block, and kinds whose record is one that cannot be parsed.
const OTHERS: &[u16] = &[0x0006, 0x1110, 0x1103, 0x114d, 0x1132, 0x1102];

impl<'t> Symbol<'t> {
    pub fn index(&self) -> SymbolIndex {
        SymbolIndex(self.record.index)
    }

    pub fn raw_kind(&self) -> u16 {
        let kinds = match self.record.row {
            Row::Public { .. } => PUBLICS,
            Row::Procedure { .. } => PROCEDURES,
            Row::Thunk { .. } => THUNKS,
            Row::Separated { .. } => &[0x1132],
            Row::Site { .. } => SITES,
            Row::Other => OTHERS,
        };
        kinds[self.record.index as usize % kinds.len()]
    }

    pub fn parse(&self) -> Result<SymbolData<'t>> {
        let name = |part: Part| RawString(part.of(self.text));
        Ok(match self.record.row {
            Row::Public { offset, name: part } => {
                SymbolData::Public(PublicSymbol { offset, name: name(part) })
            }
            Row::Procedure { offset, len, end, number, name: part } => {
                SymbolData::Procedure(ProcedureSymbol {
                    offset,
                    len,
                    end: SymbolIndex(end),
                    type_index: TypeIndex(number),
                    name: name(part),
                })
            }
            Row::Thunk { offset, len, end, name: part } => {
                SymbolData::Thunk(ThunkSymbol { offset, len, end: SymbolIndex(end), name: name(part) })
            }
            Row::Separated { offset, len, end, parent } => {
                SymbolData::SeparatedCode(SeparatedCodeSymbol {
                    offset,
                    len,
                    end: SymbolIndex(end),
                    parent_offset: parent,
                })
            }
            Row::Site { inlinee, end } => SymbolData::InlineSite(InlineSiteSymbol {
                index: self.index(),
                inlinee: IdIndex(inlinee),
                end: SymbolIndex(end),
            }),
            Row::Other => return Err(Error::Unparsed),
        })
    }
}

pub enum SymbolData<'t> {
    Public(PublicSymbol<'t>),
    Procedure(ProcedureSymbol<'t>),
    Thunk(ThunkSymbol<'t>),
    SeparatedCode(SeparatedCodeSymbol),
    InlineSite(InlineSiteSymbol),
}

pub struct PublicSymbol<'t> {
    pub offset: PdbInternalSectionOffset,
    pub name: RawString<'t>,
}

pub struct ProcedureSymbol<'t> {
    pub offset: PdbInternalSectionOffset,
    pub len: u32,
    pub end: SymbolIndex,
    pub type_index: TypeIndex,
    pub name: RawString<'t>,
}

pub struct ThunkSymbol<'t> {
    pub offset: PdbInternalSectionOffset,
    pub len: u16,
    pub end: SymbolIndex,
    pub name: RawString<'t>,
}

pub struct SeparatedCodeSymbol {
    pub offset: PdbInternalSectionOffset,
    pub len: u32,
    pub end: SymbolIndex,
    pub parent_offset: PdbInternalSectionOffset,
}

pub struct InlineSiteSymbol {
    /// The record's own index, by which a description tells the rows of a site.
    index: SymbolIndex,
    pub inlinee: IdIndex,
    pub end: SymbolIndex,
}

// Names.

impl Part {
    pub fn of(self, text: &[u8]) -> &[u8] {
        &text[self.start..self.start + self.len]
    }
}

#[derive(Clone, Copy, Debug)]
pub struct RawString<'t>(&'t [u8]);

impl<'t> RawString<'t> {
    pub fn as_bytes(&self) -> &'t [u8] {
        self.0
    }

    /// The name as it is printed: in quotes, with escapes, so that no byte is lost.
    pub fn to_string(&self) -> Cow<'t, str> {
        if cfg!(plain) {
            return String::from_utf8_lossy(self.0);
        }
        Cow::Owned(quoted(self.0))
    }
}

pub fn quoted(bytes: &[u8]) -> String {
    let escaped = bytes.iter().map(|byte| match byte {
        b'"' => "\\\"".to_string(),
        b'\\' => "\\\\".to_string(),
        b' '..=b'~' => char::from(*byte).to_string(),
        _ => format!("\\x{byte:02x}"),
    });
    format!("\"{}\"", escaped.collect::<String>())
}
