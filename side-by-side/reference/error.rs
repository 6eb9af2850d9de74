//! Stands in for the original's module of this name.

#[derive(Debug)]
pub enum Error {
    Pdb(pdb::Error),
    /// The module and the section.
    UnorderedSectionContributions(usize, u16),
    /// The section, and the modules of the two.
    OverlappingSectionContributions(u16, usize, usize),
    ExtendedModuleInfoUnsuccessful,
    ProcedureLinesUnsuccessful,
    ProcedureInlineRangesUnsuccessful,
}

impl From<pdb::Error> for Error {
    fn from(error: pdb::Error) -> Self {
        Error::Pdb(error)
    }
}
