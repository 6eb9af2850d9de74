//! Stands in for the original's module of this name. A name is handed back with what it was asked for with, so that
//! it can be told from a name that the original did not have formatted; with `--cfg plain` alone. Standing inside the original's
//! crate, this module also sees what a context holds.

use crate::{Context, Error, Function, FunctionIter};
use pdb::{
    DebugInformation, FallibleIterator, IdIndex, IdInformation, Module, ModuleInfo, StringTable,
    TypeIndex, TypeInformation,
};
use std::sync::Arc;

pub trait ModuleProvider<'s> {
    fn get_module_info(
        &self,
        module_index: usize,
        module: &Module,
    ) -> Result<Option<&ModuleInfo<'s>>, pdb::Error>;
}

#[derive(Default)]
pub struct TypeFormatterFlags;

pub struct TypeFormatter<'a, 's> {
    modules: Vec<Module<'a>>,
    _provider: &'a (dyn ModuleProvider<'s> + Sync),
}

impl<'a, 's> TypeFormatter<'a, 's> {
    pub fn new_from_parts(
        provider: &'a (dyn ModuleProvider<'s> + Sync),
        modules: Vec<Module<'a>>,
        _: &DebugInformation<'s>,
        _: &'a TypeInformation<'s>,
        _: &'a IdInformation<'s>,
        _: Option<&'a StringTable<'s>>,
        _: TypeFormatterFlags,
    ) -> Result<Self, pdb::Error> {
        Ok(TypeFormatter { modules, _provider: provider })
    }

    pub fn modules(&self) -> &[Module<'a>] {
        &self.modules
    }

    pub fn format_function(
        &self,
        name: &str,
        module: usize,
        number: TypeIndex,
    ) -> Result<String, Error> {
        if cfg!(plain) {
            return Ok(name.into());
        }
        Ok(format!("typed {name} module {module} type {}", number.0))
    }

    pub fn format_id(&self, module: usize, inlinee: IdIndex) -> Result<String, Error> {
        Ok(format!("inlinee {} module {module}", inlinee.0))
    }
}

/// The lines that say what a context holds, without its sections and the count of functions.
pub fn held(context: &Context) -> String {
    let mut lines = String::new();
    for block in &context.section_contributions {
        lines += &format!(
            "contribution {}:{:#x} {:#x} {}\n",
            block.section_index, block.start_offset, block.end_offset, block.module_index
        );
    }
    for start in &context.global_functions {
        lines += &format!("start {}:{:#x}", start.start_offset.section, start.start_offset.offset);
        if let Some(name) = start.name {
            lines += &format!(" {}", name.to_string());
        }
        lines.push('\n');
    }
    lines
}

/// What the port counts as functions.
pub fn named_starts(context: &Context) -> usize {
    context.global_functions.iter().filter(|start| start.name.is_some()).count()
}

/// How many contributions a context holds.
pub fn contribution_count(context: &Context) -> usize {
    context.section_contributions.len()
}

/// The original's list of functions: its addresses, and how far the original's iterator went over them.
pub struct Listing {
    addresses: Arc<Vec<u32>>,
    place: usize,
}

impl Listing {
    pub fn of(context: &Context) -> Self {
        Listing { addresses: context.functions().full_rva_list, place: 0 }
    }

    pub fn count(&self) -> usize {
        self.addresses.len()
    }

    /// The iterator's next function, on a context that may be another one than before.
    pub fn next(&mut self, context: &Context) -> Option<Function> {
        let full_rva_list = self.addresses.clone();
        let mut iterator = FunctionIter { context, full_rva_list, cur_index: self.place };
        let function = iterator.next();
        self.place = iterator.cur_index;
        function
    }
}
