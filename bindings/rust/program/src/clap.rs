//! The calls of Rattle's `clap`, by that of the ecosystem.
use std::marker::PhantomData;
use wurstlinen::rattle::alloc::{AllocError, Global};

pub use clap::ArgAction;

pub mod error {
    //! Why arguments fit no command.

    /// Why arguments fit no command.
    #[derive(Clone, Copy, Debug, PartialEq, Eq)]
    pub enum ErrorKind {
        /// They fit none.
        Arguments,
        /// Out of memory.
        OutOfMemory,
    }
}

/// Why arguments fit no command.
#[derive(Debug)]
pub struct Error;

impl Error {
    /// What kind of fault it is.
    pub fn kind(&self) -> error::ErrorKind {
        error::ErrorKind::Arguments
    }
}

/// An argument of a command.
pub struct Arg<'a>(clap::Arg, PhantomData<&'a ()>);

impl<'a> Arg<'a> {
    /// A positional argument with this name.
    pub fn new(_: Global, name: &'static str) -> Arg<'a> {
        Arg(clap::Arg::new(name), PhantomData)
    }

    /// Whether it has to be given.
    pub fn required(self, required: bool) -> Arg<'a> {
        Arg(self.0.required(required), PhantomData)
    }

    /// Makes it an option.
    pub fn long(self, name: &'static str) -> Arg<'a> {
        Arg(self.0.long(name), PhantomData)
    }

    /// What it does with its value.
    pub fn action(self, action: ArgAction) -> Arg<'a> {
        Arg(self.0.action(action), PhantomData)
    }
}

/// A command, or the program.
pub struct Command<'a>(clap::Command, PhantomData<&'a ()>);

impl<'a> Command<'a> {
    /// A command with this name.
    pub fn new(_: Global, name: &'static str) -> Command<'a> {
        Command(clap::Command::new(name), PhantomData)
    }

    /// Whether the first argument is one of the command.
    pub fn no_binary_name(self, is_so: bool) -> Command<'a> {
        Command(self.0.no_binary_name(is_so), PhantomData)
    }

    /// Whether a command has to be given.
    pub fn subcommand_required(self, is_so: bool) -> Command<'a> {
        Command(self.0.subcommand_required(is_so), PhantomData)
    }

    /// Whether it has no option for help.
    pub fn disable_help_flag(self, is_so: bool) -> Command<'a> {
        Command(self.0.disable_help_flag(is_so), PhantomData)
    }

    /// Whether it has no command for help.
    pub fn disable_help_subcommand(self, is_so: bool) -> Command<'a> {
        Command(self.0.disable_help_subcommand(is_so), PhantomData)
    }

    /// The same with one more command.
    pub fn subcommand(self, command: Command<'a>) -> Result<Command<'a>, AllocError> {
        Ok(Command(self.0.subcommand(command.0), PhantomData))
    }

    /// The same with one more argument.
    pub fn arg(self, argument: Arg<'a>) -> Result<Command<'a>, AllocError> {
        Ok(Command(self.0.arg(argument.0), PhantomData))
    }

    /// What is found in arguments.
    pub fn try_get_matches_from<'w>(self, words: &'w [&'w str]) -> Result<ArgMatches<'w>, Error> {
        let found = self.0.try_get_matches_from(words).map_err(|_| Error)?;
        Ok(ArgMatches::new(&found, words))
    }
}

/// What was found in arguments. Each value is a part of one of them.
pub struct ArgMatches<'a> {
    values: Vec<(String, Vec<&'a str>)>,
    command: Option<(String, Box<ArgMatches<'a>>)>,
}

impl<'a> ArgMatches<'a> {
    fn new(found: &clap::ArgMatches, words: &[&'a str]) -> ArgMatches<'a> {
        let names = found.ids().map(|id| id.as_str().to_string());
        let values = names.map(|name| (values_of(found, &name, words), name));
        let values = values.map(|(values, name)| (name, values)).collect();
        let command = found.subcommand();
        let command = command.map(|(name, found)| (name.to_string(), Box::new(ArgMatches::new(found, words))));
        ArgMatches { values, command }
    }

    /// The command, and what was found in its arguments.
    pub fn subcommand(&self) -> Option<(&str, &ArgMatches<'a>)> {
        self.command.as_ref().map(|(name, found)| (name.as_str(), &**found))
    }

    /// The first value of an argument.
    pub fn get_str(&self, name: &str) -> Option<&'a str> {
        self.get_strs(name)?.first().copied()
    }

    /// All values of an argument.
    pub fn get_strs(&self, name: &str) -> Option<&[&'a str]> {
        self.values.iter().find(|(known, _)| known == name).map(|(_, values)| values.as_slice())
    }
}

// The values of an argument; that of a flag is `true`.
fn values_of<'a>(found: &clap::ArgMatches, name: &str, words: &[&'a str]) -> Vec<&'a str> {
    match found.try_get_many::<String>(name) {
        Ok(values) => values.into_iter().flatten().filter_map(|value| word_with(value, words)).collect(),
        Err(_) if found.get_flag(name) => vec!["true"],
        Err(_) => Vec::new(),
    }
}

// The part of a word that is this value: all of it, or what follows `=`.
fn word_with<'a>(value: &str, words: &[&'a str]) -> Option<&'a str> {
    let behind = |word: &&'a str| word.split_once('=').map(|(_, value)| value);
    let parts = words.iter().copied().chain(words.iter().filter_map(behind));
    parts.into_iter().find(|part| *part == value)
}
