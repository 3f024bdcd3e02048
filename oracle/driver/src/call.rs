//! The calls that both sides take, and their answers.

use reference::oracle::Trap;
use std::fmt;

/// A call with its arguments.
#[derive(Clone, Debug, Eq, PartialEq)]
pub enum Call {
    Allow { base: u64, size: u64, attributes: u64 },
    Handle { base: u64, size: u64, read: u64, write: u64 },
    Release { base: u64, size: u64 },
    Find { ipa: u64 },
    Save { core: u64, registers: [u64; 33] },
    Trap { core: u64, trap: Trap },
    Reply { core: u64, kind: u64, values: [u64; 18], error: i32 },
    ReadGpr { core: u64, index: u64 },
    WriteGpr { core: u64, index: u64, value: u64 },
    Insert { key: u64, entry_point: u64, context_id: u64 },
    LookUp { key: u64 },
    Remove { key: u64 },
    Decode { iss: u32, fipa: u64, far: u64 },
    Extend { iss: u32, value: u64 },
    AlignDown { address: u64 },
    AlignUp { address: u64 },
}

impl Call {
    /// The name of its kind.
    pub fn name(&self) -> &'static str {
        match self {
            Self::Allow { .. } => "allow",
            Self::Handle { .. } => "handle",
            Self::Release { .. } => "release",
            Self::Find { .. } => "find",
            Self::Save { .. } => "save",
            Self::Trap { .. } => "trap",
            Self::Reply { .. } => "reply",
            Self::ReadGpr { .. } => "read_gpr",
            Self::WriteGpr { .. } => "write_gpr",
            Self::Insert { .. } => "insert",
            Self::LookUp { .. } => "look-up",
            Self::Remove { .. } => "remove",
            Self::Decode { .. } => "decode",
            Self::Extend { .. } => "extend",
            Self::AlignDown { .. } => "align down",
            Self::AlignUp { .. } => "align up",
        }
    }

    /// The arguments, in the order in which the C interface has them.
    pub fn arguments(&self) -> Vec<u64> {
        match *self {
            Self::Allow { base, size, attributes } => vec![base, size, attributes],
            Self::Handle { base, size, read, write } => vec![base, size, read, write],
            Self::Release { base, size } => vec![base, size],
            Self::Find { ipa } => vec![ipa],
            Self::Save { core, registers } => [&[core], &registers[..]].concat(),
            Self::Trap { core, trap } => vec![core, trap.esr, trap.fipa, trap.far, trap.vbar],
            Self::Reply { core, kind, values, error } => {
                [&[core, kind], &values[..], &[u64::from(error.cast_unsigned())]].concat()
            }
            Self::ReadGpr { core, index } => vec![core, index],
            Self::WriteGpr { core, index, value } => vec![core, index, value],
            Self::Insert { key, entry_point, context_id } => vec![key, entry_point, context_id],
            Self::LookUp { key } | Self::Remove { key } => vec![key],
            Self::Decode { iss, fipa, far } => vec![iss.into(), fipa, far],
            Self::Extend { iss, value } => vec![iss.into(), value],
            Self::AlignDown { address } | Self::AlignUp { address } => vec![address],
        }
    }

    /// The core whose record it may change.
    pub fn core(&self) -> Option<u64> {
        match *self {
            Self::Save { core, .. }
            | Self::Trap { core, .. }
            | Self::Reply { core, .. }
            | Self::WriteGpr { core, .. } => Some(core),
            _ => None,
        }
    }
}

/// The names of the arguments; those of save and reply stand for several words each.
fn argument_names(call: &Call) -> &'static [&'static str] {
    match call {
        Call::Allow { .. } => &["base", "size", "attributes"],
        Call::Handle { .. } => &["base", "size", "read", "write"],
        Call::Release { .. } => &["base", "size"],
        Call::Find { .. } => &["ipa"],
        Call::Save { .. } => &["core", "x0 to x30, ELR, SPSR"],
        Call::Trap { .. } => &["core", "esr", "fipa", "far", "vbar"],
        Call::Reply { .. } => &["core", "kind", "values, error"],
        Call::ReadGpr { .. } => &["core", "index"],
        Call::WriteGpr { .. } => &["core", "index", "value"],
        Call::Insert { .. } => &["key", "entry_point", "context_id"],
        Call::LookUp { .. } | Call::Remove { .. } => &["key"],
        Call::Decode { .. } => &["iss", "fipa", "far"],
        Call::Extend { .. } => &["iss", "value"],
        Call::AlignDown { .. } | Call::AlignUp { .. } => &["address"],
    }
}

impl fmt::Display for Call {
    fn fmt(&self, f: &mut fmt::Formatter) -> fmt::Result {
        f.write_str(self.name())?;
        let arguments = self.arguments();
        let names = argument_names(self);
        for (place, name) in names.iter().enumerate() {
            let end = if place + 1 == names.len() { arguments.len() } else { place + 1 };
            let words: Vec<String> = arguments[place..end].iter().map(|word| format!("{word:#x}")).collect();
            write!(f, ", {name} {}", words.join(" "))?;
        }
        Ok(())
    }
}

/// The words of a trap's result, by their places in `include/ritm.h`: the kind, the eighteen values, the SVE hint.
pub const TRAP_KIND: usize = 0;
pub const TRAP_VALUES: usize = 1;
pub const TRAP_HINT: usize = 19;

/// The most result words of a call: a trap's.
pub const MAX_WORDS: usize = TRAP_HINT + 1;

/// What a call returned, and its result words.
#[derive(Clone, Copy, Debug, Eq, PartialEq)]
pub struct Answer {
    /// 0, or the number of a refusal.
    pub number: u64,
    words: [u64; MAX_WORDS],
}

impl Answer {
    /// A call that returned this number and these words.
    pub fn new(number: u64, results: &[u64]) -> Self {
        let mut words = [0; MAX_WORDS];
        words[..results.len()].copy_from_slice(results);
        Self { number, words }
    }

    /// An accepted call with these results.
    pub fn accepted(results: &[u64]) -> Self {
        Self::new(0, results)
    }

    /// A call with no results but its number.
    pub fn number(number: u64) -> Self {
        Self::new(number, &[])
    }

    /// A trap's answer, but with this hint.
    pub fn with_hint(mut self, hint: u64) -> Self {
        self.words[TRAP_HINT] = hint;
        self
    }

    /// The result words, zeros past those that the call has.
    pub fn words(&self) -> &[u64; MAX_WORDS] {
        &self.words
    }
}

impl fmt::Display for Answer {
    fn fmt(&self, f: &mut fmt::Formatter) -> fmt::Result {
        write!(f, "{}", self.number)?;
        let used = self.words.iter().rposition(|word| *word != 0).map_or(0, |last| last + 1);
        if used > 0 {
            f.write_str(" with")?;
        }
        self.words[..used].iter().try_for_each(|word| write!(f, " {word:#x}"))
    }
}

/// Calls that begin with fresh states and this counter.
#[derive(Clone, Debug, Eq, PartialEq)]
pub struct List {
    /// A counter near 2^64 is reached from 0 by that many loads, so some lists begin with one.
    pub counter: u64,
    pub calls: Vec<Call>,
}
