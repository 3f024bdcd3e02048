//! The recorded answers: lists of calls with what RITM's Rust answered, as text.
//!
//! A record is a line of lower-case hexadecimal numbers: its code, the arguments, the answer. A list begins with the
//! record of its fresh states and ends with those of the state that it leads to. A call outside the agreement, at which
//! RITM is not asked, is asked something else or has our quiet function, is left out: it is not made, so that the state
//! has nothing of it. Lists for records have no release. Two calls have a lent form with a code of its own: a search is
//! recorded in both, a register's write by turns, since it could not be seen a second time.
//!
//! The answer of a trap is its number, the kind, the eighteen values and, last, the SVE hint: 21 fields.

use crate::asked::Asked;
use crate::call::{Call, List, MAX_WORDS};
use crate::generate;
use crate::mirror;
use crate::ritm_rust::RitmRust;
use std::collections::BTreeSet;
use std::fmt::{self, Write as _};
use std::io::{self, Write as _};

/// The lists that are recorded.
const SEED: u64 = 2026;
const LISTS: u64 = 65;

const FRESH: u64 = 0x0;
const CORE_STATE: u64 = 0xF;
const COUNTER: u64 = 0x10;
const RANGE: u64 = 0x11;
const REGION: u64 = 0x12;
const COUNTS: u64 = 0x13;
const FIND_LENT: u64 = 0x15;
const WRITE_GPR_LENT: u64 = 0x16;

/// The code of a call's record, and how many result words its answer has after the number, if it has a number.
struct Form {
    code: u64,
    number: bool,
    words: usize,
}

fn form(call: &Call) -> Form {
    let (code, number, words) = match call {
        Call::Allow { .. } => (0x1, true, 0),
        Call::Handle { .. } => (0x2, true, 0),
        Call::Find { .. } => (0x3, false, 3),
        Call::Save { .. } => (0x4, true, 0),
        Call::Trap { .. } => (0x5, true, MAX_WORDS),
        Call::Reply { .. } => (0x6, true, 0),
        Call::WriteGpr { .. } => (0x7, true, 0),
        Call::Insert { .. } => (0x8, true, 0),
        Call::LookUp { .. } => (0x9, false, 3),
        Call::Remove { .. } => (0xA, false, 3),
        Call::Decode { .. } => (0xB, true, 6),
        Call::Extend { .. } => (0xC, true, 1),
        Call::AlignDown { .. } => (0xD, false, 1),
        Call::AlignUp { .. } => (0xE, true, 1),
        Call::ReadGpr { .. } => (0x14, true, 1),
        Call::Release { .. } => unreachable!("a release is in no record: RITM has none"),
    };
    Form { code, number, words }
}

/// The codes under which a call is recorded, the `turn`th of its list.
fn codes(call: &Call, turn: usize) -> Vec<u64> {
    match call {
        Call::Find { .. } => vec![form(call).code, FIND_LENT],
        Call::WriteGpr { .. } if turn % 2 == 1 => vec![WRITE_GPR_LENT],
        _ => vec![form(call).code],
    }
}

/// How many records there are, and how many of them are of each call and form.
#[derive(Default)]
pub struct Count {
    records: u64,
    by_code: [u64; WRITE_GPR_LENT as usize + 1],
}

impl fmt::Display for Count {
    fn fmt(&self, f: &mut fmt::Formatter) -> fmt::Result {
        writeln!(f, "{} records; of each code:", self.records)?;
        for (code, times) in self.by_code.iter().enumerate() {
            writeln!(f, "  {code:2x} {times}")?;
        }
        Ok(())
    }
}

/// The text of all recorded lists.
pub fn text() -> String {
    let mut text = String::new();
    for number in 0..LISTS {
        record(&generate::list_for_sample(SEED, number), &mut text);
    }
    text
}

/// Writes the records of lists from a seed to standard output, list by list.
pub fn write(seed: u64, lists: u64) -> io::Result<Count> {
    let mut out = io::BufWriter::new(io::stdout().lock());
    let mut count = Count::default();
    let mut text = String::new();
    for number in 0..lists {
        text.clear();
        record(&generate::list_for_records(seed, number), &mut text);
        for line in text.lines() {
            let code = line.split(' ').next().and_then(|code| usize::from_str_radix(code, 16).ok());
            count.records += 1;
            count.by_code[code.expect("a record begins with its code")] += 1;
        }
        out.write_all(text.as_bytes())?;
    }
    out.flush()?;
    Ok(count)
}

/// Adds the records of a list.
fn record(list: &List, text: &mut String) {
    let mut rust = RitmRust::fresh(list.counter);
    let mut cores = BTreeSet::new();
    line(text, &[FRESH, list.counter]);
    for (turn, call) in list.calls.iter().enumerate() {
        let asked = Asked::of(call, &mut rust);
        if !asked.in_agreement() {
            continue;
        }
        let form = form(call);
        let answer = asked.answer(&mut rust);
        let number = if form.number { &[answer.number][..] } else { &[] };
        let words = match *call {
            Call::Find { ipa } => &rust.oracle.find(ipa).map_or([0; 3], |(base, offset)| [1, base, offset])[..],
            _ => &answer.words()[..form.words],
        };
        for code in codes(call, turn) {
            line(text, &[&[code], &call.arguments()[..], number, words].concat());
        }
        cores.extend(call.core());
    }
    record_state(&rust, &cores, text);
}

/// Adds the records of the state to which a list led.
fn record_state(rust: &RitmRust, cores: &BTreeSet<u64>, text: &mut String) {
    for core in cores {
        line(text, &[&[CORE_STATE, *core], &mirror::core_words(&rust.cores[*core as usize])[..]].concat());
    }
    line(text, &[COUNTER, rust.oracle.counter()]);
    let counts = [rust.oracle.ranges().count() as u64, rust.oracle.regions().count() as u64];
    line(text, &[&[COUNTS], &counts[..]].concat());
    for (place, range) in (0..).zip(rust.oracle.ranges()) {
        line(text, &[&[RANGE, place], &range[..]].concat());
    }
    for (place, region) in (0..).zip(rust.oracle.regions()) {
        line(text, &[&[REGION, place], &region[..]].concat());
    }
}

fn line(text: &mut String, fields: &[u64]) {
    for (place, field) in fields.iter().enumerate() {
        let separator = if place == 0 { "" } else { " " };
        write!(text, "{separator}{field:x}").expect("a string takes any text");
    }
    text.push('\n');
}

#[cfg(test)]
mod tests {
    use super::*;
    use crate::call::Answer;
    use crate::port::Port;
    use crate::ritm_rust::is_guest_call;
    use reference::oracle::Trap;

    fn words<const N: usize>(fields: &[u64]) -> [u64; N] {
        fields[..N].try_into().expect("a record has its fields")
    }

    /// The call of a record, if it is one of a call.
    fn call(fields: &[u64]) -> Option<Call> {
        let arguments = &fields[1..];
        Some(match (fields[0], arguments) {
            (0x1, &[base, size, attributes, ..]) => Call::Allow { base, size, attributes },
            (0x2, &[base, size, read, write, ..]) => Call::Handle { base, size, read, write },
            (0x3 | FIND_LENT, &[ipa, ..]) => Call::Find { ipa },
            (0x4, &[core, ref registers @ ..]) => Call::Save { core, registers: words(registers) },
            (0x5, &[core, esr, fipa, far, vbar, ..]) => Call::Trap { core, trap: Trap { esr, fipa, far, vbar } },
            (0x6, &[core, kind, ref values @ ..]) => {
                Call::Reply { core, kind, values: words(values), error: (values[18] as u32).cast_signed() }
            }
            (0x7 | WRITE_GPR_LENT, &[core, index, value, ..]) => Call::WriteGpr { core, index, value },
            (0x8, &[key, entry_point, context_id, ..]) => Call::Insert { key, entry_point, context_id },
            (0x9, &[key, ..]) => Call::LookUp { key },
            (0xA, &[key, ..]) => Call::Remove { key },
            (0xB, &[iss, fipa, far, ..]) => Call::Decode { iss: iss as u32, fipa, far },
            (0xC, &[iss, value, ..]) => Call::Extend { iss: iss as u32, value },
            (0xD, &[address, ..]) => Call::AlignDown { address },
            (0xE, &[address, ..]) => Call::AlignUp { address },
            (0x14, &[core, index, ..]) => Call::ReadGpr { core, index },
            _ => return None,
        })
    }

    /// A guest's call is of the agreement: bits 63:32 and 16 of its x0 are zero.
    fn assert_agreement(port: &Port, call: &Call) {
        if let Call::Trap { core, trap } = *call
            && is_guest_call(trap)
        {
            assert_eq!(port.x0(core) & 0xFFFF_FFFF_0001_0000, 0, "{call}");
        }
    }

    /// The code of the half that a trap's access goes through, and the kind of the answer.
    fn half_and_kind(port: &Port, call: &Call, answer: &Answer) -> Option<(u64, u64)> {
        let Call::Trap { trap, .. } = *call else { return None };
        Some((port.half_code(trap)?, answer.words()[0]))
    }

    /// What the port answers to a record's call, in the form of the record.
    fn answer(port: &mut Port, call: &Call) -> (Answer, Vec<u64>) {
        let form = form(call);
        let answer = port.take(call);
        let mut results = answer.words()[..form.words].to_vec();
        if let (Call::Find { .. }, 1) = (call, answer.words()[0]) {
            results[1] = port.policy.get(129 + 5 * results[1] as usize);
        }
        if form.number {
            results.insert(0, answer.number);
        }
        (answer, results)
    }

    /// What the port holds, in the form of a state's record.
    fn state(port: &Port, fields: &[u64]) -> Vec<u64> {
        let policy: [u64; 210] = port.policy.get_all(0);
        let cores: [u64; 305] = port.cores.get_all(0);
        let place = fields[1] as usize;
        match fields[0] {
            CORE_STATE => cores[38 * place..][..37].to_vec(),
            COUNTER => vec![cores[304]],
            COUNTS => vec![policy[128], policy[209]],
            RANGE => policy[4 * place..][..4].to_vec(),
            REGION => policy[129 + 5 * place..][..5].to_vec(),
            code => panic!("no record has the code {code:#x}"),
        }
    }

    fn fields(line: &str) -> Vec<u64> {
        let fields: Vec<u64> =
            line.split(' ').map(|field| u64::from_str_radix(field, 16).expect("a field is a number")).collect();
        let mut again = String::new();
        super::line(&mut again, &fields);
        assert_eq!(again.trim_end(), line, "a number has no prefix, no leading zeros and lower-case digits");
        fields
    }

    /// A trap by its kind, a search by whether it found something, any other call by its number.
    fn kind_of_answer(call: &Call, answer: &Answer) -> (&'static str, u64) {
        match call {
            Call::Trap { .. } | Call::Find { .. } | Call::LookUp { .. } | Call::Remove { .. } => {
                (call.name(), answer.words()[0])
            }
            _ => ("", answer.number),
        }
    }

    /// The text is read back and the port, asked the same, answers the same; every answer of RITM's is there, and of
    /// guests' calls those of the agreement. Regions have all codes, and no access goes through a half with code 0.
    #[test]
    fn the_port_answers_the_records_alike() {
        let text = text();
        assert!(text.is_ascii() && text.ends_with('\n') && text.len() < 600_000);
        let mut port = Port::fresh(0);
        let mut met = BTreeSet::new();
        let (mut met_codes, mut met_halves) = (BTreeSet::new(), BTreeSet::new());
        for line in text.lines() {
            let fields = fields(line);
            if fields[0] == FRESH {
                port = Port::fresh(fields[1]);
            } else if let Some(call) = call(&fields) {
                assert_agreement(&port, &call);
                let (answer, results) = answer(&mut port, &call);
                assert_eq!(fields[1 + call.arguments().len()..], results, "{call}");
                met.insert(kind_of_answer(&call, &answer));
                met_halves.extend(half_and_kind(&port, &call, &answer));
            } else {
                let results = state(&port, &fields);
                assert_eq!(fields[fields.len() - results.len()..], results);
                met_codes.extend((fields[0] == REGION).then(|| (results[3], results[4])));
            }
        }
        let numbers = [0, 1, 2, 3, 4, 5, 6, 7, 8, 9, 17, 19].map(|number| ("", number));
        let traps = (1..=5).map(|kind| ("trap", kind));
        let found = ["find", "look-up", "remove"].into_iter().flat_map(|name| [(name, 0), (name, 1)]);
        assert_eq!(met, numbers.into_iter().chain(traps).chain(found).collect());
        assert_eq!(met_codes, (0..9).map(|pair| (pair / 3, pair % 3)).collect());
        assert_eq!(met_halves, BTreeSet::from([(1, 1), (1, 2), (1, 3), (2, 3)]));
    }
}
