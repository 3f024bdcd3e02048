//! The suspend map.

use crate::side::{Call, Sides, State};
use reference::hypervisor::SuspendMap;
use ritm::ffi;
use std::ptr;

const FIRST_KEY: u64 = 0x8000_0000;
const ENTRY_POINT: u64 = 0x4020_0000;
const CONTEXT_ID: u64 = 7;
const PLACES: usize = 8;

type InsertFunction = extern "C" fn(&mut ffi::SuspendMap, u64, u64, u64) -> u64;
type GetFunction = extern "C" fn(&ffi::SuspendMap, u64, &mut ffi::EntryResult) -> u64;
type RemoveFunction = extern "C" fn(&mut ffi::SuspendMap, u64, &mut ffi::EntryResult) -> u64;
type FreshFunction = extern "C" fn(&mut ffi::SuspendMap) -> u64;
type RustInsert = fn(&mut SuspendMap, u64, (u64, u64)) -> &mut (u64, u64);
type RustGet = for<'a> fn(&'a mut SuspendMap, &u64) -> Option<&'a mut (u64, u64)>;
type RustRemove = fn(&mut SuspendMap, &u64) -> Option<(u64, u64)>;

/// The port's map, and the arguments.
#[derive(Clone)]
struct PortMap {
    map: ffi::SuspendMap,
    key: u64,
    entry: ffi::EntryResult,
}

impl PortMap {
    fn new(count: u64, key: u64) -> Self {
        let mut map = ffi::SuspendMap::ZERO;
        assert_eq!(ffi::ritm_fresh_map(&mut map), 0, "a fresh map");
        for key in FIRST_KEY..FIRST_KEY + count {
            assert_eq!(ffi::ritm_insert(&mut map, key, key + 1, key + 2), 0, "an entry fits");
        }
        Self { map, key, entry: ffi::EntryResult::ZERO }
    }
}

impl State for PortMap {
    const BATCH: usize = 64;

    fn put_back(&mut self, before: &Self) {
        self.map.clone_from(&before.map);
    }

    fn words(&self) -> Vec<u64> {
        let places = (0..PLACES).map(|place| self.map.get_all::<4>(4 * place));
        places.flat_map(|place| if place[0] == 1 { place } else { [0; 4] }).collect()
    }
}

/// RITM's map, and the key of a call.
#[derive(Clone)]
struct RustMap {
    map: SuspendMap,
    key: u64,
}

impl RustMap {
    fn new(count: u64, key: u64) -> Self {
        let mut map = SuspendMap::new();
        for key in FIRST_KEY..FIRST_KEY + count {
            map.insert(key, (key + 1, key + 2));
        }
        Self { map, key }
    }

    /// The entry to which RITM gave a reference.
    fn entry_at(&self, value: *const (u64, u64)) -> Vec<u64> {
        let values = self.map.places().flatten().map(|(_, value)| value);
        match values.into_iter().find(|held| ptr::eq(*held, value)) {
            Some((entry_point, context_id)) => vec![1, *entry_point, *context_id],
            None => vec![0; 3],
        }
    }
}

impl State for RustMap {
    const BATCH: usize = 64;

    fn put_back(&mut self, before: &Self) {
        self.map = before.map;
    }

    fn words(&self) -> Vec<u64> {
        let places = self.map.places();
        places.flat_map(|place| place.map_or([0; 4], |(key, (entry, context))| [1, *key, *entry, *context])).collect()
    }
}

fn insert_key(count: u64, key: u64) -> Sides {
    let port = Call {
        state: PortMap::new(count, key),
        function: ffi::ritm_insert as InsertFunction,
        call: |state: &mut PortMap, function| function(&mut state.map, state.key, ENTRY_POINT, CONTEXT_ID),
        answer: |_, number| vec![number, 1, ENTRY_POINT, CONTEXT_ID],
    };
    let rust = Call {
        state: RustMap::new(count, key),
        function: SuspendMap::insert as RustInsert,
        call: |state: &mut RustMap, function| {
            ptr::from_mut(function(&mut state.map, state.key, (ENTRY_POINT, CONTEXT_ID)))
        },
        answer: |state, value| [vec![0], state.entry_at(value)].concat(),
    };
    Sides::compared(0, port, rust)
}

/// Another key, beside so many.
pub fn insert_another(count: u64) -> Sides {
    insert_key(count, FIRST_KEY + count)
}

/// The last of so many keys.
pub fn insert_held(count: u64) -> Sides {
    insert_key(count, FIRST_KEY + count - 1)
}

/// The last of so many keys.
pub fn get(count: u64) -> Sides {
    let key = FIRST_KEY + count - 1;
    let port = Call {
        state: PortMap::new(count, key),
        function: ffi::ritm_get as GetFunction,
        call: |state: &mut PortMap, function| function(&state.map, state.key, &mut state.entry),
        answer: |state, number| [&[number][..], &state.entry.get_all::<3>(0)].concat(),
    };
    let rust = Call {
        state: RustMap::new(count, key),
        function: SuspendMap::get_mut as RustGet,
        call: |state: &mut RustMap, function| {
            function(&mut state.map, &state.key).map_or(ptr::null_mut(), ptr::from_mut)
        },
        answer: |state, value| [vec![0], state.entry_at(value)].concat(),
    };
    Sides::compared(0, port, rust).repeated()
}

/// The last of so many keys.
pub fn remove(count: u64) -> Sides {
    let key = FIRST_KEY + count - 1;
    let port = Call {
        state: PortMap::new(count, key),
        function: ffi::ritm_remove as RemoveFunction,
        call: |state: &mut PortMap, function| function(&mut state.map, state.key, &mut state.entry),
        answer: |state, number| [&[number][..], &state.entry.get_all::<3>(0)].concat(),
    };
    let rust = Call {
        state: RustMap::new(count, key),
        function: SuspendMap::remove as RustRemove,
        call: |state: &mut RustMap, function| function(&mut state.map, &state.key),
        answer: |_, removed| {
            let (entry_point, context_id) = removed.expect("the key is held");
            vec![0, 1, entry_point, context_id]
        },
    };
    Sides::compared(0, port, rust)
}

pub fn fresh_map() -> Sides {
    let call = |state: &mut PortMap, function: FreshFunction| function(&mut state.map);
    let function = ffi::ritm_fresh_map as FreshFunction;
    let state = PortMap::new(8, FIRST_KEY);
    Sides::port_alone(Call { state, function, call, answer: |_, number| vec![number] }).repeated()
}
