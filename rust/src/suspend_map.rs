//! The suspend map.

use crate::ffi;
use crate::refusal::{accepted, never_refused, Refusal};

/// Where a suspended core resumes, and with what.
#[derive(Clone, Copy, Debug, Eq, PartialEq)]
pub struct SuspendCoreData {
    /// The address at which it resumes.
    pub entry_point: u64,
    /// What it then finds in x0.
    pub context_id: u64,
}

/// The suspend map: up to eight suspended cores by their keys.
///
/// ```
/// use ritm::{Refusal, SuspendCoreData, SuspendMap};
///
/// let data = SuspendCoreData { entry_point: 0x4020_0000, context_id: 7 };
/// let mut map = SuspendMap::new();
/// for key in 0..8 {
///     map.insert(key, data)?;
/// }
/// assert_eq!(map.insert(8, data), Err(Refusal::CapacityExceeded));
/// assert_eq!(map.remove(3), Some(data));
/// assert_eq!(map.get(3), None);
/// # Ok::<(), Refusal>(())
/// ```
#[derive(Clone, Debug, Eq, PartialEq)]
pub struct SuspendMap(ffi::SuspendMap);

impl SuspendMap {
    /// The fresh map: every place free.
    #[must_use]
    pub fn new() -> Self {
        let mut map = ffi::SuspendMap::ZERO;
        never_refused(ffi::ritm_fresh_map(&mut map));
        Self(map)
    }

    /// The map that stands in these bytes. Any bytes are one.
    #[must_use]
    pub fn from_bytes(bytes: [u8; ffi::MAP_SIZE]) -> Self {
        Self(ffi::SuspendMap::from_bytes(bytes))
    }

    /// Its bytes.
    #[must_use]
    pub fn as_bytes(&self) -> &[u8; ffi::MAP_SIZE] {
        self.0.as_bytes()
    }

    /// Removes the first entry with the key, then puts the new one into the first free place.
    ///
    /// # Errors
    ///
    /// [`Refusal::CapacityExceeded`] where the key is not held and every place is taken.
    pub fn insert(&mut self, key: u64, data: SuspendCoreData) -> Result<(), Refusal> {
        accepted(ffi::ritm_insert(&mut self.0, key, data.entry_point, data.context_id))
    }

    /// Looks up the first entry with the key.
    #[must_use]
    pub fn get(&self, key: u64) -> Option<SuspendCoreData> {
        let mut result = ffi::EntryResult::ZERO;
        never_refused(ffi::ritm_get(&self.0, key, &mut result));
        entry(&result)
    }

    /// Removes the first entry with the key, and gives it.
    pub fn remove(&mut self, key: u64) -> Option<SuspendCoreData> {
        let mut result = ffi::EntryResult::ZERO;
        never_refused(ffi::ritm_remove(&mut self.0, key, &mut result));
        entry(&result)
    }
}

impl Default for SuspendMap {
    fn default() -> Self {
        Self::new()
    }
}

fn entry(result: &ffi::EntryResult) -> Option<SuspendCoreData> {
    let [found, entry_point, context_id] = result.get_all(0);
    (found == 1).then_some(SuspendCoreData { entry_point, context_id })
}
