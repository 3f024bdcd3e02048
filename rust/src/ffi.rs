//! The archive's functions as they are, on buffers of 64-bit words; `include/ritm.h` says what each
//! does.
//!
//! A reference to a buffer is the thin pointer that the archive takes. Its alignment and its length
//! are right by its type, and the buffers of one call cannot overlap, since Rust lends nothing
//! beside what it lends to be changed. A slice is passed on as its pointer and its own length. So
//! there is nothing left for a caller to uphold, and each function is safe.
//!
//! ```
//! use ritm::ffi;
//!
//! let mut found = ffi::FindResult::ZERO;
//! assert_eq!(ffi::ritm_find(&ffi::Policy::ZERO, 0, &mut found), 0);
//! ```
//!
//! Each buffer has a type of its own, so that none stands for another of the same length:
//!
//! ```compile_fail,E0308
//! use ritm::ffi;
//!
//! let mut found = ffi::EntryResult::ZERO;
//! assert_eq!(ffi::ritm_find(&ffi::Policy::ZERO, 0, &mut found), 0);
//! ```

use core::array;

/// Defines each buffer once: its type, its size in bytes, and what it holds.
macro_rules! buffers {
    ($($buffer:ident, $bytes:ident = $size:literal, $what:literal;)*) => {
        $(
            #[doc = concat!("The size of ", $what, " in bytes.")]
            pub const $bytes: usize = $size;

            #[doc = concat!("The buffer of ", $what, ".")]
            #[derive(Clone, Debug, Eq, PartialEq)]
            #[repr(C, align(8))]
            pub struct $buffer([u8; $size]);

            impl $buffer {
                /// Zeros.
                pub const ZERO: Self = Self([0; $size]);

                /// The buffer of these bytes.
                #[must_use]
                pub fn from_bytes(bytes: [u8; $size]) -> Self {
                    Self(bytes)
                }

                /// Its bytes.
                #[must_use]
                pub fn as_bytes(&self) -> &[u8; $size] {
                    &self.0
                }

                /// Word `k`: the bytes from `8 * k` on.
                #[must_use]
                pub fn get(&self, k: usize) -> u64 {
                    u64::from_le_bytes(array::from_fn(|i| self.0[8 * k + i]))
                }

                /// Sets word `k`.
                pub fn put(&mut self, k: usize, word: u64) {
                    self.0[8 * k..8 * k + 8].copy_from_slice(&word.to_le_bytes());
                }

                /// The `N` words from word `k` on.
                #[must_use]
                pub fn get_all<const N: usize>(&self, k: usize) -> [u64; N] {
                    array::from_fn(|i| self.get(k + i))
                }

                /// Sets the words from word `k` on.
                pub fn put_all(&mut self, k: usize, words: &[u64]) {
                    for (i, word) in words.iter().enumerate() {
                        self.put(k + i, *word);
                    }
                }
            }

            impl From<[u64; $size / 8]> for $buffer {
                fn from(words: [u64; $size / 8]) -> Self {
                    let mut buffer = Self::ZERO;
                    buffer.put_all(0, &words);
                    buffer
                }
            }

            impl From<$buffer> for [u64; $size / 8] {
                fn from(buffer: $buffer) -> Self {
                    buffer.get_all(0)
                }
            }
        )*

        #[test]
        fn buffers_are_aligned_and_keep_their_bytes() {
            $(
                assert_eq!((align_of::<$buffer>(), size_of::<$buffer>()), (8, $bytes));
                let bytes = array::from_fn(|i| i as u8 ^ 0xa5);
                let buffer = $buffer::from_bytes(bytes);
                assert_eq!(buffer.get(0) as u8, bytes[0]);
                assert_eq!($buffer::from(<[u64; $size / 8]>::from(buffer)).as_bytes(), &bytes);
            )*
        }
    };
}

buffers! {
    Policy, POLICY_SIZE = 1680, "a policy";
    Cores, CORES_SIZE = 2440, "the eight cores and the counter";
    SuspendMap, MAP_SIZE = 256, "a suspend map";
    Registers, REGISTERS_SIZE = 264, "the registers of a save";
    Values, VALUES_SIZE = 144, "the values of a reply";
    TrapResult, TRAP_RESULT_SIZE = 160, "a trap's result";
    FindResult, FIND_RESULT_SIZE = 24, "the result of a search for a region";
    EntryResult, ENTRY_RESULT_SIZE = 24, "the result of a look-up in the suspend map";
    AccessResult, ACCESS_RESULT_SIZE = 48, "a decoded access";
    WordResult, WORD_RESULT_SIZE = 8, "a result of one word";
}

// SAFETY: the functions have these signatures in C's calling convention. They are proved to be
// defined for every argument, to write nothing but the buffers lent to be changed, and to keep no
// pointer. The one that is not safe reads as many bytes as the number after its pointer says.
unsafe extern "C" {
    /// Makes the policy fresh.
    pub safe fn ritm_fresh_policy(policy: &mut Policy) -> u64;

    /// Allows a range.
    pub safe fn ritm_allow_range(policy: &mut Policy, base_ipa: u64, size: u64, attributes: u64) -> u64;

    /// Has a range handled.
    pub safe fn ritm_handle_range(policy: &mut Policy, base_ipa: u64, size: u64, read: u64, write: u64) -> u64;

    #[link_name = "ritm_import_memory"]
    unsafe fn import_memory(policy: &mut Policy, blob: *const u8, length: u64, attributes: u64) -> u64;

    /// Releases a range.
    pub safe fn ritm_release_range(policy: &mut Policy, base_ipa: u64, size: u64) -> u64;

    /// Finds the region that has an address.
    pub safe fn ritm_find(policy: &Policy, ipa: u64, found: &mut FindResult) -> u64;

    /// Makes the cores and the counter fresh.
    pub safe fn ritm_fresh_cores(cores: &mut Cores) -> u64;

    /// Puts in a core's registers.
    pub safe fn ritm_save(cores: &mut Cores, core: u64, registers: &Registers) -> u64;

    /// Takes a core's trap.
    pub safe fn ritm_trap(
        policy: &Policy,
        cores: &mut Cores,
        core: u64,
        esr: u64,
        fipa: u64,
        far: u64,
        vbar: u64,
        trapped: &mut TrapResult,
    ) -> u64;

    /// Gives a core the reply that it waits for.
    pub safe fn ritm_reply(cores: &mut Cores, core: u64, kind: u64, values: &Values, error: i32) -> u64;

    /// Reads a core's register.
    pub safe fn ritm_read_gpr(cores: &Cores, core: u64, index: u64, word: &mut WordResult) -> u64;

    /// Writes a core's register.
    pub safe fn ritm_write_gpr(cores: &mut Cores, core: u64, index: u64, value: u64) -> u64;

    /// Makes the suspend map fresh.
    pub safe fn ritm_fresh_map(map: &mut SuspendMap) -> u64;

    /// Inserts into the suspend map.
    pub safe fn ritm_insert(map: &mut SuspendMap, key: u64, entry_point: u64, context_id: u64) -> u64;

    /// Looks up a key in the suspend map.
    pub safe fn ritm_get(map: &SuspendMap, key: u64, entry: &mut EntryResult) -> u64;

    /// Removes a key from the suspend map.
    pub safe fn ritm_remove(map: &mut SuspendMap, key: u64, entry: &mut EntryResult) -> u64;

    /// Decodes the access of a data abort.
    pub safe fn ritm_decode(iss: u32, fipa: u64, far: u64, access: &mut AccessResult) -> u64;

    /// Extends a loaded value.
    pub safe fn ritm_extend_read_result(iss: u32, value: u64, word: &mut WordResult) -> u64;

    /// Rounds down to a page boundary.
    pub safe fn ritm_align_down_to_page(address: u64, word: &mut WordResult) -> u64;

    /// Rounds up to a page boundary.
    pub safe fn ritm_align_up_to_page(address: u64, word: &mut WordResult) -> u64;

    /// The size of a buffer by its number.
    pub safe fn ritm_buffer_size(buffer: u64) -> u64;
}

/// Allows the memory that a devicetree blob describes.
pub fn ritm_import_memory(policy: &mut Policy, blob: &[u8], attributes: u64) -> u64 {
    // SAFETY: the bytes from the slice's pointer on, as many as its length says, are readable, and
    // not lent to be changed.
    unsafe { import_memory(policy, blob.as_ptr(), blob.len() as u64, attributes) }
}
