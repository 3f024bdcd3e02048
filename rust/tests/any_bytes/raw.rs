//! The archive's functions on plain pointers: the compiler may then assume nothing of what a call
//! leaves alone, and the checks of it stay in.

extern "C" {
    pub fn ritm_fresh_policy(policy: *mut u8) -> u64;
    pub fn ritm_allow_range(policy: *mut u8, base_ipa: u64, size: u64, attributes: u64) -> u64;
    pub fn ritm_handle_range(policy: *mut u8, base_ipa: u64, size: u64, read: u64, write: u64) -> u64;
    pub fn ritm_import_memory(policy: *mut u8, blob: *const u8, length: u64, attributes: u64) -> u64;
    pub fn ritm_release_range(policy: *mut u8, base_ipa: u64, size: u64) -> u64;
    pub fn ritm_find(policy: *const u8, ipa: u64, found: *mut u8) -> u64;
    pub fn ritm_fresh_cores(cores: *mut u8) -> u64;
    pub fn ritm_save(cores: *mut u8, core: u64, registers: *const u8) -> u64;
    pub fn ritm_trap(
        policy: *const u8,
        cores: *mut u8,
        core: u64,
        esr: u64,
        fipa: u64,
        far: u64,
        vbar: u64,
        trapped: *mut u8,
    ) -> u64;
    pub fn ritm_reply(cores: *mut u8, core: u64, kind: u64, values: *const u8, error: i32) -> u64;
    pub fn ritm_read_gpr(cores: *const u8, core: u64, index: u64, word: *mut u8) -> u64;
    pub fn ritm_write_gpr(cores: *mut u8, core: u64, index: u64, value: u64) -> u64;
    pub fn ritm_fresh_map(map: *mut u8) -> u64;
    pub fn ritm_insert(map: *mut u8, key: u64, entry_point: u64, context_id: u64) -> u64;
    pub fn ritm_get(map: *const u8, key: u64, entry: *mut u8) -> u64;
    pub fn ritm_remove(map: *mut u8, key: u64, entry: *mut u8) -> u64;
    pub fn ritm_decode(iss: u32, fipa: u64, far: u64, access: *mut u8) -> u64;
    pub fn ritm_extend_read_result(iss: u32, value: u64, word: *mut u8) -> u64;
    pub fn ritm_align_down_to_page(address: u64, word: *mut u8) -> u64;
    pub fn ritm_align_up_to_page(address: u64, word: *mut u8) -> u64;
    pub fn ritm_buffer_size(buffer: u64) -> u64;
}
