//! Devicetree blobs near to one that is accepted.

use crate::random::Random;

pub const SIZE: usize = 184;

/// A blob with one memory child, whose size cells and pairs vary; as often as not a byte is changed,
/// and at times the slice ends elsewhere than the blob.
pub fn fill(bytes: &mut Vec<u8>, random: &mut Random) {
    *bytes = words(random).iter().flat_map(|word| word.to_be_bytes()).collect();
    if random.once_in(2) {
        let at = random.below(SIZE as u64) as usize;
        bytes[at] = random.number() as u8;
    }
    if random.once_in(8) {
        bytes.resize(random.below(2 * SIZE as u64) as usize, 0);
    }
}

fn text(bytes: &[u8; 4]) -> u32 {
    u32::from_be_bytes(*bytes)
}

fn words(random: &mut Random) -> Vec<u32> {
    let size_cells = random.one_of(&[0, 1, 1, 1, 1, 2, 3]);
    let header = [0xd00d_feed, SIZE as u32, 56, 156, 40, 17, 16, 0, 28, 100];
    let reservations_end = [0; 4];
    let root = [1, 0, 3, 4, 0, size_cells];
    let child = [1, text(b"mem\0"), 3, 7, 12, text(b"memo"), text(b"ry\0\0"), 3, 24, 24];
    let reg = [pair(random), pair(random)].concat();
    let ends = [2, 2, 9];
    let strings = [b"#siz", b"e-ce", b"lls\0", b"devi", b"ce_t", b"ype\0", b"reg\0"].map(text);
    [&header[..], &reservations_end, &root, &child, &reg, &ends, &strings].concat()
}

/// A base of two cells and a size of one.
fn pair(random: &mut Random) -> [u32; 3] {
    let base = if random.once_in(16) { random.any() } else { random.page() };
    let size = if random.once_in(16) { random.any() } else { 0x1000 * (1 + random.below(3)) };
    [(base >> 32) as u32, base as u32, size as u32]
}
