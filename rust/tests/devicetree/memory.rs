//! What a tree says of memory.

use crate::fault::Fault;
use crate::header::{blocks, ensure, word};
use crate::tree::{tree, Node};

const DEFAULT_ADDRESS_CELLS: u32 = 2;
const DEFAULT_SIZE_CELLS: u32 = 1;

/// Base and size.
pub type Pair = (u64, u64);

/// The pairs that a slice gives, in its order, or the rule that it breaks.
pub type Read = Result<Vec<Pair>, Fault>;

pub fn pairs(slice: &[u8]) -> Read {
    memory(&tree(&blocks(slice)?)?)
}

fn memory(root: &Node) -> Read {
    let address_cells = cell_count(root, b"#address-cells", DEFAULT_ADDRESS_CELLS, Fault::AddressCellsLength)?;
    let size_cells = cell_count(root, b"#size-cells", DEFAULT_SIZE_CELLS, Fault::SizeCellsLength)?;
    for count in [address_cells, size_cells] {
        ensure(count == 1 || count == 2, Fault::CellCounts)?;
    }
    let mut pairs = Vec::new();
    for child in root.children.iter().filter(|child| child.first(b"device_type") == Some(b"memory\0")) {
        let reg = child.first(b"reg").unwrap_or(&[]);
        pairs.extend(reg_pairs(reg, address_cells as usize, size_cells as usize)?);
    }
    Ok(pairs)
}

fn cell_count(root: &Node, name: &[u8], default: u32, fault: Fault) -> Result<u32, Fault> {
    match root.first(name) {
        None => Ok(default),
        Some(value) => {
            ensure(value.len() == 4, fault)?;
            Ok(word(value, 0))
        }
    }
}

fn reg_pairs(reg: &[u8], address_cells: usize, size_cells: usize) -> Read {
    let length = 4 * (address_cells + size_cells);
    ensure(reg.len() % length == 0, Fault::RaggedReg)?;
    let pair = |bytes: &[u8]| {
        let (base, size) = bytes.split_at(4 * address_cells);
        (cells(base), cells(size))
    };
    Ok(reg.chunks_exact(length).map(pair).collect())
}

/// The number that one or two cells make, the first cell the upper one.
fn cells(bytes: &[u8]) -> u64 {
    bytes.iter().fold(0, |number, byte| number << 8 | u64::from(*byte))
}
