//! The tree that the structure block and the strings block hold.

use crate::fault::Fault;
use crate::header::{ensure, word, Blocks};

pub const BEGIN_NODE: u32 = 1;
pub const END_NODE: u32 = 2;
pub const PROP: u32 = 3;
pub const NOP: u32 = 4;
pub const END: u32 = 9;

#[derive(Clone, Debug, Default)]
pub struct Node {
    pub name: Vec<u8>,
    pub properties: Vec<Property>,
    pub children: Vec<Node>,
}

#[derive(Clone, Debug)]
pub struct Property {
    pub name: Vec<u8>,
    pub value: Vec<u8>,
}

impl Node {
    /// The value of the first property of the name.
    pub fn first(&self, name: &[u8]) -> Option<&[u8]> {
        let property = self.properties.iter().find(|property| property.name == name)?;
        Some(&property.value)
    }
}

/// The root of the tree: any FDT_NOPs, the root, any FDT_NOPs, and an FDT_END that is the last.
pub fn tree(blocks: &Blocks<'_>) -> Result<Node, Fault> {
    let mut reader = Reader { structure: blocks.structure, strings: blocks.strings, at: 0 };
    match reader.token_after_nops()? {
        BEGIN_NODE => {}
        token => return Err(not_outside(token)),
    }
    let root = reader.node()?;
    match reader.token_after_nops()? {
        END => {}
        token => return Err(not_outside(token)),
    }
    ensure(reader.at == blocks.structure.len(), Fault::EndBeforeBlocksEnd)?;
    Ok(root)
}

/// Why a token cannot stand before the root or after its end.
fn not_outside(token: u32) -> Fault {
    match token {
        BEGIN_NODE => Fault::SecondRoot,
        END_NODE => Fault::NodeEndOutside,
        PROP => Fault::PropertyOutside,
        END => Fault::NoRoot,
        _ => Fault::UnknownToken,
    }
}

struct Reader<'a> {
    structure: &'a [u8],
    strings: &'a [u8],
    /// How many bytes of the structure block are read.
    at: usize,
}

impl<'a> Reader<'a> {
    /// The next bytes.
    fn take(&mut self, length: usize, fault: Fault) -> Result<&'a [u8], Fault> {
        let bytes = self.structure.get(self.at..self.at + length).ok_or(fault)?;
        self.at += length;
        Ok(bytes)
    }

    fn word(&mut self) -> Result<u32, Fault> {
        Ok(word(self.take(4, Fault::TokenCut)?, 0))
    }

    fn token_after_nops(&mut self) -> Result<u32, Fault> {
        loop {
            match self.word()? {
                NOP => {}
                token => return Ok(token),
            }
        }
    }

    /// The bytes up to a multiple of 4, which are zero.
    fn padding(&mut self, fault: Fault) -> Result<(), Fault> {
        while self.at % 4 != 0 {
            ensure(self.take(1, Fault::TokenCut)? == [0], fault)?;
        }
        Ok(())
    }

    /// A node after its FDT_BEGIN_NODE: its name, its properties, its subnodes, and FDT_END_NODE.
    fn node(&mut self) -> Result<Node, Fault> {
        let mut node = Node { name: self.node_name()?, ..Node::default() };
        loop {
            match self.word()? {
                NOP => {}
                PROP if node.children.is_empty() => node.properties.push(self.property()?),
                PROP => return Err(Fault::PropertyAfterSubnode),
                BEGIN_NODE => node.children.push(self.node()?),
                END_NODE => return Ok(node),
                END => return Err(Fault::EndInNode),
                _ => return Err(Fault::UnknownToken),
            }
        }
    }

    fn node_name(&mut self) -> Result<Vec<u8>, Fault> {
        let name = string(&self.structure[self.at..]).ok_or(Fault::NodeNameUnended)?;
        self.at += name.len() + 1;
        self.padding(Fault::NodeNamePadding)?;
        Ok(name.to_vec())
    }

    /// A property after its FDT_PROP: the value's length, the name's offset, the value.
    fn property(&mut self) -> Result<Property, Fault> {
        let length = self.word()? as usize;
        let nameoff = self.word()? as usize;
        let value = self.take(length, Fault::ValueCut)?.to_vec();
        self.padding(Fault::ValuePadding)?;
        ensure(nameoff < self.strings.len(), Fault::PropertyNameOutside)?;
        let name = string(&self.strings[nameoff..]).ok_or(Fault::PropertyNameUnended)?.to_vec();
        Ok(Property { name, value })
    }
}

/// The bytes before the first zero byte, if there is one.
fn string(bytes: &[u8]) -> Option<&[u8]> {
    let length = bytes.iter().position(|byte| *byte == 0)?;
    Some(&bytes[..length])
}
