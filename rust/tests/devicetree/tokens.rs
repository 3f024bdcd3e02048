//! A tree as tokens, strings and memory reservations, in one of many ways.

use crate::random::Random;
use crate::strings::Strings;
use crate::tree::{self, Node};

/// What stands in a structure block.
#[derive(Clone, Debug)]
pub enum Token {
    BeginNode(Vec<u8>),
    EndNode,
    Prop { length: u32, nameoff: u32, value: Vec<u8> },
    Nop,
    End,
    Word(u32),
}

/// What stands in the blocks, before they have places.
#[derive(Debug)]
pub struct Parts {
    pub tokens: Vec<Token>,
    pub strings: Vec<u8>,
    pub reservations: Vec<u8>,
}

impl Parts {
    pub fn of(root: &Node, random: &mut Random) -> Self {
        let mut writer =
            Writer { strings: Strings::default(), tokens: Vec::new(), nops: random.one_of(&[0, 0, 12, 3]) };
        writer.nops(random);
        writer.node(root, random);
        writer.nops(random);
        writer.tokens.push(Token::End);
        let reservations = reservations(random);
        Self { tokens: writer.tokens, strings: writer.strings.bytes, reservations }
    }
}

struct Writer {
    strings: Strings,
    tokens: Vec<Token>,
    /// An FDT_NOP comes once in so many times, none where this is 0.
    nops: u64,
}

impl Writer {
    fn nops(&mut self, random: &mut Random) {
        while self.nops != 0 && random.once_in(self.nops) {
            self.tokens.push(Token::Nop);
        }
    }

    fn node(&mut self, node: &Node, random: &mut Random) {
        self.tokens.push(Token::BeginNode(node.name.clone()));
        self.nops(random);
        for property in &node.properties {
            let nameoff = self.strings.place(&property.name, random) as u32;
            let length = property.value.len() as u32;
            self.tokens.push(Token::Prop { length, nameoff, value: property.value.clone() });
            self.nops(random);
        }
        for child in &node.children {
            self.node(child, random);
            self.nops(random);
        }
        self.tokens.push(Token::EndNode);
    }
}

/// Entries that are not all zero, and the one that is.
fn reservations(random: &mut Random) -> Vec<u8> {
    let mut bytes = Vec::new();
    for _ in 0..random.one_of(&[0, 0, 0, 1, 2, 5]) {
        let address = random.any() & !0xfff | 1;
        let size = random.any();
        let (address, size) = random.one_of(&[(address, size), (address, 0), (0, size | 1)]);
        bytes.extend(address.to_be_bytes());
        bytes.extend(size.to_be_bytes());
    }
    bytes.extend([0; 16]);
    bytes
}

/// A structure block's bytes.
#[derive(Default)]
pub struct Structure {
    pub bytes: Vec<u8>,
    /// Where they have padding.
    pub padding: Vec<usize>,
}

impl Structure {
    /// The tokens, each name's offset moved on by as much.
    pub fn of(tokens: &[Token], moved: u32) -> Self {
        let mut structure = Self::default();
        tokens.iter().for_each(|token| structure.token(token, moved));
        structure
    }

    fn word(&mut self, word: u32) {
        self.bytes.extend(word.to_be_bytes());
    }

    fn padded(&mut self, bytes: &[u8]) {
        self.bytes.extend(bytes);
        while self.bytes.len() % 4 != 0 {
            self.padding.push(self.bytes.len());
            self.bytes.push(0);
        }
    }

    fn token(&mut self, token: &Token, moved: u32) {
        match token {
            Token::BeginNode(name) => {
                self.word(tree::BEGIN_NODE);
                self.bytes.extend(name);
                self.padded(&[0]);
            }
            Token::Prop { length, nameoff, value } => {
                self.word(tree::PROP);
                self.word(*length);
                self.word(nameoff.wrapping_add(moved));
                self.padded(value);
            }
            Token::EndNode => self.word(tree::END_NODE),
            Token::Nop => self.word(tree::NOP),
            Token::End => self.word(tree::END),
            Token::Word(word) => self.word(*word),
        }
    }
}
