//! Damage to the parts of a blob before they are written: tokens and what belongs to them.

use crate::random::Random;
use crate::tokens::{Parts, Token};

pub fn damage(parts: &mut Parts, random: &mut Random) {
    let tokens = &mut parts.tokens;
    if tokens.is_empty() {
        return;
    }
    match random.below(11) {
        0 => swap(tokens, random),
        1 => drop(tokens.remove(random.place(tokens.len()))),
        2 => repeat(tokens, random),
        3 => insert(tokens, random),
        4 => put_after_end(tokens, random),
        5 => drop(tokens.pop()),
        6 => put_second_root(tokens, random),
        7 => leave_no_root(tokens, random),
        8 => move_property(tokens, random),
        9 => change_length(tokens, random),
        _ => change_nameoff(tokens, parts.strings.len() as u32, random),
    }
}

fn swap(tokens: &mut [Token], random: &mut Random) {
    let first = random.place(tokens.len());
    let second = if random.once_in(2) { first + 1 } else { random.place(tokens.len()) };
    if second < tokens.len() {
        tokens.swap(first, second);
    }
}

fn repeat(tokens: &mut Vec<Token>, random: &mut Random) {
    let token = tokens[random.place(tokens.len())].clone();
    tokens.insert(random.place(tokens.len()), token);
}

fn insert(tokens: &mut Vec<Token>, random: &mut Random) {
    let unknown = random.number() as u32;
    let token = match random.below(5) {
        0 => Token::BeginNode(b"inserted".to_vec()),
        1 => Token::EndNode,
        2 => Token::End,
        _ => Token::Word(random.one_of(&[0, 5, 8, 10, 0x0101, 0x0100_0000, unknown])),
    };
    tokens.insert(random.place(tokens.len()), token);
}

fn put_after_end(tokens: &mut Vec<Token>, random: &mut Random) {
    for _ in 0..=random.below(2) {
        tokens.push(Token::Word(random.one_of(&[0, 4, 9])));
    }
}

fn put_second_root(tokens: &mut Vec<Token>, random: &mut Random) {
    let end = tokens.pop();
    if random.once_in(2) {
        tokens.extend([Token::BeginNode(Vec::new()), Token::EndNode]);
    } else {
        tokens.extend_from_within(..);
    }
    tokens.extend(end);
}

fn leave_no_root(tokens: &mut Vec<Token>, random: &mut Random) {
    let property = tokens.iter().find(|token| is_property(token)).cloned();
    tokens.clear();
    if random.once_in(2) {
        tokens.push(Token::Nop);
    }
    if random.once_in(2) {
        tokens.extend(property);
    }
    tokens.push(Token::End);
}

/// Moves a property behind the end of a node, often a subnode of its own.
fn move_property(tokens: &mut Vec<Token>, random: &mut Random) {
    let Some(from) = random_token(tokens, is_property, random) else { return };
    let property = tokens.remove(from);
    let to = random_token(tokens, is_node_end, random).map_or(from, |end| end + 1);
    tokens.insert(to, property);
}

/// Changes a property's length field, and not its value.
fn change_length(tokens: &mut [Token], random: &mut Random) {
    let Some(at) = random_token(tokens, is_property, random) else { return };
    if let Token::Prop { length, .. } = &mut tokens[at] {
        *length = random.near(*length);
    }
}

fn change_nameoff(tokens: &mut [Token], end: u32, random: &mut Random) {
    let Some(at) = random_token(tokens, is_property, random) else { return };
    if let Token::Prop { nameoff, .. } = &mut tokens[at] {
        let near = random.near(*nameoff);
        *nameoff = random.one_of(&[end, end + 1, near]);
    }
}

fn random_token(tokens: &[Token], wanted: fn(&Token) -> bool, random: &mut Random) -> Option<usize> {
    let places: Vec<_> = (0..tokens.len()).filter(|place| wanted(&tokens[*place])).collect();
    (!places.is_empty()).then(|| random.one_of(&places))
}

fn is_property(token: &Token) -> bool {
    matches!(token, Token::Prop { .. })
}

fn is_node_end(token: &Token) -> bool {
    matches!(token, Token::EndNode)
}
