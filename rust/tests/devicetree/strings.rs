//! A strings block that grows by the names that are looked for in it.

use crate::random::Random;

#[derive(Default)]
pub struct Strings {
    pub bytes: Vec<u8>,
}

impl Strings {
    /// Where the name stands: mostly where it is found, if only as the end of a longer string.
    pub fn place(&mut self, name: &[u8], random: &mut Random) -> usize {
        let string = [name, &[0]].concat();
        let found = self.bytes.windows(string.len()).position(|bytes| bytes == string);
        match found {
            Some(place) if !random.once_in(8) => place,
            _ => self.add(&string, random),
        }
    }

    /// A new string, at times with other bytes before the name.
    fn add(&mut self, string: &[u8], random: &mut Random) -> usize {
        if random.once_in(8) {
            let before = random.place(6);
            self.bytes.extend(random.bytes(before).iter().map(|byte| byte | 1));
        }
        let place = self.bytes.len();
        self.bytes.extend(string);
        place
    }
}
