// Random numbers and texts, the same in each run.
use dynamo_value::Result;
use std::alloc::Global;

#[derive(Drop)]
pub(crate) struct Random {
    state: u64,
}

const PIECES: [&str; 8] = ["", "a", "Z", " ", "\"", "é", "語", "\u{10ffff}"];

impl Random {
    pub(crate) fn new() -> Random {
        Random { state: 7 }
    }

    // A linear congruential generator, by its high bits.
    pub(crate) fn next(&mut self) -> u64 {
        self.state = self.state.wrapping_mul(6364136223846793005).wrapping_add(1442695040888963407);
        self.state >> 24
    }

    pub(crate) fn byte(&mut self) -> u8 {
        (self.next() % 256) as u8
    }

    // A number of 8 bits with a sign.
    pub(crate) fn signed(&mut self) -> i8 {
        (i16::from(self.byte()) - 128) as i8
    }

    pub(crate) fn flag(&mut self) -> bool {
        self.next() % 2 == 1
    }

    // A few.
    pub(crate) fn count(&mut self) -> u64 {
        self.next() % 5
    }

    pub(crate) fn text(&mut self, alloc: Global) -> Result<String> {
        let mut text = String::new(alloc);
        for _ in 0..self.count() {
            let piece = (self.next() % 8) as usize;
            text.push_str(PIECES[piece])?;
        }
        Ok(text)
    }

    pub(crate) fn texts(&mut self, alloc: Global) -> Result<Vec<String>> {
        let mut texts = Vec::new(alloc);
        for _ in 0..self.count() {
            texts.push(self.text(alloc)?)?;
        }
        Ok(texts)
    }

    pub(crate) fn maybe_text(&mut self, alloc: Global) -> Result<Option<String>> {
        if self.flag() {
            Ok(Some(self.text(alloc)?))
        } else {
            Ok(None)
        }
    }

    pub(crate) fn numbers(&mut self, alloc: Global) -> Result<Vec<u64>> {
        let mut numbers = Vec::new(alloc);
        for _ in 0..self.count() {
            numbers.push(self.next())?;
        }
        Ok(numbers)
    }

    pub(crate) fn bytes(&mut self, alloc: Global) -> Result<Vec<u8>> {
        let mut bytes = Vec::new(alloc);
        for _ in 0..self.count() {
            bytes.push(self.byte())?;
        }
        Ok(bytes)
    }
}
