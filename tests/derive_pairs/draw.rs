//! Random values.
use dynamo_value::{ByteBuf, Result};
use std::alloc::Global;
use std::collections::{BTreeMap, BTreeSet, HashMap, HashSet};
use std::hash::Hash;

#[derive(Drop)]
pub struct Random {
    state: u64,
}

impl Random {
    pub fn new(state: u64) -> Random {
        Random { state }
    }

    pub fn step(&mut self) {
        self.state = self.state.wrapping_mul(6364136223846793005).wrapping_add(1442695040888963407);
    }

    pub fn below(&mut self, count: u64) -> u64 {
        self.step();
        (self.state >> 24) % count
    }

    // A number of 128 bits: often a small one, one with few bits, or one near to the highest.
    fn wide(&mut self) -> u128 {
        let bits = u128::from(self.below(1 << 32)) << 96 | u128::from(self.below(1 << 32)) << 64 | u128::from(self.below(u64::MAX));
        match self.below(4) {
            0 => bits % 3,
            1 => 1 << (bits % 128),
            2 => u128::MAX - bits % 3,
            _ => bits,
        }
    }
}

pub trait Draw: Sized + Drop {
    fn draw(alloc: Global, random: &mut Random) -> Result<Self>;
}

const PIECES: [&str; 8] = ["", "a", "Z", " ", "\"", "é", "語", "\u{10ffff}"];

const CHARS: [char; 6] = ['\0', 'a', '"', 'é', '語', '\u{10ffff}'];

impl Draw for bool {
    fn draw(_alloc: Global, random: &mut Random) -> Result<bool> {
        Ok(random.below(2) == 1)
    }
}

impl Draw for char {
    fn draw(_alloc: Global, random: &mut Random) -> Result<char> {
        Ok(CHARS[random.below(6) as usize])
    }
}

impl Draw for () {
    fn draw(_alloc: Global, _random: &mut Random) -> Result<()> {
        Ok(())
    }
}

impl Draw for String {
    fn draw(alloc: Global, random: &mut Random) -> Result<String> {
        let mut text = String::new(alloc);
        for _ in 0..random.below(4) {
            text.push_str(PIECES[random.below(8) as usize])?;
        }
        Ok(text)
    }
}

impl Draw for ByteBuf {
    fn draw(alloc: Global, random: &mut Random) -> Result<ByteBuf> {
        Ok(ByteBuf::from(<Vec<u8> as Draw>::draw(alloc, random)?))
    }
}

impl<T: Draw> Draw for Option<T> {
    fn draw(alloc: Global, random: &mut Random) -> Result<Option<T>> {
        if random.below(2) == 0 {
            return Ok(None);
        }
        Ok(Some(T::draw(alloc, random)?))
    }
}

impl<T: Draw> Draw for Box<T> {
    fn draw(alloc: Global, random: &mut Random) -> Result<Box<T>> {
        Ok(Box::new(alloc, T::draw(alloc, random)?)?)
    }
}

impl<T: Draw> Draw for Vec<T> {
    fn draw(alloc: Global, random: &mut Random) -> Result<Vec<T>> {
        let mut list = Vec::new(alloc);
        for _ in 0..random.below(4) {
            list.push(T::draw(alloc, random)?)?;
        }
        Ok(list)
    }
}

impl<T: Draw + Ord> Draw for BTreeSet<T> {
    fn draw(alloc: Global, random: &mut Random) -> Result<BTreeSet<T>> {
        let mut set = BTreeSet::new(alloc);
        for _ in 0..random.below(4) {
            set.insert(T::draw(alloc, random)?)?;
        }
        Ok(set)
    }
}

impl<T: Draw + Eq + Hash> Draw for HashSet<T> {
    fn draw(alloc: Global, random: &mut Random) -> Result<HashSet<T>> {
        let mut set = HashSet::new(alloc);
        for _ in 0..random.below(4) {
            set.insert(T::draw(alloc, random)?)?;
        }
        Ok(set)
    }
}

impl<K: Draw + Ord, V: Draw> Draw for BTreeMap<K, V> {
    fn draw(alloc: Global, random: &mut Random) -> Result<BTreeMap<K, V>> {
        let mut map = BTreeMap::new(alloc);
        for _ in 0..random.below(4) {
            map.insert(K::draw(alloc, random)?, V::draw(alloc, random)?)?;
        }
        Ok(map)
    }
}

impl<K: Draw + Eq + Hash, V: Draw> Draw for HashMap<K, V> {
    fn draw(alloc: Global, random: &mut Random) -> Result<HashMap<K, V>> {
        let mut map = HashMap::new(alloc);
        for _ in 0..random.below(4) {
            map.insert(K::draw(alloc, random)?, V::draw(alloc, random)?)?;
        }
        Ok(map)
    }
}

impl<A: Draw, B: Draw> Draw for (A, B) {
    fn draw(alloc: Global, random: &mut Random) -> Result<(A, B)> {
        Ok((A::draw(alloc, random)?, B::draw(alloc, random)?))
    }
}

impl<A: Draw, B: Draw, C: Draw> Draw for (A, B, C) {
    fn draw(alloc: Global, random: &mut Random) -> Result<(A, B, C)> {
        Ok((A::draw(alloc, random)?, B::draw(alloc, random)?, C::draw(alloc, random)?))
    }
}

impl Draw for u8 {
    fn draw(_alloc: Global, random: &mut Random) -> Result<u8> {
        Ok((random.wide() % (1 << 8)) as u8)
    }
}

impl Draw for i8 {
    fn draw(_alloc: Global, random: &mut Random) -> Result<i8> {
        let rest = (random.wide() % (1 << 7)) as i8;
        Ok(if random.below(2) == 0 { rest } else { -1 - rest })
    }
}

impl Draw for u16 {
    fn draw(_alloc: Global, random: &mut Random) -> Result<u16> {
        Ok((random.wide() % (1 << 16)) as u16)
    }
}

impl Draw for i16 {
    fn draw(_alloc: Global, random: &mut Random) -> Result<i16> {
        let rest = (random.wide() % (1 << 15)) as i16;
        Ok(if random.below(2) == 0 { rest } else { -1 - rest })
    }
}

impl Draw for u32 {
    fn draw(_alloc: Global, random: &mut Random) -> Result<u32> {
        Ok((random.wide() % (1 << 32)) as u32)
    }
}

impl Draw for i32 {
    fn draw(_alloc: Global, random: &mut Random) -> Result<i32> {
        let rest = (random.wide() % (1 << 31)) as i32;
        Ok(if random.below(2) == 0 { rest } else { -1 - rest })
    }
}

impl Draw for u64 {
    fn draw(_alloc: Global, random: &mut Random) -> Result<u64> {
        Ok((random.wide() % (1 << 64)) as u64)
    }
}

impl Draw for i64 {
    fn draw(_alloc: Global, random: &mut Random) -> Result<i64> {
        let rest = (random.wide() % (1 << 63)) as i64;
        Ok(if random.below(2) == 0 { rest } else { -1 - rest })
    }
}

impl Draw for u128 {
    fn draw(_alloc: Global, random: &mut Random) -> Result<u128> {
        Ok(random.wide())
    }
}

impl Draw for i128 {
    fn draw(_alloc: Global, random: &mut Random) -> Result<i128> {
        let rest = (random.wide() >> 1) as i128;
        Ok(if random.below(2) == 0 { rest } else { -1 - rest })
    }
}
