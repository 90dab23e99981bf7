//! Lists as bytes lent to the archive, at every alignment and between strips of other bytes.

use crate::numbers::Numbers;
use std::ops::Range;

const STRIP: usize = 24;

/// Bytes to lend, inside a larger run whose other bytes nobody may touch.
#[derive(Clone, PartialEq, Eq)]
pub struct Lent {
    pub run: Vec<u8>,
    pub part: Range<usize>,
}

impl Lent {
    /// The list's bytes, with some cut off or added where the length is another.
    pub fn list(numbers: &mut Numbers, list: &[u64], length: usize) -> Lent {
        let mut lent = Lent::noise(numbers, length);
        let bytes: Vec<u8> = list
            .iter()
            .flat_map(|number| number.to_le_bytes())
            .collect();
        let known = bytes.len().min(length);
        lent.part_mut()[..known].copy_from_slice(&bytes[..known]);
        lent
    }

    /// Bytes that mean nothing, so that every write to them shows.
    pub fn noise(numbers: &mut Numbers, length: usize) -> Lent {
        let start = STRIP + numbers.position_below(8);
        Lent {
            run: numbers.bytes(start + length + STRIP),
            part: start..start + length,
        }
    }

    pub fn part(&self) -> &[u8] {
        &self.run[self.part.clone()]
    }

    pub fn part_mut(&mut self) -> &mut [u8] {
        &mut self.run[self.part.clone()]
    }

    /// The numbers that the bytes make, where they make whole ones.
    pub fn whole_numbers(&self) -> Option<Vec<u64>> {
        let chunks = self.part().chunks_exact(8);
        if !chunks.remainder().is_empty() {
            return None;
        }
        Some(chunks.map(number_of).collect())
    }

    /// Everything about the bytes, for a person who wants to try them again.
    pub fn described(&self) -> String {
        let chunks = self.part().chunks_exact(8);
        let rest = chunks.remainder().to_vec();
        let list: Vec<u64> = chunks.map(number_of).collect();
        format!(
            "{} bytes from {:p}: {list:?}, then bytes {rest:?}",
            self.part.len(),
            self.part().as_ptr(),
        )
    }

    /// The bytes that aren't the expected ones; places count from the first lent byte.
    pub fn differences(&self, expected: &Lent) -> String {
        let differences: Vec<String> = (self.run.iter().zip(&expected.run))
            .enumerate()
            .filter(|(_, (byte, expected))| byte != expected)
            .map(|(place, (byte, expected))| {
                let place = place as isize - self.part.start as isize;
                format!("byte {place} is {byte} for {expected}")
            })
            .collect();
        match differences.is_empty() {
            true => "as expected".to_string(),
            false => differences.join(", "),
        }
    }
}

fn number_of(eight: &[u8]) -> u64 {
    u64::from_le_bytes(eight.try_into().expect("eight bytes"))
}
