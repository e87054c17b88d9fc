//! The five memories. Each means a list of words and a delay for each word number.

pub const MOST_WORDS: u32 = 8192;

/// An access at or above the size: no word has that number.
#[derive(Clone, Copy, Debug, PartialEq, Eq)]
pub struct Outside;

#[derive(Clone, Debug)]
pub enum Memory {
    Words(Vec<u32>),
    /// Four bytes a word, high byte first.
    Bytes(Vec<u8>),
    /// `extra` more delay for `length` words from `first` on.
    Slow {
        below: Box<Memory>,
        first: u32,
        length: u32,
        extra: u8,
    },
    /// `extra` more delay for words outside the row of the last access.
    OpenRow {
        below: Box<Memory>,
        extra: u8,
        open: Option<u32>,
    },
    /// The second memory's words after the first's.
    Pair(Box<Memory>, Box<Memory>),
}

fn row_of(number: u32) -> u32 {
    number / 64
}

fn bytes_of_word(number: u32) -> std::ops::Range<usize> {
    let at = 4 * number as usize;
    at..at + 4
}

fn word_of_bytes(bytes: &[u8]) -> u32 {
    u32::from_be_bytes([bytes[0], bytes[1], bytes[2], bytes[3]])
}

impl Memory {
    pub fn slow(self, first: u32, length: u32, extra: u8) -> Memory {
        Memory::Slow {
            below: Box::new(self),
            first,
            length,
            extra,
        }
    }

    pub fn open_row(self, extra: u8) -> Memory {
        Memory::OpenRow {
            below: Box::new(self),
            extra,
            open: None,
        }
    }

    pub fn paired_with(self, second: Memory) -> Memory {
        Memory::Pair(Box::new(self), Box::new(second))
    }

    pub fn size(&self) -> u32 {
        let whole = match self {
            Memory::Words(words) => words.len(),
            Memory::Bytes(bytes) => bytes.len() / 4,
            Memory::Slow { below, .. } | Memory::OpenRow { below, .. } => below.size() as usize,
            Memory::Pair(first, second) => (first.size() + second.size()) as usize,
        };
        whole.min(MOST_WORDS as usize) as u32
    }

    pub fn delay(&self, number: u32) -> u8 {
        if number >= self.size() {
            return 0;
        }
        match self {
            Memory::Words(_) | Memory::Bytes(_) => 0,
            Memory::Slow {
                below,
                first,
                length,
                extra,
            } => {
                let inside = number >= *first && number - first < *length;
                below
                    .delay(number)
                    .saturating_add(if inside { *extra } else { 0 })
            }
            Memory::OpenRow { below, extra, open } => {
                let closed = *open != Some(row_of(number));
                below
                    .delay(number)
                    .saturating_add(if closed { *extra } else { 0 })
            }
            Memory::Pair(first, second) => match number.checked_sub(first.size()) {
                None => first.delay(number),
                Some(rest) => second.delay(rest),
            },
        }
    }

    pub fn read(&mut self, number: u32) -> Result<u32, Outside> {
        if number >= self.size() {
            return Err(Outside);
        }
        match self {
            Memory::Words(words) => Ok(words[number as usize]),
            Memory::Bytes(bytes) => Ok(word_of_bytes(&bytes[bytes_of_word(number)])),
            Memory::Slow { below, .. } => below.read(number),
            Memory::OpenRow { below, open, .. } => {
                *open = Some(row_of(number));
                below.read(number)
            }
            Memory::Pair(first, second) => match number.checked_sub(first.size()) {
                None => first.read(number),
                Some(rest) => second.read(rest),
            },
        }
    }

    pub fn write(&mut self, number: u32, value: u32) -> Result<(), Outside> {
        if number >= self.size() {
            return Err(Outside);
        }
        match self {
            Memory::Words(words) => words[number as usize] = value,
            Memory::Bytes(bytes) => {
                bytes[bytes_of_word(number)].copy_from_slice(&value.to_be_bytes());
            }
            Memory::Slow { below, .. } => below.write(number, value)?,
            Memory::OpenRow { below, open, .. } => {
                *open = Some(row_of(number));
                below.write(number, value)?;
            }
            Memory::Pair(first, second) => match number.checked_sub(first.size()) {
                None => first.write(number, value)?,
                Some(rest) => second.write(rest, value)?,
            },
        }
        Ok(())
    }

    /// Whether the memory means exactly these words. Unlike a read it opens no row.
    pub fn holds(&self, words: &[u32]) -> bool {
        words.len() == self.size() as usize && self.begins_with(words)
    }

    fn begins_with(&self, wanted: &[u32]) -> bool {
        match self {
            Memory::Words(words) => words[..wanted.len()] == *wanted,
            Memory::Bytes(bytes) => bytes
                .chunks_exact(4)
                .zip(wanted)
                .all(|(four, &word)| word_of_bytes(four) == word),
            Memory::Slow { below, .. } | Memory::OpenRow { below, .. } => below.begins_with(wanted),
            Memory::Pair(first, second) => {
                let (low, high) = wanted.split_at(wanted.len().min(first.size() as usize));
                first.begins_with(low) && second.begins_with(high)
            }
        }
    }
}

#[cfg(test)]
mod tests {
    use super::*;

    fn words(count: usize) -> Memory {
        Memory::Words(vec![0; count])
    }

    fn bytes(count: usize) -> Memory {
        Memory::Bytes(vec![0; count])
    }

    #[test]
    fn sizes_are_cut() {
        assert_eq!(words(0).size(), 0);
        assert_eq!(words(8193).size(), 8192);
        assert_eq!(bytes(3).size(), 0);
        assert_eq!(bytes(7).size(), 1);
        assert_eq!(bytes(262_144).size(), 8192);
        assert_eq!(words(8190).paired_with(bytes(400)).size(), 8192);
        assert_eq!(words(10).paired_with(bytes(9)).size(), 12);
    }

    #[test]
    fn bytes_stand_high_byte_first() {
        let mut memory = Memory::Bytes(vec![0x12, 0x34, 0x56, 0x78, 0x9A]);
        assert_eq!(memory.read(0), Ok(0x1234_5678));
        assert_eq!(memory.write(0, 0x0102_0304), Ok(()));
        assert_eq!(memory.write(1, 5), Err(Outside));
        match memory {
            Memory::Bytes(bytes) => assert_eq!(bytes, [1, 2, 3, 4, 0x9A]),
            _ => unreachable!(),
        }
    }

    #[test]
    fn a_pair_goes_on_in_the_second() {
        let mut memory = words(2).paired_with(bytes(8));
        for number in 0..4 {
            memory.write(number, 100 + number).unwrap();
        }
        assert!(memory.holds(&[100, 101, 102, 103]));
        assert!(!memory.holds(&[100, 101, 102]));
        assert!(!memory.holds(&[100, 101, 102, 104]));
        assert_eq!(memory.read(3), Ok(103));
        assert_eq!(memory.read(4), Err(Outside));
    }

    #[test]
    fn a_word_of_the_second_has_the_delay_of_its_own_number() {
        let memory = words(3).paired_with(words(3).slow(1, 1, 9));
        let delays: Vec<u8> = (0..7).map(|n| memory.delay(n)).collect();
        assert_eq!(delays, [0, 0, 0, 0, 9, 0, 0]);
    }

    #[test]
    fn stretches_end_at_their_length_and_at_the_size() {
        let memory = words(6).slow(2, 3, 7);
        let delays: Vec<u8> = (0..8).map(|n| memory.delay(n)).collect();
        assert_eq!(delays, [0, 0, 7, 7, 7, 0, 0, 0]);
        assert_eq!(words(6).slow(5, u32::MAX, 7).delay(5), 7);
        assert_eq!(words(6).slow(5, u32::MAX, 7).delay(6), 0);
        assert_eq!(words(6).slow(u32::MAX, u32::MAX, 7).delay(0), 0);
    }

    #[test]
    fn a_sum_of_delays_ends_at_255() {
        let memory = words(6).slow(0, 6, 200).open_row(100);
        assert_eq!(memory.delay(0), 255);
    }

    #[test]
    fn the_last_accepted_access_opens_its_row() {
        let mut memory = words(200).open_row(5);
        assert_eq!((memory.delay(0), memory.delay(100)), (5, 5));
        memory.read(63).unwrap();
        assert_eq!((memory.delay(0), memory.delay(64)), (0, 5));
        memory.write(64, 1).unwrap();
        assert_eq!((memory.delay(0), memory.delay(127)), (5, 0));
        assert_eq!(memory.read(200), Err(Outside));
        assert_eq!(
            (memory.delay(127), memory.delay(199), memory.delay(200)),
            (0, 5, 0)
        );
    }
}
