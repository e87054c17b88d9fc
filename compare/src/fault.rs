//! Faults: what an instruction meets that stops the machine.

#[derive(Clone, Copy, Debug, PartialEq, Eq)]
pub enum Cause {
    Unassigned,
    NotAMultipleOfFour,
    NoWord { number: u32, size: u32 },
}

impl Cause {
    pub fn number(self) -> usize {
        match self {
            Cause::Unassigned => 17,
            Cause::NotAMultipleOfFour => 18,
            Cause::NoWord { .. } => 19,
        }
    }

    pub fn reason(self) -> &'static str {
        match self {
            Cause::Unassigned => "the operation's code is unassigned",
            Cause::NotAMultipleOfFour => "the address is no multiple of four",
            Cause::NoWord { .. } => "no word has that number",
        }
    }
}

#[derive(Clone, Copy, Debug, PartialEq, Eq)]
pub struct Fault {
    pub cause: Cause,
    pub address: u32,
    /// The address of the instruction that met the fault.
    pub instruction: u32,
}

/// The number of the word at an address of a memory with `size` words.
pub fn word_number(address: u32, size: u32) -> Result<u32, Cause> {
    if !address.is_multiple_of(4) {
        return Err(Cause::NotAMultipleOfFour);
    }
    let number = address / 4;
    if number >= size {
        return Err(Cause::NoWord { number, size });
    }
    Ok(number)
}

#[cfg(test)]
mod tests {
    use super::*;

    #[test]
    fn alignment_is_tested_before_size() {
        assert_eq!(word_number(8, 3), Ok(2));
        assert_eq!(
            word_number(12, 3),
            Err(Cause::NoWord { number: 3, size: 3 })
        );
        assert_eq!(word_number(13, 3), Err(Cause::NotAMultipleOfFour));
        assert_eq!(
            word_number(0xFFFF_FFFC, 8192),
            Err(Cause::NoWord {
                number: 0x3FFF_FFFF,
                size: 8192
            })
        );
    }
}
