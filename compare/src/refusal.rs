//! Refusals: the answers to calls that cannot be done. They change nothing.

#[derive(Clone, Copy, Debug, PartialEq, Eq)]
#[repr(u8)]
pub enum Refusal {
    Running = 1,
    Marked = 2,
    Stopped = 3,
    NoRegister = 4,
    NoWord = 5,
    ClocksWanted = 6,
    ClocksInAll = 7,
    ImageLength = 8,
    ImageMark = 9,
    ImageSegments = 10,
    SegmentLength = 11,
    SegmentPlace = 12,
    LeftOver = 13,
}

impl Refusal {
    pub fn number(self) -> usize {
        self as usize
    }

    pub fn reason(self) -> &'static str {
        match self {
            Refusal::Running => "the machine is running",
            Refusal::Marked => "the fault mark is set",
            Refusal::Stopped => "the machine is stopped",
            Refusal::NoRegister => "no such register",
            Refusal::NoWord => "no such word",
            Refusal::ClocksWanted => "the clocks wanted are not 1 to 1,000,000",
            Refusal::ClocksInAll => "the clocks would pass 1,000,000,000,000",
            Refusal::ImageLength => "the image has under 12 or over 65,536 bytes",
            Refusal::ImageMark => "the image has another mark",
            Refusal::ImageSegments => "too many segments, or segments too long for the image",
            Refusal::SegmentLength => "a segment is empty or longer than what is left",
            Refusal::SegmentPlace => "a segment ends above the next one or above the memory",
            Refusal::LeftOver => "bytes are left over before the first segment",
        }
    }
}
