//! Program images: reading them from the end, with everything checked.

use crate::refusal::Refusal;

pub const MARK: [u8; 4] = [0x53, 0x52, 0x43, 0x49];
pub const TRAILER: usize = 12;
pub const MOST_BYTES: usize = 65_536;
pub const MOST_SEGMENTS: u32 = 64;

#[derive(Clone, Debug, PartialEq, Eq)]
pub struct Segment {
    pub first: u32,
    pub words: Vec<u32>,
}

fn number_at(bytes: &[u8], at: usize) -> u32 {
    u32::from_be_bytes([bytes[at], bytes[at + 1], bytes[at + 2], bytes[at + 3]])
}

/// The segments of an image, in ascending order, for a memory of `size` words.
pub fn read(bytes: &[u8], size: u32) -> Result<Vec<Segment>, Refusal> {
    if bytes.len() < TRAILER || bytes.len() > MOST_BYTES {
        return Err(Refusal::ImageLength);
    }
    let (before, trailer) = bytes.split_at(bytes.len() - TRAILER);
    if trailer[..4] != MARK {
        return Err(Refusal::ImageMark);
    }
    let count = number_at(trailer, 4);
    let back = number_at(trailer, 8) as usize;
    if count > MOST_SEGMENTS || back > before.len() {
        return Err(Refusal::ImageSegments);
    }
    read_segments(&before[before.len() - back..], count, size)
}

fn read_segments(bytes: &[u8], count: u32, size: u32) -> Result<Vec<Segment>, Refusal> {
    let mut left = bytes;
    let mut limit = size;
    let mut segments = Vec::new();
    for _ in 0..count {
        let (rest, segment) = last_segment(left, limit)?;
        left = rest;
        limit = segment.first;
        segments.push(segment);
    }
    if !left.is_empty() {
        return Err(Refusal::LeftOver);
    }
    segments.reverse();
    Ok(segments)
}

/// The segment at the end of `bytes`, and the bytes before it.
fn last_segment(bytes: &[u8], limit: u32) -> Result<(&[u8], Segment), Refusal> {
    if bytes.len() < 8 {
        return Err(Refusal::SegmentLength);
    }
    let (before, numbers) = bytes.split_at(bytes.len() - 8);
    let first = number_at(numbers, 0);
    let count = number_at(numbers, 4);
    let length = 4 * u64::from(count);
    if count == 0 || length > before.len() as u64 {
        return Err(Refusal::SegmentLength);
    }
    if u64::from(first) + u64::from(count) > u64::from(limit) {
        return Err(Refusal::SegmentPlace);
    }
    let (rest, own) = before.split_at(before.len() - length as usize);
    let words = own.chunks_exact(4).map(|four| number_at(four, 0)).collect();
    Ok((rest, Segment { first, words }))
}

/// The bytes of one segment as an image holds it.
pub fn segment_bytes(segment: &Segment) -> Vec<u8> {
    let numbers = [segment.first, segment.words.len() as u32];
    let all = segment.words.iter().chain(&numbers);
    all.flat_map(|number| number.to_be_bytes()).collect()
}

pub fn trailer_bytes(segments: u32, back: u32) -> Vec<u8> {
    [MARK, segments.to_be_bytes(), back.to_be_bytes()].concat()
}

/// A good image of segments that stand in ascending order.
pub fn write(segments: &[Segment]) -> Vec<u8> {
    let mut bytes: Vec<u8> = segments.iter().flat_map(segment_bytes).collect();
    let trailer = trailer_bytes(segments.len() as u32, bytes.len() as u32);
    bytes.extend(trailer);
    bytes
}

#[cfg(test)]
mod tests {
    use super::*;

    const EXAMPLE: [u8; 28] = [
        0x68, 0xC2, 0x00, 0x3A, 0xF8, 0x00, 0x00, 0x00, 0x00, 0x00, 0x00, 0x00, 0x00, 0x00, 0x00,
        0x02, 0x53, 0x52, 0x43, 0x49, 0x00, 0x00, 0x00, 0x01, 0x00, 0x00, 0x00, 0x10,
    ];

    fn segment(first: u32, words: &[u32]) -> Segment {
        Segment {
            first,
            words: words.to_vec(),
        }
    }

    #[test]
    fn the_example_of_the_page() {
        let wanted = vec![segment(0, &[0x68C2_003A, 0xF800_0000])];
        assert_eq!(read(&EXAMPLE, 2), Ok(wanted.clone()));
        assert_eq!(write(&wanted), EXAMPLE);
        assert_eq!(read(&EXAMPLE, 1), Err(Refusal::SegmentPlace));
    }

    #[test]
    fn bytes_before_the_image_are_ignored() {
        let mut bytes = vec![1, 2, 3];
        bytes.extend(EXAMPLE);
        assert_eq!(read(&bytes, 8192).unwrap().len(), 1);
    }

    #[test]
    fn lengths_and_marks() {
        assert_eq!(read(&[0; 11], 1), Err(Refusal::ImageLength));
        assert_eq!(read(&[0; 12], 1), Err(Refusal::ImageMark));
        assert_eq!(read(&[0; 65_536], 1), Err(Refusal::ImageMark));
        assert_eq!(read(&[0; 65_537], 1), Err(Refusal::ImageLength));
        assert_eq!(read(&trailer_bytes(0, 0), 0), Ok(vec![]));
    }

    #[test]
    fn counts_of_segments_and_bytes() {
        let many = |count: u32| -> Vec<Segment> { (0..count).map(|n| segment(n, &[n])).collect() };
        assert_eq!(read(&write(&many(64)), 64), Ok(many(64)));
        assert_eq!(read(&write(&many(65)), 65), Err(Refusal::ImageSegments));
        assert_eq!(read(&trailer_bytes(0, 1), 9), Err(Refusal::ImageSegments));
        assert_eq!(read(&trailer_bytes(1, 0), 9), Err(Refusal::SegmentLength));
        let over = [vec![0; 4], trailer_bytes(0, 4)].concat();
        assert_eq!(read(&over, 9), Err(Refusal::LeftOver));
    }

    fn raw(words: usize, first: u32, count: u32) -> Vec<u8> {
        let body = [
            vec![0; 4 * words],
            [first.to_be_bytes(), count.to_be_bytes()].concat(),
        ]
        .concat();
        [body.clone(), trailer_bytes(1, body.len() as u32)].concat()
    }

    #[test]
    fn segments_that_are_too_long_or_too_high() {
        assert_eq!(read(&raw(1, 0, 0), 9), Err(Refusal::SegmentLength));
        assert_eq!(read(&raw(1, 0, 2), 9), Err(Refusal::SegmentLength));
        assert_eq!(
            read(&raw(1, 0, 0x4000_0001), 9),
            Err(Refusal::SegmentLength)
        );
        assert_eq!(read(&raw(1, u32::MAX, 1), 9), Err(Refusal::SegmentPlace));
        assert_eq!(read(&raw(1, 9, 1), 9), Err(Refusal::SegmentPlace));
        assert_eq!(read(&raw(1, 99, 0), 9), Err(Refusal::SegmentLength));
        assert_eq!(read(&raw(2, 8, 1), 9), Err(Refusal::LeftOver));
        assert!(read(&raw(1, 8, 1), 9).is_ok());
    }

    #[test]
    fn segments_must_not_overlap_nor_descend() {
        let touching = [segment(0, &[1, 2]), segment(2, &[3])];
        assert_eq!(read(&write(&touching), 3), Ok(touching.to_vec()));
        let overlapping = [segment(0, &[1, 2]), segment(1, &[3])];
        assert_eq!(read(&write(&overlapping), 3), Err(Refusal::SegmentPlace));
        let descending = [segment(2, &[1]), segment(0, &[3])];
        assert_eq!(read(&write(&descending), 3), Err(Refusal::SegmentPlace));
    }

    /// The last segment is the first to be looked at.
    #[test]
    fn the_first_failing_segment_from_the_end_decides() {
        let bad = [segment(0, &[]), segment(8, &[3, 4])];
        assert_eq!(read(&write(&bad), 9), Err(Refusal::SegmentPlace));
        assert_eq!(read(&write(&bad), 10), Err(Refusal::SegmentLength));
    }
}
