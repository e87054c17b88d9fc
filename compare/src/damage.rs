//! Good images and damaged ones.

use crate::image::{segment_bytes, trailer_bytes, write, Segment, MARK, MOST_BYTES, TRAILER};
use crate::program::any_instruction;
use crate::random::Random;

/// A segment whose two numbers need not be true.
struct Loose {
    words: Vec<u32>,
    first: u32,
    count: u32,
}

/// An image whose numbers need not be true.
struct LooseImage {
    segments: Vec<Loose>,
    /// Bytes between the start of the segments and the first one.
    gap: Vec<u8>,
    mark: [u8; 4],
    count: u32,
    /// Added to the true number of bytes.
    back: u32,
}

fn loosened(segments: &[Segment]) -> LooseImage {
    let loose = |s: &Segment| Loose {
        words: s.words.clone(),
        first: s.first,
        count: s.words.len() as u32,
    };
    LooseImage {
        segments: segments.iter().map(loose).collect(),
        gap: Vec::new(),
        mark: MARK,
        count: segments.len() as u32,
        back: 0,
    }
}

impl LooseImage {
    fn bytes(&self) -> Vec<u8> {
        let mut bytes = self.gap.clone();
        for segment in &self.segments {
            let numbers = [segment.first, segment.count];
            bytes.extend(
                segment
                    .words
                    .iter()
                    .chain(&numbers)
                    .flat_map(|n| n.to_be_bytes()),
            );
        }
        let mut trailer = trailer_bytes(self.count, (bytes.len() as u32).wrapping_add(self.back));
        trailer[..4].copy_from_slice(&self.mark);
        bytes.extend(trailer);
        bytes
    }
}

fn noise(random: &mut Random, length: u32) -> Vec<u8> {
    (0..length).map(|_| random.u32() as u8).collect()
}

/// Segments in ascending order, with and without words between them.
pub fn some_segments(random: &mut Random, size: u32) -> Vec<Segment> {
    let most = random.pick(&[1, 1, 2, 3, 5, 64]);
    let mut at = if random.once_in(2) {
        0
    } else {
        random.below(size + 1)
    };
    let mut segments = Vec::new();
    while segments.len() < most && at < size {
        let longest = random.pick(&[1, 3, 8]).min(size - at);
        let length = random.between(1, longest);
        let words = (0..length).map(|_| any_instruction(random, size)).collect();
        segments.push(Segment { first: at, words });
        at += length + random.pick(&[0, 0, 1, 5, 60]);
    }
    segments
}

/// A good image, perhaps with bytes before it.
pub fn with_bytes_before(random: &mut Random, segments: &[Segment]) -> Vec<u8> {
    let image = write(segments);
    let room = MOST_BYTES - image.len();
    let before = match random.weighted(&[40, 20, 4, 1]) {
        0 => 0,
        1 => random.between(1, 9.min(room as u32)),
        2 => random.between(1, 200.min(room as u32)),
        _ => room as u32,
    };
    [noise(random, before), image].concat()
}

fn damage_segment(random: &mut Random, image: &mut LooseImage, size: u32) {
    let which = random.below(image.segments.len() as u32) as usize;
    let segment = &mut image.segments[which];
    let true_count = segment.count;
    match random.below(8) {
        0 => segment.count = 0,
        1 => segment.count += random.pick(&[1, 2, 3]),
        2 => segment.count = true_count.wrapping_add(1 << 30),
        3 => segment.count = random.pick(&[u32::MAX, 1 << 30, 1 << 31, 0xC000_0000]),
        4 => segment.count -= 1,
        5 => {
            segment.first = size
                .wrapping_sub(true_count)
                .wrapping_add(random.pick(&[1, 2]))
        }
        6 => segment.first = random.pick(&[u32::MAX, true_count.wrapping_neg(), 1 << 31, size]),
        _ => segment.first = segment.first.wrapping_add(random.pick(&[1, u32::MAX, 64])),
    }
}

fn damage_trailer(random: &mut Random, image: &mut LooseImage) {
    match random.below(7) {
        0 => image.mark[random.below(4) as usize] ^= 1 << random.below(8),
        1 => image.count = random.pick(&[65, 66, 128, 1 << 16, 1 << 31, u32::MAX]),
        2 => image.count = image.count.saturating_sub(1),
        3 => image.count += 1,
        4 => image.back = random.pick(&[1, 4, 12, 1 << 31]),
        5 => image.back = random.between(1, 16).wrapping_neg(),
        _ => {
            let length = random.between(1, 13);
            image.gap = noise(random, length);
        }
    }
}

fn damage_order(random: &mut Random, image: &mut LooseImage) {
    let count = image.segments.len() as u32;
    let (one, other) = (random.below(count) as usize, random.below(count) as usize);
    image.segments.swap(one, other);
}

fn too_many_segments() -> Vec<u8> {
    let segments: Vec<Segment> = (0..65)
        .map(|first| Segment {
            first,
            words: vec![first],
        })
        .collect();
    write(&segments)
}

fn of_wrong_length(random: &mut Random) -> Vec<u8> {
    let short = random.between(1, TRAILER as u32 - 1) as usize;
    let trailer = trailer_bytes(0, 0);
    if random.once_in(8) {
        let over = MOST_BYTES + random.pick(&[1, 2, 300]) - TRAILER;
        return [vec![0; over], trailer].concat();
    }
    if random.once_in(2) {
        trailer[..short].to_vec()
    } else {
        trailer[TRAILER - short..].to_vec()
    }
}

fn flipped(random: &mut Random, mut bytes: Vec<u8>) -> Vec<u8> {
    for _ in 0..random.between(1, 3) {
        let place = random.below(bytes.len() as u32) as usize;
        bytes[place] ^= 1 << random.below(8);
    }
    bytes
}

/// An image that is mostly not good. Some damages leave a good one.
pub fn damaged(random: &mut Random, size: u32) -> Vec<u8> {
    let segments = some_segments(random, size);
    let mut image = loosened(&segments);
    match random.weighted(&[3, 8, 8, 2, 1, 2, 1]) {
        0 => return of_wrong_length(random),
        1 if !segments.is_empty() => damage_segment(random, &mut image, size),
        3 if !segments.is_empty() => damage_order(random, &mut image),
        4 => return too_many_segments(),
        5 => return flipped(random, image.bytes()),
        6 => {
            let mut bytes = noise(random, 24);
            bytes.extend(trailer_bytes(random.below(4), random.below(26)));
            return bytes;
        }
        _ => damage_trailer(random, &mut image),
    }
    let before = random.pick(&[0, 0, 0, 2, 9]);
    [noise(random, before), image.bytes()].concat()
}

/// Files for `load`, with their names: the same in every run.
pub fn files() -> Vec<(&'static str, Vec<u8>)> {
    let good = vec![Segment {
        first: 0,
        words: vec![0x68C2_003A, 0xF800_0000],
    }];
    let image = write(&good);
    let mut other_mark = image.clone();
    other_mark[16] = b'X';
    vec![
        ("good.img", image.clone()),
        ("before.img", [vec![7; 65_508], image.clone()].concat()),
        ("long.img", [vec![7; 65_509], image].concat()),
        ("longer.img", vec![0; 300_000]),
        ("empty.img", Vec::new()),
        ("mark.img", other_mark),
        (
            "high.img",
            write(&[Segment {
                first: 8191,
                words: vec![1],
            }]),
        ),
        ("none.img", trailer_bytes(0, 0)),
        (
            "over.img",
            [segment_bytes(&good[0]), trailer_bytes(0, 16)].concat(),
        ),
    ]
}

#[cfg(test)]
mod tests {
    use super::*;
    use crate::image::read;
    use crate::refusal::Refusal;

    #[test]
    fn good_images_are_good() {
        let mut random = Random::new(8);
        for _ in 0..500 {
            let size = random.pick(&[0, 1, 2, 30, 600, 8192]);
            let segments = some_segments(&mut random, size);
            let bytes = with_bytes_before(&mut random, &segments);
            assert_eq!(read(&bytes, size), Ok(segments));
        }
    }

    #[test]
    fn damage_meets_every_refusal() {
        let mut random = Random::new(9);
        let mut met = [0; 14];
        for _ in 0..3000 {
            let size = random.pick(&[0, 1, 30, 600, 8192]);
            let number = read(&damaged(&mut random, size), size)
                .err()
                .map_or(0, Refusal::number);
            met[number] += 1;
        }
        assert!(met[8..].iter().all(|&count| count > 20), "{met:?}");
    }

    #[test]
    fn the_files_meet_what_they_are_for() {
        let read: Vec<usize> = files()
            .iter()
            .map(|(_, b)| read(b, 8191).err().map_or(0, Refusal::number))
            .collect();
        assert_eq!(read, [0, 0, 8, 8, 8, 9, 12, 0, 13]);
    }
}
