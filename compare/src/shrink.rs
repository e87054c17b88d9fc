//! Making a script smaller while it still shows what it shows.

use std::time::Instant;

/// Drops lines while `shows` stays true, in ever smaller pieces, until none can go or time is up.
pub fn shrink(
    lines: Vec<String>,
    until: Instant,
    mut shows: impl FnMut(&[String]) -> bool,
) -> Vec<String> {
    let mut lines = lines;
    let mut piece = lines.len().div_ceil(2).max(1);
    loop {
        let before = lines.len();
        lines = drop_pieces(lines, piece, until, &mut shows);
        let done = piece == 1 && lines.len() == before;
        if done || Instant::now() >= until {
            return lines;
        }
        piece = (piece / 2).max(1);
    }
}

fn drop_pieces(
    mut lines: Vec<String>,
    piece: usize,
    until: Instant,
    shows: &mut impl FnMut(&[String]) -> bool,
) -> Vec<String> {
    let mut at = 0;
    while at < lines.len() && Instant::now() < until {
        let end = (at + piece).min(lines.len());
        let without = [&lines[..at], &lines[end..]].concat();
        if shows(&without) {
            lines = without;
        } else {
            at = end;
        }
    }
    lines
}

#[cfg(test)]
mod tests {
    use super::*;
    use std::time::Duration;

    #[test]
    fn only_what_is_needed_stays() {
        let lines: Vec<String> = (0..100).map(|n| n.to_string()).collect();
        let until = Instant::now() + Duration::from_secs(60);
        let needed = ["3", "57", "58", "99"];
        let small = shrink(lines, until, |lines| {
            needed.iter().all(|n| lines.iter().any(|line| line == n))
        });
        assert_eq!(small, needed);
    }

    #[test]
    fn all_may_go() {
        let until = Instant::now() + Duration::from_secs(60);
        assert!(shrink(vec!["a".to_string()], until, |_| true).is_empty());
        assert!(shrink(Vec::new(), until, |_| true).is_empty());
    }
}
