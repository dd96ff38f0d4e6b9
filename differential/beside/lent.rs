// Lent memory: bytes that are never zero at first, with more of them before and behind the part that is lent.

const MARGIN: usize = 5;

#[derive(Clone, PartialEq, Debug)]
pub struct Lent {
    whole: Vec<u8>,
}

impl Lent {
    pub fn of(len: usize) -> Lent {
        Lent { whole: (0..len + 2 * MARGIN).map(|i| (i % 97) as u8 + 129).collect() }
    }

    pub fn part(&mut self) -> &mut [u8] {
        let end = self.whole.len() - MARGIN;
        &mut self.whole[MARGIN..end]
    }

    /// What a write owes: x at the place and the place behind it, or nothing written and the place itself.
    pub fn written(&mut self, at: usize, x: &[u8]) -> usize {
        let part = self.part();
        match at.checked_add(x.len()) {
            Some(end) if end <= part.len() => {
                part[at..end].copy_from_slice(x);
                end
            }
            _ => at,
        }
    }
}

/// Lengths and places for a write of n bytes: exact, one short, with room before and behind, and places outside.
pub fn rooms(n: usize) -> Vec<(usize, usize)> {
    vec![
        (n, 0),
        (n + 3, 3),
        (n + 7, 2),
        (n.saturating_sub(1), 0),
        (n + 3, 4),
        (n, n + 1),
        (n + 1, usize::MAX),
        (0, 0),
    ]
}
