//! The order of sites: again and again the lowest-numbered one whose parents are all placed.

/// The place of each site, and the site at each place. A number that is no site is its own place.
#[derive(Clone, Copy, Debug, PartialEq, Eq)]
pub struct Places {
    pub place: [u8; 8],
    pub site: [u8; 8],
}

pub const NUMBERS: Places = Places { place: [0, 1, 2, 3, 4, 5, 6, 7], site: [0, 1, 2, 3, 4, 5, 6, 7] };

/// The bits 8 p of lines 8 p + c into one site.
const ROWS: u64 = 0x0101_0101_0101_0101;

/// The bits 8 p + c with p < c.
const UPWARD: u64 = {
    let (mut lines, mut p) = (0u64, 0);
    while p < 8 {
        lines |= (0xfe << p & 0xff) << (8 * p);
        p += 1;
    }
    lines
};

impl Places {
    /// Of so many sites, by the lines between them; none where these form a cycle.
    #[inline]
    pub fn of(sites: usize, lines: u64) -> Option<Places> {
        if lines & !UPWARD == 0 { Some(NUMBERS) } else { Self::worked_out(sites, lines) }
    }

    fn worked_out(sites: usize, lines: u64) -> Option<Places> {
        let mut places = NUMBERS;
        // Bit 8 p: p is placed.
        let mut placed = 0u64;
        for q in 0..sites {
            let c = (0..sites).find(|&c| placed >> (8 * c) & 1 == 0 && lines >> c & ROWS & !placed == 0)?;
            placed |= 1 << (8 * c);
            places.place[c] = q as u8;
            places.site[q] = c as u8;
        }
        Some(places)
    }

    /// By the table that leads a file; none where it does not hold each place once, or equals the numbers.
    pub fn read(table: &[u8]) -> Option<Places> {
        let mut places = NUMBERS;
        let mut seen = 0u32;
        for (k, &q) in table.iter().enumerate() {
            if q as usize >= table.len() {
                return None;
            }
            seen |= 1 << q;
            places.place[k] = q;
            places.site[q as usize] = k as u8;
        }
        (seen.count_ones() as usize == table.len() && places != NUMBERS).then_some(places)
    }
}

#[cfg(test)]
mod tests {
    use super::*;

    fn of(sites: usize, lines: &[(usize, usize)]) -> Option<[u8; 8]> {
        let places = Places::of(sites, lines.iter().fold(0, |all, &(p, c)| all | 1 << (8 * p + c)))?;
        assert!((0..8).all(|k| places.site[places.place[k] as usize] as usize == k));
        Some(places.place)
    }

    #[test]
    fn order() {
        assert_eq!(of(1, &[]), Some([0, 1, 2, 3, 4, 5, 6, 7]));
        assert_eq!(of(3, &[(0, 1), (0, 2), (1, 2)]), Some([0, 1, 2, 3, 4, 5, 6, 7]));
        assert_eq!(of(4, &[(3, 0), (3, 2), (0, 2)]), Some([2, 0, 3, 1, 4, 5, 6, 7]));
        assert_eq!(of(4, &[(3, 0), (2, 1)]), Some([3, 1, 0, 2, 4, 5, 6, 7]));
        assert_eq!(of(8, &[(7, 6), (6, 5), (5, 4), (4, 3), (3, 2), (2, 1), (1, 0)]), Some([7, 6, 5, 4, 3, 2, 1, 0]));
        for cycle in [&[(0, 1), (1, 0)][..], &[(0, 1), (1, 2), (2, 0)], &[(0, 3), (1, 2), (2, 1)]] {
            assert_eq!(of(4, cycle), None);
        }
    }

    #[test]
    fn tables() {
        assert_eq!(Places::read(&[2, 0, 3, 1]).map(|p| (p.place, p.site)), Some(([2, 0, 3, 1, 4, 5, 6, 7], [1, 3, 0, 2, 4, 5, 6, 7])));
        for table in [&[0, 1, 2, 3][..], &[0], &[2, 0, 2, 1], &[2, 0, 4, 1], &[255, 0]] {
            assert_eq!(Places::read(table), None);
        }
    }
}
