//! The shortest part of a row that still fails.

/// Takes pieces out of `row`, halves first and single items last, as long as what is left still `fails`. In the end no single
/// item can be taken out.
pub fn shortest<T: Clone>(row: &[T], mut fails: impl FnMut(&[T]) -> bool) -> Vec<T> {
    let mut row = row.to_vec();
    let mut piece = row.len().div_ceil(2);
    while piece > 0 {
        let mut took = false;
        let mut at = 0;
        while at < row.len() {
            let mut less = row.clone();
            less.drain(at..(at + piece).min(row.len()));
            if fails(&less) {
                row = less;
                took = true;
            } else {
                at += piece;
            }
        }
        if piece > 1 {
            piece = piece.div_ceil(2);
        } else if !took {
            break;
        }
    }
    row
}

#[cfg(test)]
mod tests {
    use super::shortest;

    #[test]
    fn finds_the_two_that_matter() {
        let row: Vec<u32> = (0..1000).collect();
        assert_eq!(shortest(&row, |r| r.contains(&17) && r.contains(&803)), [17, 803]);
    }

    #[test]
    fn keeps_the_order_and_stops_at_a_row_that_cannot_be_shortened() {
        let row = [3, 1, 2];
        assert_eq!(shortest(&row, |r| r == [3, 1, 2]), [3, 1, 2]);
        assert_eq!(shortest(&row, |_| true), []);
        assert_eq!(shortest::<u8>(&[], |_| true), []);
    }
}
