//! Making a difference small: leave parts out while the difference stays.

use std::time::{Duration, Instant};

/// How much effort is left.
pub struct Budget {
    pub tries: u32,
    end: Instant,
}

impl Budget {
    pub fn new(time: Duration) -> Budget {
        Budget {
            tries: 0,
            end: Instant::now() + time,
        }
    }

    fn is_spent(&self) -> bool {
        Instant::now() >= self.end
    }
}

/// Leaves out ever smaller stretches, from the back, until no single part can
/// go any more or the budget is spent. `stays` tells whether the difference is
/// still there.
pub fn smallest<T: Clone>(
    parts: &[T],
    budget: &mut Budget,
    mut stays: impl FnMut(&[T]) -> bool,
) -> Vec<T> {
    let mut best = parts.to_vec();
    let mut stretch = (best.len() / 2).max(1);
    loop {
        let mut shrunk = false;
        let mut end = best.len();
        while end > 0 {
            if budget.is_spent() {
                return best;
            }
            budget.tries += 1;
            let begin = end.saturating_sub(stretch);
            let shorter = [&best[..begin], &best[end..]].concat();
            if stays(&shorter) {
                best = shorter;
                shrunk = true;
            }
            end = begin;
        }
        if stretch > 1 {
            stretch /= 2;
        } else if !shrunk {
            return best;
        }
    }
}

#[cfg(test)]
mod tests {
    use super::*;

    #[test]
    fn what_matters_is_left() {
        let parts: Vec<u32> = (0..1000).collect();
        let mut budget = Budget::new(Duration::from_secs(60));
        let left = smallest(&parts, &mut budget, |some| {
            [3, 500, 501, 999].iter().all(|part| some.contains(part))
        });
        assert_eq!(left, [3, 500, 501, 999]);
        assert!(budget.tries < 1000);
    }

    #[test]
    fn no_time_no_change() {
        let mut budget = Budget::new(Duration::from_secs(0));
        assert_eq!(smallest(&[1, 2, 3], &mut budget, |_| true), [1, 2, 3]);
    }
}
