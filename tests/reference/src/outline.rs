//! The outline of a list of entries: what must be known of it to judge its length
//! and its seconds, without writing it out. A macro that is still open may come to
//! millions of entries, by RUNs that each stand for a long list.

/// The outline of a list without an entry is the default one.
#[derive(Clone, Copy, Debug, Default, PartialEq, Eq)]
pub struct Outline {
    /// The sum of the WAITs.
    pub waited: usize,
    /// The entries before the first WAIT, and behind the last one. Without a WAIT
    /// both are all there are.
    pub first: usize,
    pub last: usize,
    /// The most entries that one of the seconds hands over.
    pub fullest: usize,
}

impl Outline {
    /// One entry that is handed over.
    pub fn entry() -> Self {
        Outline {
            waited: 0,
            first: 1,
            last: 1,
            fullest: 1,
        }
    }

    pub fn wait(seconds: usize) -> Self {
        Outline {
            waited: seconds,
            ..Outline::default()
        }
    }

    /// This list and then the next one. What stands behind the last WAIT of this
    /// one and before the first of the next is handed over in the same second.
    pub fn then(self, next: Self) -> Self {
        let seam = self.last + next.first;
        Outline {
            waited: self.waited + next.waited,
            first: if self.waited == 0 { seam } else { self.first },
            last: if next.waited == 0 { seam } else { next.last },
            fullest: self.fullest.max(next.fullest).max(seam),
        }
    }

    /// In seconds. Entries behind the last WAIT have one more.
    pub fn length(&self) -> usize {
        self.waited + usize::from(self.last > 0)
    }
}
