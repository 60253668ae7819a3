//! The plain listing, page by page.
use crate::{
    exports,
    page::{Page, FIRST_PAGE},
    Assignment, Panel, Refusal,
};
use std::iter::FusedIterator;

/// The most words of an assignment that the plain engine lists: family, route count, the segment
/// counts of at most 64 routes and, a stack of 64 frames being the deepest, 64 pieces.
const MOST_WORDS: usize = 2 + 64 + 4 * 64;

/// An iterator over all legal assignments; see [`Panel::plain_assignments`].
#[derive(Clone, Debug)]
pub struct PlainAssignments<'a> {
    panel: &'a Panel<'a>,
    page: Page,
    /// How many stood on the pages up to this one.
    listed: u64,
}

impl<'a> PlainAssignments<'a> {
    fn paged(panel: &'a Panel<'a>, words: usize) -> Result<Self, Refusal> {
        let mut listing = Self { panel, page: Page::new(words, MOST_WORDS), listed: 0 };
        listing.turn()?;
        Ok(listing)
    }

    /// Fills the page with the assignments that follow.
    fn turn(&mut self) -> Result<(), Refusal> {
        let r = exports::plain_list(self.panel.image(), self.listed, self.page.room())?;
        self.listed += r.written;
        self.page.begin(r.words);
        Ok(())
    }

    /// The reply tells no total. Where the longest assignment would still fit, none was left over.
    fn is_last_page(&self) -> bool {
        self.page.free() >= MOST_WORDS
    }
}

impl Iterator for PlainAssignments<'_> {
    type Item = Assignment;

    fn next(&mut self) -> Option<Assignment> {
        if self.page.is_used_up() && !self.is_last_page() {
            self.page.grow();
            // What passed on the first page passes on every page.
            self.turn().ok()?;
        }
        self.page.give()
    }
}

impl FusedIterator for PlainAssignments<'_> {}

impl Panel<'_> {
    /// All legal assignments, by the plain engine: a search without a stored stack, made to be
    /// read. Refusal 42.
    ///
    /// They come in the walk's order, family by family, the native one of each family among them.
    /// [`Panel::assignments`] lists the same behind the native ones that it begins with, if its
    /// budgets suffice: max_work no less than the walk's units, max_evaluations more than its
    /// evaluations, max_frontier no less than its deepest stack.
    ///
    /// Here there is no budget, and none is needed: the listing ends on every panel. **It may take
    /// very long**: the number of mosaics may grow exponentially with the ports, and nothing stops
    /// the search before it has seen them all, unless one lies too deep. Already this call goes through the whole search
    /// once, and so does every page of the iterator. On a panel that you do not know, ask
    /// [`Panel::assignments`] first, whose budgets bound the time.
    ///
    /// 42 says that the unbudgeted walk's deepest stack is over 64: somewhere the search would have
    /// more than 64 pieces, of all routes together and with the one it stands on, even if nothing
    /// legal comes of them. Then nothing is listed. So the machine stack that a call needs is
    /// bounded, whatever the panel is: [by how much](crate#stack).
    ///
    /// Panel E has two legal assignments, the native route and the mosaic over lane 1:
    ///
    /// ```
    /// # use panel_routes::{PanelBuilder, SearchBudget};
    /// let panel = PanelBuilder::new(2)
    ///     .lane(10, 0)
    ///     .lane(10, 1)
    ///     .family([0])
    ///     .port("AC", 0, 3, false)
    ///     .port("AC", 1, 5, false)
    ///     .port("GG", 0, 6, false)
    ///     .port("GG", 1, 7, false)
    ///     .build()?;
    /// let listed: Vec<_> = panel.plain_assignments()?.collect();
    /// assert_eq!(listed.len(), 2);
    /// assert_eq!(listed[0].to_string(), "route 0 0 0 10 +\n");
    /// assert_eq!(
    ///     listed[1].to_string(),
    ///     "\
    /// route 0 0 0 4 +
    /// route 0 1 6 8 +
    /// route 0 0 7 10 +
    /// "
    /// );
    ///
    /// // The walk with its budgets lists the same behind the native assignment of the family.
    /// let walked = panel.assignments(SearchBudget::default())?.skip(panel.family_count());
    /// assert!(walked.eq(listed));
    /// # Ok::<(), Box<dyn std::error::Error>>(())
    /// ```
    pub fn plain_assignments(&self) -> Result<PlainAssignments<'_>, Refusal> {
        PlainAssignments::paged(self, FIRST_PAGE)
    }
}

#[cfg(test)]
mod tests {
    use super::*;
    use crate::PanelBuilder;

    /// Two lanes that share up to eight words in their order, the third the other way round.
    fn ladder(words: usize) -> Panel<'static> {
        let mut builder = PanelBuilder::new(2);
        builder.lane(100, 0).lane(100, 1).family([0]).family([1, 0]);
        for (i, word) in ["AA", "AC", "AG", "AT", "CA", "CC", "CG", "CT"].iter().take(words).enumerate() {
            let anchor = 5 + 10 * i as u64;
            builder.port(word, 0, anchor, false).port(word, 1, anchor + 2, i == 2);
        }
        builder.build().unwrap()
    }

    fn words(assignments: &[Assignment]) -> Vec<u64> {
        assignments.iter().flat_map(|a| a.words()).copied().collect()
    }

    #[test]
    fn pages_of_any_size_list_the_same() {
        let panel = ladder(8);
        let whole: Vec<Assignment> = panel.plain_assignments().unwrap().collect();
        assert!(whole.len() > 100);
        let all = words(&whole).len();
        // Pages that leave nothing free, just less than the longest assignment, and just that.
        let near = [all, all + MOST_WORDS - 1, all + MOST_WORDS];
        for page in [0, 400, 1_000].into_iter().chain(near) {
            let mut listing = PlainAssignments::paged(&panel, page).unwrap();
            assert!(listing.by_ref().eq(whole.iter().cloned()), "pages from {page} words on");
            assert_eq!(listing.next(), None);
        }
    }

    #[test]
    fn from_and_room() {
        let panel = ladder(5);
        let whole: Vec<Assignment> = panel.plain_assignments().unwrap().take(12).collect();
        let all = words(&whole);
        for from in [0, 1, 5, 11] {
            for room in 0..=words(&whole[from..]).len() {
                let mut out = vec![u64::MAX; room];
                let r = exports::plain_list(panel.image(), from as u64, &mut out).unwrap();
                let fitting = &whole[from..from + r.written as usize];
                let (begin, used) = (words(&whole[..from]).len(), words(fitting).len());
                assert_eq!(r.words, used as u64, "from {from} into {room}");
                assert_eq!(out[..used], all[begin..begin + used]);
                assert!(out[used..].iter().all(|w| *w == u64::MAX));
                let next = whole.get(from + fitting.len());
                assert!(next.map_or(true, |a| a.words().len() > room - used), "from {from} into {room}");
            }
        }
    }

    #[test]
    fn from_past_the_last() {
        let panel = ladder(4);
        let count = panel.plain_assignments().unwrap().count() as u64;
        let listed = |from| {
            let mut out = [u64::MAX; 1_000];
            let r = exports::plain_list(panel.image(), from, &mut out).unwrap();
            assert!(out[r.words as usize..].iter().all(|w| *w == u64::MAX));
            r.written
        };
        assert_eq!([count - 1, count, count + 1, u64::MAX].map(listed), [1, 0, 0, 0]);
    }
}
