//! The listing, page by page.
use crate::{
    exports,
    page::{Page, FIRST_PAGE},
    search::Rooms,
    Assignment, Panel, Refusal, SearchBudget, Status,
};

/// An iterator over the assignments of a walk; see [`Panel::assignments`].
#[derive(Clone, Debug)]
pub struct Assignments<'a> {
    panel: &'a Panel<'a>,
    budget: SearchBudget,
    status: Status,
    evaluations: u64,
    /// How many were given.
    given: u64,
    frames: Vec<u64>,
    slot: Vec<u64>,
    page: Page,
}

impl<'a> Assignments<'a> {
    pub(crate) fn new(panel: &'a Panel<'a>, budget: SearchBudget) -> Result<Self, Refusal> {
        Self::paged(panel, budget, FIRST_PAGE)
    }

    fn paged(panel: &'a Panel<'a>, budget: SearchBudget, page: usize) -> Result<Self, Refusal> {
        let rooms = Rooms::new(panel, &budget);
        let mut listing = Self {
            panel,
            budget,
            status: Status::Certified,
            evaluations: 0,
            given: 0,
            frames: vec![0; rooms.frames],
            slot: vec![0; rooms.slot],
            page: Page::new(page, rooms.slot),
        };
        listing.turn()?;
        Ok(listing)
    }

    /// Fills the page with the assignments that follow.
    fn turn(&mut self) -> Result<(), Refusal> {
        let (image, from) = (self.panel.image(), self.given);
        let r = exports::list(image, self.budget, from, &mut self.frames, &mut self.slot, self.page.room())?;
        self.status = Status::numbered(r.status);
        self.evaluations = r.evaluations;
        self.page.begin(r.words);
        Ok(())
    }

    /// How the walk ends: [`Status::Certified`], or the budget that stops it.
    pub fn status(&self) -> Status {
        self.status
    }

    /// How many evaluations the walk makes.
    pub fn evaluations(&self) -> u64 {
        self.evaluations
    }
}

impl Iterator for Assignments<'_> {
    type Item = Assignment;

    fn next(&mut self) -> Option<Assignment> {
        if self.given == self.evaluations {
            return None;
        }
        if self.page.is_used_up() {
            self.page.grow();
            // What passed on the first page passes on every page.
            self.turn().ok()?;
        }
        let assignment = self.page.give()?;
        self.given += 1;
        Some(assignment)
    }

    fn size_hint(&self) -> (usize, Option<usize>) {
        let left = (self.evaluations - self.given) as usize;
        (left, Some(left))
    }
}

impl ExactSizeIterator for Assignments<'_> {}

#[cfg(test)]
mod tests {
    use super::*;
    use crate::PanelBuilder;

    #[test]
    fn pages_of_any_size_list_the_same() {
        let mut builder = PanelBuilder::new(1);
        builder.lane(40, 0).lane(40, 1).family([0]).family([1, 0]);
        for anchor in (2..30).step_by(6) {
            builder.port("A", 0, anchor, false).port("A", 1, anchor + 1, anchor % 4 == 0);
        }
        let panel = builder.build().unwrap();
        let budget = SearchBudget { max_work: 20_000, ..SearchBudget::default() };
        let whole: Vec<Assignment> = panel.assignments(budget).unwrap().collect();
        assert!(whole.len() > 100);
        for page in [0, 100, 1_000] {
            let mut listing = Assignments::paged(&panel, budget, page).unwrap();
            assert_eq!(listing.len(), whole.len());
            assert!(listing.by_ref().eq(whole.iter().cloned()));
            assert_eq!(listing.next(), None);
        }
    }
}
