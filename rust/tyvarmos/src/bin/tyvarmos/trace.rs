//! Where a fault stands in its tree: the block that it is in, what named that, and which block had its page before.

use std::ops::ControlFlow;

use tyvarmos::{Fault, Image, Number};

use crate::layout::Pages;
use crate::walk::{self, Step, LEVELS};

/// What names a page.
#[derive(Clone, Debug, PartialEq, Eq)]
pub enum Named {
    /// The tree, by these steps from its root: the last one names the page, and where there is none it is the root.
    Tree(Vec<Step>),
    /// Whoever names the freelist page.
    Freelist,
}

/// A block that was reached: the page that it starts with, and what named that.
pub struct Reached {
    pub page: u64,
    pub named: Named,
}

/// The way of the judge, or of a lookup, up to a fault or to its end.
#[derive(Default)]
pub struct Trace {
    /// The first page of every block that was named on the way, but for the fault's.
    pub met: Vec<u64>,
    /// The block that the fault is in.
    pub fault: Option<Reached>,
    /// For a page that is used twice: the page, and the block that had it first.
    pub first: Option<(u64, Reached)>,
}

/// The judge's way through an image, up to this fault where there is one.
pub fn judged(image: &Image, fault: Option<&Fault>) -> Trace {
    let mut trace = Trace::default();
    let pages = Pages::of(image);
    let ended = walk::all(pages, image.tree().root_page, &mut |page, steps| trace.see(pages, fault, page, steps));
    if ended.is_continue() {
        trace.see_freelist(fault, image);
    }
    trace
}

/// The way to a key, up to this fault where there is one.
pub fn looked(image: &Image, key: &[u8], fault: Option<&Fault>) -> Trace {
    let mut trace = Trace::default();
    let (pages, root) = (Pages::of(image), image.tree().root_page);
    let _ = walk::to_key(pages, root, key, &mut |page, steps| trace.see(pages, fault, page, steps));
    trace
}

impl Trace {
    /// Keeps a page, and the steps to a block that the fault is about; ends the walk where they lead to the fault.
    fn see(&mut self, pages: Pages, fault: Option<&Fault>, page: u64, steps: &[Step]) -> ControlFlow<()> {
        let reached = || Reached { page, named: Named::Tree(steps.to_vec()) };
        match fault.filter(|fault| is_about(pages, fault, page)).map(|fault| (fault.number, fault.page)) {
            Some((Number::ReachedTwice, Some(twice))) if self.first.is_none() => self.first = Some((twice, reached())),
            Some((number, _)) if number != Number::TooDeep || steps.len() == LEVELS => {
                self.fault = Some(reached());
                return ControlFlow::Break(());
            }
            _ => {}
        }
        self.met.push(page);
        ControlFlow::Continue(())
    }

    /// Keeps the freelist page, or that the fault is there; of one about a free id, the block that has that page.
    fn see_freelist(&mut self, fault: Option<&Fault>, image: &Image) {
        let (pages, page) = (Pages::of(image), image.tree().freelist_page);
        let Some(fault) = fault.filter(|fault| is_about(pages, fault, page)) else {
            return self.met.push(page);
        };
        self.fault = Some(Reached { page, named: Named::Freelist });
        if let (Number::ReachedTwice, Some(element)) = (fault.number, fault.element) {
            let id = pages.block(page).and_then(|block| block.number(element));
            self.first = id.and_then(|id| Some((id, first_with(image, id)?)));
        }
    }
}

/// Whether a fault may be about the block that starts at a page: it names the page or, as used twice, any of the block.
fn is_about(pages: Pages, fault: &Fault, page: u64) -> bool {
    match (fault.number, fault.page) {
        (Number::ReachedTwice, Some(twice)) => pages.has(page, twice),
        (_, named) => named == Some(page),
    }
}

/// The first block that has a page: one of the tree's, or the freelist's own.
fn first_with(image: &Image, wanted: u64) -> Option<Reached> {
    let (pages, freelist) = (Pages::of(image), image.tree().freelist_page);
    let mut first = pages.has(freelist, wanted).then_some(Reached { page: freelist, named: Named::Freelist });
    let _ = walk::all(pages, image.tree().root_page, &mut |page, steps| {
        if !pages.has(page, wanted) {
            return ControlFlow::Continue(());
        }
        first = Some(Reached { page, named: Named::Tree(steps.to_vec()) });
        ControlFlow::Break(())
    });
    first
}
