//! What a person needs to know of a fault besides its number: read again on the way to it, in Rust, and not proved.

use tyvarmos::{Fault, Image, Number};

use crate::cause;
use crate::layout::{Block, Element, Header, Pages, Part, FREELIST, LEAF};
use crate::meant::Meant;
use crate::parting::{Keys, Parting};
use crate::range::Range;
use crate::trace::{Named, Reached, Trace};
use crate::twice::Twice;

/// All that was found about a fault.
pub struct Context {
    /// Which cause of the number it is.
    pub cause: Option<String>,
    /// What named the block that the fault is in.
    pub named: Option<Place>,
    /// For 8, the page in question, and what named the block that had it first.
    pub twice: Option<(Twice, Place)>,
    /// The header of the block that the fault is in, and where in the file it stands.
    pub header: Option<(u64, Header)>,
    /// The numbers of the fault's element, and where in the file it stands.
    pub element: Option<(u64, Numbers)>,
    /// For 6 and 7, the keys and where they part.
    pub keys: Keys,
    /// For 7, the range that the key is outside of.
    pub range: Option<Range>,
    /// The bytes in question, in rows.
    pub rows: String,
}

/// What names a page, and where in the file its number stands; the command line has no such place.
pub struct Place {
    pub page: u64,
    pub named: Named,
    pub byte: Option<u64>,
}

/// An element's numbers, or a free id.
pub enum Numbers {
    Leaf(Element),
    Branch(Element),
    FreeId(u64),
}

impl Context {
    /// The context of a fault in the tree that is meant, from the way to it.
    pub fn of(image: &Image, meant: &Meant, fault: &Fault, trace: Trace) -> Context {
        let pages = Pages::of(image);
        let twice = Twice::of(pages, fault, &trace);
        let first = trace.fault.as_ref().map(|reached| reached.page).or(fault.page);
        let block = first.filter(|_| fault.number != Number::PageNumber).and_then(|page| pages.block(page));
        let place = |Reached { page, named }| Place { page, byte: byte_of(pages, meant, &named), named };
        let named = trace.fault.map(place);
        let cause = cause::of(pages, block.as_ref(), fault, named.as_ref().map(|place| &place.named));
        let range = block.as_ref().and_then(|block| range(pages, block, fault, named.as_ref()?));
        let keys = block.as_ref().map_or(Keys::None, |block| keys(block, fault, range.as_ref()));
        let known = !matches!(keys, Keys::Unknown(_));
        Context {
            cause: cause.filter(|_| known).or(twice.as_ref().map(Twice::to_string)),
            header: block.as_ref().map(|block| (block.start, block.header)),
            element: block.as_ref().and_then(|block| numbers(block, fault.element?)),
            rows: block.map_or_else(|| naming_rows(pages, named.as_ref()), |block| rows(&block, fault, &keys)),
            named,
            twice: twice.zip(trace.first.map(|(_, first)| place(first))),
            range: range.filter(|_| known),
            keys,
        }
    }
}

/// Where in the file the number of a page stands.
fn byte_of(pages: Pages, meant: &Meant, named: &Named) -> Option<u64> {
    match named {
        Named::Freelist => meant.freelist_byte(),
        Named::Tree(steps) => match steps.last() {
            None => meant.root_byte(),
            Some(step) => pages.block(step.page)?.element_byte(step.element),
        },
    }
}

/// The numbers of an element or a free id, and where it stands.
fn numbers(block: &Block, i: u64) -> Option<(u64, Numbers)> {
    let numbers = match block.header.kind {
        FREELIST => Numbers::FreeId(block.number(i)?),
        LEAF => Numbers::Leaf(block.element(i)?),
        _ => Numbers::Branch(block.element(i)?),
    };
    Some((block.element_byte(i)?, numbers))
}

/// The range that a fault with 7 is about, where the way to its page tells it.
fn range(pages: Pages, block: &Block, fault: &Fault, place: &Place) -> Option<Range> {
    match (&place.named, fault.number) {
        (Named::Tree(steps), Number::Range) => Range::around(pages, steps, block.key(fault.element?)?),
        _ => None,
    }
}

/// The keys that a fault with 6 or 7 is about, and where they part.
fn keys(block: &Block, fault: &Fault, range: Option<&Range>) -> Keys {
    let Fault { number, element: Some(i), common, .. } = *fault else {
        return Keys::None;
    };
    let parting = match number {
        Number::Order if block.header.kind != FREELIST => Parting::of_order(block, i, common),
        Number::Range => range.and_then(|range| Parting::of_range(block, i, range, common)),
        _ => return Keys::None,
    };
    parting.map_or(Keys::Unknown(common), Keys::Parted)
}

/// The element that names a page which the image has not, in rows.
fn naming_rows(pages: Pages, place: Option<&Place>) -> String {
    let Some(Place { named: Named::Tree(steps), .. }) = place else {
        return String::new();
    };
    let part = steps.last().and_then(|step| {
        let part = pages.block(step.page)?.element_part(step.element)?;
        Some(Part { what: format!("{} of page {}", part.what, step.page), ..part })
    });
    part.map_or(String::new(), |part| part.rows())
}

/// The header, element, id or keys that a fault is about, in rows.
fn rows(block: &Block, fault: &Fault, keys: &Keys) -> String {
    let element = |i: u64| block.element_part(i).map(|part| part.rows());
    let parts = match (fault.number, fault.element) {
        (_, None) => [block.header_part().map(|part| part.rows()), None],
        (Number::Order, Some(i)) if block.header.kind == FREELIST => [i.checked_sub(1).and_then(element), element(i)],
        (Number::Order, Some(i)) => [keys.rows().or_else(|| element(i)), None],
        (_, Some(i)) => [element(i), keys.rows()],
    };
    parts.into_iter().flatten().collect()
}
