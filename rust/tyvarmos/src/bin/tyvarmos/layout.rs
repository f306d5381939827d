//! Pages read plainly, by the layout alone and no rule: help about an image, not proved. Any bytes may be given.

use tyvarmos::{Image, Tree};

use crate::hex;

pub const BRANCH: u8 = 1;
pub const LEAF: u8 = 2;
pub const META: u8 = 3;
pub const FREELIST: u8 = 4;

/// Where elements and free ids start in a block.
const TABLE: u64 = 32;
pub const META_END: usize = 104;

/// The pages of an image.
#[derive(Clone, Copy)]
pub struct Pages<'a> {
    bytes: &'a [u8],
    pub page_size: u64,
    pub page_count: u64,
}

impl<'a> Pages<'a> {
    pub fn of(image: &Image<'a>) -> Pages<'a> {
        let Tree { page_size, page_count, .. } = image.tree();
        Pages { bytes: image.bytes(), page_size, page_count }
    }

    /// The block that starts at a page, as far as the image has it.
    pub fn block(&self, page: u64) -> Option<Block<'a>> {
        if page >= self.page_count {
            return None;
        }
        let start = page.checked_mul(self.page_size)?;
        let from = self.bytes.get(usize::try_from(start).ok()?..)?;
        let header = Header::of(from)?;
        let last = page.saturating_add(header.overflow).min(self.page_count - 1);
        let length = usize::try_from((last - page + 1).saturating_mul(self.page_size)).unwrap_or(usize::MAX);
        Some(Block { last, start, header, bytes: &from[..length.min(from.len())] })
    }

    /// Whether the block that starts at a page has another one, or is it.
    pub fn has(&self, first: u64, page: u64) -> bool {
        self.block(first).is_some_and(|block| (first..=block.last).contains(&page))
    }
}

/// The first 32 bytes of a page.
#[derive(Clone, Copy, Debug, PartialEq, Eq)]
pub struct Header {
    pub id: u64,
    pub kind: u8,
    pub count: u64,
    pub overflow: u64,
}

impl Header {
    fn of(page: &[u8]) -> Option<Header> {
        let number = |at| number(page, at);
        Some(Header { id: number(0)?, kind: *page.get(8)?, count: number(16)?, overflow: number(24)? })
    }

    /// What the type is called.
    pub fn type_name(&self) -> &'static str {
        match self.kind {
            BRANCH => "branch",
            LEAF => "leaf",
            META => "meta",
            FREELIST => "freelist",
            _ => "unknown",
        }
    }
}

/// A page and its overflow pages, as far as the image has them.
pub struct Block<'a> {
    /// The last of its pages.
    pub last: u64,
    /// Where it starts in the file.
    pub start: u64,
    pub header: Header,
    bytes: &'a [u8],
}

/// The numbers of an element of a leaf or a branch: the tag is a kind, or a page.
#[derive(Clone, Copy, Debug, PartialEq, Eq)]
pub struct Element {
    pub tag: u64,
    pub pos: u64,
    pub key_size: u64,
    pub value_size: u64,
}

/// A stretch of the file and what it is.
pub struct Part<'a> {
    pub what: String,
    pub at: u64,
    pub bytes: &'a [u8],
}

impl<'a> Block<'a> {
    /// How many elements, or free ids, the header tells and the block can hold.
    pub fn count(&self) -> u64 {
        let room = self.length().saturating_sub(TABLE) / self.element_size();
        self.header.count.min(room)
    }

    /// How many bytes it has.
    pub fn length(&self) -> u64 {
        self.bytes.len() as u64
    }

    /// Where in it a table of so many elements ends.
    pub fn table_end(&self, count: u64) -> u128 {
        u128::from(TABLE) + u128::from(count) * u128::from(self.element_size())
    }

    /// How long an element, or a free id, is.
    pub fn element_size(&self) -> u64 {
        match self.header.kind {
            LEAF => 32,
            FREELIST => 8,
            _ => 24,
        }
    }

    /// Where in the file an element starts.
    pub fn element_byte(&self, i: u64) -> Option<u64> {
        (self.start + TABLE).checked_add(i.checked_mul(self.element_size())?)
    }

    /// The numbers of an element.
    pub fn element(&self, i: u64) -> Option<Element> {
        let at = self.element_byte(i)? - self.start;
        let number = |offset: u64| number(self.bytes, at.checked_add(offset)?);
        match self.header.kind {
            LEAF => {
                let kind = *self.bytes.get(usize::try_from(at).ok()?)?;
                Some(Element { tag: kind.into(), pos: number(8)?, key_size: number(16)?, value_size: number(24)? })
            }
            _ => Some(Element { tag: number(0)?, pos: number(16)?, key_size: number(8)?, value_size: 0 }),
        }
    }

    /// The page that an element of a branch names, or the free id.
    pub fn number(&self, i: u64) -> Option<u64> {
        number(self.bytes, self.element_byte(i)? - self.start)
    }

    /// The key of an element, where it lies in the block.
    pub fn key(&self, i: u64) -> Option<&'a [u8]> {
        self.key_part(i).map(|part| part.bytes)
    }

    /// The key of an element.
    pub fn key_part(&self, i: u64) -> Option<Part<'a>> {
        let element = self.element(i)?;
        let at = self.element_byte(i)?.checked_add(element.pos)?;
        self.part(format!("key {i}"), at, element.key_size)
    }

    /// The header.
    pub fn header_part(&self) -> Option<Part<'a>> {
        self.part("its header".to_string(), self.start, TABLE)
    }

    /// An element, or a free id.
    pub fn element_part(&self, i: u64) -> Option<Part<'a>> {
        let what = if self.header.kind == FREELIST { "free id" } else { "element" };
        self.part(format!("{what} {i}"), self.element_byte(i)?, self.element_size())
    }

    /// A stretch of the block.
    fn part(&self, what: String, at: u64, length: u64) -> Option<Part<'a>> {
        let from = usize::try_from(at.checked_sub(self.start)?).ok()?;
        let end = from.checked_add(usize::try_from(length).ok()?)?;
        Some(Part { what, at, bytes: self.bytes.get(from..end)? })
    }
}

impl Part<'_> {
    /// A line that says what it is, and its bytes.
    pub fn rows(&self) -> String {
        let empty = if self.bytes.is_empty() { " (empty)" } else { "" };
        format!("  {}, at byte {}{empty}:\n{}", self.what, self.at, hex::rows(self.at, self.bytes))
    }
}

/// The beginning of a file, as far as it has one: its first meta page, up to where its fields end.
pub fn first_meta(head: &[u8]) -> Option<Part<'_>> {
    let bytes = &head[..head.len().min(META_END)];
    (!bytes.is_empty()).then(|| Part { what: "the meta on page 0".to_string(), at: 0, bytes })
}

/// The number at a place.
pub fn number(bytes: &[u8], at: u64) -> Option<u64> {
    let at = usize::try_from(at).ok()?;
    let bytes = bytes.get(at..at.checked_add(8)?)?;
    bytes.try_into().ok().map(u64::from_le_bytes)
}
