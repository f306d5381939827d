//! Which of its causes a fault has, with the numbers: worked out again in Rust, not proved.

use tyvarmos::{Fault, Number};

use crate::keys;
use crate::layout::{Block, Header, Pages, FREELIST, LEAF};
use crate::trace::Named;

const BUCKET_VALUE: u64 = 16;

/// The cause in words, where the rule has more than one or it takes numbers to see it.
pub fn of(pages: Pages, block: Option<&Block>, fault: &Fault, named: Option<&Named>) -> Option<String> {
    let last = pages.page_count.checked_sub(1)?;
    match (fault.number, block, fault.element) {
        (Number::PageNumber, ..) => Some(format!("the pages of a tree are 2 to {last}")),
        (Number::Header, Some(block), _) => header(&block.header, fault.page?, last, named),
        (Number::Table, Some(block), _) => Some(table(block)),
        (Number::Element, Some(block), Some(i)) if block.header.kind == FREELIST => {
            Some(format!("the id is {}, and pages that can be free are 2 to {last}", block.number(i)?))
        }
        (Number::Element, Some(block), Some(i)) => element(block, i),
        (Number::Order, Some(block), Some(i)) => order(block, i),
        _ => None,
    }
}

/// Why a header is not that of the page wanted.
fn header(header: &Header, page: u64, last: u64, named: Option<&Named>) -> Option<String> {
    let Header { id, kind, overflow, .. } = *header;
    let (fits, wanted) = match named {
        Some(Named::Freelist) => (kind == FREELIST, "freelist (4)"),
        _ => (matches!(header.type_name(), "branch" | "leaf"), "branch (1) or leaf (2)"),
    };
    if id != page {
        return Some(format!("its id is {id}"));
    }
    if !fits {
        return Some(format!("its type is {kind} ({}), not {wanted}", header.type_name()));
    }
    let end = u128::from(page) + u128::from(overflow);
    (end > u128::from(last))
        .then(|| format!("with {overflow} overflow pages it ends on page {end}, and {last} is the last"))
}

/// Why a count of elements cannot be.
fn table(block: &Block) -> String {
    let count = block.header.count;
    if count == 0 {
        return "its count is 0, as only that of a root leaf may be".to_string();
    }
    let (table, room) = (block.table_end(count), block.length());
    format!("a table of {count} elements ends {table} bytes after its start, and the block has {room}")
}

/// Why an element is not inside its block, or of no known kind.
fn element(block: &Block, i: u64) -> Option<String> {
    let element = block.element(i)?;
    let at = u128::from(block.element_byte(i)? - block.start);
    let (table, room) = (block.table_end(block.header.count), u128::from(block.length()));
    let start = at + u128::from(element.pos);
    let end = start + u128::from(element.key_size) + u128::from(element.value_size);
    if start < table {
        return Some(format!("its key starts {start} bytes after the block's start, and the elements end at {table}"));
    }
    if end > room {
        return Some(format!("its key and value end {end} bytes after the block's start, and the block has {room}"));
    }
    let leaf = block.header.kind == LEAF;
    match element.tag {
        2.. if leaf => Some(format!("its kind is {}, neither data (0) nor bucket (1)", element.tag)),
        1 if leaf && element.value_size != BUCKET_VALUE => {
            Some(format!("its kind is bucket, and its value has {} bytes, not {BUCKET_VALUE}", element.value_size))
        }
        _ => None,
    }
}

/// Which two keys, or free ids, do not rise.
fn order(block: &Block, i: u64) -> Option<String> {
    let before = i.checked_sub(1)?;
    if block.header.kind == FREELIST {
        return Some(format!("{} is not above {}", block.number(i)?, block.number(before)?));
    }
    let [key, before] = keys::pair([block.key(i)?, block.key(before)?]);
    Some(format!("{key} is not above {before}"))
}
