//! The plain reading of 01 as a subject: its answers put into numbers and fields.

use reading::block::Held;
use reading::freelist::Table;
use reading::lookup::Found;
use reading::meta::Meta;
use reading::{edit, judge, layout, lookup, meta, newest, pack, quick, search, split, words, Fault};
use subject::{Branch, Leaf, MetaFields, Subject};

pub struct Reading;

type Fields = Result<Vec<u64>, Fault>;

/// Which fields an answer has: so many results, then perhaps the page, element and common beginning of a fault.
struct Form {
    results: usize,
    names_fault: bool,
}

const fn named(results: usize) -> Form {
    Form { results, names_fault: true }
}

const fn plain(results: usize) -> Form {
    Form { results, names_fault: false }
}

/// Refuses an answer buffer without room for the form, else writes the fields of the call's outcome.
fn give(answer: &mut [u8], form: Form, call: impl FnOnce() -> Fields) -> u64 {
    let width = form.results + if form.names_fault { 3 } else { 0 };
    if answer.len() < width * 8 {
        return 1;
    }
    let outcome = call();
    let fault = outcome.as_ref().err().copied().unwrap_or(reading::refusal(0));
    let mut fields = outcome.unwrap_or(vec![0; form.results]);
    if form.names_fault {
        fields.extend([fault.page, fault.element, fault.common]);
    }
    for (i, field) in fields.into_iter().enumerate() {
        layout::put_u64(answer, i * 8, field);
    }
    fault.number
}

/// A call on the table that these words hold; they change only if it succeeds.
fn on_table(words: &mut [u64], call: impl FnOnce(&mut Table) -> Fields) -> Fields {
    let mut table = words::load(words)?;
    let fields = call(&mut table)?;
    words::store(&table, words);
    Ok(fields)
}

/// What a lookup of either kind found.
fn found_fields(found: Option<Found>) -> Vec<u64> {
    found.map_or(vec![0; 4], |f| vec![1, f.kind, f.place, f.length])
}

fn size_fields(block: &[u8], p: u64) -> Fields {
    let size = edit::size(block, p)?;
    let merging = edit::needs_merging(block, p)?;
    Ok(vec![size, pack::pages_needed(u128::from(size), p) as u64, u64::from(merging)])
}

fn meta_of(f: &MetaFields) -> Meta {
    Meta {
        meta_page: f.meta_page,
        magic: f.magic,
        version: f.version,
        pagesize: f.pagesize,
        root_page: f.root_page,
        next_int: f.next_int,
        num_pages: f.num_pages,
        freelist_page: f.freelist_page,
        tx_id: f.tx_id,
    }
}

fn meta_fields(page: &[u8]) -> Fields {
    let (m, hash) = meta::read(page)?;
    let short = [m.meta_page, m.magic, m.version].map(u64::from);
    let long = [m.pagesize, m.root_page, m.next_int, m.num_pages, m.freelist_page, m.tx_id, hash];
    Ok([short.as_slice(), &long].concat())
}

impl Subject for Reading {
    fn name(&self) -> &'static str {
        "reading"
    }

    fn lookup(&self, image: &[u8], p: u64, n: u64, root: u64, key: &[u8], answer: &mut [u8]) -> u64 {
        give(answer, named(4), || lookup::lookup(image, p, n, root, key).map(found_fields))
    }

    fn quick(&self, image: &[u8], p: u64, n: u64, root: u64, key: &[u8], answer: &mut [u8]) -> u64 {
        give(answer, named(4), || quick::quick(image, p, n, root, key).map(found_fields))
    }

    fn judge(&self, image: &[u8], p: u64, n: u64, root: u64, freelist: u64, answer: &mut [u8]) -> u64 {
        give(answer, named(2), || {
            let sound = judge::judge(image, p, n, root, freelist)?;
            Ok(vec![sound.entries, sound.pages])
        })
    }

    fn newest_meta(&self, image: &[u8], p: u64, answer: &mut [u8]) -> u64 {
        give(answer, plain(7), || {
            let (page, m) = newest::newest(image, p)?;
            Ok(vec![page, m.pagesize, m.root_page, m.next_int, m.num_pages, m.freelist_page, m.tx_id])
        })
    }

    fn index(&self, block: &[u8], p: u64, key: &[u8], answer: &mut [u8]) -> u64 {
        give(answer, named(2), || {
            let (index, found) = search::index(block, p, key)?;
            Ok(vec![index as u64, u64::from(found)])
        })
    }

    fn index_page(&self, block: &[u8], p: u64, index: u64, answer: &mut [u8]) -> u64 {
        give(answer, named(1), || Ok(vec![search::index_page(block, p, index)?]))
    }

    fn entry(&self, block: &[u8], p: u64, index: u64, answer: &mut [u8]) -> u64 {
        give(answer, named(6), || {
            let held = search::entry(block, p, index)?;
            let fields = |h: Held| vec![1, h.kind, h.key_place, h.key_length, h.value_place, h.value_length];
            Ok(held.map_or(vec![0; 6], fields))
        })
    }

    fn size(&self, block: &[u8], p: u64, answer: &mut [u8]) -> u64 {
        give(answer, named(3), || size_fields(block, p))
    }

    fn new_leaf(&self, p: u64, id: u64, out: &mut [u8], answer: &mut [u8]) -> u64 {
        give(answer, named(1), || Ok(vec![edit::new_leaf(p, id, out)?]))
    }

    fn new_branch(&self, p: u64, id: u64, key: &[u8], child: u64, out: &mut [u8], answer: &mut [u8]) -> u64 {
        give(answer, named(1), || Ok(vec![edit::new_branch(p, id, key, child, out)?]))
    }

    fn insert(&self, block: &[u8], p: u64, entry: Leaf, out: &mut [u8], answer: &mut [u8]) -> u64 {
        give(answer, named(1), || Ok(vec![edit::insert(block, p, entry.key, entry.kind, entry.value, out)?]))
    }

    fn delete(&self, block: &[u8], p: u64, index: u64, out: &mut [u8], answer: &mut [u8]) -> u64 {
        give(answer, named(6), || {
            let (written, r) = edit::delete(block, p, index, out)?;
            Ok(vec![written, r.kind, r.key_place, r.key_length, r.value_place, r.value_length])
        })
    }

    fn insert_branch(&self, block: &[u8], p: u64, branch: Branch, out: &mut [u8], answer: &mut [u8]) -> u64 {
        let Branch { original, key, child } = branch;
        give(answer, named(1), || Ok(vec![edit::insert_branch(block, p, original, key, child, out)?]))
    }

    fn split(&self, block: &[u8], p: u64, cuts: &mut [u64], answer: &mut [u8]) -> u64 {
        give(answer, named(1), || Ok(vec![split::split(block, p, cuts)?]))
    }

    fn split_write(&self, block: &[u8], p: u64, n: u64, ids: &[u64], out: &mut [u8], answer: &mut [u8]) -> u64 {
        give(answer, named(2), || {
            let (written, pieces) = split::split_write(block, p, n, ids, out)?;
            Ok(vec![written, pieces])
        })
    }

    fn free_new(&self, table: &mut [u64], answer: &mut [u8]) -> u64 {
        give(answer, plain(0), || {
            on_table(table, |table| {
                *table = Table::new();
                Ok(vec![])
            })
        })
    }

    fn free_init(&self, table: &mut [u64], n: u64, ids: &[u64], answer: &mut [u8]) -> u64 {
        give(answer, plain(0), || on_table(table, |table| table.init(n, ids).map(|()| vec![])))
    }

    fn free_pages(&self, table: &mut [u64], n: u64, first: u64, count: u64, t: u64, answer: &mut [u8]) -> u64 {
        give(answer, plain(0), || on_table(table, |table| table.free(n, first, count, t).map(|()| vec![])))
    }

    fn release(&self, table: &mut [u64], n: u64, t: u64, answer: &mut [u8]) -> u64 {
        give(answer, plain(0), || on_table(table, |table| table.release(n, t).map(|()| vec![])))
    }

    fn allocate(&self, table: &mut [u64], n: u64, p: u64, bytes: u64, answer: &mut [u8]) -> u64 {
        give(answer, plain(2), || {
            on_table(table, |table| table.allocate(n, p, bytes).map(|(start, after)| vec![start, after]))
        })
    }

    fn free_list(&self, table: &[u64], n: u64, ids: &mut [u64], answer: &mut [u8]) -> u64 {
        give(answer, plain(1), || {
            let list = words::load(table)?.list(n)?;
            let room = ids.get_mut(..list.len()).ok_or(reading::refusal(10))?;
            room.copy_from_slice(&list);
            Ok(vec![list.len() as u64])
        })
    }

    fn free_size(&self, table: &[u64], n: u64, answer: &mut [u8]) -> u64 {
        give(answer, plain(1), || Ok(vec![words::load(table)?.size(n)?]))
    }

    fn meta_read(&self, page: &[u8], answer: &mut [u8]) -> u64 {
        give(answer, plain(10), || meta_fields(page))
    }

    fn meta_write(&self, page: &mut [u8], fields: &MetaFields, answer: &mut [u8]) -> u64 {
        give(answer, plain(1), || Ok(vec![meta::write(page, &meta_of(fields))?]))
    }

    fn fnv1a(&self, bytes: &[u8], answer: &mut [u8]) -> u64 {
        give(answer, plain(1), || Ok(vec![meta::fnv1a(bytes)]))
    }
}
