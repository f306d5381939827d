//! Node edits beside the crate's: size, merging, insert, delete, insert_branch and the blocks they write.

use oracle::probe::{edit, write_content, Content, Item};
use subject::{ask, Answer, Branch, Leaf};

use super::{kept, lent, Run, MAX_NODE_SIZE};
use crate::make::{self, block, content, fields};

pub fn run(run: &mut Run) {
    for _ in 0..run.rounds {
        let p = make::page_size(&mut run.rng);
        let (block, content) = block::sound(&mut run.rng, true, p);
        let case = Case { block, content, p };
        size(run, &case);
        (0..3).for_each(|_| insert(run, &case));
        (0..3).for_each(|_| delete(run, &case));
        let (block, content) = block::sound(&mut run.rng, false, p);
        let case = Case { block, content, p };
        size(run, &case);
        (0..4).for_each(|_| insert_branch(run, &case));
        first_blocks(run, p);
    }
}

/// A sound block and what it holds.
struct Case {
    block: Vec<u8>,
    content: Content,
    p: u64,
}

fn size(run: &mut Run, case: &Case) {
    let got = ask::<6>(|answer| run.subject.size(&case.block, case.p, answer));
    let size = edit::size(&case.block, case.p);
    let merging = u64::from(edit::needs_merging(&case.block, case.p));
    let expected = match size > MAX_NODE_SIZE {
        true => (15, [0; 6]),
        false => (0, [size, size.div_ceil(case.p), merging, 0, 0, 0]),
    };
    run.tally.same((got.number, got.fields), expected, || format!("size of {:?}, P {}", case.content, case.p));
}

fn insert(run: &mut Run, case: &Case) {
    let present = !case.content.items.is_empty() && run.rng.one_in(2);
    let key = match present {
        true => run.rng.pick(&case.content.items).key,
        false => content::key(&mut run.rng),
    };
    let entry = content::item(&mut run.rng, true, key, case.p);
    let subject = run.subject;
    let leaf = Leaf { key: &entry.key, kind: entry.tag, value: &entry.value };
    edited::<4>(
        run,
        || format!("insert {entry:?} into {:?}, P {}", case.content, case.p),
        |out, answer| subject.insert(&case.block, case.p, leaf, out, answer),
        |fill| edit::insert(&case.block, case.p, &entry, fill),
    );
}

fn delete(run: &mut Run, case: &Case) {
    let index = run.rng.below(case.content.items.len() + 2);
    let subject = run.subject;
    let what = || format!("delete {index} from {:?}, P {}", case.content, case.p);
    let answer = edited::<9>(
        run,
        what,
        |out, answer| subject.delete(&case.block, case.p, index as u64, out, answer),
        |fill| edit::delete(&case.block, case.p, index, fill).map(|(block, _)| block),
    );
    if answer.number == 0 {
        let [_, tag, key, key_length, value, value_length, ..] = answer.fields;
        let part = |start, length| case.block[start as usize..(start + length) as usize].to_vec();
        let removed = Item { tag, key: part(key, key_length), value: part(value, value_length) };
        run.tally.same(Some(removed), edit::delete(&case.block, case.p, index, 0).map(|(_, item)| item), what);
    }
}

fn insert_branch(run: &mut Run, case: &Case) {
    let items = &case.content.items;
    let child = run.rng.between(2, 40_000);
    let at = run.rng.below(items.len());
    let original = match run.rng.below(5) {
        0 => None,
        1 => Some(content::key(&mut run.rng)),
        _ => Some(items[at].key.clone()),
    };
    let key = match run.rng.below(3) {
        0 => items[at].key.clone(),
        1 => [items[at].key.as_slice(), &[0]].concat(),
        _ => content::key(&mut run.rng),
    };
    let what = || format!("insert_branch {original:?} {key:?} {child} into {:?}, P {}", case.content, case.p);
    let subject = run.subject;
    let branch = Branch { original: original.as_deref(), key: &key, child };
    let in_order = replaces_in_order(items, original.as_deref(), &key);
    edited::<4>(
        run,
        what,
        |out, answer| subject.insert_branch(&case.block, case.p, branch, out, answer),
        |fill| edit::insert_branch(&case.block, case.p, original.as_deref(), &key, child, fill).filter(|_| in_order),
    );
}

/// False where the crate stores a replacement that breaks the order, which 01 refuses.
pub fn replaces_in_order(items: &[Item], original: Option<&[u8]>, key: &[u8]) -> bool {
    let Some(at) = items.iter().position(|item| Some(item.key.as_slice()) == original) else {
        return true;
    };
    let above = at == 0 || items[at - 1].key.as_slice() < key;
    let below = at + 1 == items.len() || key < items[at + 1].key.as_slice();
    above && below
}

/// Asks for an edit and holds it against the crate's block, or against its panic.
fn edited<const F: usize>(
    run: &mut Run,
    what: impl Fn() -> String,
    call: impl Fn(&mut [u8], &mut [u8]) -> u64,
    by_crate: impl Fn(u8) -> Option<Vec<u8>>,
) -> Answer<F> {
    let expected = by_crate(0);
    let length = expected.as_ref().map_or(0, Vec::len);
    let mut out = lent(&mut run.rng, length);
    let answer = ask::<F>(|fields| call(&mut out, fields));
    let tally = &mut run.tally;
    let size = expected.as_ref().map(|block| fields::node_size(block));
    match (expected, size) {
        (Some(block), Some(size)) if size <= MAX_NODE_SIZE => {
            tally.same((answer.number, answer.fields[0]), (0, length as u64), &what);
            tally.check(out[..length] == block, || format!("{}: other bytes", what()));
            tally.check(kept(&out[length..]), || format!("{}: output beyond its block", what()));
            let dirty = by_crate(0xAA).unwrap();
            tally.check(fields::unset_cleared(&dirty) == block, || format!("{}: unset bytes read", what()));
            let mut short = vec![super::FILLER; length - 1];
            let refused = ask::<F>(|fields| call(&mut short, fields));
            tally.same((refused.number, refused.fields, kept(&short)), (10, [0; F], true), &what);
        }
        (Some(_), _) => tally.same((answer.number, answer.fields, kept(&out)), (15, [0; F], true), &what),
        (None, _) => {
            tally.check([11, 14].contains(&answer.number), || {
                format!("{}: {} where the crate panics", what(), answer.number)
            });
            tally.same((answer.fields, kept(&out)), ([0; F], true), &what);
        }
    }
    answer
}

/// The first blocks of a shard: an empty leaf and a branch of one entry.
fn first_blocks(run: &mut Run, p: u64) {
    let id = run.rng.between(2, 40_000);
    let (key, tag) = (content::key(&mut run.rng), run.rng.between(2, 40_000));
    let subject = run.subject;
    let leaf = Content { leaf: true, items: Vec::new() };
    let branch = Content { leaf: false, items: vec![Item { tag, key: key.clone(), value: Vec::new() }] };
    edited::<4>(
        run,
        || format!("new_leaf {id}, P {p}"),
        |out, answer| subject.new_leaf(p, id, out, answer),
        |fill| Some(write_content(&leaf, p, id, fill)),
    );
    edited::<4>(
        run,
        || format!("new_branch {id} {key:?} {tag}, P {p}"),
        |out, answer| subject.new_branch(p, id, &key, tag, out, answer),
        |fill| Some(write_content(&branch, p, id, fill)),
    );
}
