//! The answer buffer: too short is 1 and nothing changes; bytes past the fields stay.

use oracle::probe::{write_content, Content, Item};
use reading::words::TABLE_WORDS;
use subject::{Branch, Leaf, MetaFields, Subject};

use super::{Run, FILLER};
use crate::make::fields::freelist_block;

const P: u64 = 1_024;

/// Everything a call may be lent to write into.
#[derive(Clone, PartialEq)]
struct Lent {
    out: Vec<u8>,
    words: Vec<u64>,
    table: Vec<u64>,
    page: Vec<u8>,
}

/// A call that succeeds: its name, its number of fields, and itself.
type Call<'a> = (&'static str, usize, Box<dyn Fn(&mut Lent, &mut [u8]) -> u64 + 'a>);

pub fn run(run: &mut Run) {
    let leaf = Content { leaf: true, items: vec![Item { tag: 0, key: vec![5], value: vec![6] }] };
    let branch = Content { leaf: false, items: vec![Item { tag: 7, key: vec![5], value: Vec::new() }] };
    let (leaf, branch) = (write_content(&leaf, P, 2, 0), write_content(&branch, P, 2, 0));
    let image = [vec![0; 2_048], leaf.clone(), freelist_block(P, 3, 1, &[])].concat();
    let mut page = vec![0; 104];
    page[8] = 3;
    let lent = Lent { out: vec![FILLER; 1_024], words: vec![9; 4], table: vec![0; TABLE_WORDS], page };
    let subject = run.subject;
    let calls = [on_images(subject, &image), on_blocks(subject, &leaf, &branch), on_tables(subject), on_metas(subject)];
    for (name, fields, call) in calls.into_iter().flatten() {
        for length in (0..fields * 8).rev().step_by(5).chain([0]).filter(|length| *length < fields * 8) {
            let (mut after, mut answer) = (lent.clone(), vec![FILLER; length]);
            let number = call(&mut after, &mut answer);
            let stayed = after == lent && answer.iter().all(|byte| *byte == FILLER);
            run.tally.same((number, stayed), (1, true), || format!("{name} with {length} bytes for the answer"));
        }
        let (mut after, mut answer) = (lent.clone(), vec![FILLER; fields * 8 + 13]);
        let number = call(&mut after, &mut answer);
        let stayed = answer[fields * 8..].iter().all(|byte| *byte == FILLER);
        run.tally.same((number, stayed), (0, true), || format!("{name} with bytes past the fields"));
    }
}

fn on_images<'a>(s: &'a dyn Subject, image: &'a [u8]) -> Vec<Call<'a>> {
    vec![
        ("lookup", 7, Box::new(|_, answer| s.lookup(image, P, 4, 2, &[5], answer))),
        ("quick", 7, Box::new(|_, answer| s.quick(image, P, 4, 2, &[5], answer))),
        ("judge", 5, Box::new(|_, answer| s.judge(image, P, 4, 2, 3, answer))),
    ]
}

fn on_blocks<'a>(s: &'a dyn Subject, leaf: &'a [u8], branch: &'a [u8]) -> Vec<Call<'a>> {
    let entry = Leaf { key: b"k", kind: 0, value: b"v" };
    let child = Branch { original: None, key: b"k", child: 9 };
    vec![
        ("index", 5, Box::new(|_, answer| s.index(leaf, P, &[5], answer))),
        ("index_page", 4, Box::new(|_, answer| s.index_page(branch, P, 0, answer))),
        ("entry", 9, Box::new(|_, answer| s.entry(leaf, P, 0, answer))),
        ("size", 6, Box::new(|_, answer| s.size(leaf, P, answer))),
        ("new_leaf", 4, Box::new(|lent, answer| s.new_leaf(P, 5, &mut lent.out, answer))),
        ("new_branch", 4, Box::new(|lent, answer| s.new_branch(P, 5, b"k", 9, &mut lent.out, answer))),
        ("insert", 4, Box::new(move |lent, answer| s.insert(leaf, P, entry, &mut lent.out, answer))),
        ("delete", 9, Box::new(|lent, answer| s.delete(leaf, P, 0, &mut lent.out, answer))),
        ("insert_branch", 4, Box::new(move |lent, answer| s.insert_branch(branch, P, child, &mut lent.out, answer))),
        ("split", 4, Box::new(|lent, answer| s.split(leaf, P, &mut lent.words, answer))),
        ("split_write", 5, Box::new(|lent, answer| s.split_write(leaf, P, 20, &[5], &mut lent.out, answer))),
    ]
}

fn on_tables<'a>(s: &'a dyn Subject) -> Vec<Call<'a>> {
    vec![
        ("free_new", 0, Box::new(|lent, answer| s.free_new(&mut lent.table, answer))),
        ("free_init", 0, Box::new(|lent, answer| s.free_init(&mut lent.table, 9, &[2], answer))),
        ("free_pages", 0, Box::new(|lent, answer| s.free_pages(&mut lent.table, 9, 3, 1, 5, answer))),
        ("release", 0, Box::new(|lent, answer| s.release(&mut lent.table, 9, 6, answer))),
        ("allocate", 2, Box::new(|lent, answer| s.allocate(&mut lent.table, 9, P, 40, answer))),
        ("free_list", 1, Box::new(|lent, answer| s.free_list(&lent.table, 9, &mut lent.words, answer))),
        ("free_size", 1, Box::new(|lent, answer| s.free_size(&lent.table, 9, answer))),
    ]
}

fn on_metas<'a>(s: &'a dyn Subject) -> Vec<Call<'a>> {
    let written = |lent: &Lent| {
        let mut page = lent.page.clone();
        s.meta_write(&mut page, &MetaFields::default(), &mut [0; 8]);
        page
    };
    vec![
        ("meta_read", 10, Box::new(move |lent, answer| s.meta_read(&written(lent), answer))),
        ("meta_write", 1, Box::new(|lent, answer| s.meta_write(&mut lent.page, &MetaFields::default(), answer))),
        ("fnv1a", 1, Box::new(|_, answer| s.fnv1a(b"k", answer))),
    ]
}
