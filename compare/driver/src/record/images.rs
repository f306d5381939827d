//! Images: both lookups by the crate's descent, and what the judge counts in files that the crate's own check passes.

use std::fs;

use oracle::probe::file;
use oracle::probe::search::Image;

use super::tape::{Call, Record, Tape};
use crate::make::store::Plan;
use crate::make::{content, tree};
use crate::parts::files::{descend, open, worked, Temporary, View};
use crate::rng::Rng;

const PLANS: [Plan; 6] = [
    Plan { pagesize: 1_024, steps: 4, puts: 8, deletes: 2, keys: 40, value: 60, nested: true },
    Plan { pagesize: 1_024, steps: 6, puts: 16, deletes: 8, keys: 60, value: 30, nested: true },
    Plan { pagesize: 1_024, steps: 5, puts: 60, deletes: 10, keys: 200, value: 20, nested: false },
    Plan { pagesize: 1_032, steps: 5, puts: 12, deletes: 4, keys: 40, value: 150, nested: true },
    Plan { pagesize: 2_048, steps: 4, puts: 20, deletes: 6, keys: 60, value: 200, nested: true },
    Plan { pagesize: 1_024, steps: 4, puts: 4, deletes: 1, keys: 12, value: 2_000, nested: true },
];

pub fn record(rng: &mut Rng, tape: &mut Tape) {
    for plan in PLANS.iter().cycle().take(2 * PLANS.len()) {
        let (view, roots) = made(rng, plan);
        image(tape, &view.bytes);
        for (root, keys) in roots {
            judge(tape, &view, root);
            lookups(rng, tape, &view.bytes, (plan.pagesize, view.meta.num_pages, root), &keys);
        }
    }
    for levels in [1, 2, 3, 4, 16] {
        let tree = tree::tree(rng, &tree::Shape { p: 1_024, entries: 8, value: 128, levels, fanout: 2 });
        let keys: Vec<Vec<u8>> = tree.items.iter().map(|item| item.key.clone()).collect();
        let made = tree.image;
        image(tape, &made.bytes);
        lookups(rng, tape, &made.bytes, (made.p, made.n, made.root), &keys);
    }
}

fn image(tape: &mut Tape, bytes: &[u8]) {
    tape.add(&Record { call: Call::Image, block: bytes, ..Record::default() });
}

/// The root of a tree, and keys in it.
type Root = (u64, Vec<Vec<u8>>);

/// A file made after this plan, with unset bytes cleared, which the crate's check passes, and every tree in it.
fn made(rng: &mut Rng, plan: &Plan) -> (View, Vec<Root>) {
    let temporary = Temporary::new("record");
    let (db, store) = worked(rng, plan, &temporary.path);
    let tx = db.tx(false).unwrap();
    let mut view = View::new(&tx, &temporary.path);
    let mut roots = vec![(view.meta.root_page, vec![b"A".to_vec(), b"B".to_vec()])];
    for (names, data) in &store.buckets {
        roots.push((file::root(&descend(&tx, names)), data.keys().cloned().collect()));
    }
    view.clear_unset(roots.iter().map(|(root, _)| *root));
    let cleared = Temporary::new("record-cleared");
    fs::write(&cleared.path, &view.bytes).unwrap();
    assert_eq!(open(&cleared.path, plan.pagesize).check(), Ok(()));
    (view, roots)
}

/// The entries and pages that the crate counts, the freelist's included.
fn judge(tape: &mut Tape, view: &View, root: u64) {
    let image = Image::new(&view.bytes, view.meta.pagesize);
    let freelist = view.meta.freelist_page;
    tape.add(&Record {
        call: Call::Judge,
        arguments: &[view.meta.pagesize, view.meta.num_pages, root, freelist],
        fields: &[image.entries(root), image.used(root, freelist), 0, 0, 0],
        ..Record::default()
    });
}

/// Some of these keys, and keys near them.
fn lookups(rng: &mut Rng, tape: &mut Tape, bytes: &[u8], (p, n, root): (u64, u64, u64), keys: &[Vec<u8>]) {
    let image = Image::new(bytes, p);
    let mut keys = keys.to_vec();
    rng.shuffle(&mut keys);
    keys.truncate(6);
    for key in content::questions(rng, &keys, 2) {
        let hit = image.get(root, &key);
        let fields = hit.map_or([0; 7], |hit| [1, hit.kind, hit.place, hit.value.len() as u64, 0, 0, 0]);
        for call in [Call::Lookup, Call::Quick] {
            tape.add(&Record { call, arguments: &[p, n, root], key: &key, fields: &fields, ..Record::default() });
        }
    }
}
