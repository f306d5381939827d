//! Sound images made here: the judge's counts, and both lookups beside the crate's own descent.

use oracle::probe::search::Image;
use subject::Lookup;

use super::lookups::{hit, outside};
use super::Run;
use crate::make::{self, content, tree};

/// How many keys of an image are looked for again with other bytes outside.
const OUTSIDE: usize = 6;

pub fn run(run: &mut Run) {
    for round in 0..run.rounds {
        let shape = tree::shape(&mut run.rng);
        let tree = tree::tree(&mut run.rng, &shape);
        let what = || format!("round {round}: {} entries, {} levels, P {}", shape.entries, shape.levels, shape.p);
        let got = tree.image.judged(run.subject);
        let pages: u64 = tree.spans.iter().map(|(_, pages)| pages).sum();
        run.tally.same((got.number, got.fields), (0, [tree.items.len() as u64, pages, 0, 0, 0]), what);
        let make::image::Image { bytes, p, n, root, .. } = &tree.image;
        let image = Image::new(bytes, *p);
        let keys: Vec<Vec<u8>> = tree.items.iter().map(|item| item.key.clone()).collect();
        let questions = content::questions(&mut run.rng, &keys, 30);
        for key in &questions {
            let by_crate = image.get(*root, key);
            for call in Lookup::BOTH {
                let hit = hit(call, run, bytes, (*p, *n, *root), key);
                run.tally.same(hit.as_ref(), Ok(&by_crate), || format!("{}: {} of {key:?}", what(), call.name()));
            }
            let value = tree.items.iter().find(|item| item.key == *key).map(|item| item.value.clone());
            let by_crate = by_crate.map(|hit| hit.value);
            run.tally.same(by_crate, value, || format!("{}: the crate's get of {key:?}", what()));
        }
        for _ in 0..OUTSIDE {
            let key = run.rng.pick(&questions);
            outside(run, &tree.image, &key, &what());
        }
    }
}
