//! Work on the crate's files, and what they should hold after it.

use std::collections::BTreeMap;

use oracle::{Bucket, Error, Tx, DB};

use crate::rng::Rng;

/// How a file is worked on: transactions, most puts and deletes in each, different keys, most bytes of a usual value.
#[derive(Clone, Copy, Debug)]
pub struct Plan {
    pub pagesize: u64,
    pub steps: usize,
    pub puts: usize,
    pub deletes: usize,
    pub keys: u64,
    pub value: usize,
    pub nested: bool,
}

pub const PLANS: [Plan; 8] = [
    Plan { pagesize: 1_024, steps: 60, puts: 60, deletes: 40, keys: 500, value: 30, nested: true },
    Plan { pagesize: 1_032, steps: 60, puts: 30, deletes: 30, keys: 200, value: 300, nested: true },
    Plan { pagesize: 1_024, steps: 30, puts: 6, deletes: 8, keys: 20, value: 60_000, nested: true },
    Plan { pagesize: 4_096, steps: 40, puts: 60, deletes: 20, keys: 1_000, value: 200, nested: true },
    Plan { pagesize: 5_000, steps: 40, puts: 20, deletes: 20, keys: 100, value: 20_000, nested: true },
    Plan { pagesize: 65_536, steps: 20, puts: 200, deletes: 60, keys: 2_000, value: 2_000, nested: true },
    Plan { pagesize: 1_024, steps: 8, puts: 20_000, deletes: 3_000, keys: 60_000, value: 40, nested: false },
    Plan { pagesize: 2_200, steps: 6, puts: 20_000, deletes: 9_000, keys: 40_000, value: 20, nested: false },
];

/// The names from the file's root to a bucket.
pub type Names = Vec<Vec<u8>>;

/// What a bucket holds besides buckets.
pub type Data = BTreeMap<Vec<u8>, Vec<u8>>;

#[derive(Clone)]
pub struct Store {
    plan: Plan,
    pub buckets: BTreeMap<Names, Data>,
}

impl Store {
    pub fn new(plan: &Plan) -> Store {
        Store { plan: *plan, buckets: BTreeMap::new() }
    }

    /// How many buckets lie directly in the one with these names.
    pub fn children(&self, names: &[Vec<u8>]) -> usize {
        self.buckets.keys().filter(|other| other.len() == names.len() + 1 && other.starts_with(names)).count()
    }

    /// One transaction, committed.
    pub fn transact(&mut self, db: &DB, rng: &mut Rng) -> Result<(), Error> {
        let tx = db.tx(true)?;
        let names = self.names(rng);
        for end in 1..=names.len() {
            self.buckets.entry(names[..end].to_vec()).or_default();
        }
        let data = self.buckets.get_mut(&names).unwrap();
        let bucket = open(&tx, &names)?;
        for _ in 0..rng.below(self.plan.puts + 1) {
            let (key, value) = (key(rng, self.plan.keys), value(rng, self.plan.value));
            bucket.put(key.clone(), value.clone())?;
            data.insert(key, value);
        }
        for key in condemned(data, rng, self.plan.deletes) {
            bucket.delete(&key)?;
            data.remove(&key);
        }
        if self.plan.nested && rng.one_in(12) {
            self.delete_bucket(&tx, &names)?;
        }
        tx.commit()
    }

    /// Names of a bucket, new or not, up to three deep.
    fn names(&self, rng: &mut Rng) -> Names {
        if !self.plan.nested {
            return vec![b"A".to_vec()];
        }
        let depth = rng.pick(&[1, 1, 1, 2, 3]);
        (0..depth).map(|_| vec![b'A' + rng.below(3) as u8]).collect()
    }

    fn delete_bucket(&mut self, tx: &Tx, names: &[Vec<u8>]) -> Result<(), Error> {
        match names {
            [name] => tx.delete_bucket(name.clone())?,
            [above @ .., name] => open(tx, above)?.delete_bucket(name.clone())?,
            [] => return Ok(()),
        }
        self.buckets.retain(|other, _| !other.starts_with(names));
        Ok(())
    }

    /// Keys to ask for in a bucket: all or some of its own, as many that it lacks, and names of buckets.
    pub fn questions(&self, rng: &mut Rng, names: &[Vec<u8>], all: bool) -> Vec<Vec<u8>> {
        let data = &self.buckets[names];
        let own: Vec<Vec<u8>> = data.keys().filter(|_| all || rng.one_in(30)).cloned().collect();
        let others = own.iter().map(|key| absent(rng, key));
        let buckets = ["A", "B", "C", "D", ""].map(|name| name.as_bytes().to_vec());
        others.chain(buckets).chain(own.clone()).collect()
    }
}

/// Keys to delete: some from anywhere, or a run of neighbours.
fn condemned(data: &Data, rng: &mut Rng, most: usize) -> Vec<Vec<u8>> {
    let count = rng.below(most + 1).min(data.len());
    let mut keys: Vec<&Vec<u8>> = data.keys().collect();
    if rng.one_in(2) {
        rng.shuffle(&mut keys);
    }
    let start = rng.below(keys.len() - count + 1);
    keys[start..start + count].iter().map(|key| key.to_vec()).collect()
}

/// A key that no bucket holds: this one a byte longer, or its beginning with another byte.
fn absent(rng: &mut Rng, key: &[u8]) -> Vec<u8> {
    if key.len() < 12 || rng.one_in(2) {
        return [key, b"!"].concat();
    }
    [&key[..key.len() - 9], &[rng.next() as u8]].concat()
}

fn open<'b, 'tx>(tx: &'b Tx<'tx>, names: &[Vec<u8>]) -> Result<Bucket<'b, 'tx>, Error> {
    let mut bucket = tx.get_or_create_bucket(names[0].clone())?;
    for name in &names[1..] {
        bucket = bucket.get_or_create_bucket(name.clone())?;
    }
    Ok(bucket)
}

/// One of so many keys, longer than a bucket's name, or rarely the empty key.
fn key(rng: &mut Rng, keys: u64) -> Vec<u8> {
    let number = rng.next() % keys;
    if number == 0 {
        return Vec::new();
    }
    let mut of_key = Rng::new(number);
    let length = 2 + of_key.below(30);
    let mut key = of_key.bytes(length);
    key.extend(number.to_be_bytes());
    key
}

/// A value, at times six times longer than usual ones.
fn value(rng: &mut Rng, most: usize) -> Vec<u8> {
    let length = if rng.one_in(10) { rng.below(most * 6 + 1) } else { rng.below(most + 1) };
    rng.bytes(length)
}
