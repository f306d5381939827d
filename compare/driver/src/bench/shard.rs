//! Both lookups and the judge on a shard of characters, beside the crate's, other stores', plain C and a plain read.

use oracle::probe::file;
use oracle::{Bucket, Tx, DB};
use peers::lmdb::Lmdb;
use peers::sqlite::Sqlite;
use peers::Entry;
use proved::Proved;
use subject::{Answer, Lookup, Subject};

use super::reads::Read;
use super::timing::{grouped, keep, Race, Table};
use crate::parts::files::{open, Temporary, View};
use crate::rng::Rng;

const PAGE_SIZE: u64 = 4_096;
const BUCKET: &str = "characters";
/// How many keys are looked up, and how many of them in a round.
const LOOKUPS: usize = 10_000;
const SLICE: usize = 500;
/// The fewest and the most bytes of a value: a usual one's, and a long one's, of 2 to 350 pages.
const SHORT: (u64, u64) = (80, 240);
const LONG: (u64, u64) = (2 * PAGE_SIZE, 350 * PAGE_SIZE);

/// A lookup and its goals: beside `Bucket::get`, the same with the value read, beside plain C, and beside LMDB.
struct Timed {
    call: Lookup,
    get: Option<f64>,
    value: Option<f64>,
    plain_c: Option<f64>,
    lmdb: Option<f64>,
}

const FULL: Timed = Timed { call: Lookup::Full, get: Some(1.45), value: Some(1.45), plain_c: Some(1.1), lmdb: None };
const QUICK: Timed = Timed { call: Lookup::Quick, get: Some(0.5), value: None, plain_c: Some(1.1), lmdb: Some(1.0) };

/// Keys that are looked up, and which they are.
struct Asked {
    which: &'static str,
    keys: Vec<Vec<u8>>,
}

/// A file of characters, what it holds, and the keys that are looked up in it.
struct Made {
    db: DB,
    file: Temporary,
    entries: Vec<Entry>,
    asked: [Asked; 2],
}

/// A file with so many characters of usual values.
fn made(characters: usize) -> Made {
    let mut rng = Rng::new(1);
    let file = Temporary::new("bench");
    let db = open(&file.path, PAGE_SIZE);
    let entries = fill(&db, &mut rng, characters, SHORT);
    let asked = asked(&mut rng, &entries);
    Made { db, file, entries, asked }
}

/// Times the calls on a shard of so many characters.
pub fn run(table: &mut Table, characters: usize) {
    let Made { db, file, entries, asked: [there, not] } = made(characters);
    let tx = db.tx(false).unwrap();
    let bucket = tx.get_bucket(BUCKET).unwrap();
    let shard = Shard::new(&tx, &file, format!("{} characters", grouped(characters)));
    shard.tell();
    let lmdb_file = Temporary::new("bench-lmdb");
    let lmdb = Lmdb::filled(&lmdb_file.path, &entries);
    for timed in [FULL, QUICK] {
        shard.beside_get(table, &timed, &bucket, &there);
        shard.beside_get(table, &timed, &bucket, &not);
        shard.values(table, &timed, &bucket, &there.keys);
        shard.beside_c(table, &timed, &there);
        shard.beside_c(table, &timed, &not);
        shard.beside_lmdb(table, &timed, &lmdb, &there);
    }
    shard.beside_lmdb(table, &QUICK, &lmdb, &not);
    shard.judges(table, &db);
    shard.beside_sqlite(table, &entries);
}

/// Times the judge on a shard of so many characters with long values.
pub fn run_long(table: &mut Table, characters: usize) {
    let file = Temporary::new("bench-long");
    let db = open(&file.path, PAGE_SIZE);
    fill(&db, &mut Rng::new(1), characters, LONG);
    let tx = db.tx(false).unwrap();
    let shard = Shard::new(&tx, &file, format!("{characters} characters, values of 2 to 350 pages"));
    shard.tell();
    shard.judges(table, &db);
}

/// Prints how much of a shard of so many characters the lookups read, in the mean over the keys.
pub fn print_reads(characters: usize) {
    let Made { db, file, asked, .. } = made(characters);
    let shard = Shard::new(&db.tx(false).unwrap(), &file, format!("{} characters", grouped(characters)));
    for Asked { which, keys } in &asked {
        let reads: Vec<Read> = keys.iter().map(|key| Read::of(&shard.view.bytes, shard.numbers(), key)).collect();
        let mean = |count: &dyn Fn(&Read) -> usize| reads.iter().map(count).sum::<usize>() as f64 / reads.len() as f64;
        let bytes = [0, 1, 2].map(|kind| grouped(mean(&|read| read.bytes[kind]).round() as usize)).join(" | ");
        let lines = [0, 1, 2].map(|kind| format!("{:.1}", mean(&|read| read.lines[kind]))).join(" | ");
        println!("| {which}, {} | {bytes} | {lines} |", shard.name);
    }
}

/// Keys of some of these entries, at random, and as many that no entry has.
fn asked(rng: &mut Rng, entries: &[Entry]) -> [Asked; 2] {
    let there: Vec<Vec<u8>> = (0..LOOKUPS).map(|_| entries[rng.below(entries.len())].0.clone()).collect();
    let not = there.iter().map(|key| [key.as_slice(), b"!"].concat()).collect();
    [Asked { which: "a key that is there", keys: there }, Asked { which: "a key that is not", keys: not }]
}

/// The image of a shard, the root of its characters, and what it is called.
struct Shard {
    view: View,
    root: u64,
    name: String,
}

impl Shard {
    fn new(tx: &Tx, file: &Temporary, name: String) -> Shard {
        Shard { view: View::new(tx, &file.path), root: file::root(&tx.get_bucket(BUCKET).unwrap()), name }
    }

    /// Says how large it is.
    fn tell(&self) {
        println!("{}: {} pages of {PAGE_SIZE} bytes", self.name, self.view.meta.num_pages);
    }

    /// The page size, the page count and the root.
    fn numbers(&self) -> (u64, u64, u64) {
        (self.view.meta.pagesize, self.view.meta.num_pages, self.root)
    }

    /// What a lookup answers.
    fn looked(&self, call: Lookup, key: &[u8]) -> Answer<7> {
        let mut answer = [0; 56];
        let (bytes, (p, n, root)) = (&self.view.bytes, self.numbers());
        let number = match call {
            Lookup::Full => Proved.lookup(bytes, p, n, root, key, &mut answer),
            Lookup::Quick => Proved.quick(bytes, p, n, root, key, &mut answer),
        };
        let field = |i: usize| u64::from_le_bytes(answer[i * 8..i * 8 + 8].try_into().unwrap());
        Answer { number, fields: std::array::from_fn(field) }
    }

    /// The same by plain C.
    fn in_c(&self, call: Lookup, key: &[u8]) -> Answer<7> {
        limit::looked(call, &self.view.bytes, self.numbers(), key)
    }

    /// The value that a lookup finds, or none.
    fn value(&self, call: Lookup, key: &[u8]) -> Option<&[u8]> {
        let [found, _, place, length, ..] = self.looked(call, key).fields;
        (found == 1).then(|| &self.view.bytes[place as usize..][..length as usize])
    }

    fn beside_get(&self, table: &mut Table, timed: &Timed, bucket: &Bucket, asked: &Asked) {
        let race = self.race(&format!("{}, {}", timed.call.name(), asked.which), "Bucket::get", timed.get, SLICE);
        race_keys(table, race, &asked.keys, |key| self.looked(timed.call, key), |key| bucket.get(key));
    }

    /// The value's bytes, each of them looked at.
    fn values(&self, table: &mut Table, timed: &Timed, bucket: &Bucket, keys: &[Vec<u8>]) {
        let call = format!("{} and the value read", timed.call.name());
        let race = self.race(&call, "Bucket::get", timed.value, SLICE);
        let sum = |value: &[u8]| value.iter().map(|byte| u64::from(*byte)).sum::<u64>();
        let ours = |key: &[u8]| sum(self.value(timed.call, key).unwrap());
        let theirs = |key: &[u8]| sum(bucket.get_kv(key).unwrap().value());
        assert!(keys.iter().all(|key| ours(key) == theirs(key)), "the same values");
        race_keys(table, race, keys, ours, theirs);
    }

    /// A lookup beside the same checks in plain C.
    fn beside_c(&self, table: &mut Table, timed: &Timed, Asked { which, keys }: &Asked) {
        let call = format!("{}, {which}", timed.call.name());
        let race = self.race(&call, "the same checks in plain C", timed.plain_c, SLICE);
        let (ours, theirs) = (|key: &[u8]| self.looked(timed.call, key), |key: &[u8]| self.in_c(timed.call, key));
        assert!(keys.iter().all(|key| ours(key) == theirs(key)), "the same answers");
        race_keys(table, race, keys, ours, theirs);
    }

    fn beside_lmdb(&self, table: &mut Table, timed: &Timed, lmdb: &Lmdb, Asked { which, keys }: &Asked) {
        let call = format!("{}, {which}", timed.call.name());
        let race = self.race(&call, "LMDB's mdb_get", timed.lmdb, SLICE);
        assert!(keys.iter().all(|key| self.value(timed.call, key) == lmdb.get(key)), "the same values");
        race_keys(table, race, keys, |key| self.looked(timed.call, key), |key| lmdb.get(key));
    }

    fn judge(&self) -> u64 {
        let (bytes, meta) = (&self.view.bytes, &self.view.meta);
        Proved.judge(bytes, meta.pagesize, meta.num_pages, self.root, meta.freelist_page, &mut [0; 40])
    }

    fn judges(&self, table: &mut Table, db: &DB) {
        assert_eq!((self.judge(), db.check()), (0, Ok(())), "both pass");
        let race = self.race("judge", "DB::check", Some(0.9), 1);
        table.race(race, || keep(self.judge()), || keep(db.check()));
        let race = self.race("judge", "a plain read of the image", None, 1);
        let read = || self.view.bytes.chunks_exact(8).map(|word| u64::from_le_bytes(word.try_into().unwrap()));
        table.race(race, || keep(self.judge()), || keep(read().fold(0, u64::wrapping_add)));
    }

    fn beside_sqlite(&self, table: &mut Table, entries: &[Entry]) {
        let file = Temporary::new("bench-sqlite");
        let sqlite = Sqlite::filled(&file.path, entries);
        let race = self.race("judge", "SQLite's PRAGMA integrity_check", Some(0.15), 1);
        table.race(race, || keep(self.judge()), || assert_eq!(sqlite.check(), "ok", "it passes"));
    }

    /// A race on this shard.
    fn race(&self, call: &str, peer: &'static str, goal: Option<f64>, times: usize) -> Race {
        Race { call: format!("{call}, {}", self.name), peer, goal, times }
    }
}

/// Times two calls on the keys, in each round on the next slice of them. The two are half of the keys apart, so that
/// neither finds in the cache what the other has just read.
fn race_keys<A, B>(
    table: &mut Table,
    race: Race,
    keys: &[Vec<u8>],
    ours: impl Fn(&[u8]) -> A,
    theirs: impl Fn(&[u8]) -> B,
) {
    let slices = |from: usize| keys[from..].chunks(SLICE).chain(keys[..from].chunks(SLICE)).cycle();
    let (mut our_slices, mut their_slices) = (slices(0), slices(keys.len() / 2));
    table.race(
        race,
        || our_slices.next().unwrap().iter().for_each(|key| keep(ours(key))),
        || their_slices.next().unwrap().iter().for_each(|key| keep(theirs(key))),
    );
}

/// Puts so many characters with values of a length between these, a thousand in a transaction, and answers them.
fn fill(db: &DB, rng: &mut Rng, characters: usize, (shortest, longest): (u64, u64)) -> Vec<Entry> {
    let mut keys: Vec<Vec<u8>> = (0..characters).map(|i| key(rng, i)).collect();
    rng.shuffle(&mut keys);
    let mut value = || {
        let length = rng.between(shortest, longest) as usize;
        rng.bytes(length)
    };
    let entries: Vec<Entry> = keys.into_iter().map(|key| (key, value())).collect();
    for part in entries.chunks(1_000) {
        let tx = db.tx(true).unwrap();
        let bucket = tx.get_or_create_bucket(BUCKET).unwrap();
        for (key, value) in part {
            bucket.put(key.clone(), value.clone()).unwrap();
        }
        drop(bucket);
        tx.commit().unwrap();
    }
    entries
}

/// A character's key: the account, then the name.
fn key(rng: &mut Rng, i: usize) -> Vec<u8> {
    const NAMES: [&str; 8] = ["Thorgrim", "Ayla", "Morwen", "Brand", "Sigrid", "Odo", "Ysolde", "Kestrel"];
    format!("account-{:08}/{}-{i}", rng.next() % 50_000, rng.pick(&NAMES)).into_bytes()
}
