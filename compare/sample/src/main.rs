//! Makes a small file by the crate, the same bytes each time: `sample FILE`.

mod content;
mod zeroed;

use std::path::Path;
use std::process::ExitCode;

use oracle::{Error, OpenOptions, DB};

#[global_allocator]
static MEMORY: zeroed::Zeroed = zeroed::Zeroed;

const PAGE_SIZE: u64 = 1_024;
const PAGE_COUNT: usize = 160;

fn main() -> ExitCode {
    let words: Vec<_> = std::env::args_os().skip(1).collect();
    let [file] = words.as_slice() else {
        eprintln!("sample: one FILE is wanted");
        return ExitCode::from(64);
    };
    let path = Path::new(file);
    if path.exists() {
        eprintln!("sample: {} is there already", path.display());
        return ExitCode::FAILURE;
    }
    match make(path) {
        Ok(()) => ExitCode::SUCCESS,
        Err(error) => {
            eprintln!("sample: {error}");
            ExitCode::FAILURE
        }
    }
}

/// Makes the file: one bucket in each transaction, since the crate commits several in no fixed order.
fn make(path: &Path) -> Result<(), Error> {
    let db = OpenOptions::new().pagesize(PAGE_SIZE).num_pages(PAGE_COUNT).open(path)?;
    put(&db, "accounts", &content::accounts())?;
    for part in content::characters(false).chunks(80) {
        put(&db, "characters", part)?;
    }
    put_bags(&db)?;
    put(&db, "world", &[("map".to_string(), content::map()), ("motto".to_string(), "Hold the wall.".to_string())])?;
    put(&db, "auctions", &[])?;
    let evening: Vec<_> = content::characters(true).into_iter().step_by(7).collect();
    put(&db, "characters", &evening)?;
    retire(&db)?;
    db.check()
}

/// Puts these entries into a bucket, in one transaction.
fn put(db: &DB, name: &str, entries: &[(String, String)]) -> Result<(), Error> {
    let tx = db.tx(true)?;
    let bucket = tx.get_or_create_bucket(name)?;
    for (key, value) in entries {
        bucket.put(key.as_str(), value.as_str())?;
    }
    tx.commit()
}

/// Puts the bags into a bucket that lies in `characters`.
fn put_bags(db: &DB) -> Result<(), Error> {
    let bags = content::bags();
    let tx = db.tx(true)?;
    let characters = tx.get_bucket("characters")?;
    let bucket = characters.get_or_create_bucket("bags")?;
    for (key, value) in &bags {
        bucket.put(key.as_str(), value.as_str())?;
    }
    tx.commit()
}

/// Deletes every sixteenth character.
fn retire(db: &DB) -> Result<(), Error> {
    let tx = db.tx(true)?;
    let characters = tx.get_bucket("characters")?;
    for (key, _) in content::characters(false).into_iter().step_by(16) {
        characters.delete(&key)?;
    }
    tx.commit()
}
