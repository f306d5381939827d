use tyvarmos::{Image, Kind, Meta};

fn main() -> Result<(), Box<dyn std::error::Error>> {
    let bytes = std::fs::read("examples/shard.db")?;

    // Every page of the main tree is doubted, once. A bucket has a tree of its own.
    let file = Image::of_file(&bytes)?.judge()?;
    let world = file.bucket(b"world").expect("a bucket").judge()?;

    // On what was judged a lookup cannot fail: the key is absent or found.
    let motto = world.get(b"motto").expect("an entry");
    assert_eq!((motto.kind, motto.value), (Kind::Data, b"Hold the wall.".as_slice()));

    // Without the judge, a lookup judges each page that it meets.
    match Image::of_file(&bytes)?.lookup(b"world") {
        Ok(found) => println!("{}", found.is_some()),
        Err(fault) if fault.is_limit() => eprintln!("beyond this version: {fault}"),
        Err(fault) => eprintln!("{fault}, code {}", fault.number.code()),
    }

    // A file has two meta pages. Of a damaged one, the other may be an older transaction.
    if let Some((page, fault)) = Meta::both(&bytes)?.unusable() {
        eprintln!("meta page {page} cannot be used: {fault}");
    }
    Ok(())
}
