//! The keys and values of the sample: a shard of a small world.

const ACCOUNTS: u64 = 60;
const CHARACTERS: u64 = 320;

const BEGINNINGS: [&str; 8] = ["Bran", "Cael", "Dor", "Eira", "Fen", "Hal", "Mor", "Ys"];
const ENDS: [&str; 10] = ["dra", "gwyn", "is", "laith", "mund", "noch", "ric", "than", "vane", "wen"];
const CALLINGS: [&str; 6] = ["bard", "herbalist", "ranger", "smith", "warden", "witch"];
const ZONES: [&str; 5] = ["Ashfen", "Glass Coast", "Hollow Road", "Low Market", "Thornwall"];
const ITEMS: [&str; 7] = ["amber ring", "bread", "lantern", "rope", "short sword", "tin whistle", "wolf pelt"];
const TILES: [&str; 5] = [".", ".", "^", "~", "#"];

/// One of these, by number.
fn pick(choices: &[&'static str], number: u64) -> &'static str {
    choices[(number % choices.len() as u64) as usize]
}

/// A number that looks like any other, the same each time.
fn mixed(number: u64) -> u64 {
    let number = (number + 1).wrapping_mul(0x9E37_79B9_7F4A_7C15);
    (number ^ (number >> 29)).wrapping_mul(0xBF58_476D_1CE4_E5B9) >> 20
}

/// The name of an account.
fn account(number: u64) -> String {
    format!("account-{:04}", 7 * number + 3)
}

/// The key of a character: account and name.
fn character(number: u64) -> String {
    let place = mixed(number);
    let name = format!("{}{}", pick(&BEGINNINGS, number / 10), pick(&ENDS, number));
    format!("{}/{name}-{}", account(place % ACCOUNTS), number / 80 + 1)
}

/// Every account with its record.
pub fn accounts() -> Vec<(String, String)> {
    let record = |n: u64| format!("since=20{:02}-{:02};coins={}", 15 + n % 9, 1 + n % 12, mixed(n) % 9_000);
    (0..ACCOUNTS).map(|n| (account(n), record(n))).collect()
}

/// Every character with its record, at its first login or, `later`, after an evening.
pub fn characters(later: bool) -> Vec<(String, String)> {
    let record = |n: u64| {
        let (x, y) = (mixed(n + 1_000) % 4_096, mixed(n + 2_000) % 4_096);
        let level = 1 + mixed(n) % 60 + u64::from(later);
        format!("level={level};calling={};zone={};x={x};y={y}", pick(&CALLINGS, x), pick(&ZONES, y))
    };
    (0..CHARACTERS).map(|n| (character(n), record(n))).collect()
}

/// What every third character carries.
pub fn bags() -> Vec<(String, String)> {
    let items = |n: u64| {
        let count = 1 + n % 5;
        let carried: Vec<&str> = (0..count).map(|i| pick(&ITEMS, mixed(10 * n + i))).collect();
        carried.join(",")
    };
    (0..CHARACTERS).step_by(3).map(|n| (character(n), items(n))).collect()
}

/// A map of the world, longer than a page: one line for each row.
pub fn map() -> String {
    let tile = |x: u64, y: u64| pick(&TILES, mixed(x / 3 + 100 * (y / 2)));
    let row = |y: u64| (0..80).map(|x| tile(x, y)).collect::<String>();
    (0..60).map(|y| row(y) + "\n").collect()
}
