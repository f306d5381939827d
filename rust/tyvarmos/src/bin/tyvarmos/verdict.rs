//! The judge's verdict on a tree of a file.

use std::time::{Duration, Instant};

use tyvarmos::Sound;

use crate::args::Options;
use crate::buckets::Buckets;
use crate::descent::{self, Lost};
use crate::file::{Read, Source};
use crate::layout::Pages;
use crate::meant::Meant;
use crate::metas::Metas;
use crate::progress::Share;
use crate::refusal::Refusal;
use crate::stop::{Stop, ABSENT};

/// What was judged and what came of it.
pub struct Verdict {
    /// The tree that was judged, or that was refused on the way to it, where a meta page or the options told it.
    pub meant: Option<Meant>,
    pub metas: Metas,
    pub warnings: Vec<String>,
    /// The image's pages; of its bytes nothing is kept.
    pub read: Read,
    pub outcome: Outcome,
}

pub enum Outcome {
    Sound { entries: u64, pages: u64, free_pages: u64, buckets: Buckets, time: Duration },
    Refused(Box<Refusal>),
    Absent(String),
}

impl Verdict {
    /// The verdict on the tree that the options name.
    pub fn on(options: &Options, source: &Source, share: &Share) -> Result<Verdict, Stop> {
        let metas = Metas::of(&source.head, &source.holes, options.numbers.page_size);
        let mut meant = match Meant::main(options, &metas) {
            Ok(meant) => meant,
            Err(fault) => {
                let outcome = Outcome::Refused(Box::new(Refusal::without_tree(fault, options, &metas)));
                return Ok(Verdict { meant: None, metas, warnings: Vec::new(), read: Read::default(), outcome });
            }
        };
        let warnings = meant.meta.and_then(|meta| metas.warning(&meta)).into_iter().collect();
        let read = source.image(&meant.tree, &|bytes| share.read(bytes))?;
        share.read_all();
        let outcome = judged(&mut meant, options, source, &read);
        let read = Read { bytes: Vec::new(), ..read };
        Ok(Verdict { meant: Some(meant), metas, warnings, read, outcome })
    }

    /// The exit status.
    pub fn status(&self) -> u8 {
        match &self.outcome {
            Outcome::Sound { .. } => 0,
            Outcome::Refused(refusal) => refusal.status(),
            Outcome::Absent(_) => ABSENT,
        }
    }

    /// Whether there is nothing to be told but that the tree is sound.
    pub fn is_plain(&self) -> bool {
        self.status() == 0 && self.warnings.is_empty() && self.read.unread.is_empty()
    }
}

/// The outcome for the tree at the end of the buckets; what is meant is then this tree, or the one refused before it.
fn judged(meant: &mut Meant, options: &Options, source: &Source, read: &Read) -> Outcome {
    for name in &options.buckets {
        match descent::to_bucket(meant, source, read, name) {
            Ok(bucket) => *meant = bucket,
            Err(Lost::Absent(why)) => return Outcome::Absent(why),
            Err(Lost::Refused(refusal)) => return Outcome::Refused(refusal),
        }
    }
    let start = Instant::now();
    let judged = meant.image(&read.bytes).judge();
    let time = start.elapsed();
    match judged {
        Err(fault) => Outcome::Refused(Box::new(Refusal::judged(meant, source, read, fault))),
        Ok(sound) => match Refusal::of_passed(&sound.image(), read, None) {
            Some(refusal) => Outcome::Refused(Box::new(refusal)),
            None => passed(&sound, time),
        },
    }
}

/// The outcome of a sound image.
fn passed(sound: &Sound, time: Duration) -> Outcome {
    let image = sound.image();
    let freelist = Pages::of(&image).block(image.tree().freelist_page);
    let free_pages = freelist.map_or(0, |block| block.header.count);
    Outcome::Sound { entries: sound.entries(), pages: sound.pages(), free_pages, buckets: Buckets::of(&image), time }
}

#[cfg(test)]
mod tests {
    use std::ffi::OsString;
    use std::path::Path;

    use super::*;
    use crate::args::{self, Wanted};
    use crate::media::tests::Failing;
    use crate::progress::Progress;
    use crate::refusal::Kind;
    use crate::stop::UNREADABLE;
    use crate::words;

    const EXAMPLE: &[u8] = include_bytes!("../../../../../examples/shard.db");
    const PAGE: u64 = 1_024;

    /// The verdict on the example with these bytes unreadable, and what is said about it.
    fn verdict(bad: &[(u64, u64)], words: &[&str]) -> (Verdict, String) {
        verdict_on(EXAMPLE.to_vec(), bad, words)
    }

    /// The verdict on a file with these bytes unreadable, and what is said about it.
    fn verdict_on(bytes: Vec<u8>, bad: &[(u64, u64)], words: &[&str]) -> (Verdict, String) {
        let words = ["judge", "dying"].iter().chain(words).map(OsString::from);
        let Ok(Wanted::Work(options)) = args::parse(words) else { panic!("no work") };
        let length = bytes.len() as u64;
        let media = Failing { bytes, bad: bad.to_vec() };
        let source = Source::new(Path::new("dying"), Box::new(media), length).unwrap();
        let progress = Progress::start(&[]);
        let verdict = Verdict::on(&options, &source, &progress.share(source.length)).unwrap();
        let said = words::of_judge(&verdict, &options, &source);
        (verdict, said)
    }

    /// A bad sector in the middle of a page.
    fn sector(page: u64) -> (u64, u64) {
        (page * PAGE + 512, page * PAGE + 513)
    }

    #[test]
    fn pages_that_the_tree_does_not_need_are_told_and_no_more() {
        let (verdict, said) = verdict(&[sector(10), sector(140), sector(141)], &[]);
        assert_eq!((verdict.status(), verdict.is_plain()), (0, false));
        assert!(said.contains("3 pages could not be read: 10, 140 to 141; the tree needs none of them\n"), "{said}");
    }

    #[test]
    fn a_page_that_is_needed_is_not_called_damaged() {
        for page in [65, 66] {
            let (verdict, said) = verdict(&[sector(10), sector(page), sector(140)], &[]);
            assert_eq!(verdict.status(), UNREADABLE);
            assert!(said.starts_with("dying: main tree not judged\n"), "{said}");
            let why = format!("from byte {} on: Input/output error (os error 5)", page * PAGE);
            assert!(said.contains(&format!("  page {page} is needed and could not be read, {why}\n")), "{said}");
            assert!(!said.contains("refused") && !said.contains("(3)"), "{said}");
        }
    }

    #[test]
    fn an_overflow_page_is_needed_though_its_zeros_would_pass() {
        let world = verdict(&[], &["--bucket=world"]).0.meant.unwrap().tree.root_page;
        for page in world..world + 5 {
            let (verdict, said) = verdict(&[sector(page)], &["--bucket", "world"]);
            let Outcome::Refused(refusal) = &verdict.outcome else { panic!("{said}") };
            assert!(
                matches!(&refusal.kind, Kind::Unread(pages) if pages.len() == 1 && pages.contains(&page)),
                "{said}"
            );
        }
        assert_eq!(verdict(&[sector(world + 5)], &["--bucket=world"]).0.status(), 0);
    }

    #[test]
    fn all_pages_of_the_tree_that_are_lost_are_named() {
        let (verdict, said) = verdict(&[sector(10), sector(45), sector(106), sector(113)], &["--bucket=characters"]);
        assert_eq!(verdict.status(), UNREADABLE);
        assert!(said.contains("  pages 45, 106, 113 are needed and could not be read, from byte 46080 on: "), "{said}");
        assert!(said.contains("  warning   4 pages could not be read: 10, 45, 106, 113\n"), "{said}");
    }

    #[test]
    fn a_bucket_behind_a_bad_page_is_not_called_absent() {
        let (verdict, said) = verdict(&[sector(65)], &["--bucket", "nowhere"]);
        assert_eq!(verdict.status(), UNREADABLE);
        assert!(said.starts_with("dying: main tree not judged on the way to bucket \"nowhere\"\n"), "{said}");
    }

    #[test]
    fn a_damaged_page_is_still_called_damaged() {
        let (verdict, said) = verdict(&[sector(10)], &["--root", "66"]);
        assert_eq!(verdict.status(), crate::stop::REFUSED);
        assert!(said.contains("page 66: the header is not that of the page wanted"), "{said}");
    }

    #[test]
    fn of_a_block_that_shares_pages_only_the_first_is_needed() {
        let mut bytes = EXAMPLE.to_vec();
        bytes[66 * PAGE as usize + 24] = 40;
        let (verdict, said) = verdict_on(bytes.clone(), &[sector(80)], &["--bucket=world"]);
        assert_eq!(verdict.status(), crate::stop::REFUSED);
        let cause = "page 97 is part of the leaf on pages 97 to 101, and of the freelist on pages 66 to 106";
        assert!(said.contains(&format!("  cause     {cause}\n")), "{said}");
        for page in [66, 98] {
            let (verdict, said) = verdict_on(bytes.clone(), &[sector(80), sector(page)], &["--bucket=world"]);
            assert_eq!(verdict.status(), UNREADABLE, "{said}");
        }
    }

    #[test]
    fn an_unreadable_meta_page_is_told() {
        let (one, said) = verdict(&[(PAGE, PAGE + 1)], &[]);
        assert_eq!(one.status(), 0);
        let why = "it could not be read: from byte 1024 on: Input/output error (os error 5)";
        assert!(said.contains(&format!("  warning   meta page 1 cannot be used: {why}; transaction 9,")), "{said}");
        let (both, said) = verdict(&[(0, 1), (PAGE, PAGE + 1)], &[]);
        assert_eq!(both.status(), UNREADABLE);
        assert!(said.contains("no meta page can be used: it could not be read: from byte 0 on"), "{said}");
        assert!(said.starts_with("dying: nothing judged\n"), "{said}");
        let words = ["--page-size=1024", "--page-count=146", "--root=65", "--freelist=66"];
        assert_eq!(verdict(&[(0, 1), (PAGE, PAGE + 1)], &words).0.status(), 0);
    }

    #[test]
    fn behind_a_dead_beginning_a_tree_that_is_named_is_judged() {
        let dead = (0, 64 * PAGE);
        let (lost, said) = verdict(&[dead], &[]);
        assert_eq!(lost.status(), UNREADABLE);
        assert!(said.contains("could not be read: from byte 0 on: Input/output error (os error 5)\n"), "{said}");
        assert!(said.contains("  to go on  give --page-size, --page-count, --root and --freelist\n"), "{said}");
        let (judged, said) = verdict(&[dead], &["--page-size=1024", "--page-count=146", "--root=65", "--freelist=66"]);
        assert_eq!(judged.status(), 0);
        assert!(said.contains("64 pages could not be read: 0 to 63; the tree needs none of them\n"), "{said}");
    }
}
