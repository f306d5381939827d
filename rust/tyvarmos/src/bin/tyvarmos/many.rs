//! `tyvarmos judge` and `stat`: one file or many, judged by threads and told in the order given.

use std::collections::BTreeMap;
use std::path::Path;
use std::sync::atomic::{AtomicUsize, Ordering};
use std::sync::mpsc::{self, Receiver, Sender};
use std::thread::{self, Builder};

use crate::args::{Action, Options};
use crate::file::Source;
use crate::object;
use crate::progress::Progress;
use crate::stop::{put, worse, Stop};
use crate::verdict::Verdict;
use crate::words;

/// More threads than this would wait for one disk.
const MOST_THREADS: usize = 64;
/// The judge of the deepest tree takes less than a tenth of it.
const STACK: usize = 2_097_152;

/// What is said about a file, or why nothing can be, and the exit status that it would have alone.
enum Told {
    Words(String, u8),
    Stopped(Stop),
}

/// Judges each file, tells the verdicts in order, and answers the worst status.
pub fn run(options: &Options) -> Result<u8, Stop> {
    let progress = Progress::start(&options.files);
    let next = AtomicUsize::new(0);
    let (send, told) = mpsc::channel();
    thread::scope(|scope| {
        let work = |send: Sender<(usize, Told)>| work(options, &next, &progress, &send);
        let threads = options.jobs.min(options.files.len()).min(MOST_THREADS);
        let spawn = |send| Builder::new().stack_size(STACK).spawn_scoped(scope, move || work(send)).is_ok();
        if (0..threads).filter(|_| spawn(send.clone())).count() == 0 {
            work(send.clone());
        }
        drop(send);
        let status = tell_in_order(&told, &progress);
        next.store(options.files.len(), Ordering::Relaxed);
        status
    })
}

/// Takes one file after another until none is left.
fn work(options: &Options, next: &AtomicUsize, progress: &Progress, send: &Sender<(usize, Told)>) {
    loop {
        let i = next.fetch_add(1, Ordering::Relaxed);
        let Some(path) = options.files.get(i) else {
            return;
        };
        let told = on_file(options, path, progress);
        progress.file_done();
        if send.send((i, told)).is_err() {
            return;
        }
    }
}

/// Tells what comes in, the first file first, and answers the worst status.
fn tell_in_order(told: &Receiver<(usize, Told)>, progress: &Progress) -> Result<u8, Stop> {
    let mut waiting = BTreeMap::new();
    let (mut turn, mut status) = (0, 0);
    for (i, told) in told {
        waiting.insert(i, told);
        while let Some(told) = waiting.remove(&turn) {
            progress.clear();
            let alone = match told {
                Told::Words(text, status) => put(text.as_bytes()).map(|()| status)?,
                Told::Stopped(stop) => stop.tell(),
            };
            status = worse(status, alone);
            turn += 1;
        }
    }
    Ok(status)
}

/// What is to be told about a file.
fn on_file(options: &Options, path: &Path, progress: &Progress) -> Told {
    let judged = Source::open(path).and_then(|source| {
        let verdict = Verdict::on(options, &source, &progress.share(source.length))?;
        Ok((source, verdict))
    });
    match judged {
        Ok((source, verdict)) => Told::Words(told(options, &source, &verdict), verdict.status()),
        Err(Stop::Unreadable { why, .. }) if options.json => {
            Told::Words(object::of_unreadable(options, path, &why), crate::stop::UNREADABLE)
        }
        Err(stop) => Told::Stopped(stop),
    }
}

/// The verdict in the form asked for.
fn told(options: &Options, source: &Source, verdict: &Verdict) -> String {
    match options.action {
        _ if options.quiet && verdict.is_plain() => String::new(),
        _ if options.json => object::of_verdict(verdict, options, source),
        Action::Stat => words::of_stat(verdict, options, source),
        _ if options.quiet || options.files.len() > 1 => words::of_many(verdict, options, &source.path),
        _ => words::of_judge(verdict, options, source),
    }
}
