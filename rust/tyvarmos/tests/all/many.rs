//! Many files in one call.

use std::ffi::OsStr;

use crate::files::{run, run_on, Done, Temporary};
use crate::json;
use crate::small;
use crate::{example, EXAMPLE};

/// Files of each kind: sound, refused, with an older transaction, short, beyond, and one that is not there.
fn files(name: &str) -> Vec<(Temporary, &'static str)> {
    let with = |change: fn(&mut Vec<u8>)| {
        let mut bytes = small::image();
        change(&mut bytes);
        bytes
    };
    let file = |kind: &str, bytes: &[u8]| Temporary::file(&format!("{name}-{kind}"), bytes);
    vec![
        (file("a", &small::image()), "main tree sound, 1 bucket not judged"),
        (file("b", &with(|bytes| bytes[4 * 1_024] ^= 1)), "main tree refused: page 4: the header"),
        (
            file("c", &with(|bytes| bytes[1_024 + 72] ^= 1)),
            "main tree sound, 1 bucket not judged; an older transaction",
        ),
        (Temporary::nothing(&format!("{name}-d")), ""),
        (file("e", &example()), "main tree sound, 4 buckets not judged"),
        (file("f", &small::image()[..6_000]), "main tree refused: the bytes hold 6,000"),
    ]
}

fn judge(files: &[(Temporary, &str)], words: &[&str]) -> Done {
    let words = ["judge"].iter().chain(words).map(OsStr::new);
    let all: Vec<&OsStr> = words.chain(files.iter().map(|(file, _)| file.word())).collect();
    run(&all)
}

/// The line of each file that can be read.
fn check_lines(done: &Done, files: &[(Temporary, &str)]) {
    let lines: Vec<&str> = done.text().lines().collect();
    let wanted: Vec<_> = files.iter().filter(|(_, headline)| !headline.is_empty()).collect();
    assert_eq!(lines.len(), wanted.len(), "{lines:?}");
    for (line, (file, headline)) in lines.iter().zip(wanted) {
        assert!(line.starts_with(&format!("{}: {headline}", file.path.display())), "{line}");
    }
}

#[test]
fn each_file_has_a_line_in_the_order_given() {
    let files = files("lines");
    let one = judge(&files, &[]);
    check_lines(&one, &files);
    assert_eq!(one.status, 66);
    assert_eq!(one.err, format!("tyvarmos: {}: No such file or directory (os error 2)\n", files[3].0.path.display()));
    for jobs in ["1", "2", "3", "50"] {
        assert_eq!(judge(&files, &["--jobs", jobs]).text(), one.text());
    }
}

#[test]
fn each_file_has_an_object() {
    let files = files("objects");
    let done = judge(&files, &["--json", "-j", "2"]);
    assert_eq!((done.status, done.err.as_str()), (66, ""));
    let told = json::lines(done.text());
    let verdicts: Vec<&str> = told.iter().map(|object| object["verdict"].text()).collect();
    assert_eq!(verdicts, ["sound", "refused", "sound", "unreadable", "sound", "refused"]);
    for (object, (file, _)) in told.iter().zip(&files) {
        assert_eq!(object["file"].text(), file.path.to_str().unwrap());
    }
    assert_eq!(told[3]["sentence"].text(), "No such file or directory (os error 2)");
}

#[test]
fn the_worst_status_is_the_exit_status() {
    let files = files("worst");
    let status = |some: &[usize]| {
        let paths: Vec<&OsStr> = some.iter().map(|i| files[*i].0.word()).collect();
        run(&[[OsStr::new("judge")].as_slice(), &paths].concat()).status
    };
    assert_eq!([status(&[0, 4]), status(&[4, 1, 0]), status(&[2, 4])], [0, 2, 0]);
    assert_eq!([status(&[3, 0]), status(&[1, 3, 4]), status(&[5, 0])], [66, 66, 2]);
    let absent = judge(&files[4..5], &["--bucket", "nowhere", EXAMPLE]);
    assert_eq!(absent.status, 1);
    assert_eq!(absent.text().lines().count(), 2);
}

#[test]
fn quiet_leaves_out_what_is_plainly_sound() {
    let files = files("quiet");
    let quiet = judge(&files, &["--quiet"]);
    assert_eq!((quiet.status, quiet.text().lines().count()), (66, 3));
    assert!(!quiet.text().contains("-a: ") && !quiet.text().contains("-e: "));
    assert!(quiet.text().contains("-c: main tree sound, 1 bucket not judged; an older transaction is read"));
    let json = judge(&files, &["-q", "--json"]);
    assert_eq!(json::lines(json.text()).len(), 4);
    let sound = run(&["judge", EXAMPLE, "--quiet"]);
    assert_eq!((sound.status, sound.text(), sound.err.as_str()), (0, "", ""));
    let refused = run_on("judge", &files[1].0, &["--quiet"]);
    assert_eq!((refused.status, refused.text().lines().count()), (2, 1));
}

#[test]
fn many_files_with_many_threads_stay_in_order() {
    let bytes = [small::image(), small::image()[..5_000].to_vec(), vec![0; 10]];
    let files: Vec<(Temporary, &str)> =
        (0..300).map(|i| (Temporary::file(&format!("thread-{i}"), &bytes[i % 3]), "x")).collect();
    let done = judge(&files, &["--jobs", "8"]);
    assert_eq!(done.status, 2);
    for (line, (file, _)) in done.text().lines().zip(&files) {
        assert!(line.starts_with(&format!("{}: ", file.path.display())), "{line}");
    }
    assert_eq!(done.text().lines().count(), 300);
}
