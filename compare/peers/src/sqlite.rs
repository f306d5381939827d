//! SQLite: a file with one table of keys and values, and its `PRAGMA integrity_check`.

use std::ffi::{c_char, c_int, c_void, CStr};
use std::path::Path;
use std::ptr::{null, null_mut};

use crate::{c_path, Entry};

/// SQLITE_OPEN_READONLY, and SQLITE_OPEN_READWRITE with SQLITE_OPEN_CREATE.
const READ_ONLY: c_int = 1;
const NEW: c_int = 2 | 4;
/// SQLITE_OK, SQLITE_ROW and SQLITE_DONE.
const OK: c_int = 0;
const ROW: c_int = 100;
const DONE: c_int = 101;

/// The table, in pages of 4,096 bytes, and a transaction that no journal is kept of.
const CREATE: &CStr = c"
    PRAGMA page_size = 4096;
    PRAGMA journal_mode = OFF;
    PRAGMA synchronous = OFF;
    CREATE TABLE characters (key BLOB PRIMARY KEY, value BLOB) WITHOUT ROWID;
    BEGIN;";
const INSERT: &CStr = c"INSERT INTO characters VALUES (?, ?)";
const COMMIT: &CStr = c"COMMIT";
const CHECK: &CStr = c"PRAGMA integrity_check";

enum Db {}
enum Stmt {}

type Text = *const c_char;

#[rustfmt::skip]
#[link(name = "sqlite3")]
extern "C" {
    fn sqlite3_open_v2(path: Text, db: *mut *mut Db, flags: c_int, vfs: Text) -> c_int;
    fn sqlite3_close(db: *mut Db) -> c_int;
    fn sqlite3_exec(db: *mut Db, sql: Text, call: *const c_void, with: *mut c_void, error: *mut Text) -> c_int;
    fn sqlite3_prepare_v2(db: *mut Db, sql: Text, length: c_int, stmt: *mut *mut Stmt, rest: *mut Text) -> c_int;
    fn sqlite3_bind_blob(stmt: *mut Stmt, i: c_int, start: *const c_void, length: c_int, free: *const c_void) -> c_int;
    fn sqlite3_step(stmt: *mut Stmt) -> c_int;
    fn sqlite3_reset(stmt: *mut Stmt) -> c_int;
    fn sqlite3_column_text(stmt: *mut Stmt, i: c_int) -> Text;
    fn sqlite3_finalize(stmt: *mut Stmt) -> c_int;
}

/// An open file.
pub struct Sqlite {
    db: *mut Db,
}

impl Sqlite {
    /// A new file with these entries, put in their order, opened to be read only.
    pub fn filled(path: &Path, entries: &[Entry]) -> Sqlite {
        let new = Sqlite::open(path, NEW);
        new.run(CREATE);
        new.insert(entries);
        new.run(COMMIT);
        drop(new);
        Sqlite::open(path, READ_ONLY)
    }

    /// What `PRAGMA integrity_check` answers first.
    pub fn check(&self) -> String {
        let stmt = self.prepared(CHECK);
        unsafe {
            assert_eq!(sqlite3_step(stmt), ROW, "SQLite");
            let text = CStr::from_ptr(sqlite3_column_text(stmt, 0)).to_string_lossy().into_owned();
            done(sqlite3_finalize(stmt));
            text
        }
    }

    fn open(path: &Path, flags: c_int) -> Sqlite {
        let mut db = null_mut();
        done(unsafe { sqlite3_open_v2(c_path(path).as_ptr(), &mut db, flags, null()) });
        Sqlite { db }
    }

    fn run(&self, sql: &CStr) {
        done(unsafe { sqlite3_exec(self.db, sql.as_ptr(), null(), null_mut(), null_mut()) });
    }

    fn prepared(&self, sql: &CStr) -> *mut Stmt {
        let mut stmt = null_mut();
        done(unsafe { sqlite3_prepare_v2(self.db, sql.as_ptr(), -1, &mut stmt, null_mut()) });
        stmt
    }

    fn insert(&self, entries: &[Entry]) {
        let stmt = self.prepared(INSERT);
        for (key, value) in entries {
            bind(stmt, 1, key);
            bind(stmt, 2, value);
            assert_eq!(unsafe { sqlite3_step(stmt) }, DONE, "SQLite");
            done(unsafe { sqlite3_reset(stmt) });
        }
        done(unsafe { sqlite3_finalize(stmt) });
    }
}

impl Drop for Sqlite {
    fn drop(&mut self) {
        unsafe { sqlite3_close(self.db) };
    }
}

/// Gives a statement its value `i`, which must last until its next step.
fn bind(stmt: *mut Stmt, i: c_int, bytes: &[u8]) {
    done(unsafe { sqlite3_bind_blob(stmt, i, bytes.as_ptr().cast(), bytes.len() as c_int, null()) });
}

fn done(number: c_int) {
    assert_eq!(number, OK, "SQLite");
}
