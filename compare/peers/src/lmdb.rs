//! LMDB: a map with one database, read in one transaction.

use std::ffi::{c_char, c_int, c_uint, c_void};
use std::path::Path;
use std::ptr::{null, null_mut};

use crate::{c_path, Entry};

/// MDB_NOSUBDIR, MDB_NOSYNC and MDB_NOLOCK: one file, not synced, no other process.
const ALONE: c_uint = 0x4000 | 0x1_0000 | 0x40_0000;
/// MDB_RDONLY.
const READ_ONLY: c_uint = 0x2_0000;
/// MDB_NOTFOUND.
const NOT_FOUND: c_int = -30_798;
/// The most bytes that the map may have.
const MAP_SIZE: usize = 1 << 30;

enum Env {}
enum Txn {}

/// MDB_val.
#[repr(C)]
struct Part {
    length: usize,
    start: *const c_void,
}

#[link(name = "lmdb")]
extern "C" {
    fn mdb_env_create(env: *mut *mut Env) -> c_int;
    fn mdb_env_set_mapsize(env: *mut Env, size: usize) -> c_int;
    fn mdb_env_open(env: *mut Env, path: *const c_char, flags: c_uint, mode: c_uint) -> c_int;
    fn mdb_env_close(env: *mut Env);
    fn mdb_txn_begin(env: *mut Env, parent: *mut Txn, flags: c_uint, txn: *mut *mut Txn) -> c_int;
    fn mdb_txn_commit(txn: *mut Txn) -> c_int;
    fn mdb_txn_abort(txn: *mut Txn);
    fn mdb_dbi_open(txn: *mut Txn, name: *const c_char, flags: c_uint, dbi: *mut c_uint) -> c_int;
    fn mdb_put(txn: *mut Txn, dbi: c_uint, key: *mut Part, value: *mut Part, flags: c_uint) -> c_int;
    fn mdb_get(txn: *mut Txn, dbi: c_uint, key: *mut Part, value: *mut Part) -> c_int;
}

/// A map in a file, and the transaction that reads it.
pub struct Lmdb {
    env: *mut Env,
    txn: *mut Txn,
    dbi: c_uint,
}

impl Lmdb {
    /// A new map in this file with these entries, put in their order.
    pub fn filled(path: &Path, entries: &[Entry]) -> Lmdb {
        let (mut env, mut dbi) = (null_mut(), 0);
        unsafe {
            done(mdb_env_create(&mut env));
            done(mdb_env_set_mapsize(env, MAP_SIZE));
            done(mdb_env_open(env, c_path(path).as_ptr(), ALONE, 0o600));
            let txn = begun(env, 0);
            done(mdb_dbi_open(txn, null(), 0, &mut dbi));
            for (key, value) in entries {
                done(mdb_put(txn, dbi, &mut part(key), &mut part(value), 0));
            }
            done(mdb_txn_commit(txn));
        }
        Lmdb { env, txn: begun(env, READ_ONLY), dbi }
    }

    /// The value of a key, by `mdb_get`.
    pub fn get(&self, key: &[u8]) -> Option<&[u8]> {
        let mut value = part(&[]);
        let number = unsafe { mdb_get(self.txn, self.dbi, &mut part(key), &mut value) };
        if number == NOT_FOUND {
            return None;
        }
        done(number);
        Some(unsafe { std::slice::from_raw_parts(value.start.cast(), value.length) })
    }
}

impl Drop for Lmdb {
    fn drop(&mut self) {
        unsafe {
            mdb_txn_abort(self.txn);
            mdb_env_close(self.env);
        }
    }
}

/// A transaction that is open.
fn begun(env: *mut Env, flags: c_uint) -> *mut Txn {
    let mut txn = null_mut();
    done(unsafe { mdb_txn_begin(env, null_mut(), flags, &mut txn) });
    txn
}

fn part(bytes: &[u8]) -> Part {
    Part { length: bytes.len(), start: bytes.as_ptr().cast() }
}

fn done(number: c_int) {
    assert_eq!(number, 0, "LMDB");
}
