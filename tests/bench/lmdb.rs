//! LMDB for orientation: a database in memory, a transaction for each batch, a datom as a key whose bytes sort as datoms do.

use std::ffi::{c_char, c_int, c_uint, c_void, CString};
use std::{fs, process, ptr};

use crate::feed::Datom;

#[repr(C)]
struct Val {
    size: usize,
    data: *const c_void,
}

#[link(name = "lmdb")]
extern "C" {
    fn mdb_env_create(env: *mut *mut c_void) -> c_int;
    fn mdb_env_set_mapsize(env: *mut c_void, size: usize) -> c_int;
    fn mdb_env_open(env: *mut c_void, path: *const c_char, flags: c_uint, mode: c_uint) -> c_int;
    fn mdb_env_close(env: *mut c_void);
    fn mdb_txn_begin(env: *mut c_void, parent: *mut c_void, flags: c_uint, txn: *mut *mut c_void) -> c_int;
    fn mdb_txn_commit(txn: *mut c_void) -> c_int;
    fn mdb_txn_abort(txn: *mut c_void);
    fn mdb_dbi_open(txn: *mut c_void, name: *const c_char, flags: c_uint, dbi: *mut c_uint) -> c_int;
    fn mdb_put(txn: *mut c_void, dbi: c_uint, key: *mut Val, data: *mut Val, flags: c_uint) -> c_int;
    fn mdb_cursor_open(txn: *mut c_void, dbi: c_uint, cursor: *mut *mut c_void) -> c_int;
    fn mdb_cursor_get(cursor: *mut c_void, key: *mut Val, data: *mut Val, operation: c_int) -> c_int;
    fn mdb_cursor_close(cursor: *mut c_void);
}

const NO_SYNC: c_uint = 0x10000;
const WRITE_MAP: c_uint = 0x80000;
const READ_ONLY: c_uint = 0x20000;
const NO_OVERWRITE: c_uint = 0x10;
const KEY_EXISTS: c_int = -30799;
const NEXT: c_int = 8;

pub struct Lmdb {
    env: *mut c_void,
    dbi: c_uint,
    place: String,
}

impl Lmdb {
    pub fn new() -> Lmdb {
        let place = format!("/dev/shm/florinwick-bench-{}", process::id());
        fs::create_dir(&place).expect("a directory in memory");
        let path = CString::new(place.clone()).expect("a path without zeros");
        let (mut env, mut txn, mut dbi) = (ptr::null_mut(), ptr::null_mut(), 0);
        unsafe {
            fine(mdb_env_create(&mut env));
            fine(mdb_env_set_mapsize(env, 4 << 30));
            fine(mdb_env_open(env, path.as_ptr(), NO_SYNC | WRITE_MAP, 0o600));
            fine(mdb_txn_begin(env, ptr::null_mut(), 0, &mut txn));
            fine(mdb_dbi_open(txn, ptr::null(), 0, &mut dbi));
            fine(mdb_txn_commit(txn));
        }
        Lmdb { env, dbi, place }
    }

    /// Whether the batch went in; it does not where a datom of it is there already.
    pub fn insert(&mut self, batch: &[Datom]) -> bool {
        let mut txn = ptr::null_mut();
        unsafe {
            fine(mdb_txn_begin(self.env, ptr::null_mut(), 0, &mut txn));
            for datom in batch {
                let key: Vec<u8> = datom.iter().flat_map(|word| word.to_be_bytes()).collect();
                let mut key = Val { size: 32, data: key.as_ptr() as *const c_void };
                let mut data = Val { size: 0, data: ptr::null() };
                match mdb_put(txn, self.dbi, &mut key, &mut data, NO_OVERWRITE) {
                    KEY_EXISTS => {
                        mdb_txn_abort(txn);
                        return false;
                    }
                    answer => fine(answer),
                }
            }
            fine(mdb_txn_commit(txn));
        }
        true
    }

    pub fn list(&self) -> (u64, u64) {
        let (mut txn, mut cursor) = (ptr::null_mut(), ptr::null_mut());
        let (mut key, mut data) = (Val { size: 0, data: ptr::null() }, Val { size: 0, data: ptr::null() });
        let (mut listed, mut sum) = (0, 0u64);
        unsafe {
            fine(mdb_txn_begin(self.env, ptr::null_mut(), READ_ONLY, &mut txn));
            fine(mdb_cursor_open(txn, self.dbi, &mut cursor));
            while mdb_cursor_get(cursor, &mut key, &mut data, NEXT) == 0 {
                listed += 1;
                sum = sum.wrapping_add(u64::from_be(ptr::read_unaligned(key.data as *const u64)));
            }
            mdb_cursor_close(cursor);
            mdb_txn_abort(txn);
        }
        (listed, sum)
    }
}

impl Drop for Lmdb {
    fn drop(&mut self) {
        unsafe { mdb_env_close(self.env) };
        fs::remove_dir_all(&self.place).expect("the directory in memory");
    }
}

fn fine(answer: c_int) {
    assert_eq!(answer, 0, "LMDB refuses");
}
