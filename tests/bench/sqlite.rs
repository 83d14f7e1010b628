//! SQLite for orientation: a database in memory, a transaction for each batch, a table whose primary key is the four words.

use std::ffi::{c_char, c_int, c_void, CString};
use std::ptr;

use crate::feed::Datom;

#[link(name = "sqlite3")]
extern "C" {
    fn sqlite3_open(path: *const c_char, db: *mut *mut c_void) -> c_int;
    fn sqlite3_close(db: *mut c_void) -> c_int;
    fn sqlite3_exec(db: *mut c_void, sql: *const c_char, each: *mut c_void, with: *mut c_void, error: *mut *mut c_char) -> c_int;
    fn sqlite3_prepare_v2(db: *mut c_void, sql: *const c_char, length: c_int, out: *mut *mut c_void, rest: *mut *const c_char) -> c_int;
    fn sqlite3_bind_int64(statement: *mut c_void, place: c_int, value: i64) -> c_int;
    fn sqlite3_step(statement: *mut c_void) -> c_int;
    fn sqlite3_reset(statement: *mut c_void) -> c_int;
    fn sqlite3_finalize(statement: *mut c_void) -> c_int;
    fn sqlite3_column_int64(statement: *mut c_void, place: c_int) -> i64;
}

const ROW: c_int = 100;
const DONE: c_int = 101;
const CONSTRAINT: c_int = 19;

pub struct Sqlite {
    db: *mut c_void,
    begin: *mut c_void,
    put: *mut c_void,
    commit: *mut c_void,
    rollback: *mut c_void,
    all: *mut c_void,
}

impl Sqlite {
    pub fn new() -> Sqlite {
        let mut db = ptr::null_mut();
        let text = |sql: &str| CString::new(sql).expect("text without zeros");
        unsafe {
            assert_eq!(sqlite3_open(text(":memory:").as_ptr(), &mut db), 0, "SQLite does not open");
            let table = text("create table datoms (e integer, a integer, v integer, t integer, primary key (e, a, v, t)) without rowid");
            assert_eq!(sqlite3_exec(db, table.as_ptr(), ptr::null_mut(), ptr::null_mut(), ptr::null_mut()), 0, "SQLite makes no table");
        }
        let prepare = |sql: &str| {
            let mut statement = ptr::null_mut();
            let answer = unsafe { sqlite3_prepare_v2(db, text(sql).as_ptr(), -1, &mut statement, ptr::null_mut()) };
            assert_eq!(answer, 0, "SQLite does not prepare {}", sql);
            statement
        };
        Sqlite {
            begin: prepare("begin"),
            put: prepare("insert into datoms values (?, ?, ?, ?)"),
            commit: prepare("commit"),
            rollback: prepare("rollback"),
            all: prepare("select e from datoms order by e, a, v, t"),
            db,
        }
    }

    fn run(&self, statement: *mut c_void) -> c_int {
        unsafe {
            let answer = sqlite3_step(statement);
            sqlite3_reset(statement);
            answer
        }
    }

    /// Whether the batch went in; it does not where a datom of it is there already.
    pub fn insert(&mut self, batch: &[Datom]) -> bool {
        assert_eq!(self.run(self.begin), DONE, "SQLite does not begin");
        for datom in batch {
            for (place, &word) in datom.iter().enumerate() {
                unsafe { sqlite3_bind_int64(self.put, place as c_int + 1, word as i64) };
            }
            match self.run(self.put) {
                CONSTRAINT => {
                    assert_eq!(self.run(self.rollback), DONE, "SQLite does not roll back");
                    return false;
                }
                answer => assert_eq!(answer, DONE, "SQLite refuses"),
            }
        }
        assert_eq!(self.run(self.commit), DONE, "SQLite does not commit");
        true
    }

    pub fn list(&self) -> (u64, u64) {
        let (mut listed, mut sum) = (0, 0u64);
        unsafe {
            while sqlite3_step(self.all) == ROW {
                listed += 1;
                sum = sum.wrapping_add(sqlite3_column_int64(self.all, 0) as u64);
            }
            sqlite3_reset(self.all);
        }
        (listed, sum)
    }
}

impl Drop for Sqlite {
    fn drop(&mut self) {
        for statement in [self.begin, self.put, self.commit, self.rollback, self.all] {
            unsafe { sqlite3_finalize(statement) };
        }
        unsafe { sqlite3_close(self.db) };
    }
}
