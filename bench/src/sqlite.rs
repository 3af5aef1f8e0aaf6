//! SQLite on rules A and B: the same rows in a table in memory, indexed, the rule as nested NOT EXISTS.

use std::ffi::{c_char, c_int, c_void, CStr, CString};
use std::hint::black_box;
use std::ptr::{null, null_mut};

use gabzeril_tests::answer::Answer;
use gabzeril_tests::checker::{POOL, ROW_WORDS, RULE};
use gabzeril_tests::ffi;

use crate::clock::best_microseconds;
use crate::inputs::{devices, A, B};

/// "Some mode of the device is this value".
fn some_mode(device: &str, value: u32) -> String {
    format!(
        "EXISTS (SELECT 1 FROM row m WHERE m.device = {device}.device AND m.up = {device}.at \
         AND m.name = 2 AND m.value = {value})"
    )
}

fn rule_a() -> String {
    let (client, server) = (some_mode("x", 1), some_mode("x", 2));
    format!(
        "SELECT NOT EXISTS (SELECT 1 FROM row x WHERE x.up = 0 AND x.name = 1 AND NOT ({client} OR {server}))"
    )
}

fn rule_b() -> String {
    let both = format!("{} AND {}", some_mode("x", 2), some_mode("y", 2));
    format!(
        "SELECT NOT EXISTS (SELECT 1 FROM row x WHERE x.up = 0 AND x.name = 1 AND NOT (NOT EXISTS \
         (SELECT 1 FROM row y WHERE y.up = 0 AND y.name = 1 AND NOT (NOT ({both}) OR x.value = y.value))))"
    )
}

const TABLE: &str = "CREATE TABLE row (device INTEGER, at INTEGER, up INTEGER, deep INTEGER, name INTEGER, \
                     value INTEGER)";
const INDEXES: [&str; 2] = [
    "CREATE INDEX row_of_roots ON row (up, name, device, at, value)",
    "CREATE INDEX row_under_parent ON row (device, up, name, value)",
];
const INSERT: &str = "INSERT INTO row VALUES (?, ?, ?, ?, ?, ?)";

pub fn print() {
    println!("## SQLite\n");
    let Some(sqlite) = Sqlite::load() else {
        println!("Not installed (libsqlite3.so.0): not compared.");
        return;
    };
    println!("SQLite {}. Times in microseconds, best of several runs.\n", sqlite.version());
    println!("| rule | rows | verdict | SQLite, rows loaded | verdict / SQLite | check_files | SQLite with loading | check_files / SQLite |");
    println!("|-|-:|-:|-:|-:|-:|-:|-:|");
    for rows in [64, 256, 1_020, 1_024] {
        compare(&sqlite, "A true", &A, &rule_a(), rows, 1);
        compare(&sqlite, "B true", &B, &rule_b(), rows, 1);
        compare(&sqlite, "B false", &B, &rule_b(), rows, 2);
    }
}

fn compare(sqlite: &Sqlite, name: &str, rule: &[u32], query: &str, rows: u32, servers: u32) {
    let pool = devices(rows, servers);
    let files = (RULE.text_of(rule), POOL.text_of(&pool));
    let database = Database::of_pool(sqlite, &pool);
    let statement = database.prepare(query);
    assert_eq!(ffi::verdict(rule, &pool), Answer::Done(statement.verdict() as usize));
    let verdict = best_microseconds(|| {
        black_box(ffi::verdict(rule, &pool));
    });
    let loaded = best_microseconds(|| {
        black_box(statement.verdict());
    });
    let from_files = best_microseconds(|| {
        black_box(ffi::check_files(&files.0, &files.1));
    });
    let with_loading = best_microseconds(|| {
        black_box(Database::of_pool(sqlite, &pool).prepare(query).verdict());
    });
    println!(
        "| {name} | {rows} | {verdict:.2} | {loaded:.2} | {:.4} | {from_files:.2} | {with_loading:.2} | {:.4} |",
        verdict / loaded,
        from_files / with_loading
    );
}

extern "C" {
    fn dlopen(file: *const c_char, flags: c_int) -> *mut c_void;
    fn dlsym(library: *mut c_void, name: *const c_char) -> *mut c_void;
}

const RTLD_NOW: c_int = 2;
const ROW: c_int = 100;
const DONE: c_int = 101;

/// The functions of the shared library, found while running: it need not be there to build.
struct Sqlite {
    open: extern "C" fn(*const c_char, *mut *mut c_void) -> c_int,
    close: extern "C" fn(*mut c_void) -> c_int,
    prepare: extern "C" fn(*mut c_void, *const c_char, c_int, *mut *mut c_void, *mut *const c_char) -> c_int,
    step: extern "C" fn(*mut c_void) -> c_int,
    reset: extern "C" fn(*mut c_void) -> c_int,
    finalize: extern "C" fn(*mut c_void) -> c_int,
    bind: extern "C" fn(*mut c_void, c_int, i64) -> c_int,
    column: extern "C" fn(*mut c_void, c_int) -> c_int,
    version: extern "C" fn() -> *const c_char,
}

impl Sqlite {
    fn load() -> Option<Sqlite> {
        let library = unsafe { dlopen(c"libsqlite3.so.0".as_ptr(), RTLD_NOW) };
        if library.is_null() {
            return None;
        }
        // SAFETY: the types of the fields are those of sqlite3.h.
        unsafe {
            Some(Sqlite {
                open: find(library, c"sqlite3_open"),
                close: find(library, c"sqlite3_close"),
                prepare: find(library, c"sqlite3_prepare_v2"),
                step: find(library, c"sqlite3_step"),
                reset: find(library, c"sqlite3_reset"),
                finalize: find(library, c"sqlite3_finalize"),
                bind: find(library, c"sqlite3_bind_int64"),
                column: find(library, c"sqlite3_column_int"),
                version: find(library, c"sqlite3_libversion"),
            })
        }
    }

    fn version(&self) -> String {
        unsafe { CStr::from_ptr((self.version)()) }.to_string_lossy().into_owned()
    }
}

/// A function of the library.
///
/// # Safety
/// F is the type of that function.
unsafe fn find<F>(library: *mut c_void, name: &CStr) -> F {
    let function = dlsym(library, name.as_ptr());
    assert!(!function.is_null(), "{name:?} is in the library");
    std::mem::transmute_copy(&function)
}

struct Database<'a> {
    sqlite: &'a Sqlite,
    handle: *mut c_void,
}

impl<'a> Database<'a> {
    /// A database in memory with the rows of the pool and both indexes, and SQLite's own statistics.
    fn of_pool(sqlite: &'a Sqlite, pool: &[u32]) -> Database<'a> {
        let mut handle = null_mut();
        assert_eq!((sqlite.open)(c":memory:".as_ptr(), &mut handle), 0);
        let database = Database { sqlite, handle };
        database.execute(TABLE);
        database.execute("BEGIN");
        let insert = database.prepare(INSERT);
        for row in pool.chunks(ROW_WORDS) {
            insert.insert(row);
        }
        drop(insert);
        for index in INDEXES {
            database.execute(index);
        }
        database.execute("ANALYZE");
        database.execute("COMMIT");
        database
    }

    fn prepare(&self, text: &str) -> Statement<'_> {
        let text = CString::new(text).expect("no byte 0");
        let mut handle = null_mut();
        let mut rest = null();
        assert_eq!((self.sqlite.prepare)(self.handle, text.as_ptr(), -1, &mut handle, &mut rest), 0);
        Statement { sqlite: self.sqlite, handle }
    }

    fn execute(&self, text: &str) {
        let statement = self.prepare(text);
        while (self.sqlite.step)(statement.handle) == ROW {}
    }
}

impl Drop for Database<'_> {
    fn drop(&mut self) {
        assert_eq!((self.sqlite.close)(self.handle), 0);
    }
}

struct Statement<'a> {
    sqlite: &'a Sqlite,
    handle: *mut c_void,
}

impl Statement<'_> {
    fn insert(&self, row: &[u32]) {
        for (place, &word) in row.iter().enumerate() {
            assert_eq!((self.sqlite.bind)(self.handle, place as c_int + 1, word as i64), 0);
        }
        assert_eq!((self.sqlite.step)(self.handle), DONE);
        (self.sqlite.reset)(self.handle);
    }

    fn verdict(&self) -> u32 {
        assert_eq!((self.sqlite.step)(self.handle), ROW);
        let verdict = (self.sqlite.column)(self.handle, 0) as u32;
        (self.sqlite.reset)(self.handle);
        verdict
    }
}

impl Drop for Statement<'_> {
    fn drop(&mut self) {
        (self.sqlite.finalize)(self.handle);
    }
}
