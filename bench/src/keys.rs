//! Two builds of the library in turn, on stores full of keys that are nearly alike: arrival, the order and taking.

use std::ffi::{c_char, c_int, c_void, CString};
use std::hint::black_box;

use crate::measure::{both, both_made_ready, shown, Times};
use crate::shapes::{packet, plain, T};
use crate::store::{store, LARGEST};
use orlyukan::{Header, VARINT};

extern "C" {
    fn dlopen(name: *const c_char, flags: c_int) -> *mut c_void;
    fn dlsym(library: *mut c_void, name: *const c_char) -> *mut c_void;
}

/// All names are looked up when a library is opened.
const NOW: c_int = 2;

type Arrive = unsafe extern "C" fn(u64, u64, *mut u8, usize, *const u8, usize, *mut [u64; 4]);
type Order = unsafe extern "C" fn(u64, u64, *const u8, usize, *mut [u64; 2]);
type Take = unsafe extern "C" fn(u64, u64, *mut u8, usize, *mut u8, usize, *mut [u64; 4]);

/// A shared object of the library, opened beside the one that this program is linked with.
struct Library {
    arrive: Arrive,
    order: Order,
    take: Take,
}

impl Library {
    fn open(path: &str) -> Library {
        let name = CString::new(path).expect("a path has no zero octet");
        // SAFETY: the name ends with a zero octet.
        let library = unsafe { dlopen(name.as_ptr(), NOW) };
        assert!(!library.is_null(), "{path} can't be opened as a shared object");
        let find = |symbol: &std::ffi::CStr| {
            // SAFETY: the library is open, and is never closed.
            let found = unsafe { dlsym(library, symbol.as_ptr()) };
            assert!(!found.is_null(), "{path} lacks {symbol:?}");
            found
        };
        // SAFETY: both libraries have these calls as include/orlyukan.h declares them.
        unsafe {
            Library {
                arrive: std::mem::transmute::<*mut c_void, Arrive>(find(c"orl_arrive")),
                order: std::mem::transmute::<*mut c_void, Order>(find(c"orl_in_order")),
                take: std::mem::transmute::<*mut c_void, Take>(find(c"orl_take")),
            }
        }
    }

    fn arrive(&self, store: &mut [u8], packet: &[u8]) -> u64 {
        let mut answer = [0; 4];
        // SAFETY: each slice's pointer is valid for its length; the store and the answer are lent to the call alone.
        unsafe { (self.arrive)(T, VARINT, store.as_mut_ptr(), store.len(), packet.as_ptr(), packet.len(), &mut answer) };
        answer.iter().sum()
    }

    fn order(&self, store: &[u8]) -> u64 {
        let mut answer = [0; 2];
        // SAFETY: as above.
        unsafe { (self.order)(T, VARINT, store.as_ptr(), store.len(), &mut answer) };
        answer.iter().sum()
    }

    fn take(&self, store: &mut [u8], out: &mut [u8]) -> u64 {
        let mut answer = [0; 4];
        // SAFETY: as above.
        unsafe { (self.take)(T, VARINT, store.as_mut_ptr(), store.len(), out.as_mut_ptr(), out.len(), &mut answer) };
        answer.iter().sum()
    }
}

/// In what the keys of a store differ.
#[derive(Clone, Copy)]
enum Keys {
    /// In the transaction id: each cell has its own.
    Transaction,
    /// In their last octet: there are 255 of them, so each comes with several counters.
    Last,
    /// In nothing: the counters tell the segments apart.
    Equal,
}

/// The last octets of the keys that differ in nothing else; one more is for the message that is taken.
static LAST: [u8; 256] = {
    let mut all = [0; 256];
    let mut i = 0;
    while i < 256 {
        all[i] = i as u8;
        i += 1;
    }
    all
};

fn with_last(octet: usize) -> Header<'static> {
    Header { has_authentication: 1, authentication: &LAST[octet..=octet], ..plain(9) }
}

impl Keys {
    fn name(self) -> &'static str {
        match self {
            Keys::Transaction => "keys that differ in the transaction id",
            Keys::Last => "keys that differ in the last octet",
            Keys::Equal => "keys all equal",
        }
    }

    /// The key and the counter of segment k.
    fn segment(self, k: usize) -> (Header<'static>, u64) {
        match self {
            Keys::Transaction => (plain(k as u64), 0),
            Keys::Last => (with_last(k % 255), (k / 255) as u64),
            Keys::Equal => (plain(9), k as u64 + 2),
        }
    }

    /// The key of the message that is taken, with counters 0 and 1.
    fn message(self) -> Header<'static> {
        match self {
            Keys::Transaction => plain(1 << 40),
            Keys::Last => with_last(255),
            Keys::Equal => plain(9),
        }
    }

    /// So many continuations, none of which is a message's.
    fn continuations(self, count: usize) -> Vec<Vec<u8>> {
        let one = |k| {
            let (header, counter) = self.segment(k);
            packet(&header, 0, 0, counter, LARGEST)
        };
        (0..count).map(one).collect()
    }
}

struct Buffers {
    given: Vec<u8>,
    store: Vec<u8>,
    out: Vec<u8>,
}

fn line(call: &str, cells: usize, keys: Keys, times: Times) {
    let (after, before) = (shown(times.ours), shown(times.model));
    println!("| {call} | {cells} cells, {} | {before} | {after} | {:.2} |", keys.name(), times.ratio());
}

/// A full store: the segment of its last cell comes again, and the order is asked for. Then a message of two segments in the last cells
/// is taken.
fn lines(before: &Library, after: &Library, cells: usize, keys: Keys) {
    let held = keys.continuations(cells);
    let (mut old, mut new) = (store(cells, &held), store(cells, &held));
    let again = &held[cells - 1];
    let times = both(&mut || after.arrive(black_box(&mut new), again), &mut || before.arrive(black_box(&mut old), again));
    line("arrive", cells, keys, times);
    let times = both(&mut || after.order(black_box(&new)), &mut || before.order(black_box(&old)));
    line("in_order", cells, keys, times);

    let mut held = keys.continuations(cells - 2);
    held.push(packet(&keys.message(), 1, 0, 0, LARGEST));
    held.push(packet(&keys.message(), 2, 1, 1, LARGEST));
    let given = store(cells, &held);
    let mut buffers = Buffers { store: given.clone(), given, out: vec![0; 2 * LARGEST] };
    let ready = |b: &mut Buffers| b.store.copy_from_slice(&b.given);
    let times = both_made_ready(
        &mut buffers,
        ready,
        |b| after.take(&mut b.store, &mut b.out),
        |b| before.take(&mut b.store, &mut b.out),
    );
    line("take", cells, keys, times);
}

/// Times the shared object at `before` and the one at `after` in turn.
pub fn run(before: &str, after: &str) {
    let (before, after) = (Library::open(before), Library::open(after));
    println!("| call | input | before | after | before over after |");
    println!("|---|---|---|---|---|");
    for cells in [32, 256, 4096] {
        for keys in [Keys::Transaction, Keys::Last, Keys::Equal] {
            lines(&before, &after, cells, keys);
        }
    }
}
