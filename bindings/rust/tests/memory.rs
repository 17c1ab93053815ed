//! What stores leave behind that are gone: alone in its process, whose memory it looks at.
#![cfg(target_os = "linux")]
use extension_store::{Limits, Store, StoreValue};
use std::fs;
use std::sync::atomic::{AtomicUsize, Ordering::SeqCst};

const IDS: [&str; 3] = [
    "[engine:x]",
    "[engine:x]/[class:A]",
    "[engine:x]/[class:A]/[method:a()]",
];

static DROPPED: AtomicUsize = AtomicUsize::new(0);

struct Counted;

impl StoreValue for Counted {
    type Fault = ();

    fn closeable(&self) -> bool {
        true
    }
}

impl Drop for Counted {
    fn drop(&mut self) {
        DROPPED.fetch_add(1, SeqCst);
    }
}

fn open_and_drop(stores: usize) {
    for _ in 0..stores {
        let limits = Limits::default().with(|it| it.numbers = 100);
        let (_store, mut lanes, _closers) = Store::open(&IDS, limits).unwrap();
        let key = lanes[0].key(&[], "key").unwrap();
        lanes[1].compute(2, &key, || Ok(Counted)).unwrap();
        assert!(lanes[2].put(1, &key, Counted).is_ok());
    }
}

fn resident_kilobytes() -> usize {
    let status = fs::read_to_string("/proc/self/status").unwrap();
    let line = status.lines().find_map(|it| it.strip_prefix("VmRSS:"));
    line.unwrap()
        .trim()
        .trim_end_matches(" kB")
        .parse()
        .unwrap()
}

#[test]
fn ten_thousand_stores_leave_no_memory() {
    open_and_drop(100);
    let before = resident_kilobytes();
    open_and_drop(9_900);
    let after = resident_kilobytes();
    assert_eq!(DROPPED.load(SeqCst), 20_000);
    // of stores that are not freed it would be 70,000
    assert!(
        after < before + 1_000,
        "{before} kB before, and {after} after"
    );
}
