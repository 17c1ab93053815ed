//! What the calls of a lane cost through this crate.
//!
//! usage: calls CASE THREADS ROUNDS MILLIS
//!
//! For each round it prints a line 'rust CASE THREADS WALL PROCESSOR': nanoseconds of wall and of processor time that an operation took, as
//! `tool_bench` and the programs under bench/ do. The cases are those of CASES. Without words each case has one round of a second.
use extension_store::{Key, Lane, Limits, Store, StoreValue};
use std::hint::black_box;
use std::thread;
use std::time::{Duration, Instant};

struct Number(u32);

impl StoreValue for Number {
    type Fault = ();

    fn closeable(&self) -> bool {
        self.0 > 0
    }
}

type Operation = fn(&mut Lane<Number>, &Key, u32);

/// The word of each case, how many operations a batch has, and one of them. A value stands at the root, and all are made from the third context.
const CASES: [(&str, u32, Operation); 5] = [
    ("get-root-3-numbered", 200_000, |lane, key, _| {
        assert!(black_box(lane.get(2, key)).is_ok_and(|it| it.is_some()));
    }),
    ("get-root-3-shared", 200_000, |lane, key, _| {
        let found = lane.get(2, key).ok().flatten().map(|it| it.share());
        assert!(black_box(found).is_some());
    }),
    ("compute-hot", 200_000, |lane, key, at| {
        assert!(black_box(lane.compute(2, key, || Ok(Number(at)))).is_ok());
    }),
    ("put-over", 4_095, |lane, key, at| {
        assert!(lane.put(2, key, Number(at)).is_ok());
    }),
    ("put-remove", 4_095, |lane, key, at| {
        assert!(lane.put(2, key, Number(at)).is_ok());
        assert!(lane.remove(2, key).is_ok_and(|it| it.is_some()));
    }),
];

#[repr(C)]
struct Timespec {
    seconds: i64,
    nanoseconds: i64,
}

extern "C" {
    fn clock_gettime(clock: i32, time: *mut Timespec) -> i32;
}

/// The processor time of this thread, by the clock of Linux.
fn processor_time() -> Duration {
    const THREAD_CLOCK: i32 = 3;
    let mut time = Timespec {
        seconds: 0,
        nanoseconds: 0,
    };
    // SAFETY: the pointer is to a live value of the layout that the call writes.
    let status = unsafe { clock_gettime(THREAD_CLOCK, &mut time) };
    assert_eq!(status, 0);
    Duration::new(time.seconds as u64, time.nanoseconds as u32)
}

/// Wall and processor time of a thread's operations.
fn measured(mut lane: Lane<Number>, count: u32, operation: Operation) -> (Duration, Duration) {
    let key = lane.key(&[], "key").expect("a number");
    let (processor, wall) = (processor_time(), Instant::now());
    for at in 0..count {
        operation(&mut lane, &key, at);
    }
    (wall.elapsed(), processor_time() - processor)
}

/// A batch on a store of its own: the longest wall time, and all processor time.
fn batch(threads: usize, count: u32, operation: Operation) -> (Duration, Duration) {
    let ids = [
        "[engine:x]",
        "[engine:x]/[class:A]",
        "[engine:x]/[class:A]/[method:m()]",
    ];
    let limits = Limits::default().with(|it| it.lanes = threads);
    let (_store, mut lanes, _closers) = Store::open(&ids, limits).expect("a store");
    let key = lanes[0].key(&[], "key").expect("a number");
    lanes[0].put(0, &key, Number(1)).expect("a value");
    let spans: Vec<_> = thread::scope(|scope| {
        let spawn = |lane| scope.spawn(move || measured(lane, count, operation));
        let threads: Vec<_> = lanes.into_iter().map(spawn).collect();
        threads
            .into_iter()
            .map(|it| it.join().expect("no panic"))
            .collect()
    });
    let longest = spans.iter().map(|it| it.0).max();
    (
        longest.unwrap_or_default(),
        spans.iter().map(|it| it.1).sum(),
    )
}

fn round(case: &str, threads: usize, millis: u64) {
    let Some((_, count, operation)) = CASES.iter().find(|it| it.0 == case) else {
        eprintln!("calls: no such case: {case}");
        std::process::exit(2);
    };
    let (mut wall, mut processor, mut operations) = (Duration::ZERO, Duration::ZERO, 0);
    while wall < Duration::from_millis(millis) {
        let spent = batch(threads, *count, *operation);
        wall += spent.0;
        processor += spent.1;
        operations += u64::from(*count) * threads as u64;
    }
    let each = |time: Duration| time.as_nanos() as f64 / operations as f64;
    println!(
        "rust {case} {threads} {:.1} {:.1}",
        each(wall),
        each(processor)
    );
}

fn main() {
    let words: Vec<String> = std::env::args()
        .skip(1)
        .filter(|it| it != "--bench")
        .collect();
    match words.as_slice() {
        [] => CASES.iter().for_each(|it| round(it.0, 1, 1_000)),
        [case, threads, rounds, millis] => {
            match (threads.parse(), rounds.parse(), millis.parse()) {
                (Ok(threads), Ok(rounds), Ok(millis)) => {
                    (0..rounds).for_each(|_: u32| round(case, threads, millis))
                }
                _ => usage(),
            }
        }
        _ => usage(),
    }
}

fn usage() {
    eprintln!("usage: calls CASE THREADS ROUNDS MILLIS");
    std::process::exit(2);
}
