//! What the Rust peers have in common: the cases of `tool_bench`, measured in the same way on a store of the peer's.
//!
//! A peer takes the words `CASE THREADS ROUNDS MILLIS` and prints a line `PEER CASE THREADS WALL PROCESSOR OPERATIONS` for each round, the
//! times in nanoseconds an operation. Case by case it does what `tool_bench` does, in batches of the same size, each on a store of its own.
#[path = "timing.rs"]
mod timing;

use std::hint::black_box;
use std::process::ExitCode;
use std::thread;
use std::time::Duration;
use timing::{measured, Span, Spent, Whose};

/// What a key is made from: a namespace of texts and a name, as in the store of the repository.
#[derive(Clone, Debug, PartialEq, Eq, Hash)]
pub struct Key {
    pub created: bool,
    pub parts: Vec<String>,
    pub name: String,
}

/// A value: a number, and whether it is to be closed.
#[derive(Clone, Copy, Debug)]
pub struct Payload {
    pub number: u32,
    pub closeable: bool,
}

/// Where a look-up found a value, and the value's number in the order of addition.
#[derive(Clone, Copy, Debug)]
pub struct Found {
    pub at: usize,
    pub number: u32,
}

/// A store of contexts, each below an earlier one; context 0 is the root. Calls are of contexts, and of numbers of keys, that it has.
pub trait Peer: Sync + Sized {
    const NAME: &'static str;

    /// The keys that calls are given.
    type Key: From<Key> + Sync;

    /// A store of contexts with these parents (the root is its own) and of these keys, for so many values.
    fn open(parents: &[usize], keys: &[Self::Key], values: u32) -> Self;

    /// What stands nearest under the key, in the context or above it.
    fn get(&self, context: usize, key: &Self::Key) -> Option<Found>;

    /// The number of a key, for `get_numbered`.
    fn number(&self, _key: &Self::Key) -> usize {
        0
    }

    /// As `get`, by the key's number in a peer that has numbers.
    fn get_numbered(&self, context: usize, _number: usize, key: &Self::Key) -> Option<Found> {
        self.get(context, key)
    }

    /// Puts a value over what stands under the key in the context. Says whether it was done.
    fn put(&self, context: usize, key: &Self::Key, value: Payload) -> bool;

    /// Takes out what stands under the key in the context. Says whether anything did.
    fn remove(&self, context: usize, key: &Self::Key) -> bool;

    /// Makes a value where none stands in the context or above it. Says whether it was made or found.
    fn compute(&self, context: usize, key: &Self::Key, make: impl FnOnce() -> Payload) -> bool;

    /// Ends the context, and calls the action with its closeable values, the latest first.
    fn close(&self, context: usize, action: impl FnMut(u32, Payload));
}

const LOOKS: u32 = 200_000;
const PUTS: u32 = 4_095;
const KEYS: u32 = 16;

/// For how many values a store of so many contexts is opened.
fn values_for(contexts: usize) -> u32 {
    if contexts > 256 {
        1_048_575
    } else {
        65_535
    }
}

fn key<P: Peer>(number: u32) -> P::Key {
    P::Key::from(Key {
        created: false,
        parts: Vec::new(),
        name: format!("key{number}"),
    })
}

fn keys<P: Peer>(count: u32) -> Vec<P::Key> {
    (0..count).map(key::<P>).collect()
}

fn chain(contexts: usize) -> Vec<usize> {
    (0..contexts).map(|it| it.saturating_sub(1)).collect()
}

fn resource(number: u32) -> Payload {
    Payload {
        number,
        closeable: true,
    }
}

// ---- operations

fn look_up<P: Peer>(store: &P, context: usize, key: &P::Key, there: bool) -> u64 {
    let mut right = true;
    for _ in 0..LOOKS {
        right &= match black_box(store.get(context, key)) {
            Some(found) => there && found.at <= context && found.number > 0,
            None => !there,
        };
    }
    assert!(right);
    u64::from(LOOKS)
}

fn look_up_numbered<P: Peer>(store: &P, context: usize, key: &P::Key) -> u64 {
    let number = store.number(key);
    let mut right = true;
    for _ in 0..LOOKS {
        right &= store.get_numbered(context, number, key).is_some();
    }
    assert!(right);
    u64::from(LOOKS)
}

/// Looks up from each context in turn.
fn look_up_in_turn<P: Peer>(store: &P, last: usize, key: &P::Key) -> u64 {
    let number = store.number(key);
    let (mut right, mut context) = (true, last);
    for _ in 0..10 * LOOKS {
        right &= store.get_numbered(context, number, key).is_some();
        context = if context == 0 { last } else { context - 1 };
    }
    assert!(right);
    u64::from(10 * LOOKS)
}

fn put_over<P: Peer>(store: &P, context: usize, key: &P::Key, times: u32) -> u64 {
    for value in 0..times {
        assert!(store.put(context, key, resource(value)));
    }
    u64::from(times)
}

fn put_and_remove<P: Peer>(store: &P, context: usize, key: &P::Key, times: u32) -> u64 {
    for value in 0..times {
        assert!(store.put(context, key, resource(value)));
        assert!(store.remove(context, key));
    }
    u64::from(times)
}

fn compute_often<P: Peer>(store: &P, context: usize, key: &P::Key) -> u64 {
    for value in 0..LOOKS {
        assert!(store.compute(context, key, || resource(value)));
    }
    u64::from(LOOKS)
}

fn opening<P: Peer>(contexts: usize) -> Span {
    let (parents, keys) = (vec![0; contexts], keys::<P>(KEYS));
    let mut store = None;
    let span = measured(Whose::Thread, || {
        store = Some(P::open(&parents, &keys, values_for(contexts)));
        1
    });
    black_box(&store);
    span
}

fn computing<P: Peer>() -> Span {
    let names = keys::<P>(KEYS);
    let store = P::open(&vec![0; 256], &names, values_for(256));
    let mut closed = 0;
    measured(Whose::Thread, || {
        for context in (1..256).rev() {
            for name in &names {
                assert!(store.compute(context, name, || resource(1)));
            }
            store.close(context, |number, value| {
                closed += u64::from(number > 0 && value.number > 0);
            });
        }
        assert_eq!(closed, 255 * u64::from(KEYS));
        closed
    })
}

/// A thread's operations; none is counted of the thread that writes beside the others.
fn work<P: Peer>(store: &P, case: &str, writes: bool, deepest: usize) -> Option<Span> {
    let (one, other) = (key::<P>(0), key::<P>(1));
    let span = measured(Whose::Thread, || match case {
        "get-root-3-beside-other" if writes => put_over(store, 0, &other, 60_000),
        "get-root-3-beside-same" if writes => put_over(store, 0, &one, 60_000),
        "get-root-3-numbered" => look_up_numbered(store, deepest, &one),
        "get-absent-3" => look_up(store, deepest, &one, false),
        "get-root-numbered-256" | "get-root-numbered-65536" => {
            look_up_in_turn(store, deepest, &one)
        }
        "put-over" => put_over(store, deepest, &one, PUTS),
        "put-remove" => put_and_remove(store, deepest, &one, PUTS),
        "compute-hot" => compute_often(store, deepest, &one),
        _ => look_up(store, deepest, &one, true),
    });
    (!writes).then_some(span)
}

fn batch<P: Peer>(case: &str, threads: usize) -> Vec<Span> {
    let parents = match case {
        "get-root-16" => chain(16),
        "get-root-numbered-256" => vec![0; 256],
        "get-root-numbered-65536" => vec![0; 65_536],
        _ => chain(3),
    };
    let deepest = parents.len() - 1;
    let store = P::open(&parents, &keys::<P>(2), values_for(parents.len()));
    match case {
        "get-absent-3" => {}
        "get-own-3" | "put-over" => assert!(store.put(deepest, &key::<P>(0), resource(1))),
        "get-root-numbered-256" | "get-root-numbered-65536" => {
            assert!(store.put(0, &key::<P>(0), resource(1)));
            let other = key::<P>(1);
            assert!((0..parents.len()).all(|it| store.put(it, &other, resource(1))));
        }
        _ => assert!(store.put(0, &key::<P>(0), resource(1))),
    }
    let beside = case.contains("-beside-");
    let store = &store;
    thread::scope(|scope| {
        let spawn = |it| scope.spawn(move || work(store, case, beside && it == threads, deepest));
        let handles: Vec<_> = (0..threads + usize::from(beside)).map(spawn).collect();
        let joined = handles.into_iter().map(|it| it.join().unwrap());
        joined.flatten().collect()
    })
}

fn round<P: Peer>(case: &str, threads: usize, limit: Duration) -> Spent {
    let mut spent = Spent::default();
    while spent.wall < limit {
        match case {
            "open-256x16" => spent.add(&[opening::<P>(256)]),
            "open-65536x16" => spent.add(&[opening::<P>(65_536)]),
            "compute-fresh-and-close" => spent.add(&[computing::<P>()]),
            _ => spent.add(&batch::<P>(case, threads)),
        }
    }
    spent
}

/// The peer as a program.
pub fn run<P: Peer>() -> ExitCode {
    let words: Vec<String> = std::env::args().skip(1).collect();
    let [case, threads, rounds, millis] = words.as_slice() else {
        eprintln!("usage: {} CASE THREADS ROUNDS MILLIS", P::NAME);
        return ExitCode::from(2);
    };
    let threads: usize = threads.parse().unwrap();
    let limit = Duration::from_millis(millis.parse().unwrap());
    for _ in 0..rounds.parse().unwrap() {
        let spent = round::<P>(case, threads, limit);
        let (wall, processor) = (spent.each(spent.wall), spent.each(spent.processor));
        let (name, operations) = (P::NAME, spent.operations);
        println!("{name} {case} {threads} {wall:.1} {processor:.1} {operations}");
    }
    ExitCode::SUCCESS
}
