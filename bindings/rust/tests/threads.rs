//! The calls from several threads.
use extension_store::{
    Closer, ComputeError, GetError, Key, Lane, Limits, Refusal, Store, StoreValue,
};
use std::sync::atomic::{AtomicUsize, Ordering::SeqCst};
use std::sync::mpsc::{channel, Receiver, Sender};
use std::sync::{Barrier, Mutex};
use std::thread;
use std::time::Duration;

struct Number(u32);

impl StoreValue for Number {
    type Fault = u32;

    fn closeable(&self) -> bool {
        self.0 % 2 == 0
    }
}

const METHODS: usize = 60;

fn ids() -> Vec<String> {
    let mut ids = vec!["[engine:x]".to_string(), "[engine:x]/[class:A]".to_string()];
    ids.extend((0..METHODS).map(|it| format!("[engine:x]/[class:A]/[method:m{it}()]")));
    ids
}

fn open(
    lanes: usize,
    keep_faults: bool,
) -> (Store<Number>, Vec<Lane<Number>>, Vec<Closer<Number>>) {
    let limits = Limits::default().with(|it| {
        it.lanes = lanes;
        it.keep_faults = keep_faults;
    });
    Store::open(&ids(), limits).unwrap()
}

/// Runs the body on a thread for each lane, all at once, and gives the lanes back.
fn together(
    lanes: Vec<Lane<Number>>,
    body: impl Fn(usize, &mut Lane<Number>) + Sync,
) -> Vec<Lane<Number>> {
    let (gate, body) = (Barrier::new(lanes.len()), &body);
    let gate = &gate;
    thread::scope(|scope| {
        let run = |(at, mut lane): (usize, Lane<Number>)| {
            scope.spawn(move || {
                gate.wait();
                body(at, &mut lane);
                lane
            })
        };
        let threads: Vec<_> = lanes.into_iter().enumerate().map(run).collect();
        threads.into_iter().map(|it| it.join().unwrap()).collect()
    })
}

fn one_factory_for_all(threads: usize) {
    let (_store, lanes, closers) = open(threads, false);
    let made = AtomicUsize::new(0);
    let lanes = together(lanes, |_, lane| {
        let key = lane.key(&["shared"], "thing").unwrap();
        for method in 0..METHODS {
            let make = || {
                made.fetch_add(1, SeqCst);
                thread::yield_now();
                Ok(Number(2 * method as u32))
            };
            let found = lane.compute(2 + method, &key, make).unwrap();
            assert_eq!((found.0, found.context()), (2 * method as u32, 2 + method));
        }
    });
    assert_eq!(made.load(SeqCst), METHODS);
    let closed: usize = closers
        .into_iter()
        .rev()
        .map(|it| it.close(|_| ()).len())
        .sum();
    assert_eq!(closed, METHODS);
    drop(lanes);
}

#[test]
fn one_factory_for_4_threads() {
    one_factory_for_all(4);
}

#[test]
fn one_factory_for_15_threads() {
    one_factory_for_all(15);
}

#[test]
fn each_value_is_replaced_once() {
    let (_store, lanes, _closers) = open(4, false);
    let replaced = Mutex::new(Vec::new());
    together(lanes, |at, lane| {
        let key = lane.key(&[], "over").unwrap();
        for round in 0..2_000 {
            let stood = lane.put(1, &key, Number(round * 4 + at as u32)).unwrap();
            if let Some(found) = stood.and_then(|it| it.value()) {
                replaced.lock().unwrap().push(found.number());
            }
        }
    });
    let mut replaced = replaced.into_inner().unwrap();
    assert_eq!(replaced.len(), 4 * 2_000 - 1);
    replaced.sort_unstable();
    replaced.dedup();
    assert_eq!(replaced.len(), 4 * 2_000 - 1);
}

/// Each lane computes for a key of its own, and all draw numbers, in a store with one try.
#[test]
fn what_a_factory_answers_is_kept_beside_others() {
    let limits = Limits::default().with(|it| {
        it.lanes = 15;
        it.tries = 1;
        it.keep_faults = true;
    });
    let (_store, lanes, _closers) = Store::open(&ids(), limits).unwrap();
    together(lanes, |at, lane| {
        let key = lane.key(&[], &at.to_string()).unwrap();
        for round in 0..2_000 {
            let factory = || match round % 2 {
                0 => Ok(Number(round)),
                _ => Err(round),
            };
            match lane.compute(1, &key, factory) {
                Ok(found) => assert_eq!(found.0, round),
                Err(ComputeError::FaultKept(kept)) => assert_eq!(**kept.fault(), round),
                Err(refused) => panic!("{refused}"),
            }
            lane.remove(1, &key).unwrap();
        }
    });
}

/// Contexts that come during the run are named before it, and a counter gives them out: each once, and its close gives its value alone. Each is
/// opened below the root, and by another path below the template.
#[test]
fn contexts_given_out_by_a_counter() {
    contexts_given_out(2);
    contexts_given_out(16);
}

fn contexts_given_out(threads: usize) {
    const ROUNDS: usize = 1_000;
    let template = "[engine:x]/[test-template:t]";
    let mut ids = vec!["[engine:x]".to_string(), template.to_string()];
    ids.extend((1..=ROUNDS).map(|it| format!("{template}/[test-template-invocation:#{it}]")));
    let limits = Limits::default().with(|it| {
        it.lanes = threads;
        it.keys = 32;
        it.large = true;
    });
    let (_store, mut lanes, closers) = Store::open(&ids, limits).unwrap();
    let shared = lanes[0].key(&[], "shared").unwrap();
    assert!(lanes[0].put(1, &shared, Number(1)).unwrap().is_none());
    let closers: Vec<_> = closers.into_iter().map(|it| Mutex::new(Some(it))).collect();
    let (next, closed) = (AtomicUsize::new(2), Mutex::new(Vec::new()));
    together(lanes, |_, lane| loop {
        let context = next.fetch_add(1, SeqCst);
        let Some(closer) = closers.get(context) else {
            return;
        };
        let closer = closer
            .lock()
            .unwrap()
            .take()
            .expect("a context is given once");
        let (key, own) = (lane.key(&[], "own").unwrap(), 2 * context as u32); // an even number is closeable
        assert!(lane.get(context, &key).unwrap().is_none());
        let (below, past) = ([context, 1, 0], [context, 0]);
        assert_eq!(
            lane.get_along(&below, &shared).unwrap().map(|it| it.0),
            Some(1)
        );
        assert!(lane.get_along(&past, &shared).unwrap().is_none());
        let made = lane.compute_along(&past, &key, || Ok(Number(own)));
        assert_eq!(made.unwrap().0, own);
        assert_eq!(lane.get(context, &key).unwrap().map(|it| it.0), Some(own));
        let gone = closer.close(|it| it.0);
        assert_eq!(gone, [own]);
        closed.lock().unwrap().extend(gone);
    });
    let mut closed = closed.into_inner().unwrap();
    closed.sort_unstable();
    assert!(closed
        .into_iter()
        .eq((2..ROUNDS as u32 + 2).map(|it| 2 * it)));
}

/// A factory that runs on a thread of its own until it is told what to answer, which is sent, or to panic, where the sender is dropped.
struct Running {
    answer: Sender<Result<u32, u32>>,
    ended: thread::JoinHandle<bool>,
}

fn run_factory(mut lane: Lane<Number>, context: usize, key: Key) -> Running {
    let (answer, told): (_, Receiver<Result<u32, u32>>) = channel();
    let (begun, has_begun) = channel();
    let ended = thread::spawn(move || {
        let factory = || {
            begun.send(()).unwrap();
            told.recv()
                .expect("as wanted, a factory that panics")
                .map(Number)
        };
        lane.compute(context, &key, factory).is_ok()
    });
    has_begun.recv().unwrap();
    Running { answer, ended }
}

/// Runs the call while a factory runs, and ends the factory when the call has had time to fall asleep.
fn beside<T: Send>(
    running: Running,
    answer: Option<Result<u32, u32>>,
    call: impl FnOnce() -> T + Send,
) -> T {
    thread::scope(|scope| {
        let waiting = scope.spawn(call);
        thread::sleep(Duration::from_millis(30));
        assert!(!waiting.is_finished(), "it does not wait");
        if let Some(answer) = answer {
            running.answer.send(answer).unwrap();
        }
        drop(running.answer);
        let _ = running.ended.join();
        waiting.join().unwrap()
    })
}

#[test]
fn waits_for_a_factory() {
    for answer in [Some(Ok(8)), Some(Err(9)), None] {
        let (_store, mut lanes, _closers) = open(4, false);
        let key = lanes[0].key(&[], "thing").unwrap();
        let mut other = lanes.pop().unwrap();
        let running = run_factory(lanes.remove(0), 1, key);
        let found = beside(running, answer, || {
            other.get(2, &key).unwrap().map(|it| it.0)
        });
        assert_eq!(found, answer.and_then(Result::ok));

        let running = run_factory(lanes.remove(0), 0, other.key(&[], "computed").unwrap());
        let key = other.key(&[], "computed").unwrap();
        let made = beside(running, answer, || {
            other.compute(2, &key, || Ok(Number(7))).unwrap().0
        });
        assert_eq!(made, if answer == Some(Ok(8)) { 8 } else { 7 });
    }
}

#[test]
fn put_and_remove_wait_for_a_factory() {
    let (_store, mut lanes, _closers) = open(3, false);
    let key = lanes[0].key(&[], "thing").unwrap();
    let mut other = lanes.pop().unwrap();
    let running = run_factory(lanes.pop().unwrap(), 1, key);
    let stood = beside(running, Some(Ok(8)), || {
        other
            .put(1, &key, Number(10))
            .unwrap()
            .and_then(|it| it.value())
            .map(|it| it.0)
    });
    assert_eq!(stood, Some(8));
    // A put that waits draws its number when the factory has ended, and no other.
    assert_eq!(other.get(1, &key).unwrap().unwrap().number(), 2);
    other.remove(1, &key).unwrap();
    let running = run_factory(lanes.pop().unwrap(), 1, key);
    let taken = beside(running, Some(Ok(12)), || {
        other
            .remove(1, &key)
            .unwrap()
            .and_then(|it| it.value())
            .map(|it| it.0)
    });
    assert_eq!(taken, Some(12));
}

#[test]
fn a_put_waits_for_no_factory_of_an_ancestor() {
    let (_store, mut lanes, _closers) = open(2, false);
    let key = lanes[0].key(&[], "thing").unwrap();
    let running = run_factory(lanes.pop().unwrap(), 1, key);
    lanes[0].put(2, &key, Number(1)).unwrap();
    assert_eq!(lanes[0].get(2, &key).unwrap().unwrap().0, 1);
    running.answer.send(Ok(2)).unwrap();
    assert!(running.ended.join().unwrap());
}

#[test]
fn who_waits_meets_the_kept_fault() {
    let (_store, mut lanes, _closers) = open(3, true);
    let key = lanes[0].key(&[], "thing").unwrap();
    let mut other = lanes.pop().unwrap();
    let running = run_factory(lanes.pop().unwrap(), 1, key);
    let refused = beside(running, Some(Err(5)), || {
        other.compute(2, &key, || unreachable!()).err()
    });
    assert!(matches!(refused, Some(ComputeError::FaultStands(it)) if **it.fault() == 5));
}

#[test]
fn no_wake_is_missed() {
    let (_store, lanes, _closers) = open(4, false);
    together(lanes, |at, lane| {
        let key = lane.key(&[], "thing").unwrap();
        for round in 0..5_000 {
            if at == 0 {
                let _ = lane.compute(1, &key, || Err(1));
            } else if at == 1 && round % 3 == 0 {
                let _ = lane.compute(1, &key, || Ok(Number(1)));
                lane.remove(1, &key).unwrap();
            } else {
                assert!(lane.get(2, &key).unwrap().map_or(true, |it| it.0 == 1));
            }
        }
    });
}

#[test]
fn a_look_up_that_waits_for_a_context_which_is_closed() {
    let (_store, mut lanes, mut closers) = open(3, false);
    let key = lanes[0].key(&[], "thing").unwrap();
    let mut other = lanes.pop().unwrap();
    let running = run_factory(lanes.pop().unwrap(), 1, key);
    running.answer.send(Ok(4)).unwrap();
    running.ended.join().unwrap();
    assert_eq!(closers.remove(1).close(|it| it.0), [4]);
    assert!(matches!(
        other.get(2, &key),
        Err(GetError::Refused(Refusal::Closed))
    ));
}

#[test]
fn a_close_waits_for_the_factories_of_its_context() {
    for answer in [Some(Ok(8)), Some(Err(9)), None] {
        let (_store, mut lanes, mut closers) = open(3, false);
        let key = lanes[0].key(&[], "thing").unwrap();
        let other = lanes[0].key(&[], "other").unwrap();
        lanes[0].put(1, &other, Number(2)).unwrap();
        let class = closers.remove(1);
        let running = run_factory(lanes.pop().unwrap(), 1, key);
        let closed = beside(running, answer, || class.close(|it| it.0));
        assert_eq!(
            closed,
            if answer == Some(Ok(8)) {
                vec![8, 2]
            } else {
                vec![2]
            }
        );
        assert!(matches!(
            lanes[0].get(1, &key),
            Err(GetError::Refused(Refusal::Closed))
        ));
    }
}

#[test]
fn contexts_are_closed_while_others_work() {
    let (_store, lanes, closers) = open(4, false);
    let closers: Vec<Mutex<Option<Closer<Number>>>> =
        closers.into_iter().map(|it| Mutex::new(Some(it))).collect();
    let (closed, closers) = (AtomicUsize::new(0), &closers);
    together(lanes, |at, lane| {
        let (key, own) = (
            lane.key(&[], "thing").unwrap(),
            lane.key(&[], "own").unwrap(),
        );
        for method in (at..METHODS).step_by(4) {
            lane.compute(1, &key, || Ok(Number(1))).unwrap();
            lane.compute(2 + method, &own, || Ok(Number(2))).unwrap();
            let closer = closers[2 + method].lock().unwrap().take().unwrap();
            closed.fetch_add(closer.close(|it| it.0).len(), SeqCst);
        }
    });
    assert_eq!(closed.load(SeqCst), METHODS);
}
