//! `#[test]` functions that share a server by a store in a `static`, on more threads than it has lanes; it is stopped when the process ends.
use extension_store::{
    close_at_exit, AnyFault, AnyResource, Key, Lanes, Limits, Resource, Store, StoreValue, TypedKey,
};
use std::process::Command;
use std::sync::atomic::{AtomicUsize, Ordering::SeqCst};
use std::sync::{Arc, OnceLock};
use std::thread;
use std::time::Duration;

static STARTED: AtomicUsize = AtomicUsize::new(0);

struct Server(usize);

impl Resource for Server {
    fn close(&self) -> Result<(), AnyFault> {
        println!("stopped {} of {}", self.0, STARTED.load(SeqCst));
        Ok(())
    }
}

/// The same name as the server's key has.
struct Count(AtomicUsize);

impl Resource for Count {}

struct Shared {
    lanes: Lanes<AnyResource>,
    server: TypedKey<Server>,
    count: TypedKey<Count>,
}

fn shared() -> &'static Shared {
    static SHARED: OnceLock<Shared> = OnceLock::new();
    SHARED.get_or_init(|| {
        let limits = Limits::default().with(|it| it.lanes = 2);
        let (_store, mut lanes, closers) = Store::open(&["[engine:plain]"], limits).unwrap();
        let server = lanes[0].typed_key(&[], "shared").unwrap();
        let count = lanes[0].typed_key(&[], "shared").unwrap();
        close_at_exit(closers, |it: &Arc<AnyResource>| it.close().unwrap());
        let lanes = Lanes::from(lanes);
        Shared {
            lanes,
            server,
            count,
        }
    })
}

fn uses_the_server() {
    let shared = shared();
    let mut lane = shared.lanes.take();
    let start = || Ok(Server(STARTED.fetch_add(1, SeqCst) + 1));
    let server = lane.compute_typed(0, &shared.server, start).unwrap();
    let make = || Ok(Count(AtomicUsize::new(0)));
    let count = lane.compute_typed(0, &shared.count, make).unwrap();
    count.0.fetch_add(1, SeqCst);
    thread::sleep(Duration::from_millis(20));
    assert_eq!((server.0, STARTED.load(SeqCst)), (1, 1));
    let found = lane.get_typed(0, &shared.count).unwrap().unwrap();
    assert!(Arc::ptr_eq(&found, &count));
}

#[test]
fn shared_1() {
    uses_the_server();
}

#[test]
fn shared_2() {
    uses_the_server();
}

#[test]
fn shared_3() {
    uses_the_server();
}

#[test]
fn shared_4() {
    uses_the_server();
}

#[test]
fn shared_5() {
    uses_the_server();
}

#[test]
fn shared_by_more_threads_than_lanes() {
    thread::scope(|scope| {
        for _ in 0..20 {
            scope.spawn(uses_the_server);
        }
    });
}

/// Runs the tests above in a process of their own, and reads what it says at its end.
#[test]
fn stops_when_the_process_ends() {
    let run = Command::new(std::env::current_exe().unwrap())
        .args(["shared_", "--nocapture", "--test-threads", "6"])
        .output()
        .unwrap();
    let said = String::from_utf8(run.stdout).unwrap();
    assert!(run.status.success(), "{said}");
    assert_eq!(said.matches("stopped").count(), 1, "{said}");
    assert!(said.ends_with("stopped 1 of 1\n"), "{said}");
}

#[derive(Debug)]
struct Number(usize);

impl StoreValue for Number {
    type Fault = String;

    fn closeable(&self) -> bool {
        false
    }
}

#[test]
fn a_lane_goes_back_where_its_thread_panics() {
    let limits = Limits::default().with(|it| it.lanes = 1);
    let (_store, lanes, _closers) = Store::open(&["[engine:x]"], limits).unwrap();
    let lanes: Lanes<Number> = Lanes::from(lanes);
    let key: Key = lanes.take().key(&[], "number").unwrap();
    let panicked = thread::scope(|scope| {
        let body = || {
            let _ = lanes.take().compute(0, &key, || panic!("as wanted"));
        };
        scope.spawn(body).join().is_err()
    });
    assert!(panicked);
    let mut lane = lanes.take();
    assert!(lanes.try_take().is_none());
    assert_eq!(lane.compute(0, &key, || Ok(Number(7))).unwrap().0, 7);
    drop(lane);
    assert!(lanes.try_take().is_some());
}

#[test]
fn a_value_of_another_type_is_told() {
    let (_store, mut lanes, closers) =
        Store::<AnyResource>::open(&["[engine:x]"], Limits::default()).unwrap();
    let key: TypedKey<Server> = lanes[0].typed_key(&["web"], "server").unwrap();
    let count = AnyResource::new(Count(AtomicUsize::new(1)));
    assert!(count.value::<Server>().is_none());
    assert!(lanes[0].put(0, key.key(), count).unwrap().is_none());
    let lane = lanes.remove(0);
    let told = thread::spawn(move || {
        let mut lane = lane;
        lane.get_typed(0, &key).map(drop).unwrap();
    });
    assert!(told.join().is_err());
    for closer in closers {
        assert_eq!(closer.close(|it| it.close().is_ok()), [true]);
    }
}

#[test]
fn types_of_one_name_have_a_key_each() {
    let (_store, mut lanes, closers) =
        Store::<AnyResource>::open(&["[engine:x]"], Limits::default()).unwrap();
    let lane = &mut lanes[0];
    {
        struct Local(u8);
        impl Resource for Local {}
        let key = lane.typed_key::<Local>(&[], "local").unwrap();
        assert_eq!(lane.compute_typed(0, &key, || Ok(Local(1))).unwrap().0, 1);
    }
    {
        struct Local(u16);
        impl Resource for Local {}
        let key = lane.typed_key::<Local>(&[], "local").unwrap();
        assert_eq!(lane.compute_typed(0, &key, || Ok(Local(2))).unwrap().0, 2);
    }
    for closer in closers {
        for closed in closer.close(|it| it.close()) {
            closed.unwrap();
        }
    }
}
