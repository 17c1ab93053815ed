//! The calls on one thread, one after another.
use extension_store::{
    Closer, ComputeError, GetError, Key, Lane, Lanes, Limits, OpenError, PutError, Refusal, Stood,
    Store, StoreValue, TypedKey,
};
use std::panic::{catch_unwind, AssertUnwindSafe};
use std::sync::atomic::{AtomicUsize, Ordering::SeqCst};
use std::sync::Arc;

/// A thing that counts how often it is dropped.
#[derive(Debug)]
struct Thing {
    name: &'static str,
    closeable: bool,
    drops: Arc<AtomicUsize>,
}

impl StoreValue for Thing {
    type Fault = &'static str;

    fn closeable(&self) -> bool {
        self.closeable
    }
}

impl Drop for Thing {
    fn drop(&mut self) {
        self.drops.fetch_add(1, SeqCst);
    }
}

const IDS: [&str; 4] = [
    "[engine:x]",
    "[engine:x]/[class:A]",
    "[engine:x]/[class:A]/[method:a()]",
    "[engine:x]/[class:A]/[method:b()]",
];
const ENGINE: usize = 0;
const CLASS: usize = 1;
const FIRST: usize = 2;
const SECOND: usize = 3;

struct Opened {
    store: Store<Thing>,
    lanes: Vec<Lane<Thing>>,
    closers: Vec<Closer<Thing>>,
    drops: Arc<AtomicUsize>,
}

fn open(limits: Limits) -> Opened {
    let (store, lanes, closers) = Store::open(&IDS, limits).unwrap();
    Opened {
        store,
        lanes,
        closers,
        drops: Arc::default(),
    }
}

fn keeping() -> Limits {
    Limits::default().with(|it| it.keep_faults = true)
}

impl Opened {
    fn thing(&self, name: &'static str) -> Thing {
        Thing {
            name,
            closeable: true,
            drops: Arc::clone(&self.drops),
        }
    }

    fn key(&mut self, name: &str) -> Key {
        self.lanes[0].key(&[], name).unwrap()
    }

    fn put(
        &mut self,
        lane: usize,
        context: usize,
        key: &Key,
        name: &'static str,
    ) -> Option<&'static str> {
        let thing = self.thing(name);
        let stood = self.lanes[lane].put(context, key, thing).unwrap();
        stood.and_then(Stood::value).map(|it| it.name)
    }

    fn get(
        &mut self,
        lane: usize,
        context: usize,
        key: &Key,
    ) -> Option<(&'static str, u32, usize)> {
        let found = self.lanes[lane].get(context, key).unwrap();
        found.map(|it| (it.name, it.number(), it.context()))
    }
}

#[test]
fn refused_openings() {
    let refused = |ids: &[&str], limits| Store::<Thing>::open(ids, limits).err();
    let usual = Limits::default();
    for lanes in [0, 16, usize::MAX] {
        assert_eq!(
            refused(&IDS, usual.with(|it| it.lanes = lanes)),
            Some(OpenError::BadLimit)
        );
    }
    for tries in [0, 65] {
        assert_eq!(
            refused(&IDS, usual.with(|it| it.tries = tries)),
            Some(OpenError::BadLimit)
        );
    }
    for numbers in [0, 65_536] {
        assert_eq!(
            refused(&IDS, usual.with(|it| it.numbers = numbers)),
            Some(OpenError::BadLimit)
        );
    }
    for keys in [0, 1_025, u32::MAX] {
        assert_eq!(
            refused(&IDS, usual.with(|it| it.keys = keys)),
            Some(OpenError::BadLimit)
        );
    }
    for bad in [
        large().with(|it| it.lanes = 32),
        large().with(|it| it.numbers = 1_048_576),
        large().with(|it| it.keys = 1_025),
    ] {
        assert_eq!(refused(&IDS, bad), Some(OpenError::BadLimit));
    }
    assert_eq!(refused(&[], usual), Some(OpenError::BadTree));
    assert_eq!(refused(&["engine"], usual), Some(OpenError::BadId));
    assert_eq!(
        refused(&["[engine:x]", "[engine:x]/[class:A]/[method:m()]"], usual),
        Some(OpenError::BadTree)
    );
    let many: Vec<String> = (0..256)
        .map(|it| format!("[engine:x]/[class:{it}]"))
        .collect();
    let many: Vec<&str> = ["[engine:x]"]
        .into_iter()
        .chain(many.iter().map(String::as_str))
        .collect();
    assert_eq!(refused(&many, usual), Some(OpenError::TooManyContexts));
    assert_eq!(refused(&many[..256], usual), None);
    assert_eq!(OpenError::BadTree.to_string(), "the ids are no tree");
}

#[test]
fn contexts_by_their_ids() {
    let opened = open(Limits::default());
    assert_eq!(opened.store.context("[engine:x]/[class:A]"), Some(CLASS));
    assert_eq!(opened.store.context("[engine:y]"), None);
    assert_eq!(opened.store.ids(), IDS);
    assert_eq!(opened.store.limits(), Limits::default());
    assert_eq!(
        opened
            .closers
            .iter()
            .map(Closer::context)
            .collect::<Vec<_>>(),
        [0, 1, 2, 3]
    );
}

#[test]
fn nearest_value_wins() {
    let mut opened = open(Limits::default());
    let server = opened.key("server");
    assert_eq!(opened.get(0, FIRST, &server), None);
    assert_eq!(opened.put(0, ENGINE, &server, "one"), None);
    assert_eq!(opened.get(1, FIRST, &server), Some(("one", 1, ENGINE)));
    assert_eq!(opened.put(1, CLASS, &server, "two"), None);
    assert_eq!(opened.get(2, FIRST, &server), Some(("two", 2, CLASS)));
    assert_eq!(opened.put(2, CLASS, &server, "three"), Some("two"));
    assert!(opened.lanes[3].remove(FIRST, &server).unwrap().is_none());
    let taken = opened.lanes[3]
        .remove(CLASS, &server)
        .unwrap()
        .and_then(Stood::value);
    assert_eq!(taken.map(|it| it.name), Some("three"));
    assert_eq!(opened.get(2, FIRST, &server), Some(("one", 1, ENGINE)));
}

#[test]
fn path_of_its_own_decides() {
    let mut opened = open(Limits::default());
    let server = opened.key("server");
    assert_eq!(opened.put(0, CLASS, &server, "of the class"), None);
    let thing = opened.thing("its own");
    let lane = &mut opened.lanes[1];
    // the method is opened below the engine, past the class
    let past = [FIRST, ENGINE];
    assert!(lane.get_along(&past, &server).unwrap().is_none());
    let below = lane.get_along(&[FIRST, CLASS, ENGINE], &server).unwrap();
    assert_eq!(below.map(|it| it.name), Some("of the class"));
    let made = lane.compute_along(&past, &server, || Ok(thing)).unwrap();
    assert_eq!((made.name, made.context()), ("its own", FIRST));
    let found = lane
        .compute_along(&past, &server, || unreachable!())
        .unwrap();
    assert_eq!((found.name, found.context()), ("its own", FIRST));
    let none: [&[usize]; 4] = [&[], &[FIRST, 4], &[FIRST, ENGINE, FIRST], &[0; 17]];
    for path in none {
        assert!(matches!(
            lane.get_along(path, &server),
            Err(GetError::Refused(Refusal::NoContext))
        ));
        assert!(matches!(
            lane.compute_along(path, &server, || unreachable!()),
            Err(ComputeError::Refused(Refusal::NoContext))
        ));
    }
}

#[test]
fn equal_keys_are_one() {
    let mut opened = open(Limits::default());
    let one = opened.lanes[0].key(&["a", "b"], "name").unwrap();
    assert_eq!(opened.lanes[1].key(&["a", "b"], "name").unwrap(), one);
    assert_ne!(opened.lanes[1].key(&["b", "a"], "name").unwrap(), one);
    assert_ne!(opened.lanes[1].key(&["ab"], "name").unwrap(), one);
    assert_ne!(opened.lanes[1].key(&[], "name").unwrap(), one);
    for more in 4..64 {
        opened.key(&more.to_string());
    }
    assert_eq!(opened.lanes[0].key(&[], "one more"), Err(Refusal::KeysFull));
    assert_eq!(opened.lanes[2].key(&["a", "b"], "name").unwrap(), one);
}

/// Numbers for keys come in whole blocks of 32, and a close tells of a value under each.
#[test]
fn keys_up_to_the_limit() {
    for (keys, places) in [(1, 32), (33, 64), (65, 96), (1_024, 1_024)] {
        let mut opened = open(Limits::default().with(|it| it.keys = keys));
        let keys: Vec<Key> = (0..places).map(|it| opened.key(&it.to_string())).collect();
        assert_eq!(opened.lanes[0].key(&[], "one more"), Err(Refusal::KeysFull));
        // of 1,024 values the close would take long over a library that is not optimized
        for key in keys.iter().rev().take(96) {
            assert_eq!(opened.put(0, FIRST, key, "thing"), None);
        }
        let last = keys.last().expect("at least 32");
        assert_eq!(opened.get(1, FIRST, last), Some(("thing", 1, FIRST)));
        let mut numbers = opened.closers.remove(FIRST).close(|it| it.name).len();
        assert_eq!(numbers, keys.len().min(96));
        numbers = opened.closers.remove(CLASS).close(|it| it.name).len();
        assert_eq!(numbers, 0);
    }
}

fn large() -> Limits {
    Limits::default().with(|it| it.large = true)
}

#[test]
fn large_store() {
    let mut ids = vec!["[engine:x]".to_string()];
    ids.extend((1..65_536).map(|it| format!("[engine:x]/[m:{it}]")));
    let limits = large().with(|it| {
        it.lanes = 31;
        it.numbers = 1_048_575;
        it.keys = 32;
    });
    let (store, mut lanes, mut closers) = Store::<Thing>::open(&ids, limits).unwrap();
    assert_eq!(store.context("[engine:x]/[m:65535]"), Some(65_535));
    assert_eq!((lanes.len(), closers.len()), (31, 65_536));
    let key = lanes[30].key(&[], "thing").unwrap();
    let thing = Thing {
        name: "thing",
        closeable: true,
        drops: Arc::default(),
    };
    assert!(lanes[30].put(65_535, &key, thing).unwrap().is_none());
    assert!(lanes[0].get(65_534, &key).unwrap().is_none());
    assert_eq!(
        lanes[0].get(65_535, &key).unwrap().map(|it| it.name),
        Some("thing")
    );
    assert!(matches!(
        lanes[0].get(65_536, &key),
        Err(GetError::Refused(Refusal::NoContext))
    ));
    let closer = closers.pop().expect("one for each context");
    assert_eq!(closer.close(|it| it.name), ["thing"]);
    ids.push("[engine:x]/[m:0]".to_string());
    assert_eq!(
        Store::<Thing>::open(&ids, limits).err(),
        Some(OpenError::TooManyContexts)
    );
}

#[test]
fn key_of_another_store_is_refused() {
    let (mut one, mut other) = (open(Limits::default()), open(Limits::default()));
    let foreign = other.key("server");
    assert!(matches!(
        one.lanes[0].get(ENGINE, &foreign),
        Err(GetError::Refused(Refusal::OtherStore))
    ));
    let thing = one.thing("thing");
    let Err(PutError { value, refusal, .. }) = one.lanes[0].put(ENGINE, &foreign, thing) else {
        panic!("a key of another store is taken");
    };
    assert_eq!((value.name, refusal), ("thing", Refusal::OtherStore));
    assert_eq!(
        one.lanes[0].remove(ENGINE, &foreign).err(),
        Some(Refusal::OtherStore)
    );
    let computed = one.lanes[0].compute(ENGINE, &foreign, || unreachable!());
    assert!(matches!(
        computed,
        Err(ComputeError::Refused(Refusal::OtherStore))
    ));
}

#[test]
fn context_that_is_not_there_is_refused() {
    let mut opened = open(Limits::default());
    let key = opened.key("server");
    for context in [4, 256, usize::MAX] {
        assert!(matches!(
            opened.lanes[0].get(context, &key),
            Err(GetError::Refused(Refusal::NoContext))
        ));
        assert_eq!(
            opened.lanes[0].remove(context, &key).err(),
            Some(Refusal::NoContext)
        );
        let computed = opened.lanes[0].compute(context, &key, || unreachable!());
        assert!(matches!(
            computed,
            Err(ComputeError::Refused(Refusal::NoContext))
        ));
    }
}

#[test]
fn factory_runs_where_nothing_is_found() {
    let mut opened = open(Limits::default());
    let server = opened.key("server");
    let thing = opened.thing("server");
    let made = opened.lanes[0]
        .compute(CLASS, &server, || Ok(thing))
        .unwrap();
    assert_eq!(
        (made.name, made.number(), made.context()),
        ("server", 1, CLASS)
    );
    let found = opened.lanes[1]
        .compute(SECOND, &server, || unreachable!())
        .unwrap();
    assert_eq!(
        (found.name, found.number(), found.context()),
        ("server", 1, CLASS)
    );
}

#[test]
fn failed_factory_leaves_its_place_empty() {
    let mut opened = open(Limits::default());
    let server = opened.key("server");
    let failed = opened.lanes[0].compute(CLASS, &server, || Err("no port"));
    assert!(matches!(failed, Err(ComputeError::Failed("no port"))));
    assert_eq!(
        failed.unwrap_err().to_string(),
        "the factory failed: \"no port\""
    );
    assert_eq!(opened.get(1, CLASS, &server), None);
    let thing = opened.thing("server");
    assert_eq!(
        opened.lanes[1]
            .compute(CLASS, &server, || Ok(thing))
            .unwrap()
            .number(),
        1
    );
}

#[test]
fn factory_that_panics_leaves_its_place_empty() {
    let mut opened = open(keeping());
    let server = opened.key("server");
    let lane = &mut opened.lanes[0];
    let panicked = catch_unwind(AssertUnwindSafe(|| {
        lane.compute(CLASS, &server, || panic!("as wanted")).is_ok()
    }));
    assert!(panicked.is_err());
    assert_eq!(opened.get(0, CLASS, &server), None);
    let thing = opened.thing("server");
    assert_eq!(
        opened.lanes[1]
            .compute(CLASS, &server, || Ok(thing))
            .unwrap()
            .number(),
        1
    );
}

#[test]
fn kept_fault_stands_until_it_is_replaced() {
    let mut opened = open(keeping());
    let server = opened.key("server");
    let Err(ComputeError::FaultKept(kept)) =
        opened.lanes[0].compute(CLASS, &server, || Err("boom"))
    else {
        panic!("the fault is not kept");
    };
    assert_eq!(
        (**kept.fault(), kept.number(), kept.context()),
        ("boom", 1, CLASS)
    );
    let Err(ComputeError::FaultStands(stands)) =
        opened.lanes[1].compute(FIRST, &server, || unreachable!())
    else {
        panic!("the fault does not stand");
    };
    assert!(Arc::ptr_eq(kept.fault(), stands.fault()));
    assert!(
        matches!(opened.lanes[2].get(FIRST, &server), Err(GetError::FaultStands(it)) if it.number() == 1)
    );
    let thing = opened.thing("server");
    let stood = opened.lanes[2].put(CLASS, &server, thing).unwrap().unwrap();
    assert!(matches!(&stood, Stood::Fault(it) if it.number() == 1 && **it.fault() == "boom"));
    assert_eq!(opened.get(0, FIRST, &server), Some(("server", 2, CLASS)));
    opened.lanes[0].remove(CLASS, &server).unwrap();
    assert!(opened.lanes[0]
        .compute(CLASS, &server, || Err("again"))
        .is_err());
    let taken = opened.lanes[0]
        .remove(CLASS, &server)
        .unwrap()
        .and_then(Stood::fault);
    assert_eq!(taken.map(|it| **it.fault()), Some("again"));
    assert!(opened.lanes[0]
        .compute(CLASS, &server, || Err("last"))
        .is_err());
    let class = opened.closers.remove(CLASS);
    assert!(class.close(|_| ()).is_empty());
}

#[test]
fn numbers_run_out() {
    let limits = keeping().with(|it| it.numbers = 1);
    let mut opened = open(limits);
    let (one, other) = (opened.key("one"), opened.key("other"));
    opened.put(0, ENGINE, &one, "first");
    let thing = opened.thing("second");
    let refused = opened.lanes[0].put(ENGINE, &one, thing).unwrap_err();
    assert_eq!(
        (refused.value.name, refused.refusal),
        ("second", Refusal::NumbersFull)
    );
    let thing = refused.value;
    let Err(ComputeError::Unkept { value, refusal }) =
        opened.lanes[0].compute(ENGINE, &other, || Ok(thing))
    else {
        panic!("a value is kept that has no number");
    };
    assert_eq!((value.name, refusal), ("second", Refusal::NumbersFull));
    let Err(ComputeError::FaultUnkept { fault, refusal }) =
        opened.lanes[0].compute(ENGINE, &other, || Err("boom"))
    else {
        panic!("a fault is kept that has no number");
    };
    assert_eq!((fault, refusal), ("boom", Refusal::NumbersFull));
    assert_eq!(opened.get(1, ENGINE, &one), Some(("first", 1, ENGINE)));
}

#[test]
fn closes_latest_first() {
    let mut opened = open(Limits::default());
    let keys: Vec<Key> = (0..5).map(|it| opened.key(&it.to_string())).collect();
    opened.put(0, CLASS, &keys[3], "replaced");
    opened.put(0, CLASS, &keys[2], "earliest");
    let mut kept_open = opened.thing("not closeable");
    kept_open.closeable = false;
    opened.lanes[1].put(CLASS, &keys[0], kept_open).unwrap();
    opened.put(1, CLASS, &keys[3], "middle");
    opened.put(2, CLASS, &keys[4], "removed");
    opened.put(2, CLASS, &keys[1], "latest");
    opened.put(3, ENGINE, &keys[0], "another context's");
    opened.lanes[3].remove(CLASS, &keys[4]).unwrap();
    let class = opened.closers.remove(CLASS);
    assert_eq!(class.close(|it| it.name), ["latest", "middle", "earliest"]);
    assert!(matches!(
        opened.lanes[0].get(FIRST, &keys[2]),
        Err(GetError::Refused(Refusal::Closed))
    ));
    let thing = opened.thing("too late");
    assert_eq!(
        opened.lanes[0]
            .put(CLASS, &keys[2], thing)
            .unwrap_err()
            .refusal,
        Refusal::Closed
    );
    assert_eq!(
        opened.lanes[0].remove(CLASS, &keys[2]).err(),
        Some(Refusal::Closed)
    );
    let computed = opened.lanes[0].compute(CLASS, &keys[2], || unreachable!());
    assert!(matches!(
        computed,
        Err(ComputeError::Refused(Refusal::Closed))
    ));
    assert_eq!(
        opened.closers.remove(ENGINE).close(|it| it.name),
        ["another context's"]
    );
}

#[test]
fn panic_of_a_close_action_does_not_stop_the_others() {
    let mut opened = open(Limits::default());
    for name in ["one", "two", "three"] {
        let key = opened.key(name);
        opened.put(0, CLASS, &key, name);
    }
    let mut closed = Vec::new();
    let class = opened.closers.remove(CLASS);
    let panicked = catch_unwind(AssertUnwindSafe(|| {
        class.close(|it| {
            closed.push(it.name);
            assert_ne!(it.name, "two", "as wanted");
        })
    }));
    assert!(panicked.is_err());
    assert_eq!(closed, ["three", "two", "one"]);
}

#[test]
fn close_beside_a_factory_gives_the_closer_back() {
    let mut opened = open(Limits::default());
    let server = opened.key("server");
    let class = opened.closers.remove(CLASS);
    let thing = opened.thing("server");
    let mut closer = None;
    opened.lanes[0]
        .compute(CLASS, &server, || {
            let refused = class.try_close(|_| ()).unwrap_err();
            assert_eq!(
                refused.to_string(),
                "context 1 is not closed: a factory runs for this context"
            );
            closer = Some(refused.closer);
            Ok(thing)
        })
        .unwrap();
    let closer = closer.expect("it was given back");
    assert_eq!(closer.try_close(|it| it.name).unwrap(), ["server"]);
}

#[test]
fn calls_that_do_not_wait_are_refused_beside_a_factory() {
    let mut opened = open(Limits::default());
    let server = opened.key("server");
    let (thing, more) = (opened.thing("server"), opened.thing("another"));
    let (first, others) = opened.lanes.split_at_mut(1);
    let other = &mut others[0];
    first[0]
        .try_compute(CLASS, &server, || {
            assert!(matches!(
                other.try_get(FIRST, &server),
                Err(GetError::Refused(Refusal::Busy))
            ));
            assert_eq!(other.try_remove(CLASS, &server).err(), Some(Refusal::Busy));
            assert!(matches!(
                other.try_compute(FIRST, &server, || unreachable!()),
                Err(ComputeError::Refused(Refusal::Busy))
            ));
            let refused = other.try_put(CLASS, &server, more).unwrap_err();
            assert_eq!(
                (refused.value.name, refused.refusal),
                ("another", Refusal::Busy)
            );
            assert!(other.try_get(ENGINE, &server).unwrap().is_none());
            assert!(other
                .try_put(FIRST, &server, refused.value)
                .unwrap()
                .is_none());
            Ok(thing)
        })
        .unwrap();
    assert_eq!(
        opened.get(2, FIRST, &server).map(|it| it.0),
        Some("another")
    );
    assert_eq!(
        opened.get(2, SECOND, &server).map(|it| it.0),
        Some("server")
    );
}

#[test]
fn values_are_dropped_once_and_with_all_of_the_store() {
    let mut opened = open(keeping());
    let (one, other) = (opened.key("one"), opened.key("other"));
    let drops = Arc::clone(&opened.drops);
    opened.put(0, ENGINE, &one, "replaced");
    opened.put(1, ENGINE, &one, "removed");
    opened.lanes[2].remove(ENGINE, &one).unwrap();
    opened.put(2, CLASS, &one, "stands");
    let thing = opened.thing("shared");
    let shared = opened.lanes[3]
        .compute(ENGINE, &other, || Ok(thing))
        .unwrap()
        .share();
    let Opened {
        store,
        lanes,
        closers,
        ..
    } = opened;
    drop(lanes);
    drop(store.clone());
    drop(store);
    let mut closers = closers.into_iter();
    assert_eq!(closers.nth(CLASS).unwrap().close(|it| it.name), ["stands"]);
    assert_eq!(drops.load(SeqCst), 0);
    drop(closers);
    assert_eq!(drops.load(SeqCst), 3);
    assert_eq!(shared.name, "shared");
    drop(shared);
    assert_eq!(drops.load(SeqCst), 4);
}

#[test]
fn a_refused_value_is_dropped_once() {
    let limits = Limits::default().with(|it| it.numbers = 1);
    let mut opened = open(limits);
    let key = opened.key("key");
    opened.put(0, ENGINE, &key, "first");
    let thing = opened.thing("second");
    drop(opened.lanes[0].put(ENGINE, &key, thing));
    assert_eq!(opened.drops.load(SeqCst), 1);
    let drops = Arc::clone(&opened.drops);
    drop(opened);
    assert_eq!(drops.load(SeqCst), 2);
}

#[test]
fn a_value_without_bytes_and_one_that_is_aligned() {
    struct Nothing;
    #[repr(align(128))]
    struct Aligned(u8);
    enum Any {
        Nothing(Nothing),
        Aligned(Aligned),
    }
    impl StoreValue for Any {
        type Fault = ();
        fn closeable(&self) -> bool {
            false
        }
    }
    impl StoreValue for Nothing {
        type Fault = ();
        fn closeable(&self) -> bool {
            true
        }
    }
    let (_store, mut lanes, mut closers) = Store::<Any>::open(&IDS, Limits::default()).unwrap();
    let key = lanes[0].key(&[], "any").unwrap();
    lanes[0].put(ENGINE, &key, Any::Nothing(Nothing)).unwrap();
    lanes[1]
        .put(ENGINE, &key, Any::Aligned(Aligned(7)))
        .unwrap();
    assert!(matches!(
        &*lanes[2].get(ENGINE, &key).unwrap().unwrap(),
        Any::Aligned(Aligned(7))
    ));
    assert!(closers.remove(ENGINE).close(|_| ()).is_empty());
    let (_store, mut lanes, mut closers) = Store::<Nothing>::open(&IDS, Limits::default()).unwrap();
    let key = lanes[0].key(&[], "nothing").unwrap();
    lanes[0].put(ENGINE, &key, Nothing).unwrap();
    assert_eq!(closers.remove(ENGINE).close(|_| ()).len(), 1);
}

#[test]
fn what_may_cross_threads() {
    fn send<T: Send>() {}
    fn sync<T: Sync>() {}
    send::<Lane<Thing>>();
    send::<Closer<Thing>>();
    sync::<Closer<Thing>>();
    send::<Store<Thing>>();
    sync::<Store<Thing>>();
    send::<Key>();
    sync::<Lanes<Thing>>();
    send::<TypedKey<Thing>>();
}
