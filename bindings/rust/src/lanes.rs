//! Lanes for threads that come and go.
use crate::kept::StoreValue;
use crate::lane::Lane;
use std::ops::{Deref, DerefMut};
use std::sync::{Condvar, Mutex, MutexGuard, PoisonError};

/// The lanes of a store, for threads that have none of their own, as those of `#[test]` functions: each takes one for as long as it needs one, and
/// where all are taken it waits. There may be more threads than lanes.
///
/// ```
/// # use extension_store::{Lanes, Limits, Store, StoreValue};
/// # struct Port(u16);
/// # impl StoreValue for Port {
/// #     type Fault = String;
/// #     fn closeable(&self) -> bool {
/// #         true
/// #     }
/// # }
/// let (_store, lanes, _closers) = Store::open(&["[engine:x]"], Limits::default())?;
/// let lanes = Lanes::from(lanes);
/// let key = lanes.take().key(&[], "port")?;
/// assert_eq!(lanes.take().compute(0, &key, || Ok(Port(8080)))?.0, 8080);
/// # Ok::<(), Box<dyn std::error::Error>>(())
/// ```
pub struct Lanes<V: StoreValue> {
    idle: Mutex<Vec<Lane<V>>>,
    one_back: Condvar,
}

impl<V: StoreValue> From<Vec<Lane<V>>> for Lanes<V> {
    /// Of none `take` waits without end.
    fn from(lanes: Vec<Lane<V>>) -> Lanes<V> {
        Lanes {
            idle: Mutex::new(lanes),
            one_back: Condvar::new(),
        }
    }
}

impl<V: StoreValue> Lanes<V> {
    /// A lane that no one has, until what is answered is dropped. Waits where all are taken. So a thread that takes a second one, as for a factory
    /// that asks for another key, may wait without end where all others do so.
    pub fn take(&self) -> TakenLane<'_, V> {
        let mut idle = self.idle();
        loop {
            match idle.pop() {
                Some(lane) => return self.taken(lane),
                None => {
                    idle = self
                        .one_back
                        .wait(idle)
                        .unwrap_or_else(PoisonError::into_inner);
                }
            }
        }
    }

    /// [`take`](Lanes::take) that does not wait: `None` where all are taken.
    pub fn try_take(&self) -> Option<TakenLane<'_, V>> {
        let lane = self.idle().pop()?;
        Some(self.taken(lane))
    }

    fn taken(&self, lane: Lane<V>) -> TakenLane<'_, V> {
        TakenLane {
            lanes: self,
            lane: Some(lane),
        }
    }

    // Nothing that holds the lock panics.
    fn idle(&self) -> MutexGuard<'_, Vec<Lane<V>>> {
        self.idle.lock().unwrap_or_else(PoisonError::into_inner)
    }
}

/// A lane of [`Lanes`], which has it back when this is dropped.
pub struct TakenLane<'a, V: StoreValue> {
    lanes: &'a Lanes<V>,
    lane: Option<Lane<V>>, // but for the drop there is one
}

impl<V: StoreValue> Deref for TakenLane<'_, V> {
    type Target = Lane<V>;

    fn deref(&self) -> &Lane<V> {
        self.lane.as_ref().expect("it is not dropped")
    }
}

impl<V: StoreValue> DerefMut for TakenLane<'_, V> {
    fn deref_mut(&mut self) -> &mut Lane<V> {
        self.lane.as_mut().expect("it is not dropped")
    }
}

impl<V: StoreValue> Drop for TakenLane<'_, V> {
    fn drop(&mut self) {
        self.lanes.idle().extend(self.lane.take());
        self.lanes.one_back.notify_one();
    }
}
