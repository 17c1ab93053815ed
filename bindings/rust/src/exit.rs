//! The end of the process.
use crate::closer::Closer;
use crate::kept::StoreValue;
use crate::native;
use std::panic::{catch_unwind, AssertUnwindSafe};
use std::sync::{Arc, Mutex, MutexGuard, Once, PoisonError};

type End = Box<dyn FnOnce() + Send>;

static ENDS: Mutex<Vec<End>> = Mutex::new(Vec::new());
static REGISTERED: Once = Once::new();

/// Closes the contexts when the process ends, the last closer first, as [`Closer::try_close`] does: for a store in a `static`, of whose tests none is
/// told to be the last.
///
/// That is where `main` returns or `std::process::exit` is called, as at the end of `#[test]` functions; not where a signal or an abort ends the
/// process. Stores are closed the latest first. A context for which a factory still runs is not closed, and the action can't fail the tests any more:
/// a panic in it is printed.
///
/// # Panics
///
/// Where there is no memory.
pub fn close_at_exit<V: StoreValue>(
    closers: Vec<Closer<V>>,
    mut action: impl FnMut(&Arc<V>) + Send + 'static,
) {
    REGISTERED.call_once(|| native::at_exit(end_all));
    ends().push(Box::new(move || {
        for closer in closers.into_iter().rev() {
            // what it answers has no one who could be told
            let _ = catch_unwind(AssertUnwindSafe(|| {
                drop(closer.try_close(&mut action));
            }));
        }
    }));
}

extern "C" fn end_all() {
    loop {
        let Some(end) = ends().pop() else { break };
        end();
    }
}

// Nothing that holds the lock panics.
fn ends() -> MutexGuard<'static, Vec<End>> {
    ENDS.lock().unwrap_or_else(PoisonError::into_inner)
}
