//! A peer: the algorithm of the repository's store, as an expert writes it by hand on atomics.
//!
//! A cell is a context and a key, and one word: its state, the number that stands there, and how many events it has had. A change
//! loads the word and exchanges it. A look-up loads the cells of the context's path up to the first where anything stands, and then
//! those below it once more. Each event makes a word greater: where both sums agree, they all stood together as the last one was
//! read. A number is drawn by one addition, its value placed by one store, and a key found in a table of hashes.
#[path = "../driver.rs"]
mod driver;

use driver::{Found, Key, Payload, Peer};
use std::process::ExitCode;
use std::sync::atomic::Ordering::{Acquire, Release, SeqCst};
use std::sync::atomic::{AtomicPtr, AtomicU64};

const TRIES: u32 = 64;
const DEEPEST: usize = 16;
const MOST_KEYS: usize = 64;

const EMPTY: u64 = 0;
const COMPUTING: u64 = 1;
const PRESENT: u64 = 2;
const SEALED: u64 = 3;

fn state(word: u64) -> u64 {
    word & 15
}

fn number(word: u64) -> u32 {
    (word >> 4 & 0xf_ffff) as u32
}

/// The word of this state and number, with one event more.
fn next(word: u64, state: u64, number: u32) -> u64 {
    ((word >> 24) + 1) << 24 | u64::from(number) << 4 | state
}

/// A fast hash, since keys are not an attacker's: the bytes of the key, each folded into the hash by a long product.
fn fold(hash: u64, byte: u8) -> u64 {
    let product = u128::from(hash ^ u64::from(byte)) * 0x9e37_79b9_7f4a_7c15;
    product as u64 ^ (product >> 64) as u64 ^ 0x2545_f491_4f6c_dd1d
}

/// A key that keeps its hash from when it is made.
#[derive(Clone)]
struct HashedKey {
    hash: u64,
    key: Key,
}

impl HashedKey {
    fn is(&self, other: &HashedKey) -> bool {
        let (own, key) = (&self.key, &other.key);
        self.hash == other.hash
            && own.name == key.name
            && own.created == key.created
            && own.parts == key.parts
    }
}

impl From<Key> for HashedKey {
    fn from(key: Key) -> HashedKey {
        let parts = key.parts.iter().flat_map(|it| it.bytes());
        let hash = key.name.bytes().chain(parts).fold(0, fold);
        HashedKey { hash, key }
    }
}

/// A context and those above it, the root last.
struct Path {
    contexts: [u32; DEEPEST],
    len: usize,
}

impl Path {
    fn of(context: usize, parents: &[usize]) -> Path {
        let (mut contexts, mut len, mut at) = ([0; DEEPEST], 1, context);
        contexts[0] = context as u32;
        while at > 0 {
            at = parents[at];
            contexts[len] = at as u32;
            len += 1;
        }
        Path { contexts, len }
    }

    fn contexts(&self) -> &[u32] {
        // SAFETY: `of` counts contexts that are in the array.
        unsafe { self.contexts.get_unchecked(..self.len) }
    }
}

/// A count on a line of the cache of its own, so that drawing takes no cell's line from look-ups.
#[repr(align(64))]
struct Count(AtomicU64);

struct Store {
    paths: Box<[Path]>,
    /// The cells of context `at` begin at `at << shift`.
    shift: u32,
    words: Box<[AtomicU64]>,
    drawn: Count,
    values: Box<[AtomicPtr<Payload>]>,
    keys: Box<[HashedKey]>,
    /// Of each hash from where its key is sought: one more than the key's number, or 0 where the search ends.
    slots: Box<[u16]>,
}

impl Store {
    /// The number of the key.
    #[inline(always)]
    fn find(&self, key: &HashedKey) -> Option<usize> {
        let mask = self.slots.len() - 1;
        let mut at = key.hash as usize & mask;
        loop {
            // SAFETY: there is a power of two of slots, so the mask leaves one of them.
            let number = usize::from(unsafe { *self.slots.get_unchecked(at) }).checked_sub(1)?;
            // SAFETY: slots have numbers of keys alone.
            if unsafe { self.keys.get_unchecked(number) }.is(key) {
                return Some(number);
            }
            at = (at + 1) & mask;
        }
    }

    /// The context and those above it.
    #[inline(always)]
    fn path(&self, context: usize) -> &[u32] {
        // SAFETY: calls are of contexts that the store has.
        unsafe { self.paths.get_unchecked(context) }.contexts()
    }

    #[inline(always)]
    fn cell(&self, context: usize, key: usize) -> &AtomicU64 {
        // SAFETY: calls are of contexts and keys that the store has.
        unsafe { self.words.get_unchecked((context << self.shift) + key) }
    }

    /// The nearest context of the path where anything stands, and its word, at one moment; the word is 0 where nothing does.
    #[inline(always)]
    fn look(&self, path: &[u32], key: usize) -> Option<(usize, u64)> {
        // SAFETY: calls are of keys that the store has.
        let words = unsafe { self.words.get_unchecked(key..) };
        // SAFETY: paths have contexts of the store alone.
        let cell = |context: u32| unsafe { words.get_unchecked((context as usize) << self.shift) };
        for _ in 0..=TRIES {
            let (mut sum, mut below, mut found) = (0, 0, (0, 0));
            while below < path.len() {
                let word = cell(path[below]).load(SeqCst);
                if state(word) != EMPTY {
                    found = (path[below] as usize, word);
                    break;
                }
                sum += word;
                below += 1;
            }
            let again = path.iter().take(below).map(|it| cell(*it).load(SeqCst));
            if again.sum::<u64>() == sum {
                return Some(found);
            }
        }
        None
    }

    /// Exchanges the word of a cell for the one that follows, and answers the one that stood.
    #[inline(always)]
    fn change(
        &self,
        context: usize,
        key: usize,
        follows: impl Fn(u64) -> Option<u64>,
    ) -> Option<u64> {
        let cell = self.cell(context, key);
        let mut word = cell.load(SeqCst);
        for _ in 0..TRIES {
            match cell.compare_exchange(word, follows(word)?, SeqCst, SeqCst) {
                Ok(stood) => return Some(stood),
                Err(found) => word = found,
            }
        }
        None
    }

    /// Keeps the value under the next number.
    #[inline(always)]
    fn keep(&self, value: Payload) -> Option<u32> {
        let boxed = Box::new(value);
        let drawn = self.drawn.0.fetch_add(1, SeqCst);
        let place = self.values.get(drawn as usize)?;
        place.store(Box::into_raw(boxed), Release);
        Some(drawn as u32 + 1)
    }
}

impl Drop for Store {
    fn drop(&mut self) {
        for place in &mut self.values {
            let value = *place.get_mut();
            if !value.is_null() {
                // SAFETY: the place alone has the box.
                drop(unsafe { Box::from_raw(value) });
            }
        }
    }
}

/// The slots of these keys, half of them empty or more.
fn slots(keys: &[HashedKey]) -> Box<[u16]> {
    let mut slots = vec![0; (2 * keys.len()).next_power_of_two()];
    let mask = slots.len() - 1;
    for (key, number) in keys.iter().zip(1..) {
        let mut at = key.hash as usize & mask;
        while slots[at] != 0 {
            at = (at + 1) & mask;
        }
        slots[at] = number;
    }
    slots.into_boxed_slice()
}

impl Peer for Store {
    const NAME: &'static str = "expert";

    type Key = HashedKey;

    fn open(parents: &[usize], keys: &[HashedKey], values: u32) -> Store {
        assert!(keys.len() <= MOST_KEYS);
        let shift = keys.len().next_power_of_two().trailing_zeros();
        let path = |context| Path::of(context, parents);
        Store {
            paths: (0..parents.len()).map(path).collect(),
            shift,
            // SAFETY: a word of 0 and a place without a value are bytes of 0.
            words: unsafe { Box::new_zeroed_slice(parents.len() << shift).assume_init() },
            drawn: Count(AtomicU64::new(0)),
            // SAFETY: as above.
            values: unsafe { Box::new_zeroed_slice(values as usize).assume_init() },
            keys: keys.into(),
            slots: slots(keys),
        }
    }

    fn get(&self, context: usize, key: &HashedKey) -> Option<Found> {
        self.get_numbered(context, self.find(key)?, key)
    }

    fn number(&self, key: &HashedKey) -> usize {
        self.find(key).unwrap()
    }

    #[inline(always)]
    fn get_numbered(&self, context: usize, key: usize, _: &HashedKey) -> Option<Found> {
        let (at, word) = self.look(self.path(context), key)?;
        (state(word) == PRESENT).then(|| Found {
            at,
            number: number(word),
        })
    }

    fn put(&self, context: usize, key: &HashedKey, value: Payload) -> bool {
        let Some(key) = self.find(key) else {
            return false;
        };
        let Some(kept) = self.keep(value) else {
            return false;
        };
        let stood = self.change(context, key, |word| {
            matches!(state(word), EMPTY | PRESENT).then(|| next(word, PRESENT, kept))
        });
        stood.is_some()
    }

    fn remove(&self, context: usize, key: &HashedKey) -> bool {
        let Some(key) = self.find(key) else {
            return false;
        };
        let stood = self.change(context, key, |word| {
            (state(word) == PRESENT).then(|| next(word, EMPTY, 0))
        });
        stood.is_some()
    }

    fn compute(&self, context: usize, key: &HashedKey, make: impl FnOnce() -> Payload) -> bool {
        let Some(key) = self.find(key) else {
            return false;
        };
        let path = self.path(context);
        match self.look(path, key) {
            None => return true,
            Some((_, word)) if state(word) != EMPTY => return state(word) != SEALED,
            Some(_) => {}
        }
        let claimed = self.change(context, key, |word| {
            (state(word) == EMPTY).then(|| next(word, COMPUTING, 0))
        });
        let Some(stood) = claimed else {
            return true;
        };
        let clear = matches!(self.look(&path[1..], key), Some((_, it)) if state(it) == EMPTY);
        let kept = if clear { self.keep(make()) } else { None };
        let claim = next(stood, COMPUTING, 0);
        let ended = match kept {
            Some(number) => next(claim, PRESENT, number),
            None => next(claim, EMPTY, 0),
        };
        // (nobody else changes the word of a claim)
        self.cell(context, key).swap(ended, SeqCst);
        kept.is_some() || !clear
    }

    fn close(&self, context: usize, mut action: impl FnMut(u32, Payload)) {
        let (mut kept, mut len) = ([0; MOST_KEYS], 0);
        for key in 0..self.keys.len() {
            let sealed = self.change(context, key, |word| match state(word) {
                EMPTY | PRESENT => Some(next(word, SEALED, number(word))),
                _ => None,
            });
            if let Some(number) = sealed.map(number).filter(|it| *it > 0) {
                kept[len] = number;
                len += 1;
            }
        }
        kept[..len].sort_unstable_by(|a, b| b.cmp(a));
        for number in &kept[..len] {
            let value = self.values[*number as usize - 1].load(Acquire);
            // SAFETY: a number is in a word after its value is in its place, where that lives as long as the store.
            let value = unsafe { &*value };
            if value.closeable {
                action(*number, *value);
            }
        }
    }
}

fn main() -> ExitCode {
    driver::run::<Store>()
}
