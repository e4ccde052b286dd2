//! std's HashMap behind C functions, so that it runs in the same rounds as the others.

use std::collections::HashMap;
use std::hash::{Hash, Hasher};
use std::ptr::{addr_of, addr_of_mut};
use std::sync::atomic::{AtomicU32, Ordering};

// bin/bench compiles this with --cfg wide for keys of 37 bytes.
#[cfg(not(wide))]
const KEY_BYTES: usize = 13;
#[cfg(wide)]
const KEY_BYTES: usize = 37;

type Key = [u8; KEY_BYTES];

static mut MAP: Option<HashMap<Key, u32>> = None;
static mut COUNTED: Option<HashMap<CountedKey, u32>> = None;

// A key that counts how often it is compared. It hashes as a plain key does.
#[derive(Eq)]
struct CountedKey(Key);

static COMPARED: AtomicU32 = AtomicU32::new(0);

impl PartialEq for CountedKey {
    fn eq(&self, other: &CountedKey) -> bool {
        COMPARED.fetch_add(1, Ordering::Relaxed);
        self.0 == other.0
    }
}

impl Hash for CountedKey {
    fn hash<H: Hasher>(&self, state: &mut H) {
        self.0.hash(state);
    }
}

/// # Safety
/// `keys` has the bytes of a key for each flow, `classes` a number; one thread calls these functions.
#[no_mangle]
pub unsafe extern "C" fn hashmap_build(keys: *const u8, classes: *const u32, flows: usize) {
    let keys = std::slice::from_raw_parts(keys.cast::<Key>(), flows);
    let classes = std::slice::from_raw_parts(classes, flows);
    let pairs = || keys.iter().copied().zip(classes.iter().copied());
    *addr_of_mut!(MAP) = Some(pairs().collect());
    *addr_of_mut!(COUNTED) = Some(pairs().map(|(k, c)| (CountedKey(k), c)).collect());
}

/// # Safety
/// After `hashmap_build`; `key` has the bytes of a key.
#[no_mangle]
pub unsafe extern "C" fn hashmap_search(key: *const u8) -> u64 {
    match (*addr_of!(MAP)).as_ref() {
        Some(map) => map
            .get(&*key.cast::<Key>())
            .map_or(100 << 32, |&class| u64::from(class)),
        None => 0,
    }
}

/// # Safety
/// As `hashmap_search`.
#[no_mangle]
pub unsafe extern "C" fn hashmap_reads(key: *const u8) -> u32 {
    COMPARED.store(0, Ordering::Relaxed);
    if let Some(map) = (*addr_of!(COUNTED)).as_ref() {
        map.get(&CountedKey(*key.cast::<Key>()));
    }
    COMPARED.load(Ordering::Relaxed)
}
