//! A table that is searched while it is updated.
//!
//! The table is the writer's alone. Readers search copies of its three lookup areas: each update publishes one, a [`View`], by putting an [`Arc`]
//! of it in the place of the last under a lock. This module is argued and tested, not proved; the doors that it calls are proved. (The protocol of
//! flow_live.h, which has no lock, is proved: crates/theory/specs/Live.antt. This is another one, and no claim of that file is about it.) The argument:
//!
//! - A view does not alter. A copy is written only where [`Arc::get_mut`] lends it, so where no reader holds it, and none can come to hold it then:
//!   readers take views from the shared place, which has the latest one, or from one another. To write a view that is shared takes unsafe code.
//! - A view is one whole table: it is filled after the closure has returned and before it is put in place.
//! - An update that returned is seen. Its version was stored before it returned, so the reader loads that version or a later one. Where this is the
//!   version of the view that the reader has, it has the update. Else it takes the lock, which the writer let go of before it returned, and finds
//!   the update's view or a later one.
//! - Never back. Views are put in place in the order of their versions, and a reader leaves its view only for the one that it finds in place.
//! - Nor behind another reader. A view is put in place and its version stored under one hold of the lock, so whoever hears of a view that a reader
//!   found there loads that view's version or a later one.

#![forbid(unsafe_code)]

use std::fmt;
use std::sync::atomic::{AtomicU64, Ordering};
use std::sync::{Arc, Mutex, MutexGuard, PoisonError};

use crate::{lookup, Answers, KeyHasher, LookupAreas, Refusal, Settings, Table};

// Areas are compared and copied in parts of this many bytes, a line of a processor's cache.
const LINE: usize = 64;

/// A table that one thread updates while others search it, each by a [`Reader`] of its own.
///
/// What is kept:
///
/// - A [`View`] is one whole table, as an update left it, and does not alter.
/// - A view that is taken after an update returned has that update or a later one. A reader never goes back, nor behind a view that another reader
///   took before.
/// - Neither side waits for the other's work: an update writes a copy that no reader holds or makes a new one, and a reader that has the latest view
///   looks at one atomic number. Else it takes a lock, which is held only while a pointer is copied or replaced.
/// - [`Live::settled`] says when no reader has a view from before the last update.
///
/// What to look out for:
///
/// - A reader holds a view, also between its searches, until it takes a later one or is dropped, and this keeps the view's memory. With n readers
///   there are at most n + 2 views, each as large as the three lookup areas; what readers let go of is freed by the next update, or by
///   [`Live::settled`], but for one view that an update can write.
/// - An update compares all of the lookup areas with the copy that it writes, whatever it changed. Several calls in one update cost this once.
/// - There is one writer at a time, by `&mut`: where several threads update, put the `Live` in a lock. And there is one reader for each thread, by
///   `&mut` too: clone it for another.
///
/// All this is argued and tested, not proved; the doors that it calls are proved.
///
/// ```
/// use flow::{Live, Refusal, Settings};
/// use std::thread;
///
/// let mut live = Live::new(Settings::new(6, 3, 2, 4, 128, 8, 13)?);
/// let mut reader = live.reader();
/// let searches = thread::spawn(move || loop {
///     // a view for each burst of packets
///     let view = reader.view();
///     match (view.search(&[1; 13]), view.search(&[2; 13])) {
///         // one update added both
///         (Ok(Some(7)), Ok(Some(8))) => return view.version(),
///         other => assert_eq!(other, (Ok(None), Ok(None))),
///     }
/// });
/// live.update(|table| {
///     table.add(&[1; 13], 7)?;
///     table.add(&[2; 13], 8)
/// })?;
/// assert_eq!(searches.join().unwrap(), 1);
/// // the thread's reader is dropped
/// assert!(live.settled());
/// # Ok::<(), Refusal>(())
/// ```
///
/// A [`Table`] itself is not searched by one thread while another updates it. This compiles:
///
/// ```
/// use flow::{Live, Refusal, Settings};
/// use std::thread;
///
/// let mut live = Live::new(Settings::new(6, 3, 2, 4, 128, 8, 13)?);
/// let mut reader = live.reader();
/// thread::scope(|threads| {
///     threads.spawn(|| reader.view().search(&[1; 13]));
///     live.update(|table| table.add(&[1; 13], 7))
/// })?;
/// # Ok::<(), Refusal>(())
/// ```
///
/// and this does not:
///
/// ```compile_fail,E0502
/// use flow::{Refusal, Settings, Table};
/// use std::thread;
///
/// let mut table = Table::new(Settings::new(6, 3, 2, 4, 128, 8, 13)?);
/// thread::scope(|threads| {
///     threads.spawn(|| table.search(&[1; 13]));
///     table.add(&[1; 13], 7)
/// })?;
/// # Ok::<(), Refusal>(())
/// ```
#[derive(Debug)]
pub struct Live {
    table: Table,
    shared: Arc<Shared>,
    // Older views, the latest first: all that readers may hold, and one for an update to write.
    spares: Vec<Arc<View>>,
}

/// Takes views of a [`Live`] table: one reader for each thread that searches.
///
/// It outlives the `Live`, and then has the last view that was published. A clone has the same view, until it takes another.
#[derive(Clone, Debug)]
pub struct Reader {
    shared: Arc<Shared>,
    view: Arc<View>,
}

/// A [`Live`] table as one update left it, for searching. It does not alter. What else only reads, as [`search_counts`](crate::search_counts), takes
/// [`View::settings`] and [`View::areas`].
pub struct View {
    version: u64,
    settings: Settings,
    // the table's own
    hasher: Arc<KeyHasher>,
    clipped_counts: Vec<u8>,
    buckets: Vec<u8>,
    side_store: Vec<u8>,
}

#[derive(Debug)]
struct Shared {
    latest: Mutex<Arc<View>>,
    // The version of the latest view, stored under its lock, so that a reader that has this view leaves the lock alone.
    version: AtomicU64,
}

impl Shared {
    // What is done under the lock does not panic, so none is poisoned; and the view in it would be whole then too.
    fn lock(&self) -> MutexGuard<'_, Arc<View>> {
        self.latest.lock().unwrap_or_else(PoisonError::into_inner)
    }

    fn latest(&self) -> Arc<View> {
        Arc::clone(&self.lock())
    }

    // Puts a view in the place of the latest, which it hands back. Whoever has the lock finds the latest view and its version together.
    fn replace(&self, next: Arc<View>) -> Arc<View> {
        let version = next.version;
        let mut latest = self.lock();
        let last = std::mem::replace(&mut *latest, next);
        self.version.store(version, Ordering::Release);
        last
    }
}

impl Live {
    /// A cleared table, published as version 0.
    pub fn new(settings: Settings) -> Live {
        Live::from(Table::new(settings))
    }

    /// Updates the table by the closure's calls and publishes, all at once, what they made of it; also where the closure answers with a refusal:
    /// what was accepted before it stands. The closure may replace the table by one of other settings or of the other width; views then have
    /// these.
    ///
    /// Where the closure panics, nothing is published: readers keep to the last update, since half a batch is no table that anyone meant. The
    /// calls that were accepted before the panic stand in [`Live::table`], and the next update publishes them with its own.
    ///
    /// ```
    /// use flow::{Live, Refusal, Settings, Table};
    ///
    /// let mut live = Live::new(Settings::new(6, 3, 2, 4, 128, 8, 13)?);
    /// let mut reader = live.reader();
    /// let refused = live.update(|table| {
    ///     table.add(&[1; 13], 7)?;
    ///     table.add(&[1; 13], 8)
    /// });
    /// assert_eq!(refused, Err(Refusal::Held));
    /// assert_eq!(reader.view().search(&[1; 13]), Ok(Some(7)));
    ///
    /// live.update(|table| *table = Table::new(Settings::new(8, 3, 2, 4, 256, 8, 37).unwrap()));
    /// assert_eq!(reader.view().search(&[1; 37]), Ok(None));
    /// assert_eq!(reader.view().search(&[1; 13]), Err(Refusal::KeyLength));
    /// # Ok::<(), Refusal>(())
    /// ```
    pub fn update<R>(&mut self, calls: impl FnOnce(&mut Table) -> R) -> R {
        let answer = calls(&mut self.table);
        self.publish();
        answer
    }

    /// The table as the last update left it; where its closure panicked, with the calls that were accepted before.
    pub fn table(&self) -> &Table {
        &self.table
    }

    /// The table, as [`Live::table`] has it. Readers keep the last view that was published.
    pub fn into_table(self) -> Table {
        self.table
    }

    /// A reader, for the thread that searches.
    pub fn reader(&self) -> Reader {
        Reader {
            view: self.shared.latest(),
            shared: Arc::clone(&self.shared),
        }
    }

    /// Whether no reader has a view from before the last update. True stays true until the next update. It never waits.
    ///
    /// A reader lets go of its view when it takes a later one or is dropped, not when its thread is done with a search: one that is kept and not used
    /// holds this up. All that was done with older views comes before the answer true, so what only their classes refer to can then be freed.
    ///
    /// ```
    /// use flow::{Live, Refusal, Settings};
    ///
    /// let mut live = Live::new(Settings::new(6, 3, 2, 4, 128, 8, 13)?);
    /// let mut reader = live.reader();
    /// live.update(|table| table.add(&[1; 13], 7))?;
    /// assert!(!live.settled());
    /// reader.view();
    /// assert!(live.settled());
    /// # Ok::<(), Refusal>(())
    /// ```
    pub fn settled(&mut self) -> bool {
        self.drop_spares();
        self.spares
            .iter_mut()
            .all(|spare| Arc::get_mut(spare).is_some())
    }

    fn publish(&mut self) {
        self.drop_spares();
        let next = self.next_view();
        let last = self.shared.replace(next);
        self.spares.insert(0, last);
    }

    // The table as the next view: in the latest spare that no reader holds, which differs least, or in a new one.
    fn next_view(&mut self) -> Arc<View> {
        let version = self.shared.version.load(Ordering::Relaxed) + 1;
        for at in 0..self.spares.len() {
            match Arc::get_mut(&mut self.spares[at]) {
                Some(view) if view.settings == *self.table.settings() => {
                    view.rewrite(version, &self.table);
                    return self.spares.remove(at);
                }
                _ => {}
            }
        }
        Arc::new(View::of(version, &self.table))
    }

    // Keeps the spares that readers hold, and of the others the latest that an update can write.
    fn drop_spares(&mut self) {
        let settings = self.table.settings();
        let mut kept = false;
        self.spares.retain_mut(|spare| match Arc::get_mut(spare) {
            None => true,
            Some(view) => view.settings == *settings && !std::mem::replace(&mut kept, true),
        });
    }
}

impl From<Table> for Live {
    /// Publishes a table, as one that was loaded, as version 0.
    fn from(table: Table) -> Live {
        let view = View::of(0, &table);
        Live {
            table,
            shared: Arc::new(Shared {
                version: AtomicU64::new(view.version),
                latest: Mutex::new(Arc::new(view)),
            }),
            spares: Vec::new(),
        }
    }
}

impl Reader {
    /// The latest view, for one search or for a burst of them: an update that returned before this call is in it. The view that the reader had is
    /// let go of where it is an older one.
    pub fn view(&mut self) -> &View {
        if self.shared.version.load(Ordering::Acquire) != self.view.version {
            self.view = self.shared.latest();
        }
        &self.view
    }
}

impl View {
    fn of(version: u64, table: &Table) -> View {
        let lookup = table.areas().lookup();
        View {
            version,
            settings: *table.settings(),
            hasher: Arc::clone(table.hasher()),
            clipped_counts: lookup.clipped_counts.to_vec(),
            buckets: lookup.buckets.to_vec(),
            side_store: lookup.side_store.to_vec(),
        }
    }

    // Of a table with the same settings.
    fn rewrite(&mut self, version: u64, table: &Table) {
        let lookup = table.areas().lookup();
        self.version = version;
        copy_changed(&mut self.clipped_counts, lookup.clipped_counts);
        copy_changed(&mut self.buckets, lookup.buckets);
        copy_changed(&mut self.side_store, lookup.side_store);
    }

    /// How many updates it has: 0 for the first view, and one more for each update. One whose closure panicked is not counted.
    pub fn version(&self) -> u64 {
        self.version
    }

    /// The settings.
    pub fn settings(&self) -> &Settings {
        &self.settings
    }

    /// The three areas that a search reads.
    pub fn areas(&self) -> LookupAreas<'_> {
        LookupAreas {
            clipped_counts: &self.clipped_counts,
            buckets: &self.buckets,
            side_store: &self.side_store,
        }
    }

    /// The class of a held flow, or None for an absent one. [`Refusal::KeyLength`] where the key is not of the table's width.
    /// It goes by the table's own [`KeyHasher`].
    pub fn search(&self, key: &[u8]) -> Result<Option<u32>, Refusal> {
        self.search_lent(&self.hasher, key)
    }

    /// [`View::search`] with a hasher that is kept from call to call. Also [`Refusal::AreaLength`] where it is for keys of another width.
    pub fn search_lent(&self, hasher: &KeyHasher, key: &[u8]) -> Result<Option<u32>, Refusal> {
        lookup::search_lent(hasher, &self.settings, &self.areas(), key)
    }

    /// [`View::search_lent`] for many keys at once, all in this one table: as [`search_burst`](crate::search_burst).
    ///
    /// ```
    /// use flow::{KeyHasher, Live, Refusal, Settings};
    ///
    /// let mut live = Live::new(Settings::new(6, 3, 2, 4, 128, 8, 13)?);
    /// let mut reader = live.reader();
    /// live.update(|table| table.add(&[1; 13], 7))?;
    /// let hash_table = KeyHasher::ipv4();
    /// let keys = [[1; 13], [2; 13]].concat();
    /// let mut numbers = [0; 2];
    /// let mut answers = reader.view().search_burst(&hash_table, &keys, &mut numbers)?;
    /// assert_eq!(answers.next(), Some(Ok(Some(7))));
    /// assert_eq!(answers.next(), Some(Ok(None)));
    /// # Ok::<(), Refusal>(())
    /// ```
    pub fn search_burst<'a>(
        &self,
        hasher: &KeyHasher,
        keys: &[u8],
        numbers: &'a mut [u64],
    ) -> Result<Answers<'a>, Refusal> {
        lookup::search_burst(hasher, &self.settings, &self.areas(), keys, numbers)
    }
}

impl fmt::Debug for View {
    /// `View { version: 1, settings: [6, 3, 2, 4, 128, 8, 13] }`
    fn fmt(&self, f: &mut fmt::Formatter<'_>) -> fmt::Result {
        let (version, settings) = (self.version, self.settings.numbers());
        write!(f, "View {{ version: {version}, settings: {settings:?} }}")
    }
}

// Writes only the lines that differ, so that caches keep the others.
fn copy_changed(to: &mut [u8], from: &[u8]) {
    for (to, from) in to.chunks_mut(LINE).zip(from.chunks(LINE)) {
        if to != from {
            to.copy_from_slice(from);
        }
    }
}

#[cfg(test)]
mod tests {
    use super::*;
    use std::collections::BTreeSet;
    use std::hint;
    use std::sync::mpsc;
    use std::thread;
    use std::time::{Duration, Instant};

    fn settings(p: u64, width: u64) -> Settings {
        Settings::new(p, 2, 1, 2, 8, 4, width).unwrap()
    }

    fn free_spares(live: &mut Live) -> usize {
        live.spares.iter_mut().filter_map(Arc::get_mut).count()
    }

    // With a reader that keeps up, and with none.
    #[test]
    fn two_views_serve_every_update() {
        let mut live = Live::new(settings(4, 13));
        let mut reader = Some(live.reader());
        let mut views = BTreeSet::new();
        for class in 0..100 {
            live.update(|table| {
                table.clear();
                table.add(&[1; 13], class)
            })
            .unwrap();
            if class == 50 {
                reader = None;
            }
            if let Some(reader) = &mut reader {
                assert_eq!(reader.view().search(&[1; 13]), Ok(Some(class)));
            }
            views.insert(Arc::as_ptr(&live.shared.latest()));
        }
        assert_eq!((views.len(), live.spares.len()), (2, 1));
    }

    // Readers come, take views, keep them and go.
    #[test]
    fn views_stay_few() {
        let mut live = Live::new(settings(4, 37));
        let mut readers: Vec<Reader> = Vec::new();
        let mut most_spares = 0;
        for i in 0..420 {
            live.update(|table| table.clear());
            let held = live.spares.len() - free_spares(&mut live);
            assert!(free_spares(&mut live) <= 1, "update {i}");
            assert!(held <= readers.len(), "update {i}");
            most_spares = most_spares.max(live.spares.len());
            if i % 2 == 0 && readers.len() < 12 {
                readers.push(live.reader());
            }
            for reader in readers.iter_mut().skip(i % 3).step_by(5) {
                assert_eq!(reader.view().version(), i as u64 + 1);
            }
            if i % 7 == 0 {
                readers.remove(i % readers.len());
            }
        }
        assert!(most_spares > 4, "{most_spares}");
        readers.clear();
        assert!(live.spares.len() > 1 && live.settled());
        assert_eq!(live.spares.len(), 1);
    }

    #[test]
    fn spares_of_other_settings_go() {
        let mut live = Live::new(settings(4, 13));
        let mut reader = live.reader();
        live.update(|table| table.clear());
        for (p, width) in [(5, 13), (5, 37), (4, 37), (4, 13)] {
            live.update(|table| *table = Table::new(settings(p, width)));
            live.update(|table| table.add(&vec![1; width as usize], 7))
                .unwrap();
            // the reader's, and at most one that the next update can write
            assert!(live.spares.len() <= 2);
            assert_eq!(reader.view().settings(), &settings(p, width));
            assert!(live.settled());
            let spares = live.spares.iter();
            assert!(spares.map(|spare| spare.settings).eq([settings(p, width)]));
        }
    }

    #[test]
    fn a_reader_of_the_latest_view_takes_no_lock() {
        let mut live = Live::new(settings(4, 13));
        let mut reader = live.reader();
        live.update(|table| table.add(&[1; 13], 7)).unwrap();
        reader.view();
        let (sender, receiver) = mpsc::channel();
        let locked = live.shared.lock();
        let searches = thread::spawn(move || sender.send(reader.view().search(&[1; 13])));
        let answer = receiver.recv_timeout(Duration::from_secs(20));
        drop(locked);
        assert_eq!(answer, Ok(Ok(Some(7))));
        searches.join().unwrap().unwrap();
    }

    // What the argument rests on. Another thread looks as often as it can while updates go on.
    #[test]
    fn under_the_lock_the_version_is_that_of_the_latest_view() {
        const LIMIT: Duration = Duration::from_millis(150);
        let mut live = Live::new(settings(4, 13));
        let shared = Arc::clone(&live.shared);
        let looks = thread::spawn(move || {
            let start = Instant::now();
            let (mut last, mut seen) = (0, 0);
            while start.elapsed() < LIMIT {
                let latest = shared.lock();
                // the first looks for a store that comes too late, the others for one that comes too early
                for _ in 0..8 {
                    assert_eq!(shared.version.load(Ordering::Relaxed), latest.version);
                    hint::spin_loop();
                }
                seen += u64::from(latest.version != last);
                last = latest.version;
            }
            seen
        });
        while !looks.is_finished() {
            live.update(|_| ());
        }
        println!("{} versions seen", looks.join().unwrap());
    }

    // Areas of each length up to three lines, with each byte changed alone, and all of them.
    #[test]
    fn changed_lines_are_copied() {
        for length in 0..=3 * LINE {
            let from: Vec<u8> = (0..length).map(|i| i as u8).collect();
            for at in 0..length {
                let mut to = from.clone();
                to[at] ^= 0x80;
                copy_changed(&mut to, &from);
                assert_eq!(to, from);
            }
            let mut to = vec![0xff; length];
            copy_changed(&mut to, &from);
            assert_eq!(to, from);
        }
    }
}
