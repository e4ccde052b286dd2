//! A table that owns its areas.

use std::fmt;
use std::sync::Arc;

use crate::doors::{self, LentAreas};
use crate::{
    accepted, lookup, Answers, FlowKey, KeyHasher, LookupAreas, RecordPlace, Refusal, SearchAnswer,
    Settings, Tally, CLASS_BYTES, IPV4_WIDTH, SETTINGS_COUNT,
};

// A snapshot: a two-byte count of settings, these in two bytes each, a two-byte count of records, and these. Width 13 is left out of it.
const SETTINGS_WITHOUT_WIDTH: usize = SETTINGS_COUNT - 1;

/// A table with its five areas and its work area. Whatever was called, the areas hold the layout of the flows held.
///
/// ```
/// use flow::{Refusal, Settings, Table};
///
/// let mut table = Table::new(Settings::new(6, 3, 2, 4, 128, 8, 13)?);
/// let key = [1; 13];
/// table.add(&key, 7)?;
/// assert_eq!(table.search(&key), Ok(Some(7)));
/// assert_eq!(table.add(&key, 8), Err(Refusal::Held));
/// table.change(&key, 8)?;
/// assert_eq!(table.search(&key), Ok(Some(8)));
/// table.remove(&key)?;
/// assert_eq!(table.search(&key), Ok(None));
///
/// // the flows of a table are all of its width
/// let mut ipv6 = Table::new(Settings::new(6, 3, 2, 4, 128, 8, 37)?);
/// ipv6.add(&[1; 37], 7)?;
/// assert_eq!(ipv6.search(&[1; 37]), Ok(Some(7)));
/// assert_eq!(ipv6.search(&key), Err(Refusal::KeyLength));
/// assert_eq!(format!("{ipv6:?}"), "Table { settings: [6, 3, 2, 4, 128, 8, 37], flows: 1 }");
/// # Ok::<(), Refusal>(())
/// ```
///
/// Two tables are equal where their settings and flows are, and so their areas' bytes.
#[derive(Clone)]
pub struct Table {
    settings: Settings,
    own: OwnAreas,
    // for the keys' H; clones share it
    hasher: Arc<KeyHasher>,
}

#[derive(Clone, Default)]
struct OwnAreas {
    ledger: Vec<u8>,
    true_counts: Vec<u16>,
    clipped_counts: Vec<u8>,
    buckets: Vec<u8>,
    side_store: Vec<u8>,
    work: Vec<u16>,
}

impl OwnAreas {
    // Zeros, of the settings' lengths.
    fn of(settings: &Settings) -> OwnAreas {
        let lengths = settings.area_lengths();
        OwnAreas {
            ledger: vec![0; lengths.ledger],
            true_counts: vec![0; lengths.true_counts],
            clipped_counts: vec![0; lengths.clipped_counts],
            buckets: vec![0; lengths.buckets],
            side_store: vec![0; lengths.side_store],
            work: vec![0; lengths.work],
        }
    }

    fn lend(&mut self) -> (LentAreas<'_>, &mut [u16]) {
        let areas = LentAreas {
            ledger: &mut self.ledger,
            true_counts: &mut self.true_counts,
            clipped: &mut self.clipped_counts,
            buckets: &mut self.buckets,
            side: &mut self.side_store,
        };
        (areas, &mut self.work)
    }
}

/// The flows of a [`Table`] with their classes, in rising key order: what [`Table::iter`] gives.
#[derive(Clone)]
pub struct Flows<'a> {
    records: std::slice::ChunksExact<'a, u8>,
}

/// The five areas of a [`Table`], for reading.
#[derive(Clone, Copy, Debug, PartialEq, Eq)]
pub struct TableAreas<'a> {
    /// The ledger.
    pub ledger: &'a [u8],
    /// The true counts.
    pub true_counts: &'a [u16],
    /// The clipped counts.
    pub clipped_counts: &'a [u8],
    /// The buckets.
    pub buckets: &'a [u8],
    /// The side store.
    pub side_store: &'a [u8],
}

impl<'a> TableAreas<'a> {
    /// The three that a search reads.
    pub fn lookup(&self) -> LookupAreas<'a> {
        LookupAreas {
            clipped_counts: self.clipped_counts,
            buckets: self.buckets,
            side_store: self.side_store,
        }
    }
}

impl Table {
    /// A cleared table.
    pub fn new(settings: Settings) -> Table {
        let own = OwnAreas::of(&settings);
        let mut table = Table::with(settings, own);
        table.clear();
        table
    }

    fn with(settings: Settings, own: OwnAreas) -> Table {
        Table {
            hasher: Arc::new(KeyHasher::of(&settings)),
            settings,
            own,
        }
    }

    /// The settings.
    pub fn settings(&self) -> &Settings {
        &self.settings
    }

    /// What gives H of its keys, for the calls that are lent a hasher.
    pub fn hasher(&self) -> &Arc<KeyHasher> {
        &self.hasher
    }

    /// How many flows are held.
    ///
    /// ```
    /// use flow::{Refusal, Settings, Table};
    ///
    /// let mut table = Table::new(Settings::new(6, 3, 2, 4, 128, 8, 13)?);
    /// assert!(table.is_empty());
    /// table.add(&[1; 13], 7)?;
    /// assert_eq!((table.len(), table.is_empty()), (1, false));
    /// # Ok::<(), Refusal>(())
    /// ```
    pub fn len(&self) -> usize {
        usize::from(u16::from_be_bytes([self.own.ledger[0], self.own.ledger[1]]))
    }

    /// Whether no flow is held.
    pub fn is_empty(&self) -> bool {
        self.len() == 0
    }

    /// The flows with their classes, in rising key order.
    ///
    /// ```
    /// use flow::{FlowKey, Refusal, Settings, Table};
    ///
    /// let mut table = Table::new(Settings::new(6, 3, 2, 4, 128, 8, 13)?);
    /// table.add(&[2; 13], 8)?;
    /// table.add(&[1; 13], 7)?;
    /// let flows: Vec<(FlowKey, u32)> = table.iter().collect();
    /// assert_eq!(flows, [([1; 13].into(), 7), ([2; 13].into(), 8)]);
    /// assert_eq!(table.iter().len(), 2);
    /// # Ok::<(), Refusal>(())
    /// ```
    pub fn iter(&self) -> Flows<'_> {
        let bytes = self.settings.record_bytes();
        Flows {
            records: self.own.ledger[2..][..bytes * self.len()].chunks_exact(bytes),
        }
    }

    /// The five areas.
    pub fn areas(&self) -> TableAreas<'_> {
        TableAreas {
            ledger: &self.own.ledger,
            true_counts: &self.own.true_counts,
            clipped_counts: &self.own.clipped_counts,
            buckets: &self.own.buckets,
            side_store: &self.own.side_store,
        }
    }

    /// Takes every flow out.
    pub fn clear(&mut self) {
        let numbers = self.settings.numbers();
        let (areas, _) = self.own.lend();
        accepted(doors::clear(numbers, areas)).expect("areas of their lengths are cleared");
    }

    /// Adds a flow. [`Refusal::KeyLength`] where the key is not of the table's width, [`Refusal::Held`] where it is held, [`Refusal::Full`] where
    /// the capacity is reached, [`Refusal::SideFull`] where more flows would belong to the side than there are side places.
    pub fn add(&mut self, key: &[u8], class: u32) -> Result<(), Refusal> {
        let numbers = self.settings.numbers();
        let (areas, work) = self.own.lend();
        accepted(doors::add(numbers, areas, work, key, class))
    }

    /// Gives a held flow another class. [`Refusal::KeyLength`] where the key is not of the table's width, [`Refusal::NotHeld`] where it is not
    /// held.
    pub fn change(&mut self, key: &[u8], class: u32) -> Result<(), Refusal> {
        let numbers = self.settings.numbers();
        let (areas, work) = self.own.lend();
        accepted(doors::change(numbers, areas, work, key, class))
    }

    /// Takes a held flow out. [`Refusal::KeyLength`] where the key is not of the table's width, [`Refusal::NotHeld`] where it is not held,
    /// [`Refusal::SideFull`] where flows that the removal moves would belong to the side, and it has too few places.
    pub fn remove(&mut self, key: &[u8]) -> Result<(), Refusal> {
        let numbers = self.settings.numbers();
        let (areas, work) = self.own.lend();
        accepted(doors::remove(numbers, areas, work, key))
    }

    /// The class of a held flow, or None for an absent one. [`Refusal::KeyLength`] where the key is not of the table's width. It goes by the table's
    /// own [`KeyHasher`].
    pub fn search(&self, key: &[u8]) -> Result<Option<u32>, Refusal> {
        self.search_lent(&self.hasher, key)
    }

    /// The class of a held flow; None for an absent one, and for a key that is not of the table's width.
    ///
    /// ```
    /// use flow::{Refusal, Settings, Table};
    ///
    /// let mut table = Table::new(Settings::new(6, 3, 2, 4, 128, 8, 13)?);
    /// table.add(&[1; 13], 7)?;
    /// assert_eq!(table.get(&[1; 13]), Some(7));
    /// assert_eq!((table.get(&[2; 13]), table.get(&[1; 37])), (None, None));
    /// assert!(table.contains(&[1; 13]) && !table.contains(&[2; 13]));
    /// # Ok::<(), Refusal>(())
    /// ```
    pub fn get(&self, key: &[u8]) -> Option<u32> {
        self.search(key).ok().flatten()
    }

    /// Whether a flow is held.
    pub fn contains(&self, key: &[u8]) -> bool {
        self.get(key).is_some()
    }

    /// [`Table::search`] that also says where the record lies: as [`search_place`](crate::search_place).
    pub fn search_place(&self, key: &[u8]) -> Result<Option<RecordPlace>, Refusal> {
        lookup::search_place(&self.settings, &self.areas().lookup(), key)
    }

    /// [`Table::search`] with a hasher that is kept from call to call.
    pub fn search_lent(&self, hasher: &KeyHasher, key: &[u8]) -> Result<Option<u32>, Refusal> {
        lookup::search_lent(hasher, &self.settings, &self.areas().lookup(), key)
    }

    /// [`Table::search`] that also gives the search's counts: as [`search_counts`](crate::search_counts). A [`Window`](crate::Window) takes what
    /// it gives.
    pub fn search_counts(&self, key: &[u8]) -> Result<SearchAnswer, Refusal> {
        lookup::search_counts(&self.settings, &self.areas().lookup(), key)
    }

    /// [`Table::search_counts`] with a hasher that is kept from call to call.
    pub fn search_counts_lent(
        &self,
        hasher: &KeyHasher,
        key: &[u8],
    ) -> Result<SearchAnswer, Refusal> {
        lookup::search_counts_lent(hasher, &self.settings, &self.areas().lookup(), key)
    }

    /// [`Table::search_lent`] for many keys at once, one after the other in `keys`, with a number lent for each answer: as
    /// [`search_burst`](crate::search_burst). [`Refusal::KeyLength`] where the keys have not the table's width for each number; then these
    /// stay.
    ///
    /// ```
    /// use flow::{Refusal, Settings, Table};
    ///
    /// let mut table = Table::new(Settings::new(6, 3, 2, 4, 128, 8, 13)?);
    /// table.add(&[1; 13], 7)?;
    /// let hasher = table.hasher();
    /// let keys = [[1; 13], [2; 13], [1; 13]].concat();
    /// let mut numbers = [0; 3];
    /// for (i, class) in table.search_burst(hasher, &keys, &mut numbers)?.enumerate() {
    ///     assert_eq!(class, Ok(if i == 1 { None } else { Some(7) }));
    /// }
    /// # Ok::<(), Refusal>(())
    /// ```
    pub fn search_burst<'a>(
        &self,
        hasher: &KeyHasher,
        keys: &[u8],
        numbers: &'a mut [u64],
    ) -> Result<Answers<'a>, Refusal> {
        lookup::search_burst(
            hasher,
            &self.settings,
            &self.areas().lookup(),
            keys,
            numbers,
        )
    }

    /// Counts what the table holds.
    pub fn tally(&self) -> Tally {
        let areas = self.areas();
        lookup::tally(&self.settings, areas.ledger, &areas.lookup())
            .expect("a table's own areas are not damaged")
    }

    /// The snapshot: settings and flows, for [`Table::load`].
    ///
    /// ```
    /// use flow::{Refusal, Settings, Table};
    ///
    /// let mut table = Table::new(Settings::new(6, 3, 2, 4, 128, 8, 13)?);
    /// table.add(&[1; 13], 7)?;
    /// let file = table.save();
    /// assert_eq!(file.len(), 16 + 17);
    /// let loaded = Table::load(&file)?;
    /// assert_eq!(loaded.search(&[1; 13]), Ok(Some(7)));
    /// assert_eq!(Table::load(&file[..20]).err(), Some(Refusal::FileLength));
    ///
    /// // at width 37 the file has the width too
    /// let mut table = Table::new(Settings::new(6, 3, 2, 4, 128, 8, 37)?);
    /// table.add(&[1; 37], 7)?;
    /// let file = table.save();
    /// assert_eq!(file.len(), 18 + 41);
    /// assert_eq!(Table::load(&file)?.search(&[1; 37]), Ok(Some(7)));
    /// # Ok::<(), Refusal>(())
    /// ```
    pub fn save(&self) -> Vec<u8> {
        let settings_saved = match self.settings.numbers() {
            [.., IPV4_WIDTH] => SETTINGS_WITHOUT_WIDTH,
            _ => SETTINGS_COUNT,
        };
        let head = 2 + 2 * settings_saved + 2;
        let mut file = vec![0; head + self.settings.record_bytes() * self.len()];
        // the door writes to its work area, and this table's may be read by others
        let mut work = vec![0; self.own.work.len()];
        accepted(doors::save(
            self.settings.numbers(),
            &self.own.ledger,
            &mut work,
            &mut file,
        ))
        .expect("a table's own ledger is not damaged, and its side store suffices");
        file
    }

    /// The table of a snapshot, with the settings of the file.
    ///
    /// [`Refusal::FileLength`] where the file is cut or overlong or its first count is not 6 or 7, or is 7 with width 13, [`Refusal::Setting`]
    /// where one of its settings is out of range, [`Refusal::Full`] where it has more flows than its capacity, [`Refusal::FileOrder`] where its
    /// keys do not rise, [`Refusal::SideFull`] where more flows would belong to the side than there are side places.
    pub fn load(file: &[u8]) -> Result<Table, Refusal> {
        let mut own = match Settings::of(file_settings(file)) {
            Ok(settings) => OwnAreas::of(&settings),
            // no settings, no lengths: the door says why it refuses the file
            Err(_) => OwnAreas::default(),
        };
        let mut numbers = [0; SETTINGS_COUNT];
        let (areas, work) = own.lend();
        accepted(doors::load(file, areas, work, &mut numbers))?;
        let settings = Settings::of(numbers)?;
        Ok(Table::with(settings, own))
    }
}

impl PartialEq for Table {
    /// ```
    /// use flow::{Refusal, Settings, Table};
    ///
    /// let mut table = Table::new(Settings::new(6, 3, 2, 4, 128, 8, 13)?);
    /// table.add(&[1; 13], 7)?;
    /// assert!(table == Table::load(&table.save())?);
    /// assert!(table != Table::new(*table.settings()));
    /// # Ok::<(), Refusal>(())
    /// ```
    fn eq(&self, other: &Table) -> bool {
        self.settings == other.settings && self.areas() == other.areas()
    }
}

impl Eq for Table {}

impl fmt::Debug for Table {
    /// `Table { settings: [6, 3, 2, 4, 128, 8, 13], flows: 2 }`
    fn fmt(&self, f: &mut fmt::Formatter<'_>) -> fmt::Result {
        let (settings, flows) = (self.settings.numbers(), self.len());
        write!(f, "Table {{ settings: {settings:?}, flows: {flows} }}")
    }
}

impl<'a> IntoIterator for &'a Table {
    type Item = (FlowKey, u32);
    type IntoIter = Flows<'a>;

    fn into_iter(self) -> Flows<'a> {
        self.iter()
    }
}

impl Iterator for Flows<'_> {
    type Item = (FlowKey, u32);

    fn next(&mut self) -> Option<(FlowKey, u32)> {
        let (key, class) = self
            .records
            .next()
            .map(|record| record.split_at(record.len() - CLASS_BYTES))?;
        let key = FlowKey::try_from(key).expect("a key of a width");
        let class = class.try_into().expect("a class of 4 bytes");
        Some((key, u32::from_be_bytes(class)))
    }

    fn size_hint(&self) -> (usize, Option<usize>) {
        self.records.size_hint()
    }
}

impl ExactSizeIterator for Flows<'_> {}

impl fmt::Debug for Flows<'_> {
    fn fmt(&self, f: &mut fmt::Formatter<'_>) -> fmt::Result {
        f.debug_map().entries(self.clone()).finish()
    }
}

// The settings that a file's head has, and zeros where it is cut. Without a seventh the width is 13.
fn file_settings(file: &[u8]) -> [u64; SETTINGS_COUNT] {
    let mut places = file
        .chunks_exact(2)
        .map(|bytes| u64::from(u16::from_be_bytes([bytes[0], bytes[1]])));
    let count = places.next();
    let mut settings = [0; SETTINGS_COUNT];
    for (setting, number) in settings.iter_mut().zip(places) {
        *setting = number;
    }
    if count == Some(SETTINGS_WITHOUT_WIDTH as u64) {
        settings[SETTINGS_WITHOUT_WIDTH] = IPV4_WIDTH;
    }
    settings
}
