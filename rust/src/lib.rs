//! The flow card's pruned hash table, over the doors of its proved static library.
//!
//! [`doors`] has each door as it stands: numbers and slices in, the answer's number out. The rest of the crate is what a Rust user
//! takes: [`Settings`] that are in range, a [`FlowKey`] of addresses, ports and protocol, a [`Table`] that owns its areas, a [`KeyHasher`],
//! [`LookupAreas`] to [`search`], by one key or by a burst of keys ([`search_burst`]), and to [`tally`] where others own them, a [`Window`] over
//! the latest searches, the key of a packet by [`packet_key`] or [`packet6_key`], the [`Generator`] of a load for the bench, and a [`Refusal`] in
//! place of a number.
//! A [`Live`] table is updated by one thread while others search it, each by a [`Reader`] that takes [`View`]s.
//!
//! A table's keys are all of one width, the last of its settings: [`IPV4_WIDTH`], 13 bytes, or [`IPV6_WIDTH`], 37. A call takes a key as a slice
//! and refuses one of another width.

#![deny(missing_docs)]

mod flow_key;
mod generator;
mod hash;
mod live;
mod lookup;
mod packet;
mod refusal;
mod table;
mod window;

pub mod doors;

pub use flow_key::{BadFlowKey, FlowKey};
pub use generator::Generator;
pub use hash::{hash, key_buckets, KeyBuckets, KeyHasher};
pub use live::{Live, Reader, View};
pub use lookup::{
    search, search_burst, search_counts, search_counts_lent, search_lent, search_place, tally,
    Answers, LookupAreas, RecordPlace, SearchAnswer, SearchCounts, Store, Tally,
};
pub use packet::{packet6_key, packet6_key_into, packet_key, packet_key_into};
pub use refusal::{NoRefusal, Refusal};
pub use table::{Flows, Table, TableAreas};
pub use window::{Window, WindowCounts};

/// A table has this many settings.
pub const SETTINGS_COUNT: usize = 7;

/// The width of an IPv4 flow's key, a setting.
pub const IPV4_WIDTH: u64 = 13;

/// The width of an IPv6 flow's key, a setting.
pub const IPV6_WIDTH: u64 = 37;

/// The key of an IPv4 flow: source address, destination address, source port, destination port, protocol.
pub type Ipv4Key = [u8; IPV4_WIDTH as usize];

/// The key of an IPv6 flow: source address, destination address, source port, destination port, next header.
pub type Ipv6Key = [u8; IPV6_WIDTH as usize];

/// A class has this many bytes, high byte first.
pub const CLASS_BYTES: usize = 4;

/// A window over the latest searches has this many 16-bit numbers.
pub const WINDOW_NUMBERS: usize = 1093;

/// A window holds this many searches at most.
pub const WINDOW_SEARCHES: usize = 1024;

/// Seven settings, each in its range.
#[derive(Clone, Copy, Debug, PartialEq, Eq)]
pub struct Settings {
    p: u64,
    k: u64,
    room: u64,
    top: u64,
    capacity: u64,
    side_places: u64,
    width: u64,
}

/// Settings under way: each is given by its name, and all are judged by [`SettingsBuilder::build`].
#[derive(Clone, Copy, Debug)]
#[must_use]
pub struct SettingsBuilder {
    numbers: [u64; SETTINGS_COUNT],
}

/// The lengths of the six areas that a table is lent.
#[derive(Clone, Copy, Debug, PartialEq, Eq)]
pub struct AreaLengths {
    /// The ledger, in bytes.
    pub ledger: usize,
    /// The true counts, in 16-bit numbers.
    pub true_counts: usize,
    /// The clipped counts, in bytes.
    pub clipped_counts: usize,
    /// The buckets, in bytes.
    pub buckets: usize,
    /// The side store, in bytes.
    pub side_store: usize,
    /// The work area, in 16-bit numbers.
    pub work: usize,
}

impl Settings {
    /// p 4 to 12, with 2^p buckets; k 1 to 4 bucket hashes; room for 1 to 4 records a bucket; top count 2 to 15; capacity 1 to 4,096;
    /// side places 0 to 64; width 13 or 37 bytes a key, which are [`IPV4_WIDTH`] and [`IPV6_WIDTH`]. Out of these ranges:
    /// [`Refusal::Setting`].
    ///
    /// ```
    /// use flow::{Refusal, Settings, IPV4_WIDTH, IPV6_WIDTH};
    ///
    /// let ipv4 = Settings::new(6, 3, 2, 4, 128, 8, IPV4_WIDTH)?;
    /// let ipv6 = Settings::new(6, 3, 2, 4, 128, 8, IPV6_WIDTH)?;
    /// assert_eq!((ipv4.key_bytes(), ipv4.record_bytes()), (13, 17));
    /// assert_eq!((ipv6.key_bytes(), ipv6.record_bytes()), (37, 41));
    /// assert_eq!(ipv4.area_lengths().ledger, 2 + 17 * 128);
    /// assert_eq!(ipv6.area_lengths().ledger, 2 + 41 * 128);
    /// assert_eq!(Settings::new(6, 3, 2, 4, 128, 8, 14), Err(Refusal::Setting));
    /// # Ok::<(), Refusal>(())
    /// ```
    pub fn new(
        p: u64,
        k: u64,
        room: u64,
        top: u64,
        capacity: u64,
        side_places: u64,
        width: u64,
    ) -> Result<Settings, Refusal> {
        Settings::of([p, k, room, top, capacity, side_places, width])
    }

    /// [`Settings::new`] of the seven numbers in its order.
    pub fn of(numbers: [u64; SETTINGS_COUNT]) -> Result<Settings, Refusal> {
        accepted(doors::settings_check(numbers))?;
        let [p, k, room, top, capacity, side_places, width] = numbers;
        Ok(Settings {
            p,
            k,
            room,
            top,
            capacity,
            side_places,
            width,
        })
    }

    /// The seven numbers, in the order of [`Settings::new`].
    pub fn numbers(&self) -> [u64; SETTINGS_COUNT] {
        [
            self.p,
            self.k,
            self.room,
            self.top,
            self.capacity,
            self.side_places,
            self.width,
        ]
    }

    /// Settings by name. They start as those of the largest table for IPv4 flows: p 12, k 3, room 4, top 15, capacity 4,096, side places 64,
    /// width 13.
    ///
    /// ```
    /// use flow::{Refusal, Settings, IPV6_WIDTH};
    ///
    /// let settings = Settings::builder().p(8).room(2).capacity(256).width(IPV6_WIDTH).build()?;
    /// assert_eq!(settings, Settings::new(8, 3, 2, 15, 256, 64, 37)?);
    /// assert_eq!((settings.p(), settings.k(), settings.room(), settings.top()), (8, 3, 2, 15));
    /// assert_eq!((settings.capacity(), settings.side_places(), settings.width()), (256, 64, 37));
    /// assert_eq!(Settings::builder().p(13).build(), Err(Refusal::Setting));
    /// # Ok::<(), Refusal>(())
    /// ```
    pub fn builder() -> SettingsBuilder {
        SettingsBuilder {
            numbers: [12, 3, 4, 15, 4096, 64, IPV4_WIDTH],
        }
    }

    /// p: there are 2^p buckets.
    pub fn p(&self) -> u64 {
        self.p
    }

    /// k, the bucket hashes of a key.
    pub fn k(&self) -> u64 {
        self.k
    }

    /// The records that a bucket has room for.
    pub fn room(&self) -> u64 {
        self.room
    }

    /// The top count of a counter.
    pub fn top(&self) -> u64 {
        self.top
    }

    /// The most flows that are held.
    pub fn capacity(&self) -> u64 {
        self.capacity
    }

    /// The records that the side store has room for.
    pub fn side_places(&self) -> u64 {
        self.side_places
    }

    /// The width: the bytes of a key, as a setting.
    pub fn width(&self) -> u64 {
        self.width
    }

    /// The width: the bytes of a key.
    pub fn key_bytes(&self) -> usize {
        self.width as usize
    }

    /// The bytes of a record: the key, then the class.
    pub fn record_bytes(&self) -> usize {
        self.key_bytes() + CLASS_BYTES
    }

    /// The lengths of the six areas under these settings.
    pub fn area_lengths(&self) -> AreaLengths {
        let mut lengths = [0; 6];
        accepted(doors::area_lengths(self.numbers(), &mut lengths))
            .expect("settings in range have area lengths");
        let [ledger, true_counts, clipped_counts, buckets, side_store, work] =
            lengths.map(|length| length as usize);
        AreaLengths {
            ledger,
            true_counts,
            clipped_counts,
            buckets,
            side_store,
            work,
        }
    }
}

impl SettingsBuilder {
    // Setting `at`, in the order of [`Settings::new`].
    fn with(mut self, at: usize, number: u64) -> SettingsBuilder {
        self.numbers[at] = number;
        self
    }

    /// p, 4 to 12: there are 2^p buckets.
    pub fn p(self, p: u64) -> SettingsBuilder {
        self.with(0, p)
    }

    /// k, 1 to 4 bucket hashes of a key.
    pub fn k(self, k: u64) -> SettingsBuilder {
        self.with(1, k)
    }

    /// Room for 1 to 4 records a bucket.
    pub fn room(self, room: u64) -> SettingsBuilder {
        self.with(2, room)
    }

    /// The top count of a counter, 2 to 15.
    pub fn top(self, top: u64) -> SettingsBuilder {
        self.with(3, top)
    }

    /// The most flows that are held, 1 to 4,096.
    pub fn capacity(self, capacity: u64) -> SettingsBuilder {
        self.with(4, capacity)
    }

    /// Room for 0 to 64 records in the side store.
    pub fn side_places(self, side_places: u64) -> SettingsBuilder {
        self.with(5, side_places)
    }

    /// The width of a key: [`IPV4_WIDTH`] or [`IPV6_WIDTH`].
    pub fn width(self, width: u64) -> SettingsBuilder {
        self.with(6, width)
    }

    /// The settings, or [`Refusal::Setting`] where one is out of its range.
    pub fn build(self) -> Result<Settings, Refusal> {
        Settings::of(self.numbers)
    }
}

// A door's answer: 0, or the number of a refusal.
fn accepted(answer: u32) -> Result<(), Refusal> {
    match answer {
        0 => Ok(()),
        number => Err(Refusal::of_answer(number)),
    }
}
