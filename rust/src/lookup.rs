//! The calls that only read: search and tally.

use crate::{accepted, doors, KeyHasher, Refusal, Settings};

// The answer of a search that finds nothing.
const ABSENT: u32 = 100;

/// The three areas that a search reads, each of the length that [`Settings::area_lengths`] gives. Any contents will do; those that no
/// table leaves behind may be refused as [`Refusal::DamagedLookup`].
#[derive(Clone, Copy, Debug)]
pub struct LookupAreas<'a> {
    /// The clipped counts.
    pub clipped_counts: &'a [u8],
    /// The buckets.
    pub buckets: &'a [u8],
    /// The side store.
    pub side_store: &'a [u8],
}

/// What a table holds, counted.
#[derive(Clone, Copy, Debug, PartialEq, Eq)]
pub struct Tally {
    /// Records in buckets.
    pub in_buckets: u32,
    /// Records in the side store.
    pub in_side_store: u32,
    /// Buckets marked 255: chosen by more flows than they have room for.
    pub marked_255: u32,
    /// Flows held for each hundred buckets, to the nearest whole number; a half goes to the even neighbour.
    pub fill: u32,
}

/// The class of a held flow, or None for an absent one.
///
/// [`Refusal::AreaLength`] where an area is not of its length, [`Refusal::KeyLength`] where the key is not of the settings' width,
/// [`Refusal::DamagedLookup`] where a counter, mark or side count that the search reads is too high.
///
/// ```
/// use flow::{search, LookupAreas, Refusal, Settings};
///
/// // the areas of an empty table are all zeros
/// let settings = Settings::new(6, 3, 2, 4, 128, 8, 13)?;
/// let lengths = settings.area_lengths();
/// let clipped_counts = vec![0; lengths.clipped_counts];
/// let buckets = vec![0; lengths.buckets];
/// let side_store = vec![0; lengths.side_store];
/// let areas = LookupAreas {
///     clipped_counts: &clipped_counts,
///     buckets: &buckets,
///     side_store: &side_store,
/// };
/// assert_eq!(search(&settings, &areas, &[1; 13]), Ok(None));
/// assert_eq!(search(&settings, &areas, &[1; 12]), Err(Refusal::KeyLength));
/// # Ok::<(), Refusal>(())
/// ```
pub fn search(
    settings: &Settings,
    areas: &LookupAreas,
    key: &[u8],
) -> Result<Option<u32>, Refusal> {
    found(doors::search(
        settings.numbers(),
        areas.clipped_counts,
        areas.buckets,
        areas.side_store,
        key,
    ))
}

/// [`search`] with a hasher that is kept from call to call: reads of it, for each byte or half-byte of the key, in place of a computation. Also
/// [`Refusal::AreaLength`] where the hasher is for keys of another width.
///
/// ```
/// use flow::{search_lent, KeyHasher, LookupAreas, Refusal, Settings};
///
/// // One flow of class 7, by hand. The zero key has bucket 0 alone: counter 1, mark 1 and the record.
/// let settings = Settings::new(4, 1, 1, 2, 1, 0, 13)?;
/// let mut clipped_counts = [0; 8];
/// clipped_counts[0] = 1;
/// let mut buckets = [0; 16 * 18];
/// buckets[0] = 1;
/// buckets[17] = 7;
/// let areas = LookupAreas {
///     clipped_counts: &clipped_counts,
///     buckets: &buckets,
///     side_store: &[0; 2],
/// };
/// let hasher = KeyHasher::ipv4();
/// assert_eq!(search_lent(&hasher, &settings, &areas, &[0; 13]), Ok(Some(7)));
/// # Ok::<(), Refusal>(())
/// ```
pub fn search_lent(
    hasher: &KeyHasher,
    settings: &Settings,
    areas: &LookupAreas,
    key: &[u8],
) -> Result<Option<u32>, Refusal> {
    found(doors::search_lent(
        hasher.entries(),
        settings.numbers(),
        areas.clipped_counts,
        areas.buckets,
        areas.side_store,
        key,
    ))
}

/// One of the two areas that hold records for a search.
#[derive(Clone, Copy, Debug, PartialEq, Eq)]
pub enum Store {
    /// The buckets.
    Buckets,
    /// The side store.
    SideStore,
}

/// A held flow's class, and where its record lies.
#[derive(Clone, Copy, Debug, PartialEq, Eq)]
pub struct RecordPlace {
    /// The class.
    pub class: u32,
    /// The area that holds the record.
    pub store: Store,
    /// The byte of that area where it starts.
    pub start: usize,
    /// The record's bytes: the key's, and four of the class.
    pub length: usize,
}

impl RecordPlace {
    /// The record in the areas that were searched: the key, then the class, high byte first.
    pub fn record<'a>(&self, areas: &LookupAreas<'a>) -> &'a [u8] {
        let area = match self.store {
            Store::Buckets => areas.buckets,
            Store::SideStore => areas.side_store,
        };
        &area[self.start..self.start + self.length]
    }
}

/// [`search`] that also says where the record lies, for a caller that reads it in place.
///
/// ```
/// use flow::{search_place, LookupAreas, Refusal, Settings, Store};
///
/// // One flow of class 7, by hand. The zero key has bucket 0 alone: counter 1, mark 1 and the record.
/// let settings = Settings::new(4, 1, 1, 2, 1, 0, 13)?;
/// let mut clipped_counts = [0; 8];
/// clipped_counts[0] = 1;
/// let mut buckets = [0; 16 * 18];
/// buckets[0] = 1;
/// buckets[17] = 7;
/// let areas = LookupAreas {
///     clipped_counts: &clipped_counts,
///     buckets: &buckets,
///     side_store: &[0; 2],
/// };
/// let place = search_place(&settings, &areas, &[0; 13])?.expect("held");
/// assert_eq!((place.class, place.store, place.start), (7, Store::Buckets, 1));
/// assert_eq!(place.record(&areas), [0, 0, 0, 0, 0, 0, 0, 0, 0, 0, 0, 0, 0, 0, 0, 0, 7]);
/// # Ok::<(), Refusal>(())
/// ```
pub fn search_place(
    settings: &Settings,
    areas: &LookupAreas,
    key: &[u8],
) -> Result<Option<RecordPlace>, Refusal> {
    let mut place = [0; 2];
    let class = found(doors::search_place(
        settings.numbers(),
        areas.clipped_counts,
        areas.buckets,
        areas.side_store,
        key,
        &mut place,
    ))?;
    let [store, start] = place;
    Ok(class.map(|class| RecordPlace {
        class,
        store: match store {
            1 => Store::Buckets,
            _ => Store::SideStore,
        },
        start: start as usize,
        length: settings.record_bytes(),
    }))
}

/// What a search read and compared.
#[derive(Clone, Copy, Debug, PartialEq, Eq)]
pub struct SearchCounts {
    /// Buckets read, 0 or 1.
    pub buckets_read: u32,
    /// Records compared, at most 64.
    pub records_compared: u32,
    /// 1 where the side store was the place compared, also where it holds no record, else 0.
    pub side_compared: u32,
}

/// What an accepted search found, with its counts.
#[derive(Clone, Copy, Debug, PartialEq, Eq)]
pub struct SearchAnswer {
    /// The class of a held flow, or None for an absent one.
    pub class: Option<u32>,
    /// The counts.
    pub counts: SearchCounts,
}

/// [`search`] that also gives the search's counts, for a [`Window`](crate::Window) over the latest searches.
///
/// ```
/// use flow::{search_counts, LookupAreas, Refusal, SearchCounts, Settings};
///
/// // One flow of class 7, by hand. The zero key has bucket 0 alone: counter 1, mark 1 and the record.
/// let settings = Settings::new(4, 1, 1, 2, 1, 0, 13)?;
/// let mut clipped_counts = [0; 8];
/// clipped_counts[0] = 1;
/// let mut buckets = [0; 16 * 18];
/// buckets[0] = 1;
/// buckets[17] = 7;
/// let areas = LookupAreas {
///     clipped_counts: &clipped_counts,
///     buckets: &buckets,
///     side_store: &[0; 2],
/// };
/// let answer = search_counts(&settings, &areas, &[0; 13])?;
/// assert_eq!(answer.class, Some(7));
/// assert_eq!(
///     answer.counts,
///     SearchCounts { buckets_read: 1, records_compared: 1, side_compared: 0 }
/// );
///
/// // with the counter at its top the side store is the place compared, which here holds no record
/// let areas = LookupAreas { clipped_counts: &[2, 0, 0, 0, 0, 0, 0, 0], ..areas };
/// let answer = search_counts(&settings, &areas, &[0; 13])?;
/// assert_eq!(answer.class, None);
/// assert_eq!(
///     answer.counts,
///     SearchCounts { buckets_read: 0, records_compared: 0, side_compared: 1 }
/// );
/// # Ok::<(), Refusal>(())
/// ```
pub fn search_counts(
    settings: &Settings,
    areas: &LookupAreas,
    key: &[u8],
) -> Result<SearchAnswer, Refusal> {
    let mut counts = [0; 3];
    let number = doors::search_counts(
        settings.numbers(),
        areas.clipped_counts,
        areas.buckets,
        areas.side_store,
        key,
        &mut counts,
    );
    counted(number, counts)
}

/// [`search_counts`] with a hasher that is kept from call to call.
///
/// ```
/// use flow::{search_counts_lent, KeyHasher, LookupAreas, Refusal, Settings};
///
/// // the areas of an empty table are all zeros, and a zero counter ends a search
/// let settings = Settings::new(4, 1, 1, 2, 1, 0, 13)?;
/// let areas = LookupAreas {
///     clipped_counts: &[0; 8],
///     buckets: &[0; 16 * 18],
///     side_store: &[0; 2],
/// };
/// let hasher = KeyHasher::ipv4();
/// let answer = search_counts_lent(&hasher, &settings, &areas, &[1; 13])?;
/// assert_eq!((answer.class, answer.counts.buckets_read), (None, 0));
/// # Ok::<(), Refusal>(())
/// ```
pub fn search_counts_lent(
    hasher: &KeyHasher,
    settings: &Settings,
    areas: &LookupAreas,
    key: &[u8],
) -> Result<SearchAnswer, Refusal> {
    let mut counts = [0; 3];
    let number = doors::search_counts_lent(
        hasher.entries(),
        settings.numbers(),
        areas.clipped_counts,
        areas.buckets,
        areas.side_store,
        key,
        &mut counts,
    );
    counted(number, counts)
}

/// The answers of a burst, in the order of its keys: for each the class of a held flow, None for an absent one, or
/// [`Refusal::DamagedLookup`] where a counter, mark or side count that its search read is too high.
#[derive(Clone, Debug)]
pub struct Answers<'a>(std::slice::Iter<'a, u64>);

impl Iterator for Answers<'_> {
    type Item = Result<Option<u32>, Refusal>;

    fn next(&mut self) -> Option<Self::Item> {
        self.0.next().map(|&number| found(number))
    }

    fn size_hint(&self) -> (usize, Option<usize>) {
        self.0.size_hint()
    }
}

impl ExactSizeIterator for Answers<'_> {}

/// [`search_lent`] for many keys at once, one after the other in `keys`. Drivers take packets in bursts of 32.
///
/// A number is lent for each answer, with any contents, so that nothing is allocated. The [`Answers`] that come back read these numbers, which
/// are answer x 2^32 + class, as [`doors::search_burst`] leaves them.
///
/// [`Refusal::AreaLength`] where an area is not of its length or the hasher for keys of another width, [`Refusal::KeyLength`] where the keys have
/// not the settings' width for each number that is lent. Then the numbers stay. Damaged areas refuse only the keys whose searches read what is damaged.
///
/// ```
/// use flow::{search_burst, KeyHasher, LookupAreas, Refusal, Settings};
///
/// // One flow of class 7, by hand. The zero key has bucket 0 alone: counter 1, mark 1 and the record.
/// let settings = Settings::new(4, 1, 1, 2, 1, 0, 13)?;
/// let mut clipped_counts = [0; 8];
/// clipped_counts[0] = 1;
/// let mut buckets = [0; 16 * 18];
/// buckets[0] = 1;
/// buckets[17] = 7;
/// let areas = LookupAreas {
///     clipped_counts: &clipped_counts,
///     buckets: &buckets,
///     side_store: &[0; 2],
/// };
/// let hasher = KeyHasher::ipv4();
///
/// // kept from burst to burst, with room for 32 packets, of which two came
/// let mut keys = [0; 32 * 13];
/// let mut numbers = [0; 32];
/// keys[13..26].copy_from_slice(&[192, 0, 2, 1, 192, 0, 2, 2, 0x04, 0xd2, 0x00, 0x50, 6]);
/// let mut answers = search_burst(&hasher, &settings, &areas, &keys[..26], &mut numbers[..2])?;
/// assert_eq!(answers.next(), Some(Ok(Some(7))));
/// assert_eq!(answers.next(), Some(Ok(None)));
/// assert_eq!(answers.next(), None);
///
/// let refused = search_burst(&hasher, &settings, &areas, &keys[..25], &mut numbers[..2]);
/// assert_eq!(refused.err(), Some(Refusal::KeyLength));
/// # Ok::<(), Refusal>(())
/// ```
pub fn search_burst<'a>(
    hasher: &KeyHasher,
    settings: &Settings,
    areas: &LookupAreas,
    keys: &[u8],
    numbers: &'a mut [u64],
) -> Result<Answers<'a>, Refusal> {
    accepted(doors::search_burst(
        hasher.entries(),
        settings.numbers(),
        areas.clipped_counts,
        areas.buckets,
        areas.side_store,
        keys,
        numbers,
    ))?;
    Ok(Answers(numbers.iter()))
}

/// Counts what a table holds.
///
/// [`Refusal::AreaLength`] where an area is not of its length, [`Refusal::DamagedLedger`] where the ledger's count, key order or unused
/// bytes are wrong, [`Refusal::DamagedLookup`] where any counter, mark or the side count is too high.
///
/// ```
/// use flow::{tally, LookupAreas, Refusal, Settings};
///
/// // an empty table
/// let settings = Settings::new(4, 1, 1, 2, 1, 0, 13)?;
/// let areas = LookupAreas {
///     clipped_counts: &[0; 8],
///     buckets: &[0; 16 * 18],
///     side_store: &[0; 2],
/// };
/// let empty = tally(&settings, &[0; 19], &areas)?;
/// assert_eq!((empty.in_buckets, empty.fill), (0, 0));
/// # Ok::<(), Refusal>(())
/// ```
pub fn tally(settings: &Settings, ledger: &[u8], areas: &LookupAreas) -> Result<Tally, Refusal> {
    let mut totals = [0; 4];
    accepted(doors::tally(
        settings.numbers(),
        ledger,
        areas.clipped_counts,
        areas.buckets,
        areas.side_store,
        &mut totals,
    ))?;
    let [in_buckets, in_side_store, marked_255, fill] = totals;
    Ok(Tally {
        in_buckets,
        in_side_store,
        marked_255,
        fill,
    })
}

// What a search door gives for a key, and the counts that it gives beside it.
fn counted(door: u64, counts: [u32; 3]) -> Result<SearchAnswer, Refusal> {
    let class = found(door)?;
    let [buckets_read, records_compared, side_compared] = counts;
    Ok(SearchAnswer {
        class,
        counts: SearchCounts {
            buckets_read,
            records_compared,
            side_compared,
        },
    })
}

// What a search door gave for an answer, as a window takes it: the number, and the counts, which are zeros where it was refused.
pub(crate) fn as_given(search: Result<SearchAnswer, Refusal>) -> (u64, [u32; 3]) {
    match search {
        // the window passes over any refusal, whatever its number
        Err(_) => (u64::from(Refusal::Setting.number()) << 32, [0; 3]),
        Ok(SearchAnswer { class, counts }) => {
            let number = class.map_or(u64::from(ABSENT) << 32, u64::from);
            let SearchCounts {
                buckets_read,
                records_compared,
                side_compared,
            } = counts;
            (number, [buckets_read, records_compared, side_compared])
        }
    }
}

// What a search door gives for a key: answer x 2^32 + class.
fn found(door: u64) -> Result<Option<u32>, Refusal> {
    let number = (door >> 32) as u32;
    if number == ABSENT {
        return Ok(None);
    }
    accepted(number)?;
    Ok(Some(door as u32))
}

#[cfg(test)]
mod tests {
    use super::*;

    // What a door may answer, and what no door answers today: only 0 is held, and only 100 is absent.
    #[test]
    fn numbers_that_are_not_known_are_no_success() {
        for number in (0..200).chain([1 << 16, u32::MAX]) {
            let expected = match number {
                0 => Ok(Some(7)),
                100 => Ok(None),
                number => Err(Refusal::of_answer(number)),
            };
            assert_eq!(found(u64::from(number) << 32 | 7), expected);
            assert_eq!(accepted(number).is_ok(), number == 0);
        }
        assert_eq!(accepted(17), Err(Refusal::Unknown(17)));
        assert_eq!(found(17 << 32), Err(Refusal::Unknown(17)));
    }
}
