//! The doors as they stand. Each answers 0 or the number of a refusal, on every input, and a search also 100 for absent; a refused call
//! alters nothing but work, and a refused [`file_settings`] or [`load`] also makes the settings that it hands back zeros.
//! [`generator_next`] refuses nothing, and answers the generator's number. Settings stand in the order p, k, room, top, capacity, side
//! places, width; a key has as many bytes as the width says, 13 or 37.

use crate::Generator;

/// The five areas that the calls share, lent to one that writes.
#[derive(Debug)]
pub struct LentAreas<'a> {
    /// The ledger.
    pub ledger: &'a mut [u8],
    /// The true counts.
    pub true_counts: &'a mut [u16],
    /// The clipped counts.
    pub clipped: &'a mut [u8],
    /// The buckets.
    pub buckets: &'a mut [u8],
    /// The side store.
    pub side: &'a mut [u8],
}

// Makes a safe function of each door. Settings pass as seven numbers, a slice as a pointer and its length, the areas as five slices, a struct as
// a pointer. Safe: the doors require nothing of their arguments, and a slice lends its whole length for the call, a struct all of itself.
macro_rules! doors {
    ($($(#[$doc:meta])* fn $name:ident = $door:ident($($arguments:tt)*) -> $answer:ty;)*) => {
        $(doors! { @ [$(#[$doc])* $name $door $answer] () () () $($arguments)*, })*
    };
    // An argument: what the function takes, what the door takes, what is passed on.
    (@ $head:tt ($($takes:tt)*) ($($c:tt)*) ($($passed:tt)*) $x:ident: [u64; 7], $($rest:tt)*) => {
        doors! { @ $head
            ($($takes)* $x: [u64; 7],)
            ($($c)* _: u64, _: u64, _: u64, _: u64, _: u64, _: u64, _: u64,)
            ($($passed)* $x[0], $x[1], $x[2], $x[3], $x[4], $x[5], $x[6],)
            $($rest)* }
    };
    (@ $head:tt ($($takes:tt)*) ($($c:tt)*) ($($passed:tt)*) $x:ident: LentAreas, $($rest:tt)*) => {
        doors! { @ $head
            ($($takes)* $x: LentAreas,)
            ($($c)* _: *mut u8, _: usize, _: *mut u16, _: usize, _: *mut u8, _: usize, _: *mut u8, _: usize, _: *mut u8, _: usize,)
            ($($passed)*
                $x.ledger.as_mut_ptr(), $x.ledger.len(),
                $x.true_counts.as_mut_ptr(), $x.true_counts.len(),
                $x.clipped.as_mut_ptr(), $x.clipped.len(),
                $x.buckets.as_mut_ptr(), $x.buckets.len(),
                $x.side.as_mut_ptr(), $x.side.len(),)
            $($rest)* }
    };
    (@ $head:tt ($($takes:tt)*) ($($c:tt)*) ($($passed:tt)*) $x:ident: &mut [$number:ty], $($rest:tt)*) => {
        doors! { @ $head
            ($($takes)* $x: &mut [$number],)
            ($($c)* _: *mut $number, _: usize,)
            ($($passed)* $x.as_mut_ptr(), $x.len(),)
            $($rest)* }
    };
    (@ $head:tt ($($takes:tt)*) ($($c:tt)*) ($($passed:tt)*) $x:ident: &[$number:ty], $($rest:tt)*) => {
        doors! { @ $head
            ($($takes)* $x: &[$number],)
            ($($c)* _: *const $number, _: usize,)
            ($($passed)* $x.as_ptr(), $x.len(),)
            $($rest)* }
    };
    (@ $head:tt ($($takes:tt)*) ($($c:tt)*) ($($passed:tt)*) $x:ident: &mut $held:ident, $($rest:tt)*) => {
        doors! { @ $head ($($takes)* $x: &mut $held,) ($($c)* _: *mut $held,) ($($passed)* $x,) $($rest)* }
    };
    (@ $head:tt ($($takes:tt)*) ($($c:tt)*) ($($passed:tt)*) $x:ident: $number:ident, $($rest:tt)*) => {
        doors! { @ $head ($($takes)* $x: $number,) ($($c)* _: $number,) ($($passed)* $x,) $($rest)* }
    };
    // No argument left.
    (@ [$(#[$doc:meta])* $name:ident $door:ident $answer:ty] ($($takes:tt)*) ($($c:tt)*) ($($passed:tt)*)) => {
        $(#[$doc])*
        pub fn $name($($takes)*) -> $answer {
            extern "C" {
                fn $door($($c)*) -> $answer;
            }
            unsafe { $door($($passed)*) }
        }
    };
}

// What the static library defines. Nothing compares these lines with the Rattle source: they are those of include/flow.h.
doors! {
    /// 0, or 1 when a setting is out of range.
    fn settings_check = flow_settings_check(settings: [u64; 7]) -> u32;

    /// The lengths of ledger, true counts, clipped counts, buckets, side store and work; 1; 2 if `lengths` is not of 6 numbers.
    fn area_lengths = flow_area_lengths(settings: [u64; 7], lengths: &mut [u64]) -> u32;

    /// A table that [`hash_lent`], [`search_lent`], [`search_counts_lent`] and [`search_burst`] read for keys of this width; 1 if the width is not
    /// 13 or 37; 2 if the table is not of one of the lengths for it: 3,328 numbers at 13, by byte; 1,184 by half-byte or 9,472 by byte at 37.
    fn hash_table = flow_hash_table(width: u64, table: &mut [u64]) -> u32;

    /// H of a key in `h[0]`, with no table; 1 if the width is not 13 or 37; 2 if `h` is not of 1 number; 3 if the key is not of the width.
    fn hash = flow_hash(width: u64, key: &[u8], h: &mut [u64]) -> u32;

    /// H of a key in `h[0]`, with a table of [`hash_table`]; 1 if the width is not 13 or 37; 2 if the table is not of a length for it, or `h` not
    /// of 1; 3 if the key is not of the width.
    fn hash_lent = flow_hash_lent(width: u64, table: &[u64], key: &[u8], h: &mut [u64]) -> u32;

    /// Hash 0 to hash 3 of a key; how many bucket numbers it has, these, and zeros; 1; 2 if `hashes` is not of 4 numbers, or `numbers`
    /// not of 5; 3 if the key is not of the width.
    fn key_buckets = flow_key_buckets(settings: [u64; 7], key: &[u8], hashes: &mut [u16], numbers: &mut [u16]) -> u32;

    /// The forwarding driver's search: answer x 2^32 + class. Answer 0 held; 100 absent; 1; 2 if an area is not of its length; 3 if the key
    /// is not of the width; 5 if what is read is damaged. Class zero unless held.
    fn search = flow_search(settings: [u64; 7], clipped: &[u8], buckets: &[u8], side: &[u8], key: &[u8]) -> u64;

    /// [`search`] with a table of [`hash_table`]; 2 also if that is not of a length for the width.
    fn search_lent = flow_search_lent(table: &[u64], settings: [u64; 7], clipped: &[u8], buckets: &[u8], side: &[u8], key: &[u8]) -> u64;

    /// [`search_lent`] for as many keys as there are answers, one after the other in `keys`: each answer is the number of its key; 1; 2 if the
    /// table is not of a length for the width or an area not of its length; 3 if `keys` has not the width for each answer.
    fn search_burst = flow_search_burst(table: &[u64], settings: [u64; 7], clipped: &[u8], buckets: &[u8], side: &[u8], keys: &[u8], answers: &mut [u64]) -> u32;

    /// [`search`], and in `place` where the record lies: first 1 for the buckets or 2 for the side store, then the byte of that area where it
    /// starts; 0, 0 if the flow is absent. 2 also if `place` is not of 2 numbers. It stays as it was if the search is refused.
    fn search_place = flow_search_place(settings: [u64; 7], clipped: &[u8], buckets: &[u8], side: &[u8], key: &[u8], place: &mut [u64]) -> u64;

    /// [`search`], and in `counts` the buckets read (0 or 1), the records compared (at most 64), and 1 where the side store was the place
    /// compared, else 0. 2 also if `counts` is not of 3 numbers. It stays as it was if the search is refused.
    fn search_counts = flow_search_counts(settings: [u64; 7], clipped: &[u8], buckets: &[u8], side: &[u8], key: &[u8], counts: &mut [u32]) -> u64;

    /// [`search_counts`] with a table of [`hash_table`]; 2 also if that is not of a length for the width.
    fn search_counts_lent = flow_search_counts_lent(table: &[u64], settings: [u64; 7], clipped: &[u8], buckets: &[u8], side: &[u8], key: &[u8],
        counts: &mut [u32]) -> u64;

    /// Records in buckets, records in the side store, buckets marked 255, and fill; 1; 2 if an area is not of its length, or `totals` not of
    /// 4 numbers; 4 if the ledger is damaged; 5 if a lookup area is.
    fn tally = flow_tally(settings: [u64; 7], ledger: &[u8], clipped: &[u8], buckets: &[u8], side: &[u8], totals: &mut [u32]) -> u32;

    /// The layout of the empty list, on areas with any contents; 1; 2 if an area is not of its length.
    fn clear = flow_clear(settings: [u64; 7], areas: LentAreas) -> u32;

    /// The layout of the ledger's list with one flow more; 1; 2 if an area or `work` is not of its length; 3 if the key is not of the width;
    /// 4 if the ledger is damaged; 6 if the key is held; 8 if the capacity is reached; 9 if the side store would not suffice.
    fn add = flow_add(settings: [u64; 7], areas: LentAreas, work: &mut [u16], key: &[u8], class: u32) -> u32;

    /// The layout of the ledger's list with another class for a held flow; 1, 2, 3 and 4 as for [`add`]; 7 if the key is not held; 9 if the
    /// side store does not suffice.
    fn change = flow_change(settings: [u64; 7], areas: LentAreas, work: &mut [u16], key: &[u8], class: u32) -> u32;

    /// The layout of the ledger's list without a held flow; 1, 2, 3 and 4 as for [`add`]; 7 if the key is not held; 9 if the side store
    /// would not suffice.
    fn remove = flow_remove(settings: [u64; 7], areas: LentAreas, work: &mut [u16], key: &[u8]) -> u32;

    /// Zeros in a window, which is then empty, on any contents; 2 if it is not of 1,093 numbers.
    fn window_clear = flow_window_clear(window: &mut [u16]) -> u32;

    /// A search in a window, by the number that a search door gave and its three counts: the oldest of 1,024 entries is dropped for it. A
    /// refused search enters nothing. 2 if the window is not of 1,093 numbers, or `counts` not of 3.
    fn window_enter = flow_window_enter(window: &mut [u16], found: u64, counts: &[u32]) -> u32;

    /// A window without its oldest entry, or as it is if it is empty; 2 if it is not of 1,093 numbers.
    fn window_remove = flow_window_remove(window: &mut [u16]) -> u32;

    /// Held answers, searches that compared the side store, and the greatest records compared of a window; 2 if that is not of 1,093 numbers,
    /// or `counts` not of 3.
    fn window_counts = flow_window_counts(window: &[u16], counts: &mut [u32]) -> u32;

    /// The snapshot of a ledger's list in `target`; 1; 2 if the ledger or `work` is not of its length; 4 if the ledger is damaged; 9 if the
    /// side store does not suffice; 12 if `target` is not of the file's length for n records, 16 + 17 n bytes at width 13 and
    /// 18 + 41 n at 37.
    fn save = flow_save(settings: [u64; 7], ledger: &[u8], work: &mut [u16], target: &mut [u8]) -> u32;

    /// The settings that stand in a snapshot's head, in `settings`, which are zeros when it is refused. 12 if its first count is not 6 or 7, or the
    /// file ends before its second count; 1; 2 if `settings` is not of 7 numbers, which stays as it is; 12 for a first count of 7 with width 13.
    /// The records are not judged.
    fn file_settings = flow_file_settings(file: &[u8], settings: &mut [u64]) -> u32;

    /// The layout of a snapshot's list, and its settings in `settings`, which are zeros when it is refused. 12 if its first count is not 6 or 7,
    /// or the file ends before its second count; 1; 2 if an area or `work` is not of its length under the file's settings; 8 for more records
    /// than the capacity; 12 for a cut or overlong file, and for a first count of 7 with width 13; 13 if its keys do not rise; 9 if the side
    /// store does not suffice. `settings` not of 7 numbers is 2 as well, and stays as it is.
    fn load = flow_load(file: &[u8], areas: LentAreas, work: &mut [u16], settings: &mut [u64]) -> u32;

    /// The key of an IPv4 packet; 3 if the buffer for it is not of 13 bytes; 10 if the packet's header is wrong; 11 if its ports are missing.
    fn packet_key = flow_packet_key(packet: &[u8], key: &mut [u8]) -> u32;

    /// The key of an IPv6 packet; 3 if the buffer for it is not of 37 bytes; 16 if the packet's header is wrong; 11 if its ports are missing.
    fn packet6_key = flow_packet6_key(packet: &[u8], key: &mut [u8]) -> u32;

    /// Steps a generator where it is held, s by xorshift64 and w by 362437 modulo 2^64, and gives s + w modulo 2^64, both after the step.
    fn generator_next = flow_generator_next(generator: &mut Generator) -> u64;
}
