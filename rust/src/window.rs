//! The window over the latest searches.

use crate::{accepted, doors, lookup, Refusal, SearchAnswer, WINDOW_NUMBERS};

/// What a window's searches come to.
#[derive(Clone, Copy, Debug, PartialEq, Eq)]
pub struct WindowCounts {
    /// Held answers.
    pub held: u32,
    /// Searches that compared the side store.
    pub side_compared: u32,
    /// The greatest records compared, zero for an empty window.
    pub greatest_compared: u32,
}

/// A window over the latest 1,024 accepted searches, for an operator who watches a node. It belongs to no table: searches of several may enter
/// it. After any calls its counts are a fresh count over the searches that it then holds.
///
/// ```
/// use flow::{Refusal, Settings, Table, Window, WindowCounts, WINDOW_SEARCHES};
///
/// let mut table = Table::new(Settings::new(6, 3, 2, 4, 128, 8, 13)?);
/// table.add(&[1; 13], 7)?;
/// let mut window = Window::new();
/// window.enter(table.search_counts(&[1; 13]));
/// let one_held = WindowCounts { held: 1, side_compared: 0, greatest_compared: 1 };
/// assert_eq!(window.counts(), one_held);
///
/// // a refused search does not enter
/// window.enter(table.search_counts(&[1; 12]));
/// assert_eq!(window.counts(), one_held);
///
/// // with the latest 1,024 searches, of a flow that is absent, the first is dropped
/// for _ in 0..WINDOW_SEARCHES {
///     window.enter(table.search_counts(&[2; 13]));
/// }
/// assert_eq!(window.counts().held, 0);
/// # Ok::<(), Refusal>(())
/// ```
#[derive(Clone, Debug)]
pub struct Window {
    numbers: Vec<u16>,
}

impl Window {
    /// An empty window, 2,186 bytes.
    pub fn new() -> Window {
        let mut window = Window {
            numbers: vec![0; WINDOW_NUMBERS],
        };
        window.clear();
        window
    }

    /// Takes every search out.
    pub fn clear(&mut self) {
        accepted(doors::window_clear(&mut self.numbers)).expect("1,093 numbers are cleared");
    }

    /// Enters a search, as [`Table::search_counts`](crate::Table::search_counts) and [`search_counts`](crate::search_counts) give it; the oldest
    /// of 1,024 is dropped for good. A refused search alters nothing. More than 64 records compared, which no search has, enter as 64, and
    /// a third count above 1 enters as 1.
    pub fn enter(&mut self, search: Result<SearchAnswer, Refusal>) {
        let (number, counts) = lookup::as_given(search);
        accepted(doors::window_enter(&mut self.numbers, number, &counts))
            .expect("1,093 numbers and three counts are taken");
    }

    /// Removes the oldest search; an empty window stays as it is.
    pub fn remove_oldest(&mut self) {
        accepted(doors::window_remove(&mut self.numbers)).expect("1,093 numbers are taken");
    }

    /// Counts the searches that the window holds.
    pub fn counts(&self) -> WindowCounts {
        let mut counts = [0; 3];
        accepted(doors::window_counts(&self.numbers, &mut counts))
            .expect("1,093 numbers are counted, into three");
        let [held, side_compared, greatest_compared] = counts;
        WindowCounts {
            held,
            side_compared,
            greatest_compared,
        }
    }
}

impl Default for Window {
    fn default() -> Window {
        Window::new()
    }
}
