//! A window through its doors, beside the model's area and the plain window.

use flow::doors;
use model::window::{Counts, Window};
use model::window_area;

/// A window's area, which the doors are lent. Each call through them answers as the model does, and leaves the area as the model does.
#[derive(Clone, Debug)]
pub struct BesideModel {
    pub area: Vec<u16>,
    /// What the window holds; None before the first clear, as the area may then hold anything.
    pub plain: Option<Window>,
}

impl BesideModel {
    /// An area of any contents and length.
    pub fn of(area: Vec<u16>) -> BesideModel {
        BesideModel { area, plain: None }
    }

    fn call(
        &mut self,
        door: impl Fn(&mut [u16]) -> u32,
        by_words: impl Fn(&mut [u16]) -> u32,
    ) -> u32 {
        let mut expected = self.area.clone();
        let by_words = by_words(&mut expected);
        let answer = door(&mut self.area);
        assert_eq!(answer, by_words);
        if let Some(at) = (0..expected.len()).find(|&at| self.area[at] != expected[at]) {
            panic!("number {at} is {}, not {}", self.area[at], expected[at]);
        }
        answer
    }

    pub fn clear(&mut self) -> u32 {
        let answer = self.call(doors::window_clear, window_area::clear);
        if answer == 0 {
            self.plain = Some(Window::default());
        }
        answer
    }

    /// A search, by the number and the counts that a door gave.
    pub fn enter(&mut self, found: u64, counts: &[u32]) -> u32 {
        let answer = self.call(
            |area| doors::window_enter(area, found, counts),
            |area| window_area::enter(area, found, counts),
        );
        if let (0, Some(plain)) = (answer, &mut self.plain) {
            plain.enter(&window_area::answer_of(found, counts));
        }
        answer
    }

    pub fn remove(&mut self) -> u32 {
        let answer = self.call(doors::window_remove, window_area::remove);
        if let (0, Some(plain)) = (answer, &mut self.plain) {
            plain.remove_oldest();
        }
        answer
    }

    /// The counts, in lent numbers: those of the model's area, and a fresh count over the plain window.
    pub fn counts(&self, counts: &mut [u32]) -> u32 {
        let mut expected = counts.to_vec();
        let by_words = window_area::counts(&self.area, &mut expected);
        let answer = doors::window_counts(&self.area, counts);
        assert_eq!((answer, &*counts), (by_words, &*expected));
        if let (0, Some(plain)) = (answer, &self.plain) {
            let Counts {
                held,
                side_compared,
                greatest,
            } = plain.counts();
            assert_eq!(counts, [held, side_compared, greatest]);
        }
        answer
    }
}
