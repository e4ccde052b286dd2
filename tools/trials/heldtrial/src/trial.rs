//! One trial: flows are added, then removed and added in turn.

use flow::{Generator, Ipv4Key, Refusal, Settings, Table, IPV4_WIDTH};

/// What is played.
#[derive(Clone, Debug, PartialEq, Eq)]
pub struct HeldLoad {
    generator: Generator,
    flows: u64,
    count: u64,
}

impl HeldLoad {
    /// s, w, flows and count, in eight bytes each; None for an s of zero, flows outside 1 to 4,096 and a count above 2^32.
    pub fn of(bytes: &[u8]) -> Option<HeldLoad> {
        let mut numbers = bytes.chunks(8).map(number_of);
        let (s, w) = (numbers.next()?, numbers.next()?);
        let (flows, count) = (numbers.next()?, numbers.next()?);
        let allowed = s != 0 && (1..=4096).contains(&flows) && count <= 1 << 32;
        let load = HeldLoad {
            generator: Generator { s, w },
            flows,
            count,
        };
        Some(load).filter(|_| allowed)
    }
}

// High byte first.
fn number_of(bytes: &[u8]) -> u64 {
    bytes
        .iter()
        .fold(0, |number, &byte| 256 * number + u64::from(byte))
}

/// Answer, greatest side need, refusals 6, 7, 8 and 9, and the most flows held. The answer is 0, or with zeros after it 1 (a setting out of range)
/// or 14 (settings cut short).
pub fn outcome(load: &HeldLoad, trial: &[u8]) -> [u64; 7] {
    let settings: Vec<u64> = trial.chunks(2).map(number_of).collect();
    let refused = |answer| [answer, 0, 0, 0, 0, 0, 0];
    match settings[..] {
        // trials use width 13
        [p, k, b, t, n, s] if trial.len() == 12 => {
            match Settings::new(p, k, b, t, n, s, IPV4_WIDTH) {
                Ok(settings) => Player::new(settings, load).play(load),
                Err(refusal) => refused(refusal.number().into()),
            }
        }
        _ => refused(14),
    }
}

struct Player {
    table: Table,
    generator: Generator,
    held: Vec<Ipv4Key>,
    side_need: u64,
    // 6, 7, 8 and 9
    refused: [u64; 4],
    most_held: u64,
}

impl Player {
    fn new(settings: Settings, load: &HeldLoad) -> Player {
        Player {
            table: Table::new(settings),
            generator: load.generator.clone(),
            held: Vec::new(),
            side_need: 0,
            refused: [0; 4],
            most_held: 0,
        }
    }

    fn play(mut self, load: &HeldLoad) -> [u64; 7] {
        for _ in 0..load.flows {
            self.add();
        }
        for call in 0..load.count {
            if call % 2 == 0 {
                self.remove();
            } else {
                self.add();
            }
        }
        let [held, not_held, full, side] = self.refused;
        [
            0,
            self.side_need,
            held,
            not_held,
            full,
            side,
            self.most_held,
        ]
    }

    // A key of the first number's eight bytes and the second one's first five.
    fn add(&mut self) {
        let first = self.generator.next_number();
        let second = self.generator.next_number();
        let mut key = Ipv4Key::default();
        key[..8].copy_from_slice(&first.to_be_bytes());
        key[8..].copy_from_slice(&second.to_be_bytes()[..5]);
        match self.table.add(&key, first as u32) {
            Ok(()) => {
                self.held.push(key);
                self.accepted();
            }
            Err(refusal) => self.refused(refusal),
        }
    }

    // A number picks the flow. One is held: no settings refuse an add to an empty table, and an add came before.
    fn remove(&mut self) {
        let number = self.generator.next_number();
        let at = (number % self.held.len() as u64) as usize;
        match self.table.remove(&self.held[at]) {
            Ok(()) => {
                self.held.swap_remove(at);
                self.accepted();
            }
            Err(refusal) => self.refused(refusal),
        }
    }

    fn accepted(&mut self) {
        let need = self.table.tally().in_side_store;
        self.side_need = self.side_need.max(need.into());
        self.most_held = self.most_held.max(self.held.len() as u64);
    }

    fn refused(&mut self, refusal: Refusal) {
        match refusal {
            Refusal::Held => self.refused[0] += 1,
            Refusal::NotHeld => self.refused[1] += 1,
            Refusal::Full => self.refused[2] += 1,
            Refusal::SideFull => self.refused[3] += 1,
            other => unreachable!("a table of its own areas and keys of 13 bytes: {other}"),
        }
    }
}

#[cfg(test)]
mod tests {
    use super::*;
    use model::{bench_load, card::Card, ledger::Ledger};

    fn load(s: u64, w: u64, flows: u64, count: u64) -> Option<HeldLoad> {
        let bytes: Vec<u8> = [s, w, flows, count]
            .iter()
            .flat_map(|number| number.to_be_bytes())
            .collect();
        HeldLoad::of(&bytes)
    }

    fn played(load: &HeldLoad, settings: [u16; 6]) -> [u64; 7] {
        let bytes: Vec<u8> = settings.iter().flat_map(|x| x.to_be_bytes()).collect();
        outcome(load, &bytes)
    }

    // The same on the model's plain ledger.
    fn by_model(load: &HeldLoad, settings: [u16; 6]) -> [u64; 7] {
        let [p, k, b, t, n, s] = settings.map(u64::from);
        let settings = model::settings::Settings::of([p, k, b, t, n, s, IPV4_WIDTH]);
        let card = Card::new(settings);
        let mut ledger = Ledger::default();
        let (s, w) = (load.generator.s, load.generator.w);
        let mut generator = bench_load::Generator { s, w };
        let mut held: Vec<Vec<u8>> = Vec::new();
        let mut numbers = [0; 7];
        for call in 0..load.flows + load.count {
            let answer = if call < load.flows || (call - load.flows) % 2 == 1 {
                let (first, second) = (generator.number(), generator.number());
                let key = [first.to_be_bytes(), second.to_be_bytes()].concat()[..13].to_vec();
                let answer = ledger.add(&card, &key, 0);
                if answer == 0 {
                    held.push(key);
                }
                answer
            } else {
                let at = (generator.number() % held.len() as u64) as usize;
                let answer = ledger.remove(&card, &held[at]);
                if answer == 0 {
                    held.swap_remove(at);
                }
                answer
            };
            if answer != 0 {
                numbers[answer as usize - 4] += 1;
            }
            numbers[1] = numbers[1].max(ledger.tally(&card).in_side);
            numbers[6] = numbers[6].max(ledger.list.len() as u64);
        }
        numbers
    }

    #[test]
    fn as_the_model_plays_it() {
        let mut seen = [0; 7];
        for (settings, flows, count) in [
            ([6, 3, 2, 4, 128, 8], 100, 300),
            ([6, 2, 4, 15, 60, 64], 80, 200),
            ([5, 1, 1, 2, 40, 20], 40, 300),
            ([4, 4, 1, 3, 4096, 3], 10, 300),
            ([12, 3, 4, 15, 4096, 64], 50, 10),
            ([4, 1, 1, 2, 1, 0], 1, 20),
        ] {
            let load = load(flows, 99, flows, count).unwrap();
            let numbers = played(&load, settings);
            assert_eq!(numbers, by_model(&load, settings), "{settings:?}");
            for (times, number) in seen.iter_mut().zip(numbers) {
                *times += number;
            }
        }
        // side need, refusals 8 and 9, flows held
        for i in [1, 4, 5, 6] {
            assert!(seen[i] > 0, "{seen:?}");
        }
    }

    #[test]
    fn refused_loads_and_trials() {
        assert_eq!(load(0, 1, 1, 1), None);
        assert_eq!(load(1, 0, 0, 1), None);
        assert_eq!(load(1, 0, 4097, 1), None);
        assert_eq!(load(1, 0, 4096, (1 << 32) + 1), None);
        assert_eq!(HeldLoad::of(&[1; 24]), None);
        assert!(load(1, 0, 4096, 1 << 32).is_some());
        let load = load(1, 0, 1, 0).unwrap();
        assert_eq!(played(&load, [4, 1, 1, 2, 1, 0]), [0, 0, 0, 0, 0, 0, 1]);
        assert_eq!(played(&load, [13, 1, 1, 2, 1, 0]), [1, 0, 0, 0, 0, 0, 0]);
        for length in [1, 2, 10, 11] {
            assert_eq!(outcome(&load, &[0; 12][..length]), [14, 0, 0, 0, 0, 0, 0]);
        }
    }
}
