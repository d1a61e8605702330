//! The writer on a record, labels and relocations made by hand.

use compare::{AARCH64, LABEL_TARGET, MOST_ENTRIES, NONE, Part, Random, X64};

use super::{FEW, addend, any_of, near, row_of, section, words_of, write};
use crate::scenario::{Scenario, Step};

/// What the writer is lent.
struct Handed {
    arch: u32,
    labels: Vec<u32>,
    relocations: Vec<[u32; 6]>,
    /// The record's count of labels.
    label_count: u32,
    /// The record's count of relocations.
    relocation_count: u32,
    record_bytes: usize,
    labels_bytes: usize,
    relocations_bytes: usize,
    output_bytes: usize,
}

/// What is fit, and in most cases some of it spoilt.
pub fn scenario(random: &mut Random) -> Scenario {
    let arch = random.pick(&[X64, X64, AARCH64]);
    let relocation_count = random.below(FEW);
    let mut handed = Handed::fit(arch, relocation_count, random);
    if random.chance(75) {
        for _ in 0..random.between(1, 2) {
            handed.spoil(random);
        }
    }
    handed.into_scenario(random)
}

/// As many relocations as there may be, or one more.
pub fn long(random: &mut Random) -> Scenario {
    let arch = random.pick(&[X64, AARCH64]);
    let past = random.pick(&[0, 0, 1]);
    Handed::fit(arch, MOST_ENTRIES as u32 + past, random).into_scenario(random)
}

impl Handed {
    fn fit(arch: u32, relocation_count: u32, random: &mut Random) -> Self {
        let labels = 0..random.below(FEW);
        let labels: Vec<_> = labels
            .map(|_| random.word() >> random.pick(&[1, 8, 20, 31]))
            .collect();
        let relocations = 0..relocation_count;
        let relocations: Vec<_> = relocations
            .map(|_| fit_relocation(arch, &labels, random))
            .collect();
        Self {
            arch,
            label_count: labels.len() as u32,
            relocation_count,
            record_bytes: 24,
            labels_bytes: labels.len() * 4,
            relocations_bytes: relocations.len() * 24,
            output_bytes: relocations.len() * 24,
            labels,
            relocations,
        }
    }

    /// Changes one thing, so that it mostly is unfit.
    fn spoil(&mut self, random: &mut Random) {
        match random.below(12) {
            0..=3 => self.spoil_relocation(random),
            4 => {
                if let Some(offset) = any_of(&mut self.labels, random) {
                    *offset = NONE;
                }
            }
            5 => {
                let any = random.word();
                self.arch = random.pick(&[0, 1, 2, 3, 4, 5, 6, 7, 8, any]);
            }
            6 => self.label_count = other_count(self.label_count, random),
            7 => self.relocation_count = other_count(self.relocation_count, random),
            8 => self.record_bytes = random.pick(&[0, 23, 25]),
            9 => self.output_bytes = near(self.output_bytes, random),
            10 => {
                let fewer = random.pick(&[1, 3, 4]);
                self.labels_bytes = self.labels_bytes.saturating_sub(fewer);
                self.relocations_bytes = near(self.relocations_bytes, random);
            }
            _ => self.pass_a_limit(random),
        }
    }

    fn spoil_relocation(&mut self, random: &mut Random) {
        let Some(words) = any_of(&mut self.relocations, random) else {
            return;
        };
        match (random.below(4), self.labels.first()) {
            (0, _) => words[1] = random.below(28),
            (1, _) => words[1] = random.pick(&[28, 255, 256, u32::MAX]),
            (2, Some(offset)) => {
                let past = i64::MAX - i64::from(*offset) + 1;
                words[2] = LABEL_TARGET;
                let addend = random.pick(&[past, i64::MAX, past - 1]);
                [words[4], words[5]] = words_of(addend);
            }
            _ => {
                let unknown = LABEL_TARGET + self.labels.len() as u32;
                words[2] = random.pick(&[unknown, unknown + 1, u32::MAX]);
            }
        }
    }

    /// Lends 65,537 entries, or one byte less.
    fn pass_a_limit(&mut self, random: &mut Random) {
        let less = usize::from(random.chance(20));
        let bytes = |part: Part| (MOST_ENTRIES + 1) * part.entry_bytes() - less;
        match random.below(12) {
            0 => self.relocations_bytes = bytes(Part::Relocations),
            1 => self.output_bytes = bytes(Part::Relas),
            _ => self.labels_bytes = bytes(Part::Labels),
        }
    }

    /// The relocations written, and their entries, or damaged ones, read and written again.
    fn into_scenario(self, random: &mut Random) -> Scenario {
        let mut record = [0; 6].map(|_: u32| random.word());
        record[0] = self.arch;
        record[4] = self.label_count;
        record[5] = self.relocation_count;
        let mut steps = vec![
            write(Part::Record, &record),
            write(Part::Labels, &self.labels),
            write(Part::Relocations, self.relocations.as_flattened()),
            Step::WriteRelas(section(random)),
        ];
        if random.chance(20) {
            steps.push(Step::Write {
                part: Part::Relas,
                at: random.below(self.output_bytes as u32 + 1) as usize,
                bytes: random.bytes(1),
            });
        }
        steps.push(Step::WriteAgain);
        let mut scenario = Scenario::new(X64, 0, random.number(), steps);
        let entries_bytes = near(self.output_bytes, random);
        let room = &mut scenario.room;
        room.set_bytes(Part::Record, self.record_bytes);
        room.set_bytes(Part::Labels, self.labels_bytes);
        room.set_bytes(Part::Relocations, self.relocations_bytes);
        room.set_bytes(Part::Relas, self.output_bytes);
        room.set_bytes(Part::Entries, entries_bytes);
        scenario
    }
}

fn fit_relocation(arch: u32, labels: &[u32], random: &mut Random) -> [u32; 6] {
    let symbol = random.pick(&[0, 1, 5, LABEL_TARGET - 2, LABEL_TARGET - 1]);
    let (mut target, mut offset) = (symbol, 0);
    if !labels.is_empty() && random.chance(60) {
        let label = random.below(labels.len() as u32);
        (target, offset) = (LABEL_TARGET + label, labels[label as usize]);
    }
    let addend = addend(random, offset).min(i64::MAX - i64::from(offset));
    let [low, high] = words_of(addend);
    let (_, kind, _) = row_of(arch, random);
    // Nothing reads the fourth word.
    let unread = random.pick(&[0, 0, 0, u32::MAX]);
    [random.word(), kind, target, unread, low, high]
}

fn other_count(count: u32, random: &mut Random) -> u32 {
    let less = count.saturating_sub(1);
    random.pick(&[less, count + 1, count + 1, 1 << 30, u32::MAX])
}
