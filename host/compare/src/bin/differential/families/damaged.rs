//! Sheets whose form is broken, or nearly.

use compare::Random;
use reference::write_sheet;

use super::mixed;
use crate::scenario::{Room, Scenario, Step};

/// Counts far too large.
const COUNTS: [u32; 4] = [0xF0F0_F0F0, 0x7878_7879, u32::MAX, 1 << 31];
/// 17 times this is 1 modulo 2^32.
const INVERSE: u32 = 0xF0F0_F0F1;

/// A damaged sheet before or after a good one, and a finish.
pub fn scenario(random: &mut Random) -> Scenario {
    let draft = mixed::draft(random);
    let mut sheet = write_sheet(&draft.calls).expect("the calls of a sheet fit one");
    let room = Room::for_steps(&[Step::Sheet(draft.calls)]);
    let good = sheet.clone();
    for _ in 0..random.between(1, 2) {
        damage(&mut sheet, random);
    }
    let mut steps = vec![Step::RawSheet(sheet)];
    if random.chance(50) {
        let at = random.below(2) as usize;
        steps.insert(at, Step::RawSheet(good));
    }
    steps.push(Step::Finish);
    let mut scenario = Scenario::new(draft.arch, draft.symbols, random.number(), steps);
    scenario.room = room;
    scenario
}

fn damage(sheet: &mut Vec<u8>, random: &mut Random) {
    match random.below(9) {
        0 => sheet.truncate(random.below(sheet.len() as u32 + 1) as usize),
        1 => sheet.extend(random.bytes(17)),
        2 => sheet.push(0),
        3 => set(sheet, 0, &random.pick(&COUNTS).to_le_bytes()),
        4 => {
            let count = random.below(8);
            set(sheet, 0, &count.to_le_bytes());
        }
        5 => {
            let calls = sheet.len().saturating_sub(4) / 17;
            let kind = random.pick(&[0, 1, 2, 5, 8, 10, 11, 12, 128, 255]);
            let at = 4 + random.below(calls as u32 + 1) as usize;
            set(sheet, at, &[kind]);
        }
        6 => {
            // 4 + 17 n, taken modulo 2^32, is the sheet's length.
            sheet.truncate(random.pick(&[5, 6, 21, 1_000]));
            let count = (sheet.len() as u32).wrapping_sub(4).wrapping_mul(INVERSE);
            set(sheet, 0, &count.to_le_bytes());
        }
        _ => {
            let at = random.below(sheet.len() as u32 + 1) as usize;
            if let Some(byte) = sheet.get_mut(at) {
                *byte ^= 1 << random.below(8);
            }
        }
    }
}

fn set(sheet: &mut [u8], at: usize, bytes: &[u8]) {
    for (byte, new) in sheet.iter_mut().skip(at).zip(bytes) {
        *byte = *new;
    }
}
