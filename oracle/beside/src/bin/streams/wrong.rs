//! Wrong functions, by which the comparison is shown to fail: each does what the archive does, and one thing else.

use beside::length;
use oraclelib::{
    program::Record,
    records::{Kind, TEXTURED},
    states::{self, ALPHA_ARG0, COLOR_ARG0, RESULT_ARG, StateWrite},
};
use yuzuknoll::raw::{self, Applied, Emitted, HELD_LENGTH};

use crate::{Archive, Functions, held_bytes, held_of, lists, place};

/// What a wrong function does.
#[derive(Clone, Copy, Debug)]
pub enum Wrong {
    ReadTakesOneMore,
    ReadNamesAnotherKind,
    ReadPutsKindAfterLength,
    ReadPassesSpecular,
    ReadPassesAWord,
    ReadReportsAHighBit,
    ReadReportsOnRefusal,
    WriteClearsTheByteBehind,
    WriteWritesOnRefusal,
    WriteAnswersAnotherNumber,
    WriteAnswers8Before13,
    WriteLeavesTheLastByte,
    WriteReportsNothing,
    WriteReportsOnRefusal,
    ApplyForgetsTheEntry,
    ApplyForgetsTheOthers,
    ApplyHoldsOnRefusal,
    ApplyClearsABadPart,
    ApplyClearsTheByteBehind,
    ApplyWritesAnotherByte,
    ApplyWritesOnRefusal,
    ApplyDropsTheMask,
    ApplyMovesTheWarnings,
    ApplyDropsTheAlphaWarning,
    ApplyDropsWhatItTook,
    ApplyNamesAnotherKind,
    ApplyLeavesTheResultOfAKey,
    ApplyReportsOnRefusal,
    ApplyAnswers1For7,
    ApplyAnswers6For13,
    ApplyAnswersNoRoomEarly,
    ReadPassesABadValue,
    ReadAnswers12Before11,
    ReadAnswers11Before10,
    WriteAnswers8Before12,
    FirstWriteWins,
    DefaultArgumentsExchanged,
    ResultClearsTheTexture,
    WriteAtTheNextStage,
    WriteClearsSpecular,
    WriteBeginsAnew,
    WriteKeepsABadKey,
    RefusedWriteHoldsTheDefaults,
    ApplyHoldsTheWritesRecord,
    ReadCutsAWideKeyLate,
    ReadNamesAWideKeyAKey,
    Argument0LeavesTheKind,
    WideningTakes0,
    EveryWriteWidens,
    Arguments0Exchanged,
    AKeyClearsWhatIsBehindIt,
    AWideKeyStaysUnderAKey,
}

impl Wrong {
    pub const ALL: [Self; 52] = [
        Self::ReadTakesOneMore,
        Self::ReadNamesAnotherKind,
        Self::ReadPutsKindAfterLength,
        Self::ReadPassesSpecular,
        Self::ReadPassesAWord,
        Self::ReadReportsAHighBit,
        Self::ReadReportsOnRefusal,
        Self::WriteClearsTheByteBehind,
        Self::WriteWritesOnRefusal,
        Self::WriteAnswersAnotherNumber,
        Self::WriteAnswers8Before13,
        Self::WriteLeavesTheLastByte,
        Self::WriteReportsNothing,
        Self::WriteReportsOnRefusal,
        Self::ApplyForgetsTheEntry,
        Self::ApplyForgetsTheOthers,
        Self::ApplyHoldsOnRefusal,
        Self::ApplyClearsABadPart,
        Self::ApplyClearsTheByteBehind,
        Self::ApplyWritesAnotherByte,
        Self::ApplyWritesOnRefusal,
        Self::ApplyDropsTheMask,
        Self::ApplyMovesTheWarnings,
        Self::ApplyDropsTheAlphaWarning,
        Self::ApplyDropsWhatItTook,
        Self::ApplyNamesAnotherKind,
        Self::ApplyLeavesTheResultOfAKey,
        Self::ApplyReportsOnRefusal,
        Self::ApplyAnswers1For7,
        Self::ApplyAnswers6For13,
        Self::ApplyAnswersNoRoomEarly,
        Self::ReadPassesABadValue,
        Self::ReadAnswers12Before11,
        Self::ReadAnswers11Before10,
        Self::WriteAnswers8Before12,
        Self::FirstWriteWins,
        Self::DefaultArgumentsExchanged,
        Self::ResultClearsTheTexture,
        Self::WriteAtTheNextStage,
        Self::WriteClearsSpecular,
        Self::WriteBeginsAnew,
        Self::WriteKeepsABadKey,
        Self::RefusedWriteHoldsTheDefaults,
        Self::ApplyHoldsTheWritesRecord,
        Self::ReadCutsAWideKeyLate,
        Self::ReadNamesAWideKeyAKey,
        Self::Argument0LeavesTheKind,
        Self::WideningTakes0,
        Self::EveryWriteWidens,
        Self::Arguments0Exchanged,
        Self::AKeyClearsWhatIsBehindIt,
        Self::AWideKeyStaysUnderAKey,
    ];

    /// What a wrong function makes of what was held before an accepted write, and of what is held after it.
    fn spoil_write(
        self,
        write: &StateWrite,
        before: &[u8; HELD_LENGTH],
        held: &mut [u8; HELD_LENGTH],
    ) {
        let had_key = held_of(before).key;
        let mut after = held_of(held);
        let Some(key) = &mut after.key else {
            return;
        };
        let stage = usize::from(write.stage);
        match self {
            Self::FirstWriteWins => {
                // A state that has no default value any more was written before.
                let state = (write.stage, write.state);
                match had_key {
                    Some(had) if lists::states_of(before)[&state] != lists::defaults()[&state] => {
                        *key = had;
                    }
                    _ => return,
                }
            }
            Self::DefaultArgumentsExchanged if had_key.is_none() => {
                for stage in &mut key.stages {
                    (stage.color.arg1, stage.color.arg2) = (stage.color.arg2, stage.color.arg1);
                }
                *key = write.done(*key);
            }
            Self::ResultClearsTheTexture if write.state == RESULT_ARG => {
                key.stages[stage].flags &= !TEXTURED;
            }
            Self::WriteAtTheNextStage => {
                let next = StateWrite {
                    stage: (write.stage + 1) % 8,
                    ..*write
                };
                *key = next.done(had_key.unwrap_or_else(states::defaults));
            }
            Self::WriteClearsSpecular => key.specular = 0,
            Self::WriteBeginsAnew => *key = write.done(states::defaults()),
            Self::WriteKeepsABadKey if had_key.is_none() && before[0] != 0 => {
                *held = *before;
                return;
            }
            Self::Argument0LeavesTheKind => match had_key {
                Some(had) if write.widens() => *key = had,
                _ => return,
            },
            Self::WideningTakes0 if write.widens() && !had_key.is_some_and(|k| k.is_wide()) => {
                for stage in &mut key.stages {
                    stage.color.arg0 = Some(0);
                    stage.alpha.arg0 = Some(0);
                }
                *key = write.done(*key);
            }
            Self::EveryWriteWidens => *key = key.widened(),
            Self::Arguments0Exchanged if write.widens() => {
                let other = StateWrite {
                    state: COLOR_ARG0 + ALPHA_ARG0 - write.state,
                    ..*write
                };
                *key = other.done(had_key.unwrap_or_else(states::defaults));
            }
            Self::ApplyHoldsTheWritesRecord => {
                let record = Record::State(*write).bytes();
                held[..record.len()].copy_from_slice(&record);
                return;
            }
            _ => return,
        }
        let key = Record::Key(*key).bytes();
        held[..key.len()].copy_from_slice(&key);
    }
}

const KEY: u64 = Kind::Key as u64;
const WIDE_KEY: u64 = Kind::WideKey as u64;
const VARIANT: u64 = Kind::Variant as u64;
const ENTRY: u64 = Kind::Entry as u64;
const EMIT: u64 = Kind::Emit as u64;

/// The write at the front of some bytes, if it is whole.
fn write_in(bytes: &[u8]) -> Option<StateWrite> {
    let record = bytes.get(..length(Kind::State))?;
    (record[0] == Kind::State as u8).then(|| StateWrite::from_body(&record[1..]))
}

/// The report of a record that is passed.
fn passed(kind: Kind, report: &mut raw::Record) -> u64 {
    *report = beside::taken(kind);
    0
}

fn spoil(byte: Option<&mut u8>) {
    if let Some(byte) = byte {
        *byte ^= 1;
    }
}

impl Functions for Wrong {
    fn read(&self, bytes: &[u8], report: &mut raw::Record) -> u64 {
        let number = Archive.read(bytes, report);
        let accepted = number == 0;
        match self {
            Self::ReadTakesOneMore if accepted => report.taken += 1,
            Self::ReadNamesAnotherKind if report.kind == ENTRY => report.kind = VARIANT,
            Self::ReadPutsKindAfterLength if number == 2 && bytes.len() < 20 => return 1,
            Self::ReadPassesSpecular if number == 4 => return passed(Kind::Key, report),
            Self::ReadPassesAWord if number == 13 => return passed(Kind::Entry, report),
            // The value is judged by its lowest byte.
            Self::ReadPassesABadValue if number == 12 => {
                if write_in(bytes).is_some_and(|write| write.value & 0xff == 1) {
                    return passed(Kind::State, report);
                }
            }
            Self::ReadAnswers12Before11 if number == 11 => {
                if write_in(bytes).is_some_and(|write| write.value > 255) {
                    return 12;
                }
            }
            Self::ReadAnswers11Before10 if number == 10 => {
                if write_in(bytes).is_some_and(|w| !states::TYPES.contains(&w.state)) {
                    return 11;
                }
            }
            Self::ReadCutsAWideKeyLate
                if number == 1 && bytes.first() == Some(&6) && bytes.len() >= length(Kind::Key) =>
            {
                return passed(Kind::WideKey, report);
            }
            Self::ReadNamesAWideKeyAKey if report.kind == WIDE_KEY => report.kind = KEY,
            Self::ReadReportsAHighBit if accepted => report.kind |= 1 << 63,
            Self::ReadReportsOnRefusal if !accepted => report.taken = 0,
            _ => {}
        }
        number
    }

    fn write(&self, bytes: &[u8], out: &mut [u8], report: &mut raw::Record) -> u64 {
        let (before, unreported) = (out.to_vec(), *report);
        let number = Archive.write(bytes, out, report);
        let taken = report.taken as usize;
        if number == 0 {
            match self {
                Self::WriteClearsTheByteBehind => spoil(out.get_mut(taken)),
                Self::WriteLeavesTheLastByte => out[taken - 1] = before[taken - 1],
                Self::WriteReportsNothing => *report = unreported,
                _ => {}
            }
        } else {
            match self {
                Self::WriteWritesOnRefusal => spoil(out.first_mut()),
                Self::WriteAnswersAnotherNumber if number == 8 => return 1,
                Self::WriteAnswers8Before13 if number == 13 && out.len() < length(Kind::Entry) => {
                    return 8;
                }
                Self::WriteAnswers8Before12 if number == 12 && out.len() < length(Kind::State) => {
                    return 8;
                }
                Self::WriteReportsOnRefusal => report.kind = 0,
                _ => {}
            }
        }
        number
    }

    fn apply(
        &self,
        held: &mut [u8; HELD_LENGTH],
        bytes: &[u8],
        text: &mut [u8],
        report: &mut Applied,
    ) -> u64 {
        let (before, unreported) = (*held, *report);
        let number = Archive.apply(held, bytes, text, report);
        if let Self::ApplyClearsABadPart = self {
            *held = held_bytes(&held_of(held));
        }
        let write = write_in(bytes);
        if number != 0 {
            match self {
                Self::RefusedWriteHoldsTheDefaults
                    if write.is_some() && held_of(held).key.is_none() =>
                {
                    let key = Record::Key(states::defaults()).bytes();
                    held[..key.len()].copy_from_slice(&key);
                }
                Self::ApplyHoldsOnRefusal => spoil(held.first_mut()),
                Self::ApplyWritesOnRefusal => spoil(text.last_mut()),
                Self::ApplyReportsOnRefusal => report.result = Emitted::default(),
                Self::ApplyAnswers1For7 if number == 7 => return 1,
                Self::ApplyAnswers6For13 if number == 13 => return 6,
                _ => {}
            }
            return number;
        }
        if let Some(write) = write {
            self.spoil_write(&write, &before, held);
        }
        let length = report.result.length as usize;
        match self {
            Self::AKeyClearsWhatIsBehindIt if report.kind == KEY => {
                held[self::length(Kind::Key)..place(Kind::Variant)].fill(0);
            }
            // The stages of kind 1, with the arguments 0 that were there
            Self::AWideKeyStaysUnderAKey if report.kind == KEY => {
                let after = held_of(held).key.expect("a key");
                if let Some(had) = held_of(&before).key.filter(|had| had.is_wide()) {
                    let mut key = after.widened();
                    for (stage, had) in key.stages.iter_mut().zip(had.stages) {
                        stage.color.arg0 = had.color.arg0;
                        stage.alpha.arg0 = had.alpha.arg0;
                    }
                    let key = Record::Key(key).bytes();
                    held[..key.len()].copy_from_slice(&key);
                }
            }
            Self::ApplyForgetsTheEntry if report.kind == ENTRY => *held = before,
            Self::ApplyForgetsTheOthers if report.kind == VARIANT => {
                held[..place(Kind::Variant)].fill(0);
            }
            Self::ApplyClearsTheByteBehind if length != 0 => spoil(text.get_mut(length)),
            Self::ApplyWritesAnotherByte if length != 0 => spoil(text.get_mut(length - 1)),
            Self::ApplyDropsTheMask => report.result.mask = 0,
            Self::ApplyMovesTheWarnings => {
                report.result.modifier_warnings = report.result.modifier_warnings << 1 & 0xff;
            }
            Self::ApplyDropsTheAlphaWarning => report.result.alpha_warning = 0,
            Self::ApplyDropsWhatItTook if report.kind == EMIT => report.taken = 0,
            Self::ApplyNamesAnotherKind if report.kind == EMIT => report.kind = KEY,
            Self::ApplyLeavesTheResultOfAKey if report.kind == KEY => {
                report.result = unreported.result;
            }
            Self::ApplyAnswersNoRoomEarly if length != 0 && text.len() == length => {
                *report = unreported;
                return 8;
            }
            _ => {}
        }
        number
    }
}
