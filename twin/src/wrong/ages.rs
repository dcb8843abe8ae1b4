//! Wrong rules of read counts and weight sums (request E8).

use super::right;
use crate::answer::{code, Answer};
use crate::ids::Slot;
use crate::keeper::Call;
use crate::sizes::*;
use crate::view::View;

/// A wrong rule. The first ones show only near the limit, or in the words of a row.
#[derive(Clone, Copy, Debug, PartialEq, Eq)]
pub enum WrongAge {
    /// The sum begins anew past the limit,
    SumWraps,
    /// or the count does,
    CountWraps,
    /// or the sum stays where it is if it would go past it,
    SumStays,
    /// or goes past it,
    SumPasses,
    /// or the count does,
    CountPasses,
    /// or one of them is held a number too low,
    SumLow,
    CountLow,
    /// or a held sum holds the count too,
    HeldTogether,
    /// or the sum has only 31 bits.
    SumSigned,
    /// The two stand the other way round in the row.
    OtherPlaces,
    /// One past its writing counts,
    Settled,
    /// or an update that is writing.
    Update,
    /// A read that waits counts,
    Waits,
    /// or one of an unknown item,
    UnknownItem,
    /// or a write,
    Write,
    /// or the end itself.
    End,
    /// The first version weighs 0,
    FromZero,
    /// or every version 1,
    AllOne,
    /// or a version as many as there are,
    Length,
    /// or its stamp's distance from the clock,
    Distance,
    /// or at most 16,
    AtMost16,
    /// or the newest nothing, which is not counted either.
    OldAlone,
    /// The sum is the greatest weight,
    Greatest,
    /// or the last one.
    Latest,
    /// Only the first read counts,
    FirstAlone,
    /// A commit answers nothing,
    CommitBare,
    /// or an abort does.
    AbortBare,
    /// The two are answered the other way round,
    Exchanged,
    /// or the count as number,
    AsNumber,
    /// or the quotient as value.
    Quotient,
    /// The end leaves them for who comes next,
    LeftBehind,
    /// or an end sets those of all queries to 0.
    ClearsAll,
    /// The words of the slot before are counted up.
    OtherSlot,
}

use WrongAge::*;

/// How many show only near the limit, or in the words.
const HIDDEN: usize = 12;

impl WrongAge {
    pub const ALL: [(&'static str, WrongAge); 33] = [
        ("age-sum-wraps", SumWraps),
        ("age-count-wraps", CountWraps),
        ("age-sum-stays", SumStays),
        ("age-sum-passes", SumPasses),
        ("age-count-passes", CountPasses),
        ("age-sum-low", SumLow),
        ("age-count-low", CountLow),
        ("age-held-together", HeldTogether),
        ("age-sum-signed", SumSigned),
        ("age-other-places", OtherPlaces),
        ("age-settled", Settled),
        ("age-update", Update),
        ("age-waits", Waits),
        ("age-unknown-item", UnknownItem),
        ("age-write", Write),
        ("age-end", End),
        ("age-from-0", FromZero),
        ("age-all-1", AllOne),
        ("age-length", Length),
        ("age-distance", Distance),
        ("age-at-most-16", AtMost16),
        ("age-old-alone", OldAlone),
        ("age-greatest", Greatest),
        ("age-latest", Latest),
        ("age-first-alone", FirstAlone),
        ("age-commit-bare", CommitBare),
        ("age-abort-bare", AbortBare),
        ("age-exchanged", Exchanged),
        ("age-as-number", AsNumber),
        ("age-quotient", Quotient),
        ("age-left-behind", LeftBehind),
        ("age-clears-all", ClearsAll),
        ("age-other-slot", OtherSlot),
    ];

    /// Those that a script from fresh tables shows.
    pub(super) fn names_shown() -> Vec<&'static str> {
        super::names(&WrongAge::ALL[HIDDEN..])
    }

    /// The call with this wrong rule, without the test of the tables.
    pub(crate) fn call(self, view: &mut View, call: Call) -> Answer {
        let slot = match call.number().and_then(|number| view.find(number)) {
            Some(slot) => slot,
            None => return right(view, call),
        };
        let is_query = view.is_query(slot);
        match call {
            Call::Read { item, .. } => self.read(view, slot, call, item),
            Call::Write { .. } if is_query && self == Write => {
                let answer = right(view, call);
                count(view, slot, 1);
                answer
            }
            Call::Commit { .. } | Call::Abort { .. } if is_query => self.end(view, slot, call),
            _ => right(view, call),
        }
    }

    fn read(self, view: &mut View, slot: Slot, call: Call, item: u64) -> Answer {
        let before = [view.txn(slot)[READS], view.txn(slot)[WEIGHT]];
        let is_query = view.is_query(slot);
        let is_settled = view.is_settled(slot);
        let answer = right(view, call);
        match (self, answer.code) {
            (Waits, code::WAIT) if is_query => count(view, slot, 1),
            (UnknownItem, code::UNKNOWN_ITEM) if is_query => count(view, slot, 1),
            (Settled, code::GRANTED) if is_settled => count(view, slot, answer.looked),
            (Update, code::GRANTED) if !is_query && !is_settled => {
                count(view, slot, answer.looked);
            }
            (_, code::GRANTED) if is_query => {
                let row = &view.versions[item as usize * VERSION_ROW..][..VERSION_ROW];
                let (length, stamp) = (row[COUNT], row[2 * answer.looked as usize - 1]);
                let age = view.clock().word() - stamp;
                let sums = self.sums(before, answer.looked, length, age);
                if let Some(sums) = sums {
                    view.txn_mut(slot)[READS..=WEIGHT].copy_from_slice(&sums);
                }
                if self == OtherSlot && slot.index() > 0 {
                    view.txn_mut(slot)[READS..=WEIGHT].copy_from_slice(&before);
                    let at = TXN_HEAD + (slot.index() - 1) * TXN_ROW;
                    view.txns[at + READS] += 1;
                    view.txns[at + WEIGHT] += answer.looked;
                }
            }
            _ => {}
        }
        answer
    }

    /// The two words after a granted read; none if they are as they should be.
    fn sums(self, [reads, sum]: [u64; 2], place: u64, length: u64, age: u64) -> Option<[u64; 2]> {
        let held = |reads: u64, sum: u64| Some([reads.min(LAST), sum.min(LAST)]);
        match self {
            SumWraps => Some([LAST.min(reads + 1), (sum + place) & LAST]),
            CountWraps => Some([(reads + 1) & LAST, LAST.min(sum + place)]),
            SumStays if sum + place > LAST => Some([LAST.min(reads + 1), sum]),
            SumPasses => Some([LAST.min(reads + 1), sum + place]),
            CountPasses => Some([reads + 1, LAST.min(sum + place)]),
            SumLow => Some([LAST.min(reads + 1), (LAST - 1).min(sum + place)]),
            CountLow => Some([(LAST - 1).min(reads + 1), LAST.min(sum + place)]),
            HeldTogether if sum == LAST => Some([reads, sum]),
            SumSigned => Some([LAST.min(reads + 1), (LAST >> 1).min(sum + place)]),
            FromZero => held(reads + 1, sum + place - 1),
            AllOne => held(reads + 1, sum + 1),
            Length => held(reads + 1, sum + length),
            Distance => held(reads + 1, sum + age),
            AtMost16 => held(reads + 1, sum + place.min(16)),
            OldAlone if place == 1 => Some([reads, sum]),
            Greatest => held(reads + 1, sum.max(place)),
            Latest => held(reads + 1, place),
            FirstAlone if reads > 0 => Some([reads, sum]),
            OtherPlaces => held(sum + place, reads + 1),
            _ => None,
        }
    }

    fn end(self, view: &mut View, slot: Slot, call: Call) -> Answer {
        let commits = matches!(call, Call::Commit { .. });
        let row = [view.txn(slot)[READS], view.txn(slot)[WEIGHT]];
        let answer = right(view, call);
        match self {
            CommitBare if commits => return Answer::granted(),
            AbortBare if !commits => return Answer::granted(),
            Exchanged => return Answer::found(answer.looked, answer.value),
            AsNumber => {
                return Answer {
                    number: answer.looked,
                    looked: 0,
                    ..answer
                }
            }
            Quotient => {
                let value = answer.value.checked_div(answer.looked).unwrap_or(0);
                return Answer { value, ..answer };
            }
            End => return Answer::found(answer.value + 1, answer.looked + 1),
            LeftBehind => view.txn_mut(slot)[READS..=WEIGHT].copy_from_slice(&row),
            ClearsAll => {
                for row in view.txns[TXN_HEAD..].chunks_exact_mut(TXN_ROW) {
                    row[READS..=WEIGHT].fill(0);
                }
            }
            _ => {}
        }
        answer
    }
}

/// One read more, of this weight.
fn count(view: &mut View, slot: Slot, place: u64) {
    let row = view.txn_mut(slot);
    row[READS] = LAST.min(row[READS] + 1);
    row[WEIGHT] = LAST.min(row[WEIGHT] + place);
}
