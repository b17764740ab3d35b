//! Characters of which the two libraries' tables differ, and others that stand in for them.
//!
//! A stand-in takes as many bytes, and both libraries give it the columns and the class that the
//! proved library gives the character. So with stand-ins in all texts, the original cuts where the
//! proved library does, and its answer can be compared byte by byte.
use crate::drawn::Drawn;
use std::cell::RefCell;
use std::collections::{BTreeSet, HashMap};
use textwrap_proved as proved;

/// What the libraries look at in a character that is not ASCII.
#[derive(Clone, Copy, Debug, PartialEq, Eq, Hash)]
struct Kind {
    bytes: usize,
    columns: usize,
    is_alphanumeric: bool,
    is_whitespace: bool,
}

/// What is known so far: asking the libraries takes time.
#[derive(Default)]
struct Known {
    /// The kinds of a character, by the proved library and by the original.
    kinds: HashMap<char, (Kind, Kind)>,
    /// A character of each kind on which both agree, if there is any.
    agreed: HashMap<Kind, Option<char>>,
    left_out: BTreeSet<char>,
}

thread_local! {
    static KNOWN: RefCell<Known> = RefCell::default();
}

/// The stand-in of each character that needs one.
pub struct StandIns(HashMap<char, char>);

impl StandIns {
    /// Those for all that was drawn, if a character needs one and each that does has one.
    pub fn of(drawn: &Drawn) -> Option<StandIns> {
        let mut of = HashMap::new();
        KNOWN.with_borrow_mut(|known| {
            for ch in drawn.characters() {
                match known.stand_in_of(ch) {
                    StandIn::NotNeeded => {}
                    StandIn::Is(other) => {
                        of.insert(ch, other);
                    }
                    StandIn::Missing => return None,
                }
            }
            (!of.is_empty()).then_some(StandIns(of))
        })
    }

    /// The text with stand-ins.
    pub fn put_in(&self, text: &str) -> String {
        text.chars().map(|ch| self.0.get(&ch).copied().unwrap_or(ch)).collect()
    }
}

/// Whether another character has to stand in for one, and whether there is one that can.
enum StandIn {
    NotNeeded,
    Is(char),
    Missing,
}

/// The text without the characters for which one would have to stand in and none can: no call could
/// be compared there. U+FFFD comes in their places.
pub fn comparable(text: &str) -> String {
    KNOWN.with_borrow_mut(|known| {
        let mut kept = |ch| match known.stand_in_of(ch) {
            StandIn::Missing => {
                known.left_out.insert(ch);
                char::REPLACEMENT_CHARACTER
            }
            _ => ch,
        };
        text.chars().map(&mut kept).collect()
    })
}

/// The text with stand-ins from the start, for texts that are cut at line breaks: as another
/// character may be cut elsewhere, none can stand in when only the original is asked.
pub fn agreed(text: &str) -> String {
    KNOWN.with_borrow_mut(|known| {
        let mut agreed = |ch| match known.stand_in_of(ch) {
            StandIn::Is(other) => other,
            _ => ch,
        };
        text.chars().map(&mut agreed).collect()
    })
}

/// The characters that were left out so far.
pub fn left_out() -> BTreeSet<char> {
    KNOWN.with_borrow(|known| known.left_out.clone())
}

impl Known {
    /// Of ASCII the libraries have to agree: there a difference is left unexplained.
    fn stand_in_of(&mut self, ch: char) -> StandIn {
        if ch.is_ascii() {
            return StandIn::NotNeeded;
        }
        let (ours, originals) = self.kinds_of(ch);
        if ours == originals {
            return StandIn::NotNeeded;
        }
        self.agreed_of(ours).map_or(StandIn::Missing, StandIn::Is)
    }

    fn kinds_of(&mut self, ch: char) -> (Kind, Kind) {
        *self.kinds.entry(ch).or_insert_with(|| kinds(ch))
    }

    fn agreed_of(&mut self, kind: Kind) -> Option<char> {
        *self.agreed.entry(kind).or_insert_with(|| {
            let agree = |ch: &char| ch.len_utf8() == kind.bytes && kinds(*ch) == (kind, kind);
            ('\u{a1}'..char::MAX).find(agree)
        })
    }
}

/// The kinds of a character by the two libraries.
fn kinds(ch: char) -> (Kind, Kind) {
    let text = ch.to_string();
    let kind = |columns, is_alphanumeric| Kind {
        bytes: text.len(),
        columns,
        is_alphanumeric,
        is_whitespace: ch.is_whitespace(),
    };
    (
        kind(proved::core::display_width(&text), is_alphanumeric_here(ch)),
        kind(textwrap::core::display_width(&text), ch.is_alphanumeric()),
    )
}

/// Whether the proved library splits a word after a hyphen that has the character before it. It
/// says nothing else of a character's class.
fn is_alphanumeric_here(ch: char) -> bool {
    let options = proved::Options::new(0)
        .word_separator(proved::WordSeparator::AsciiSpace)
        .wrap_algorithm(proved::WrapAlgorithm::FirstFit)
        .break_words(false);
    proved::wrap(&format!("{ch}-a"), options).len() == 2
}
