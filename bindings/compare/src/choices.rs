//! Where words stand, where they may be split, and how they are divided into lines: by what each
//! library has for it, or by functions of a caller.
use crate::breaks;
use crate::functions::{self, here, there};
use crate::random::Random;
use std::fmt;
use textwrap_proved as proved;

/// Numbers at which something could overflow, or is rounded in a `f64`.
pub const HUGE: &[usize] = &[
    1 << 31, (1 << 53) - 1, 1 << 53, (1 << 53) + 1, 1 << 62, (1 << 62) + 1, 1 << 63, usize::MAX - 1,
    usize::MAX,
];

/// What lines of the least cost are measured by.
pub type Penalties = proved::wrap_algorithms::Penalties;

/// How words are divided into lines.
#[derive(Clone, Copy, Debug)]
pub enum Algorithm {
    /// By first fit.
    FirstFit,
    /// By the least cost.
    OptimalFit(Penalties),
    /// By a function of the caller, two words a line.
    InPairs,
    /// By a function of the caller that looks at the widths.
    TwoThatFit,
}

impl Algorithm {
    /// A function of the caller, first fit, or least cost by usual penalties, by small ones or with
    /// huge ones among them.
    pub fn drawn(random: &mut Random) -> Algorithm {
        match random.below(48) {
            0..=3 => Algorithm::InPairs,
            4..=7 => Algorithm::TwoThatFit,
            8..=17 => Algorithm::FirstFit,
            18..=27 => Algorithm::OptimalFit(Penalties::new()),
            28..=42 => Algorithm::OptimalFit(penalties(random, 0)),
            _ => Algorithm::OptimalFit(penalties(random, 4)),
        }
    }

    /// The same for the proved library.
    pub fn proved(self) -> proved::WrapAlgorithm {
        use proved::WrapAlgorithm;
        match self {
            Algorithm::FirstFit => WrapAlgorithm::FirstFit,
            Algorithm::OptimalFit(penalties) => WrapAlgorithm::OptimalFit(penalties),
            Algorithm::InPairs => WrapAlgorithm::Custom(here::in_pairs),
            Algorithm::TwoThatFit => WrapAlgorithm::Custom(here::two_that_fit),
        }
    }

    /// The same for the original.
    pub fn original(self) -> textwrap::WrapAlgorithm {
        use textwrap::WrapAlgorithm;
        match self {
            Algorithm::FirstFit => WrapAlgorithm::FirstFit,
            Algorithm::OptimalFit(penalties) => {
                WrapAlgorithm::OptimalFit(original_penalties(penalties))
            }
            Algorithm::InPairs => WrapAlgorithm::Custom(there::in_pairs),
            Algorithm::TwoThatFit => WrapAlgorithm::Custom(there::two_that_fit),
        }
    }
}

/// Where words stand.
#[derive(Clone, Copy, Debug, PartialEq, Eq, PartialOrd, Ord)]
pub enum Separator {
    /// Between blanks.
    Blanks,
    /// Between Unicode line breaks. A function gives the original those of the proved library.
    OurBreaks,
    /// Between Unicode line breaks, which each library finds by itself.
    OwnBreaks,
    /// By a function of the caller.
    Slashes,
}

impl Separator {
    /// Any of them, as often. One that the original lacks gives way to that with our breaks.
    pub fn drawn(random: &mut Random) -> Separator {
        match random.below(4) {
            0 => Separator::Blanks,
            1 if breaks::HAS_OWN => Separator::OwnBreaks,
            1 | 2 => Separator::OurBreaks,
            _ => Separator::Slashes,
        }
    }

    /// That of both libraries if none is given.
    pub fn default_of_both() -> Separator {
        if breaks::HAS_OWN { Separator::OwnBreaks } else { Separator::Blanks }
    }

    /// Whether words stand between Unicode line breaks.
    pub fn is_breaks(self) -> bool {
        matches!(self, Separator::OurBreaks | Separator::OwnBreaks)
    }

    /// The same for the proved library.
    pub fn proved(self) -> proved::WordSeparator {
        use proved::WordSeparator;
        match self {
            Separator::Blanks => WordSeparator::AsciiSpace,
            Separator::OurBreaks | Separator::OwnBreaks => WordSeparator::UnicodeBreakProperties,
            Separator::Slashes => WordSeparator::Custom(here::after_slashes),
        }
    }

    /// The same for the original.
    pub fn original(self) -> textwrap::WordSeparator {
        use textwrap::WordSeparator;
        match self {
            Separator::Blanks => WordSeparator::AsciiSpace,
            Separator::OurBreaks => WordSeparator::Custom(breaks::by_our_cuts),
            Separator::OwnBreaks => breaks::own(),
            Separator::Slashes => WordSeparator::Custom(there::after_slashes),
        }
    }
}

impl fmt::Display for Separator {
    fn fmt(&self, f: &mut fmt::Formatter<'_>) -> fmt::Result {
        f.pad(match self {
            Separator::Blanks => "at blanks",
            Separator::OurBreaks => "at our line breaks",
            Separator::OwnBreaks => "each at its breaks",
            Separator::Slashes => "by a function",
        })
    }
}

/// Where words may be split.
#[derive(Clone, Copy, Debug, PartialEq, Eq)]
pub enum Splitter {
    /// Nowhere.
    Nowhere,
    /// After hyphens between letters or digits.
    Hyphens,
    /// By a function of the caller, after `super`.
    AfterSuper,
    /// By a function of the caller, after each three characters.
    EachThree,
}

impl Splitter {
    /// Any of them, mostly that at hyphens.
    pub fn drawn(random: &mut Random) -> Splitter {
        match random.below(8) {
            0 | 1 => Splitter::Nowhere,
            2 => Splitter::AfterSuper,
            3 => Splitter::EachThree,
            _ => Splitter::Hyphens,
        }
    }

    /// The same for the proved library.
    pub fn proved(self) -> proved::WordSplitter {
        use proved::WordSplitter;
        match self {
            Splitter::Nowhere => WordSplitter::NoHyphenation,
            Splitter::Hyphens => WordSplitter::HyphenSplitter,
            Splitter::AfterSuper => WordSplitter::Custom(functions::after_super),
            Splitter::EachThree => WordSplitter::Custom(functions::each_three),
        }
    }

    /// The same for the original.
    pub fn original(self) -> textwrap::WordSplitter {
        use textwrap::WordSplitter;
        match self {
            Splitter::Nowhere => WordSplitter::NoHyphenation,
            Splitter::Hyphens => WordSplitter::HyphenSplitter,
            Splitter::AfterSuper => WordSplitter::Custom(functions::after_super),
            Splitter::EachThree => WordSplitter::Custom(functions::each_three),
        }
    }
}

/// The penalties as the original has them.
pub fn original_penalties(penalties: Penalties) -> textwrap::wrap_algorithms::Penalties {
    textwrap::wrap_algorithms::Penalties {
        nline_penalty: penalties.nline_penalty,
        overflow_penalty: penalties.overflow_penalty,
        short_last_line_fraction: penalties.short_last_line_fraction,
        short_last_line_penalty: penalties.short_last_line_penalty,
        hyphen_penalty: penalties.hyphen_penalty,
    }
}

/// Small penalties and usual ones; `most_huge` in 8 are huge.
fn penalties(random: &mut Random, most_huge: usize) -> Penalties {
    let usual = Penalties::new();
    let mut penalty = |usual: usize| match random.below(8) {
        chosen if chosen < most_huge => random.pick(HUGE),
        4 => usual,
        5 => 0,
        6 => random.below(8),
        3 => random.below(10_000),
        _ => random.below(200),
    };
    Penalties {
        nline_penalty: penalty(usual.nline_penalty),
        overflow_penalty: penalty(usual.overflow_penalty),
        short_last_line_fraction: penalty(usual.short_last_line_fraction),
        short_last_line_penalty: penalty(usual.short_last_line_penalty),
        hyphen_penalty: penalty(usual.hyphen_penalty),
    }
}
