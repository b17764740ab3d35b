//! All that a round checks promises on.
pub mod blocks;
pub mod layouts;
pub mod random;
pub mod settings;
pub mod texts;

use blocks::Problem;
use layouts::Layouts;
use random::Random;
use settings::{random_width, Settings};
use texts::{random_paragraphs, random_plain_text, random_text, Alphabet};

/// To start the program `reflow` takes longer than all else in a round, so only one round in so
/// many asks it.
const ROUNDS_PER_REFLOW: usize = 16;

/// What a round checks promises on.
#[derive(Clone, Debug)]
pub struct Case {
    /// What all else is drawn from.
    pub seed: u64,
    /// What the text may have beside words.
    pub alphabet: Alphabet,
    /// The text of most checks.
    pub text: String,
    /// Words with single blanks or line feeds between them.
    pub plain: String,
    /// How texts are wrapped.
    pub settings: Settings,
    /// A width beside that of the settings.
    pub first_width: usize,
    /// So few fragments that all divisions of them can be tried.
    pub few: Problem,
    /// Many fragments.
    pub many: Problem,
    /// Lines with prefixes, of many paragraphs.
    pub paragraphs: String,
    /// How these are reflowed.
    pub layouts: Layouts,
    /// Whether they are, in this round.
    pub is_reflowed: bool,
}

impl Case {
    /// The case of a seed.
    pub fn of_seed(seed: u64) -> Self {
        let random = &mut Random::new(seed);
        let alphabet = random.pick(&[Alphabet::Prose, Alphabet::Coloured, Alphabet::Cut]);
        Case {
            seed,
            alphabet,
            text: random_text(random, alphabet),
            plain: random_plain_text(random),
            settings: Settings::random(random),
            first_width: random_width(random),
            few: Problem::random(random, 10),
            many: Problem::random(random, 60),
            paragraphs: random_paragraphs(random, alphabet),
            layouts: Layouts::random(random),
            is_reflowed: random.is_one_in(ROUNDS_PER_REFLOW),
        }
    }
}
