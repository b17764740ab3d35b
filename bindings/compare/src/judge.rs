//! Judges an answer: it has to be that of the original with all documented differences put right,
//! and where the original answers otherwise, the causes are told.
use crate::answer::Answer;
use crate::calls::Call;
use crate::causes::{Cause, Mend, Mends};
use crate::characters::StandIns;
use crate::choices::Separator;
use crate::division;
use crate::drawn::Drawn;
use std::collections::BTreeSet;

/// What an answer is found to be.
#[derive(Debug)]
pub enum Verdict {
    /// That of the original.
    Same,
    /// That of the original with the fewest documented differences put right.
    Explained(BTreeSet<Cause>),
    /// Neither.
    Unexplained(Box<Unexplained>),
}

/// What does not explain an answer.
#[derive(Debug)]
pub struct Unexplained {
    /// What the original answers.
    pub original: Answer,
    /// What it answers with all documented differences put right.
    pub mended: Answer,
    /// Whether some of its characters are stand-ins.
    pub has_stand_ins: bool,
    /// What is strange about its own division.
    pub riddles: Vec<String>,
}

/// An answer that is judged, and what for.
struct Case<'c> {
    call: &'c Call,
    drawn: &'c Drawn,
    answer: &'c Answer,
    /// The same with stand-ins, if characters need any.
    stand_ins: Option<(Drawn, Answer)>,
}

/// What the original answers with some mends.
struct Trial {
    original: Answer,
    agrees: bool,
    findings: division::Findings,
}

impl Case<'_> {
    fn new<'c>(call: &'c Call, drawn: &'c Drawn, answer: &'c Answer) -> Case<'c> {
        let can_differ = call.mends.contains(&Mend::Characters);
        let stand_ins = if can_differ { StandIns::of(drawn) } else { None };
        let stand_ins = stand_ins.map(|all| {
            let put_in = |text: &str| all.put_in(text);
            (drawn.with_texts(put_in), answer.with_texts(put_in))
        });
        Case { call, drawn, answer, stand_ins }
    }

    /// The mends that can matter here.
    fn mends(&self) -> Mends {
        let matter = |mend: &Mend| match mend {
            Mend::Characters => self.stand_ins.is_some(),
            Mend::Cuts => (self.call.separator)(self.drawn) == Some(Separator::OwnBreaks),
            _ => true,
        };
        let mends: Vec<Mend> = self.call.mends.iter().copied().filter(matter).collect();
        Mends::of(&mends)
    }

    /// Asks the original with these mends.
    fn trial(&self, mends: Mends) -> Trial {
        let (drawn, answer) = match &self.stand_ins {
            Some((drawn, answer)) if mends.has(Mend::Characters) => (drawn, answer),
            _ => (self.drawn, self.answer),
        };
        division::take_findings();
        let original = self.call.original_answer(drawn, mends);
        Trial { agrees: original == *answer, original, findings: division::take_findings() }
    }

    /// The causes that the fewest mends show, if any do. There may be none of them: dividing by
    /// whole costs changes nothing for which no cost is a reason.
    fn causes(&self, mends: Mends) -> Option<BTreeSet<Cause>> {
        let parts = mends.parts();
        let mut shown = parts.into_iter().map(|part| (part, self.trial(part)));
        let (part, trial) = shown.find(|(_, trial)| trial.agrees)?;
        let mends = self.call.mends.iter().filter(|&&mend| part.has(mend));
        let causes = mends.filter_map(|mend| mend.cause()).chain(trial.findings.causes);
        Some(causes.collect())
    }
}

/// Judges the answer of a call. It is not enough that it is the original's: where the documents
/// promise another, that one is wanted.
pub fn judge(call: &Call, drawn: &Drawn, answer: &Answer) -> Verdict {
    let case = Case::new(call, drawn, answer);
    let (plain, all) = (Mends::default(), case.mends());
    let (original, mended) = (case.trial(plain), case.trial(all));
    if mended.agrees && mended.findings.riddles.is_empty() {
        if original.agrees {
            return Verdict::Same;
        }
        if let Some(causes) = case.causes(all).filter(|causes| !causes.is_empty()) {
            return Verdict::Explained(causes);
        }
    }
    Verdict::Unexplained(Box::new(Unexplained {
        original: original.original,
        mended: mended.original,
        has_stand_ins: case.stand_ins.is_some(),
        riddles: mended.findings.riddles,
    }))
}
