//! The comparison itself: cases for a function, both answers to each, and the smallest case where they differ.

use crate::answer::Answer;
use crate::random::Random;
use std::io::Write;
use std::time::{Duration, Instant};

/// Who says what the answer is: orion-sdr, or document 01 where orion-sdr has no such refusal or panics.
#[derive(Clone, Copy, PartialEq)]
pub enum Source {
    Orion,
    Document,
}

/// The answer that the port owes, and who says so.
pub struct Expected {
    pub source: Source,
    pub answer: Answer,
}

impl Expected {
    /// An answer of orion-sdr's.
    pub fn orion(answer: Answer) -> Self {
        Self { source: Source::Orion, answer }
    }

    /// A refusal by document 01.
    pub fn document(answer: Answer) -> Self {
        Self { source: Source::Document, answer }
    }
}

/// Hands over each case in turn.
pub type Cases<Case> = fn(&mut Random, &mut dyn FnMut(Case));

/// A function of the port that is compared.
pub trait Subject {
    /// One input, with all the memory that is lent.
    type Case;
    /// Whether orion-sdr is asked, for such a function or one that it is made of; the documents say all answers where it isn't.
    fn in_orion(&self) -> bool {
        true
    }
    /// Hands over each case in turn.
    fn each_case(&self, random: &mut Random, compare: &mut dyn FnMut(Self::Case));
    /// Compares further cases by a quick way of the subject's own: hands over one that differs, and gives how many were compared with orion-sdr.
    fn in_bulk(&self, _: &mut Random, _: &mut dyn FnMut(Self::Case)) -> usize {
        0
    }
    /// Who gives the answer to a case, where a quick way of the subject's own shows that both are equal.
    fn quickly(&self, _: &Self::Case) -> Option<Source> {
        None
    }
    /// What the port answers.
    fn ours(&self, case: &Self::Case) -> Answer;
    /// What it owes.
    fn expected(&self, case: &Self::Case) -> Expected;
    /// Smaller cases to try where this one differs.
    fn smaller<'a>(&'a self, case: &'a Self::Case) -> Box<dyn Iterator<Item = Self::Case> + 'a>;
    /// The case in words.
    fn show(&self, case: &Self::Case) -> String;
}

/// What a run is asked for.
pub struct Wanted {
    pub seed: u64,
    /// So many times the cases.
    pub times: usize,
    /// One in so many of the cases that are compared in bulk.
    pub part: usize,
    /// The comparisons whose name has one of these texts, or all where there is none.
    pub only: Vec<String>,
    /// Whether the first difference is printed as it was found, with no search for a smaller one.
    pub first: bool,
}

/// One run over all functions.
pub struct Run {
    wanted: Wanted,
    passed: usize,
}

/// The search for a smaller case ends after so long.
const SHRINKING: Duration = Duration::from_secs(20);

impl Run {
    /// A run as it is asked for.
    pub fn new(wanted: Wanted) -> Self {
        let Wanted { seed, times, part, .. } = wanted;
        println!("seed {seed}, times {times}, part {part} (each function draws its cases from the seed mixed with its name)");
        Self { wanted, passed: 0 }
    }

    /// Whether the comparison of this name is asked for.
    fn wants(&self, name: &str) -> bool {
        self.wanted.only.is_empty() || self.wanted.only.iter().any(|text| name.contains(text.as_str()))
    }

    /// Compares one function, by its name as orion-sdr has it; the first difference ends the program.
    pub fn compare<S: Subject>(&mut self, name: &str, subject: S) {
        if !self.wants(name) {
            return;
        }
        print!("{name}: ");
        std::io::stdout().flush().ok();
        let (mut by_orion, mut by_document) = (0, 0);
        let mut random = Random::named(self.wanted.seed, self.wanted.part, name);
        for _ in 0..self.wanted.times {
            subject.each_case(&mut random, &mut |case| match self.source(&subject, case) {
                Source::Orion => by_orion += 1,
                Source::Document => by_document += 1,
            });
            by_orion += subject.in_bulk(&mut random, &mut |case| self.differed(&subject, case));
        }
        assert!(by_orion > 0 || !subject.in_orion() && by_document > 0, "no case of {name} was compared with orion-sdr");
        match (by_orion, by_document) {
            (0, _) => println!("{by_document} held against the documents, orion-sdr not asked: equal"),
            (_, 0) => println!("{by_orion} compared with orion-sdr: equal"),
            _ => println!("{by_orion} compared with orion-sdr, {by_document} refusals, by document 01: equal"),
        }
        self.passed += 1;
    }

    /// Compares one case, and says who gave the answer to it; a difference ends the program.
    fn source<S: Subject>(&self, subject: &S, case: S::Case) -> Source {
        if let Some(source) = subject.quickly(&case) {
            return source;
        }
        let expected = subject.expected(&case);
        if subject.ours(&case) != expected.answer {
            self.differs(subject, case);
        }
        expected.source
    }

    /// Ends the program over a case that differed in bulk: as a difference, or as an answer that changes where it is equal now.
    fn differed<S: Subject>(&self, subject: &S, case: S::Case) {
        let shown = subject.show(&case);
        self.source(subject, case);
        println!("DIFFERENT once, and equal when it was tried again (seed {})", self.wanted.seed);
        println!("  input: {shown}");
        self.fail();
    }

    /// Prints the last line of a run with a difference, and ends the program.
    fn fail(&self) -> ! {
        println!("{} passed, 1 failed", self.passed);
        std::process::exit(1);
    }

    /// Prints the last line of a run without a difference.
    pub fn finish(self) {
        println!("{} passed, 0 failed", self.passed);
    }

    /// Prints the smallest case that shows a difference and both answers, and ends the program.
    fn differs<S: Subject>(&self, subject: &S, case: S::Case) -> ! {
        let (case, done) = if self.wanted.first { (case, true) } else { smallest(subject, case) };
        let (expected, ours) = (subject.expected(&case), subject.ours(&case));
        let other = if expected.source == Source::Orion { "orion-sdr" } else { "document 01" };
        println!("DIFFERENT (seed {})", self.wanted.seed);
        println!("  {} input: {}", if self.wanted.first { "first" } else { "smallest" }, subject.show(&case));
        if !done {
            println!("  (the search for a smaller one was ended after {} s)", SHRINKING.as_secs());
        }
        println!("  {other}: {}", expected.answer);
        println!("  ours: {ours}");
        println!("  first difference ({other}, then ours): {}", expected.answer.difference(&ours));
        self.fail();
    }
}

/// A case that differs and has no smaller one that differs, and whether the search came to its end.
fn smallest<S: Subject>(subject: &S, first: S::Case) -> (S::Case, bool) {
    let end = Instant::now() + SHRINKING;
    let mut least = first;
    loop {
        let differs = |case: &S::Case| subject.ours(case) != subject.expected(case).answer;
        let next = subject.smaller(&least).take_while(|_| Instant::now() < end).find(differs);
        match next {
            Some(case) => least = case,
            None => return (least, Instant::now() < end),
        }
    }
}
