//! The comparison of two console programs on random and fixed scripts.

pub mod dice;
pub mod episodes;
pub mod fixed;
mod fixed_control;
mod leaving;
pub mod program;
pub mod script;
pub mod settings;
pub mod shrink;
pub mod spoil;
pub mod states;
pub mod tables;
pub mod tally;
pub mod traffic;

use std::io;
use std::ops::Range;
use std::sync::atomic::{AtomicBool, AtomicU64, Ordering};
use std::sync::Mutex;

use episodes::{episode, Episode, BEFORE};
use program::{Feed, Program};
use script::{table_of, Line};
use tables::first_wide_line;
use tally::Tally;

/// Episodes that one run of the programs gets.
const CHUNK: u64 = 10 * episodes::ROUND;

/// The two programs, and under which seed they are compared.
pub struct Comparison<'a> {
    /// The one that is judged.
    pub judged: &'a dyn Program,
    /// The one that judges.
    pub judge: &'a dyn Program,
    pub seed: u64,
    pub rounds: u64,
    /// How many runs go side by side.
    pub jobs: usize,
}

/// What is wrong with an answer or a run.
#[derive(Clone, Debug, PartialEq, Eq)]
pub enum Fault {
    /// Answers to a line differ; None is no answer at all.
    Answers { line: Line, judged: Option<Vec<u8>>, judge: Option<Vec<u8>> },
    /// A program answers otherwise on the narrow card than on the wide one.
    Cards { line: Line, wide: Vec<u8>, narrow: Vec<u8> },
    /// The judged program said more than answers, or did not end well.
    End,
}

/// A fault with the shortest script found that shows it.
pub struct Finding {
    pub episode: u64,
    pub script: Vec<Line>,
    pub fault: Fault,
}

impl Comparison<'_> {
    /// Compares all; stops at the first fault, if any.
    pub fn run(&self) -> io::Result<(Tally, Option<Finding>)> {
        let next = AtomicU64::new(0);
        let stop = AtomicBool::new(false);
        let tally = Mutex::new(Tally::default());
        let findings = Mutex::new(Vec::new());
        let work = || -> io::Result<()> {
            while let Some(chunk) = self.next_chunk(&next, &stop) {
                let (part, finding) = self.chunk(chunk, &stop)?;
                tally.lock().expect("no panic").merge(part);
                findings.lock().expect("no panic").extend(finding);
            }
            Ok(())
        };
        std::thread::scope(|scope| {
            let workers: Vec<_> = (0..self.jobs.max(1)).map(|_| scope.spawn(work)).collect();
            workers.into_iter().try_for_each(|worker| worker.join().expect("no panic"))
        })?;
        let findings = findings.into_inner().expect("no panic");
        let first = findings.into_iter().min_by_key(|finding: &Finding| finding.episode);
        Ok((tally.into_inner().expect("no panic"), first))
    }

    fn next_chunk(&self, next: &AtomicU64, stop: &AtomicBool) -> Option<Range<u64>> {
        let first = next.fetch_add(CHUNK, Ordering::SeqCst);
        let end = episodes::count(self.rounds);
        let more = first < end && !stop.load(Ordering::SeqCst);
        more.then_some(first..end.min(first + CHUNK))
    }

    /// Compares some episodes in one run of each program.
    fn chunk(&self, chunk: Range<u64>, stop: &AtomicBool) -> io::Result<(Tally, Option<Finding>)> {
        let mut tally = Tally::default();
        let mut runs = Runs::start(self, self.feed(chunk.clone()), self.feed(chunk.clone()))?;
        for number in chunk.clone() {
            if stop.load(Ordering::SeqCst) {
                return Ok((tally, None));
            }
            if let Some(fault) = runs.episode(&episode(self.seed, number), &mut tally) {
                stop.store(true, Ordering::SeqCst);
                return Ok((tally, Some(self.find(chunk, number, fault))));
            }
        }
        if !runs.judged.ends_well() {
            stop.store(true, Ordering::SeqCst);
            let first = chunk.start;
            return Ok((tally, Some(self.find(chunk, first, Fault::End))));
        }
        Ok((tally, None))
    }

    /// Writes the lines of some episodes, made anew so that none need be kept.
    fn feed(&self, chunk: Range<u64>) -> Feed {
        let seed = self.seed;
        Box::new(move |out| {
            for number in chunk {
                for line in episode(seed, number).lines() {
                    out.write_all(&[&line[..], b"\n"].concat())?;
                }
            }
            Ok(())
        })
    }

    /// The shortest script for a fault seen in an episode of a chunk.
    fn find(&self, chunk: Range<u64>, seen: u64, fault: Fault) -> Finding {
        // A program that breaks down may take answers to earlier lines with it.
        let answered = matches!(fault, Fault::Answers { judged: Some(_), .. } | Fault::Cards { .. });
        let end = if answered { seen + 1 } else { chunk.end };
        for number in seen..end {
            let Episode { body, twin } = episode(self.seed, number);
            if let Some((script, fault)) = self.shortest(body, twin) {
                return Finding { episode: number, script, fault };
            }
        }
        // What no episode shows alone takes those before it.
        let all = (chunk.start..end).flat_map(|number| episode(self.seed, number).lines()).collect();
        let whole = || (episode(self.seed, seen).lines(), fault);
        let (script, fault) = self.shortest(all, false).unwrap_or_else(whole);
        Finding { episode: seen, script, fault }
    }

    fn shortest(&self, body: Vec<Line>, twin: bool) -> Option<(Vec<Line>, Fault)> {
        self.fault_of(&body, twin)?;
        let body = shrink::shrink(body, &mut |body| self.fault_of(body, twin).is_some());
        let fault = self.fault_of(&body, twin)?;
        Some((Episode { body, twin }.lines(), fault))
    }

    /// The first fault that a script shows from a fresh start.
    fn fault_of(&self, body: &[Line], twin: bool) -> Option<Fault> {
        let episode = Episode { body: body.to_vec(), twin };
        let feed = || -> Feed {
            let lines = episode.lines();
            Box::new(move |out| lines.iter().try_for_each(|line| out.write_all(&[line, &b"\n"[..]].concat())))
        };
        let mut runs = Runs::start(self, feed(), feed()).ok()?;
        let fault = runs.episode(&episode, &mut Tally::default());
        fault.or_else(|| (!runs.judged.ends_well()).then_some(Fault::End))
    }
}

/// A run of each program.
struct Runs {
    judged: Box<dyn program::Run>,
    judge: Box<dyn program::Run>,
}

impl Runs {
    fn start(comparison: &Comparison, judged: Feed, judge: Feed) -> io::Result<Runs> {
        Ok(Runs { judged: comparison.judged.start(judged)?, judge: comparison.judge.start(judge)? })
    }

    /// Asks both programs every line; gives the first fault.
    fn episode(&mut self, episode: &Episode, tally: &mut Tally) -> Option<Fault> {
        let lines = episode.lines();
        let mut answers = Vec::new();
        for line in &lines {
            let found = self.judge.finds(line);
            let (judged, judge) = (self.judged.answer(line), self.judge.answer(line));
            match (judged, judge) {
                (Some(judged), Some(judge)) if judged == judge => {
                    tally.add(line, &judged);
                    found.iter().for_each(|kind| tally.bump(kind));
                    answers.push(judged);
                }
                (judged, judge) => return Some(Fault::Answers { line: line.clone(), judged, judge }),
            }
        }
        if !episode.twin {
            return None;
        }
        let middle = answers.len() / 2;
        let (wide, narrow) = answers.split_at(middle);
        cards_fault(&episode.body, &wide[BEFORE..], &narrow[BEFORE..], tally)
    }
}

/// Where the narrow card does not answer as the wide one does, or does not refuse what is too wide.
fn cards_fault(body: &[Line], wide: &[Vec<u8>], narrow: &[Vec<u8>], tally: &mut Tally) -> Option<Fault> {
    for ((line, wide), narrow) in body.iter().zip(wide).zip(narrow) {
        let fault = || Some(Fault::Cards { line: line.clone(), wide: wide.clone(), narrow: narrow.clone() });
        let too_wide = table_of(line).and_then(|text| first_wide_line(&text));
        let accepted = wide.starts_with(b"load\tok");
        match too_wide {
            Some(number) if accepted => {
                tally.bump("twin too wide");
                let expected = format!("load\trefused\t5\t{number}").into_bytes();
                // From here on the cards have different shelves.
                return if *narrow == expected { None } else { fault() };
            }
            // A table that the wide card refuses may fail the narrow one earlier.
            Some(_) => return None,
            None if wide != narrow => return fault(),
            None => {}
        }
    }
    tally.bump("twin agreeing");
    None
}
