//! Group 21, cuts: schedules of both forms are run in parts, each part after the first from the tail
//! of the one before. A narrow tail is moved first. All parts together give the step bytes and the
//! tail of the whole schedule under the wide header.

use crate::difference::{hexadecimal, packed_words, schedule_words, Difference};
use crate::jobs;
use crate::lending::Entry;
use crate::random::Random;
use crate::reduce;
use crate::schedules::{
    header_bytes, random_schedule, record_ends, schedule_of_length, silent_schedule, split_header,
    voted_schedule, LIMIT,
};
use crate::states::TAIL;
use crate::tail_figures::TailFigures;
use crate::terminations;
use second::{Form, Header, Tail};
use std::fmt;

/// How many schedules a job has.
const BATCH: usize = 50;

/// Schedules of up to this many steps are cut at every place, longer ones at a few.
const SHORT: usize = 250;
const FEW: usize = 6;

#[derive(Clone, Copy, Default)]
pub struct CutFigures {
    schedules: u64,
    cuts: u64,
    /// Runs with two cuts.
    chains: u64,
    /// Cuts with a termination in progress, and those of them at which some log is heard.
    terminating: u64,
    heard: u64,
    calls: TailFigures,
}

impl CutFigures {
    pub fn schedules(&self) -> u64 {
        self.schedules
    }

    pub fn calls(&self) -> u64 {
        self.calls.calls()
    }

    fn note_cut(&mut self, tail: &[u8]) {
        let tail = Tail::from_bytes(Form::Wide, tail);
        let participants = tail.participants.iter().filter(|fields| fields.state == 4);
        let coordinator = (tail.state == 2).then_some(tail.heard);
        let mut heard = participants.map(|fields| fields.heard).chain(coordinator);
        self.cuts += 1;
        self.terminating += u64::from(heard.clone().next().is_some());
        self.heard += u64::from(heard.any(|mask| mask != 0));
    }

    fn add(&mut self, other: &CutFigures) {
        self.schedules += other.schedules;
        self.cuts += other.cuts;
        self.chains += other.chains;
        self.terminating += other.terminating;
        self.heard += other.heard;
        self.calls.add(&other.calls);
    }
}

impl fmt::Display for CutFigures {
    fn fmt(&self, to: &mut fmt::Formatter) -> fmt::Result {
        write!(
            to,
            "{} schedules, {} cuts, {} runs with two of them; \
             {} cuts with a termination in progress, {} of these with a log heard; {}",
            self.schedules, self.cuts, self.chains, self.terminating, self.heard, self.calls
        )
    }
}

/// Compares the cuts of at least `cases` schedules.
pub fn compare(seed: u64, cases: usize) -> Result<CutFigures, Difference> {
    let done = jobs::run_all(cases.div_ceil(BATCH), |job| {
        let mut random = Random::new(seed, 21, job);
        let mut figures = CutFigures::default();
        for at in 0..BATCH {
            let form = random.pick(&[Form::Narrow, Form::Narrow, Form::Wide]);
            let schedule = any_schedule(&mut random, form, at);
            compare_schedule(&mut random, &schedule, &mut figures)?;
        }
        Ok(figures)
    })?;
    let mut whole = CutFigures::default();
    done.iter().for_each(|part| whole.add(part));
    Ok(whole)
}

/// One about the greatest length in each job, so that under the wide header some are too long.
fn any_schedule(random: &mut Random, form: Form, at: usize) -> Vec<u8> {
    let steps = random.place(40);
    match at % 10 {
        0 if at == 0 => {
            let length = LIMIT - 4 + random.place(5);
            schedule_of_length(random, form, length)
        }
        1 => {
            let length = random.between(60, 600) as usize;
            schedule_of_length(random, form, length)
        }
        2..=4 => silent_schedule(random, form, steps),
        5 => voted_schedule(random, form, steps),
        6 if form == Form::Wide => terminations::of_few(random),
        _ => random_schedule(random, form, steps),
    }
}

fn compare_schedule(
    random: &mut Random,
    schedule: &[u8],
    figures: &mut CutFigures,
) -> Result<(), Difference> {
    figures.schedules += 1;
    let whole = whole_report(schedule, &mut figures.calls)?;
    for cuts in any_cuts(random, schedule) {
        figures.chains += u64::from(cuts.len() > 1);
        let parts = in_parts(schedule, &cuts, |entry| part(entry, random, figures))?;
        if whole.as_ref().is_some_and(|whole| *whole != parts) {
            return Err(reduced(schedule, &cuts));
        }
    }
    Ok(())
}

/// What both sides write for a part. Some parts from a tail are listed too.
fn part(
    entry: Entry,
    random: &mut Random,
    figures: &mut CutFigures,
) -> Result<Vec<u8>, Difference> {
    if let Entry::RunFrom(tail, steps) = entry {
        figures.note_cut(tail);
        if random.one_in(8) {
            figures.calls.agreed(Entry::ListingFrom(tail, steps))?;
        }
    }
    accepted(entry, &mut figures.calls)
}

/// Every place between two steps, before the first and after the last; of a long schedule a few. To
/// some of them a second cut comes, at the same place or later.
fn any_cuts(random: &mut Random, schedule: &[u8]) -> Vec<Vec<usize>> {
    let places = places(schedule);
    let mut cuts = Vec::new();
    for at in chosen(random, places.len()) {
        cuts.push(vec![places[at]]);
        if random.one_in(4) {
            cuts.push(vec![places[at], random.pick(&places[at..])]);
        }
    }
    cuts
}

fn chosen(random: &mut Random, count: usize) -> Vec<usize> {
    if count <= SHORT {
        return (0..count).collect();
    }
    let any = (0..FEW).map(|_| random.place(count));
    any.chain([0, count - 1]).collect()
}

/// The places in the bytes of the steps at which a cut may fall.
fn places(schedule: &[u8]) -> Vec<usize> {
    let (_, steps) = split_header(schedule);
    [vec![0], record_ends(steps)].concat()
}

/// The report of all steps under the wide header, if they fit a schedule with it.
fn whole_report(schedule: &[u8], figures: &mut TailFigures) -> Result<Option<Vec<u8>>, Difference> {
    let (header, steps) = split_header(schedule);
    let kind = Form::Wide.header_kind();
    let whole = [&header_bytes(Header { kind, ..header }), steps].concat();
    if whole.len() > LIMIT {
        return Ok(None);
    }
    accepted(Entry::Run(&whole), figures).map(Some)
}

/// The step bytes and the last tail of a run in parts that end at these cuts and at the end; `call`
/// gives what an entry writes.
fn in_parts(
    schedule: &[u8],
    cuts: &[usize],
    mut call: impl FnMut(Entry) -> Result<Vec<u8>, Difference>,
) -> Result<Vec<u8>, Difference> {
    let (header, steps) = split_header(schedule);
    let form = Form::under(header.kind);
    let first = [&header_bytes(header), &steps[..cuts[0]]].concat();
    let mut report = call(Entry::Run(&first))?;
    let mut tail = report.split_off(report.len() - form.tail_length());
    if form == Form::Narrow {
        tail = call(Entry::Move(&tail))?;
    }
    for (at, start) in cuts.iter().enumerate() {
        let end = cuts.get(at + 1).copied().unwrap_or(steps.len());
        let mut part = call(Entry::RunFrom(&tail, &steps[*start..end]))?;
        tail = part.split_off(part.len() - TAIL);
        report.extend(part);
    }
    report.extend(tail);
    Ok(report)
}

/// What both sides write. Neither a part of an accepted schedule nor its tail is refused.
fn accepted(entry: Entry, figures: &mut TailFigures) -> Result<Vec<u8>, Difference> {
    let lent = figures.agreed(entry)?;
    if lent.number() == 0 {
        return Ok(lent.written().to_vec());
    }
    Err(Difference {
        input: format!("both sides refuse a part: {}", entry.words(entry.room())),
        proved: packed_words(lent.answer),
        second: packed_words(lent.answer),
    })
}

/// The sides agree on every call, and still the parts together are not the whole.
fn reduced(schedule: &[u8], cuts: &[usize]) -> Difference {
    let smallest = reduce::schedule(schedule, |bytes| unequal_cut(bytes).is_some());
    let cuts = unequal_cut(&smallest).map_or(cuts.to_vec(), |place| vec![place]);
    let words = |report: Result<Vec<u8>, Difference>| match report {
        Ok(report) => hexadecimal(&report),
        Err(difference) => difference.input,
    };
    let mut figures = TailFigures::default();
    let whole = whole_report(&smallest, &mut figures).map(Option::unwrap_or_default);
    let parts = in_parts(&smallest, &cuts, |entry| accepted(entry, &mut figures));
    Difference {
        input: format!(
            "both sides alike, cut before the bytes {cuts:?} of the steps; \
             below stands first what the parts give together, then what the whole gives; \
             schedule of {}",
            schedule_words(&smallest)
        ),
        proved: words(parts),
        second: words(whole),
    }
}

/// A single cut of an accepted schedule after which the parts together are not the whole.
fn unequal_cut(schedule: &[u8]) -> Option<usize> {
    second::run(schedule, &mut vec![0; schedule.len() + TAIL]).ok()?;
    let mut figures = TailFigures::default();
    let whole = whole_report(schedule, &mut figures).ok()??;
    places(schedule).into_iter().find(|place| {
        let parts = in_parts(schedule, &[*place], |entry| accepted(entry, &mut figures));
        parts.is_ok_and(|parts| parts != whole)
    })
}
