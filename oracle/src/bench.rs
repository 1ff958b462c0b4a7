//! How long each call takes: ours, through the archive of crates/kiosk, beside the Rust's, in one loop.
//!
//! Three sides take the same calls on the same sheets. `ours` answers frames. `frames` is this driver's session, which answers the same frames by the Rust and a
//! model of marks and refusals that was made to judge by, not to be fast. `bare` is the Rust's own calls, with no frame, mark or refusal around them. All sheets
//! have blade width 0: the Rust knows no other.
//! Built in the dev profile, the last two run the Rust's assertions. A sheet is reached by frames and kept; a call that changes it is timed, and the
//! restore after it is not. Each round goes through all calls and all sides, and the median over the rounds counts. oracle/bench makes a table of it.

mod bare;
mod sheets;

use std::hint::black_box;
use std::ops::Range;
use std::time::{Duration, Instant};

use nickelgrove_kiosk::Counter;

use crate::frame::{self, Request};
use crate::generate;
use crate::session::Session;
use bare::Bare;
use sheets::{Op, Sheet};

const NODES: [usize; 4] = [10, 50, 100, 200];
const ROUNDS: usize = 11;

/// A call is timed so often in a round: within these bounds, as often as fits in so much time.
const SAMPLES: Range<usize> = 5..300;
const PATIENCE: Duration = Duration::from_millis(4);

/// Whole sessions: a name, and what `oracle gen` is asked for.
const SESSIONS: [(&str, u64, u32, &str); 2] =
    [("a line of short sessions", 11, 90, "mixed"), ("a line of long sessions", 12, 3, "long")];

/// Who takes the calls.
trait Side {
    const NAME: &'static str;

    /// Whether it takes lines that are refused.
    const REFUSES: bool;

    /// A call, made ready before it is timed.
    type Step;

    fn new() -> Self;

    /// What this side does for a line, on the sheet that the model has before it; none where it has nothing to do.
    fn ready(model: &Session, line: &str) -> Option<Self::Step>;

    fn take(&mut self, step: &Self::Step);

    /// The lines of a session, each made ready on the sheet that it meets.
    fn script(lines: &[String]) -> Vec<Self::Step> {
        let mut model = Session::default();
        let mut steps = Vec::new();
        for line in lines {
            let step = Self::ready(&model, line);
            let accepted = &model.answer(line.as_bytes()).answer[2..4] == "00";
            steps.extend(step.filter(|_| accepted || Self::REFUSES));
        }
        steps
    }
}

struct Ours(Counter);

impl Side for Ours {
    const NAME: &'static str = "ours";
    const REFUSES: bool = true;
    type Step = String;

    fn new() -> Self {
        Ours(Counter::new())
    }

    fn ready(_model: &Session, line: &str) -> Option<String> {
        Some(line.to_string())
    }

    fn take(&mut self, line: &String) {
        black_box(self.0.answer(line));
    }
}

struct Frames(Session);

impl Side for Frames {
    const NAME: &'static str = "frames";
    const REFUSES: bool = true;
    type Step = String;

    fn new() -> Self {
        Frames(Session::default())
    }

    fn ready(_model: &Session, line: &str) -> Option<String> {
        Some(line.to_string())
    }

    fn take(&mut self, line: &String) {
        black_box(self.0.answer(line.as_bytes()));
    }
}

/// Something that a side does again and again, in one or more steps.
trait Work {
    /// Does it once; gives how long each step took.
    fn time(&mut self) -> Vec<Duration>;

    /// Does it once, with no look at the clock.
    fn go(&mut self);
}

/// One call on one sheet, and the restore that undoes it.
struct Call<S: Side> {
    side: S,
    step: S::Step,
    restore: Option<S::Step>,
}

impl<S: Side> Call<S> {
    fn new(sheet: &Sheet, op: &Op) -> Self {
        let ready = |request: Request| S::ready(sheet.model(), &frame::line(request.bytes())).expect("a call of every side");
        let mut side = S::new();
        S::script(sheet.lines()).iter().for_each(|step| side.take(step));
        Call { side, step: ready(op.request), restore: op.changes.then(|| ready(Request::Restore)) }
    }
}

impl<S: Side> Work for Call<S> {
    fn time(&mut self) -> Vec<Duration> {
        let took = time(|| self.side.take(&self.step));
        self.restore.iter().for_each(|step| self.side.take(step));
        vec![took]
    }

    fn go(&mut self) {
        self.side.take(&self.step);
        self.restore.iter().for_each(|step| self.side.take(step));
    }
}

/// The steps of a session, from its start.
struct Script<S: Side>(Vec<S::Step>);

impl<S: Side> Work for Script<S> {
    fn time(&mut self) -> Vec<Duration> {
        let mut side = S::new();
        self.0.iter().map(|step| time(|| side.take(step))).collect()
    }

    fn go(&mut self) {
        let mut side = S::new();
        self.0.iter().for_each(|step| side.take(step));
    }
}

fn time(work: impl FnOnce()) -> Duration {
    let began = Instant::now();
    work();
    began.elapsed()
}

/// What a look at the clock takes, in nanoseconds.
fn clock() -> f64 {
    median(&mut (0..10_000).map(|_| time(|| black_box(())).as_nanos() as f64).collect::<Vec<_>>())
}

fn median(values: &mut [f64]) -> f64 {
    values.sort_by(f64::total_cmp);
    values[values.len() / 2]
}

/// A row of the results, for one side.
struct Row {
    side: &'static str,
    nodes: usize,
    name: &'static str,
    changes: bool,
    /// A result is by the line. The bare calls have none for a line that is refused, and yet are divided by all.
    lines: usize,
    work: Box<dyn Work>,
    /// For each step the median of each round, in nanoseconds.
    medians: Vec<Vec<f64>>,
}

impl Row {
    fn of_call<S: Side + 'static>(sheet: &Sheet, op: &Op) -> Self {
        let work = Box::new(Call::<S>::new(sheet, op));
        Row { side: S::NAME, nodes: sheet.nodes(), name: op.name, changes: op.changes, lines: 1, work, medians: Vec::new() }
    }

    fn of_session<S: Side + 'static>(name: &'static str, lines: &[String]) -> Self {
        let work = Box::new(Script::<S>(S::script(lines)));
        Row { side: S::NAME, nodes: 0, name, changes: false, lines: lines.len(), work, medians: Vec::new() }
    }

    /// One round: a call many times, a session once.
    fn round(&mut self) {
        let began = Instant::now();
        let mut samples: Vec<Vec<f64>> = Vec::new();
        loop {
            let took = self.work.time();
            samples.resize(took.len(), Vec::new());
            samples.iter_mut().zip(took).for_each(|(step, took)| step.push(took.as_nanos() as f64));
            let count = samples[0].len();
            if self.lines > 1 || count >= SAMPLES.start && (count >= SAMPLES.end || began.elapsed() > PATIENCE) {
                break;
            }
        }
        self.medians.resize(samples.len(), Vec::new());
        self.medians.iter_mut().zip(&mut samples).for_each(|(step, samples)| step.push(median(samples)));
    }

    /// Nanoseconds by the line.
    fn result(&mut self, clock: f64) -> f64 {
        self.medians.iter_mut().map(|step| median(step) - clock).sum::<f64>() / self.lines as f64
    }
}

/// What makes the rows of a side, of sheets and named sessions.
type Rows = fn(&[Sheet], &[(&'static str, Vec<String>)]) -> Vec<Row>;

/// The rows of one side.
fn rows<S: Side + 'static>(sheets: &[Sheet], sessions: &[(&'static str, Vec<String>)]) -> Vec<Row> {
    let calls = sheets.iter().flat_map(|sheet| sheet.ops().iter().map(move |op| Row::of_call::<S>(sheet, op)));
    calls.chain(sessions.iter().map(|(name, lines)| Row::of_session::<S>(name, lines))).collect()
}

/// The archive gives the Rust's answer to every line that is to be timed.
fn same_answers(lines: &[String]) -> Result<(), String> {
    let (mut session, mut counter) = (Session::default(), Counter::new());
    let same = lines.iter().all(|line| session.answer(line.as_bytes()).answer == counter.answer(line));
    same.then_some(()).ok_or("the archive does not give the Rust's answers".to_string())
}

/// The sides that are named, all where none is, each with its rows in the same order.
fn sides(named: &[&str]) -> Result<Vec<Vec<Row>>, String> {
    let sheets = NODES.map(Sheet::of);
    let sessions = SESSIONS.map(|(name, seed, count, kind)| (name, generate::lines(seed, &[(count, kind)]).expect("a kind")));
    let lines = sheets.iter().map(Sheet::all_lines).chain(sessions.iter().map(|(_, lines)| lines.clone()));
    lines.into_iter().try_for_each(|lines| same_answers(&lines))?;
    let all: [(&str, Rows); 3] = [(Ours::NAME, rows::<Ours>), (Frames::NAME, rows::<Frames>), (Bare::NAME, rows::<Bare>)];
    if let Some(unknown) = named.iter().find(|word| all.iter().all(|(name, _)| name != *word)) {
        return Err(format!("there is no side {unknown}"));
    }
    let chosen = all.iter().filter(|(name, _)| named.is_empty() || named.contains(name));
    Ok(chosen.map(|(_, rows)| rows(&sheets, &sessions)).collect())
}

/// Prints the side, the nodes (0 for sessions), the call and its nanoseconds.
pub fn run(named: &[&str]) -> Result<bool, String> {
    let mut sides = sides(named)?;
    let clock = clock();
    for _ in 0..ROUNDS {
        for place in 0..sides[0].len() {
            sides.iter_mut().for_each(|rows| rows[place].round());
        }
    }
    for row in sides.iter_mut().flatten() {
        let result = row.result(clock);
        println!("{}\t{}\t{}\t{result:.0}", row.side, row.nodes, row.name);
    }
    Ok(true)
}

/// A tool that counts instructions writes down its count when it comes by here.
#[inline(never)]
#[no_mangle]
fn count_now() {
    black_box(());
}

/// Comes by `count_now` before each row, after doing it so many times, and after doing it twice as often. Prints the side, the nodes, the call, how many lines the
/// third count has more than the second, and whether a restore is in it.
pub fn count(times: usize, named: &[&str]) -> Result<bool, String> {
    for row in sides(named)?.iter_mut().flatten() {
        let times = if row.lines > 1 { 1 } else { times };
        count_now();
        (0..times).for_each(|_| row.work.go());
        count_now();
        (0..2 * times).for_each(|_| row.work.go());
        count_now();
        println!("{}\t{}\t{}\t{}\t{}", row.side, row.nodes, row.name, times * row.lines, row.changes);
    }
    Ok(true)
}
