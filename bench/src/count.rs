//! Instructions a call, of the archive, of the second program and of the
//! plain C engine: all three play one schedule under callgrind. It is a count
//! and no clock: it comes out the same each time, as long as compilers, C
//! library and kind of processor are the same.

use crate::callers::{self, Door, POINTS};
use crate::callgrind::{self, Edge, Edges};
use crate::plain::{Plain, FINISHED, IDLE};
use crate::Game;
use chantgarden::lent::{Collected, NUMBERS};
use compare::{Archive, Calls, Second, Told};
use second::engine::Engine;
use second::generate::Random;
use second::script::Call;
use std::thread;

/// Setups of a schedule, and tries that begin after each.
const SETUPS: u32 = 8;
const TRIES: u32 = 64;
/// Of the turns of a worker under way one in so many is a drop and no step.
const DROPS: u32 = 100;
/// After one begin in so many a sheet is shown.
const SHOWS: u32 = 4;
/// The buffer that show and park are lent: enough for each.
const SIZE: usize = chantgarden::Engine::SETUP_BYTES;
/// The tables have columns for so many workers, each with all sides.
const WORKERS: [u32; 2] = [1, 8];
/// With these the names of the functions that are counted begin.
const SIDES: [&str; 3] = ["chant", "second", "plain"];
/// The calls that are counted, as these names go on.
const CALLS: [&str; 7] = ["setup", "begin", "step", "collect", "drop", "show", "park"];

/// The game of the schedule.
fn game(workers: u32) -> Game {
    Game::new(1, 2, workers)
}

/// What a scheduler does: random calls, each of which is accepted. A plain
/// engine that makes them too knows what can be done next.
struct Schedule {
    plain: Plain,
    /// The calls, and for a step the point that it is made at.
    acts: Vec<(Call, u32)>,
    /// Of the collected answers, those that say not taken.
    not_taken: u64,
    random: Random,
}

impl Schedule {
    /// Idle workers begin, those under way step, or are dropped now and
    /// then, and those that finished are collected from.
    fn new(game: &Game) -> Schedule {
        let mut schedule = Schedule {
            plain: Plain::blank(),
            acts: Vec::new(),
            not_taken: 0,
            random: Random::new(1),
        };
        for _ in 0..SETUPS {
            schedule.act(Call::Setup(game.setup.clone()), 0);
            for _ in 0..TRIES {
                schedule.until_begin(game);
            }
        }
        schedule
    }

    /// Random turns until one is a begin.
    fn until_begin(&mut self, game: &Game) {
        loop {
            let worker = self.random.below(game.workers);
            match self.plain.point(worker) {
                IDLE => return self.begin(game, worker),
                FINISHED => self.collect(worker),
                _ if self.random.one_in(DROPS) => self.act(Call::Drop(worker), 0),
                point => self.act(Call::Step { worker, times: 1 }, point),
            }
        }
    }

    fn begin(&mut self, game: &Game, worker: u32) {
        let begin = Call::Begin {
            worker,
            lock: game.lock,
            record: game.job.clone(),
        };
        self.act(begin, 0);
        if self.random.one_in(SHOWS) {
            let used = |&sheet: &u32| self.plain.show(sheet, &mut [0; SIZE]).number == 0;
            let used: Vec<u32> = (0..Engine::SHEETS as u32).filter(used).collect();
            let sheet = self.random.pick(&used);
            self.act(Call::Show { sheet, size: SIZE }, 0);
        }
    }

    /// After it comes a park, where no lock is held.
    fn collect(&mut self, worker: u32) {
        self.act(Call::Collect(worker), 0);
        if self.plain.park(&mut [0; SIZE]).number == 0 {
            self.act(Call::Park { size: SIZE }, 0);
        }
    }

    fn act(&mut self, call: Call, point: u32) {
        let told = Told::by(&mut self.plain, &call, 0);
        assert_eq!(told.number(), 0);
        if let Told::Collected(Collected { answer: 3, .. }) = told {
            self.not_taken += 1;
        }
        self.acts.push((call, point));
    }

    /// What becomes of its tries.
    fn tries(&self) -> String {
        let [begun, dropped, collected] =
            ["to_begin", "to_drop", "to_collect"].map(|caller| self.planned(caller));
        let not_taken = self.not_taken;
        format!("{begun} tries begun, {dropped} dropped, {collected} collected, {not_taken} of them not taken")
    }

    /// How many of its calls this one makes.
    fn planned(&self, caller: &str) -> u64 {
        let same = |(call, point): &&(Call, u32)| self::caller(call, *point) == caller;
        self.acts.iter().filter(same).count() as u64
    }
}

/// Who makes a call.
fn caller(call: &Call, point: u32) -> &'static str {
    match call {
        Call::Setup(_) => "to_setup",
        Call::Begin { .. } => "to_begin",
        Call::Step { .. } => POINTS[point as usize].1,
        Call::Collect(_) => "to_collect",
        Call::Drop(_) => "to_drop",
        Call::Show { .. } => "to_show",
        Call::Park { .. } => "to_park",
        Call::Word(_) | Call::Lock(_) => "",
    }
}

/// Plays a schedule; gives what collect told, and the last that was written.
fn play(side: &mut impl Calls, schedule: &Schedule) -> (Vec<Collected>, [u8; SIZE]) {
    let (mut collected, mut buffer) = (Vec::new(), [0; SIZE]);
    for (call, point) in &schedule.acts {
        match call {
            Call::Setup(record) => _ = callers::to_setup(side, record),
            Call::Begin {
                worker,
                lock,
                record,
            } => _ = callers::to_begin(side, *worker, *lock, record),
            Call::Step { worker, .. } => _ = callers::step_at(side, *worker, *point),
            Call::Drop(worker) => _ = callers::to_drop(side, *worker),
            Call::Collect(worker) => collected.push(callers::to_collect(side, *worker)),
            Call::Show { sheet, .. } => _ = callers::to_show(side, *sheet, &mut buffer),
            Call::Park { .. } => _ = callers::to_park(side, &mut buffer),
            Call::Word(_) | Call::Lock(_) => {}
        }
    }
    (collected, buffer)
}

/// What callgrind counts: each side plays the schedule of so many workers, on
/// a stack of its own. The main one starts at a place that goes by the
/// environment, and copying takes a little more from an odd place.
pub fn play_all(workers: u32) -> Result<(), String> {
    let played = thread::spawn(move || {
        let schedule = Schedule::new(&game(workers));
        let archive = play(&mut Archive(vec![0; NUMBERS]), &schedule);
        let second = play(&mut Door(Second(Engine::blank())), &schedule);
        let plain = play(&mut Plain::blank(), &schedule);
        archive == second && archive == plain
    });
    match played.join() {
        Ok(true) => Ok(()),
        _ => Err("not all did the same".to_string()),
    }
}

/// What was counted with so many workers.
struct Counted {
    schedule: Schedule,
    edges: Edges,
}

impl Counted {
    /// None where there is no valgrind.
    fn new(workers: u32) -> Result<Option<Counted>, String> {
        let schedule = Schedule::new(&game(workers));
        let edges = callgrind::run(&["count", &workers.to_string()])?;
        Ok(edges.map(|edges| Counted { schedule, edges }))
    }

    /// Instructions a call of a side's function from these callers, which
    /// have made all calls that the schedule has for them, and no others.
    fn mean(&self, side: &str, call: &str, callers: &[&str]) -> Result<f64, String> {
        let called = format!("{side}_{call}");
        let mut all = Edge::default();
        for caller in callers {
            let Edge { calls, cost } = self.edges.between(caller, &called);
            let planned = self.schedule.planned(caller);
            if calls != planned || calls == 0 {
                let seen = format!("callgrind saw {calls} calls of {called} by {caller}");
                return Err(format!("{seen}, and {planned} are planned"));
            }
            all.calls += calls;
            all.cost += cost;
        }
        Ok(all.cost as f64 / all.calls as f64)
    }
}

/// A row: a call from these callers, for each number of workers and side.
fn row(all: &[Counted], name: &str, call: &str, callers: &[&str]) -> Result<(), String> {
    let mut row = format!("| {name} |");
    for counted in all {
        for side in SIDES {
            let mean = counted.mean(side, call, callers)?;
            row += &format!(" {mean:.1} |");
        }
    }
    println!("{row}");
    Ok(())
}

fn head(first: &str) {
    let columns = WORKERS.map(|workers| format!(" {}: `chant` | second | plain |", named(workers)));
    println!("| {first} |{}", columns.concat());
    println!("|---|{}", "---|".repeat(columns.len() * SIDES.len()));
}

fn named(workers: u32) -> String {
    match workers {
        1 => "1 worker".to_string(),
        _ => format!("{workers} workers"),
    }
}

/// The tables, or a line that says why there are none.
pub fn tables() -> Result<(), String> {
    let mut all = Vec::new();
    for workers in WORKERS {
        let Some(counted) = Counted::new(workers)? else {
            println!("\nInstructions are not counted: there is no valgrind here. Debian's package valgrind has it.");
            return Ok(());
        };
        all.push(counted);
    }
    println!("\nInstructions a call, workers at one lock, counted by valgrind:\n");
    head("call");
    let steps = POINTS.map(|(_, caller)| caller);
    for call in CALLS {
        let one = format!("to_{call}");
        let one = [one.as_str()];
        let callers = if call == "step" { &steps[..] } else { &one };
        row(&all, call, call, callers)?;
    }
    println!("\nInstructions a step, by point; the first step of each instruction is a Read:\n");
    head("point");
    for (point, caller) in POINTS {
        row(&all, point, "step", &[caller])?;
    }
    println!("\nThe schedules that all three sides played:\n");
    for (counted, workers) in all.iter().zip(WORKERS) {
        println!("- {}: {}", named(workers), counted.schedule.tries());
    }
    Ok(())
}

#[cfg(test)]
mod tests {
    use super::*;

    /// All calls and all points occur, some jobs run, some helpers' don't,
    /// some helpers fill entries, and all three sides do the same.
    #[test]
    fn schedules() {
        for workers in WORKERS {
            let schedule = Schedule::new(&game(workers));
            let others = CALLS.iter().filter(|&&call| call != "step");
            let others = others.map(|call| format!("to_{call}"));
            let points = POINTS.iter().map(|(_, caller)| caller.to_string());
            for caller in others.chain(points) {
                assert!(schedule.planned(&caller) >= 8, "{workers}: {caller}");
            }
            let collected = schedule.planned("to_collect");
            assert!((20..collected - 20).contains(&schedule.not_taken));
            let (told, _) = play(&mut Plain::blank(), &schedule);
            let filling = |told: &&Collected| told.answer == 3 && told.filled > 0;
            assert!(told.iter().filter(filling).count() >= 20);
            play_all(workers).expect("they do the same");
        }
    }
}
