//! The searches of docs/METHODS.md as a good plain Rust program would have them, with no proofs, to
//! measure against: `plain SEARCH FILE NODES` prints `nodes N best B VERDICT`, as `farm solve`
//! does. SEARCH is `tree` or `sample:SEED`.
//!
//! The duties are the same: a search is in a box behind a trait, stops after any number of nodes,
//! pays the nodes of a run with one atomic addition at its end, and takes no memory in a node.
//! Nothing here is shared with the service: no code, no tables.
//!
//! Searches are compiled for sets of one word and of four, and for amounts in one to three words.
//! That is enough for the limits of docs/FORMAT.md.
use std::array;
use std::sync::Arc;
use std::sync::atomic::{AtomicU64, Ordering};

/// A time after all others. It stands for the makespan if there is no schedule.
const NEVER: u32 = u32::MAX;

/// What runs the nodes of a search.
trait Nodes {
    fn node(&mut self);
    fn is_over(&self) -> bool;
    /// The least makespan so far.
    fn best(&self) -> u32;
}

trait Search {
    /// Runs nodes until the search is over, `most` at the most.
    fn run(&mut self, most: u64);
    fn best(&self) -> Option<u32>;
    fn verdict(&self) -> &'static str;
}

/// A search that pays each node with a quantum, all of a run at its end.
struct Paid<T: Nodes> {
    nodes: T,
    quanta: Arc<AtomicU64>,
}

impl<T: Nodes> Search for Paid<T> {
    fn run(&mut self, most: u64) {
        let mut done = 0;
        while done < most && !self.nodes.is_over() {
            self.nodes.node();
            done += 1;
        }
        self.quanta.fetch_add(done, Ordering::Relaxed);
    }

    fn best(&self) -> Option<u32> {
        Some(self.nodes.best()).filter(|&it| it < NEVER)
    }

    fn verdict(&self) -> &'static str {
        match (self.nodes.is_over(), self.best()) {
            (false, _) => "open",
            (true, None) => "infeasible",
            (true, Some(_)) => "optimal",
        }
    }
}

// The file

struct Mode {
    duration: u32,
    request: Vec<u32>,
    /// The consumption beyond the least of the activity.
    extra: Vec<u32>,
}

struct Activity {
    modes: Vec<Mode>,
    successors: Vec<u8>,
    predecessors: Vec<u8>,
    tail: u32,
    lft: u32,
}

struct Project {
    activities: Vec<Activity>,
    capacities: Vec<u32>,
    /// What is left of each stock if each activity consumes its least. Below 0 if that is too much.
    slacks: Vec<i64>,
    /// The longest chain of successors, each in its shortest mode. No feasible schedule is shorter.
    bound: u32,
}

fn numbers(line: &str) -> Vec<u32> {
    line.split_whitespace().filter_map(|word| word.parse().ok()).collect()
}

fn size(text: &str, label: &str) -> usize {
    let line = text.lines().find(|line| line.contains(label)).unwrap_or("");
    numbers(line.split(':').nth(1).unwrap_or("")).first().map_or(0, |&it| it as usize)
}

fn section<'a>(text: &'a str, name: &'a str) -> impl Iterator<Item = u32> + 'a {
    text.lines().skip_while(move |line| !line.starts_with(name)).skip(2).flat_map(numbers)
}

fn read(text: &str) -> Project {
    let jobs = size(text, "jobs (incl. supersource/sink )");
    let (renewables, nonrenewables) = (size(text, "- renewable"), size(text, "- nonrenewable"));
    let (mut precedence, mut rows) = (section(text, "PRECEDENCE RELATIONS"), section(text, "REQUESTS/DURATIONS"));
    let mut available = section(text, "RESOURCEAVAILABILITIES");
    let capacities = available.by_ref().take(renewables).collect();
    let slacks = available.take(nonrenewables).map(i64::from).collect();
    let mut activities = Vec::new();
    for _ in 0..jobs {
        let head: Vec<u32> = precedence.by_ref().take(3).collect();
        let successors = precedence.by_ref().take(head[2] as usize).map(|s| (s - 1) as u8).collect();
        rows.next();
        let mut mode = |_| {
            let row: Vec<u32> = rows.by_ref().take(2 + renewables + nonrenewables).collect();
            let (request, consumption) = row[2..].split_at(renewables);
            Mode { duration: row[1], request: request.to_vec(), extra: consumption.to_vec() }
        };
        let modes = (0..head[1]).map(&mut mode).collect();
        activities.push(Activity { modes, successors, predecessors: Vec::new(), tail: 0, lft: 0 });
    }
    finished(Project { activities, capacities, slacks, bound: 0 })
}

/// The project with predecessors, tails, latest finish times and the bound, and with the least
/// consumptions taken away.
fn finished(mut project: Project) -> Project {
    let all = &mut project.activities;
    let durations = |it: &Activity| it.modes.iter().map(|mode| mode.duration).collect::<Vec<_>>();
    let horizon = all.iter().map(|it| durations(it).into_iter().max().unwrap_or(0)).sum();
    let shortest: Vec<u32> = all.iter().map(|it| durations(it).into_iter().min().unwrap_or(0)).collect();
    for j in (0..all.len()).rev() {
        let successors: Vec<usize> = all[j].successors.iter().map(|&s| usize::from(s)).collect();
        let tail = successors.iter().map(|&s| shortest[s] + all[s].tail).max().unwrap_or(0);
        let lft = successors.iter().map(|&s| all[s].lft - shortest[s]).min().unwrap_or(horizon);
        project.bound = project.bound.max(shortest[j] + tail);
        (all[j].tail, all[j].lft) = (tail, lft);
        for s in successors {
            all[s].predecessors.push(j as u8);
        }
        for (k, slack) in project.slacks.iter_mut().enumerate() {
            let least = all[j].modes.iter().map(|mode| mode.extra[k]).min().unwrap_or(0);
            *slack -= i64::from(least);
            all[j].modes.iter_mut().for_each(|mode| mode.extra[k] -= least);
        }
    }
    project
}

// Amounts in words

/// Amounts of several resources: a field for each, as wide as its limit, below a guard bit.
/// Free amounts have all guard bits set, and taken amounts have none.
type Amounts<const N: usize> = [u64; N];

/// The fields of resources: the word, the lowest bit and the width of each.
struct Fields(Vec<(usize, u32, u32)>);

impl Fields {
    fn of(limits: &[u32]) -> Fields {
        let (mut word, mut end, mut fields) = (0, 0, Vec::new());
        for limit in limits {
            let width = u32::BITS - limit.leading_zeros();
            if end + width + 1 > u64::BITS {
                (word, end) = (word + 1, 0);
            }
            fields.push((word, end, width));
            end += width + 1;
        }
        Fields(fields)
    }

    fn words(&self) -> usize {
        self.0.last().map_or(1, |it| it.0 + 1)
    }

    fn packed<const N: usize>(&self, amounts: &[u32]) -> Amounts<N> {
        let mut words = [0; N];
        for (&amount, &(word, bit, _)) in amounts.iter().zip(&self.0) {
            words[word] |= u64::from(amount) << bit;
        }
        words
    }

    fn guards<const N: usize>(&self) -> Amounts<N> {
        self.packed(&self.0.iter().map(|it| 1 << it.2).collect::<Vec<_>>())
    }
}

fn plus<const N: usize>(free: &Amounts<N>, back: &Amounts<N>) -> Amounts<N> {
    array::from_fn(|word| free[word].wrapping_add(back[word]))
}

fn minus<const N: usize>(free: &Amounts<N>, taken: &Amounts<N>) -> Amounts<N> {
    array::from_fn(|word| free[word].wrapping_sub(taken[word]))
}

/// Whether `taken` is within `free` in each field: no field has borrowed from its guard bit.
fn fits<const N: usize>(taken: &Amounts<N>, free: &Amounts<N>, guards: &Amounts<N>) -> bool {
    let left = minus(free, taken);
    (0..N).all(|word| left[word] & guards[word] == guards[word])
}

// The table of modes

/// What a mode takes.
struct Row<const N: usize> {
    /// Nothing if the duration is 0.
    request: Amounts<N>,
    extra: Amounts<N>,
    duration: u32,
    /// The duration and the tail of the activity.
    reach: u32,
    activity: u8,
    is_last: bool,
}

/// The rows of all modes, activity by activity, and what is free at first.
struct Table<const N: usize> {
    rows: Vec<Row<N>>,
    /// The first row of each activity, and at last the number of rows.
    first: Vec<u32>,
    free: Amounts<N>,
    free_guards: Amounts<N>,
    slack: Amounts<N>,
    slack_guards: Amounts<N>,
}

/// The limits of the fields of `extra`. One field more, of limit 0, has a 1 in an impossible mode.
fn slack_limits(project: &Project) -> Vec<u32> {
    project.slacks.iter().map(|&it| it.max(0) as u32).chain([0]).collect()
}

fn is_possible(project: &Project, mode: &Mode) -> bool {
    let runs = mode.duration == 0 || mode.request.iter().zip(&project.capacities).all(|(it, most)| it <= most);
    runs && mode.extra.iter().zip(&project.slacks).all(|(&it, &most)| i64::from(it) <= most)
}

/// How many words the amounts of a project take.
fn words(project: &Project) -> usize {
    Fields::of(&project.capacities).words().max(Fields::of(&slack_limits(project)).words())
}

impl<const N: usize> Table<N> {
    fn of(project: &Project) -> Table<N> {
        let limits = slack_limits(project);
        let (renewable, nonrenewable) = (Fields::of(&project.capacities), Fields::of(&limits));
        let (free_guards, slack_guards) = (renewable.guards(), nonrenewable.guards());
        let (mut rows, mut first) = (Vec::new(), vec![0]);
        for (j, activity) in project.activities.iter().enumerate() {
            for mode in &activity.modes {
                let is_possible = is_possible(project, mode);
                let extra = mode.extra.iter().map(|&it| if is_possible { it } else { 0 }).chain([u32::from(!is_possible)]);
                rows.push(Row {
                    request: if is_possible && mode.duration > 0 { renewable.packed(&mode.request) } else { [0; N] },
                    extra: nonrenewable.packed(&extra.collect::<Vec<_>>()),
                    duration: mode.duration,
                    reach: mode.duration + activity.tail,
                    activity: j as u8,
                    is_last: false,
                });
            }
            rows.last_mut().expect("a mode").is_last = true;
            first.push(rows.len() as u32);
        }
        let free = plus(&renewable.packed(&project.capacities), &free_guards);
        let slack = plus(&nonrenewable.packed(&limits), &slack_guards);
        Table { rows, first, free, free_guards, slack, slack_guards }
    }
}

// Sets of activities

/// A set of activities, a bit for each.
type Set<const S: usize> = [u64; S];

fn word_of<const S: usize>(activity: u8) -> usize {
    usize::from(activity) / 64 % S
}

fn put_in<const S: usize>(set: &mut Set<S>, activity: u8) {
    set[word_of::<S>(activity)] |= 1 << (activity % 64);
}

fn take_out<const S: usize>(set: &mut Set<S>, activity: u8) {
    set[word_of::<S>(activity)] &= !(1 << (activity % 64));
}

fn take_least<const S: usize>(set: &mut Set<S>) -> Option<u8> {
    for word in 0..S {
        if set[word] != 0 {
            let bit = set[word].trailing_zeros();
            set[word] &= set[word] - 1;
            return Some((word * 64) as u8 + bit as u8);
        }
    }
    None
}

fn is_within<const S: usize>(set: &Set<S>, other: &Set<S>) -> bool {
    (0..S).all(|word| set[word] & !other[word] == 0)
}

fn set_of<const S: usize>(activities: impl Iterator<Item = u8>) -> Set<S> {
    let mut set = [0; S];
    activities.for_each(|it| put_in(&mut set, it));
    set
}

/// The activities without predecessors.
fn sources(project: &Project) -> impl Iterator<Item = u8> + '_ {
    let all = project.activities.iter().enumerate();
    all.filter(|it| it.1.predecessors.is_empty()).map(|it| it.0 as u8)
}

// The precedence tree

/// An activity that runs beyond `Level::from`, in a list by rising finish.
#[derive(Clone, Copy)]
struct Running<const N: usize> {
    request: Amounts<N>,
    finish: u32,
    next: u32,
}

/// A level of the tree. A new level is a changed copy, so that going up takes nothing back.
///
/// Starts never fall on the way down. From the last start on activities only finish, and what is
/// free only rises. So `free` and the list of `running` are the whole profile.
#[derive(Clone, Copy)]
struct Level<const S: usize, const N: usize> {
    placed: Set<S>,
    eligible: Set<S>,
    /// The eligible activities behind the candidate's.
    rest: Set<S>,
    /// What is left of the stocks if all activities that are not placed consume their least.
    slack: Amounts<N>,
    /// What is free at `from`.
    free: Amounts<N>,
    /// The start of the activity placed last, or 0.
    from: u32,
    /// The row of the candidate.
    row: u32,
    /// The first of those that run beyond `from`.
    running: u32,
    /// The first entry of `Tree::running` that neither this level nor one above it uses.
    end: u32,
}

impl<const S: usize, const N: usize> Level<S, N> {
    /// Moves the candidate to the next activity. Returns whether there is one.
    fn turn(&mut self, first: &[u32]) -> bool {
        let next = take_least(&mut self.rest);
        self.row = next.map_or(self.row, |it| first[usize::from(it)]);
        next.is_some()
    }
}

struct Tree<const S: usize, const N: usize> {
    project: Project,
    table: Table<N>,
    /// The predecessors of each activity.
    before: Vec<Set<S>>,
    level: Level<S, N>,
    above: Vec<Level<S, N>>,
    depth: usize,
    /// The lists of all levels. Each list ends with entry 0, which never finishes.
    running: Vec<Running<N>>,
    finish: [u32; 256],
    /// The latest finish of the predecessors, of each eligible activity.
    ready: [u32; 256],
    /// The makespan of the incumbent.
    best: u32,
    closed: bool,
}

impl<const S: usize, const N: usize> Tree<S, N> {
    fn new(project: Project) -> Tree<S, N> {
        let n = project.activities.len();
        let table = Table::of(&project);
        let before = project.activities.iter().map(|it| set_of(it.predecessors.iter().copied())).collect();
        let eligible = set_of(sources(&project));
        let (slack, free) = (table.slack, table.free);
        let level = Level { placed: [0; S], eligible, rest: eligible, slack, free, from: 0, row: 0, running: 0, end: 1 };
        let running = vec![Running { request: [0; N], finish: NEVER, next: 0 }; 1 + n * (n + 1) / 2];
        let mut tree = Tree {
            project, table, before, level, above: vec![level; n], depth: 0, running,
            finish: [0; 256], ready: [0; 256], best: NEVER, closed: false,
        };
        tree.level.turn(&tree.table.first);
        tree
    }

    /// The start of the candidate, or none if it is pruned.
    fn start(&self) -> Option<u32> {
        let Tree { level, table, best, .. } = self;
        let row = &table.rows[level.row as usize];
        if !fits(&row.extra, &level.slack, &table.slack_guards) {
            return None;
        }
        let ready = level.from.max(self.ready[usize::from(row.activity)]);
        if ready + row.reach >= *best {
            return None;
        }
        let start = self.earliest(ready, row);
        (start + row.reach < *best).then_some(start)
    }

    /// The least start, `ready` or later, at which the row fits.
    fn earliest(&self, ready: u32, row: &Row<N>) -> u32 {
        let Level { mut free, running: mut at, .. } = self.level;
        let mut from = 0;
        while !fits(&row.request, &free, &self.table.free_guards) {
            let it = &self.running[at as usize];
            free = plus(&free, &it.request);
            (from, at) = (it.finish, it.next);
        }
        ready.max(from)
    }

    fn complete(&mut self, start: u32) {
        let mut latest = start + self.table.rows[self.level.row as usize].duration;
        let mut at = self.level.running;
        while at > 0 {
            latest = latest.max(self.running[at as usize].finish);
            at = self.running[at as usize].next;
        }
        self.best = self.best.min(latest);
        self.closed = self.best <= self.project.bound;
    }

    /// Places the candidate, and goes to the first one of the next level.
    fn place(&mut self, start: u32) {
        self.above[self.depth] = self.level;
        self.depth += 1;
        let Tree { project, level, table, ready, finish: finishes, .. } = self;
        let row = &table.rows[level.row as usize];
        let finish = start + row.duration;
        finishes[usize::from(row.activity)] = finish;
        put_in(&mut level.placed, row.activity);
        take_out(&mut level.eligible, row.activity);
        for &s in &project.activities[usize::from(row.activity)].successors {
            if is_within(&self.before[usize::from(s)], &level.placed) {
                put_in(&mut level.eligible, s);
                let ends = project.activities[usize::from(s)].predecessors.iter().map(|&it| finishes[usize::from(it)]);
                ready[usize::from(s)] = ends.fold(0, u32::max);
            }
        }
        level.slack = minus(&level.slack, &row.extra);
        level.from = start;
        run_until(level, &mut self.running, finish, row);
        level.rest = level.eligible;
        level.turn(&table.first);
    }

    /// Goes to the next candidate, up if a level has no more.
    fn step(&mut self) {
        while self.table.rows[self.level.row as usize].is_last {
            if self.level.turn(&self.table.first) {
                return;
            }
            if self.depth == 0 {
                self.closed = true;
                return;
            }
            self.depth -= 1;
            self.level = self.above[self.depth];
        }
        self.level.row += 1;
    }
}

/// Removes from the list what has finished at `level.from`, and adds a request until `finish`.
fn run_until<const S: usize, const N: usize>(level: &mut Level<S, N>, list: &mut [Running<N>], finish: u32, row: &Row<N>) {
    let (mut free, mut at, mut end) = (level.free, level.running, level.end);
    while list[at as usize].finish <= level.from {
        free = plus(&free, &list[at as usize].request);
        at = list[at as usize].next;
    }
    (level.free, level.running) = (free, at);
    if finish == level.from {
        return;
    }
    level.free = minus(&free, &row.request);
    level.running = end;
    while list[at as usize].finish < finish {
        list[end as usize] = Running { next: end + 1, ..list[at as usize] };
        (at, end) = (list[at as usize].next, end + 1);
    }
    list[end as usize] = Running { request: row.request, finish, next: at };
    level.end = end + 1;
}

impl<const S: usize, const N: usize> Nodes for Tree<S, N> {
    /// Examines the candidate, and goes to the next one.
    fn node(&mut self) {
        if let Some(start) = self.start() {
            if self.depth + 1 < self.above.len() {
                self.place(start);
                return;
            }
            self.complete(start);
        }
        self.step();
    }

    fn is_over(&self) -> bool {
        self.closed
    }

    fn best(&self) -> u32 {
        self.best
    }
}

// Sampling

const MULTIPLIER: u64 = 6364136223846793005;
const INCREMENT: u64 = 109;

/// The words of a seed: PCG XSH RR (O'Neill 2014).
struct Words {
    state: u64,
}

impl Words {
    fn of(seed: u64) -> Words {
        Words { state: seed.wrapping_add(INCREMENT).wrapping_mul(MULTIPLIER).wrapping_add(INCREMENT) }
    }

    fn next(&mut self) -> u32 {
        let x = self.state;
        self.state = x.wrapping_mul(MULTIPLIER).wrapping_add(INCREMENT);
        ((((x >> 18) ^ x) >> 27) as u32).rotate_right((x >> 59) as u32)
    }
}

/// The eligible activities, and the numbers of which the sum of their weights is made.
#[derive(Clone, Copy)]
struct Eligible<const S: usize> {
    set: Set<S>,
    count: u32,
    /// The sum of their latest finish times, and the greatest of these.
    sum: u32,
    greatest: u32,
}

impl<const S: usize> Eligible<S> {
    fn add(&mut self, activity: u8, lft: &[u32; 256]) {
        let own = lft[usize::from(activity)];
        put_in(&mut self.set, activity);
        self.count += 1;
        self.sum += own;
        self.greatest = self.greatest.max(own);
    }

    fn remove(&mut self, activity: u8, lft: &[u32; 256]) {
        let own = lft[usize::from(activity)];
        take_out(&mut self.set, activity);
        self.count -= 1;
        self.sum -= own;
        if own == self.greatest {
            self.greatest = 0;
            let mut rest = self.set;
            while let Some(it) = take_least(&mut rest) {
                self.greatest = self.greatest.max(lft[usize::from(it)]);
            }
        }
    }

    /// The activity that a word draws, of at least one.
    fn drawn(&self, word: u32, lft: &[u32; 256]) -> u8 {
        let most = self.greatest + 1;
        let mut left = word % (self.count * most - self.sum);
        let mut rest = self.set;
        while let Some(activity) = take_least(&mut rest) {
            let weight = most - lft[usize::from(activity)];
            if left < weight {
                return activity;
            }
            left -= weight;
        }
        unreachable!("the word is below the sum of the weights")
    }
}

/// What is free from `time` on, until the time of the next point.
#[derive(Clone, Copy)]
struct Point<const N: usize> {
    free: Amounts<N>,
    time: u32,
    next: u8,
}

/// What is free in a pass, as points by rising time: point 0 at time 0 is the first, and point 1 at
/// `NEVER` the last. Each finish has a point. So each start has one, and none is searched for.
struct Profile<const N: usize> {
    points: [Point<N>; 256],
    end: u8,
}

impl<const N: usize> Profile<N> {
    fn begin(&mut self, free: Amounts<N>) {
        self.points[0] = Point { free, time: 0, next: 1 };
        self.points[1].time = NEVER;
        self.end = 2;
    }

    fn at(&self, point: u8) -> &Point<N> {
        &self.points[usize::from(point)]
    }

    /// The first point, `ready` or later, at which the row fits.
    fn earliest(&self, ready: u8, row: &Row<N>, guards: &Amounts<N>) -> u8 {
        let (mut start, mut at) = (ready, ready);
        let mut finish = self.at(start).time + row.duration;
        while self.at(at).time < finish {
            let has_room = fits(&row.request, &self.at(at).free, guards);
            at = self.at(at).next;
            if !has_room {
                start = at;
                finish = self.at(at).time + row.duration;
            }
        }
        start
    }

    /// Takes the request of a row from `start` on. Returns the point of the finish.
    fn occupy(&mut self, start: u8, row: &Row<N>) -> u8 {
        let finish = self.at(start).time + row.duration;
        let (mut before, mut at) = (start, start);
        let mut free = [0; N];
        while self.at(at).time < finish {
            let point = &mut self.points[usize::from(at)];
            free = point.free;
            point.free = minus(&free, &row.request);
            (before, at) = (at, point.next);
        }
        if self.at(at).time == finish {
            return at;
        }
        let new = self.end;
        self.points[usize::from(new)] = Point { free, time: finish, next: at };
        self.points[usize::from(before)].next = new;
        self.end += 1;
        new
    }
}

/// The predecessors of an activity: the latest finish of those that are placed, and its point, and
/// how many are not placed.
#[derive(Clone, Copy)]
struct Waiting {
    ready: u32,
    point: u8,
    missing: u8,
}

/// Passes of the serial scheme that are drawn from the words of a seed.
struct Sample<const S: usize, const N: usize> {
    project: Project,
    table: Table<N>,
    lft: [u32; 256],
    /// `waiting` and `eligible` before a pass.
    first: Vec<Waiting>,
    sources: Eligible<S>,
    words: Words,
    waiting: [Waiting; 256],
    eligible: Eligible<S>,
    slack: Amounts<N>,
    profile: Profile<N>,
    makespan: u32,
    /// The nodes that the pass has left.
    left: usize,
    is_void: bool,
    /// The makespan of the best pass.
    best: u32,
}

impl<const S: usize, const N: usize> Sample<S, N> {
    fn new(project: Project, seed: u64) -> Sample<S, N> {
        let all = &project.activities;
        let table: Table<N> = Table::of(&project);
        let waiting = |it: &Activity| Waiting { ready: 0, point: 0, missing: it.predecessors.len() as u8 };
        let (first, mut lft) = (all.iter().map(waiting).collect::<Vec<_>>(), [0; 256]);
        all.iter().zip(&mut lft).for_each(|(activity, it)| *it = activity.lft);
        let profile = Profile { points: [Point { free: table.free, time: 0, next: 0 }; 256], end: 0 };
        let mut eligible = Eligible { set: [0; S], count: 0, sum: 0, greatest: 0 };
        sources(&project).for_each(|it| eligible.add(it, &lft));
        let mut search = Sample {
            words: Words::of(seed), waiting: [first[0]; 256], first, lft, sources: eligible, eligible,
            slack: table.slack, profile, makespan: 0, left: 0, is_void: false, best: NEVER, table, project,
        };
        search.begin();
        search
    }

    fn begin(&mut self) {
        self.waiting[..self.first.len()].copy_from_slice(&self.first);
        self.eligible = self.sources;
        self.slack = self.table.slack;
        self.profile.begin(self.table.free);
        (self.makespan, self.left, self.is_void) = (0, self.first.len(), false);
    }

    /// The row of the allowed mode that a word draws, if there is one.
    fn drawn_row(&self, activity: u8, word: u32) -> Option<usize> {
        let Table { rows, first, slack_guards, .. } = &self.table;
        let [from, to] = [0, 1].map(|more| first[usize::from(activity) + more] as usize);
        let mut allowed = 0u32;
        for row in rows[from..to].iter().rev() {
            allowed = allowed << 1 | u32::from(fits(&row.extra, &self.slack, slack_guards));
        }
        if allowed == 0 {
            return None;
        }
        for _ in 0..word % allowed.count_ones() {
            allowed &= allowed - 1;
        }
        Some(from + allowed.trailing_zeros() as usize)
    }

    fn place(&mut self, activity: u8, row: usize) {
        let Sample { table, profile, eligible, waiting, lft, .. } = self;
        let row = &table.rows[row];
        self.slack = minus(&self.slack, &row.extra);
        let start = profile.earliest(waiting[usize::from(activity)].point, row, &table.free_guards);
        let point = profile.occupy(start, row);
        let finish = profile.at(point).time;
        self.makespan = self.makespan.max(finish);
        eligible.remove(activity, lft);
        for &s in &self.project.activities[usize::from(activity)].successors {
            let it = &mut waiting[usize::from(s)];
            if it.ready < finish {
                (it.ready, it.point) = (finish, point);
            }
            it.missing -= 1;
            if it.missing == 0 {
                eligible.add(s, lft);
            }
        }
    }
}

impl<const S: usize, const N: usize> Nodes for Sample<S, N> {
    /// Places an activity in a mode that the next two words draw. A void pass draws them too.
    fn node(&mut self) {
        let (first, second) = (self.words.next(), self.words.next());
        if !self.is_void {
            let activity = self.eligible.drawn(first, &self.lft);
            match self.drawn_row(activity, second) {
                Some(row) => self.place(activity, row),
                None => self.is_void = true,
            }
        }
        self.left -= 1;
        if self.left == 0 {
            self.best = if self.is_void { self.best } else { self.best.min(self.makespan) };
            self.begin();
        }
    }

    fn is_over(&self) -> bool {
        self.best <= self.project.bound
    }

    fn best(&self) -> u32 {
        self.best
    }
}

// The program

fn search<const S: usize, const N: usize>(kind: &str, project: Project, quanta: Arc<AtomicU64>) -> Box<dyn Search> {
    match kind.strip_prefix("sample:") {
        None => Box::new(Paid { nodes: Tree::<S, N>::new(project), quanta }),
        Some(seed) => Box::new(Paid { nodes: Sample::<S, N>::new(project, seed.parse().expect("a seed")), quanta }),
    }
}

fn main() {
    let arguments: Vec<String> = std::env::args().collect();
    let [_, kind, path, most] = &arguments[..] else { panic!("usage: plain SEARCH FILE NODES") };
    let project = read(&std::fs::read_to_string(path).expect("the file"));
    let quanta = Arc::new(AtomicU64::new(0));
    let make = match (project.activities.len() <= 64, words(&project)) {
        (true, 1) => search::<1, 1>,
        (true, 2) => search::<1, 2>,
        (true, _) => search::<1, 3>,
        (false, 1) => search::<4, 1>,
        (false, 2) => search::<4, 2>,
        (false, _) => search::<4, 3>,
    };
    let mut search = make(kind, project, quanta.clone());
    search.run(most.parse().expect("a number of nodes"));
    let best = search.best().map_or("none".to_string(), |it| it.to_string());
    println!("nodes {} best {} {}", quanta.load(Ordering::Relaxed), best, search.verdict());
}
