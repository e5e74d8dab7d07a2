//! An explorer of thread tables: it goes through all leaves of the thread machine in dictionary order, depth first,
//! and counts them by outcome. It shares no code with the rest of the repository.

const CELLS: usize = 16;
const MUTEXES: usize = 8;
const THREADS: usize = 8;
const LOCALS: usize = 8;
const STATEMENTS: usize = 48;
const CODES: usize = CELLS + THREADS * LOCALS;
const ROUNDS: usize = 8;
const SLOTS: usize = ROUNDS * THREADS;
const RECORD: usize = 10;

/// The leaves of a table, in all and by outcome.
#[derive(Clone, Copy, Debug, Default, PartialEq, Eq)]
pub struct Counts {
    pub visited: u64,
    pub failed: u64,
    pub cut: u64,
    pub full: u64,
}

/// Counts the leaves of the table in `file`, for so many rounds. Exits with a message if there is no such table.
pub fn explore(file: &[u8], rounds: u32) -> Counts {
    try_explore(file, rounds).unwrap_or_else(|message| {
        eprintln!("explorer: {message}");
        std::process::exit(2)
    })
}

fn try_explore(file: &[u8], rounds: u32) -> Result<Counts, String> {
    if !(1..=ROUNDS as u32).contains(&rounds) {
        return Err(format!("{rounds} rounds: 1 to {ROUNDS} are allowed"));
    }
    let (kind, program) = Program::decode(file)?;
    match kind {
        1 => Ok(walk::<Words>(&program, rounds as u8)),
        2 => Ok(walk::<Truth>(&program, rounds as u8)),
        _ => Err(format!("no kind has the byte {kind}")),
    }
}

// ---- kinds of value ----

trait Kind {
    fn sum(a: u32, b: u32) -> u32;
    fn difference(a: u32, b: u32) -> u32;
    fn less(a: u32, b: u32) -> u32;
    fn same(a: u32, b: u32) -> u32;
    fn holds(a: u32) -> bool;
}

/// The code of a fresh local cell, the same for both kinds.
const FRESH: u32 = 0;

struct Words;

impl Kind for Words {
    fn sum(a: u32, b: u32) -> u32 {
        a.wrapping_add(b)
    }
    fn difference(a: u32, b: u32) -> u32 {
        a.wrapping_sub(b)
    }
    fn less(a: u32, b: u32) -> u32 {
        ((a as i32) < (b as i32)) as u32
    }
    fn same(a: u32, b: u32) -> u32 {
        (a == b) as u32
    }
    fn holds(a: u32) -> bool {
        a != 0
    }
}

struct Truth;

impl Kind for Truth {
    fn sum(a: u32, b: u32) -> u32 {
        (a | b) & 1
    }
    fn difference(a: u32, b: u32) -> u32 {
        a & !b & 1
    }
    fn less(a: u32, b: u32) -> u32 {
        b & !a & 1
    }
    fn same(a: u32, b: u32) -> u32 {
        !(a ^ b) & 1
    }
    fn holds(a: u32) -> bool {
        a & 1 == 1
    }
}

// ---- programs ----

/// Where a cell stands among the codes of a state: the shared cells first, then the local cells of each thread.
type Place = u8;

#[derive(Clone, Copy)]
enum Statement {
    Set(Place, u32),
    Copy(Place, Place),
    Sum(Place, Place, Place),
    Difference(Place, Place, Place),
    Less(Place, Place, Place),
    Same(Place, Place, Place),
    Jump(u8),
    Branch(Place, u8),
    Assume(Place),
    Assert(Place),
    Init(u8),
    Destroy(u8),
    Lock(u8),
    Unlock(u8),
    Create(u8),
    Join(u8),
}

struct Program {
    cells: [u32; CELLS],
    threads: Vec<Vec<Statement>>,
}

/// A record of the file, without its mark.
struct Record {
    op: u8,
    d: u8,
    a: u8,
    b: u8,
    c: u32,
}

/// The next record, which is to have this mark.
fn record(records: &mut std::slice::ChunksExact<u8>, mark: &[u8; 2]) -> Result<Record, String> {
    match records.next() {
        Some(&[m0, m1, op, d, a, b, c0, c1, c2, c3]) if [m0, m1] == *mark => {
            Ok(Record { op, d, a, b, c: u32::from_be_bytes([c0, c1, c2, c3]) })
        }
        _ => Err(format!("a record {} is missing", String::from_utf8_lossy(mark))),
    }
}

/// The number, if it is below the limit.
fn below(number: u8, limit: usize, what: &str) -> Result<u8, String> {
    if (number as usize) < limit {
        Ok(number)
    } else {
        Err(format!("{what} {number} is not below {limit}"))
    }
}

impl Program {
    /// The kind byte and the program of a file. It checks what the walk relies on, and nothing else.
    fn decode(file: &[u8]) -> Result<(u8, Program), String> {
        let mut records = file.chunks_exact(RECORD);
        let head = record(&mut records, b"PG")?;
        let shared = below(head.d, CELLS + 1, "the count of shared cells,")? as usize;
        let mutexes = below(head.a, MUTEXES + 1, "the count of mutexes,")? as usize;
        let threads = below(head.b, THREADS + 1, "the count of threads,")? as usize;
        if threads == 0 {
            return Err("there is no thread".into());
        }
        let mut program = Program { cells: [0; CELLS], threads: Vec::with_capacity(threads) };
        for cell in &mut program.cells[..shared] {
            *cell = record(&mut records, b"SC")?.c;
        }
        for thread in 0..threads {
            let head = record(&mut records, b"TH")?;
            let locals = below(head.d, LOCALS + 1, "the count of local cells,")? as usize;
            let length = below(head.a, STATEMENTS + 1, "the count of statements,")?;
            let text = (0..length).map(|number| {
                let Record { op, d, a, b, c } = record(&mut records, b"ST")?;
                let place = |place: u8| match place.checked_sub(CELLS as u8) {
                    None => below(place, shared, "shared cell"),
                    Some(local) => Ok((CELLS + thread * LOCALS) as Place + below(local, locals, "local cell")?),
                };
                let label = || match u8::try_from(c) {
                    Ok(label) if number < label && label <= length => Ok(label),
                    _ => Err(format!("statement {number} leads to label {c}")),
                };
                let mutex = || below(d, mutexes, "mutex");
                let other = || below(d, threads, "thread");
                Ok(match op {
                    1 => Statement::Set(place(d)?, c),
                    2 => Statement::Copy(place(d)?, place(a)?),
                    3 => Statement::Sum(place(d)?, place(a)?, place(b)?),
                    4 => Statement::Difference(place(d)?, place(a)?, place(b)?),
                    5 => Statement::Less(place(d)?, place(a)?, place(b)?),
                    6 => Statement::Same(place(d)?, place(a)?, place(b)?),
                    7 => Statement::Jump(label()?),
                    8 => Statement::Branch(place(a)?, label()?),
                    9 => Statement::Assume(place(a)?),
                    10 => Statement::Assert(place(a)?),
                    11 => Statement::Init(mutex()?),
                    12 => Statement::Destroy(mutex()?),
                    13 => Statement::Lock(mutex()?),
                    14 => Statement::Unlock(mutex()?),
                    15 => Statement::Create(other()?),
                    16 => Statement::Join(other()?),
                    _ => return Err(format!("no statement has the number {op}")),
                })
            });
            program.threads.push(text.collect::<Result<_, String>>()?);
        }
        Ok((head.op, program))
    }
}

// ---- states ----

#[derive(Clone, Copy, PartialEq, Eq)]
enum Mutex {
    Free,
    Destroyed,
    Held(u8),
}

#[derive(Clone, Copy)]
struct Entry {
    label: u8,
    created: bool,
}

/// It is copied for each number that is tried; the alignment makes that a little faster.
#[derive(Clone, Copy)]
#[repr(align(32))]
struct State {
    codes: [u32; CODES],
    mutexes: [Mutex; MUTEXES],
    threads: [Entry; THREADS],
}

/// How a slot went.
enum Slot {
    Done,
    Failed,
    Cut,
}

impl State {
    fn start(program: &Program) -> State {
        let entry = Entry { label: 0, created: false };
        let mut state = State { codes: [FRESH; CODES], mutexes: [Mutex::Free; MUTEXES], threads: [entry; THREADS] };
        state.codes[..CELLS].copy_from_slice(&program.cells);
        state.threads[0].created = true;
        state
    }

    // Threads and mutexes are below 8, and the remainder spares the check of that.

    #[inline(always)]
    fn entry(&mut self, thread: u8) -> &mut Entry {
        &mut self.threads[thread as usize % THREADS]
    }

    #[inline(always)]
    fn mutex(&mut self, mutex: u8) -> &mut Mutex {
        &mut self.mutexes[mutex as usize % MUTEXES]
    }

    #[inline(always)]
    fn cell(&mut self, place: Place) -> &mut u32 {
        &mut self.codes[place as usize]
    }

    /// Carries out `number` statements of the thread `own`. Where it is not done, the state is of no use any more.
    fn run_slot<K: Kind>(&mut self, program: &Program, own: u8, number: u8) -> Slot {
        let text = &program.threads[own as usize][..];
        // The entry gets its new label at the end. No statement of the own thread needs it before: JOIN of the own
        // thread blocks with the old one, too.
        let mut label = self.entry(own).label;
        for _ in 0..number {
            let Some(&statement) = text.get(label as usize) else {
                return Slot::Cut;
            };
            label += 1;
            match statement {
                Statement::Set(d, c) => *self.cell(d) = c,
                Statement::Copy(d, a) => *self.cell(d) = *self.cell(a),
                Statement::Sum(d, a, b) => *self.cell(d) = K::sum(*self.cell(a), *self.cell(b)),
                Statement::Difference(d, a, b) => *self.cell(d) = K::difference(*self.cell(a), *self.cell(b)),
                Statement::Less(d, a, b) => *self.cell(d) = K::less(*self.cell(a), *self.cell(b)),
                Statement::Same(d, a, b) => *self.cell(d) = K::same(*self.cell(a), *self.cell(b)),
                Statement::Jump(t) => label = t,
                Statement::Branch(a, t) => {
                    if !K::holds(*self.cell(a)) {
                        label = t
                    }
                }
                Statement::Assume(a) => {
                    if !K::holds(*self.cell(a)) {
                        return Slot::Cut;
                    }
                }
                Statement::Assert(a) => {
                    if !K::holds(*self.cell(a)) {
                        return Slot::Failed;
                    }
                }
                Statement::Init(m) => *self.mutex(m) = Mutex::Free,
                Statement::Destroy(m) => *self.mutex(m) = Mutex::Destroyed,
                Statement::Lock(m) => match self.mutex(m) {
                    Mutex::Destroyed => return Slot::Failed,
                    Mutex::Held(_) => return Slot::Cut,
                    free => *free = Mutex::Held(own),
                },
                Statement::Unlock(m) => match self.mutex(m) {
                    held if *held == Mutex::Held(own) => *held = Mutex::Free,
                    _ => return Slot::Failed,
                },
                Statement::Create(j) => self.entry(j).created = true,
                Statement::Join(j) => {
                    if (self.entry(j).label as usize) < program.threads[j as usize].len() {
                        return Slot::Cut;
                    }
                }
            }
        }
        self.entry(own).label = label;
        Slot::Done
    }
}

// ---- the walk ----

/// A slot that is due: the state before it, its round and thread, its bound and the next number to try.
#[derive(Clone, Copy)]
struct Level {
    state: State,
    round: u8,
    thread: u8,
    bound: u8,
    next: u8,
}

impl Level {
    /// Makes the level's slot the first one that exists from this one on. False if there is none.
    #[inline(always)]
    fn seek(&mut self, program: &Program, rounds: u8, mut round: u8, mut thread: u8) -> bool {
        loop {
            if thread as usize == program.threads.len() {
                thread = 0;
                round += 1;
            }
            if round == rounds {
                return false;
            }
            let entry = self.state.entry(thread);
            if entry.created {
                self.bound = program.threads[thread as usize].len() as u8 - entry.label;
                self.next = 0;
                self.round = round;
                self.thread = thread;
                return true;
            }
            thread += 1;
        }
    }
}

fn walk<K: Kind>(program: &Program, rounds: u8) -> Counts {
    let mut counts = Counts::default();
    // The level after the deepest one holds a child that ends its run.
    let mut stack = [Level { state: State::start(program), round: 0, thread: 0, bound: 0, next: 0 }; SLOTS + 1];
    stack[0].seek(program, rounds, 0, 0);
    let mut depth = 0;
    loop {
        let [level, child] = &mut stack[depth..depth + 2] else { unreachable!() };
        if level.next > level.bound {
            if depth == 0 {
                break;
            }
            depth -= 1;
            continue;
        }
        let number = level.next;
        level.next += 1;
        child.state = level.state;
        match child.state.run_slot::<K>(program, level.thread, number) {
            Slot::Done => {
                if child.seek(program, rounds, level.round, level.thread + 1) {
                    depth += 1;
                } else {
                    counts.full += 1;
                }
            }
            Slot::Cut => counts.cut += 1,
            Slot::Failed => {
                // The greater numbers fail, too, and are no leaves.
                level.next = level.bound + 1;
                counts.failed += 1;
            }
        }
    }
    counts.visited = counts.failed + counts.cut + counts.full;
    counts
}
