//! The jobs that bench/race.sh times, in plain Rust on a heap behind one `std::sync::Mutex`, with no contracts and no proof. Each
//! call takes the lock, as the calls of a script do: a `new`, a `put`, two `store`s, a `load`, a `get` and two `clear`s. The heap
//! has a fixed row of objects; where none is free, whoever wants one marks what can be reached and frees the rest, with the lock
//! held. Words: the number of tasks, the jobs of each, and `longest` if the longest job is to be timed. Prints the jobs, the
//! longest time from the end of a job to that of the next one, if it was timed, the collections, and the longest of them.

use std::sync::Mutex;
use std::time::{Duration, Instant};

/// How many objects there are beside the board.
const OBJECTS: usize = 256;
const BOARD: usize = 0;

#[derive(Clone, Copy, Default)]
struct Object {
    reference: Option<usize>,
    numbers: [u64; 3],
    is_marked: bool,
}

/// Two registers of each task; the board's references; the objects, of which number 0 stands for the board.
struct Heap {
    objects: Vec<Object>,
    board: Vec<Option<usize>>,
    registers: Vec<[Option<usize>; 2]>,
    free: Vec<usize>,
    collections: u64,
    longest: Duration,
}

impl Heap {
    fn new(tasks: usize) -> Heap {
        Heap {
            objects: vec![Object::default(); 1 + OBJECTS],
            board: vec![None; tasks],
            registers: vec![[None; 2]; tasks],
            free: (1..=OBJECTS).collect(),
            collections: 0,
            longest: Duration::ZERO,
        }
    }

    fn collect(&mut self) {
        let start = Instant::now();
        let mut left: Vec<usize> = self.board.iter().chain(self.registers.iter().flatten()).copied().flatten().collect();
        while let Some(at) = left.pop() {
            let object = &mut self.objects[at];
            if !object.is_marked {
                object.is_marked = true;
                left.extend(object.reference);
            }
        }
        for (at, object) in self.objects.iter_mut().enumerate().skip(1) {
            if !object.is_marked {
                self.free.push(at);
            }
            object.is_marked = false;
        }
        self.free.sort_unstable();
        self.free.dedup();
        self.collections += 1;
        self.longest = self.longest.max(start.elapsed());
    }

    fn make(&mut self, seat: usize, register: usize) {
        if self.free.is_empty() {
            self.collect();
        }
        let at = self.free.pop().expect("room");
        self.objects[at] = Object::default();
        self.registers[seat][register] = Some(at);
    }
}

/// A task's way to the heap.
struct Pass<'a> {
    heap: &'a Mutex<Heap>,
    seat: usize,
}

impl Pass<'_> {
    fn make(&self, register: usize) {
        self.heap.lock().unwrap().make(self.seat, register);
    }

    fn put(&self, register: usize, field: usize, value: u64) {
        let mut heap = self.heap.lock().unwrap();
        if let Some(at) = heap.registers[self.seat][register] {
            heap.objects[at].numbers[field] = value;
        }
    }

    fn get(&self, register: usize, field: usize) -> Option<u64> {
        let heap = self.heap.lock().unwrap();
        heap.registers[self.seat][register].map(|at| heap.objects[at].numbers[field])
    }

    /// The object refers to the board.
    fn store_board(&self, register: usize) {
        let mut heap = self.heap.lock().unwrap();
        if let Some(at) = heap.registers[self.seat][register] {
            heap.objects[at].reference = Some(BOARD);
        }
    }

    /// The board refers to the object.
    fn hang(&self, field: usize, register: usize) {
        let mut heap = self.heap.lock().unwrap();
        heap.board[field] = heap.registers[self.seat][register];
    }

    fn load(&self, register: usize, field: usize) {
        let mut heap = self.heap.lock().unwrap();
        heap.registers[self.seat][register] = heap.board[field];
    }

    fn clear(&self, register: usize) {
        self.heap.lock().unwrap().registers[self.seat][register] = None;
    }

    fn job(&self, tasks: usize, job: u64) -> u64 {
        self.make(0);
        self.put(0, 0, job);
        self.store_board(0);
        self.hang(self.seat, 0);
        self.load(1, (self.seat + 1) % tasks);
        let read = self.get(1, 0).unwrap_or(0);
        self.clear(0);
        self.clear(1);
        read
    }
}

fn main() {
    let words: Vec<String> = std::env::args().skip(1).collect();
    let tasks: usize = words[0].parse().unwrap();
    let jobs: u64 = words[1].parse().unwrap();
    let is_timed = words.get(2).is_some_and(|word| word == "longest");
    let heap = Mutex::new(Heap::new(tasks));
    let ended: Vec<(u64, Duration)> = std::thread::scope(|scope| {
        let threads: Vec<_> = (0..tasks)
            .map(|seat| {
                let pass = Pass { heap: &heap, seat };
                scope.spawn(move || {
                    let (mut sum, mut longest, mut before) = (0_u64, Duration::ZERO, Instant::now());
                    for job in 0..jobs {
                        sum = sum.wrapping_add(pass.job(tasks, job));
                        if is_timed {
                            let after = Instant::now();
                            longest = longest.max(after - before);
                            before = after;
                        }
                    }
                    (sum, longest)
                })
            })
            .collect();
        threads.into_iter().map(|thread| thread.join().unwrap()).collect()
    });
    let heap = heap.into_inner().unwrap();
    println!(
        "jobs {} longest {} ns collections {} longest stop {} ns sum {}",
        tasks as u64 * jobs,
        ended.iter().map(|(_, longest)| longest.as_nanos()).max().unwrap_or(0),
        heap.collections,
        heap.longest.as_nanos(),
        ended.iter().fold(0_u64, |sum, (own, _)| sum.wrapping_add(*own))
    );
}
