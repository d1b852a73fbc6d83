//! The mixture of crates/shared_mix in plain Rust, with no contracts and no proof, by the same draws and the same calls:
//! `atomics` does the same accesses on a row of plain atomic words, each call straight through its places; `mutex` has a
//! plain heap that never collects behind one `std::sync::Mutex`; `steps` does what `atomics` does, counts the accesses of
//! each call, and prints the most of one call of each kind. Words: one of these three, `board` or `own`, the number of
//! threads, the number of rounds of each. The first two print what shared_mix prints.

use std::sync::Mutex;
use std::sync::atomic::{AtomicU64, Ordering::SeqCst};

const LIVE: u32 = 256;
const ALLOC: u32 = 1024;
const REGISTERS: u32 = 8;
const BOARD: Shape = Shape { refs: 8, nums: 4 };
const LEAF: Shape = Shape { refs: 0, nums: 2 };

const NUMBERS: u32 = LIVE / 2 + ALLOC;
const LIST: u32 = ALLOC / 2;
const SPACE: u32 = LIVE + ALLOC;

const W0: u32 = 0;
const W1: u32 = 1;
const HEADERS: u32 = 2;
const MARKS: u32 = HEADERS + NUMBERS;
const FRAMES: u32 = MARKS + NUMBERS;

const ENTER: u64 = (1 << 28) + 1;
const LEAVE: u64 = 1;

#[derive(Clone, Copy)]
struct Shape {
    refs: u8,
    nums: u8,
}

impl Shape {
    fn words(self) -> u32 {
        1 + u32::from(self.refs) + u32::from(self.nums)
    }
}

fn pack_reference(number: u32, shape: Shape) -> u64 {
    u64::from(number + 1) | u64::from(shape.refs) << 20 | u64::from(shape.nums) << 28
}

fn reference_number(word: u64) -> u32 {
    (word & 0xf_ffff) as u32 - 1
}

fn reference_refs(word: u64) -> u8 {
    (word >> 20) as u8
}

fn reference_nums(word: u64) -> u8 {
    (word >> 28) as u8
}

fn reference_size(word: u64) -> u32 {
    1 + u32::from(reference_refs(word)) + u32::from(reference_nums(word))
}

fn header_place(word: u64) -> u32 {
    (word >> 6) as u32 & 0x3f_ffff
}

fn w0_words(word: u64) -> u32 {
    word as u32 & 0xff_ffff
}

fn w0_objects(word: u64) -> u32 {
    (word >> 24) as u32 & 0xf_ffff
}

fn w0_cycle(word: u64) -> u64 {
    word >> 44
}

fn place_at(space: u32, word: u32) -> u32 {
    1 + space * SPACE + word
}

/// Why a call wasn't done.
enum Failure {
    Refused,
    Full,
}

/// The calls of one pass.
trait Calls {
    fn get(&mut self, reg: u8, field: u8) -> Result<u64, Failure>;
    fn put(&mut self, reg: u8, field: u8, value: u64) -> Result<(), Failure>;
    fn load(&mut self, dest: u8, reg: u8, field: u8) -> Result<(), Failure>;
    fn store(&mut self, reg: u8, field: u8, from: u8) -> Result<(), Failure>;
    fn copy(&mut self, dest: u8, from: u8) -> Result<(), Failure>;
    fn clear(&mut self, dest: u8) -> Result<(), Failure>;
    fn make(&mut self, dest: u8, shape: Shape) -> Result<(), Failure>;
}

/// The row of words of so many low tasks.
struct Row {
    words: Vec<AtomicU64>,
    registers: u32,
    lists: u32,
    spaces: u32,
}

impl Row {
    fn new(tasks: u32) -> Row {
        let registers = FRAMES + tasks;
        let lists = registers + REGISTERS * tasks;
        let spaces = lists + 2 * LIST;
        let mut words = vec![0_u64; (spaces + 2 * SPACE) as usize];
        words[W0 as usize] = 1 << 44;
        words[HEADERS as usize] = u64::from(place_at(1, 0)) << 6;
        words[MARKS as usize] = 1;
        for entry in 0..LIST {
            words[(lists + LIST + entry) as usize] = u64::from(1 + entry);
            words[(MARKS + 1 + entry) as usize] = 1;
        }
        for task in 0..tasks {
            words[(registers + REGISTERS * task) as usize] = pack_reference(0, BOARD);
        }
        Row {
            words: words.into_iter().map(AtomicU64::new).collect(),
            registers,
            lists,
            spaces,
        }
    }
}

/// A pass on the row, which keeps its registers beside those of the row.
struct Pass<'a, const COUNT: bool> {
    row: &'a Row,
    seat: u32,
    registers: [u64; REGISTERS as usize],
    steps: u32,
    most: [u32; 7],
}

impl<'a, const COUNT: bool> Pass<'a, COUNT> {
    fn new(row: &'a Row, seat: u32) -> Self {
        let mut registers = [0; REGISTERS as usize];
        registers[0] = pack_reference(0, BOARD);
        Pass {
            row,
            seat,
            registers,
            steps: 0,
            most: [0; 7],
        }
    }

    fn word(&mut self, index: u32) -> &'a AtomicU64 {
        if COUNT {
            self.steps += 1;
        }
        &self.row.words[index as usize]
    }

    fn ended(&mut self, kind: usize) {
        if COUNT {
            self.most[kind] = self.most[kind].max(self.steps);
            self.steps = 0;
        }
    }

    fn entered(&self, reg: u8) -> Result<u64, Failure> {
        match self.registers[reg as usize] {
            0 => Err(Failure::Refused),
            word => Ok(word),
        }
    }

    fn enter_object(&mut self, word: u64) -> u32 {
        header_place(self.word(HEADERS + reference_number(word)).fetch_add(ENTER, SeqCst))
    }

    fn leave_object(&mut self, word: u64) {
        self.word(HEADERS + reference_number(word)).fetch_sub(LEAVE, SeqCst);
    }

    fn enter_frame(&mut self) {
        self.word(FRAMES + self.seat).fetch_add(ENTER, SeqCst);
    }

    fn leave_frame(&mut self) {
        self.word(FRAMES + self.seat).fetch_sub(LEAVE, SeqCst);
    }

    fn write_register(&mut self, reg: u8, value: u64) {
        self.word(self.row.registers + REGISTERS * self.seat + u32::from(reg)).store(value, SeqCst);
        self.registers[reg as usize] = value;
    }

    fn cell(&mut self, place: u32) -> &'a AtomicU64 {
        self.word(self.row.spaces + place - 1)
    }

    fn claim(&mut self, item: u64, w0: u64) {
        if item == 0 {
            return;
        }
        let cycle = w0_cycle(w0);
        let old = self.word(MARKS + reference_number(item)).fetch_max(cycle, SeqCst);
        if old < cycle {
            let offset = self.word(W1).fetch_add(u64::from(reference_size(item)), SeqCst);
            if offset + u64::from(reference_size(item)) <= u64::from(LIVE) {
                self.cell(place_at((cycle % 2) as u32, offset as u32)).store(item, SeqCst);
            }
        }
    }
}

impl<const COUNT: bool> Calls for Pass<'_, COUNT> {
    fn get(&mut self, reg: u8, field: u8) -> Result<u64, Failure> {
        let word = self.entered(reg)?;
        if field >= reference_nums(word) {
            return Err(Failure::Refused);
        }
        let at = self.enter_object(word);
        let value = self.cell(at + 1 + u32::from(reference_refs(word)) + u32::from(field)).load(SeqCst);
        self.leave_object(word);
        self.ended(0);
        Ok(value)
    }

    fn put(&mut self, reg: u8, field: u8, value: u64) -> Result<(), Failure> {
        let word = self.entered(reg)?;
        if field >= reference_nums(word) {
            return Err(Failure::Refused);
        }
        let at = self.enter_object(word);
        self.cell(at + 1 + u32::from(reference_refs(word)) + u32::from(field)).store(value, SeqCst);
        self.leave_object(word);
        self.ended(1);
        Ok(())
    }

    fn load(&mut self, dest: u8, reg: u8, field: u8) -> Result<(), Failure> {
        let word = self.entered(reg)?;
        if field >= reference_refs(word) {
            return Err(Failure::Refused);
        }
        self.enter_frame();
        let at = self.enter_object(word);
        let w0 = self.word(W0).load(SeqCst);
        let item = self.cell(at + 1 + u32::from(field)).load(SeqCst);
        self.claim(item, w0);
        self.write_register(dest, item);
        self.leave_object(word);
        self.leave_frame();
        self.ended(2);
        Ok(())
    }

    fn store(&mut self, reg: u8, field: u8, from: u8) -> Result<(), Failure> {
        let word = self.entered(reg)?;
        if field >= reference_refs(word) {
            return Err(Failure::Refused);
        }
        let item = self.registers[from as usize];
        let at = self.enter_object(word);
        if item != 0 {
            let w0 = self.word(W0).load(SeqCst);
            self.claim(item, w0);
        }
        self.cell(at + 1 + u32::from(field)).store(item, SeqCst);
        self.leave_object(word);
        self.ended(3);
        Ok(())
    }

    fn copy(&mut self, dest: u8, from: u8) -> Result<(), Failure> {
        let item = self.registers[from as usize];
        self.enter_frame();
        self.write_register(dest, item);
        self.leave_frame();
        self.ended(4);
        Ok(())
    }

    fn clear(&mut self, dest: u8) -> Result<(), Failure> {
        self.write_register(dest, 0);
        self.ended(5);
        Ok(())
    }

    fn make(&mut self, dest: u8, shape: Shape) -> Result<(), Failure> {
        let limit = ALLOC - shape.words();
        if w0_words(self.word(W0).load(SeqCst)) > limit {
            return Err(Failure::Full);
        }
        self.enter_frame();
        let w0 = self.word(W0).fetch_add(u64::from(shape.words()) | 1 << 24, SeqCst);
        if w0_words(w0) > limit {
            self.leave_frame();
            return Err(Failure::Full);
        }
        let side = (w0_cycle(w0) % 2) as u32;
        let number = self.word(self.row.lists + side * LIST + w0_objects(w0)).load(SeqCst) as u32;
        let place = place_at(side, LIVE + w0_words(w0));
        self.word(HEADERS + number).store(u64::from(place) << 6, SeqCst);
        self.write_register(dest, pack_reference(number, shape));
        self.leave_frame();
        self.ended(6);
        Ok(())
    }
}

/// An object of the plain heap. A reference holds the place of an object.
struct Object {
    refs: Vec<Option<usize>>,
    nums: Vec<u64>,
}

/// The plain heap: every object that was made, and the registers of each task.
struct PlainHeap {
    objects: Vec<Object>,
    registers: Vec<[Option<usize>; REGISTERS as usize]>,
}

impl PlainHeap {
    fn new(tasks: u32) -> PlainHeap {
        let mut registers = [None; REGISTERS as usize];
        registers[0] = Some(0);
        PlainHeap {
            objects: vec![object(BOARD)],
            registers: vec![registers; tasks as usize],
        }
    }
}

fn object(shape: Shape) -> Object {
    Object {
        refs: vec![None; shape.refs as usize],
        nums: vec![0; shape.nums as usize],
    }
}

/// A pass on the plain heap.
struct Locked<'a> {
    heap: &'a Mutex<PlainHeap>,
    seat: usize,
}

impl Calls for Locked<'_> {
    fn get(&mut self, reg: u8, field: u8) -> Result<u64, Failure> {
        let heap = self.heap.lock().unwrap();
        let at = heap.registers[self.seat][reg as usize].ok_or(Failure::Refused)?;
        heap.objects[at].nums.get(field as usize).copied().ok_or(Failure::Refused)
    }

    fn put(&mut self, reg: u8, field: u8, value: u64) -> Result<(), Failure> {
        let mut heap = self.heap.lock().unwrap();
        let at = heap.registers[self.seat][reg as usize].ok_or(Failure::Refused)?;
        let cell = heap.objects[at].nums.get_mut(field as usize).ok_or(Failure::Refused)?;
        *cell = value;
        Ok(())
    }

    fn load(&mut self, dest: u8, reg: u8, field: u8) -> Result<(), Failure> {
        let mut heap = self.heap.lock().unwrap();
        let at = heap.registers[self.seat][reg as usize].ok_or(Failure::Refused)?;
        let item = *heap.objects[at].refs.get(field as usize).ok_or(Failure::Refused)?;
        heap.registers[self.seat][dest as usize] = item;
        Ok(())
    }

    fn store(&mut self, reg: u8, field: u8, from: u8) -> Result<(), Failure> {
        let mut heap = self.heap.lock().unwrap();
        let at = heap.registers[self.seat][reg as usize].ok_or(Failure::Refused)?;
        let item = heap.registers[self.seat][from as usize];
        let cell = heap.objects[at].refs.get_mut(field as usize).ok_or(Failure::Refused)?;
        *cell = item;
        Ok(())
    }

    fn copy(&mut self, dest: u8, from: u8) -> Result<(), Failure> {
        let mut heap = self.heap.lock().unwrap();
        heap.registers[self.seat][dest as usize] = heap.registers[self.seat][from as usize];
        Ok(())
    }

    fn clear(&mut self, dest: u8) -> Result<(), Failure> {
        self.heap.lock().unwrap().registers[self.seat][dest as usize] = None;
        Ok(())
    }

    fn make(&mut self, dest: u8, shape: Shape) -> Result<(), Failure> {
        let mut heap = self.heap.lock().unwrap();
        let at = heap.objects.len();
        heap.objects.push(object(shape));
        heap.registers[self.seat][dest as usize] = Some(at);
        Ok(())
    }
}

struct Draws {
    state: u64,
}

impl Draws {
    fn of_seat(seat: u32) -> Draws {
        Draws {
            state: u64::from(seat).wrapping_mul(0x9E37_79B9_7F4A_7C15),
        }
    }

    fn below(&mut self, bound: u64) -> u64 {
        self.state = self.state.wrapping_mul(6_364_136_223_846_793_005).wrapping_add(1_442_695_040_888_963_407);
        (self.state >> 33) % bound
    }
}

#[derive(Clone, Copy, Default)]
struct Tally {
    gets: u64,
    puts: u64,
    loads: u64,
    stores: u64,
    moves: u64,
    clears: u64,
    news: u64,
    refused: u64,
    full: u64,
    digest: u64,
}

impl Tally {
    fn read(&mut self, number: u64) {
        self.digest = (self.digest ^ number).wrapping_mul(1_099_511_628_211);
    }

    fn failed(&mut self, failure: Failure) {
        match failure {
            Failure::Full => self.full += 1,
            Failure::Refused => self.refused += 1,
        }
    }

    fn ended(&mut self, done: Result<(), Failure>) {
        if let Err(failure) = done {
            self.failed(failure);
        }
    }

    fn add(&mut self, other: &Tally) {
        self.gets += other.gets;
        self.puts += other.puts;
        self.loads += other.loads;
        self.stores += other.stores;
        self.moves += other.moves;
        self.clears += other.clears;
        self.news += other.news;
        self.refused += other.refused;
        self.full += other.full;
        self.digest = self.digest.wrapping_add(other.digest);
    }
}

const OWN: u8 = 1;
const FIRST: u8 = 2;
const SECOND: u8 = 3;
const LOADED: u8 = 4;
const COPY: u8 = 5;

struct Worker<P: Calls> {
    pass: P,
    home: u8,
    draws: Draws,
    tally: Tally,
}

impl<P: Calls> Worker<P> {
    fn new(pass: P, seat: u32, home: u8) -> Self {
        Worker {
            pass,
            home,
            draws: Draws::of_seat(seat),
            tally: Tally::default(),
        }
    }

    fn prepare(&mut self) {
        self.make(OWN, BOARD);
        self.make(FIRST, LEAF);
        self.make(SECOND, LEAF);
        for field in 0..8 {
            self.store(field, FIRST);
        }
    }

    fn round(&mut self) {
        match self.draws.below(100) {
            0..35 => {
                let field = self.draws.below(4) as u8;
                self.get(self.home, field);
            }
            35..55 => {
                let field = self.draws.below(4) as u8;
                let value = self.draws.below(1000);
                self.tally.puts += 1;
                let done = self.pass.put(self.home, field, value);
                self.tally.ended(done);
            }
            55..70 => {
                let field = self.draws.below(8) as u8;
                self.tally.loads += 1;
                let done = self.pass.load(LOADED, self.home, field);
                self.tally.ended(done);
                self.get(LOADED, 0);
            }
            70..80 => {
                let field = self.draws.below(8) as u8;
                let from = if self.draws.below(2) == 0 { FIRST } else { SECOND };
                self.store(field, from);
            }
            80..90 => {
                self.tally.moves += 1;
                let done = self.pass.copy(COPY, LOADED);
                self.tally.ended(done);
            }
            _ => {
                self.tally.clears += 1;
                let done = self.pass.clear(COPY);
                self.tally.ended(done);
            }
        }
    }

    fn get(&mut self, reg: u8, field: u8) {
        self.tally.gets += 1;
        match self.pass.get(reg, field) {
            Ok(number) => self.tally.read(number),
            Err(failure) => self.tally.failed(failure),
        }
    }

    fn store(&mut self, field: u8, from: u8) {
        self.tally.stores += 1;
        let done = self.pass.store(self.home, field, from);
        self.tally.ended(done);
    }

    fn make(&mut self, dest: u8, shape: Shape) {
        self.tally.news += 1;
        let done = self.pass.make(dest, shape);
        self.tally.ended(done);
    }
}

/// Prepares the workers one after the other, the last seat first, and runs each on a thread of its own.
fn run<P: Calls + Send>(mut workers: Vec<Worker<P>>, rounds: u64) -> (Tally, Vec<P>) {
    for worker in workers.iter_mut().rev() {
        worker.prepare();
    }
    let mut tally = Tally::default();
    let mut passes = Vec::new();
    std::thread::scope(|scope| {
        let threads: Vec<_> = workers
            .into_iter()
            .map(|mut worker| {
                scope.spawn(move || {
                    for _round in 0..rounds {
                        worker.round();
                    }
                    worker
                })
            })
            .collect();
        for thread in threads {
            let worker = thread.join().unwrap();
            tally.add(&worker.tally);
            passes.push(worker.pass);
        }
    });
    (tally, passes)
}

fn print(tally: &Tally) {
    println!(
        "get {} put {} load {} store {} move {} clear {} new {}",
        tally.gets, tally.puts, tally.loads, tally.stores, tally.moves, tally.clears, tally.news
    );
    println!("refused {} full {}", tally.refused, tally.full);
    println!("collector 0 flips 0 lost 0 waits 0");
    println!("digest {}", tally.digest);
}

fn main() {
    let words: Vec<String> = std::env::args().skip(1).collect();
    let home = if words[1] == "own" { OWN } else { 0 };
    let tasks: u32 = words[2].parse().unwrap();
    let rounds: u64 = words[3].parse().unwrap();
    let row = Row::new(tasks);
    let heap = Mutex::new(PlainHeap::new(tasks));
    match words[0].as_str() {
        "atomics" => {
            let workers = (0..tasks).map(|seat| Worker::new(Pass::<false>::new(&row, seat), seat, home));
            print(&run(workers.collect(), rounds).0);
        }
        "mutex" => {
            let workers = (0..tasks).map(|seat| {
                let pass = Locked {
                    heap: &heap,
                    seat: seat as usize,
                };
                Worker::new(pass, seat, home)
            });
            print(&run(workers.collect(), rounds).0);
        }
        "steps" => {
            let workers = (0..tasks).map(|seat| Worker::new(Pass::<true>::new(&row, seat), seat, home));
            let mut most = [0; 7];
            for pass in run(workers.collect(), rounds).1 {
                for (one, other) in most.iter_mut().zip(pass.most) {
                    *one = other.max(*one);
                }
            }
            let [get, put, load, store, copy, clear, make] = most;
            println!("most steps: get {get} put {put} load {load} store {store} move {copy} clear {clear} new {make}");
        }
        _ => panic!("atomics, mutex or steps"),
    }
}
