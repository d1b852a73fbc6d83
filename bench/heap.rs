//! The mixture of crates/heap_mix in plain Rust: the same draws, the same calls and the same events on the same row of
//! words, with no contracts and no proof. Each call runs straight through its places; the collector does one event at a
//! time, since it owes so many of them. It prints what heap_mix prints.

const LIVE: u32 = 1024;
const ALLOC: u32 = 2048;
const RESERVE: u32 = 256;
const TASKS: u32 = 2;
const REGISTERS: u32 = 8;
const BOARD_REFS: u8 = 8;
const BOARD_NUMS: u8 = 4;

const NUMBERS: u32 = LIVE / 2 + ALLOC;
const LIST: u32 = ALLOC / 2;
const SPACE: u32 = LIVE + ALLOC;

const W0: u32 = 0;
const W1: u32 = 1;
const HEADERS: u32 = 2;
const MARKS: u32 = HEADERS + NUMBERS;
const FRAMES: u32 = MARKS + NUMBERS;
const REGISTERS_FROM: u32 = FRAMES + TASKS;
const LISTS: u32 = REGISTERS_FROM + REGISTERS * TASKS;
const SPACES: u32 = LISTS + 2 * LIST;
const WORDS: u32 = SPACES + 2 * SPACE;

const ENTER: u64 = (1 << 28) + 1;
const LEAVE: u64 = 1;
const LAST_CYCLE: u64 = (1 << 20) - 1;

/// The seat whose calls are run, a low one.
const SEAT: u32 = 1;

#[derive(Clone, Copy)]
struct Shape {
    refs: u8,
    nums: u8,
}

impl Shape {
    fn words(self) -> u32 {
        1 + u32::from(self.refs) + u32::from(self.nums)
    }
}

fn pack_reference(number: u32, shape: Shape) -> u64 {
    u64::from(number + 1) | u64::from(shape.refs) << 20 | u64::from(shape.nums) << 28
}

fn reference_number(word: u64) -> u32 {
    (word & 0xf_ffff) as u32 - 1
}

fn reference_refs(word: u64) -> u8 {
    (word >> 20) as u8
}

fn reference_nums(word: u64) -> u8 {
    (word >> 28) as u8
}

fn reference_size(word: u64) -> u32 {
    1 + u32::from(reference_refs(word)) + u32::from(reference_nums(word))
}

fn pack_header(place: u32) -> u64 {
    u64::from(place) << 6
}

/// The calls that are inside the object of a header, or inside a frame.
fn accessors(word: u64) -> u64 {
    word & 0x3f
}

fn header_place(word: u64) -> u32 {
    (word >> 6) as u32 & 0x3f_ffff
}

/// A header with another place, or a frame word with another cycle.
fn with_middle(word: u64, middle: u64) -> u64 {
    word & !(0x3f_ffff << 6) | middle << 6
}

fn pack_w0(words: u32, objects: u32, cycle: u64) -> u64 {
    u64::from(words) | u64::from(objects) << 24 | cycle << 44
}

fn w0_words(word: u64) -> u32 {
    word as u32 & 0xff_ffff
}

fn w0_objects(word: u64) -> u32 {
    (word >> 24) as u32 & 0xf_ffff
}

fn w0_cycle(word: u64) -> u64 {
    word >> 44
}

fn place_at(space: u32, word: u32) -> u32 {
    1 + space * SPACE + word
}

fn reserved_fits(offset: u64, reference: u64) -> bool {
    offset + u64::from(reference_size(reference)) <= u64::from(LIVE)
}

/// How a call was refused.
enum Refused {
    Begin,
    Full,
}

#[derive(Clone, Copy)]
enum Line {
    Rest,
    Frame { seat: u32 },
    RegisterRead { seat: u32, reg: u32 },
    RegisterClaim { seat: u32, reg: u32 },
    RegisterReserve { seat: u32, reg: u32 },
    RegisterTie { seat: u32, reg: u32 },
    FrameTrade { seat: u32 },
    Scan,
    Link,
    Look,
    CellRead { index: u32 },
    CellClaim { index: u32 },
    CellReserve { index: u32 },
    CellTie { index: u32 },
    CellWrite { index: u32 },
    ObjectTrade,
    Pass { number: u32 },
    PassHead { number: u32 },
    SweepRead { number: u32 },
    SweepWrite { number: u32 },
    SweepMark { number: u32 },
    SweepEmpty { number: u32 },
    Clear { word: u32 },
    Reset,
}

/// What an event of the collector did.
enum Work {
    Useful,
    Flipped,
    Lost,
    Waits,
}

struct Heap {
    row: Vec<u64>,
    line: Line,
    cycle: u64,
    scan: u32,
    entries: u32,
    first: u64,
    item: u64,
    cell: u64,
    offset: u64,
}

impl Heap {
    fn open() -> Heap {
        let mut row = vec![0; WORDS as usize];
        row[W0 as usize] = pack_w0(0, 0, 1);
        row[HEADERS as usize] = pack_header(place_at(1, 0));
        for number in 0..NUMBERS {
            row[(MARKS + number) as usize] = match number {
                _ if number < LIST + 1 => 1,
                _ if number < 2 * LIST + 1 => 2,
                _ => 0,
            };
        }
        let board = Shape {
            refs: BOARD_REFS,
            nums: BOARD_NUMS,
        };
        for seat in 0..TASKS {
            row[(REGISTERS_FROM + seat * REGISTERS) as usize] = pack_reference(0, board);
        }
        for entry in 0..LIST {
            row[(LISTS + LIST + entry) as usize] = u64::from(entry + 1);
            row[(LISTS + entry) as usize] = u64::from(LIST + entry + 1);
        }
        Heap {
            row,
            line: Line::Rest,
            cycle: 1,
            scan: 0,
            entries: 0,
            first: 0,
            item: 0,
            cell: 0,
            offset: 0,
        }
    }

    fn read(&self, index: u32) -> u64 {
        self.row[index as usize]
    }

    fn write(&mut self, index: u32, word: u64) {
        self.row[index as usize] = word;
    }

    fn add(&mut self, index: u32, amount: u64) -> u64 {
        let word = &mut self.row[index as usize];
        let old = *word;
        *word = old + amount;
        old
    }

    fn sub(&mut self, index: u32, amount: u64) {
        self.row[index as usize] -= amount;
    }

    fn max(&mut self, index: u32, least: u64) -> u64 {
        let word = &mut self.row[index as usize];
        let old = *word;
        *word = old.max(least);
        old
    }

    fn swap(&mut self, index: u32, new: u64) -> u64 {
        std::mem::replace(&mut self.row[index as usize], new)
    }

    /// Writes the new word where the word is the current one; what the word was.
    fn trade(&mut self, index: u32, current: u64, new: u64) -> u64 {
        let word = &mut self.row[index as usize];
        let old = *word;
        if old == current {
            *word = new;
        }
        old
    }

    fn register_at(seat: u32, reg: u8) -> u32 {
        REGISTERS_FROM + seat * REGISTERS + u32::from(reg)
    }

    fn header_at(reference: u64) -> u32 {
        HEADERS + reference_number(reference)
    }

    fn mark_at(reference: u64) -> u32 {
        MARKS + reference_number(reference)
    }

    fn space_at(place: u32) -> u32 {
        SPACES + (place - 1)
    }

    fn register(&self, reg: u8) -> u64 {
        self.read(Heap::register_at(SEAT, reg))
    }

    fn is_null(&self, reg: u8) -> bool {
        self.register(reg) == 0
    }

    fn enter_object(&mut self, reference: u64) -> u32 {
        header_place(self.add(Heap::header_at(reference), ENTER))
    }

    fn leave_object(&mut self, reference: u64) {
        self.sub(Heap::header_at(reference), LEAVE);
    }

    fn enter_frame(&mut self) {
        self.add(FRAMES + SEAT, ENTER);
    }

    fn leave_frame(&mut self) {
        self.sub(FRAMES + SEAT, LEAVE);
    }

    /// Claims an object for the cycle, and, where this is its first claim, reserves a place for it and links it there.
    fn claim(&mut self, item: u64, w0: u64) {
        if item == 0 {
            return;
        }
        let cycle = w0_cycle(w0);
        if self.max(Heap::mark_at(item), cycle) < cycle {
            let offset = self.add(W1, u64::from(reference_size(item)));
            if reserved_fits(offset, item) {
                let place = place_at((cycle % 2) as u32, offset as u32);
                self.write(Heap::space_at(place), item);
            }
        }
    }

    /// The reference in a register whose object has the number field.
    fn with_number(&self, reg: u8, field: u8) -> Result<u64, Refused> {
        let reference = self.register(reg);
        if reference == 0 || field >= reference_nums(reference) {
            return Err(Refused::Begin);
        }
        Ok(reference)
    }

    /// The reference in a register whose object has the reference field.
    fn with_reference(&self, reg: u8, field: u8) -> Result<u64, Refused> {
        let reference = self.register(reg);
        if reference == 0 || field >= reference_refs(reference) {
            return Err(Refused::Begin);
        }
        Ok(reference)
    }

    fn number_cell(at: u32, reference: u64, field: u8) -> u32 {
        Heap::space_at(at + 1 + u32::from(reference_refs(reference)) + u32::from(field))
    }

    fn reference_cell(at: u32, field: u8) -> u32 {
        Heap::space_at(at + 1 + u32::from(field))
    }

    fn get(&mut self, reg: u8, field: u8) -> Result<u64, Refused> {
        let reference = self.with_number(reg, field)?;
        let at = self.enter_object(reference);
        let value = self.read(Heap::number_cell(at, reference, field));
        self.leave_object(reference);
        Ok(value)
    }

    fn put(&mut self, reg: u8, field: u8, value: u64) -> Result<(), Refused> {
        let reference = self.with_number(reg, field)?;
        let at = self.enter_object(reference);
        self.write(Heap::number_cell(at, reference, field), value);
        self.leave_object(reference);
        Ok(())
    }

    fn load(&mut self, dest: u8, reg: u8, field: u8) -> Result<(), Refused> {
        let reference = self.with_reference(reg, field)?;
        self.enter_frame();
        let at = self.enter_object(reference);
        let w0 = self.read(W0);
        let item = self.read(Heap::reference_cell(at, field));
        self.claim(item, w0);
        self.write(Heap::register_at(SEAT, dest), item);
        self.leave_object(reference);
        self.leave_frame();
        Ok(())
    }

    fn store(&mut self, reg: u8, field: u8, from: u8) -> Result<(), Refused> {
        let reference = self.with_reference(reg, field)?;
        let item = self.register(from);
        let at = self.enter_object(reference);
        if item != 0 {
            let w0 = self.read(W0);
            self.claim(item, w0);
        }
        self.write(Heap::reference_cell(at, field), item);
        self.leave_object(reference);
        Ok(())
    }

    fn copy(&mut self, dest: u8, from: u8) -> Result<(), Refused> {
        let item = self.register(from);
        self.enter_frame();
        self.write(Heap::register_at(SEAT, dest), item);
        self.leave_frame();
        Ok(())
    }

    fn clear(&mut self, dest: u8) -> Result<(), Refused> {
        self.write(Heap::register_at(SEAT, dest), 0);
        Ok(())
    }

    fn make(&mut self, dest: u8, shape: Shape) -> Result<(), Refused> {
        if w0_words(self.read(W0)) + shape.words() > ALLOC - RESERVE {
            return Err(Refused::Full);
        }
        self.enter_frame();
        let w0 = self.add(W0, u64::from(shape.words()) + (1 << 24));
        if w0_words(w0) + shape.words() > ALLOC {
            self.leave_frame();
            return Err(Refused::Full);
        }
        let side = (w0_cycle(w0) % 2) as u32;
        let number = self.read(LISTS + side * LIST + w0_objects(w0)) as u32;
        let place = place_at(side, LIVE + w0_words(w0));
        self.write(HEADERS + number, pack_header(place));
        self.write(Heap::register_at(SEAT, dest), pack_reference(number, shape));
        self.leave_frame();
        Ok(())
    }

    fn current_space(&self) -> u32 {
        (self.cycle % 2) as u32
    }

    fn old_space(&self) -> u32 {
        ((self.cycle + 1) % 2) as u32
    }

    /// The new place of the object that is moved.
    fn moved_to(&self) -> u32 {
        place_at(self.current_space(), self.scan)
    }

    fn after_register(seat: u32, reg: u32) -> Line {
        if reg + 1 < REGISTERS {
            Line::RegisterRead { seat, reg: reg + 1 }
        } else {
            Line::FrameTrade { seat }
        }
    }

    fn after_cell(&self, index: u32) -> Line {
        if index + 2 < reference_size(self.item) {
            Line::CellRead { index: index + 1 }
        } else {
            Line::ObjectTrade
        }
    }

    fn after_pass(number: u32) -> Line {
        if number + 1 < NUMBERS {
            Line::Pass { number: number + 1 }
        } else {
            Line::SweepRead { number: 0 }
        }
    }

    /// The next event of the collector.
    fn collect(&mut self) -> Work {
        match self.line {
            Line::Rest => {
                if self.cycle == LAST_CYCLE {
                    return Work::Waits;
                }
                self.swap(W0, pack_w0(0, 0, self.cycle + 1));
                self.line = Line::Frame { seat: 0 };
                self.cycle += 1;
                self.scan = 0;
                self.entries = 0;
                return Work::Flipped;
            }
            Line::Frame { seat } => {
                let frame = self.read(FRAMES + seat);
                if accessors(frame) > 0 {
                    return Work::Waits;
                }
                self.first = frame;
                self.line = Line::RegisterRead { seat, reg: 0 };
            }
            Line::RegisterRead { seat, reg } => {
                self.cell = self.read(Heap::register_at(seat, reg as u8));
                self.line = if self.cell == 0 {
                    Heap::after_register(seat, reg)
                } else {
                    Line::RegisterClaim { seat, reg }
                };
            }
            Line::RegisterClaim { seat, reg } => {
                let mark = self.max(Heap::mark_at(self.cell), self.cycle);
                self.line = if mark < self.cycle {
                    Line::RegisterReserve { seat, reg }
                } else {
                    Heap::after_register(seat, reg)
                };
            }
            Line::RegisterReserve { seat, reg } => {
                self.offset = self.add(W1, u64::from(reference_size(self.cell)));
                self.line = if reserved_fits(self.offset, self.cell) {
                    Line::RegisterTie { seat, reg }
                } else {
                    Heap::after_register(seat, reg)
                };
            }
            Line::RegisterTie { seat, reg } => {
                let place = place_at(self.current_space(), self.offset as u32);
                self.write(Heap::space_at(place), self.cell);
                self.line = Heap::after_register(seat, reg);
            }
            Line::FrameTrade { seat } => {
                let new = with_middle(self.first, self.cycle);
                if self.trade(FRAMES + seat, self.first, new) != self.first {
                    self.line = Line::Frame { seat };
                    return Work::Lost;
                }
                self.line = if seat + 1 < TASKS {
                    Line::Frame { seat: seat + 1 }
                } else {
                    Line::Scan
                };
            }
            Line::Scan => {
                let reserved = self.read(W1);
                if reserved > u64::from(LIVE) {
                    return Work::Waits;
                }
                self.line = if u64::from(self.scan) < reserved {
                    Line::Link
                } else {
                    Line::Pass { number: 0 }
                };
            }
            Line::Link => {
                let link = self.read(Heap::space_at(self.moved_to()));
                if link == 0 {
                    self.line = Line::Scan;
                    return Work::Waits;
                }
                self.item = link;
                self.line = Line::Look;
            }
            Line::Look => {
                let header = self.read(Heap::header_at(self.item));
                if accessors(header) > 0 {
                    return Work::Waits;
                }
                self.first = header;
                self.line = Line::CellRead { index: 0 };
            }
            Line::CellRead { index } => {
                self.cell = self.read(Heap::space_at(header_place(self.first) + 1 + index));
                let is_reference = index < u32::from(reference_refs(self.item)) && self.cell != 0;
                self.line = if is_reference {
                    Line::CellClaim { index }
                } else {
                    Line::CellWrite { index }
                };
            }
            Line::CellClaim { index } => {
                let mark = self.max(Heap::mark_at(self.cell), self.cycle);
                self.line = if mark < self.cycle {
                    Line::CellReserve { index }
                } else {
                    Line::CellWrite { index }
                };
            }
            Line::CellReserve { index } => {
                self.offset = self.add(W1, u64::from(reference_size(self.cell)));
                self.line = if reserved_fits(self.offset, self.cell) {
                    Line::CellTie { index }
                } else {
                    Line::CellWrite { index }
                };
            }
            Line::CellTie { index } => {
                let place = place_at(self.current_space(), self.offset as u32);
                self.write(Heap::space_at(place), self.cell);
                self.line = Line::CellWrite { index };
            }
            Line::CellWrite { index } => {
                self.write(Heap::space_at(self.moved_to() + 1 + index), self.cell);
                self.line = self.after_cell(index);
            }
            Line::ObjectTrade => {
                let new = with_middle(self.first, u64::from(self.moved_to()));
                if self.trade(Heap::header_at(self.item), self.first, new) != self.first {
                    self.line = Line::Look;
                    return Work::Lost;
                }
                self.scan += reference_size(self.item);
                self.line = Line::Scan;
            }
            Line::Pass { number } => {
                self.line = if self.read(MARKS + number) == self.cycle {
                    Line::PassHead { number }
                } else {
                    Heap::after_pass(number)
                };
            }
            Line::PassHead { number } => {
                let place = header_place(self.read(HEADERS + number));
                let first = place_at(self.old_space(), 0);
                if first <= place && place < first + SPACE {
                    self.line = Line::Scan;
                    return Work::Waits;
                }
                self.line = Heap::after_pass(number);
            }
            Line::SweepRead { number } => {
                self.line = if self.read(MARKS + number) < self.cycle {
                    Line::SweepWrite { number }
                } else {
                    Line::SweepRead { number: number + 1 }
                };
            }
            Line::SweepWrite { number } => {
                self.write(
                    LISTS + self.old_space() * LIST + self.entries,
                    u64::from(number),
                );
                self.entries += 1;
                self.line = Line::SweepMark { number };
            }
            Line::SweepMark { number } => {
                self.write(MARKS + number, self.cycle + 1);
                self.line = Line::SweepEmpty { number };
            }
            Line::SweepEmpty { number } => {
                self.write(HEADERS + number, 0);
                self.line = if self.entries < LIST {
                    Line::SweepRead { number: number + 1 }
                } else {
                    Line::Clear { word: 0 }
                };
            }
            Line::Clear { word } => {
                self.write(Heap::space_at(place_at(self.old_space(), word)), 0);
                self.line = if word + 1 < SPACE {
                    Line::Clear { word: word + 1 }
                } else {
                    Line::Reset
                };
            }
            Line::Reset => {
                self.write(W1, 0);
                self.line = Line::Rest;
            }
        }
        Work::Useful
    }
}

/// Numbers drawn one after another from a state.
struct Draws {
    state: u64,
}

impl Draws {
    fn below(&mut self, bound: u64) -> u64 {
        self.state = self
            .state
            .wrapping_mul(6_364_136_223_846_793_005)
            .wrapping_add(1_442_695_040_888_963_407);
        (self.state >> 33) % bound
    }
}

#[derive(Default)]
struct Tally {
    gets: u64,
    puts: u64,
    loads: u64,
    stores: u64,
    moves: u64,
    clears: u64,
    news: u64,
    refused: u64,
    full: u64,
    events: u64,
    flips: u64,
    lost: u64,
    waits: u64,
    digest: u64,
}

impl Tally {
    fn read(&mut self, number: u64) {
        self.digest = (self.digest ^ number).wrapping_mul(1_099_511_628_211);
    }

    fn collected(&mut self, work: Work) {
        self.events += 1;
        match work {
            Work::Useful => {}
            Work::Flipped => self.flips += 1,
            Work::Lost => self.lost += 1,
            Work::Waits => self.waits += 1,
        }
    }

    /// Counts a call that was refused.
    fn ended<T>(&mut self, end: Result<T, Refused>) -> Option<T> {
        match end {
            Ok(reply) => Some(reply),
            Err(Refused::Full) => {
                self.full += 1;
                None
            }
            Err(Refused::Begin) => {
                self.refused += 1;
                None
            }
        }
    }
}

const LINK: Shape = Shape { refs: 2, nums: 2 };
const SMALL: Shape = Shape { refs: 0, nums: 2 };
const LARGE: Shape = Shape { refs: 0, nums: 6 };

const CHAINS: u8 = 8;
const LINKS: u8 = 6;

/// The events that the collector owes for a word of a new object.
const RATE: u32 = 11;

const BOARD: u8 = 0;
const CURSOR: u8 = 1;
const LEAF: u8 = 2;
const MARK: u8 = 3;
const FRESH: u8 = 4;
const NEXT: u8 = 5;
const BEYOND: u8 = 6;

const NEXT_FIELD: u8 = 0;
const LEAF_FIELD: u8 = 1;

struct Mixture {
    heap: Heap,
    draws: Draws,
    tally: Tally,
}

impl Mixture {
    fn build(&mut self) {
        for chain in 0..CHAINS {
            for place in 0..LINKS {
                let leaf = if place % 2 == 0 { SMALL } else { LARGE };
                self.make(FRESH, LINK);
                self.load(NEXT, BOARD, chain);
                self.store(FRESH, NEXT_FIELD, NEXT);
                self.make(LEAF, leaf);
                self.put(LEAF, 0, u64::from(place));
                self.store(FRESH, LEAF_FIELD, LEAF);
                self.put(FRESH, 0, u64::from(chain));
                self.store(BOARD, chain, FRESH);
            }
        }
        self.clear(LEAF);
        self.clear(FRESH);
        self.clear(NEXT);
        self.load(CURSOR, BOARD, 0);
    }

    fn round(&mut self) {
        match self.draws.below(100) {
            0..40 => self.read_number(),
            40..55 => self.write_number(),
            55..80 => self.walk(),
            80..85 => self.read_leaf(),
            85..89 => self.copy(MARK, CURSOR),
            89..92 => self.go_back(),
            92..98 => self.make_leaf(),
            _ => self.copy_link(),
        }
    }

    fn read_number(&mut self) {
        let field = self.draws.below(2) as u8;
        self.get(CURSOR, field);
    }

    fn write_number(&mut self) {
        let field = self.draws.below(2) as u8;
        let value = self.draws.below(1000);
        self.put(CURSOR, field, value);
    }

    fn walk(&mut self) {
        self.load(CURSOR, CURSOR, NEXT_FIELD);
        if self.heap.is_null(CURSOR) {
            let chain = self.draws.below(u64::from(CHAINS)) as u8;
            self.load(CURSOR, BOARD, chain);
        }
    }

    fn read_leaf(&mut self) {
        let field = self.draws.below(2) as u8;
        self.load(LEAF, CURSOR, LEAF_FIELD);
        self.get(LEAF, field);
    }

    fn go_back(&mut self) {
        if !self.heap.is_null(MARK) {
            self.copy(CURSOR, MARK);
            self.clear(MARK);
        }
    }

    fn make_leaf(&mut self) {
        let leaf = if self.draws.below(2) == 0 {
            SMALL
        } else {
            LARGE
        };
        let value = self.draws.below(1000);
        self.make(LEAF, leaf);
        self.put(LEAF, 0, value);
        self.store(CURSOR, LEAF_FIELD, LEAF);
        self.clear(LEAF);
    }

    fn copy_link(&mut self) {
        self.load(NEXT, CURSOR, NEXT_FIELD);
        if self.heap.is_null(NEXT) {
            return;
        }
        self.make(FRESH, LINK);
        let number = self.get(NEXT, 0);
        self.put(FRESH, 0, number);
        self.load(BEYOND, NEXT, LEAF_FIELD);
        self.store(FRESH, LEAF_FIELD, BEYOND);
        self.load(BEYOND, NEXT, NEXT_FIELD);
        self.store(FRESH, NEXT_FIELD, BEYOND);
        self.store(CURSOR, NEXT_FIELD, FRESH);
        self.clear(FRESH);
        self.clear(NEXT);
        self.clear(BEYOND);
    }

    fn get(&mut self, reg: u8, field: u8) -> u64 {
        self.tally.gets += 1;
        let end = self.heap.get(reg, field);
        match self.tally.ended(end) {
            Some(number) => {
                self.tally.read(number);
                number
            }
            None => 0,
        }
    }

    fn put(&mut self, reg: u8, field: u8, value: u64) {
        self.tally.puts += 1;
        let end = self.heap.put(reg, field, value);
        self.tally.ended(end);
    }

    fn load(&mut self, dest: u8, reg: u8, field: u8) {
        self.tally.loads += 1;
        let end = self.heap.load(dest, reg, field);
        self.tally.ended(end);
    }

    fn store(&mut self, reg: u8, field: u8, from: u8) {
        self.tally.stores += 1;
        let end = self.heap.store(reg, field, from);
        self.tally.ended(end);
    }

    fn copy(&mut self, dest: u8, from: u8) {
        self.tally.moves += 1;
        let end = self.heap.copy(dest, from);
        self.tally.ended(end);
    }

    fn clear(&mut self, dest: u8) {
        self.tally.clears += 1;
        let end = self.heap.clear(dest);
        self.tally.ended(end);
    }

    fn make(&mut self, dest: u8, shape: Shape) {
        self.tally.news += 1;
        let end = self.heap.make(dest, shape);
        if self.tally.ended(end).is_some() {
            for _event in 0..RATE * shape.words() {
                let work = self.heap.collect();
                self.tally.collected(work);
            }
        }
    }
}

fn main() {
    let Some(Ok(rounds)) = std::env::args().nth(1).map(|word| word.parse::<u64>()) else {
        eprintln!("heap ROUNDS");
        std::process::exit(1);
    };
    let mut mixture = Mixture {
        heap: Heap::open(),
        draws: Draws { state: 1 },
        tally: Tally::default(),
    };
    mixture.build();
    for _round in 0..rounds {
        mixture.round();
    }
    let tally = &mixture.tally;
    println!("rounds {rounds}");
    println!(
        "get {} put {} load {} store {} move {} clear {} new {}",
        tally.gets, tally.puts, tally.loads, tally.stores, tally.moves, tally.clears, tally.news
    );
    println!("refused {} full {}", tally.refused, tally.full);
    println!(
        "collector {} flips {} lost {} waits {}",
        tally.events, tally.flips, tally.lost, tally.waits
    );
    println!("digest {}", tally.digest);
}
