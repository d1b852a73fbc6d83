//! Sessions on the collected heap in plain Rust: the five rules, the heap's operations place by place and the collector event by
//! event, over the same words as the proved program, with no contracts and no proof. It reads a sheet of version 1 from standard
//! input (the plain form that the sheets of this repository have, and takes it to be right and admitted), and writes the lines of
//! `henri run` that follow the analysis.

use std::fmt::Write as _;
use std::io::{Read, Write};

const W0: u32 = 0;
const W1: u32 = 1;

const ENTER: u64 = (1 << 28) + 1;
const LEAVE: u64 = 1;
const LAST_CYCLE: u64 = (1 << 20) - 1;

const VARIABLES: usize = 8;

#[derive(Clone, Copy)]
struct Shape {
    refs: u8,
    nums: u8,
}

impl Shape {
    fn words(self) -> u32 {
        1 + u32::from(self.refs) + u32::from(self.nums)
    }
}

fn pack_reference(number: u32, shape: Shape) -> u64 {
    u64::from(number + 1) | u64::from(shape.refs) << 20 | u64::from(shape.nums) << 28
}

fn reference_number(word: u64) -> u32 {
    (word & 0xf_ffff) as u32 - 1
}

fn reference_refs(word: u64) -> u8 {
    (word >> 20) as u8
}

fn reference_nums(word: u64) -> u8 {
    (word >> 28) as u8
}

fn reference_size(word: u64) -> u32 {
    1 + u32::from(reference_refs(word)) + u32::from(reference_nums(word))
}

fn pack_header(place: u32) -> u64 {
    u64::from(place) << 6
}

/// The calls that are inside the object of a header, or inside a frame.
fn accessors(word: u64) -> u64 {
    word & 0x3f
}

fn header_place(word: u64) -> u32 {
    (word >> 6) as u32 & 0x3f_ffff
}

/// A header with another place, or a frame word with another cycle.
fn with_middle(word: u64, middle: u64) -> u64 {
    word & !(0x3f_ffff << 6) | middle << 6
}

fn pack_w0(words: u32, objects: u32, cycle: u64) -> u64 {
    u64::from(words) | u64::from(objects) << 24 | cycle << 44
}

fn w0_words(word: u64) -> u32 {
    word as u32 & 0xff_ffff
}

fn w0_objects(word: u64) -> u32 {
    (word >> 24) as u32 & 0xf_ffff
}

fn w0_cycle(word: u64) -> u64 {
    word >> 44
}

/// Where the words of a heap stand in its row.
#[derive(Clone, Copy)]
struct Layout {
    live: u32,
    alloc: u32,
    reserve: u32,
    high: u32,
    tasks: u32,
    registers: u32,
    numbers: u32,
    list: u32,
    space: u32,
    headers: u32,
    marks: u32,
    frames: u32,
    registers_from: u32,
    lists: u32,
    spaces: u32,
}

impl Layout {
    fn new(sheet: &Sheet) -> Layout {
        let (live, alloc) = (sheet.live, sheet.alloc);
        let high = sheet.tasks.iter().filter(|task| task.high).count() as u32;
        let (tasks, registers) = (sheet.tasks.len() as u32, 8);
        let (numbers, list, space) = (live / 2 + alloc, alloc / 2, live + alloc);
        let headers = 2;
        let marks = headers + numbers;
        let frames = marks + numbers;
        let registers_from = frames + tasks;
        let lists = registers_from + registers * tasks;
        let spaces = lists + 2 * list;
        Layout {
            live,
            alloc,
            reserve: sheet.reserve,
            high,
            tasks,
            registers,
            numbers,
            list,
            space,
            headers,
            marks,
            frames,
            registers_from,
            lists,
            spaces,
        }
    }

    fn words(self) -> u32 {
        self.spaces + 2 * self.space
    }

    fn place_at(self, space: u32, word: u32) -> u32 {
        1 + space * self.space + word
    }

    fn reserved_fits(self, offset: u64, reference: u64) -> bool {
        offset + u64::from(reference_size(reference)) <= u64::from(self.live)
    }

    fn register_at(self, seat: u32, reg: u32) -> u32 {
        self.registers_from + seat * self.registers + reg
    }

    fn header_at(self, reference: u64) -> u32 {
        self.headers + reference_number(reference)
    }

    fn mark_at(self, reference: u64) -> u32 {
        self.marks + reference_number(reference)
    }

    fn space_at(self, place: u32) -> u32 {
        self.spaces + (place - 1)
    }
}

/// An operation on the heap.
#[derive(Clone, Copy)]
enum Call {
    Get { reg: u32, field: u32 },
    Put { reg: u32, field: u32, value: u64 },
    Load { dest: u32, reg: u32, field: u32 },
    Store { reg: u32, field: u32, from: u32 },
    Move { dest: u32, from: u32 },
    Clear { dest: u32 },
    New { dest: u32, shape: Shape },
}

/// An operation in mid-course: its next place, and what it has read.
#[derive(Clone, Copy)]
struct Flight {
    place: u8,
    entered: u64,
    at: u32,
    w0: u64,
    item: u64,
    claimer: bool,
    offset: u64,
    number: u32,
}

const IDLE: Flight = Flight {
    place: 0,
    entered: 0,
    at: 0,
    w0: 0,
    item: 0,
    claimer: false,
    offset: 0,
    number: 0,
};

#[derive(Clone, Copy)]
enum Fault {
    Nil,
    Field,
}

impl Fault {
    fn name(self) -> &'static str {
        match self {
            Fault::Nil => "nil",
            Fault::Field => "field",
        }
    }
}

/// How a place leaves an operation. The word is what a Get read, and 0 of another.
enum Left {
    Going,
    Done(u64),
}

#[derive(Clone, Copy)]
enum Line {
    Rest,
    Frame { seat: u32 },
    RegisterRead { seat: u32, reg: u32 },
    RegisterClaim { seat: u32, reg: u32 },
    RegisterReserve { seat: u32, reg: u32 },
    RegisterTie { seat: u32, reg: u32 },
    FrameTrade { seat: u32 },
    Scan,
    Link,
    Look,
    CellRead { index: u32 },
    CellClaim { index: u32 },
    CellReserve { index: u32 },
    CellTie { index: u32 },
    CellWrite { index: u32 },
    ObjectTrade,
    Pass { number: u32 },
    PassHead { number: u32 },
    SweepRead { number: u32 },
    SweepWrite { number: u32 },
    SweepMark { number: u32 },
    SweepEmpty { number: u32 },
    Clear { word: u32 },
    Reset,
}

/// What an event of the collector did.
enum Work {
    Useful,
    Flipped,
    Lost(u64),
    LiveOver(u64),
    Waits,
}

struct Heap {
    layout: Layout,
    row: Vec<u64>,
    flights: Vec<Flight>,
    line: Line,
    cycle: u64,
    scan: u32,
    entries: u32,
    first: u64,
    item: u64,
    cell: u64,
    offset: u64,
    /// The events of the open attempt.
    spent: u64,
}

impl Heap {
    fn open(layout: Layout, board: Shape) -> Heap {
        let mut row = vec![0; layout.words() as usize];
        row[W0 as usize] = pack_w0(0, 0, 1);
        row[layout.headers as usize] = pack_header(layout.place_at(1, 0));
        for number in 0..layout.numbers {
            row[(layout.marks + number) as usize] = match number {
                _ if number < layout.list + 1 => 1,
                _ if number < 2 * layout.list + 1 => 2,
                _ => 0,
            };
        }
        for seat in 0..layout.tasks {
            row[layout.register_at(seat, 0) as usize] = pack_reference(0, board);
        }
        for entry in 0..layout.list {
            row[(layout.lists + layout.list + entry) as usize] = u64::from(entry + 1);
            row[(layout.lists + entry) as usize] = u64::from(layout.list + entry + 1);
        }
        Heap {
            layout,
            row,
            flights: vec![IDLE; layout.tasks as usize],
            line: Line::Rest,
            cycle: 1,
            scan: 0,
            entries: 0,
            first: 0,
            item: 0,
            cell: 0,
            offset: 0,
            spent: 0,
        }
    }

    fn read(&self, index: u32) -> u64 {
        self.row[index as usize]
    }

    fn write(&mut self, index: u32, word: u64) {
        self.row[index as usize] = word;
    }

    fn add(&mut self, index: u32, amount: u64) -> u64 {
        let word = &mut self.row[index as usize];
        let old = *word;
        *word = old + amount;
        old
    }

    fn sub(&mut self, index: u32, amount: u64) {
        self.row[index as usize] -= amount;
    }

    fn max(&mut self, index: u32, least: u64) -> u64 {
        let word = &mut self.row[index as usize];
        let old = *word;
        *word = old.max(least);
        old
    }

    fn swap(&mut self, index: u32, new: u64) -> u64 {
        std::mem::replace(&mut self.row[index as usize], new)
    }

    /// Writes the new word where the word is the current one; what the word was.
    fn trade(&mut self, index: u32, current: u64, new: u64) -> u64 {
        let word = &mut self.row[index as usize];
        let old = *word;
        if old == current {
            *word = new;
        }
        old
    }

    fn register(&self, seat: u32, reg: u32) -> u64 {
        self.read(self.layout.register_at(seat, reg))
    }

    fn set_register(&mut self, seat: u32, reg: u32, word: u64) {
        self.write(self.layout.register_at(seat, reg), word);
    }

    fn enter_object(&mut self, reference: u64) -> u32 {
        header_place(self.add(self.layout.header_at(reference), ENTER))
    }

    fn leave_object(&mut self, reference: u64) {
        self.sub(self.layout.header_at(reference), LEAVE);
    }

    fn enter_frame(&mut self, seat: u32) {
        self.add(self.layout.frames + seat, ENTER);
    }

    fn leave_frame(&mut self, seat: u32) {
        self.sub(self.layout.frames + seat, LEAVE);
    }

    fn number_cell(&self, flight: &Flight, field: u32) -> u32 {
        self.layout
            .space_at(flight.at + 1 + u32::from(reference_refs(flight.entered)) + field)
    }

    fn reference_cell(&self, flight: &Flight, field: u32) -> u32 {
        self.layout.space_at(flight.at + 1 + field)
    }

    /// Begins an operation, or says why it can't be begun.
    fn begin(&mut self, seat: u32, call: Call) -> Result<(), Fault> {
        let mut flight = Flight { place: 1, ..IDLE };
        match call {
            Call::Get { reg, field } | Call::Put { reg, field, .. } => {
                flight.entered = self.register(seat, reg);
                if flight.entered == 0 {
                    return Err(Fault::Nil);
                }
                if field >= u32::from(reference_nums(flight.entered)) {
                    return Err(Fault::Field);
                }
            }
            Call::Load { reg, field, .. } | Call::Store { reg, field, .. } => {
                flight.entered = self.register(seat, reg);
                if flight.entered == 0 {
                    return Err(Fault::Nil);
                }
                if field >= u32::from(reference_refs(flight.entered)) {
                    return Err(Fault::Field);
                }
                if let Call::Store { from, .. } = call {
                    flight.item = self.register(seat, from);
                }
            }
            Call::Move { from, .. } => flight.item = self.register(seat, from),
            Call::Clear { .. } | Call::New { .. } => {}
        }
        self.flights[seat as usize] = flight;
        Ok(())
    }

    /// The place of a Load or a Store that claims the object, reserves for it, or links it, counted from 0.
    fn settle(&mut self, flight: &mut Flight, place: u8) {
        if flight.item == 0 {
            return;
        }
        let cycle = w0_cycle(flight.w0);
        match place {
            0 => flight.claimer = self.max(self.layout.mark_at(flight.item), cycle) < cycle,
            1 if flight.claimer => {
                flight.offset = self.add(W1, u64::from(reference_size(flight.item)));
            }
            2 if flight.claimer && self.layout.reserved_fits(flight.offset, flight.item) => {
                let place = self
                    .layout
                    .place_at((cycle % 2) as u32, flight.offset as u32);
                self.write(self.layout.space_at(place), flight.item);
            }
            _ => {}
        }
    }

    /// Does the next place of an operation.
    fn step(&mut self, seat: u32, call: Call) -> Left {
        let mut flight = self.flights[seat as usize];
        let left = self.place(seat, call, &mut flight);
        match left {
            Left::Going => flight.place += 1,
            Left::Done(_) => flight.place = 0,
        }
        self.flights[seat as usize] = flight;
        left
    }

    fn place(&mut self, seat: u32, call: Call, flight: &mut Flight) -> Left {
        match (call, flight.place) {
            (Call::Get { .. } | Call::Put { .. }, 1) => {
                flight.at = self.enter_object(flight.entered)
            }
            (Call::Get { field, .. }, 2) => {
                flight.item = self.read(self.number_cell(flight, field))
            }
            (Call::Put { field, value, .. }, 2) => {
                self.write(self.number_cell(flight, field), value)
            }
            (Call::Get { .. } | Call::Put { .. }, _) => {
                self.leave_object(flight.entered);
                return Left::Done(flight.item);
            }

            (Call::Load { .. }, 1) => self.enter_frame(seat),
            (Call::Load { .. }, 2) => flight.at = self.enter_object(flight.entered),
            (Call::Load { .. }, 3) => flight.w0 = self.read(W0),
            (Call::Load { field, .. }, 4) => {
                flight.item = self.read(self.reference_cell(flight, field))
            }
            (Call::Load { .. }, place @ 5..8) => self.settle(flight, place - 5),
            (Call::Load { dest, .. }, 8) => self.set_register(seat, dest, flight.item),
            (Call::Load { .. }, 9) => self.leave_object(flight.entered),
            (Call::Load { .. }, _) => {
                self.leave_frame(seat);
                return Left::Done(0);
            }

            (Call::Store { .. }, 1) => flight.at = self.enter_object(flight.entered),
            (Call::Store { .. }, 2) => flight.w0 = self.read(W0),
            (Call::Store { .. }, place @ 3..6) => self.settle(flight, place - 3),
            (Call::Store { field, .. }, 6) => {
                self.write(self.reference_cell(flight, field), flight.item)
            }
            (Call::Store { .. }, _) => {
                self.leave_object(flight.entered);
                return Left::Done(0);
            }

            (Call::Move { .. }, 1) => self.enter_frame(seat),
            (Call::Move { dest, .. }, 2) => self.set_register(seat, dest, flight.item),
            (Call::Move { .. }, _) => {
                self.leave_frame(seat);
                return Left::Done(0);
            }

            (Call::Clear { dest }, _) => {
                self.set_register(seat, dest, 0);
                return Left::Done(0);
            }

            (Call::New { shape, .. }, 1) => {
                let least = if seat < self.layout.high {
                    0
                } else {
                    self.layout.reserve
                };
                let used = w0_words(self.read(W0)) + shape.words();
                assert!(
                    used + least <= self.layout.alloc,
                    "no room at the first place"
                );
            }
            (Call::New { .. }, 2) => self.enter_frame(seat),
            (Call::New { shape, .. }, 3) => {
                flight.w0 = self.add(W0, u64::from(shape.words()) + (1 << 24));
                let used = w0_words(flight.w0) + shape.words();
                assert!(used <= self.layout.alloc, "no room at the third place");
            }
            (Call::New { .. }, 4) => {
                let side = (w0_cycle(flight.w0) % 2) as u32;
                let entry = self.layout.lists + side * self.layout.list + w0_objects(flight.w0);
                flight.number = self.read(entry) as u32;
            }
            (Call::New { .. }, 5) => {
                let side = (w0_cycle(flight.w0) % 2) as u32;
                let place = self
                    .layout
                    .place_at(side, self.layout.live + w0_words(flight.w0));
                self.write(self.layout.headers + flight.number, pack_header(place));
            }
            (Call::New { dest, shape }, 6) => {
                self.set_register(seat, dest, pack_reference(flight.number, shape));
            }
            (Call::New { .. }, _) => {
                self.leave_frame(seat);
                return Left::Done(0);
            }
        }
        Left::Going
    }

    fn current_space(&self) -> u32 {
        (self.cycle % 2) as u32
    }

    fn old_space(&self) -> u32 {
        ((self.cycle + 1) % 2) as u32
    }

    /// The new place of the object that is moved.
    fn moved_to(&self) -> u32 {
        self.layout.place_at(self.current_space(), self.scan)
    }

    fn after_register(&self, seat: u32, reg: u32) -> Line {
        if reg + 1 < self.layout.registers {
            Line::RegisterRead { seat, reg: reg + 1 }
        } else {
            Line::FrameTrade { seat }
        }
    }

    fn after_cell(&self, index: u32) -> Line {
        if index + 2 < reference_size(self.item) {
            Line::CellRead { index: index + 1 }
        } else {
            Line::ObjectTrade
        }
    }

    fn after_pass(&self, number: u32) -> Line {
        if number + 1 < self.layout.numbers {
            Line::Pass { number: number + 1 }
        } else {
            Line::SweepRead { number: 0 }
        }
    }

    /// The next event of the collector.
    fn collect(&mut self) -> Work {
        self.spent += 1;
        match self.line {
            Line::Rest => {
                if self.cycle == LAST_CYCLE {
                    return Work::Waits;
                }
                self.swap(W0, pack_w0(0, 0, self.cycle + 1));
                self.line = Line::Frame { seat: 0 };
                self.cycle += 1;
                self.scan = 0;
                self.entries = 0;
                return Work::Flipped;
            }
            Line::Frame { seat } => {
                let frame = self.read(self.layout.frames + seat);
                if accessors(frame) > 0 {
                    return Work::Waits;
                }
                self.first = frame;
                self.spent = 1;
                self.line = Line::RegisterRead { seat, reg: 0 };
            }
            Line::RegisterRead { seat, reg } => {
                self.cell = self.read(self.layout.register_at(seat, reg));
                self.line = if self.cell == 0 {
                    self.after_register(seat, reg)
                } else {
                    Line::RegisterClaim { seat, reg }
                };
            }
            Line::RegisterClaim { seat, reg } => {
                let mark = self.max(self.layout.mark_at(self.cell), self.cycle);
                self.line = if mark < self.cycle {
                    Line::RegisterReserve { seat, reg }
                } else {
                    self.after_register(seat, reg)
                };
            }
            Line::RegisterReserve { seat, reg } => {
                self.offset = self.add(W1, u64::from(reference_size(self.cell)));
                self.line = if self.layout.reserved_fits(self.offset, self.cell) {
                    Line::RegisterTie { seat, reg }
                } else {
                    self.after_register(seat, reg)
                };
            }
            Line::RegisterTie { seat, reg } => {
                let place = self
                    .layout
                    .place_at(self.current_space(), self.offset as u32);
                self.write(self.layout.space_at(place), self.cell);
                self.line = self.after_register(seat, reg);
            }
            Line::FrameTrade { seat } => {
                let new = with_middle(self.first, self.cycle);
                if self.trade(self.layout.frames + seat, self.first, new) != self.first {
                    self.line = Line::Frame { seat };
                    return Work::Lost(self.spent);
                }
                self.line = if seat + 1 < self.layout.tasks {
                    Line::Frame { seat: seat + 1 }
                } else {
                    Line::Scan
                };
            }
            Line::Scan => {
                let reserved = self.read(W1);
                if reserved > u64::from(self.layout.live) {
                    return Work::LiveOver(reserved);
                }
                self.line = if u64::from(self.scan) < reserved {
                    Line::Link
                } else {
                    Line::Pass { number: 0 }
                };
            }
            Line::Link => {
                let link = self.read(self.layout.space_at(self.moved_to()));
                if link == 0 {
                    self.line = Line::Scan;
                    return Work::Waits;
                }
                self.item = link;
                self.line = Line::Look;
            }
            Line::Look => {
                let header = self.read(self.layout.header_at(self.item));
                if accessors(header) > 0 {
                    return Work::Waits;
                }
                self.first = header;
                self.spent = 1;
                self.line = Line::CellRead { index: 0 };
            }
            Line::CellRead { index } => {
                self.cell = self.read(self.layout.space_at(header_place(self.first) + 1 + index));
                let is_reference = index < u32::from(reference_refs(self.item)) && self.cell != 0;
                self.line = if is_reference {
                    Line::CellClaim { index }
                } else {
                    Line::CellWrite { index }
                };
            }
            Line::CellClaim { index } => {
                let mark = self.max(self.layout.mark_at(self.cell), self.cycle);
                self.line = if mark < self.cycle {
                    Line::CellReserve { index }
                } else {
                    Line::CellWrite { index }
                };
            }
            Line::CellReserve { index } => {
                self.offset = self.add(W1, u64::from(reference_size(self.cell)));
                self.line = if self.layout.reserved_fits(self.offset, self.cell) {
                    Line::CellTie { index }
                } else {
                    Line::CellWrite { index }
                };
            }
            Line::CellTie { index } => {
                let place = self
                    .layout
                    .place_at(self.current_space(), self.offset as u32);
                self.write(self.layout.space_at(place), self.cell);
                self.line = Line::CellWrite { index };
            }
            Line::CellWrite { index } => {
                self.write(self.layout.space_at(self.moved_to() + 1 + index), self.cell);
                self.line = self.after_cell(index);
            }
            Line::ObjectTrade => {
                let new = with_middle(self.first, u64::from(self.moved_to()));
                if self.trade(self.layout.header_at(self.item), self.first, new) != self.first {
                    self.line = Line::Look;
                    return Work::Lost(self.spent);
                }
                self.scan += reference_size(self.item);
                self.line = Line::Scan;
            }
            Line::Pass { number } => {
                self.line = if self.read(self.layout.marks + number) == self.cycle {
                    Line::PassHead { number }
                } else {
                    self.after_pass(number)
                };
            }
            Line::PassHead { number } => {
                let place = header_place(self.read(self.layout.headers + number));
                let first = self.layout.place_at(self.old_space(), 0);
                if first <= place && place < first + self.layout.space {
                    self.line = Line::Scan;
                    return Work::Waits;
                }
                self.line = self.after_pass(number);
            }
            Line::SweepRead { number } => {
                self.line = if self.read(self.layout.marks + number) < self.cycle {
                    Line::SweepWrite { number }
                } else {
                    Line::SweepRead { number: number + 1 }
                };
            }
            Line::SweepWrite { number } => {
                self.write(
                    self.layout.lists + self.old_space() * self.layout.list + self.entries,
                    u64::from(number),
                );
                self.entries += 1;
                self.line = Line::SweepMark { number };
            }
            Line::SweepMark { number } => {
                self.write(self.layout.marks + number, self.cycle + 1);
                self.line = Line::SweepEmpty { number };
            }
            Line::SweepEmpty { number } => {
                self.write(self.layout.headers + number, 0);
                self.line = if self.entries < self.layout.list {
                    Line::SweepRead { number: number + 1 }
                } else {
                    Line::Clear { word: 0 }
                };
            }
            Line::Clear { word } => {
                self.write(
                    self.layout
                        .space_at(self.layout.place_at(self.old_space(), word)),
                    0,
                );
                self.line = if word + 1 < self.layout.space {
                    Line::Clear { word: word + 1 }
                } else {
                    Line::Reset
                };
            }
            Line::Reset => {
                self.write(W1, 0);
                self.line = Line::Rest;
            }
        }
        Work::Useful
    }
}

/// A statement of a script. Where a block goes on stands beside its beginning.
#[derive(Clone, Copy)]
enum Statement {
    Work(u64),
    Set(usize, u64),
    Copy(usize, usize),
    Add(usize, usize),
    Sub(usize, usize),
    Job(usize),
    Out(usize),
    Get { var: usize, reg: u32, field: u32 },
    Put { reg: u32, field: u32, var: usize },
    Call(Call),
    IfLess(usize, usize),
    IfEqual(usize, usize),
    IfNull(u32),
    IfSame(u32, u32),
    Repeat(u32),
    Else,
    End,
}

/// A statement with the places to go on at: after it or where its test holds, and where the test fails.
#[derive(Clone, Copy)]
struct Step {
    statement: Statement,
    next: usize,
    other: usize,
}

fn number<T: std::str::FromStr>(word: &str) -> T {
    word.parse().ok().expect("a number")
}

/// The number in the name of a variable or a register.
fn index<T: std::str::FromStr>(word: &str) -> T {
    number(&word[1..])
}

fn statement(words: &[&str]) -> Statement {
    match *words {
        ["work", ticks] => Statement::Work(number(ticks)),
        ["set", var, value] => Statement::Set(index(var), number(value)),
        ["copy", to, from] => Statement::Copy(index(to), index(from)),
        ["add", to, from] => Statement::Add(index(to), index(from)),
        ["sub", to, from] => Statement::Sub(index(to), index(from)),
        ["job", var] => Statement::Job(index(var)),
        ["out", var] => Statement::Out(index(var)),
        ["get", var, reg, field] => Statement::Get {
            var: index(var),
            reg: index(reg),
            field: number(field),
        },
        ["put", reg, field, var] => Statement::Put {
            reg: index(reg),
            field: number(field),
            var: index(var),
        },
        ["load", dest, reg, field] => Statement::Call(Call::Load {
            dest: index(dest),
            reg: index(reg),
            field: number(field),
        }),
        ["store", reg, field, from] => Statement::Call(Call::Store {
            reg: index(reg),
            field: number(field),
            from: index(from),
        }),
        ["move", dest, from] => Statement::Call(Call::Move {
            dest: index(dest),
            from: index(from),
        }),
        ["clear", dest] => Statement::Call(Call::Clear { dest: index(dest) }),
        ["new", dest, refs, nums] => Statement::Call(Call::New {
            dest: index(dest),
            shape: Shape {
                refs: number(refs),
                nums: number(nums),
            },
        }),
        ["if", first, "<", second] => Statement::IfLess(index(first), index(second)),
        ["if", first, "=", second] => Statement::IfEqual(index(first), index(second)),
        ["if", "null", reg] => Statement::IfNull(index(reg)),
        ["if", "same", first, second] => Statement::IfSame(index(first), index(second)),
        ["repeat", turns] => Statement::Repeat(number(turns)),
        ["else"] => Statement::Else,
        ["end"] => Statement::End,
        _ => panic!("a statement: {words:?}"),
    }
}

/// A script with the places at which each statement goes on: past `else` and `end`, which take no tick.
fn script(text: &str) -> Vec<Step> {
    let statements: Vec<Statement> = text
        .lines()
        .map(|line| line.split('#').next().unwrap_or(""))
        .map(|line| line.split_whitespace().collect::<Vec<_>>())
        .filter(|words| !words.is_empty())
        .map(|words| statement(&words))
        .collect();
    // Where each statement leads without a tick: an `end` of a repeat to its beginning, an `else` behind its block.
    let count = statements.len();
    let mut leads: Vec<usize> = (0..=count).collect();
    let mut others = vec![0; count];
    let mut open = Vec::new();
    for (at, statement) in statements.iter().enumerate() {
        match statement {
            Statement::IfLess(..)
            | Statement::IfEqual(..)
            | Statement::IfNull(_)
            | Statement::IfSame(..)
            | Statement::Repeat(_) => open.push((at, None)),
            Statement::Else => open.last_mut().expect("an open block").1 = Some(at),
            Statement::End => {
                let (block, middle) = open.pop().expect("an open block");
                let repeats = matches!(statements[block], Statement::Repeat(_));
                leads[at] = if repeats { block } else { at + 1 };
                others[block] = middle.map_or(at, |middle| middle) + 1;
                if let Some(middle) = middle {
                    leads[middle] = at + 1;
                }
            }
            _ => {}
        }
    }
    let settle = |mut at: usize| {
        while leads[at] != at {
            at = leads[at];
        }
        at
    };
    statements
        .iter()
        .enumerate()
        .map(|(at, &statement)| Step {
            statement,
            next: settle(at + 1),
            other: settle(others[at]),
        })
        .collect()
}

enum Arrivals {
    List(Vec<u64>),
    Every { first: u64, every: u64 },
}

struct Task {
    name: String,
    high: bool,
    jitter: u64,
    lag: u64,
    arrivals: Arrivals,
    script: Vec<Step>,
    /// The job that is under way or comes next, when it arrives, and when it is ready: never, where there is none.
    job: u64,
    arrival: u64,
    ready: u64,
    at: usize,
    /// The ticks that it has had of the statement that it is at.
    spent: u64,
    variables: [u64; VARIABLES],
    /// The turns that are left of each repeat that is under way.
    turns: Vec<Option<u32>>,
    latest: u64,
}

impl Task {
    fn start(&mut self, job: u64) {
        self.job = job;
        let arrival = match &self.arrivals {
            Arrivals::List(list) => list.get(job as usize).copied(),
            Arrivals::Every { first, every } => Some(first + job * every),
        };
        self.arrival = arrival.unwrap_or(u64::MAX);
        self.ready = match arrival {
            Some(arrival) => arrival + job * self.lag % (self.jitter + 1),
            None => u64::MAX,
        };
        self.at = 0;
        self.spent = 0;
        self.variables = [0; VARIABLES];
        self.turns.fill(None);
    }
}

struct Sheet {
    ticks: u64,
    live: u32,
    alloc: u32,
    reserve: u32,
    rate: u64,
    board: Shape,
    tasks: Vec<Task>,
}

/// The numbers in a text, parted by what is no digit.
fn numbers(text: &str) -> Vec<u64> {
    text.split(|c: char| !c.is_ascii_digit())
        .filter(|word| !word.is_empty())
        .map(number)
        .collect()
}

/// The number that follows a key in the table of the heap.
fn heap_key(line: &str, key: &str) -> u64 {
    let rest = line
        .split(&format!("{key} = "))
        .nth(1)
        .expect("a key of the heap");
    numbers(rest)[0]
}

/// Reads a sheet of the plain form: one key a line, the heap as an inline table, and scripts of one line or of several.
fn read(text: &str) -> Sheet {
    let mut sheet = Sheet {
        ticks: 0,
        live: 0,
        alloc: 0,
        reserve: 0,
        rate: 0,
        board: Shape { refs: 0, nums: 0 },
        tasks: Vec::new(),
    };
    let mut lines = text.lines();
    while let Some(line) = lines.next() {
        let (key, value) = match line.split_once(" = ") {
            Some((key, value)) => (key, value),
            None => (line, ""),
        };
        if let "[[high]]" | "[[low]]" = key {
            sheet.tasks.push(Task {
                name: String::new(),
                high: key == "[[high]]",
                jitter: 0,
                lag: 0,
                arrivals: Arrivals::Every { first: 0, every: 0 },
                script: Vec::new(),
                job: 0,
                arrival: 0,
                ready: 0,
                at: 0,
                spent: 0,
                variables: [0; VARIABLES],
                turns: Vec::new(),
                latest: 0,
            });
            continue;
        }
        if key == "ticks" {
            sheet.ticks = number(value);
        }
        if key == "heap" {
            sheet.live = heap_key(line, "live") as u32;
            sheet.alloc = heap_key(line, "alloc") as u32;
            sheet.reserve = heap_key(line, "reserve") as u32;
            sheet.rate = heap_key(line, "rate");
            let board = line.split("board = ").nth(1).map_or(Vec::new(), numbers);
            sheet.board = Shape {
                refs: board[0] as u8,
                nums: board[1] as u8,
            };
        }
        let Some(task) = sheet.tasks.last_mut() else {
            continue;
        };
        match key {
            "name" => task.name = value.trim_matches('"').to_string(),
            "jitter" => task.jitter = number(value),
            "lag" => task.lag = number(value),
            "arrivals" => task.arrivals = Arrivals::List(numbers(value)),
            "first" | "every" => {
                let (mut first, mut every) = match task.arrivals {
                    Arrivals::Every { first, every } => (first, every),
                    Arrivals::List(_) => panic!("arrivals twice"),
                };
                *(if key == "first" {
                    &mut first
                } else {
                    &mut every
                }) = number(value);
                task.arrivals = Arrivals::Every { first, every };
            }
            "script" if value == "\"\"\"" => {
                let body: Vec<&str> = lines
                    .by_ref()
                    .take_while(|line| *line != "\"\"\"")
                    .collect();
                task.script = script(&body.join("\n"));
            }
            "script" => task.script = script(value.trim_matches('"')),
            _ => {}
        }
    }
    // The high tasks come first.
    sheet.tasks.sort_by_key(|task| !task.high);
    for task in &mut sheet.tasks {
        task.turns = vec![None; task.script.len()];
        task.start(0);
    }
    sheet
}

/// What the tick of a job was: a value put out, a fault, the end of the job.
struct Done {
    out: Option<u64>,
    fault: Option<Fault>,
    ended: bool,
}

struct Session {
    heap: Heap,
    tasks: Vec<Task>,
    high: usize,
    rate: u64,
    debt: u64,
    flips: u64,
    events: u64,
    idle: u64,
    /// The low operation in mid-course.
    in_mid_course: Option<usize>,
    text: String,
}

impl Session {
    fn open(sheet: Sheet) -> Session {
        let heap = Heap::open(Layout::new(&sheet), sheet.board);
        Session {
            heap,
            high: sheet.tasks.iter().filter(|task| task.high).count(),
            tasks: sheet.tasks,
            rate: sheet.rate,
            debt: 0,
            flips: 0,
            events: 0,
            idle: 0,
            in_mid_course: None,
            text: String::new(),
        }
    }

    /// The first of some tasks that has a ready job.
    fn first_ready(&self, from: usize, to: usize, tick: u64) -> Option<usize> {
        (from..to).find(|&seat| self.tasks[seat].ready <= tick)
    }

    /// Gives a tick, by the five rules. Answers the words that the collector found reserved, where these are too many.
    fn tick(&mut self, tick: u64) -> Option<u64> {
        if let Some(seat) = self.first_ready(0, self.high, tick) {
            self.task_tick(seat, tick);
        } else if let Some(seat) = self.in_mid_course {
            self.task_tick(seat, tick);
        } else if self.debt > 0 {
            return self.event();
        } else if let Some(seat) = self.first_ready(self.high, self.tasks.len(), tick) {
            self.task_tick(seat, tick);
        } else {
            self.idle += 1;
        }
        None
    }

    fn event(&mut self) -> Option<u64> {
        self.events += 1;
        self.debt -= 1;
        match self.heap.collect() {
            Work::Useful | Work::Waits => {}
            Work::Flipped => self.flips += 1,
            Work::Lost(events) => self.debt += events,
            Work::LiveOver(words) => return Some(words),
        }
        None
    }

    fn task_tick(&mut self, seat: usize, tick: u64) {
        let done = self.give(seat);
        let task = &mut self.tasks[seat];
        if seat >= self.high {
            let going = self.heap.flights[seat].place > 0;
            self.in_mid_course = going.then_some(seat);
        }
        if let Some(value) = done.out {
            let _ = writeln!(self.text, "out {tick} {} {value}", task.name);
        }
        if let Some(fault) = done.fault {
            let (name, job, place) = (&task.name, task.job, task.at + 1);
            let _ = writeln!(
                self.text,
                "fault {tick} {name} {job} {place} {}",
                fault.name()
            );
        }
        if done.ended {
            task.latest = task.latest.max(tick + 1 - task.arrival);
            task.start(task.job + 1);
        }
    }

    /// Does one place of an operation; what it answers once it is done.
    fn operate(&mut self, seat: usize, call: Call) -> Result<Option<u64>, Fault> {
        if self.tasks[seat].spent == 0 {
            self.heap.begin(seat as u32, call)?;
        }
        if let (Call::New { shape, .. }, 2) = (call, self.tasks[seat].spent) {
            self.debt += self.rate * u64::from(shape.words());
        }
        match self.heap.step(seat as u32, call) {
            Left::Going => Ok(None),
            Left::Done(word) => Ok(Some(word)),
        }
    }

    /// Gives a tick to the job of a seat.
    fn give(&mut self, seat: usize) -> Done {
        let task = &mut self.tasks[seat];
        let step = task.script[task.at];
        let mut done = Done {
            out: None,
            fault: None,
            ended: false,
        };
        let mut next = step.next;
        let variables = &mut task.variables;
        let call = match step.statement {
            Statement::Work(ticks) => {
                if task.spent + 1 < ticks {
                    task.spent += 1;
                    return done;
                }
                None
            }
            Statement::Set(var, value) => {
                variables[var] = value;
                None
            }
            Statement::Copy(to, from) => {
                variables[to] = variables[from];
                None
            }
            Statement::Add(to, from) => {
                variables[to] = variables[to].wrapping_add(variables[from]);
                None
            }
            Statement::Sub(to, from) => {
                variables[to] = variables[to].wrapping_sub(variables[from]);
                None
            }
            Statement::Job(var) => {
                variables[var] = task.job;
                None
            }
            Statement::Out(var) => {
                done.out = Some(variables[var]);
                None
            }
            Statement::Get { reg, field, .. } => Some(Call::Get { reg, field }),
            Statement::Put { reg, field, var } => {
                let value = variables[var];
                Some(Call::Put { reg, field, value })
            }
            Statement::Call(call) => Some(call),
            Statement::IfLess(first, second) => {
                if variables[first] >= variables[second] {
                    next = step.other;
                }
                None
            }
            Statement::IfEqual(first, second) => {
                if variables[first] != variables[second] {
                    next = step.other;
                }
                None
            }
            Statement::IfNull(reg) => {
                if self.heap.register(seat as u32, reg) != 0 {
                    next = step.other;
                }
                None
            }
            Statement::IfSame(first, second) => {
                let word = self.heap.register(seat as u32, first);
                if word != self.heap.register(seat as u32, second) {
                    next = step.other;
                }
                None
            }
            Statement::Repeat(turns) => {
                let left = task.turns[task.at].unwrap_or(turns);
                if left > 0 {
                    task.turns[task.at] = Some(left - 1);
                } else {
                    task.turns[task.at] = None;
                    next = step.other;
                }
                None
            }
            Statement::Else | Statement::End => unreachable!("no tick"),
        };
        if let Some(call) = call {
            let answer = self.operate(seat, call);
            let task = &mut self.tasks[seat];
            match answer {
                Err(fault) => {
                    done.fault = Some(fault);
                    done.ended = true;
                    return done;
                }
                Ok(None) => {
                    task.spent += 1;
                    return done;
                }
                Ok(Some(word)) => {
                    if let Statement::Get { var, .. } = step.statement {
                        task.variables[var] = word;
                    }
                }
            }
        }
        let task = &mut self.tasks[seat];
        task.spent = 0;
        task.at = next;
        done.ended = next == task.script.len();
        done
    }

    /// Writes what waits to be written.
    fn flush(&mut self, sink: &mut impl Write) -> std::io::Result<()> {
        sink.write_all(self.text.as_bytes())?;
        self.text.clear();
        Ok(())
    }
}

fn main() -> std::io::Result<()> {
    let mut text = String::new();
    std::io::stdin().read_to_string(&mut text)?;
    let sheet = read(&text);
    let (ticks, live) = (sheet.ticks, sheet.live);
    let mut session = Session::open(sheet);
    let mut sink = std::io::stdout().lock();
    for tick in 0..ticks {
        if let Some(words) = session.tick(tick) {
            let _ = writeln!(session.text, "live {tick} {words} above {live}");
            return session.flush(&mut sink);
        }
        if session.text.len() > 8000 {
            session.flush(&mut sink)?;
        }
    }
    for task in &session.tasks {
        let (name, jobs, latest) = (&task.name, task.job, task.latest);
        let _ = writeln!(session.text, "done {name} jobs {jobs} latest {latest}");
    }
    let (flips, events, idle) = (session.flips, session.events, session.idle);
    let _ = writeln!(
        session.text,
        "cycles {flips} collector {events} idle {idle}\nend {ticks}"
    );
    session.flush(&mut sink)
}
