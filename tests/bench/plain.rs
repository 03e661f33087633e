// The work of crates/bench in plain Rust: what a programmer would write who has tests in place of proofs.
// Build: rustc -C opt-level=3 --edition 2024 plain.rs

use std::io::{self, Read};

const SEATS: usize = 16;
const BODY_SPACE: usize = 60;
const RECORD_SIZE: usize = 96;
const ROW_SIZE: usize = 98;

#[derive(Clone, Copy, Debug, PartialEq, Eq)]
enum Refusal {
    BadQuota,
    BadName,
    TooManySeats,
    NoSeats,
    TooShort,
    WrongSeatCount,
    LetterWaiting,
    UnknownSeat,
    QuotaSpent,
    DocketTaken,
    CarrierFull,
    WrongDocket,
    UnknownPlace,
    NoneReady,
    TooFewPlaces,
    SheetFull,
    LetterMissing,
    BadRecord,
}

// Letters

#[derive(Clone, Copy, PartialEq, Eq)]
struct LetterId {
    poster: u8,
    number: u16,
}

impl LetterId {
    fn new(poster: u8, number: u16) -> Result<LetterId, Refusal> {
        if poster >= 16 || number == 0 {
            return Err(Refusal::BadRecord);
        }
        Ok(LetterId { poster, number })
    }
}

#[derive(Clone, Copy)]
struct Stamp {
    entries: [u16; 16],
}

impl Stamp {
    fn sum(&self) -> u32 {
        self.entries.iter().map(|&entry| u32::from(entry)).sum()
    }

    fn covers(&self, id: LetterId) -> bool {
        id.number <= self.entries[id.poster as usize]
    }
}

#[derive(Clone, Copy)]
struct Letter<B> {
    stamp: Stamp,
    poster: u8,
    body: B,
}

impl<B: Body> Letter<B> {
    fn number(&self) -> u16 {
        self.stamp.entries[self.poster as usize]
    }

    fn id(&self) -> LetterId {
        LetterId {
            poster: self.poster,
            number: self.number(),
        }
    }

    fn is_named(&self, poster: u8, number: u16) -> bool {
        self.poster == poster && self.number() == number
    }

    fn is_ready(&self, count: u8, quota: u16, seat: u8, clock: &Stamp) -> bool {
        let number = self.number();
        self.poster < count
            && self.poster != seat
            && number <= quota
            && clock.entries[self.poster as usize].checked_add(1) == Some(number)
            && self
                .stamp
                .entries
                .iter()
                .zip(&clock.entries)
                .enumerate()
                .all(|(other, (stamped, shown))| {
                    other == self.poster as usize || stamped <= shown
                })
    }
}

trait Body: Copy {
    fn kind(&self) -> u8;
    fn len(&self) -> u8;
    fn write(&self, into: &mut [u8; BODY_SPACE]);
    fn has_kind(kind: u8) -> bool;
    fn read(bytes: &[u8]) -> Result<Self, Refusal>;
}

#[derive(Clone, Copy)]
struct Text {
    chars: [u8; BODY_SPACE],
    len: u8,
}

impl Text {
    fn new(bytes: &[u8]) -> Result<Text, Refusal> {
        if bytes.len() > BODY_SPACE || !bytes.iter().all(|b| (32..=126).contains(b)) {
            return Err(Refusal::BadRecord);
        }
        let mut chars = [0; BODY_SPACE];
        chars[..bytes.len()].copy_from_slice(bytes);
        Ok(Text {
            chars,
            len: bytes.len() as u8,
        })
    }

    fn as_bytes(&self) -> &[u8] {
        &self.chars[..self.len as usize]
    }
}

impl Default for Text {
    fn default() -> Text {
        Text {
            chars: [0; BODY_SPACE],
            len: 0,
        }
    }
}

impl Body for Text {
    fn kind(&self) -> u8 {
        1
    }

    fn len(&self) -> u8 {
        self.len
    }

    fn write(&self, into: &mut [u8; BODY_SPACE]) {
        *into = self.chars;
    }

    fn has_kind(kind: u8) -> bool {
        kind == 1
    }

    fn read(bytes: &[u8]) -> Result<Text, Refusal> {
        Text::new(bytes)
    }
}

#[derive(Clone, Copy)]
enum Job {
    Add(u32),
    Strike(LetterId),
}

impl Job {
    fn strike(poster: u8, number: u16) -> Result<Job, Refusal> {
        Ok(Job::Strike(LetterId::new(poster, number)?))
    }
}

impl Body for Job {
    fn kind(&self) -> u8 {
        2
    }

    fn len(&self) -> u8 {
        match self {
            Job::Add(_) => 5,
            Job::Strike(_) => 4,
        }
    }

    fn write(&self, into: &mut [u8; BODY_SPACE]) {
        *into = [0; BODY_SPACE];
        match self {
            Job::Add(code) => {
                into[0] = 1;
                into[1..5].copy_from_slice(&code.to_le_bytes());
            }
            Job::Strike(id) => {
                into[0] = 2;
                into[1] = id.poster;
                into[2..4].copy_from_slice(&id.number.to_le_bytes());
            }
        }
    }

    fn has_kind(kind: u8) -> bool {
        kind == 2
    }

    fn read(bytes: &[u8]) -> Result<Job, Refusal> {
        match *bytes {
            [1, a, b, c, d] => Ok(Job::Add(u32::from_le_bytes([a, b, c, d]))),
            [2, poster, low, high] => Job::strike(poster, u16::from_le_bytes([low, high])),
            _ => Err(Refusal::BadRecord),
        }
    }
}

// Records

fn write_record<B: Body>(letter: &Letter<B>, record: &mut [u8; RECORD_SIZE]) {
    for (bytes, entry) in record.chunks_exact_mut(2).zip(&letter.stamp.entries) {
        bytes.copy_from_slice(&entry.to_le_bytes());
    }
    record[32] = letter.poster;
    record[33] = letter.body.kind();
    record[34] = letter.body.len();
    record[35] = 0;
    letter
        .body
        .write(record.last_chunk_mut().expect("a record has place for a body"));
}

fn read_record<B: Body>(record: &[u8; RECORD_SIZE]) -> Result<Letter<B>, Refusal> {
    let mut stamp = Stamp { entries: [0; 16] };
    for (entry, bytes) in stamp.entries.iter_mut().zip(record.chunks_exact(2)) {
        *entry = u16::from_le_bytes([bytes[0], bytes[1]]);
    }
    let [poster, kind, len, zero] = record[32..36] else {
        unreachable!()
    };
    let is_seated = poster < 16 && stamp.entries[poster as usize] != 0;
    if !is_seated || !B::has_kind(kind) || zero != 0 || len as usize > BODY_SPACE {
        return Err(Refusal::BadRecord);
    }
    let (bytes, rest) = record[36..].split_at(len as usize);
    let body = B::read(bytes)?;
    if rest.iter().any(|&b| b != 0) {
        return Err(Refusal::BadRecord);
    }
    Ok(Letter {
        stamp,
        poster,
        body,
    })
}

// Carriers

trait Carrier {
    type Body: Body;

    fn seats(&self) -> u8;
    fn waits(&self, seat: u8) -> u32;
    fn fits(&self, poster: u8) -> bool;
    fn put(&mut self, letter: &Letter<Self::Body>) -> Result<(), Refusal>;
    fn draw(&mut self, seat: u8, place: u32) -> Result<Letter<Self::Body>, Refusal>;
}

struct Lines<'a, B> {
    places: &'a mut [Letter<B>],
    seats: u8,
    size: u32,
    counts: [u32; SEATS],
}

impl<'a, B: Body> Lines<'a, B> {
    fn new(places: &'a mut [Letter<B>], seats: u8, size: u32) -> Result<Lines<'a, B>, Refusal> {
        if seats == 0 || seats as usize > SEATS {
            return Err(Refusal::WrongSeatCount);
        }
        if size == 0 || places.len() < seats as usize * size as usize {
            return Err(Refusal::TooShort);
        }
        Ok(Lines {
            places,
            seats,
            size,
            counts: [0; SEATS],
        })
    }
}

impl<B: Body> Carrier for Lines<'_, B> {
    type Body = B;

    fn seats(&self) -> u8 {
        self.seats
    }

    fn waits(&self, seat: u8) -> u32 {
        if seat < self.seats {
            self.counts[seat as usize]
        } else {
            0
        }
    }

    fn fits(&self, poster: u8) -> bool {
        poster < self.seats
            && self.counts[..self.seats as usize]
                .iter()
                .enumerate()
                .all(|(seat, &count)| seat == poster as usize || count < self.size)
    }

    fn put(&mut self, letter: &Letter<B>) -> Result<(), Refusal> {
        if letter.poster >= self.seats {
            return Err(Refusal::UnknownSeat);
        }
        if !self.fits(letter.poster) {
            return Err(Refusal::CarrierFull);
        }
        for seat in 0..self.seats as usize {
            if seat != letter.poster as usize {
                let count = self.counts[seat] as usize;
                self.places[seat * self.size as usize + count] = *letter;
                self.counts[seat] += 1;
            }
        }
        Ok(())
    }

    fn draw(&mut self, seat: u8, place: u32) -> Result<Letter<B>, Refusal> {
        if seat >= self.seats {
            return Err(Refusal::UnknownSeat);
        }
        let count = self.counts[seat as usize];
        if place >= count {
            return Err(Refusal::UnknownPlace);
        }
        let start = seat as usize * self.size as usize;
        let queue = &mut self.places[start..start + count as usize];
        let letter = queue[place as usize];
        queue.copy_within(place as usize + 1.., place as usize);
        self.counts[seat as usize] -= 1;
        Ok(letter)
    }
}

struct Spool<'a, B> {
    buffer: &'a mut [u8],
    rows: usize,
    seats: u8,
    body: std::marker::PhantomData<B>,
}

fn mask_of(row: &[u8; ROW_SIZE]) -> u16 {
    u16::from_le_bytes([row[RECORD_SIZE], row[RECORD_SIZE + 1]])
}

fn set_mask(row: &mut [u8; ROW_SIZE], mask: u16) {
    row[RECORD_SIZE..].copy_from_slice(&mask.to_le_bytes());
}

fn marks(row: &[u8; ROW_SIZE], seat: u8) -> bool {
    mask_of(row) >> seat & 1 == 1
}

impl<'a, B: Body> Spool<'a, B> {
    fn new(buffer: &'a mut [u8], seats: u8) -> Result<Spool<'a, B>, Refusal> {
        if seats == 0 || seats as usize > SEATS {
            return Err(Refusal::WrongSeatCount);
        }
        if buffer.len() < ROW_SIZE {
            return Err(Refusal::TooShort);
        }
        Ok(Spool {
            buffer,
            rows: 0,
            seats,
            body: std::marker::PhantomData,
        })
    }

    fn used(&self) -> &[[u8; ROW_SIZE]] {
        &self.buffer.as_chunks().0[..self.rows]
    }
}

impl<B: Body> Carrier for Spool<'_, B> {
    type Body = B;

    fn seats(&self) -> u8 {
        self.seats
    }

    fn waits(&self, seat: u8) -> u32 {
        if seat >= self.seats {
            return 0;
        }
        self.used().iter().filter(|row| marks(row, seat)).count() as u32
    }

    fn fits(&self, poster: u8) -> bool {
        poster < self.seats && self.buffer.len() - self.rows * ROW_SIZE >= ROW_SIZE
    }

    fn put(&mut self, letter: &Letter<B>) -> Result<(), Refusal> {
        if letter.poster >= self.seats {
            return Err(Refusal::UnknownSeat);
        }
        if !self.fits(letter.poster) {
            return Err(Refusal::CarrierFull);
        }
        let all = (1u32 << self.seats) - 1;
        let mask = all as u16 ^ (1 << letter.poster);
        if mask != 0 {
            let row = &mut self.buffer.as_chunks_mut().0[self.rows];
            write_record(letter, row.first_chunk_mut().expect("a row has place for a record"));
            set_mask(row, mask);
            self.rows += 1;
        }
        Ok(())
    }

    fn draw(&mut self, seat: u8, place: u32) -> Result<Letter<B>, Refusal> {
        if seat >= self.seats {
            return Err(Refusal::UnknownSeat);
        }
        let (at, _) = self
            .used()
            .iter()
            .enumerate()
            .filter(|(_, row)| marks(row, seat))
            .nth(place as usize)
            .ok_or(Refusal::UnknownPlace)?;
        let row: &mut [u8; ROW_SIZE] = &mut self.buffer.as_chunks_mut().0[at];
        let letter = read_record(row.first_chunk().expect("a row has a record"))?;
        let left = mask_of(row) ^ (1 << seat);
        if left == 0 {
            self.buffer
                .copy_within((at + 1) * ROW_SIZE..self.rows * ROW_SIZE, at * ROW_SIZE);
            self.rows -= 1;
        } else {
            set_mask(row, left);
        }
        Ok(letter)
    }
}

struct Pair<C, D> {
    first: C,
    second: D,
}

impl<C: Carrier, D: Carrier<Body = C::Body>> Pair<C, D> {
    fn new(first: C, second: D) -> Result<Pair<C, D>, Refusal> {
        if first.seats() != second.seats() {
            return Err(Refusal::WrongSeatCount);
        }
        Ok(Pair { first, second })
    }
}

impl<C: Carrier, D: Carrier<Body = C::Body>> Carrier for Pair<C, D> {
    type Body = C::Body;

    fn seats(&self) -> u8 {
        self.first.seats()
    }

    fn waits(&self, seat: u8) -> u32 {
        self.first.waits(seat).saturating_add(self.second.waits(seat))
    }

    fn fits(&self, poster: u8) -> bool {
        self.first.fits(poster) && self.second.fits(poster)
    }

    fn put(&mut self, letter: &Letter<C::Body>) -> Result<(), Refusal> {
        if letter.poster >= self.seats() {
            return Err(Refusal::UnknownSeat);
        }
        if !self.fits(letter.poster) {
            return Err(Refusal::CarrierFull);
        }
        self.first.put(letter)?;
        self.second.put(letter)
    }

    fn draw(&mut self, seat: u8, place: u32) -> Result<Letter<C::Body>, Refusal> {
        let ahead = self.first.waits(seat);
        if place < ahead {
            self.first.draw(seat, place)
        } else {
            self.second.draw(seat, place - ahead)
        }
    }
}

// Rooms

struct Terms {
    number: u32,
    quota: u16,
    names: [u32; SEATS],
    count: u8,
}

impl Terms {
    fn places(&self) -> usize {
        self.count as usize * self.quota as usize
    }

    fn suffice(&self, logs: usize, holds: usize) -> bool {
        let whole = self.count as usize * self.places();
        whole <= logs && whole <= holds
    }
}

struct Draft {
    terms: Terms,
}

impl Draft {
    fn new(number: u32, quota: u16) -> Result<Draft, Refusal> {
        if quota == 0 || quota > 256 {
            return Err(Refusal::BadQuota);
        }
        let terms = Terms {
            number,
            quota,
            names: [0; SEATS],
            count: 0,
        };
        Ok(Draft { terms })
    }

    fn enrol(&mut self, name: u32) -> Result<u8, Refusal> {
        let terms = &mut self.terms;
        let seat = terms.count;
        if name == 0 || terms.names[..seat as usize].contains(&name) {
            return Err(Refusal::BadName);
        }
        if seat as usize == SEATS || terms.places() + terms.quota as usize > 256 {
            return Err(Refusal::TooManySeats);
        }
        terms.names[seat as usize] = name;
        terms.count += 1;
        Ok(seat)
    }

    fn open<C: Carrier>(
        self,
        logs: &[Letter<C::Body>],
        holds: &[Letter<C::Body>],
        carrier: &C,
    ) -> Result<Room, Refusal> {
        let terms = self.terms;
        if terms.count == 0 {
            return Err(Refusal::NoSeats);
        }
        if !terms.suffice(logs.len(), holds.len()) {
            return Err(Refusal::TooShort);
        }
        if carrier.seats() != terms.count {
            return Err(Refusal::WrongSeatCount);
        }
        if (0..terms.count).any(|seat| carrier.waits(seat) != 0) {
            return Err(Refusal::LetterWaiting);
        }
        let nothing = Seat {
            clock: Stamp { entries: [0; 16] },
            held: 0,
            docket: DocketState::Clear,
        };
        Ok(Room {
            terms,
            seats: [nothing; SEATS],
        })
    }
}

#[derive(Clone, Copy, PartialEq, Eq)]
enum DocketState {
    Clear,
    Out,
}

#[derive(Clone, Copy)]
struct Seat {
    clock: Stamp,
    held: u16,
    docket: DocketState,
}

#[must_use]
struct Docket {
    room: u32,
    seat: u8,
    number: u16,
}

enum Taken {
    Stray(LetterId),
    Repeat(LetterId),
    Held(LetterId),
}

struct Room {
    terms: Terms,
    seats: [Seat; SEATS],
}

impl Room {
    fn start(&self, seat: u8) -> usize {
        seat as usize * self.terms.places()
    }

    fn check_tables(&self, logs: usize, holds: usize) -> Result<(), Refusal> {
        if !self.terms.suffice(logs, holds) {
            return Err(Refusal::TooShort);
        }
        Ok(())
    }

    fn check_seat(&self, seat: u8) -> Result<(), Refusal> {
        if seat >= self.terms.count {
            return Err(Refusal::UnknownSeat);
        }
        Ok(())
    }

    fn log<'t, B>(&self, logs: &'t [Letter<B>], seat: u8) -> &'t [Letter<B>] {
        let start = self.start(seat);
        &logs[start..start + self.seats[seat as usize].clock.sum() as usize]
    }

    fn post<B: Body>(
        &mut self,
        logs: &mut [Letter<B>],
        holds: &[Letter<B>],
        seat: u8,
        body: B,
    ) -> Result<Docket, Refusal> {
        self.check_tables(logs.len(), holds.len())?;
        self.check_seat(seat)?;
        let start = self.start(seat);
        let poster = &mut self.seats[seat as usize];
        if poster.docket != DocketState::Clear {
            return Err(Refusal::DocketTaken);
        }
        if poster.clock.entries[seat as usize] >= self.terms.quota {
            return Err(Refusal::QuotaSpent);
        }
        let foot = start + poster.clock.sum() as usize;
        poster.clock.entries[seat as usize] += 1;
        poster.docket = DocketState::Out;
        logs[foot] = Letter {
            stamp: poster.clock,
            poster: seat,
            body,
        };
        Ok(Docket {
            room: self.terms.number,
            seat,
            number: poster.clock.entries[seat as usize],
        })
    }

    fn knows(&self, docket: &Docket) -> bool {
        if docket.room != self.terms.number || docket.seat >= self.terms.count {
            return false;
        }
        let poster = &self.seats[docket.seat as usize];
        poster.docket == DocketState::Out
            && poster.clock.entries[docket.seat as usize] == docket.number
    }

    fn check_carrier<C: Carrier>(&self, carrier: &C) -> Result<(), Refusal> {
        if carrier.seats() != self.terms.count {
            return Err(Refusal::WrongSeatCount);
        }
        Ok(())
    }

    fn send<C: Carrier>(
        &mut self,
        logs: &[Letter<C::Body>],
        holds: &[Letter<C::Body>],
        carrier: &mut C,
        docket: Docket,
    ) -> Result<(), (Docket, Refusal)> {
        match self.put_letter(logs, holds, carrier, &docket) {
            Ok(()) => {
                self.seats[docket.seat as usize].docket = DocketState::Clear;
                Ok(())
            }
            Err(refusal) => Err((docket, refusal)),
        }
    }

    fn put_letter<C: Carrier>(
        &self,
        logs: &[Letter<C::Body>],
        holds: &[Letter<C::Body>],
        carrier: &mut C,
        docket: &Docket,
    ) -> Result<(), Refusal> {
        self.check_tables(logs.len(), holds.len())?;
        self.check_carrier(carrier)?;
        if !self.knows(docket) {
            return Err(Refusal::WrongDocket);
        }
        let letter = self
            .log(logs, docket.seat)
            .iter()
            .find(|letter| letter.is_named(docket.seat, docket.number))
            .ok_or(Refusal::LetterMissing)?;
        carrier.put(letter)
    }

    fn take<C: Carrier>(
        &mut self,
        logs: &[Letter<C::Body>],
        holds: &mut [Letter<C::Body>],
        carrier: &mut C,
        seat: u8,
        place: u32,
    ) -> Result<Taken, Refusal> {
        self.check_tables(logs.len(), holds.len())?;
        self.check_carrier(carrier)?;
        let letter = carrier.draw(seat, place)?;
        let places = self.terms.places();
        let start = self.start(seat);
        let taker = &mut self.seats[seat as usize];
        let id = letter.id();
        if id.poster >= self.terms.count
            || id.poster == seat
            || id.number > self.terms.quota
            || taker.held as usize >= places
        {
            return Ok(Taken::Stray(id));
        }
        let end = start + taker.held as usize;
        if taker.clock.covers(id)
            || holds[start..end]
                .iter()
                .any(|held| held.is_named(id.poster, id.number))
        {
            return Ok(Taken::Repeat(id));
        }
        holds[end] = letter;
        taker.held += 1;
        Ok(Taken::Held(id))
    }

    fn show<B: Body>(
        &mut self,
        logs: &mut [Letter<B>],
        holds: &mut [Letter<B>],
        seat: u8,
    ) -> Result<LetterId, Refusal> {
        self.check_tables(logs.len(), holds.len())?;
        self.check_seat(seat)?;
        let start = self.start(seat);
        let viewer = &mut self.seats[seat as usize];
        let hold = &mut holds[start..start + viewer.held as usize];
        let at = hold
            .iter()
            .position(|letter| {
                letter.is_ready(self.terms.count, self.terms.quota, seat, &viewer.clock)
            })
            .ok_or(Refusal::NoneReady)?;
        let id = hold[at].id();
        logs[start + viewer.clock.sum() as usize] = hold[at];
        hold.copy_within(at + 1.., at);
        viewer.clock.entries[id.poster as usize] = id.number;
        viewer.held -= 1;
        Ok(id)
    }

    fn draw_up<K: Sheet>(
        &self,
        logs: &[Letter<K::Body>],
        holds: &[Letter<K::Body>],
        seat: u8,
        sheet: &mut K,
    ) -> Result<(), Refusal> {
        self.check_tables(logs.len(), holds.len())?;
        self.check_seat(seat)?;
        if K::PLACES < self.terms.places() {
            return Err(Refusal::TooFewPlaces);
        }
        draw_up(sheet, self.log(logs, seat))
    }
}

// Sheets

trait Sheet {
    type Body: Body;

    const PLACES: usize;

    fn letters(&self) -> u32;
    fn clear(&mut self);
    fn enter(&mut self, letter: &Letter<Self::Body>) -> Result<(), Refusal>;
}

fn draw_up<K: Sheet>(sheet: &mut K, log: &[Letter<K::Body>]) -> Result<(), Refusal> {
    if log.len() > K::PLACES {
        return Err(Refusal::TooFewPlaces);
    }
    sheet.clear();
    for letter in log {
        sheet.enter(letter)?;
    }
    Ok(())
}

#[derive(Clone, Copy)]
struct Row {
    rank: u32,
    poster: u8,
    number: u16,
    text: Text,
}

struct Timeline {
    rows: Vec<Row>,
}

impl Timeline {
    fn new() -> Timeline {
        Timeline {
            rows: Vec::with_capacity(Timeline::PLACES),
        }
    }
}

impl Sheet for Timeline {
    type Body = Text;

    const PLACES: usize = 256;

    fn letters(&self) -> u32 {
        self.rows.len() as u32
    }

    fn clear(&mut self) {
        self.rows.clear();
    }

    fn enter(&mut self, letter: &Letter<Text>) -> Result<(), Refusal> {
        if self.rows.len() == Timeline::PLACES {
            return Err(Refusal::SheetFull);
        }
        let new = Row {
            rank: letter.stamp.sum(),
            poster: letter.poster,
            number: letter.number(),
            text: letter.body,
        };
        let at = self
            .rows
            .iter()
            .position(|row| (row.rank, row.poster) > (new.rank, new.poster))
            .unwrap_or(self.rows.len());
        self.rows.insert(at, new);
        Ok(())
    }
}

#[derive(Clone, Copy)]
struct OpenJob {
    poster: u8,
    number: u16,
    code: u32,
}

struct JobList {
    rows: Vec<OpenJob>,
    entered: u32,
}

impl JobList {
    fn new() -> JobList {
        JobList {
            rows: Vec::with_capacity(JobList::PLACES),
            entered: 0,
        }
    }

    fn close(&mut self, id: LetterId) {
        self.rows
            .retain(|job| (job.poster, job.number) != (id.poster, id.number));
    }

    fn open(&mut self, id: LetterId, code: u32) {
        self.close(id);
        let at = self
            .rows
            .iter()
            .position(|job| (job.poster, job.number) > (id.poster, id.number))
            .unwrap_or(self.rows.len());
        let job = OpenJob {
            poster: id.poster,
            number: id.number,
            code,
        };
        self.rows.insert(at, job);
    }
}

impl Sheet for JobList {
    type Body = Job;

    const PLACES: usize = 128;

    fn letters(&self) -> u32 {
        self.entered
    }

    fn clear(&mut self) {
        self.rows.clear();
        self.entered = 0;
    }

    fn enter(&mut self, letter: &Letter<Job>) -> Result<(), Refusal> {
        if self.entered as usize == JobList::PLACES {
            return Err(Refusal::SheetFull);
        }
        self.entered += 1;
        match letter.body {
            Job::Add(code) => self.open(letter.id(), code),
            Job::Strike(id) => {
                if letter.stamp.covers(id) {
                    self.close(id);
                }
            }
        }
        Ok(())
    }
}

// The work

#[derive(Clone, Copy)]
enum Make {
    Lines,
    Spool,
    Pair,
}

#[derive(Clone, Copy)]
struct Setting {
    make: Make,
    parts: u8,
}

#[derive(Default)]
struct Tally {
    seats: u32,
    sent: u32,
    held: u32,
    repeats: u32,
    shown: u32,
    entered: u32,
}

struct Desk<'t, B, C> {
    room: Room,
    logs: &'t mut [Letter<B>],
    holds: &'t mut [Letter<B>],
    carrier: C,
}

impl<B: Body, C: Carrier<Body = B>> Desk<'_, B, C> {
    fn post_all(&mut self, bodies: &[B]) -> Result<u32, Refusal> {
        let mut sent = 0;
        for turn in bodies.chunks_exact(SEATS) {
            for (seat, &body) in turn.iter().enumerate() {
                self.post(seat as u8, body)?;
                sent += 1;
            }
        }
        Ok(sent)
    }

    fn post(&mut self, seat: u8, body: B) -> Result<(), Refusal> {
        let docket = self.room.post(self.logs, self.holds, seat, body)?;
        self.room
            .send(self.logs, self.holds, &mut self.carrier, docket)
            .map_err(|(_, refusal)| refusal)
    }

    fn take_all(&mut self, tally: &mut Tally) -> Result<(), Refusal> {
        for seat in 0..SEATS as u8 {
            for place in (0..self.carrier.waits(seat)).rev() {
                match self
                    .room
                    .take(self.logs, self.holds, &mut self.carrier, seat, place)?
                {
                    Taken::Held(_) => tally.held += 1,
                    Taken::Repeat(_) => tally.repeats += 1,
                    Taken::Stray(_) => {}
                }
            }
        }
        Ok(())
    }

    fn show_all(&mut self) -> u32 {
        let mut shown = 0;
        for seat in 0..SEATS as u8 {
            while self.room.show(self.logs, self.holds, seat).is_ok() {
                shown += 1;
            }
        }
        shown
    }

    fn draw_up_all<K: Sheet<Body = B>>(&self, sheet: &mut K) -> Result<u32, Refusal> {
        let mut entered = 0;
        for seat in 0..SEATS as u8 {
            self.room.draw_up(self.logs, self.holds, seat, sheet)?;
            entered += sheet.letters();
        }
        Ok(entered)
    }

    fn work<K: Sheet<Body = B>>(
        &mut self,
        parts: u8,
        bodies: &[B],
        sheet: &mut K,
        tally: &mut Tally,
    ) -> Result<(), Refusal> {
        if parts > 1 {
            tally.sent = self.post_all(bodies)?;
        }
        if parts > 2 {
            self.take_all(tally)?;
        }
        if parts > 3 {
            tally.shown = self.show_all();
        }
        if parts > 4 {
            tally.entered = self.draw_up_all(sheet)?;
        }
        Ok(())
    }
}

fn open<C: Carrier>(
    logs: &[Letter<C::Body>],
    holds: &[Letter<C::Body>],
    carrier: &C,
    quota: u16,
) -> Result<Room, Refusal> {
    let mut draft = Draft::new(7, quota)?;
    for name in 100..100 + SEATS as u32 {
        draft.enrol(name)?;
    }
    draft.open(logs, holds, carrier)
}

fn work_over<B: Body, C: Carrier<Body = B>, K: Sheet<Body = B>>(
    parts: u8,
    carrier: C,
    blank: Letter<B>,
    bodies: &[B],
    sheet: &mut K,
) -> Result<Tally, Refusal> {
    let places = SEATS * bodies.len();
    let mut logs = vec![blank; places];
    let mut holds = vec![blank; places];
    let mut tally = Tally::default();
    if parts > 0 {
        let quota = (bodies.len() / SEATS) as u16;
        let room = open(&logs, &holds, &carrier, quota)?;
        tally.seats = carrier.seats() as u32;
        let mut desk = Desk {
            room,
            logs: &mut logs,
            holds: &mut holds,
            carrier,
        };
        desk.work(parts, bodies, sheet, &mut tally)?;
    }
    Ok(tally)
}

fn run<B: Body, K: Sheet<Body = B>>(
    setting: Setting,
    blank: Letter<B>,
    bodies: &[B],
    sheet: &mut K,
) -> Result<Tally, Refusal> {
    let letters = bodies.len();
    let seats = SEATS as u8;
    let mut queues = vec![blank; SEATS * letters];
    let mut buffer = vec![0; ROW_SIZE * letters];
    let lines = Lines::new(&mut queues, seats, letters as u32)?;
    let spool = Spool::<B>::new(&mut buffer, seats)?;
    match setting.make {
        Make::Lines => work_over(setting.parts, lines, blank, bodies, sheet),
        Make::Spool => work_over(setting.parts, spool, blank, bodies, sheet),
        Make::Pair => work_over(setting.parts, Pair::new(lines, spool)?, blank, bodies, sheet),
    }
}

fn make_blank<B: Copy>(body: B) -> Letter<B> {
    Letter {
        stamp: Stamp { entries: [1; 16] },
        poster: 0,
        body,
    }
}

const SAYING: &[u8; 60] = b"The boiler in the cellar is out again; please bring a light.";

fn make_job(at: u16) -> Result<Job, Refusal> {
    let turn = at / SEATS as u16;
    let seat = at % SEATS as u16;
    if turn % 4 == 3 {
        return Job::strike(seat as u8, turn);
    }
    Ok(Job::Add(at as u32))
}

fn make_text(at: u16) -> Result<Text, Refusal> {
    Text::new(&SAYING[..20 + at as usize % 41])
}

fn print_tally(tally: Tally) {
    let Tally {
        seats,
        sent,
        held,
        repeats,
        shown,
        entered,
    } = tally;
    println!(
        "seats {seats} sent {sent} held {held} repeats {repeats} shown {shown} entered {entered}"
    );
}

fn mixed(sum: u32, number: u32) -> u32 {
    sum.wrapping_mul(31).wrapping_add(number)
}

fn run_jobs(setting: Setting) -> Result<(), Refusal> {
    let mut bodies = [Job::Add(0); 128];
    for (at, body) in (0..).zip(&mut bodies) {
        *body = make_job(at)?;
    }
    let mut list = JobList::new();
    let tally = run(setting, make_blank(Job::Add(0)), &bodies, &mut list)?;
    print_tally(tally);
    let mut sum = 0;
    for job in &list.rows {
        sum = mixed(sum, job.poster as u32);
        sum = mixed(sum, job.number as u32);
        sum = mixed(sum, job.code);
    }
    println!("jobs {} sum {sum}", list.rows.len());
    Ok(())
}

fn run_texts(setting: Setting) -> Result<(), Refusal> {
    let mut bodies = [Text::default(); 256];
    for (at, body) in (0..).zip(&mut bodies) {
        *body = make_text(at)?;
    }
    let mut timeline = Timeline::new();
    let tally = run(setting, make_blank(Text::default()), &bodies, &mut timeline)?;
    print_tally(tally);
    let mut sum = 0;
    for row in &timeline.rows {
        sum = mixed(sum, row.rank);
        sum = mixed(sum, row.poster as u32);
        sum = mixed(sum, row.number as u32);
        sum = mixed(sum, row.text.as_bytes().len() as u32);
    }
    println!("rows {} sum {sum}", timeline.rows.len());
    Ok(())
}

fn main() -> io::Result<()> {
    let mut input = Vec::new();
    io::stdin().read_to_end(&mut input)?;
    let &[make, load, parts, ..] = input.as_slice() else {
        println!("no setting");
        return Ok(());
    };
    let make = match make {
        b'l' => Make::Lines,
        b's' => Make::Spool,
        _ => Make::Pair,
    };
    let parts = parts.wrapping_sub(b'0');
    let setting = Setting { make, parts };
    let ended = if load == b'j' {
        run_jobs(setting)
    } else {
        run_texts(setting)
    };
    if let Err(why) = ended {
        println!("refused {why:?}");
    }
    Ok(())
}
