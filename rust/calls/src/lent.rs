//! Buffers that are lent to a call: each begins or ends at a closed page or stands at any place between, and beside its open ends stand
//! guarding bytes. Pages are closed by the system's own calls, which Linux has as declared here.

use crate::reference::{Card, Edition};
use std::ffi::c_void;
use std::slice;

extern "C" {
    fn mmap(at: *mut c_void, len: usize, protection: i32, flags: i32, file: i32, offset: i64) -> *mut c_void;
    fn mprotect(at: *mut c_void, len: usize, protection: i32) -> i32;
}

const PAGE: usize = 4096;
/// The longest record of 32 disks, and some more.
const ROOM: usize = 32 * 65536 + 2 * PAGE;
const ROOMS: usize = 4;
const GUARD: usize = 64;
const GUARDING: u8 = 0xa5;

/// Numbers as they are lent: any bytes are one.
pub trait Plain: Copy {}
impl Plain for u8 {}
impl Plain for u16 {}
impl Plain for u32 {}
impl Plain for usize {}

fn as_bytes<T: Plain>(numbers: &[T]) -> &[u8] {
    // SAFETY: plain numbers have no other bytes than their own
    unsafe { slice::from_raw_parts(numbers.as_ptr().cast(), std::mem::size_of_val(numbers)) }
}

/// Where buffers stand in their open pages: at the front, at the end, or behind a guard and so many numbers more.
#[derive(Clone, Copy, Debug, PartialEq, Eq)]
pub enum Place {
    Front,
    End,
    Shifted(usize),
}

impl Place {
    /// Each place in turn.
    pub fn of_turn(turn: usize) -> Place {
        match turn % 3 {
            0 => Place::Front,
            1 => Place::End,
            _ => Place::Shifted(turn / 3 % 16),
        }
    }
}

/// Open pages between closed ones; those behind are as many, so that the end of what is lent may stand on them.
struct Room {
    open: *mut u8,
    /// How many bytes stand before what is lent.
    before: usize,
    /// What was lent.
    content: Vec<u8>,
    may_be_written: bool,
}

/// The rooms of one call after the other.
pub struct Lent {
    rooms: Vec<Room>,
    used: usize,
    place: Place,
    filling: Vec<u8>,
}

impl Room {
    fn new() -> Room {
        // SAFETY: a new mapping of nothing else's pages: closed, of which the middle is opened
        unsafe {
            let start = mmap(std::ptr::null_mut(), PAGE + 2 * ROOM, 0, 0x22, -1, 0);
            assert_ne!(start as isize, -1, "mmap");
            let open = start.cast::<u8>().add(PAGE);
            assert_eq!(mprotect(open.cast(), ROOM, 3), 0, "mprotect");
            Room { open, before: 0, content: Vec::new(), may_be_written: false }
        }
    }

    fn at(&self) -> *mut u8 {
        self.open.wrapping_add(self.before)
    }

    /// The guards before and behind the content, where there is room for one.
    fn guards(&self) -> impl Iterator<Item = *mut u8> {
        let end = self.before + self.content.len();
        let before = self.before.checked_sub(GUARD);
        let behind = if end + GUARD <= ROOM { Some(end) } else { None };
        let open = self.open;
        before.into_iter().chain(behind).map(move |from| open.wrapping_add(from))
    }

    fn lend(&mut self, content: &[u8], before: usize, may_be_written: bool) {
        self.before = before;
        self.content.clear();
        self.content.extend_from_slice(content);
        self.may_be_written = may_be_written;
        // SAFETY: content and guards lie in the room's open pages
        unsafe {
            self.at().copy_from_nonoverlapping(content.as_ptr(), content.len());
            self.guards().for_each(|guard| guard.write_bytes(GUARDING, GUARD));
        }
    }

    fn now(&self) -> &[u8] {
        // SAFETY: the content lies in the room's open pages, which are never closed
        unsafe { slice::from_raw_parts(self.at(), self.content.len()) }
    }

    /// What is wrong where this front and the content behind it should stand.
    fn difference(&self, front: &[u8]) -> Option<String> {
        // SAFETY: guards lie in the room's open pages
        if self.guards().any(|guard| unsafe { slice::from_raw_parts(guard, GUARD) } != [GUARDING; GUARD]) {
            return Some("a byte beside it has changed".to_string());
        }
        let (now, behind) = (self.now(), &self.content[front.len()..]);
        if now[..front.len()] == *front && now[front.len()..] == *behind {
            return None;
        }
        let mut places = now.iter().zip(front.iter().chain(behind)).enumerate();
        let (at, (is, wanted)) = places.find(|(_, (is, wanted))| is != wanted)?;
        Some(format!("byte {at} of {} is {is}, and {wanted} is wanted", now.len()))
    }
}

impl Lent {
    pub fn new() -> Lent {
        let filling = (0..ROOM).map(|at| (at * 167 + 13) as u8).collect();
        Lent { rooms: (0..ROOMS).map(|_| Room::new()).collect(), used: 0, place: Place::End, filling }
    }

    /// The next call's buffers stand there.
    pub fn begin(&mut self, place: Place) {
        self.used = 0;
        self.place = place;
    }

    /// The next room, with this content.
    fn next<T: Plain>(&mut self, content: &[u8], may_be_written: bool) -> *mut u8 {
        assert!(content.len() + PAGE <= ROOM, "{} bytes don't go into a room", content.len());
        let before = match self.place {
            Place::Front => 0,
            Place::End => ROOM - content.len(),
            Place::Shifted(by) => GUARD + by * std::mem::size_of::<T>(),
        };
        self.used += 1;
        let room = &mut self.rooms[self.used - 1];
        room.lend(content, before, may_be_written);
        room.at()
    }

    /// The next room, with other bytes at each place.
    fn next_output<T: Plain>(&mut self, len: usize) -> *mut u8 {
        let filling = std::mem::take(&mut self.filling);
        let at = self.next::<T>(&filling[..len * std::mem::size_of::<T>()], true);
        self.filling = filling;
        at
    }

    /// A buffer of length 0 is null, or points at a closed page.
    fn pointer<T>(&self, at: *mut u8, len: usize) -> (*mut T, usize) {
        (if len == 0 && self.place == Place::Front { std::ptr::null_mut() } else { at.cast() }, len)
    }

    pub fn read<T: Plain>(&mut self, content: &[T]) -> (*const T, usize) {
        let at = self.next::<T>(as_bytes(content), false);
        let (at, len) = self.pointer(at, content.len());
        (at, len)
    }

    pub fn write<T: Plain>(&mut self, content: &[T]) -> (*mut T, usize) {
        let at = self.next::<T>(as_bytes(content), true);
        self.pointer(at, content.len())
    }

    /// A buffer for an answer.
    pub fn output<T: Plain>(&mut self, len: usize) -> (*mut T, usize) {
        let at = self.next_output::<T>(len);
        self.pointer(at, len)
    }

    /// A card as the archive's calls take it.
    pub fn card(&mut self, card: &Card) -> (bool, *const u8, usize) {
        let (at, len) = self.read(&card.bytes);
        (card.edition == Edition::Second, at, len)
    }

    /// Bytes of which the last stand on closed pages.
    pub fn read_closed(&mut self, content: &[u8], closed: usize) -> (*const u8, usize) {
        if closed == 0 {
            return self.read(content);
        }
        self.place = Place::End;
        (self.next::<u8>(&content[..content.len() - closed], false), content.len())
    }

    /// The same as slices, for a safe function. No two of them share a room until `begin`.
    pub fn slice<'a, T: Plain>(&mut self, content: &[T]) -> &'a [T] {
        let at = self.next::<T>(as_bytes(content), false);
        // SAFETY: as many numbers were copied there, and the pages stay open; they are aligned, since pages and guards are
        unsafe { slice::from_raw_parts(at.cast(), content.len()) }
    }

    /// A card as the safe functions take it.
    pub fn named_card<'a>(&mut self, card: &Card) -> (bridgecrumb::Edition, &'a [u8]) {
        (card.edition.named(), self.slice(&card.bytes))
    }

    pub fn slice_mut<'a, T: Plain>(&mut self, content: &[T]) -> &'a mut [T] {
        let at = self.next::<T>(as_bytes(content), true);
        // SAFETY: as in `slice`; nothing else points into this room
        unsafe { slice::from_raw_parts_mut(at.cast(), content.len()) }
    }

    pub fn output_slice<'a, T: Plain>(&mut self, len: usize) -> &'a mut [T] {
        let at = self.next_output::<T>(len);
        // SAFETY: as in `slice_mut`
        unsafe { slice::from_raw_parts_mut(at.cast(), len) }
    }

    /// The n-th buffer that may be written, as it is now.
    pub fn written(&mut self, n: usize) -> &mut [u8] {
        let room = self.rooms[..self.used].iter_mut().filter(|room| room.may_be_written).nth(n).expect("such a buffer");
        // SAFETY: the content lies in the room's open pages
        unsafe { slice::from_raw_parts_mut(room.at(), room.content.len()) }
    }

    /// All buffers that may be written, as they are now.
    pub fn all_written(&self) -> Vec<Vec<u8>> {
        self.rooms[..self.used].iter().filter(|room| room.may_be_written).map(|room| room.now().to_vec()).collect()
    }

    /// The n-th buffer that is only read.
    pub fn read_again(&self, n: usize) -> &[u8] {
        self.rooms[..self.used].iter().filter(|room| !room.may_be_written).nth(n).expect("such a buffer").now()
    }

    /// Where a lent byte is not as it should be: those at the fronts of what may be written as told, all others as they were.
    pub fn difference(&self, fronts: &[Vec<u8>]) -> Option<String> {
        let mut fronts = fronts.iter();
        for (number, room) in self.rooms[..self.used].iter().enumerate() {
            let front = if room.may_be_written { fronts.next().map_or(&[][..], |front| front) } else { &[] };
            if let Some(difference) = room.difference(front) {
                return Some(format!("lent buffer {number}: {difference}"));
            }
        }
        assert!(fronts.next().is_none(), "more is told to be written than is lent");
        None
    }
}
