//! One floor.

use core::fmt;

use crate::raw::{self, Booking, Canister, Counters, Layout, Name, Settings, LONGEST_PAGE, PLACES};
use crate::refusal::{accepted, Refusal};
use crate::report::{Map, Report};
use crate::tile::{Place, Tile};

/// One floor: a grid of roller tiles with canisters.
///
/// Methods with `&mut self` change it if they are accepted and leave it as it
/// was if they are refused. Each refusal that a method can give is named with
/// it, in the order in which they are tested.
///
/// ```
/// use ceromby::{Floor, Refusal};
///
/// # fn main() -> Result<(), Refusal> {
/// let mut floor = Floor::load(&[])?; // the standard floor: fill tile 4, hopper 10
/// let place = floor.book_anywhere(4, 1)?;
/// println!("set canister 1 at {place}");
/// floor.stop(5)?;
/// assert_eq!(floor.stop(5), Err(Refusal::Stopped));
/// assert_eq!(floor.stop(10), Err(Refusal::StopOfHopper));
/// floor.round()?;
/// print!("{floor}"); // the page
/// # Ok(())
/// # }
/// ```
///
/// An answer that is dropped is warned of, and a floor isn't copied by mistake:
///
/// ```compile_fail
/// #![deny(unused_must_use)]
/// let mut floor = ceromby::Floor::load(&[]).unwrap();
/// floor.stop(5);
/// ```
///
/// ```compile_fail
/// let mut floor = ceromby::Floor::load(&[]).unwrap();
/// let mut other = floor;
/// other.stop(5).unwrap();
/// floor.round().unwrap();
/// ```
#[derive(Clone, PartialEq, Eq)]
#[repr(transparent)]
pub struct Floor {
    /// Well formed.
    pub(crate) memory: raw::Floor,
}

/// What [`Floor::bound`] answers.
#[derive(Clone, Copy, PartialEq, Eq, Hash, Debug)]
pub struct Bound {
    /// After so many rounds all that can be delivered is delivered; at least 1.
    pub rounds: u32,
    /// Canisters on tiles with a live path to a hopper: these are delivered.
    pub connected: u32,
    /// Canisters on all other tiles.
    pub unconnected: u32,
}

impl Floor {
    /// A floor without canisters. Refused by [`Refusal::Grid`],
    /// [`Refusal::Sets`], [`Refusal::Measure`].
    #[inline]
    pub fn fresh(settings: Settings) -> Result<Floor, Refusal> {
        let answer = raw::fresh(settings);
        accepted(answer.refusal)?;
        Ok(Floor {
            memory: answer.floor,
        })
    }

    /// The floor of an image. Zero bytes, the file of a new controller, load the
    /// standard floor, fresh: hand in only what was read to the file's end.
    /// Refused by [`Refusal::ImageEnds`], [`Refusal::OtherKind`],
    /// [`Refusal::RecordShape`], [`Refusal::Grid`], [`Refusal::Sets`],
    /// [`Refusal::Measure`], [`Refusal::ImageMalformed`]. An image has no
    /// checksum: a changed bit may load as another sound floor.
    #[inline]
    pub fn load(image: &[u8]) -> Result<Floor, Refusal> {
        let answer = raw::load(image);
        accepted(answer.refusal)?;
        Ok(Floor {
            memory: answer.floor,
        })
    }

    /// A fresh floor in the place of this one, as [`Floor::fresh`] makes it. For
    /// a floor that stays where it is: one that is given by value is moved out of
    /// its `Result`.
    #[inline]
    pub fn renew(&mut self, settings: Settings) -> Result<(), Refusal> {
        let answer = raw::fresh(settings);
        self.take(&answer)
    }

    /// The floor of an image in the place of this one, as [`Floor::load`] makes
    /// it.
    #[inline]
    pub fn reload(&mut self, image: &[u8]) -> Result<(), Refusal> {
        let answer = raw::load(image);
        self.take(&answer)
    }

    /// Adds a canister. Refused by [`Refusal::NoTile`],
    /// [`Refusal::NotASource`], [`Refusal::NumberZero`], [`Refusal::Outside`],
    /// [`Refusal::Stopped`], [`Refusal::NumberUsed`], [`Refusal::TooClose`].
    #[inline]
    pub fn book(&mut self, tile: u32, canister: Canister) -> Result<(), Refusal> {
        let answer = raw::book(&self.memory, tile, canister);
        self.take(&answer)
    }

    /// Adds a canister at the place with the lowest b, then the lowest a, that
    /// keeps the spacing, and tells it. Refused by [`Refusal::NoTile`],
    /// [`Refusal::NotASource`], [`Refusal::NumberZero`], [`Refusal::Stopped`],
    /// [`Refusal::NumberUsed`], [`Refusal::NoPlace`].
    #[inline]
    pub fn book_anywhere(&mut self, tile: u32, number: u32) -> Result<Place, Refusal> {
        let placed = raw::book_anywhere(&self.memory, tile, number);
        accepted(placed.refusal)?;
        self.memory = placed.floor;
        Ok(Place {
            a: placed.a,
            b: placed.b,
        })
    }

    /// Makes the bookings of a list one after the other, tells each entry its
    /// own answer ([`Booking::answer()`]) and gives how many were accepted. A
    /// refused one doesn't stop those after it. The call itself is refused by
    /// [`Refusal::ListTooLong`] alone; then no entry is written.
    ///
    /// ```
    /// use ceromby::{Booking, Canister, Floor, Refusal};
    ///
    /// # fn main() -> Result<(), Refusal> {
    /// let mut floor = Floor::load(&[])?;
    /// let mut list = [
    ///     Booking::new(4, Canister::new(1, 0, 0)),
    ///     Booking::new(4, Canister::new(2, 10, 0)),
    /// ];
    /// assert_eq!(floor.book_list(&mut list), Ok(1));
    /// assert_eq!(list[0].answer(), Some(Ok(())));
    /// assert_eq!(list[1].answer(), Some(Err(Refusal::TooClose)));
    /// # Ok(())
    /// # }
    /// ```
    #[inline]
    pub fn book_list(&mut self, list: &mut [Booking]) -> Result<usize, Refusal> {
        let answer = raw::book_list(&self.memory, list);
        self.take(&answer)?;
        Ok(list.iter().filter(|entry| entry.answer == 0).count())
    }

    /// Stops a tile; it keeps its canisters. Refused by [`Refusal::NoTile`],
    /// [`Refusal::StopOfHopper`], [`Refusal::Stopped`].
    #[inline]
    pub fn stop(&mut self, tile: u32) -> Result<(), Refusal> {
        let answer = raw::stop(&self.memory, tile);
        self.take(&answer)
    }

    /// Sets a stopped tile running. Refused by [`Refusal::NoTile`],
    /// [`Refusal::Running`].
    #[inline]
    pub fn repair(&mut self, tile: u32) -> Result<(), Refusal> {
        let answer = raw::repair(&self.memory, tile);
        self.take(&answer)
    }

    /// Keeps the set of tiles that run under a name of 1 to 8 letters A to Z, in
    /// place of what that name held: `floor.keep("NETS")?`. Refused by
    /// [`Refusal::BadName`], [`Refusal::LayoutsFull`].
    #[inline]
    pub fn keep(&mut self, name: impl Into<Name>) -> Result<(), Refusal> {
        let answer = raw::keep(&self.memory, name);
        self.take(&answer)
    }

    /// Frees the place of a name. Refused by [`Refusal::BadName`],
    /// [`Refusal::NameNotHeld`].
    #[inline]
    pub fn forget(&mut self, name: impl Into<Name>) -> Result<(), Refusal> {
        let answer = raw::forget(&self.memory, name);
        self.take(&answer)
    }

    /// Makes the stops and repairs that are needed for just those tiles to run
    /// that ran when the layout was kept. Refused by [`Refusal::BadName`],
    /// [`Refusal::NameNotHeld`].
    #[inline]
    pub fn recall(&mut self, name: impl Into<Name>) -> Result<(), Refusal> {
        let answer = raw::recall(&self.memory, name);
        self.take(&answer)
    }

    /// One round: route, signal, move.
    #[inline]
    pub fn round(&mut self) -> Result<Report, Refusal> {
        let rounded = raw::round(&self.memory);
        accepted(rounded.refusal)?;
        self.memory = rounded.floor;
        Ok(Report::new(rounded.report, self.memory.settings.hoppers))
    }

    #[inline]
    fn take(&mut self, answer: &raw::Answer) -> Result<(), Refusal> {
        accepted(answer.refusal)?;
        self.memory = answer.floor;
        Ok(())
    }

    /// When at the latest: after so many rounds, with no accepted booking, stop or
    /// repair between them, every canister that can reach a hopper is delivered,
    /// and the others are still on the floor. The cap of a loop that runs until
    /// all is delivered; ask again after a booking, stop, repair or recall.
    #[inline]
    pub fn bound(&self) -> Result<Bound, Refusal> {
        let bounded = raw::bound(&self.memory);
        accepted(bounded.refusal)?;
        Ok(Bound {
            rounds: bounded.rounds,
            connected: bounded.connected,
            unconnected: bounded.unconnected,
        })
    }

    /// All that a tile has. Refused by [`Refusal::NoTile`].
    #[inline]
    pub fn read(&self, tile: u32) -> Result<Tile, Refusal> {
        let reading = raw::read(&self.memory, tile);
        accepted(reading.refusal)?;
        Ok(Tile { reading })
    }

    /// Writes an image, leaves the bytes after it and gives its length, which is
    /// never 0. Refused by [`Refusal::ShortBuffer`];
    /// [`LONGEST_IMAGE`](crate::LONGEST_IMAGE) bytes are enough for any floor.
    ///
    /// Don't make a 0 of a refusal: a program that stores no bytes leaves an
    /// empty file, and that loads as the standard floor.
    #[inline]
    pub fn write(&self, buffer: &mut [u8]) -> Result<usize, Refusal> {
        let written = raw::as_in_c::write(&self.memory, buffer);
        accepted(written.refusal)?;
        Ok(written.length as usize)
    }

    /// The image by itself.
    ///
    /// ```
    /// use ceromby::Floor;
    ///
    /// # fn main() -> Result<(), ceromby::Refusal> {
    /// let floor = Floor::load(&[])?;
    /// assert_eq!(Floor::load(&floor.to_image()?)?, floor);
    /// # Ok(())
    /// # }
    /// ```
    #[cfg(feature = "std")]
    pub fn to_image(&self) -> Result<std::vec::Vec<u8>, Refusal> {
        let mut image = std::vec![0; crate::LONGEST_IMAGE];
        let length = self.write(&mut image)?;
        image.truncate(length);
        Ok(image)
    }

    /// Writes the floor as lines of text, the north row first, leaves the bytes
    /// after them and gives their length, H x (8 x W + 2). Refused by
    /// [`Refusal::ShortPage`]; [`LONGEST_PAGE`] bytes are enough for any floor.
    /// A floor's `Display` is its page.
    #[inline]
    pub fn page(&self, buffer: &mut [u8]) -> Result<usize, Refusal> {
        let written = raw::as_in_c::page(&self.memory, buffer);
        accepted(written.refusal)?;
        Ok(written.length as usize)
    }

    /// What it was made with.
    pub fn settings(&self) -> &Settings {
        &self.memory.settings
    }

    /// Last number, booked, and delivered for each hopper in tile order.
    pub fn counters(&self) -> &Counters {
        &self.memory.counters
    }

    /// Each tile by its number. Nothing is called: what [`Floor::read`] would
    /// give is read where it stands.
    pub fn tiles(
        &self,
    ) -> impl DoubleEndedIterator<Item = (u32, Tile)> + ExactSizeIterator + Clone + '_ {
        let Settings { columns, rows, .. } = self.memory.settings;
        (0..u32::from(columns) * u32::from(rows)).map(|number| {
            let at = number as usize;
            let reading = raw::Reading {
                refusal: raw::refusal::ACCEPTED,
                tile: self.memory.tiles[at],
                members: core::array::from_fn(|place| self.memory.canisters[PLACES * at + place]),
            };
            (number, Tile { reading })
        })
    }

    /// The canisters on the floor, each with its tile: tile by tile, and by
    /// rising number on each.
    pub fn canisters(&self) -> impl DoubleEndedIterator<Item = (u32, Canister)> + Clone + '_ {
        let tiles = self.memory.tiles.iter().enumerate();
        tiles.flat_map(|(tile, head)| {
            let places = &self.memory.canisters[PLACES * tile..][..head.count.into()];
            places.iter().map(move |canister| (tile as u32, *canister))
        })
    }

    /// How many canisters are on the floor.
    pub fn aboard(&self) -> u32 {
        self.memory
            .tiles
            .iter()
            .map(|tile| u32::from(tile.count))
            .sum()
    }

    /// The layouts that are kept, by rising name.
    pub fn layouts(&self) -> impl DoubleEndedIterator<Item = Layout> + Clone + '_ {
        let used = self.memory.layouts.iter().filter(|layout| layout.name != 0);
        used.copied()
    }

    /// As C gets it.
    pub fn as_raw(&self) -> &raw::Floor {
        &self.memory
    }
}

/// Refused by [`Refusal::Malformed`] if it isn't well formed.
impl TryFrom<raw::Floor> for Floor {
    type Error = Refusal;

    fn try_from(memory: raw::Floor) -> Result<Floor, Refusal> {
        // a tile that is on no floor is tested after the floor
        match raw::read(&memory, u32::MAX).refusal {
            raw::refusal::NO_TILE => Ok(Floor { memory }),
            other => accepted(other).map(|()| Floor { memory }),
        }
    }
}

/// The page of a floor as text.
struct Page([u8; LONGEST_PAGE], usize);

impl Page {
    fn of(floor: &Floor) -> Result<Page, fmt::Error> {
        let mut buffer = [0; LONGEST_PAGE];
        let length = floor.page(&mut buffer).map_err(|_| fmt::Error)?;
        Ok(Page(buffer, length))
    }

    fn text(&self) -> Result<&str, fmt::Error> {
        core::str::from_utf8(&self.0[..self.1]).map_err(|_| fmt::Error)
    }
}

/// The page: a line for each row, the north row first; of each tile its
/// canisters, arrow and distance (`--` for none, `XX` on a stopped tile).
///
/// ```
/// let floor = ceromby::Floor::load(&[])?;
/// assert_eq!(floor.to_string().lines().next(), Some("| 0 - --| 0 - --| 0 - --| 0 - --|"));
/// # Ok::<(), ceromby::Refusal>(())
/// ```
impl fmt::Display for Floor {
    fn fmt(&self, f: &mut fmt::Formatter) -> fmt::Result {
        f.write_str(Page::of(self)?.text()?)
    }
}

/// Settings, counters, the page, turns, canisters and layouts: all that tells
/// two floors apart, and no unused place.
impl fmt::Debug for Floor {
    fn fmt(&self, f: &mut fmt::Formatter) -> fmt::Result {
        let page = Page::of(self)?;
        let turns = self
            .tiles()
            .filter_map(|(at, tile)| Some((at, tile.turn()?)));
        f.debug_struct("Floor")
            .field("settings", self.settings())
            .field("counters", self.counters())
            .field("page", &List(page.text()?.lines()))
            .field("turns", &Map(turns))
            .field("canisters", &List(self.canisters().map(At)))
            .field("layouts", &List(self.layouts()))
            .finish()
    }
}

/// One after the other.
struct List<I>(I);

impl<I> fmt::Debug for List<I>
where
    I: Iterator + Clone,
    I::Item: fmt::Debug,
{
    fn fmt(&self, f: &mut fmt::Formatter) -> fmt::Result {
        f.debug_list().entries(self.0.clone()).finish()
    }
}

/// A canister and its tile in a few words.
struct At((u32, Canister));

impl fmt::Debug for At {
    fn fmt(&self, f: &mut fmt::Formatter) -> fmt::Result {
        let (tile, Canister { number, a, b }) = self.0;
        write!(f, "{number} on {tile} at ({a}, {b})")
    }
}
