//! The dispatcher: slices of one budget of cycles for sixteen callers.

#![forbid(unsafe_code)]

use crate::cursor::NotZero;
use crate::refusal::{refusals, result};
use crate::words;
use core::fmt;
use core::ops::Range;

/// How many callers there are: 0 to 15.
pub const CALLERS: usize = 16;
/// The most cycles that a turn grants.
pub const MAX_SLICE: u64 = 4096;
/// The most cycles that a caller may want after an add.
pub const MAX_WANTED: u64 = 1 << 32;
/// The words of a dispatcher, in the order of the library's interface. The constants of
/// [`Dispatcher`] are the places in them.
pub const DISPATCHER_WORDS: usize = 18;

refusals! {
    /// Why an add or a turn was refused, by the names of the C header. The dispatcher has
    /// not changed then. If there are both reasons, it is the one of the lower number.
    DispatchRefusal:
    /// The caller of an add is no caller, [`CALLERS`] or above, or the circle position of
    /// the dispatcher is none.
    NoCaller = 11, "the caller or the circle position is {CALLERS} or above";
    /// The sum that the caller of an add wants would be over [`MAX_WANTED`].
    TooMuchWanted = 12, "the sum that the caller wants would be over {MAX_WANTED}";
}

impl DispatchRefusal {
    const TURN: [Self; 1] = [Self::NoCaller];
}

/// A slice that a turn has granted.
#[derive(Clone, Copy, Debug, PartialEq, Eq, Hash)]
pub struct Grant {
    /// Who is granted it: a caller below [`CALLERS`].
    pub caller: usize,
    /// Its cycles, 1 to [`MAX_SLICE`].
    pub cycles: u64,
}

/// Grants slices of one budget of cycles, shared by all, to callers 0 to 15 in turn.
///
/// Each [`add`](Self::add) is of cycles that a caller wants. Each [`turn`](Self::turn)
/// grants a slice to the next caller, in circle order, that wants any. A caller that
/// wants any is granted a slice within 16 turns, if before the last of them there is
/// budget left. The slices granted and the budget left are together the opening budget.
///
/// A dispatcher knows no machine. That a slice is run, by a
/// [`segment`](crate::segment()) call of its cycles on the caller's cursor, is its user's
/// part. A caller whose machine has halted is granted slices like any other, and they are
/// run as padding. Run the slices of one caller, in order, on a cursor that was fresh,
/// with the same rows: if no call is refused, the joined log and the last cursor depend
/// on the sum of the slices alone.
///
/// ```
/// use magnetar_cpu::{segment, start, Cursor, DispatchRefusal, Dispatcher};
/// use magnetar_cpu::{CALLERS, MAX_SLICE, RECORD_WORDS};
///
/// let rows = [0x0055_0513, 0xffdf_f06f]; // addi x10, x10, 5; jal x0, to the addi
/// let mut cursors: [Cursor; CALLERS] = std::array::from_fn(|_| start(&[]));
/// let mut records = vec![0; RECORD_WORDS * MAX_SLICE as usize];
///
/// let mut dispatcher = Dispatcher::start(10_000);
/// dispatcher.add(3, 5_000)?;
/// dispatcher.add(9, 100)?;
/// let mut grants = Vec::new();
/// while let Some(grant) = dispatcher.turn()? {
///     let cursor = &mut cursors[grant.caller];
///     segment(&rows, cursor, grant.cycles, &mut records).expect("accepted");
///     grants.push((grant.caller, grant.cycles));
/// }
/// assert_eq!(grants, [(3, 4096), (9, 100), (3, 904)]);
/// assert_eq!(dispatcher.budget(), 4_900);
/// assert_eq!(cursors[9].regs()[10], 50 * 5);
///
/// let mut cursor = start(&[]);
/// let mut log = vec![0; RECORD_WORDS * 5_000];
/// segment(&rows, &mut cursor, 5_000, &mut log).expect("accepted");
/// assert_eq!(cursor, cursors[3]);
/// # Ok::<(), DispatchRefusal>(())
/// ```
///
/// Dispatchers are equal if all their words are. `{}` has in one line the position, the
/// budget and who waits; `{:?}` also what each of these wants.
#[derive(Clone, PartialEq, Eq)]
pub struct Dispatcher {
    image: [u64; DISPATCHER_WORDS],
}

impl Dispatcher {
    /// The places of what the callers want, of caller 0 first.
    pub const WANTED: Range<usize> = 0..CALLERS;
    /// The circle position: the caller at which the next turn's search starts.
    pub const POSITION: usize = 16;
    /// The cycles of the budget that are left.
    pub const BUDGET: usize = 17;

    /// A fresh dispatcher with this budget: nobody wants any, and the circle starts at
    /// caller 0. Nothing is refused.
    ///
    /// With a budget of at most [`MAX_TOTAL_CYCLES`](crate::MAX_TOTAL_CYCLES) a segment
    /// call of a slice never meets
    /// [`Refusal::TooManyCycles`](crate::Refusal::TooManyCycles), if its cursor was fresh
    /// before the caller's first slice and has run its slices alone.
    ///
    /// # Panics
    ///
    /// If the library is of another version: [`cursor_words`](crate::cursor_words()).
    pub fn start(budget: u64) -> Self {
        let mut image = [0; DISPATCHER_WORDS];
        words::dispatcher_start(budget, &mut image);
        Dispatcher { image }
    }

    /// Any words will do; a call refuses those that it cannot go on from.
    pub fn new(image: [u64; DISPATCHER_WORDS]) -> Self {
        Dispatcher { image }
    }

    /// All words, for example to store them.
    pub fn image(&self) -> &[u64; DISPATCHER_WORDS] {
        &self.image
    }

    /// All words, to be changed.
    pub fn image_mut(&mut self) -> &mut [u64; DISPATCHER_WORDS] {
        &mut self.image
    }

    /// The caller wants so many cycles more.
    ///
    /// ```
    /// use magnetar_cpu::{DispatchRefusal, Dispatcher, MAX_WANTED};
    ///
    /// let mut dispatcher = Dispatcher::start(8);
    /// dispatcher.add(15, MAX_WANTED)?;
    /// assert_eq!(dispatcher.add(15, 1), Err(DispatchRefusal::TooMuchWanted));
    /// assert_eq!(dispatcher.add(16, 1), Err(DispatchRefusal::NoCaller));
    /// assert_eq!(dispatcher.wanted(15), MAX_WANTED);
    /// # Ok::<(), DispatchRefusal>(())
    /// ```
    ///
    /// # Errors
    ///
    /// The dispatcher is left as it was. In this order:
    /// - [`DispatchRefusal::NoCaller`], 11: the caller or the circle position is
    ///   [`CALLERS`] or above.
    /// - [`DispatchRefusal::TooMuchWanted`], 12: what the caller wants and `cycles` are
    ///   over [`MAX_WANTED`] together, also if `cycles` is 0.
    ///
    /// # Panics
    ///
    /// If the library's answer is none of its numbers, or if the library is of another
    /// version: [`cursor_words`](crate::cursor_words()).
    pub fn add(&mut self, caller: usize, cycles: u64) -> Result<(), DispatchRefusal> {
        let answer = words::dispatcher_add(&mut self.image, caller as u64, cycles);
        result("magnetar_dispatcher_add", answer, DispatchRefusal::ALL)
    }

    /// Grants a slice to the next caller that wants any, from the circle position on and
    /// after caller 15 from caller 0 on: the least of [`MAX_SLICE`], what the caller wants
    /// and the budget. What the caller wants and the budget fall by it, and the position
    /// goes to the caller after this one.
    ///
    /// `None` if the budget is 0 or nobody wants any. The dispatcher is left as it was
    /// then.
    ///
    /// No call gives a slice back. If the segment call for it is refused, make that call
    /// again with what suffices, or go on from a clone that was made before the turn:
    ///
    /// ```
    /// use magnetar_cpu::{segment, start, DispatchRefusal, Dispatcher, RECORD_WORDS};
    ///
    /// let (rows, mut cursor) = ([0x0000_006f], start(&[])); // jal x0, to itself
    /// let mut records = [0; RECORD_WORDS];
    /// let mut dispatcher = Dispatcher::start(10);
    /// dispatcher.add(0, 3)?;
    /// let before = dispatcher.clone();
    /// let grant = dispatcher.turn()?.expect("caller 0 waits");
    /// assert_eq!((grant.cycles, dispatcher.budget()), (3, 7));
    /// if segment(&rows, &mut cursor, grant.cycles, &mut records).is_err() {
    ///     dispatcher = before; // there was room for one record
    /// }
    /// assert_eq!((dispatcher.wanted(0), dispatcher.budget()), (3, 10));
    /// # Ok::<(), DispatchRefusal>(())
    /// ```
    ///
    /// # Errors
    ///
    /// The dispatcher is left as it was:
    /// - [`DispatchRefusal::NoCaller`], 11: the circle position is [`CALLERS`] or above,
    ///   also if there is nothing to grant.
    ///
    /// # Panics
    ///
    /// As for [`add`](Self::add).
    pub fn turn(&mut self) -> Result<Option<Grant>, DispatchRefusal> {
        let (mut caller, mut cycles) = (0, 0);
        let answer = words::dispatcher_turn(&mut self.image, &mut caller, &mut cycles);
        result("magnetar_dispatcher_turn", answer, &DispatchRefusal::TURN)?;
        let caller = usize::try_from(caller).expect("a caller, or how many there are");
        Ok((caller < CALLERS).then_some(Grant { caller, cycles }))
    }

    /// The cycles that a caller wants.
    ///
    /// # Panics
    ///
    /// If `caller` is 16 or more.
    pub fn wanted(&self, caller: usize) -> u64 {
        self.image[Self::WANTED][caller]
    }

    /// The circle position: the caller at which the next turn's search starts.
    pub fn position(&self) -> u64 {
        self.image[Self::POSITION]
    }

    /// The cycles of the budget that are left.
    pub fn budget(&self) -> u64 {
        self.image[Self::BUDGET]
    }
}

impl From<[u64; DISPATCHER_WORDS]> for Dispatcher {
    fn from(image: [u64; DISPATCHER_WORDS]) -> Self {
        Dispatcher::new(image)
    }
}

impl From<Dispatcher> for [u64; DISPATCHER_WORDS] {
    fn from(dispatcher: Dispatcher) -> Self {
        dispatcher.image
    }
}

impl fmt::Display for Dispatcher {
    fn fmt(&self, f: &mut fmt::Formatter) -> fmt::Result {
        let (position, budget) = (self.position(), self.budget());
        write!(f, "position {position}, budget {budget}; waiting")?;
        if self.image[Self::WANTED] == [0; CALLERS] {
            return f.write_str(" none");
        }
        let mut waiting = (0..CALLERS).filter(|&caller| self.wanted(caller) != 0);
        waiting.try_for_each(|caller| write!(f, " {caller}"))
    }
}

impl fmt::Debug for Dispatcher {
    fn fmt(&self, f: &mut fmt::Formatter) -> fmt::Result {
        f.debug_struct("Dispatcher")
            .field("wanted", &NotZero(&self.image[Self::WANTED]))
            .field("position", &self.position())
            .field("budget", &self.budget())
            .finish()
    }
}
