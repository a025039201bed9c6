//! The functions of the C library, each with a call that is safe for every argument. This is the
//! one module with unsafe code: it passes slices as a pointer and a length, reads what the library
//! wrote, and keeps ranges as the library takes them.

use crate::Version;
use crate::MAX_LENGTH;
use std::alloc::{handle_alloc_error, Layout};
use std::cmp::Ordering;
use std::marker::PhantomData;
use std::mem::MaybeUninit;
use std::sync::Arc;
use std::{slice, str};

/// A status of the header.
pub(crate) type Status = u32;

pub(crate) const OK: Status = 0;
pub(crate) const NOTHING: Status = 1;
const TOO_SMALL: Status = 2;
pub(crate) const BAD_ARGUMENT: Status = 6;
pub(crate) const BAD_IDENTIFIER: Status = 7;
pub(crate) const NOT_A_PRERELEASE: Status = 8;
pub(crate) const OVERFLOW: Status = 9;
const NO_MEMORY: Status = 10;

/// What a new pre-release begins to count with.
pub(crate) const BASE_ZERO: u32 = 0;
pub(crate) const BASE_ONE: u32 = 1;
pub(crate) const BASE_NONE: u32 = 2;

/// How a text is read.
#[derive(Clone, Copy)]
pub(crate) enum Reading {
    /// Leniently, as the crate nodejs-semver does.
    Port = 0,
    /// As npm does.
    Npm = 1,
}

/// A text in an array of texts, or in a version that is kept.
#[repr(C)]
#[derive(Clone, Copy)]
pub(crate) struct Text<'a> {
    at: *const u8,
    len: usize,
    from: PhantomData<&'a [u8]>,
}

// SAFETY: a text is read alone, as the `&str` of which it is made.
unsafe impl Send for Text<'_> {}
// SAFETY: the same.
unsafe impl Sync for Text<'_> {}

impl<'a> Text<'a> {
    pub(crate) const EMPTY: Text<'static> = Text {
        at: "".as_ptr(),
        len: 0,
        from: PhantomData,
    };

    #[inline]
    pub(crate) fn of(text: &'a str) -> Text<'a> {
        Text {
            at: text.as_ptr(),
            len: text.len(),
            from: PhantomData,
        }
    }

    pub(crate) fn as_str(&self) -> &'a str {
        // SAFETY: it is made of a `&str` of that length, which lives as long.
        unsafe { str::from_utf8_unchecked(slice::from_raw_parts(self.at, self.len)) }
    }
}

/// A version that is kept.
#[repr(C)]
#[derive(Clone, Copy)]
pub(crate) struct Kept<'a> {
    pub(crate) numbers: [u64; 3],
    pub(crate) pre_release: Text<'a>,
    pub(crate) build: Text<'a>,
}

/// The parts of a version: its numbers, and how long its texts are.
#[repr(C)]
#[derive(Clone, Copy, Default)]
struct Parts {
    numbers: [u64; 3],
    pre_release_len: usize,
    build_len: usize,
}

/// Kinds of bounds.
pub(crate) const BOUND_NONE: u32 = 0;
pub(crate) const BOUND_CLOSED: u32 = 1;
pub(crate) const BOUND_OPEN: u32 = 2;

/// A bound that is kept. Without a bound the version is not looked at.
#[repr(C)]
#[derive(Clone, Copy, PartialEq, Hash)]
pub(crate) struct KeptBound<'a> {
    pub(crate) kind: u32,
    pub(crate) version: Kept<'a>,
}

/// An interval that is kept. A range is some of them.
#[repr(C)]
#[derive(Clone, Copy, PartialEq, Hash)]
pub(crate) struct KeptInterval<'a> {
    pub(crate) lower: KeptBound<'a>,
    pub(crate) upper: KeptBound<'a>,
}

/// What is told of a bound.
#[repr(C)]
#[derive(Clone, Copy, Default)]
struct BoundParts {
    kind: u32,
    version: Parts,
}

/// What is told of an interval.
#[repr(C)]
#[derive(Clone, Copy, Default)]
struct IntervalParts {
    lower: BoundParts,
    upper: BoundParts,
}

/// A word of a range text.
#[repr(C)]
#[derive(Clone, Copy, Default)]
pub(crate) struct Word {
    pub(crate) start: usize,
    pub(crate) end: usize,
    pub(crate) kind: u32,
}

type Bytes = *const u8;

/// Declares functions of the header that take the same arguments.
macro_rules! functions {
    ($($name:ident),+: $arguments:tt) => {
        extern "C" {
            $(fn $name $arguments -> Status;)+
        }
    };
}

/// Declares functions that tell a range: its intervals, and the texts of their bounds.
macro_rules! telling_a_range {
    ($($name:ident),+: ($($argument:ident: $type:ty,)*)) => {
        functions!($($name),+: (
            $($argument: $type,)*
            intervals: *mut IntervalParts,
            size: usize,
            count: *mut usize,
            out: *mut u8,
            out_size: usize,
            out_len: *mut usize,
        ));
    };
}

functions!(nodejs_semver_greatest, nodejs_semver_least: (
    range: *const KeptInterval,
    len: usize,
    versions: *const Kept,
    count: usize,
    include: bool,
    index: *mut usize,
));
functions!(nodejs_semver_meets, nodejs_semver_covers: (
    range: *const KeptInterval,
    len: usize,
    other: *const KeptInterval,
    other_len: usize,
    answer: *mut bool,
));
telling_a_range!(nodejs_semver_range_read: (
    reading: u32,
    range: Bytes,
    len: usize,
    include: bool,
));
telling_a_range!(nodejs_semver_intersect, nodejs_semver_difference: (
    range: *const KeptInterval,
    len: usize,
    other: *const KeptInterval,
    other_len: usize,
));

extern "C" {
    fn nodejs_semver_version_read(
        reading: u32,
        version: Bytes,
        len: usize,
        parts: *mut Parts,
        out: *mut u8,
        size: usize,
    ) -> Status;
    fn nodejs_semver_order(one: *const Kept, other: *const Kept, order: *mut i32) -> Status;
    fn nodejs_semver_kind(one: *const Kept, other: *const Kept, kind: *mut u32) -> Status;
    fn nodejs_semver_version_flaw(
        version: Bytes,
        len: usize,
        flaw: *mut u32,
        place: *mut usize,
    ) -> Status;
    fn nodejs_semver_range_ignored_words(
        range: Bytes,
        len: usize,
        words: *mut Word,
        size: usize,
        count: *mut usize,
    ) -> Status;
    fn nodejs_semver_next(
        version: *const Kept,
        word: Bytes,
        word_len: usize,
        id: Bytes,
        id_len: usize,
        base: u32,
        parts: *mut Parts,
        out: *mut u8,
        size: usize,
    ) -> Status;
    fn nodejs_semver_accepts(
        range: *const KeptInterval,
        len: usize,
        version: *const Kept,
        include: bool,
        answer: *mut bool,
    ) -> Status;
    fn nodejs_semver_lies_outside(
        range: *const KeptInterval,
        len: usize,
        version: *const Kept,
        above: bool,
        include: bool,
        answer: *mut bool,
    ) -> Status;
    fn nodejs_semver_least_version(
        range: *const KeptInterval,
        len: usize,
        parts: *mut Parts,
        out: *mut u8,
        size: usize,
    ) -> Status;
}

/// Ends the process, as `Vec` does where an allocation fails.
#[cold]
fn no_memory() -> ! {
    handle_alloc_error(Layout::new::<[usize; 2]>())
}

/// The status, unless it says that an allocation failed.
#[inline]
fn checked(status: Status) -> Status {
    if status == NO_MEMORY {
        no_memory();
    }
    status
}

/// The first items of an array.
///
/// # Safety
///
/// As many are written.
unsafe fn front<T, const N: usize>(array: &MaybeUninit<[T; N]>, len: usize) -> &[T] {
    // SAFETY: they are written, and no more than there are.
    unsafe { slice::from_raw_parts(array.as_ptr().cast(), len.min(N)) }
}

/// The text of identifiers, which are ASCII.
fn ascii(bytes: &[u8]) -> Option<&str> {
    // SAFETY: ASCII is UTF-8.
    bytes
        .is_ascii()
        .then(|| unsafe { str::from_utf8_unchecked(bytes) })
}

impl Parts {
    /// How long the texts are.
    fn len(&self) -> usize {
        self.pre_release_len.saturating_add(self.build_len)
    }

    /// Whether there are no texts.
    #[inline]
    fn is_release(&self) -> bool {
        self.pre_release_len | self.build_len == 0
    }

    /// The version with these texts. The library writes as many as the parts say, so that this does
    /// not fail.
    #[inline]
    fn version(&self, texts: &[u8]) -> Result<Version, Status> {
        let text = ascii(texts).ok_or(BAD_ARGUMENT)?;
        let (pre_release, build) = text.split_at(self.pre_release_len.min(text.len()));
        Ok(Version::of_texts(self.numbers, pre_release, build))
    }
}

/// The version that a call tells in parts, or the status.
#[inline]
fn version_told(
    call: impl Fn(&mut Parts, *mut u8, usize) -> Status + Copy,
) -> Result<Version, Status> {
    let (mut parts, mut few) = (Parts::default(), MaybeUninit::<[u8; MAX_LENGTH]>::uninit());
    match call(&mut parts, few.as_mut_ptr().cast(), MAX_LENGTH) {
        OK if parts.is_release() => Ok(Version::release(parts.numbers)),
        // SAFETY: by this status the texts are written to the front.
        OK => parts.version(unsafe { front(&few, parts.len()) }),
        TOO_SMALL => long_version_told(parts.len(), call),
        status => Err(checked(status)),
    }
}

/// The same where the texts have this length.
#[cold]
fn long_version_told(
    len: usize,
    call: impl Fn(&mut Parts, *mut u8, usize) -> Status,
) -> Result<Version, Status> {
    let (mut parts, mut texts) = (Parts::default(), vec![0; len]);
    match checked(call(&mut parts, texts.as_mut_ptr(), len)) {
        OK => parts.version(&texts),
        status => Err(status),
    }
}

/// Reads a version.
#[inline]
pub(crate) fn read(reading: Reading, version: &str) -> Result<Version, Status> {
    let (at, len) = (version.as_ptr(), version.len());
    // SAFETY: each pointer is of a slice with the length after it, and `parts` is a whole value.
    version_told(move |parts, out, size| unsafe {
        nodejs_semver_version_read(reading as u32, at, len, parts, out, size)
    })
}

/// The next version, and what the library says of the question.
#[inline]
pub(crate) fn next(version: &Kept, word: &str, id: &str, base: u32) -> Result<Version, Status> {
    let (word_len, id_len) = (word.len(), id.len());
    let (word, id) = (word.as_ptr(), id.as_ptr());
    // SAFETY: each pointer is of a slice with the length after it, or of a whole value.
    version_told(move |parts, out, size| unsafe {
        nodejs_semver_next(version, word, word_len, id, id_len, base, parts, out, size)
    })
}

/// The intervals of a range as the library takes them.
#[derive(Clone)]
pub(crate) struct KeptRange {
    // Their texts are parts of `texts`, whose bytes stay where they are and as they are.
    intervals: Arc<[KeptInterval<'static>]>,
    // None where they are parts of ZEROS. It is here to be kept as long.
    _texts: Option<Arc<str>>,
}

/// The texts of most ranges: the pre-release of each bound that has one is 0.
const ZEROS: &str = "00000000";

/// The next characters of an ASCII text, or as many as there are.
///
/// # Safety
///
/// It is ASCII, and its bytes are there as long as what is returned.
unsafe fn next_text(left: &mut &[u8], len: usize) -> Text<'static> {
    let (text, rest) = left.split_at(len.min(left.len()));
    *left = rest;
    Text {
        at: text.as_ptr(),
        len: text.len(),
        from: PhantomData,
    }
}

impl BoundParts {
    /// The bound, whose texts are zeros.
    #[inline]
    fn kept_zeros(&self) -> KeptBound<'static> {
        let zeros = |len: usize| Text {
            at: ZEROS.as_ptr(),
            len: len.min(ZEROS.len()),
            from: PhantomData,
        };
        let Parts {
            numbers,
            pre_release_len,
            build_len,
        } = self.version;
        KeptBound {
            kind: self.kind,
            version: Kept {
                numbers,
                pre_release: zeros(pre_release_len),
                build: zeros(build_len),
            },
        }
    }

    /// The bound, whose texts are the next ones of these.
    ///
    /// # Safety
    ///
    /// They are ASCII, and their bytes are there as long as what is returned.
    #[inline]
    unsafe fn kept(&self, texts: &mut &[u8]) -> KeptBound<'static> {
        let Parts {
            numbers,
            pre_release_len,
            build_len,
        } = self.version;
        let (pre_release, build) = match pre_release_len | build_len {
            0 => (Text::EMPTY, Text::EMPTY),
            // SAFETY: the same is asked for here.
            _ => unsafe {
                (
                    next_text(texts, pre_release_len),
                    next_text(texts, build_len),
                )
            },
        };
        KeptBound {
            kind: self.kind,
            version: Kept {
                numbers,
                pre_release,
                build,
            },
        }
    }
}

impl IntervalParts {
    /// The interval, whose texts are the next ones of these.
    ///
    /// # Safety
    ///
    /// They are ASCII, and their bytes are there as long as what is returned.
    #[inline]
    unsafe fn kept(&self, texts: &mut &[u8]) -> KeptInterval<'static> {
        // SAFETY: the same is asked for here.
        unsafe {
            KeptInterval {
                lower: self.lower.kept(texts),
                upper: self.upper.kept(texts),
            }
        }
    }
}

impl KeptRange {
    /// The range of one interval without bounds.
    pub(crate) fn any() -> KeptRange {
        let none = KeptBound {
            kind: BOUND_NONE,
            version: Kept {
                numbers: [0; 3],
                pre_release: Text::EMPTY,
                build: Text::EMPTY,
            },
        };
        KeptRange {
            intervals: Arc::new([KeptInterval {
                lower: none,
                upper: none,
            }]),
            _texts: None,
        }
    }

    /// The range of some parts, whose texts are these.
    #[inline]
    fn of(told: &[IntervalParts], texts: &[u8]) -> Result<KeptRange, Status> {
        match (told, texts) {
            // Each text is empty, or it is the one that has a character.
            ([one], [] | [b'0']) => Ok(KeptRange {
                intervals: Arc::new([KeptInterval {
                    lower: one.lower.kept_zeros(),
                    upper: one.upper.kept_zeros(),
                }]),
                _texts: None,
            }),
            _ => KeptRange::of_many(told, texts),
        }
    }

    /// The same of several intervals, or with other texts.
    #[cold]
    fn of_many(told: &[IntervalParts], texts: &[u8]) -> Result<KeptRange, Status> {
        let texts = ascii(texts).ok_or(BAD_ARGUMENT)?;
        let texts = (!ZEROS.starts_with(texts)).then(|| Arc::<str>::from(texts));
        let mut left = texts.as_deref().unwrap_or(ZEROS).as_bytes();
        // SAFETY: the texts are ASCII. Who has an interval has them too, or they are ZEROS.
        let intervals = told.iter().map(|it| unsafe { it.kept(&mut left) });
        Ok(KeptRange {
            intervals: intervals.collect(),
            _texts: texts,
        })
    }

    #[inline]
    pub(crate) fn intervals(&self) -> &[KeptInterval<'_>] {
        &self.intervals
    }
}

/// Where a call tells the intervals of a range: the parts and their room, the texts and theirs.
struct Room(*mut IntervalParts, usize, *mut u8, usize);

/// The range that a call tells, or the status: it says how many intervals there are, and how long
/// the texts. Most fit into the first room.
#[inline]
fn range_told(
    call: impl Fn(Room, &mut usize, &mut usize) -> Status + Copy,
) -> Result<KeptRange, Status> {
    const FEW: usize = 4;
    let mut few = MaybeUninit::<[IntervalParts; FEW]>::uninit();
    let mut short = MaybeUninit::<[u8; MAX_LENGTH]>::uninit();
    let room = Room(
        few.as_mut_ptr().cast(),
        FEW,
        short.as_mut_ptr().cast(),
        MAX_LENGTH,
    );
    let (mut count, mut len) = (0, 0);
    match call(room, &mut count, &mut len) {
        OK => {
            // SAFETY: by this status as many are written to the front of each.
            let (told, texts) = unsafe { (front(&few, count), front(&short, len)) };
            KeptRange::of(told, texts)
        }
        TOO_SMALL => long_range_told(count, len, call),
        status => Err(checked(status)),
    }
}

/// The same where there are so many intervals, and their texts have this length.
#[cold]
fn long_range_told(
    mut count: usize,
    mut len: usize,
    call: impl Fn(Room, &mut usize, &mut usize) -> Status,
) -> Result<KeptRange, Status> {
    let (mut told, mut texts) = (vec![IntervalParts::default(); count], vec![0; len]);
    let room = Room(told.as_mut_ptr(), count, texts.as_mut_ptr(), len);
    match checked(call(room, &mut count, &mut len)) {
        OK => KeptRange::of(&told, &texts),
        status => Err(status),
    }
}

/// Reads a range.
#[inline]
pub(crate) fn read_range(reading: Reading, range: &str) -> Result<KeptRange, Status> {
    let (at, len) = (range.as_ptr(), range.len());
    // SAFETY: each pointer is of a slice with the length after it.
    range_told(move |Room(parts, count, out, size), told, out_len| unsafe {
        let reading = reading as u32;
        nodejs_semver_range_read(
            reading, at, len, false, parts, count, told, out, size, out_len,
        )
    })
}

/// A question about two ranges whose answer is a range.
pub(crate) enum Operation {
    Intersect,
    Difference,
}

/// What two ranges have in common, or the first without the second.
pub(crate) fn combine(
    how: Operation,
    range: &[KeptInterval],
    other: &[KeptInterval],
) -> Result<KeptRange, Status> {
    let call = match how {
        Operation::Intersect => nodejs_semver_intersect,
        Operation::Difference => nodejs_semver_difference,
    };
    let (one, len) = (range.as_ptr(), range.len());
    let (two, other_len) = (other.as_ptr(), other.len());
    // SAFETY: each pointer is of a slice with the length after it. The texts live as long.
    range_told(move |Room(parts, count, out, size), told, out_len| unsafe {
        call(
            one, len, two, other_len, parts, count, told, out, size, out_len,
        )
    })
}

/// The smallest version of a range.
pub(crate) fn min_version(range: &[KeptInterval]) -> Result<Version, Status> {
    // SAFETY: each pointer is of a slice with the length after it. The texts live as long.
    version_told(move |parts, out, size| unsafe {
        nodejs_semver_least_version(range.as_ptr(), range.len(), parts, out, size)
    })
}

/// The answer of a call, or the status.
#[inline]
fn answered<T: Default>(call: impl FnOnce(&mut T) -> Status) -> Result<T, Status> {
    let mut answer = T::default();
    match checked(call(&mut answer)) {
        OK => Ok(answer),
        status => Err(status),
    }
}

/// Whether a range accepts a version.
#[inline]
pub(crate) fn accepts(
    range: &[KeptInterval],
    version: &Kept,
    include: bool,
) -> Result<bool, Status> {
    // SAFETY: the pointer is of a slice with that length. The texts live as long.
    answered(|answer| unsafe {
        nodejs_semver_accepts(range.as_ptr(), range.len(), version, include, answer)
    })
}

/// Whether a version lies above a range, or below it.
#[inline]
pub(crate) fn outside(
    range: &[KeptInterval],
    version: &Kept,
    above: bool,
    include: bool,
) -> Result<bool, Status> {
    // SAFETY: the pointer is of a slice with that length. The texts live as long.
    answered(|answer| unsafe {
        nodejs_semver_lies_outside(range.as_ptr(), range.len(), version, above, include, answer)
    })
}

/// Whether an interval of the first range covers one of the second.
#[inline]
pub(crate) fn covers(range: &[KeptInterval], other: &[KeptInterval]) -> Result<bool, Status> {
    // SAFETY: each pointer is of a slice with the length after it. The texts live as long.
    answered(|answer| unsafe {
        nodejs_semver_covers(
            range.as_ptr(),
            range.len(),
            other.as_ptr(),
            other.len(),
            answer,
        )
    })
}

/// Whether two ranges have something in common.
#[inline]
pub(crate) fn meets(range: &[KeptInterval], other: &[KeptInterval]) -> Result<bool, Status> {
    // SAFETY: each pointer is of a slice with the length after it. The texts live as long.
    answered(|answer| unsafe {
        nodejs_semver_meets(
            range.as_ptr(),
            range.len(),
            other.as_ptr(),
            other.len(),
            answer,
        )
    })
}

/// The place of the greatest version that a range accepts, or of the smallest.
pub(crate) fn best(
    range: &[KeptInterval],
    versions: &[Kept],
    is_greatest: bool,
) -> Result<usize, Status> {
    let call = match is_greatest {
        true => nodejs_semver_greatest,
        false => nodejs_semver_least,
    };
    // SAFETY: each pointer is of a slice with the length after it. The texts live as long.
    answered(|index| unsafe {
        call(
            range.as_ptr(),
            range.len(),
            versions.as_ptr(),
            versions.len(),
            false,
            index,
        )
    })
}

/// The order of two versions that are kept.
#[inline]
pub(crate) fn order(one: &Kept, other: &Kept) -> Result<Ordering, Status> {
    // SAFETY: both are whole values, whose texts live as long as they do.
    let order = answered(|order| unsafe { nodejs_semver_order(one, other, order) })?;
    Ok(order.cmp(&0))
}

/// The number of the kind of difference between two versions that are kept.
#[inline]
pub(crate) fn kind(one: &Kept, other: &Kept) -> Result<u32, Status> {
    // SAFETY: both are whole values, whose texts live as long as they do.
    answered(|kind| unsafe { nodejs_semver_kind(one, other, kind) })
}

/// What is wrong with a version text, and at which byte.
pub(crate) fn version_flaw(version: &str) -> Option<(u32, usize)> {
    let (mut flaw, mut place) = (0, 0);
    let (at, len) = (version.as_ptr(), version.len());
    // SAFETY: the pointer is of a slice with that length.
    let status = unsafe { nodejs_semver_version_flaw(at, len, &mut flaw, &mut place) };
    (checked(status) == OK).then_some((flaw, place))
}

/// The words of a range text that are ignored.
pub(crate) fn ignored_words(range: &str) -> Vec<Word> {
    let (at, len) = (range.as_ptr(), range.len());
    let (mut words, mut count) = (vec![Word::default(); 4], 0);
    loop {
        // SAFETY: each pointer is of a slice with the length after it.
        let status = unsafe {
            let size = words.len();
            nodejs_semver_range_ignored_words(at, len, words.as_mut_ptr(), size, &mut count)
        };
        if status != TOO_SMALL || count <= words.len() {
            words.truncate(if status == OK { count } else { 0 });
            return words;
        }
        words.resize(count, Word::default());
    }
}
