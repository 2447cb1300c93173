//! Whole-number roots for the rival, in three ways: as on the display panel, the same after a look at bounds, and as fast as whole numbers
//! allow. A root is begun first; what is begun often decides already, and then it is not ended.

/// A root that is begun: at least `root`, and below `root + place`.
#[derive(Clone, Copy)]
pub struct Begun {
    pub root: u64,
    pub place: u64,
}

/// The largest r with r² ≤ n, and the largest h with h³ ≤ d².
pub trait Roots {
    fn begin_square(of: u64) -> Begun;
    fn end_square(of: u64, begun: Begun) -> u64;
    fn begin_height(depth: u64) -> Begun;
    fn end_height(depth: u64, begun: Begun) -> u64;

    fn square(of: u64) -> u64 {
        Self::end_square(of, Self::begin_square(of))
    }

    fn height(depth: u64) -> u64 {
        Self::end_height(depth, Self::begin_height(depth))
    }
}

// ---------------------------------------------------------------- as on the display panel

/// Decimal, place by place from the top, each digit raised while its power still fits (docs/ROOTS.md). Two digits begin a root. The loops
/// are not inlined, so that they carry nothing but their own numbers.
pub struct Digits;

/// The places of a root with their squares and cubes.
const PLACES: [u64; 10] = powers_of(10);
const SQUARES: [u64; 10] = powers_of(100);
const CUBES: [u64; 7] = powers_of(1_000);

const fn powers_of<const MANY: usize>(base: u64) -> [u64; MANY] {
    let mut powers = [1; MANY];
    let mut at = 1;
    while at < MANY {
        powers[at] = powers[at - 1] * base;
        at += 1;
    }
    powers
}

/// How many places a root has: those whose powers fit.
#[inline(always)]
fn places(of: u64, powers: &[u64]) -> usize {
    powers.iter().take_while(|power| **power <= of).count()
}

/// The digit of one place.
#[inline(always)]
fn raise(of: u64, place: u64, root: u64, power: impl Fn(u64) -> u64) -> u64 {
    let mut next = root + place;
    while power(next) <= of {
        next += place;
    }
    next - place
}

#[inline(always)]
fn first_digits(of: u64, powers: &[u64], power: impl Fn(u64) -> u64 + Copy) -> Begun {
    let places = places(of, powers);
    if places < 2 {
        return Begun { root: raise(of, 1, 0, power), place: 1 };
    }
    let first = raise(of, PLACES[places - 1], 0, power);
    let place = PLACES[places - 2];
    Begun { root: raise(of, place, first, power), place }
}

#[inline(always)]
fn other_digits(of: u64, begun: Begun, power: impl Fn(u64) -> u64 + Copy) -> u64 {
    let Begun { mut root, mut place } = begun;
    while place > 1 {
        place /= 10;
        root = raise(of, place, root, power);
    }
    root
}

impl Roots for Digits {
    #[inline(never)]
    fn begin_square(of: u64) -> Begun {
        first_digits(of, &SQUARES, |x| x * x)
    }

    #[inline(never)]
    fn end_square(of: u64, begun: Begun) -> u64 {
        other_digits(of, begun, |x| x * x)
    }

    #[inline(never)]
    fn begin_height(depth: u64) -> Begun {
        first_digits(depth * depth, &CUBES, |x| x * x * x)
    }

    #[inline(never)]
    fn end_height(depth: u64, begun: Begun) -> u64 {
        other_digits(depth * depth, begun, |x| x * x * x)
    }
}

// ---------------------------------------------------------------- as on the display panel, after a look at bounds

/// A root is begun by a table of bounds, and no digit of it is tried; one that is ended is the panel's from its first digit on.
pub struct Bounded;

/// Numbers from one power of two to the next are cut into so many pieces, told apart by the bits after their first.
const PIECES: usize = 8;
const PIECE_BITS: u32 = PIECES.trailing_zeros();
/// The roots at the beginning of each piece, and at the end of the last: depths have at most 27 bits, slopes 37.
static HEIGHT_BOUNDS: [u32; 27 * PIECES + 1] = bounds(true);
static SQUARE_BOUNDS: [u32; 37 * PIECES + 1] = bounds(false);

const fn bounds<const MANY: usize>(height: bool) -> [u32; MANY] {
    let mut bounds = [0; MANY];
    let mut piece = 0;
    while piece < MANY {
        let least = (((PIECES + piece % PIECES) << (piece / PIECES)) + PIECES - 1) as u128 / PIECES as u128;
        bounds[piece] = largest(height, if height { least * least } else { least });
        piece += 1;
    }
    bounds
}

/// What the table says of the root of a number above 0.
#[inline(always)]
fn bounded(of: u64, bounds: &[u32]) -> Begun {
    let zeros = (of | 1).leading_zeros();
    let leading = (of << zeros >> (63 - PIECE_BITS)) as usize;
    let piece = PIECES * (63 - zeros as usize) + leading - PIECES;
    let root = bounds[piece] as u64;
    Begun { root, place: bounds[piece + 1] as u64 + 1 - root }
}

impl Roots for Bounded {
    #[inline(always)]
    fn begin_square(of: u64) -> Begun {
        bounded(of, &SQUARE_BOUNDS)
    }

    #[inline(always)]
    fn end_square(of: u64, _: Begun) -> u64 {
        Digits::square(of)
    }

    #[inline(always)]
    fn begin_height(depth: u64) -> Begun {
        bounded(depth, &HEIGHT_BOUNDS)
    }

    #[inline(always)]
    fn end_height(depth: u64, _: Begun) -> u64 {
        Digits::height(depth)
    }

    // wanted whole, they may be of any number, and bounds are of no use
    #[inline(always)]
    fn square(of: u64) -> u64 {
        Digits::square(of)
    }

    #[inline(always)]
    fn height(depth: u64) -> u64 {
        Digits::height(depth)
    }
}

// ---------------------------------------------------------------- as fast as whole numbers allow

/// A guess from a table of chords, which lie below their curve, raised to the root: begun, it is ended already.
pub struct Guesses;

/// A chord over one piece of a curve, in parts of 2^13: where it starts, and by how much it rises.
type Chord = [u32; 2];
const PARTS: u32 = 13;

/// Numbers are shifted up by pairs of bits to 2^36 and above for a square root, by threes to 2^24 and above for a height; a piece is 2^29
/// and 2^17 long.
const SQUARE_BITS: u32 = 38;
const SQUARE_PIECE: u32 = 29;
const HEIGHT_BITS: u32 = 27;
const HEIGHT_PIECE: u32 = 17;
static SQUARE_CHORDS: [Chord; 512] = chords(false);
static HEIGHT_CHORDS: [Chord; 1024] = chords(true);

/// The largest number below 2^32 whose square, or whose cube, is at most `of`.
const fn largest(cube: bool, of: u128) -> u32 {
    let mut root: u128 = 0;
    let mut bit = 1 << 31;
    while bit > 0 {
        let tried = root + bit;
        if tried * tried * (if cube { tried } else { 1 }) <= of {
            root = tried;
        }
        bit >>= 1;
    }
    root as u32
}

/// Where a piece begins: the square root there, or the height of a depth.
const fn start_of(height: bool, piece: usize) -> u32 {
    if height {
        let depth = (piece as u128) << HEIGHT_PIECE;
        return largest(true, (depth * depth) << (3 * PARTS));
    }
    largest(false, (piece as u128) << (SQUARE_PIECE + 2 * PARTS))
}

const fn chords<const PIECES: usize>(height: bool) -> [Chord; PIECES] {
    let mut chords = [[0; 2]; PIECES];
    let mut piece = 0;
    while piece < PIECES {
        let start = start_of(height, piece);
        chords[piece] = [start, start_of(height, piece + 1) - start];
        piece += 1;
    }
    chords
}

/// The chord's height at a number of `bits` bits.
#[inline(always)]
fn guess(chord: Chord, number: u64, piece: u32) -> u64 {
    let along = number & ((1 << piece) - 1);
    (chord[0] as u64 + (chord[1] as u64 * along >> piece)) >> PARTS
}

/// The square root of a number that is 0 or below 2^38.
#[inline(always)]
fn short_square(of: u64) -> u64 {
    let pairs = ((of | 1).leading_zeros() + SQUARE_BITS - 64) / 2;
    let number = of << (2 * pairs);
    let mut root = guess(SQUARE_CHORDS[(number >> SQUARE_PIECE) as usize & 511], number, SQUARE_PIECE) >> pairs;
    while (root + 1) * (root + 1) <= of {
        root += 1;
    }
    root
}

/// That of a larger one: half of it first, then one step of Newton's, which does not end below it.
#[cold]
fn long_square(of: u64) -> u64 {
    let pairs = (64 - SQUARE_BITS + 1 - of.leading_zeros()) / 2;
    let half = (short_square(of >> (2 * pairs)) + 1) << pairs;
    let mut root = (half + of / half) / 2;
    while root * root > of {
        root -= 1;
    }
    root
}

impl Roots for Guesses {
    #[inline(always)]
    fn begin_square(of: u64) -> Begun {
        let root = if of >> SQUARE_BITS == 0 { short_square(of) } else { long_square(of) };
        Begun { root, place: 1 }
    }

    #[inline(always)]
    fn end_square(_: u64, begun: Begun) -> u64 {
        begun.root
    }

    #[inline(always)]
    fn begin_height(depth: u64) -> Begun {
        let threes = ((depth | 1).leading_zeros() + HEIGHT_BITS - 64) / 3;
        let number = depth << (3 * threes);
        let mut root = guess(HEIGHT_CHORDS[(number >> HEIGHT_PIECE) as usize & 1023], number, HEIGHT_PIECE) >> (2 * threes);
        while (root + 1) * (root + 1) * (root + 1) <= depth * depth {
            root += 1;
        }
        Begun { root, place: 1 }
    }

    #[inline(always)]
    fn end_height(_: u64, begun: Begun) -> u64 {
        begun.root
    }
}
