//! Rates of false positives.

use crate::Error;
use std::str::FromStr;

/// A rate of false positives, as a fraction above 0 and below 1.
///
/// Two rates are equal where they are the same number. One of 1 and above, which the Rust crate
/// takes, is refused: it is mostly the inverse of the one that was meant.
///
/// ```
/// use fastbloom_c::{Error, Rate};
///
/// let rate = Rate::new(1, 1000)?;
/// assert_eq!((rate.num(), rate.den()), (1, 1000));
/// assert_eq!(rate, Rate::new(2, 2000)?);
/// assert_eq!(Rate::new(0, 5), Err(Error::ZeroRate));
/// assert_eq!(Rate::new(1000, 1), Err(Error::NotARate));
/// # Ok::<(), Error>(())
/// ```
#[derive(Clone, Copy, Debug)]
pub struct Rate {
    num: u64,
    den: u64,
}

impl Rate {
    /// The rate `num / den`.
    ///
    /// ```
    /// # use fastbloom_c::{Error, Rate};
    /// assert_eq!(Rate::new(1, 1000), "0.001".parse());
    /// assert_eq!(Rate::new(1, 0), Err(Error::ZeroRate));
    /// ```
    ///
    /// # Errors
    /// [`Error::ZeroRate`] where a part is zero, and [`Error::NotARate`] for a rate of 1 and above.
    pub fn new(num: u64, den: u64) -> Result<Rate, Error> {
        if num == 0 || den == 0 {
            return Err(Error::ZeroRate);
        }
        if num >= den {
            return Err(Error::NotARate);
        }
        Ok(Rate { num, den })
    }

    /// The upper part, as given.
    ///
    /// ```
    /// # use fastbloom_c::Rate;
    /// assert_eq!(Rate::new(2, 2000)?.num(), 2);
    /// # Ok::<(), fastbloom_c::Error>(())
    /// ```
    pub fn num(&self) -> u64 {
        self.num
    }

    /// The lower part, as given.
    ///
    /// ```
    /// # use fastbloom_c::Rate;
    /// assert_eq!(Rate::new(2, 2000)?.den(), 2000);
    /// # Ok::<(), fastbloom_c::Error>(())
    /// ```
    pub fn den(&self) -> u64 {
        self.den
    }

    /// Half of it, with the same upper part.
    pub(crate) fn half(self) -> Result<Rate, Error> {
        let den = self.den.checked_mul(2).ok_or(Error::NotARate)?;
        Rate::new(self.num, den)
    }
}

impl PartialEq for Rate {
    fn eq(&self, other: &Rate) -> bool {
        u128::from(self.num) * u128::from(other.den) == u128::from(other.num) * u128::from(self.den)
    }
}

impl Eq for Rate {}

/// Reads a rate below 1: a fraction such as `1/1000`, or a decimal number such as `0.001` or `1e-3`.
///
/// ```
/// use fastbloom_c::{Error, Rate};
///
/// for text in ["1/1000", "0.001", "1e-3", "10E-4", ".001"] {
///     assert_eq!(text.parse(), Rate::new(1, 1000));
/// }
/// for text in ["1", "2/2", "0", "-0.1", "a tenth", "1e-30", ""] {
///     assert_eq!(text.parse::<Rate>(), Err(Error::NotARate));
/// }
/// ```
impl FromStr for Rate {
    type Err = Error;

    fn from_str(text: &str) -> Result<Rate, Error> {
        let fraction = match text.split_once('/') {
            Some((num, den)) => digits(num).zip(digits(den)),
            None => decimal(text),
        };
        let (num, den) = fraction.ok_or(Error::NotARate)?;
        if num == 0 || num >= den {
            return Err(Error::NotARate);
        }
        let common = greatest_divisor(num, den);
        match (u64::try_from(num / common), u64::try_from(den / common)) {
            (Ok(num), Ok(den)) => Rate::new(num, den),
            _ => Err(Error::NotARate),
        }
    }
}

/// The rate of the shortest decimal number that is this float.
///
/// ```
/// use fastbloom_c::{Error, Rate};
///
/// assert_eq!(Rate::try_from(0.001), Rate::new(1, 1000));
/// for number in [0.0, -0.5, 1.0, 1.5, f64::NAN, f64::INFINITY, 1e-30] {
///     assert_eq!(Rate::try_from(number), Err(Error::NotARate));
/// }
/// ```
impl TryFrom<f64> for Rate {
    type Error = Error;

    fn try_from(number: f64) -> Result<Rate, Error> {
        format!("{number:e}").parse()
    }
}

/// The longest number that is read, in digits. One of more has parts of 2^64 and above, unless it
/// has needless zeros.
const LONGEST: usize = 38;

/// A number of nothing but decimal digits.
fn digits(text: &str) -> Option<u128> {
    let all = text.bytes().all(|byte| byte.is_ascii_digit());
    (all && !text.is_empty() && text.len() <= LONGEST).then(|| text.parse().ok())?
}

/// The two parts of a decimal number.
fn decimal(text: &str) -> Option<(u128, u128)> {
    let (mantissa, exponent) = text.split_once(['e', 'E']).unwrap_or((text, "0"));
    let (whole, rest) = mantissa.split_once('.').unwrap_or((mantissa, ""));
    let num = digits(&format!("{whole}{rest}"))?;
    // The number is `num`, by ten as often as this says.
    let places = i64::from(exponent.parse::<i16>().ok()?) - i64::try_from(rest.len()).ok()?;
    let power = 10u128.checked_pow(u32::try_from(places.unsigned_abs()).ok()?)?;
    if places < 0 {
        Some((num, power))
    } else {
        Some((num.checked_mul(power)?, 1))
    }
}

/// The greatest common divisor of two numbers that aren't both zero.
fn greatest_divisor(mut one: u128, mut other: u128) -> u128 {
    while other != 0 {
        (one, other) = (other, one % other);
    }
    one
}

/// The rate 1, in the units of a [`Bracket`].
const ONE: u64 = 1 << 63;

/// Two bounds of a rate, or of a part, in units of 2^-63.
///
/// ```
/// use fastbloom_c::BloomFilter;
///
/// let seen = BloomFilter::with_num_bits(64)?.hashes(2);
/// let rate = seen.expected_false_pos(1);
/// assert!(rate.low() <= rate.high() && rate.high() <= 1 << 63);
/// # Ok::<(), fastbloom_c::Error>(())
/// ```
#[derive(Clone, Copy, Debug, PartialEq, Eq)]
pub struct Bracket {
    pub(crate) low: u64,
    pub(crate) high: u64,
}

impl Bracket {
    /// The bounds that the library tells of a filter.
    pub(crate) fn of_filter((low, high): (u64, u64)) -> Bracket {
        Bracket { low, high }
    }

    /// Bounds of the rate at which one of two filters errs, however their replies depend on each
    /// other.
    pub(crate) fn of_either(self, other: Bracket) -> Bracket {
        Bracket {
            low: self.low.max(other.low),
            high: self.high.saturating_add(other.high).min(ONE),
        }
    }

    /// The lower bound.
    ///
    /// ```
    /// # use fastbloom_c::BloomFilter;
    /// // Half of the bits are set.
    /// let seen = BloomFilter::from_vec(vec![u64::MAX, 0])?.hashes(1);
    /// assert_eq!(seen.false_pos_now().low(), 1 << 62);
    /// # Ok::<(), fastbloom_c::Error>(())
    /// ```
    pub fn low(&self) -> u64 {
        self.low
    }

    /// The upper bound.
    ///
    /// ```
    /// # use fastbloom_c::BloomFilter;
    /// // Half of the bits are set.
    /// let seen = BloomFilter::from_vec(vec![u64::MAX, 0])?.hashes(1);
    /// assert_eq!(seen.false_pos_now().high(), 1 << 62);
    /// # Ok::<(), fastbloom_c::Error>(())
    /// ```
    pub fn high(&self) -> u64 {
        self.high
    }

    /// About the middle of the bounds, as a number from 0 to 1.
    ///
    /// ```
    /// use fastbloom_c::BloomFilter;
    ///
    /// // One item sets at most one of 64 bits.
    /// let seen = BloomFilter::with_num_bits(64)?.hashes(1);
    /// assert_eq!(seen.expected_false_pos(1).to_f64(), 1.0 / 64.0);
    /// # Ok::<(), fastbloom_c::Error>(())
    /// ```
    pub fn to_f64(&self) -> f64 {
        (self.low as f64 + self.high as f64) / 2f64.powi(64)
    }
}
