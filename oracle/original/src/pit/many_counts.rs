//! Many counts, made by the original's own `count()`: one by one, with whole turns left out of very long runs, and from every element at once.

use super::record::{dump, load, Record};
use super::*;

/// So many counts are always made one by one.
const STEPPED: u32 = 200_000;

/// After so many counts every run goes round in whole turns. In binary it does from the first count on. In BCD a start with digits above 9 does not, but none takes more than 6,666 counts, those from
/// 0xFFFF, until its digits are decimal. Nothing here takes that on trust: compare/src/turns.rs asks the original, from every start.
pub const SETTLED: u32 = 20_000;

/// Counts after which a run that has settled is where it was.
pub const fn turn(bcd: bool) -> u32 {
    if bcd {
        10_000
    } else {
        65_536
    }
}

/// The same number of counts with whole turns left out, as far as it stays settled and a turn above that; 4,294,967,295 single counts would take seconds.
fn without_turns(number: u32, bcd: bool) -> u32 {
    let least = SETTLED + turn(bcd);
    if number <= STEPPED {
        number
    } else {
        least + (number - least) % turn(bcd)
    }
}

/// Single counts, one by one. In a function of its own the compiler sees that the radix stands, and in binary makes one subtraction of all.
#[inline(never)]
fn step(channel: &mut Channel, number: u32) {
    (0..number).for_each(|_| channel.count());
}

/// Calls of counts by the thousand, from 1,000 on.
#[derive(Default)]
pub struct Thousands {
    binary: u64,
    good_digits: u64,
    bad_digits: u64,
    /// Of these, the ones of which whole turns were left out.
    turned: u64,
}

impl Thousands {
    /// That many counts of a channel, as one call asks for them.
    pub(super) fn make(&mut self, channel: &mut Channel, number: u32) {
        let (bcd, element) = (channel.bcd_mode, *channel.counting_element);
        let made = without_turns(number, bcd);
        step(channel, made);
        if number >= 1_000 {
            *self.kind(bcd, element) += 1;
            self.turned += u64::from(made < number);
        }
    }

    fn kind(&mut self, bcd: bool, element: u16) -> &mut u64 {
        let good = [0, 4, 8, 12].iter().all(|place| element >> place & 0xF <= 9);
        match (bcd, good) {
            (false, _) => &mut self.binary,
            (true, true) => &mut self.good_digits,
            (true, false) => &mut self.bad_digits,
        }
    }

    pub fn show(&self) -> String {
        let Thousands { binary, good_digits, bad_digits, turned } = self;
        format!("{binary} in binary, {good_digits} in BCD from good digits, {bad_digits} from others; {turned} of these with whole turns left out")
    }
}

/// The records after some numbers of counts, which must rise, each count made by itself.
pub fn walked<const N: usize>(start: &Record, numbers: [u32; N]) -> [Record; N] {
    let (mut channel, mut made) = (load(start, 0, PitType::Model8253), 0);
    numbers.map(|number| {
        step(&mut channel, number - made);
        made = number;
        dump(&channel)
    })
}

/// What becomes of each of the 65,536 elements.
pub type Elements = Vec<u16>;

/// After one count.
fn one_less(bcd: bool) -> Elements {
    let one_less = |element| {
        let mut channel = Channel { bcd_mode: bcd, counting_element: Updatable::new(element), ..Channel::default() };
        channel.count();
        *channel.counting_element
    };
    (0..=u16::MAX).map(one_less).collect()
}

/// After so many counts, by way of twice as many again and again. No count is left out, so this is a second witness beside the turns.
pub fn less(bcd: bool, number: u32) -> Elements {
    let then = |first: &Elements, second: &Elements| first.iter().map(|element| second[usize::from(*element)]).collect::<Elements>();
    let (mut power, mut after, mut left) = (one_less(bcd), (0..=u16::MAX).collect(), number);
    while left > 0 {
        if left % 2 == 1 {
            after = then(&after, &power);
        }
        power = then(&power, &power);
        left /= 2;
    }
    after
}
