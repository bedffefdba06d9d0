//! One line of trace text, byte by byte. The document names each byte of a
//! line, so nothing is skipped or forgiven.
//!
//! A form has no choice in it: at each point it knows what may come next, and
//! it gives up at the first byte that can't go on. A line that no form takes
//! breaks where the last of them gave up: "the first byte that can't continue
//! any good line".

use crate::step::{Break, Kind, Step};

/// The numbers of the longest line: cache, vid, at, data.
const MOST_NUMBERS: usize = 4;

/// "keys in this order, one space between", behind the first number.
const KEYS: [&[u8]; MOST_NUMBERS - 1] = [b" vid=", b" at=", b" data="];

/// "A key that the op doesn't use must be 0".
#[derive(Clone, Copy)]
enum Value {
    Used,
    Zero,
}

use Value::{Used, Zero};

/// How a line is written, from its first byte to its LF.
pub struct Form<T> {
    /// The text before the first number.
    head: &'static [u8],
    /// One for each number of the line.
    values: &'static [Value],
    make: fn([u64; MOST_NUMBERS]) -> T,
}

/// "first line `caches=N`"
pub const FIRST_LINE: [Form<u64>; 1] =
    [Form { head: b"caches=", values: &[Used], make: |[count, ..]| count }];

/// `op=load cache=0 vid=2 at=5 data=0`; "load uses cache, vid, at; store all;
/// commit vid; evict cache, at; abort and reset none".
pub const STEP_LINES: [Form<Step>; 6] = [
    Form {
        head: b"op=load cache=",
        values: &[Used, Used, Used, Zero],
        make: |[cache, vid, at, _]| Step::Load { cache, vid, at },
    },
    Form {
        head: b"op=store cache=",
        values: &[Used, Used, Used, Used],
        make: |[cache, vid, at, data]| Step::Store { cache, vid, at, data },
    },
    Form {
        head: b"op=commit cache=",
        values: &[Zero, Used, Zero, Zero],
        make: |[_, vid, _, _]| Step::Commit { vid },
    },
    Form { head: b"op=abort cache=", values: &[Zero; 4], make: |_| Step::Abort },
    Form { head: b"op=reset cache=", values: &[Zero; 4], make: |_| Step::Reset },
    Form {
        head: b"op=evict cache=",
        values: &[Used, Zero, Used, Zero],
        make: |[cache, _, slot, _]| Step::Evict { cache, slot },
    },
];

/// A good line: what it says and how many bytes it took, its LF among them.
pub struct Read<T> {
    pub says: T,
    pub length: usize,
}

/// The line at the start of `rest`. Forms that give up at the same byte do so
/// in text they share, and for the same reason.
pub fn read_line<T>(forms: &[Form<T>], rest: &[u8]) -> Result<Read<T>, Break> {
    let reach = |read: &Result<Read<T>, Break>| match read {
        Ok(_) => usize::MAX,
        Err(broken) => broken.column,
    };
    let reads = forms.iter().map(|form| form.read(rest));
    reads.max_by_key(reach).expect("there is a form for every line")
}

impl<T> Form<T> {
    fn read(&self, rest: &[u8]) -> Result<Read<T>, Break> {
        let mut walk = Walk { rest, taken: 0 };
        let mut numbers = [0; MOST_NUMBERS];
        let texts = [self.head].into_iter().chain(KEYS);
        for ((text, value), number) in texts.zip(self.values).zip(&mut numbers) {
            walk.text(text)?;
            *number = walk.number(*value)?;
        }
        walk.byte(b'\n', Kind::NoLineEnd)?;
        Ok(Read { says: (self.make)(numbers), length: walk.taken })
    }
}

/// A way along a line: the bytes before it went well.
struct Walk<'a> {
    rest: &'a [u8],
    taken: usize,
}

impl Walk<'_> {
    fn next(&self) -> Option<u8> {
        self.rest.get(self.taken).copied()
    }

    fn next_digit(&self) -> Option<u64> {
        let byte = self.next().filter(u8::is_ascii_digit)?;
        Some(u64::from(byte - b'0'))
    }

    /// Breaks at the next byte. "the text is empty or ends inside a line; then
    /// the column is one past the last byte", whatever was to come there.
    fn broken(&self, kind: Kind) -> Break {
        let kind = if self.next().is_none() { Kind::NoLineEnd } else { kind };
        Break { kind, column: self.taken + 1 }
    }

    fn byte(&mut self, wanted: u8, otherwise: Kind) -> Result<(), Break> {
        if self.next() != Some(wanted) {
            return Err(self.broken(otherwise));
        }
        self.taken += 1;
        Ok(())
    }

    /// "wrong key (any fixed text or op name broken off)"
    fn text(&mut self, text: &[u8]) -> Result<(), Break> {
        text.iter().try_for_each(|byte| self.byte(*byte, Kind::WrongKey))
    }

    /// What comes behind the last digit is for the next text or the line's
    /// end to judge. "for a key not zero, its first digit", "however long".
    fn number(&mut self, value: Value) -> Result<u64, Break> {
        match (self.next_digit(), value) {
            (None, _) => Err(self.broken(Kind::BadNumber)),
            (Some(0), _) => self.zero(),
            (Some(_), Zero) => Err(self.broken(Kind::NotZero)),
            (Some(_), Used) => self.digits(),
        }
    }

    /// "or a digit after a leading zero", in a key that must be 0 as well.
    fn zero(&mut self) -> Result<u64, Break> {
        self.taken += 1;
        match self.next_digit() {
            Some(_) => Err(self.broken(Kind::BadNumber)),
            None => Ok(0),
        }
    }

    /// "For a number too large the column is that of the digit that first
    /// passes the limit".
    fn digits(&mut self) -> Result<u64, Break> {
        let mut number = 0u64;
        while let Some(digit) = self.next_digit() {
            let longer = number.checked_mul(10).and_then(|tens| tens.checked_add(digit));
            number = longer.ok_or_else(|| self.broken(Kind::TooLarge))?;
            self.taken += 1;
        }
        Ok(number)
    }
}
