//! Reads a recorded trace. Written from document 01, "Recorded traces", and requests L1, L7 and L8 of document 02, each rule under its sentence, without a look at our own reader.

use original::pit::board::{Board, LENGTH};

/// "operations of six bytes: code, target, number"
#[derive(Clone, Copy, Debug, PartialEq)]
pub struct Operation {
    pub code: u8,
    pub target: u8,
    pub number: u32,
}

pub struct Trace {
    pub divisor: u32,
    pub model: u8,
    pub operations: Vec<Operation>,
    /// Where the last operation ends.
    pub end: usize,
    /// L7: "The section may be missing."
    pub checkpoints: Option<Vec<Checkpoint>>,
}

/// L7: "the whole board as it stands after each 256 operations, in an encoding set down in docs/". Its bytes may be those of no board.
pub struct Checkpoint {
    pub place: usize,
    pub bytes: Board,
}

/// Why a trace is refused: the refusal's number, and the place that is printed with it.
#[derive(Clone, Copy, Debug, PartialEq)]
pub struct Fault {
    pub number: u32,
    pub place: usize,
    /// L8: "name the operation's index, counted from 0, beside the byte offset". None for a fault outside operations.
    pub operation: Option<u32>,
}

impl Fault {
    /// L8: "The older line stays for faults outside operations".
    pub fn outside(number: u32, place: usize) -> Self {
        Self { number, place, operation: None }
    }
}

pub const MOST_OPERATIONS: u32 = 4_096;

/// L7: "after each 256 operations"
pub const BETWEEN: usize = 256;

struct Reader<'a> {
    bytes: &'a [u8],
    at: usize,
}

impl Reader<'_> {
    /// "total length for 9". L8: "an unfinished operation still has only its total length"
    fn unfinished(&self) -> Fault {
        Fault::outside(9, self.bytes.len())
    }

    /// "Numbers are little-endian u32." "bytes present, then the rule": the number, and the place where it begins.
    fn number(&mut self) -> Result<(u32, usize), Fault> {
        let Some(field) = self.bytes.get(self.at..self.at + 4) else { return Err(self.unfinished()) };
        let at = self.at;
        self.at += 4;
        Ok((u32::from_le_bytes([field[0], field[1], field[2], field[3]]), at))
    }

    /// "Of an operation all six bytes, then code, target, number."
    fn operation(&mut self, index: u32) -> Result<Operation, Fault> {
        let Some(field) = self.bytes.get(self.at..self.at + 6) else { return Err(self.unfinished()) };
        let at = self.at;
        self.at += 6;
        let operation =
            Operation { code: field[0], target: field[1], number: u32::from_le_bytes([field[2], field[3], field[4], field[5]]) };
        let broken = |number, place| Err(Fault { number, place, operation: Some(index) });
        // 02: "12 now means not 1 to 9"
        if !(1..=9).contains(&operation.code) {
            return broken(12, at);
        }
        // "Target 0 for 6, 7, 8." 02: "Trace code 9, target 0"; "19 target not 0 where it must be"
        if operation.code >= 6 && operation.target != 0 {
            return broken(19, at + 1);
        }
        // "Number 0 for 2, 5, 8"; 02: "20 number not 0 where it must be", however large it is
        if matches!(operation.code, 2 | 5 | 8) && operation.number != 0 {
            return broken(20, at + 2);
        }
        // "at most 255 for 1; at most 1 for 3"; 02: "21 number or model too large". Of 9's number document 02 says nothing: one above 65,536 is refused when it is run.
        let most = match operation.code {
            1 => 255,
            3 => 1,
            _ => u32::MAX,
        };
        if operation.number > most {
            return broken(21, at + 2);
        }
        Ok(operation)
    }

    /// L7: "9 covers an unfinished section". What a checkpoint's bytes are is no matter of form.
    fn checkpoint(&mut self) -> Result<Checkpoint, Fault> {
        let Some(field) = self.bytes.get(self.at..self.at + LENGTH) else { return Err(self.unfinished()) };
        let place = self.at;
        self.at += LENGTH;
        Ok(Checkpoint { place, bytes: field.try_into().expect("a board's bytes") })
    }

    /// Sections one and two.
    fn settings_and_operations(&mut self) -> Result<Trace, Fault> {
        // "Section one: count 2, then divisor and model (0 8253, 1 8254)."
        let (count, at) = self.number()?;
        if count != 2 {
            return Err(Fault::outside(10, at));
        }
        let (divisor, at) = self.number()?;
        // "A zero divisor is 3."
        if divisor == 0 {
            return Err(Fault::outside(3, at));
        }
        let (model, at) = self.number()?;
        // L8: "21 number or model too large"
        if model > 1 {
            return Err(Fault::outside(21, at));
        }
        // "Section two: operation count, then operations"
        let (count, at) = self.number()?;
        if count > MOST_OPERATIONS {
            return Err(Fault::outside(11, at));
        }
        let operations = (0..count).map(|index| self.operation(index)).collect::<Result<Vec<_>, Fault>>()?;
        Ok(Trace { divisor, model: model as u8, operations, end: self.at, checkpoints: None })
    }

    /// L7: "Add a third section to the trace: a count, then the whole board as it stands after each 256 operations".
    fn checkpoints(&mut self, operations: usize) -> Result<Option<Vec<Checkpoint>>, Fault> {
        // "The section may be missing." A byte more begins it.
        if self.at == self.bytes.len() {
            return Ok(None);
        }
        let (count, at) = self.number()?;
        // "17 for a checkpoint count other than the operations divided by 256, rounded down"
        if count as usize != operations / BETWEEN {
            return Err(Fault::outside(17, at));
        }
        (0..count).map(|_| self.checkpoint()).collect::<Result<Vec<_>, Fault>>().map(Some)
    }

    /// "first extra byte for 13"
    fn at_the_end(&self) -> Result<(), Fault> {
        if self.at < self.bytes.len() {
            return Err(Fault::outside(13, self.at));
        }
        Ok(())
    }
}

/// "Fields are checked from the front".
pub fn read(bytes: &[u8]) -> Result<Trace, Fault> {
    let mut reader = Reader { bytes, at: 0 };
    let mut trace = reader.settings_and_operations()?;
    trace.checkpoints = reader.checkpoints(trace.operations.len())?;
    // L7: "13 means bytes after the last section present"
    reader.at_the_end()?;
    Ok(trace)
}

/// The same as it was until request L7, 13 for "bytes after the last operation". L7: "An older program refuses the new form with 13."
pub fn read_as_before(bytes: &[u8]) -> Result<Trace, Fault> {
    let mut reader = Reader { bytes, at: 0 };
    let trace = reader.settings_and_operations()?;
    reader.at_the_end()?;
    Ok(trace)
}
