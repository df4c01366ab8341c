//! All records of a file, whether it loads or not: each with its offset, instruction, and bytes or refusal.

use fsq::{encode_record, records, Bytes, Instruction, Refusal};

/// A record of a file.
#[derive(Clone, Debug)]
pub struct Row {
    /// where it stands, as far as the records before it have a length
    pub offset: Option<u16>,
    /// nothing where a code is unknown
    pub instruction: Option<Instruction>,
    pub answer: Answer,
}

/// What the encoder answers for a record.
#[derive(Clone, Debug)]
pub enum Answer {
    Bytes(Bytes),
    Refused(Refusal),
    /// its offset is not known, and it is a branch that is too far from one that was tried
    Open,
}

/// The records of a file; one that is refused as a whole, with 12 to 14, has none.
pub fn rows(file: &[u8]) -> Result<Vec<Row>, Refusal> {
    let (origin, records) = records(file)?;
    let mut offset = Some(origin);
    let row = |(number, record): (usize, &[u8])| {
        let at = offset;
        let answer = match encode_record(record, at.unwrap_or(0)) {
            Ok(bytes) => {
                offset = at.map(|at| at.wrapping_add(bytes.len() as u16));
                Answer::Bytes(bytes)
            }
            // The one refusal that goes by the offset, and the one whose length is known: opcode and distance.
            Err(refusal) if refusal.number() == 6 => {
                offset = at.map(|at| at.wrapping_add(2));
                at.map_or(Answer::Open, |_| refused(refusal, number))
            }
            Err(refusal) => {
                offset = None;
                refused(refusal, number)
            }
        };
        Row { offset: at, instruction: Instruction::from_record(record).ok(), answer }
    };
    Ok(records.enumerate().map(row).collect())
}

/// The refusal of a record of a file.
fn refused(refusal: Refusal, record: usize) -> Answer {
    let mut refusal = refusal;
    refusal.record = Some(record as u32);
    Answer::Refused(refusal)
}

/// The refusals of all records: the loader's is the first, or the first with 15.
pub fn refusals(rows: &[Row]) -> impl Iterator<Item = (&Row, &Refusal)> {
    rows.iter().filter_map(|row| match &row.answer {
        Answer::Refused(refusal) => Some((row, refusal)),
        _ => None,
    })
}
