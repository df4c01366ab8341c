//! One way to call the crate, on every record of a show, so often; for bench/calls, which counts instructions.
//!   calls WAY SHOW.fsq ROUNDS

use fsq::{encode, encode_record, encode_shortest_record, form_record, list, list_record, load, read, Instruction, Refusal, Show};
use std::hint::black_box;

fn main() -> Result<(), Box<dyn std::error::Error>> {
    let arguments: Vec<String> = std::env::args().skip(1).collect();
    // cargo has options of its own for what it takes for a bench
    let [way, show, rounds] = arguments.as_slice() else { return Ok(()) };
    let file = std::fs::read(show)?;
    let show = Show::load(&file)?;
    let records: Vec<_> = show.records().map(|record| (record.record, record.offset, record.bytes)).collect();
    let instructions: Vec<Instruction> = records.iter().map(|record| Instruction::from_record(record.0)).collect::<Result<_, Refusal>>()?;
    for _ in 0..rounds.parse::<u32>()? {
        if way == "load" {
            black_box(load(black_box(&file))?);
            continue;
        }
        for (&(record, offset, bytes), instruction) in records.iter().zip(&instructions) {
            match way.as_str() {
                "encode" => drop(black_box(encode(black_box(instruction), offset)?)),
                "encode_record" => drop(black_box(encode_record(black_box(record), offset)?)),
                "list" => drop(black_box(list(black_box(instruction), offset)?)),
                "list_record" => drop(black_box(list_record(black_box(record), offset)?)),
                "form_record" => drop(black_box(form_record(black_box(record), offset)?)),
                "shortest_record" => drop(black_box(encode_shortest_record(black_box(record), offset)?)),
                "read" => drop(black_box(read(black_box(bytes), offset)?)),
                _ => return Err("no such way".into()),
            }
        }
    }
    Ok(())
}
