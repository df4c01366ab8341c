//! Converts a show from a 186 module, whose shifts have a count, to one that the 8086 runs, prints its listing, and shows two refusals in words: a count that no
//! shift has, and a branch that the copies make too long.

use fsq::{convert, show_file, Instruction, Show};

fn shown(origin: u16, texts: &[&str]) -> Result<Vec<u8>, Box<dyn std::error::Error>> {
    let show = texts.iter().map(|text| text.parse()).collect::<Result<Vec<Instruction>, _>>()?;
    Ok(show_file(origin, &show))
}

fn main() -> Result<(), Box<dyn std::error::Error>> {
    // Four times: shift, put out. The loop goes to the shift, which stood at 262 and had three bytes.
    let file = convert(&shown(256, &["MOV CX,4", "MOV AX,4660", "ROL AX,4", "OUT 97,AL", "LOOP 262", "HLT"])?)?;
    print!("{}", Show::load(&file)?);

    // SHL AX,3 at 65,531 is three records: JE is record 3 of the converted file.
    for file in [shown(256, &["SHL AX,40"])?, shown(65531, &["SHL AX,3", "JE 65536"])?] {
        if let Err(refusal) = convert(&file) {
            println!("{refusal}");
        }
    }
    Ok(())
}
