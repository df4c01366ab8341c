//! Compiles a sheet of three cues and runs its image on the desk, with the instructions that its delays take and HLT; prints what is put out, and shows a
//! refusal in words: one instruction less.

use fsq::{compile, run, Cue, Refusal};

fn main() -> Result<(), Refusal> {
    let sheet = [Cue::new(125, 0x61, 0x01), Cue::new(0x1234, 0x61, 0x80), Cue::new(65535, 0x62, 0x00)];
    let image = compile(&sheet)?;
    // A cue takes as many instructions as its delay, and three.
    let budget = sheet.iter().map(|cue| u32::from(cue.delay) + 3).sum::<u32>() + 1;
    let mut log = [0; 2 * 3];

    let ran = run(&image, budget, &mut log)?;
    for pair in ran.pairs() {
        println!("port {:02X} mask {:02X}", pair.port, pair.mask);
    }
    println!("halted: {} instructions", ran.count());

    if let Err(refusal) = run(&image, budget - 1, &mut log) {
        println!("{refusal}");
    }
    Ok(())
}
