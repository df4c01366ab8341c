//! Compiles a sheet of three cues to the image of a field module, prints its instructions as they are read back, and shows a refusal in words: a delay of 0.

use fsq::{compile, read, Cue, Refusal};

fn main() -> Result<(), Refusal> {
    // After so many turns of LOOP the port gets the mask.
    let mut sheet = [Cue::new(125, 0x61, 0x01), Cue::new(0x1234, 0x61, 0x80), Cue::new(65535, 0x62, 0x00)];
    let image = compile(&sheet)?;
    println!("compiled: {} bytes", image.len());
    let mut at = 0;
    while at < image.len() {
        let reading = read(&image[at..], at as u16)?;
        print!("{at:04X}");
        image[at..at + reading.length].iter().for_each(|byte| print!(" {byte:02X}"));
        println!(" {reading}");
        at += reading.length;
    }

    sheet[1].delay = 0;
    if let Err(refusal) = compile(&sheet) {
        println!("{refusal}");
    }
    Ok(())
}
