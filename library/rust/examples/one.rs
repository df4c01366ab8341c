//! Encodes Word ADD [BX],5, tells its form, reads it back, lists all of its strings, writes it with DS: and by the shortest string, and shows a refusal with
//! its question; then REP MOVSB, encoded and read; and evaluates a sum.

use fsq::{encode, encode_shortest, evaluate, form, list, read, Base, Instruction, Operand, Operation, Refusal, Repeat, Segment};

fn main() -> Result<(), Refusal> {
    let add = Instruction::two(Operation::ADD, Operand::memory(Base::BX, 0).word(), 5);
    let bytes = encode(&add, 256)?;
    println!("encoded: {bytes}");
    println!("{}", form(&add, 256)?);
    println!("read: {}", read(&bytes, 256)?);
    println!("listed: {}", list(&add, 256)?.len());
    print!("{}", list(&add, 256)?);

    // DS is the default segment of [BX].
    let add_ds = Instruction::two(Operation::ADD, Operand::memory(Base::BX, 0).word().in_segment(Segment::DS), 5);
    println!("encoded with DS: {}", encode(&add_ds, 256)?);
    println!("shortest: {}", encode_shortest(&add_ds, 256)?);

    let mov = Instruction::two(Operation::MOV, Operand::memory(Base::BX, 0).byte(), 300);
    if let Err(refusal) = encode(&mov, 256) {
        println!("refused: {}, {}", refusal.number(), refusal.reason);
        if let Some(question) = refusal.question() {
            println!("question {question}");
        }
    }

    let copy = Instruction::none(Operation::MOVSB).repeated(Repeat::Rep);
    let bytes = encode(&copy, 256)?;
    println!("encoded: {bytes}");
    println!("read: {}", read(&bytes, 256)?);

    let delay = "3*(40+2)-1";
    println!("{delay} is {}", evaluate(delay)?);
    Ok(())
}
