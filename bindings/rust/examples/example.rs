//! example FILE: judges a journal, makes an operation on the machine after its entries, and looks at the object.

use std::process::ExitCode;
use tongsthyme::{judge, line, EcbOp, EcbReply, Machine, Object, Operation, Reply, Verdict};

fn main() -> Result<ExitCode, Box<dyn std::error::Error>> {
    let Some(path) = std::env::args().nth(1) else {
        eprintln!("usage: example FILE");
        return Ok(ExitCode::from(2));
    };
    let journal = std::fs::read(path)?;
    let verdict = judge(&journal)?;
    println!("{verdict}");
    let Verdict::Legal { .. } = verdict else {
        return Ok(ExitCode::FAILURE);
    };
    let mut machine = Machine::open(&journal)?;
    // Caller 0 posts event control block 0.
    let post = Operation::Ecb(0, EcbOp::Post(7));
    let answer = machine.step(0, post)?;
    print!("{}", line(0, post, answer)?);
    if let Some(block) = machine.object(Object::Ecb(0)) {
        if let Reply::Ecb(EcbReply::Word(word)) = block.reply {
            println!(
                "the block has had {} events, and its word is {word}",
                block.place
            );
        }
    }
    Ok(ExitCode::SUCCESS)
}
