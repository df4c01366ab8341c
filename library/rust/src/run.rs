//! Runs on the desk.

use crate::library;
use crate::refusal::Refusal;

/// What an OUT puts out.
#[derive(Clone, Copy, Debug, PartialEq, Eq, Hash)]
pub struct Pair {
    /// the port
    pub port: u8,
    /// AL
    pub mask: u8,
}

/// A run that has come to HLT.
#[derive(Clone, Copy, Debug, PartialEq, Eq, Hash)]
pub struct Run<'a> {
    count: u64,
    log: &'a [u8],
}

impl<'a> Run<'a> {
    /// The instructions that were carried out, HLT among them.
    pub fn count(&self) -> u64 {
        self.count
    }

    /// The front of the lent log, with the pairs: port and mask of each OUT.
    pub fn log(&self) -> &'a [u8] {
        self.log
    }

    /// What each OUT has put out, in their order.
    pub fn pairs(&self) -> impl ExactSizeIterator<Item = Pair> + DoubleEndedIterator + Clone + 'a {
        self.log.chunks_exact(2).map(|pair| Pair { port: pair[0], mask: pair[1] })
    }
}

/// Runs an image on the desk, from offset 0 on, with all registers 0, for at most as many instructions as the budget says.
///
/// Carried out are MOV of an immediate to a register, LOOP, JMP (E9, EB), OUT of AL to an immediate port and HLT, which ends the run. Of a
/// longer image the first 65,536 bytes are looked at; between two instructions the offset wraps there. The log has to have two bytes for each OUT;
/// its bytes behind the pairs stay, and those of a refused run all stay.
///
/// ```
/// use fsq::{run, Pair};
///
/// // MOV CX,2; LOOP to itself; MOV AL,7; OUT 80,AL; HLT
/// let image = [0xB9, 0x02, 0x00, 0xE2, 0xFE, 0xB0, 0x07, 0xE6, 0x50, 0xF4];
/// let mut log = [0; 400];
/// let ran = run(&image, 1000, &mut log)?;
/// assert_eq!(ran.count(), 6);
/// assert!(ran.pairs().eq([Pair { port: 80, mask: 7 }]));
/// # Ok::<(), fsq::Refusal>(())
/// ```
///
/// Before each instruction is asked, in this order: is the whole budget carried out (22), is the next one none of these or not whole inside the image
/// (21), is it OUT with no two bytes of the log left (9). A refusal has no span:
///
/// ```
/// use fsq::{run, Reason};
///
/// let image = [0xE6, 0x50, 0x90];
/// assert_eq!(run(&image, 1, &mut [0; 2]).unwrap_err().reason, Reason::BudgetSpent);
/// assert_eq!(run(&image, 2, &mut [0; 2]).unwrap_err().reason, Reason::NotCarriedOut);
/// assert_eq!(run(&image, 2, &mut [0; 1]).unwrap_err().reason, Reason::SliceTooShort);
/// ```
pub fn run<'a>(image: &[u8], budget: u32, log: &'a mut [u8]) -> Result<Run<'a>, Refusal> {
    let (count, length) = library::run(image, budget, log)?;
    Ok(Run { count, log: &log[..length] })
}
