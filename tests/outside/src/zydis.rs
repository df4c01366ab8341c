//! Zydis, through the fields that zydis.c takes from it.

use crate::meaning::{self, Said, Taken};
use crate::records::{op, BYTE, UNSTATED, WORD};
use crate::strings::PREFIXES;
use std::ffi::{c_char, CStr};

#[repr(C)]
#[derive(Clone, Copy, Default, PartialEq, Eq, Debug)]
pub struct Operand {
    kind: u8,
    number: u8,
    size: u8,
    segment: u8,
    value: u16,
    pointed: u16,
}

#[repr(C)]
#[derive(Clone, Copy, Default, PartialEq, Eq, Debug)]
pub struct Decoded {
    pub length: u8,
    pub count: u8,
    mnemonic: u16,
    operands: [Operand; 3],
    memory_segment: u8,
    prefix: u8,
    more: u8,
    repeat: u8,
}

// zydis.c's kinds.
const REGISTER_8: u8 = 1;
const REGISTER_16: u8 = 2;
const SEGMENT: u8 = 3;
const MEMORY: u8 = 4;
const IMMEDIATE: u8 = 5;
const RELATIVE: u8 = 6;
const POINTER: u8 = 7;

extern "C" {
    fn zydis_read(bytes: *const u8, length: usize, out: *mut Decoded);
    fn zydis_mnemonic(number: u16) -> *const c_char;
}

pub struct Zydis {
    names: Vec<String>,
    operations: Vec<Option<u8>>,
}

impl Zydis {
    pub fn new() -> Zydis {
        let mut names = Vec::new();
        loop {
            let name = unsafe { zydis_mnemonic(names.len() as u16) };
            if name.is_null() {
                break;
            }
            names.push(unsafe { CStr::from_ptr(name) }.to_string_lossy().into_owned());
        }
        let operations = names.iter().map(|name| meaning::operation(name)).collect();
        Zydis { names, operations }
    }

    /// The instruction at the front of the bytes, given them alone. `Err(true)`: they are the front of one.
    pub fn read(&self, bytes: &[u8]) -> Result<Decoded, bool> {
        let mut decoded = Decoded::default();
        unsafe { zydis_read(bytes.as_ptr(), bytes.len(), &mut decoded) };
        if decoded.length > 0 { Ok(decoded) } else { Err(decoded.more == 1) }
    }

    pub fn name(&self, decoded: &Decoded) -> &str {
        &self.names[decoded.mnemonic as usize]
    }

    /// Is there a memory operand in document 01's sense? XLATB has one that is not written.
    pub fn has_memory(&self, decoded: &Decoded) -> bool {
        let written = &decoded.operands[..(decoded.count as usize).min(3)];
        self.operations[decoded.mnemonic as usize] == Some(op::XLATB) || written.iter().any(|o| o.kind == MEMORY)
    }

    pub fn meaning(&self, decoded: &Decoded, offset: u16) -> Option<Taken> {
        let operation = self.operations[decoded.mnemonic as usize]?;
        if operation == op::XLATB {
            // [BX + AL] is not written
            return meaning::meaning(operation, &[Said::Memory(7, 0, Some(decoded.memory_segment), BYTE)]).map(|(m, _)| (m, 0));
        }
        let mut said = Vec::with_capacity(2);
        let mut used = 0;
        for operand in &decoded.operands[..decoded.count as usize] {
            let value = operand.value;
            said.push(match operand.kind {
                REGISTER_8 => Said::Register8(operand.number),
                REGISTER_16 => Said::Register16(operand.number),
                SEGMENT if operand.number < 4 => Said::Segment(operand.number),
                MEMORY if operand.segment < 4 => {
                    let size = match operand.size {
                        8 => BYTE,
                        16 => WORD,
                        32 if operation == op::CALL => meaning::POINTER,
                        _ if matches!(operation, op::LES | op::LDS) => UNSTATED,
                        _ => return None,
                    };
                    Said::Memory(operand.number, value, Some(operand.segment), size)
                }
                IMMEDIATE => Said::Immediate(value),
                RELATIVE => Said::Target(offset.wrapping_add(decoded.length as u16).wrapping_add(value)),
                POINTER => Said::Far(value, operand.pointed),
                _ => return None,
            });
        }
        if matches!(operation, op::AAM | op::AAD) && said == [Said::Immediate(10)] {
            said.clear();
            used |= meaning::BASE_TEN;
        }
        // Two prefixes that Zydis does not take for a segment's.
        let named = PREFIXES.iter().position(|p| *p == decoded.prefix).map(|n| n as u8);
        let convention = match operation {
            op::LEA => meaning::LEA_SEGMENT,
            op::CALL | op::JMP if decoded.prefix == 0x3E => meaning::NOTRACK,
            _ => 0,
        };
        for one in &mut said {
            if let (Said::Memory(_, _, segment, _), true, true) = (one, convention != 0, named.is_some()) {
                if *segment != named {
                    used |= convention;
                    *segment = named;
                }
            }
        }
        // Zydis names the segment in effect itself, so that a prefix for the default one is no convention of ours.
        let (meaning, also) = meaning::repeated(meaning::meaning(operation, &said)?, decoded.repeat)?;
        Some((meaning, used | also & !meaning::DEFAULT_SEGMENT))
    }
}
