//! What 000's builders make of some sixty calls, as rows that our definitions of the builders and of 001's numbers are proved to meet
//! (crates/mrc_compiler/proofs/BuiltByRust.antt). `indirect` with BP and displacement 0, where ours differs, is left out.

use crate::ast::{ByteRegister, DataSize, IndirectEncoding, Register, Segment, WordRegister};
use crate::encoder::{operand_size_from_data_size, InstructionData, JumpKind, OperandData, OperandKind, OperandSize};
use crate::operations::Operation;

const HEAD: &str = "-- What the Rust's own builders make: each row is a call of ours, and the fields that 000 gives it. tests/differential/run builders writes this file.
-- Assumes nothing.
use Rattle.std.specs.Prelude.{None, Some, Option}
use mathlib.Core.Path.{◌≡◌, refl}
use mathlib.Core.List.{[], ◌∷◌}
use Prim.Native.Nat.{ℕ}
use lib.IntN.{ℤ, pos, negsuc}
use Rattle.mrc_compiler.specs.declared.ast.Span.{Span}
use Rattle.mrc_compiler.specs.declared.ast.ByteRegister.TheVariants as B
use Rattle.mrc_compiler.specs.declared.ast.WordRegister.TheVariants as W
use Rattle.mrc_compiler.specs.declared.ast.Register.TheVariants as R
use Rattle.mrc_compiler.specs.declared.ast.Segment.TheVariants as G
use Rattle.mrc_compiler.specs.declared.ast.DataSize.TheVariants as D
use Rattle.mrc_compiler.specs.declared.ast.IndirectEncoding.TheVariants as I
use Rattle.mrc_compiler.specs.declared.operations.Operation.{Operation}
use Rattle.mrc_compiler.specs.declared.operations.Operation.TheVariants as Op
use Rattle.mrc_compiler.specs.declared.encoder.OperandKind.{OperandKind}
use Rattle.mrc_compiler.specs.declared.encoder.OperandKind.TheVariants as K
use Rattle.mrc_compiler.specs.declared.encoder.OperandSize.{OperandSize}
use Rattle.mrc_compiler.specs.declared.encoder.OperandSize.TheVariants as S
use Rattle.mrc_compiler.specs.declared.encoder.JumpKind.{JumpKind}
use Rattle.mrc_compiler.specs.declared.encoder.JumpKind.TheVariants as J
use Rattle.mrc_compiler.specs.declared.encoder.OperandData.{OperandData}
use Rattle.mrc_compiler.specs.declared.encoder.InstructionData.{InstructionData}
use Rattle.mrc_compiler.specs.Registers.{register, data_size_of, segment, indirect_encoding}
use Rattle.mrc_compiler.specs.Builders.{size_from_some, immediate_operand, far_operand, register_operand, segment_operand, direct_operand, indirect_operand, no_operands, one_operand, two_operands}

module _ (s : Span) where
  -- kind, size, prefix, displacement size, jump kind, mode, r/m, immediate, displacement: the order of a show file's record
  abbrev operand : OperandKind → OperandSize → ℕ → OperandSize → Option JumpKind → ℕ → ℕ → ℤ → ℤ → OperandData
  operand kind size prefix length jump mode rm imm displacement = record {
    span = s;
    size = size;
    kind = kind;
    segment_prefix = prefix;
    imm = imm;
    displacement = displacement;
    displacement_size = length;
    jmp_kind = jump;
    mode = mode;
    rm = rm;
  }

  abbrev made : Operation → ℕ → OperandData → OperandData → InstructionData
  made op count a b = record { operation = op; num_opers = count; repeat = 0; opers = a ∷ b ∷ []; opers_span = s }

  record Rows : Type 0 where";

/// The rows: a name, our call, and what 000 gives.
struct Rows(Vec<(String, String, String)>);

impl Rows {
    fn operand(&mut self, name: String, call: String, made: OperandData) {
        self.0.push((name, call, fields(&made)));
    }

    fn instruction(&mut self, name: &str, call: String, made: InstructionData) {
        let [first, second] = &made.opers;
        assert_eq!(made.opers_span, SPAN);
        let fields = format!("made Op.{:?} {} ({}) ({})", made.operation, made.num_opers, fields(first), fields(second));
        self.0.push((name.to_string(), call, fields));
    }
}

const SPAN: std::ops::Range<usize> = 3..9;

macro_rules! named {
    ($kind:ident: $($variant:ident)*) => { [$((stringify!($variant), $kind::$variant)),*] };
}

pub fn print() {
    let mut rows = Rows(Vec::new());
    for (name, variant) in named!(ByteRegister: Al Cl Dl Bl Ah Ch Dh Bh) {
        of_register(&mut rows, "byte", &format!("(R.Byte B.{name})"), name, Register::Byte(variant));
    }
    for (name, variant) in named!(WordRegister: Ax Cx Dx Bx Sp Bp Si Di) {
        of_register(&mut rows, "word", &format!("(R.Word W.{name})"), name, Register::Word(variant));
    }
    for (name, variant) in named!(Segment: ES CS SS DS) {
        let made = OperandData::segment(SPAN, variant.encoding());
        rows.operand(format!("segment_{}", name.to_lowercase()), format!("segment_operand s (segment G.{name})"), made);
    }

    let sizes = || [("None", None), ("(Some D.Byte)", Some(DataSize::Byte)), ("(Some D.Word)", Some(DataSize::Word))];
    let segments = || {
        let some = named!(Segment: ES CS SS DS).map(|(name, variant)| (format!("(Some G.{name})"), Some(variant)));
        std::iter::once(("None".to_string(), None)).chain(some)
    };
    for (i, (seg, seg_override)) in segments().enumerate() {
        let address = [0, 4660, 65535, -1, -32768][i];
        let (size, data_size) = &sizes()[i % 3];
        let made = OperandData::direct(SPAN, address, data_size, &seg_override);
        rows.operand(format!("direct_{i}"), format!("direct_operand s {} {size} {seg}", integer(address)), made);
    }
    let bases = named!(IndirectEncoding: BxSi BxDi BpSi BpDi Si Di Bp Bx);
    for (i, (name, base)) in bases.iter().enumerate() {
        // without a displacement, with a byte and with a word
        for (j, displacement) in [0, [1, -1, 127, -128][i % 4], [128, -129, 32767, -32768][i % 4]].into_iter().enumerate() {
            if (*name, displacement) == ("Bp", 0) {
                continue;
            }
            let (size, data_size) = &sizes()[(i + j) % 3];
            let (seg, seg_override) = segments().nth((i + 2 * j) % 5).unwrap();
            let made = OperandData::indirect(SPAN, base.encoding(), displacement, data_size, &seg_override);
            let call = format!("indirect_operand s (indirect_encoding I.{name}) {} {size} {seg}", integer(displacement as i32));
            rows.operand(format!("indirect_{}_{j}", name.to_lowercase()), call, made);
        }
    }

    for (i, value) in [0, 5, -1, 65535, i32::MIN, i32::MAX].into_iter().enumerate() {
        rows.operand(format!("immediate_{i}"), format!("immediate_operand s {}", integer(value)), OperandData::immediate(SPAN, value));
    }
    rows.operand("empty".to_string(), "immediate_operand s (pos 0)".to_string(), OperandData::empty(SPAN));
    for (i, (offset, segment)) in [(4660, 22136), (-1, -2)].into_iter().enumerate() {
        rows.operand(format!("far_{i}"), format!("far_operand s {} {}", integer(offset), integer(segment)), OperandData::far(SPAN, offset, segment));
    }

    let five = || OperandData::immediate(SPAN, 5);
    let ax = || OperandData::register(SPAN, 0, OperandSize::Word);
    rows.instruction("none", "no_operands s Op.HLT".to_string(), InstructionData::none(SPAN, Operation::HLT));
    rows.instruction("one", "one_operand s Op.INT (immediate_operand s (pos 5))".to_string(), InstructionData::dst(SPAN, Operation::INT, five()));
    let call = "two_operands s Op.MOV (register_operand s 0 S.Word) (immediate_operand s (pos 5))";
    rows.instruction("two", call.to_string(), InstructionData::dst_and_src(SPAN, Operation::MOV, ax(), five()));

    println!("{HEAD}");
    for (name, call, fields) in &rows.0 {
        println!("    {name} : {call} ≡ {fields}");
    }
    println!("\n  rows : Rows\n  rows = record {{");
    for (name, _, _) in &rows.0 {
        println!("    {name} = refl;");
    }
    println!("  }}");
}

fn of_register(rows: &mut Rows, size: &str, ours: &str, name: &str, register: Register) {
    let made = OperandData::register(SPAN, register.encoding(), operand_size_from_data_size(&Some(register.data_size())));
    let call = format!("register_operand s (register {ours}) (size_from_some (data_size_of {ours}))");
    rows.operand(format!("{size}_{}", name.to_lowercase()), call, made);
}

fn fields(made: &OperandData) -> String {
    assert_eq!(made.span, SPAN);
    let kind = match made.kind {
        OperandKind::Imm => "K.Imm",
        OperandKind::Reg => "K.Reg",
        OperandKind::Seg => "K.Seg",
        OperandKind::Mem => "K.Mem",
    };
    let jump = match made.jmp_kind {
        None => "None",
        Some(JumpKind::Far) => "(Some J.Far)",
        Some(JumpKind::Near) => "(Some J.Near)",
        Some(JumpKind::Short) => "(Some J.Short)",
    };
    let sizes = [made.size, made.displacement_size].map(|size| match size {
        OperandSize::Unspecified => "S.Unspecified",
        OperandSize::Byte => "S.Byte",
        OperandSize::Word => "S.Word",
    });
    format!(
        "operand {kind} {} {} {} {jump} {} {} {} {}",
        sizes[0],
        made.segment_prefix,
        sizes[1],
        made.mode,
        made.rm,
        integer(made.imm),
        integer(made.displacement),
    )
}

/// As our definitions write it: negsuc n is -(n + 1).
fn integer(n: i32) -> String {
    if n < 0 {
        format!("(negsuc {})", -(n as i64) - 1)
    } else {
        format!("(pos {n})")
    }
}
