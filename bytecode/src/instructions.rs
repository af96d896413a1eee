//! The 164 instructions of the core: their opcodes, names and operands (JVMS 6.5).

use std::sync::LazyLock;

/// How an instruction's operands lie behind its opcode.
#[derive(Clone, Copy, Debug, PartialEq, Eq)]
pub enum Operands {
    /// None.
    None,
    /// A signed number of one byte.
    Byte,
    /// A signed number of two bytes.
    Short,
    /// An index, of a local or of a constant, of one byte.
    Index,
    /// An index of two bytes.
    LongIndex,
    /// The index of a local and a signed constant, a byte each.
    Increment,
    /// The same after `wide`, two bytes each.
    LongIncrement,
    /// A distance from the opcode, of two bytes.
    Branch,
    /// A distance of four bytes.
    LongBranch,
    /// From the next multiple of 4 on: default, lowest and highest index, and a distance for each.
    TableSwitch,
    /// From the next multiple of 4 on: default, number of pairs, and the pairs of a key and a distance.
    LookupSwitch,
    /// The opcode that is widened, and its operands.
    Wide,
}

impl Operands {
    /// How many bytes they have, where that does not depend on the bytes.
    #[must_use]
    pub fn length(self) -> Option<usize> {
        Some(match self {
            Operands::None => 0,
            Operands::Byte | Operands::Index => 1,
            Operands::Short | Operands::LongIndex | Operands::Increment | Operands::Branch => 2,
            Operands::LongIncrement | Operands::LongBranch => 4,
            Operands::TableSwitch | Operands::LookupSwitch | Operands::Wide => return None,
        })
    }
}

/// An instruction of the core.
#[derive(Clone, Copy, Debug, PartialEq, Eq)]
pub struct Instruction {
    /// Its opcode.
    pub opcode: u8,
    /// Its name.
    pub name: &'static str,
    /// Its operands.
    pub operands: Operands,
}

/// The first of neighbouring opcodes, their operands and their names. Opcodes between two groups
/// are outside of the core.
#[rustfmt::skip]
const GROUPS: [(u8, Operands, &str); 31] = [
    (0, Operands::None, "nop aconst_null"),
    (2, Operands::None, "iconst_m1 iconst_0 iconst_1 iconst_2 iconst_3 iconst_4 iconst_5"),
    (9, Operands::None, "lconst_0 lconst_1 fconst_0 fconst_1 fconst_2 dconst_0 dconst_1"),
    (16, Operands::Byte, "bipush"),
    (17, Operands::Short, "sipush"),
    (18, Operands::Index, "ldc"),
    (19, Operands::LongIndex, "ldc_w ldc2_w"),
    (21, Operands::Index, "iload lload fload dload aload"),
    (26, Operands::None, "iload_0 iload_1 iload_2 iload_3 lload_0 lload_1 lload_2 lload_3"),
    (34, Operands::None, "fload_0 fload_1 fload_2 fload_3 dload_0 dload_1 dload_2 dload_3"),
    (42, Operands::None, "aload_0 aload_1 aload_2 aload_3"),
    (54, Operands::Index, "istore lstore fstore dstore astore"),
    (59, Operands::None, "istore_0 istore_1 istore_2 istore_3 lstore_0 lstore_1 lstore_2 lstore_3"),
    (67, Operands::None, "fstore_0 fstore_1 fstore_2 fstore_3 dstore_0 dstore_1 dstore_2 dstore_3"),
    (75, Operands::None, "astore_0 astore_1 astore_2 astore_3"),
    (87, Operands::None, "pop pop2 dup dup_x1 dup_x2 dup2 dup2_x1 dup2_x2 swap"),
    (96, Operands::None, "iadd ladd fadd dadd isub lsub fsub dsub imul lmul fmul dmul"),
    (108, Operands::None, "idiv ldiv fdiv ddiv irem lrem frem drem ineg lneg fneg dneg"),
    (120, Operands::None, "ishl lshl ishr lshr iushr lushr iand land ior lor ixor lxor"),
    (132, Operands::Increment, "iinc"),
    (133, Operands::None, "i2l i2f i2d l2i l2f l2d f2i f2l f2d d2i d2l d2f i2b i2c i2s"),
    (148, Operands::None, "lcmp fcmpl fcmpg dcmpl dcmpg"),
    (153, Operands::Branch, "ifeq ifne iflt ifge ifgt ifle"),
    (159, Operands::Branch, "if_icmpeq if_icmpne if_icmplt if_icmpge if_icmpgt if_icmple"),
    (165, Operands::Branch, "if_acmpeq if_acmpne goto"),
    (170, Operands::TableSwitch, "tableswitch"),
    (171, Operands::LookupSwitch, "lookupswitch"),
    (172, Operands::None, "ireturn lreturn freturn dreturn areturn return"),
    (196, Operands::Wide, "wide"),
    (198, Operands::Branch, "ifnull ifnonnull"),
    (200, Operands::LongBranch, "goto_w"),
];

/// By opcode.
static TABLE: LazyLock<[Option<Instruction>; 256]> = LazyLock::new(|| {
    let mut table = [None; 256];
    for (first, operands, names) in GROUPS {
        for (opcode, name) in (first..).zip(names.split_whitespace()) {
            table[usize::from(opcode)] = Some(Instruction {
                opcode,
                name,
                operands,
            });
        }
    }
    table
});

/// The instruction of an opcode, where it is in the core.
#[must_use]
pub fn of_opcode(opcode: u8) -> Option<Instruction> {
    TABLE[usize::from(opcode)]
}

/// The instruction of a name.
#[must_use]
pub fn of_name(name: &str) -> Option<Instruction> {
    let mut found = TABLE.iter().flatten();
    found.find(|entry| entry.name == name).copied()
}

/// The operands of what `wide` widens: loads and stores of a local, and `iinc`.
#[must_use]
pub fn widened(opcode: u8) -> Option<Operands> {
    match opcode {
        21..=25 | 54..=58 => Some(Operands::LongIndex),
        132 => Some(Operands::LongIncrement),
        _ => None,
    }
}

/// Where the operands of a switch at an offset begin: at the next multiple of 4.
#[must_use]
pub fn switch_operands(pc: usize) -> usize {
    (pc + 1).next_multiple_of(4)
}
