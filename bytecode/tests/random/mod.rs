//! Random sheets, the same at every run.

use bytecode::instructions::{of_opcode, switch_operands};
use bytecode::sheet::{Constant, ConstantKind, Sheet};

/// SplitMix64.
pub struct Random(u64);

/// Whether a source has lines for all parts of a sheet.
pub fn has_lines(sheet: &Sheet) -> bool {
    let descriptor = sheet.descriptor.as_deref().unwrap_or(b"()");
    let is_word = |byte: &u8| byte.is_ascii_graphic() && *byte != b'#';
    let is_class = |constant: &Constant| constant.kind == ConstantKind::Class;
    let mut classes = sheet.constants.iter().filter(|constant| is_class(constant));
    !descriptor.is_empty() && descriptor.iter().all(is_word) && classes.all(|class| class.bits < 2)
}

impl Random {
    pub fn new(seed: u64) -> Random {
        Random(seed)
    }

    fn next(&mut self) -> u64 {
        self.0 = self.0.wrapping_add(0x9E37_79B9_7F4A_7C15);
        let mut mixed = self.0;
        mixed = (mixed ^ (mixed >> 30)).wrapping_mul(0xBF58_476D_1CE4_E5B9);
        mixed = (mixed ^ (mixed >> 27)).wrapping_mul(0x94D0_49BB_1331_11EB);
        mixed ^ (mixed >> 31)
    }

    pub fn below(&mut self, limit: usize) -> usize {
        (self.next() % limit as u64) as usize
    }

    pub fn byte(&mut self) -> u8 {
        self.next() as u8
    }

    /// Bits that are often those of a special value.
    fn bits(&mut self) -> u64 {
        const SPECIAL: [u64; 8] = [
            0,
            0x8000_0000,
            0x7F80_0000,
            0x7FC0_0000,
            0xFFC0_0001,
            0x8000_0000_0000_0000,
            0xFFF0_0000_0000_0000,
            0x7FF8_0000_0000_0001,
        ];
        match self.below(3) {
            0 => SPECIAL[self.below(SPECIAL.len())],
            1 => self.next() >> self.below(64),
            _ => self.next(),
        }
    }

    pub fn sheet(&mut self) -> Sheet {
        let mut sheet = Sheet {
            max_stack: self.next() as u16,
            max_locals: self.below(9) as u16,
            ..Sheet::default()
        };
        sheet.descriptor = self.descriptor();
        for _ in 0..self.below(30) {
            self.instruction(&mut sheet.code);
        }
        for _ in 0..self.below(4) {
            sheet.constants.push(self.constant());
        }
        for _ in 0..self.below(3) {
            let limit = sheet.code.len() + 3;
            let mut offset = || self.below(limit) as u16;
            sheet
                .handlers
                .push([offset(), offset(), offset(), offset() % 4]);
        }
        for _ in 0..self.below(5) {
            sheet.arguments.push(self.bits() as u32);
        }
        sheet
    }

    fn descriptor(&mut self) -> Option<Vec<u8>> {
        let text: &[u8] = match self.below(12) {
            0..=3 => return None,
            4 => b"(J)V",
            5 => b"(FF)Z",
            6 => b"(D[ILjava/lang/Object;)B",
            7 => b"(IJ",
            8 => b"",
            9 => b"(L#;)V",
            10 => b"(L\xC3\xA9;)V",
            _ => b"(IIII)V",
        };
        Some(text.to_vec())
    }

    fn constant(&mut self) -> Constant {
        let tag = 3 + self.below(5) as u8;
        let kind = ConstantKind::of_tag(tag).unwrap();
        let bits = match kind {
            // A class whose word is neither 0 nor 1 is rare.
            ConstantKind::Class if self.below(8) > 0 => self.next() % 2,
            _ if kind.size() == 1 => u64::from(self.bits() as u32),
            _ => self.bits(),
        };
        let index = self.next() as u16;
        Constant { index, kind, bits }
    }

    /// Appends an instruction, whole or cut off, or any byte.
    fn instruction(&mut self, code: &mut Vec<u8>) {
        let (at, opcode) = (code.len(), self.byte());
        code.push(opcode);
        if matches!(opcode, 170 | 171) {
            return self.switch(code, at);
        }
        if opcode == 196 && self.below(4) > 0 {
            code.extend([[21, 58, 132][self.below(3)], 1, self.byte()]);
        }
        let operands = of_opcode(opcode).map(|instruction| instruction.operands);
        let length = operands.and_then(|operands| operands.length()).unwrap_or(0);
        // A distance that is often small, so that it often leads to an instruction.
        let distance = (self.below(40) as i32 - 20).to_be_bytes();
        code.extend(&distance[4 - length..]);
    }

    fn switch(&mut self, code: &mut Vec<u8>, at: usize) {
        let padding = if self.below(4) > 0 { 0 } else { self.byte() };
        code.resize(switch_operands(at), padding);
        let many = self.below(4) as i32;
        let table = code[at] == 170;
        let low = self.below(9) as i32 - 4;
        let head = if table {
            vec![low, low + many - 1]
        } else {
            vec![many]
        };
        let words = if table { many } else { 2 * many };
        let rest = (0..=words).map(|_| self.below(40) as i32 - 20);
        let mut fields: Vec<i32> = rest.collect();
        fields.splice(1..1, head);
        // Sometimes the table is longer than it says, or shorter.
        fields.truncate(fields.len() - usize::from(self.below(9) == 0));
        code.extend(fields.into_iter().flat_map(i32::to_be_bytes));
    }
}
