//! How many places the instructions pop and push, and how many locals they name (JVMS 6.5).

/// How many places a core opcode pops and pushes. Those of `WIDE` are what it widens.
pub fn places(opcode: u8) -> Option<(usize, usize)> {
    Some(match opcode {
        0 | 132 | 167 | 177 | 196 | 200 => (0, 0),
        1..=8 | 11..=13 | 16..=19 => (0, 1),
        9 | 10 | 14 | 15 | 20 => (0, 2),
        21 | 23 | 25 | 26..=29 | 34..=37 | 42..=45 => (0, 1),
        22 | 24 | 30..=33 | 38..=41 => (0, 2),
        54 | 56 | 58 | 59..=62 | 67..=70 | 75..=78 => (1, 0),
        55 | 57 | 63..=66 | 71..=74 => (2, 0),
        87 => (1, 0),
        88 => (2, 0),
        89 => (1, 2),
        90 => (2, 3),
        91 => (3, 4),
        92 => (2, 4),
        93 => (3, 5),
        94 => (4, 6),
        95 => (2, 2),
        // + - * / %, for int, long, float and double in turn; then the four negations.
        96..=115 => [(2, 1), (4, 2)][usize::from(opcode) % 2],
        116..=119 => [(1, 1), (2, 2)][usize::from(opcode) % 2],
        // A shift's count is an int.
        120..=125 => [(2, 1), (3, 2)][usize::from(opcode) % 2],
        126..=131 => [(2, 1), (4, 2)][usize::from(opcode) % 2],
        134 | 139 | 145..=147 => (1, 1),
        133 | 135 | 140 | 141 => (1, 2),
        136 | 137 | 142 | 144 => (2, 1),
        138 | 143 => (2, 2),
        149 | 150 => (2, 1),
        148 | 151 | 152 => (4, 1),
        153..=158 | 170 | 171 | 198 | 199 => (1, 0),
        159..=166 => (2, 0),
        172 | 174 | 176 => (1, 0),
        173 | 175 => (2, 0),
        _ => return None,
    })
}

/// How many locals an instruction loads or stores.
pub fn locals(opcode: u8) -> usize {
    match opcode {
        21 | 23 | 25 | 54 | 56 | 58 | 132 => 1,
        22 | 24 | 55 | 57 => 2,
        _ => 0,
    }
}

#[cfg(test)]
mod tests {
    use super::places;
    use bytecode::instructions::of_opcode;

    #[test]
    fn the_core_is_document_01s() {
        let core = |opcode: u8| matches!(opcode, 0..=45 | 54..=78 | 87..=167 | 170..=177 | 196 | 198..=200);
        for opcode in 0..=255 {
            assert_eq!(places(opcode).is_some(), core(opcode), "{opcode}");
            assert_eq!(of_opcode(opcode).is_some(), core(opcode), "{opcode}");
        }
    }
}
