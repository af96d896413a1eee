//! A class file for the tests, with what a class file may have.

use crate::assembler::assemble;

/// Where the constants of [`class`] stand that its methods use.
pub(super) mod at {
    pub const INT: u16 = 3;
    pub const FLOAT: u16 = 4;
    pub const LONG: u16 = 5;
    pub const DOUBLE: u16 = 7;
    pub const ARITHMETIC: u16 = 10;
    pub const ERROR: u16 = 12;
    pub const STRING: u16 = 14;
}

const STATIC: u16 = 0x0009;
const INSTANCE: u16 = 0x0001;

/// The example: `demo.Sum`, with methods of each kind.
pub(super) fn class() -> Vec<u8> {
    let mut file = File::default();
    file.constants();
    let end = "end: istore_0; iconst_m1; ireturn";
    file.method(
        STATIC,
        "add",
        "(II)I",
        Some(code("iload_0; iload_1; iadd; ireturn", &[])),
    );
    file.method(
        STATIC,
        "add",
        "(JJ)J",
        Some(code("lload_0; lload_2; ladd; lreturn", &[])),
    );
    let caught = format!("iload_0; iload_1; idiv; ireturn; {end}");
    let handlers = [
        [0, 4, 4, at::ERROR],
        [0, 4, 4, at::ARITHMETIC],
        [0, 3, 4, 0],
    ];
    file.method(STATIC, "caught", "(II)I", Some(code(&caught, &handlers)));
    let loads = "ldc 3; i2d; ldc2_w 7; dadd; ldc_w 4; f2d; dadd; ldc2_w 5; l2d; dadd; dreturn";
    file.method(STATIC, "constants", "()D", Some(code(loads, &[])));
    let wide = "wide iinc 0 1000; iload_0; lookupswitch 5 a default a; a: iload_0; tableswitch 1 b default b; b: return";
    file.method(STATIC, "wide", "(I)V", Some(code(wide, &[])));
    file.method(
        STATIC,
        "field",
        "()I",
        Some(code(
            "iconst_1; iconst_2; iadd; pop; bytes B20001; ireturn",
            &[],
        )),
    );
    file.method(
        STATIC,
        "text",
        "()V",
        Some(code("nop; ldc 14; pop; return", &[])),
    );
    file.method(STATIC, "jump", "()V", Some(code("bytes FF; return", &[])));
    file.method(STATIC, "mixed", "(I)I", Some(code("iload_0; ireturn", &[])));
    file.method(INSTANCE, "mixed", "()V", Some(code("return", &[])));
    file.method(INSTANCE, "instance", "()V", Some(code("return", &[])));
    file.method(STATIC | 0x0100, "natively", "()V", None);
    file.method(STATIC, "<clinit>", "()V", Some(code("return", &[])));
    file.bytes()
}

/// A class with one static method of a code.
pub(super) fn class_with(code_bytes: &[u8]) -> Vec<u8> {
    let mut file = File::default();
    file.constants();
    file.method(STATIC, "one", "()V", Some(attribute(code_bytes, &[])));
    file.bytes()
}

fn code(listing: &str, handlers: &[[u16; 4]]) -> Vec<u8> {
    attribute(&assemble(listing).unwrap(), handlers)
}

/// The body of a code attribute.
fn attribute(code: &[u8], handlers: &[[u16; 4]]) -> Vec<u8> {
    let mut body = vec![0, 4, 0, 4];
    body.extend(u32::try_from(code.len()).unwrap().to_be_bytes());
    body.extend(code);
    body.extend(u16::try_from(handlers.len()).unwrap().to_be_bytes());
    body.extend(
        handlers
            .as_flattened()
            .iter()
            .flat_map(|field| field.to_be_bytes()),
    );
    // One attribute of the code, of two bytes.
    body.extend([0, 1, 0, 16, 0, 0, 0, 2, 0xAB, 0xCD]);
    body
}

/// What a class file has, as it is written.
#[derive(Default)]
struct File {
    pool: Vec<u8>,
    /// The indices in use.
    used: u16,
    methods: Vec<u8>,
    count: u16,
}

impl File {
    /// A constant: its tag, and what follows it.
    fn constant(&mut self, tag: u8, body: &[u8]) -> u16 {
        self.pool.push(tag);
        self.pool.extend(body);
        let index = self.used + 1;
        self.used += if tag == 5 || tag == 6 { 2 } else { 1 };
        index
    }

    fn text(&mut self, text: &str) -> u16 {
        let length = u16::try_from(text.len()).unwrap().to_be_bytes();
        self.constant(1, &[&length[..], text.as_bytes()].concat())
    }

    fn class(&mut self, name: &str) -> u16 {
        let name = self.text(name);
        self.constant(7, &name.to_be_bytes())
    }

    /// The constants that methods use, then others of each tag.
    fn constants(&mut self) {
        self.class("demo/Sum");
        assert_eq!(self.constant(3, &(-7_i32).to_be_bytes()), at::INT);
        assert_eq!(self.constant(4, &0.5_f32.to_be_bytes()), at::FLOAT);
        assert_eq!(self.constant(5, &(1_i64 << 40).to_be_bytes()), at::LONG);
        assert_eq!(self.constant(6, &0.1_f64.to_be_bytes()), at::DOUBLE);
        assert_eq!(self.class("java/lang/ArithmeticException"), at::ARITHMETIC);
        assert_eq!(self.class("java/lang/Error"), at::ERROR);
        self.text("hello");
        assert_eq!(self.constant(8, &[0, 13]), at::STRING);
        self.text("Code");
        self.text("LineNumberTable");
        for tag in [9, 10, 11, 12, 17, 18] {
            self.constant(tag, &[0, 1, 0, 1]);
        }
        self.constant(15, &[1, 0, 1]);
        for tag in [16, 19, 20] {
            self.constant(tag, &[0, 1]);
        }
    }

    fn method(&mut self, flags: u16, name: &str, descriptor: &str, code: Option<Vec<u8>>) {
        let (name, descriptor) = (self.text(name), self.text(descriptor));
        self.count += 1;
        for number in [flags, name, descriptor, code.is_some().into()] {
            self.methods.extend(number.to_be_bytes());
        }
        if let Some(code) = code {
            self.methods.extend([0, 15]);
            self.methods
                .extend(u32::try_from(code.len()).unwrap().to_be_bytes());
            self.methods.extend(code);
        }
    }

    fn bytes(&self) -> Vec<u8> {
        let number = |number: u16| number.to_be_bytes().to_vec();
        // An interface, a field with an attribute, and an attribute of the class.
        let parts = [
            vec![0xCA, 0xFE, 0xBA, 0xBE, 0, 0, 0, 61],
            number(self.used + 1),
            self.pool.clone(),
            [0, 0x21, 0, 2, 0, 2, 0, 1, 0, 2].to_vec(),
            [0, 1, 0, 8, 0, 1, 0, 1, 0, 1, 0, 16, 0, 0, 0, 1, 0xFF].to_vec(),
            number(self.count),
            self.methods.clone(),
            [0, 1, 0, 16, 0, 0, 0, 0].to_vec(),
        ];
        parts.concat()
    }
}
