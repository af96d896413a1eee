//! Reading a class file: what it has, and that no bytes end in a panic.

use super::*;

/// Reads a class and makes a sheet of each method with arguments of 0. What is wrong is no matter.
fn use_all(bytes: &[u8]) -> bool {
    let Ok(class) = read(bytes) else {
        return false;
    };
    for method in &class.methods {
        let text = method.descriptor_text();
        let many = crate::descriptor::read(&text).map_or(0, |found| found.parameters.len());
        let _ = sheet(&class, method, &vec!["0".to_string(); many]);
        let _ = choose(&class, &method.name_text());
        let _ = choose(&class, &method.signature());
    }
    let _ = choose(&class, "none");
    true
}

#[test]
fn a_class_has_its_methods() {
    let bytes = example::class();
    let class = read(&bytes).unwrap();
    assert_eq!(class.name, "demo.Sum");
    let signatures: Vec<String> = class.methods.iter().map(Method::signature).collect();
    assert_eq!(
        signatures.join(" "),
        "add(II)I add(JJ)J caught(II)I constants()D wide(I)V field()I text()V jump()V mixed(I)I \
         mixed()V instance()V natively()V <clinit>()V"
    );
    let caught = &class.methods[2];
    let code = caught.code.as_ref().unwrap();
    assert_eq!(caught.flags, 0x0009);
    assert_eq!((code.max_stack, code.max_locals), (4, 4));
    assert_eq!(code.code, [0x1A, 0x1B, 0x6C, 0xAC, 0x3B, 0x02, 0xAC]);
    assert_eq!(code.handlers, [[0, 4, 4, 12], [0, 4, 4, 10], [0, 3, 4, 0]]);
    let native = &class.methods[11];
    assert!(native.is_static() && native.is_native() && native.code.is_none());
    assert!(!class.methods[10].is_static());
}

#[test]
fn a_pool_has_its_constants() {
    let bytes = example::class();
    let pool = read(&bytes).unwrap().pool;
    assert_eq!(pool.get(0), None);
    assert_eq!(pool.get(2), Some(Constant::Class(1)));
    assert_eq!(pool.get(3), Some(Constant::Integer(0xFFFF_FFF9)));
    assert_eq!(pool.get(4), Some(Constant::Float(0x3F00_0000)));
    assert_eq!(pool.get(5), Some(Constant::Long(1 << 40)));
    assert_eq!(pool.get(6), None);
    assert_eq!(pool.get(7), Some(Constant::Double(0x3FB9_9999_9999_999A)));
    assert_eq!(pool.get(14), Some(Constant::Other(8)));
    assert_eq!(pool.get(u16::MAX), None);
    assert_eq!(
        pool.class_name(10),
        Ok(&b"java/lang/ArithmeticException"[..])
    );
}

#[test]
fn every_prefix_is_refused() {
    let bytes = example::class();
    for length in 0..bytes.len() {
        assert!(!use_all(&bytes[..length]), "{length}");
    }
    assert!(use_all(&bytes));
    let cut = "the class file is damaged: it ends at byte 100, inside of a part";
    assert_eq!(read(&bytes[..100]), Err(cut.to_string()));
}

#[test]
fn changes_never_end_in_a_panic() {
    let bytes = example::class();
    let mut random = 0x2545_F491_4F6C_DD1D_u64;
    let mut next = |below: usize| {
        // Xorshift: each run has the same changes.
        random ^= random << 13;
        random ^= random >> 7;
        random ^= random << 17;
        usize::try_from(random % below as u64).unwrap()
    };
    let mut still_read = 0;
    for _ in 0..20_000 {
        let mut changed = bytes.clone();
        for _ in 0..=next(4) {
            let at = next(changed.len());
            match next(8) {
                0 => drop(changed.remove(at)),
                1 => changed.insert(at, next(256).to_be_bytes()[7]),
                2 => changed[at] ^= 1 << next(8),
                3 => changed[at] = 0xFF,
                _ => changed[at] = next(256).to_be_bytes()[7],
            }
        }
        still_read += usize::from(use_all(&changed));
    }
    // Changes of a code or a name leave a class; those of a length mostly do not.
    assert!((2_000..18_000).contains(&still_read), "{still_read}");
}

#[test]
fn what_is_damaged_is_said() {
    let bytes = example::class();
    let damaged = |what: &str| Err(format!("the class file is damaged: {what}"));
    let with = |at: usize, byte: u8| {
        let mut changed = bytes.clone();
        changed[at] = byte;
        read(&changed).map(|class| class.name)
    };
    assert_eq!(with(0, 0), Err("this is no class file".to_string()));
    // The tag of the first constant, and what the second, a class, has for its name.
    assert_eq!(with(10, 2), damaged("constant 1 has the unknown tag 2"));
    assert_eq!(
        with(23, 3),
        damaged("constant 3 is no text, and should be one")
    );
    let longer = [&bytes[..], &[0]].concat();
    let end = bytes.len();
    let what = damaged(&format!("it goes on after its end at byte {end}"));
    assert_eq!(read(&longer).map(|class| class.name), what);
    // A pool of a long alone, which has no second index.
    let long = [&bytes[..8], &[0, 2, 5, 0, 0, 0, 0, 0, 0, 0, 1]].concat();
    assert_eq!(
        read(&long).map(|class| class.name),
        damaged("constant 1 has no second index")
    );
}

#[test]
fn a_code_has_at_most_65_535_bytes() {
    let most = example::class_with(&[0; 65_535]);
    let class = read(&most).unwrap();
    assert!(sheet(&class, &class.methods[0], &[]).is_ok());
    let what = "the class file is damaged: method one has more than 65,535 bytes of code";
    assert_eq!(
        read(&example::class_with(&[0; 65_536])),
        Err(what.to_string())
    );
}
