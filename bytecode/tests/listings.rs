//! Listings, written out.

use bytecode::listing::{listing, listing_of_bytes};
use bytecode::sheet::Sheet;
use bytecode::{source, values};
use std::fs;

/// The listing of a sample.
fn of_sample(name: &str) -> String {
    let path = format!("{}/../samples/{name}.sheet", env!("CARGO_MANIFEST_DIR"));
    let sheet = Sheet::read(&fs::read(path).unwrap());
    listing(&sheet.unwrap())
}

/// The listing of a source.
fn of_source(text: &str) -> String {
    listing_of_bytes(&source::sheet(text).unwrap())
}

#[test]
fn constants_stand_beside_what_takes_them() {
    let text = "     0: ldc           #1                 // int 100000
     2: i2d
     3: ldc           #2                 // float 0.5f
     5: f2d
     6: dadd
     7: ldc2_w        #3                 // long 10000000000L
    10: l2d
    11: dadd
    12: ldc2_w        #5                 // double 0.25d
    15: dadd
    16: dreturn
max_stack 4, max_locals 0
constants:
  #1 int 100000
  #2 float 0.5f
  #3 long 10000000000L
  #5 double 0.25d
";
    assert_eq!(of_sample("ldc"), text);
}

#[test]
fn a_switch_has_a_line_for_each_key() {
    let text = "     0: iload_0
     1: bipush        12
     3: irem
     4: lookupswitch  { // 5
                    2: 56
                    4: 59
                    6: 59
                    9: 59
                   11: 59
              default: 62
        }
    56: bipush        28
    58: ireturn
    59: bipush        30
    61: ireturn
    62: bipush        31
    64: ireturn
max_stack 2, max_locals 1
arguments:
  local 0: word 00000015, as an int 21
";
    assert_eq!(of_sample("lookupswitch"), text);
}

#[test]
fn handlers_are_a_table() {
    let text = "     0: iload_1
     1: bipush        12
     3: iload_0
     4: idiv
     5: iadd
     6: istore_1
     7: iinc          0, 1
    10: iload_0
    11: iconst_3
    12: if_icmple     0
    15: iload_1
    16: ireturn
    17: pop
    18: goto          7
    21: pop
    22: iconst_m1
    23: ireturn
max_stack 3, max_locals 2
constants:
  #5 class that an ArithmeticException cannot be assigned to
exception table:
    from     to target  type
       0      7     21  #5
       0      7     17  any
arguments:
  local 0: word FFFFFFFF, as an int -1
  local 1: word 00000000, as an int 0
";
    assert_eq!(of_sample("skipped_terms"), text);
}

#[test]
fn what_is_wrong_is_listed_too() {
    let wrong = "# wrong
max_stack 1
max_locals 300
descriptor (FJ)V
constant 7 float h7FC00001
argument float 0.1
argument long 3000000000
code
    wide iinc 256 1000
    bytes C4 00 BA; ldc_w 7; ldc 8
    tableswitch -1 +0 +1 default -7
    bytes AA 00 00 00; numbers 9 3 2
    goto_w +70000
    bytes 11 01";
    let text = "     0: wide iinc     256, 1000
     6: wide (cannot widen byte 0)       // C4
     7: nop
     8: unknown byte 186                 // BA
     9: ldc_w         #7                 // float NaN (h7FC00001)
    12: ldc           #8                 // no constant
    14: tableswitch   { // -1 to 0
                   -1: 14
                    0: 15
              default: 7
        }
    36: tableswitch (lowest index 3 is above highest index 2) // AA 00 00 00 00 00 00 09 00 00 00 03 00 00 00 02
    52: goto_w        70052
    57: sipush (cut off by the end of the code) // 11 01
max_stack 1, max_locals 300
descriptor (FJ)V
constants:
  #7 float NaN (h7FC00001)
arguments:
  local 0: float 0.1f
  locals 1 and 2: long 3000000000L
";
    assert_eq!(of_source(wrong), text);
}

#[test]
fn bytes_are_listed_as_far_as_they_are_records() {
    for (bytes, text) in [
        ("", "no AR record at the end\n"),
        ("4C4D", "no record from byte 0 on: 4C 4D\n"),
        (
            "4C4D 0004 00020000",
            "max_stack 2, max_locals 0\nno AR record at the end\n",
        ),
        (
            "4C4D 0004 00020001 4344 0001 B1 4152 0000 000102030405060708090A0B0C0D0E0F10",
            "     0: return\nmax_stack 2, max_locals 1\n\
             no record from byte 17 on: 00 01 02 03 04 05 06 07 08 09 0A 0B 0C 0D 0E 0F ... (17 bytes)\n",
        ),
        (
            "4C4D 0004 00020001 4453 0004 281BFF29 4344 0001 B1 4558 0008 0001000200030004 4142 0000",
            "     0: return\nmax_stack 2, max_locals 1\ndescriptor (\\x1b\\xff)\n\
             exception table:\n    from     to target  type\n       1      2      3  #4\n\
             no record from byte 33 on: 41 42 00 00\n",
        ),
    ] {
        let bytes = values::bytes(&bytes.replace(' ', "")).unwrap();
        assert_eq!(listing_of_bytes(&bytes), text);
    }
}
