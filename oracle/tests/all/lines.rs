//! docs/SCRIPT.md, sentence by sentence: lines, numbers, HEX, what each line does and writes,
//! and what is wrong with a line.

use std::io::{self, BufReader, Write};
use std::process;

use crate::common::{figure, set};
use oracle::registers::*;
use oracle::script::{run, Reason, Session};

fn output(script: impl AsRef<[u8]>) -> String {
    let mut output = Vec::new();
    run(script.as_ref(), &mut output).unwrap();
    String::from_utf8(output).unwrap()
}

/// That one line, after a memory of 4096 bytes from 0x1000 on, is wrong for the reason.
#[track_caller]
fn wrong(line: impl AsRef<[u8]>, reason: Reason) {
    let mut script = b"memory 0x1000 4096\n".to_vec();
    script.extend_from_slice(line.as_ref());
    script.extend_from_slice(b"\nlookup 0\n");
    let expected = format!("line 2: {}\n", reason.words());
    let shown = String::from_utf8_lossy(line.as_ref()).into_owned();
    assert_eq!(output(script), expected, "{shown}");
}

/// That one line, in the same place, is right.
#[track_caller]
fn right(line: impl AsRef<[u8]>) {
    let mut script = b"memory 0x1000 4096\n".to_vec();
    script.extend_from_slice(line.as_ref());
    script.extend_from_slice(b"\nstop");
    assert!(output(&script).ends_with("line 3: no such command\n"));
}

/// The figure as a script; stream 768 has stage 1 and S1Fmt 0.
fn figure_script() -> String {
    let mut session = figure();
    for (field, value) in [(S1P, 1), (CD2L, 1), (TTF, 2), (S2P, 1)] {
        set(&mut session, Register::Idr0, field, value);
    }
    set(&mut session, Register::Idr1, SSIDSIZE, 8);
    let mut script = String::from("memory 0 65536\n");
    for register in Register::ALL {
        let value = session.registers.get(register);
        script += &format!("register {} {value:#x}\n", register.name());
    }
    let ste = "09".to_string() + &"00".repeat(63);
    script += &format!("fill 0 257 {ste}\n");
    script += "write 0x8000 0910000000000000232f000000000000\n";
    script += "write 0x8018 0140000000000000\n";
    script
}

#[test]
fn the_samples_of_an_answer() {
    let stage_1 = "write 0x4000 0bc00000000000400000000000000000\nwrite 0xffc0 0040008000020000\n";
    let script = figure_script()
        + "lookup 0 1048576\nlookup 256\nlookup 512\n"
        + stage_1
        + "lookup 768 255\nwrite 0x4000 0d\nlookup 768\nwrite 0 01\nlookup 0\n"
        + "register cr2 0\nlookup 1024\nregister cr0 0\nlookup 1\n";
    let expected = "\
refused 3
bypass ste 0x2f00 read 0x8008+8 0x2f00+64
abort 02 read 0x8010+8
translate ste 0x4000 cd 0xffc0 asid 0 t0sz 0 tg0 0 epd0 1 ips 32 ttb0 0x0 read 0x8018+8 0x4000+64 0xffc0+64
unserved 20 read 0x8018+8 0x4000+64
quiet read 0x8000+8 0x0+64
unrecorded 02 read -
bypass global read -
";
    assert_eq!(output(script), expected);
}

#[test]
fn the_forms_of_the_numbers_in_an_answer() {
    // ASID, T0SZ, TG0 and the sizes are decimal, addresses hexadecimal, events two digits.
    let script = figure_script()
        + "write 0x4000 0bc0000000000000\nwrite 0xc000 d4400080070200ab\nwrite 0xc008 f0abcdef01000000\n"
        + "lookup 768\nwrite 0xc003 00\nlookup 768\n";
    let expected = "\
translate ste 0x4000 cd 0xc000 asid 43776 t0sz 20 tg0 3 epd0 1 ips 48 ttb0 0x1efcdabf0 read 0x8018+8 0x4000+64 0xc000+64
abort 0A read 0x8018+8 0x4000+64 0xc000+64
";
    assert_eq!(output(script), expected);
}

#[test]
fn part_writes_the_ste_or_empty() {
    let ste = "09".to_string() + &"00".repeat(62) + "aB";
    let script = figure_script()
        + &format!("write 0x2f00 {ste}\n")
        + "part 256\npart 260\npart 256 1048576\n";
    let expected = format!("part {}\npart empty\npart empty\n", ste.to_lowercase());
    assert_eq!(output(script), expected);
}

#[test]
fn the_book_by_script() {
    let script = figure_script()
        + "ask 0\nnotice 0 0\nreport\nopen 0\nopen 2\nask 256\nask 260\nask 256\nask 0\nreport\n"
        + "notice 0x2f00 1\nask 0\nask 256 1048576\nnotice 1 0x10000000000000\nopen 65\nreport\n"
        + "register cr2 0\nask 260\nlookup 260\nmemory 64 65536\nask 260\nmemory 0 65536\nask 260\nask 1\n"
        + "open 1\nreport\nask 1024\nreport\n";
    let expected = "\
refused 7
refused 7
refused 7
refused 4
opened
newly-kept bypass ste 0x2f00 read 0x8008+8 0x2f00+64
newly-kept abort 02 read 0x8008+8
kept-before bypass ste 0x2f00 read 0x8008+8 0x2f00+64
not-kept bypass ste 0x0 read 0x8000+8 0x0+64
slot\tstream\tsubstream\toutcome\tevent\taddress
0\t00000100\t-\tbypass\t-\t-
1\t00000104\t-\tabort\t02\t-
noticed
newly-kept bypass ste 0x0 read 0x8000+8 0x0+64
refused 3
refused 5
refused 4
slot\tstream\tsubstream\toutcome\tevent\taddress
0\t00000000\t-\tbypass\t-\t-
1\t00000104\t-\tabort\t02\t-
kept-before abort 02 read 0x8008+8
unrecorded 02 read 0x8008+8
refused 6
kept-before abort 02 read 0x8008+8
not-kept abort 02 read 0x8000+8
opened
slot\tstream\tsubstream\toutcome\tevent\taddress
newly-kept unrecorded 02 read -
slot\tstream\tsubstream\toutcome\tevent\taddress
0\t00000400\t-\tunrecorded\t02\t-
";
    assert_eq!(output(script), expected);
}

#[test]
fn the_report_of_every_outcome() {
    let script = figure_script()
        + "write 0x4000 0bc00000000000400100000000000000\nwrite 0xc000 0040008000020000\n"
        + "write 0x0 01\nwrite 0x40 0d\nwrite 0x80 0bf0ffffffffff00\nwrite 0x8008 0100010000000000\nopen 64\n"
        + "ask 768 0\nask 768\nask 512\nask 0\nask 1\nask 1048575 1048575\nask 768 171\nask 256\nask 2\n"
        + "report\n";
    let written = output(script);
    let report = written.split_once("slot\t").unwrap().1;
    let expected = "stream\tsubstream\toutcome\tevent\taddress
0\t00000300\t00000\ttranslate\t-\t-
1\t00000300\t-\tbypass\t-\t-
2\t00000200\t-\tabort\t02\t-
3\t00000000\t-\tquiet\t-\t-
4\t00000001\t-\tunserved\t20\t-
5\t000fffff\tfffff\tabort\t02\t-
6\t00000300\t000ab\tabort\t0A\t-
7\t00000100\t-\tabort\t03\t0000000000010000
8\t00000002\t-\tabort\t09\t00fffffffffff000
";
    assert_eq!(report, expected);
}

#[test]
fn an_abort_by_a_fetch_says_the_address_before_the_list() {
    let script = figure_script()
        + "write 0x8018 0100010000000000\nlookup 768\nopen 1\nask 768\nask 768\n"
        + "write 0x8018 c1ffffffffffffff\nask 768\nlookup 768\nnotice 0x8018 8\nask 768\nask 0\nreport\n"
        + "write 0x8018 0140000000000000\nwrite 0x4000 0bf00000000000400000000000000000\nlookup 768 70\n"
        + "register strtab_base 0x1000000\nlookup 768\nregister strtab_base 0\n"
        + "memory 64 128\nlookup 0\n";
    let expected = "\
abort 03 address 0x10000 read 0x8018+8
opened
newly-kept abort 03 address 0x10000 read 0x8018+8
kept-before abort 03 address 0x10000 read 0x8018+8
kept-before abort 03 address 0x10000 read 0x8018+8
abort 03 address 0xffffffffffffc0 read 0x8018+8
noticed
newly-kept abort 03 address 0xffffffffffffc0 read 0x8018+8
not-kept bypass ste 0x0 read 0x8000+8 0x0+64
slot\tstream\tsubstream\toutcome\tevent\taddress
0\t00000300\t-\tabort\t03\t00ffffffffffffc0
abort 09 address 0x10180 read 0x8018+8 0x4000+64
abort 03 address 0x1000018 read -
abort 03 address 0x0 read -
";
    assert_eq!(output(script), expected);
}

// Lines.

#[test]
fn an_empty_script_writes_nothing() {
    for script in [
        "",
        "\n",
        "\r\n",
        "\n\n \t\n",
        "# comment",
        "  #lookup",
        "\t# \r",
        "\r",
    ] {
        assert_eq!(output(script), "", "{script:?}");
    }
}

#[test]
fn ends_of_lines() {
    let one = "bypass global read -\n";
    for script in [
        "lookup 0",
        "lookup 0\n",
        "lookup 0\r\n",
        "lookup 0\r",
        "lookup 0 \r\n",
    ] {
        assert_eq!(output(script), one, "{script:?}");
    }
    // A second carriage return belongs to a word.
    assert_eq!(output("lookup 0\r\r\n"), "line 1: not a number\n");
    assert_eq!(output("lookup 0 \r\r\n"), "line 1: not a number\n");
    assert_eq!(output("\r\r\n"), "line 1: no such command\n");
    assert_eq!(output("\r lookup 0\n"), "line 1: no such command\n");
    assert_eq!(output("#\r\r\n\r#\n"), "line 2: no such command\n");
    // It is before the line feed only.
    assert_eq!(
        output("lookup 0\n\rlookup 0\n"),
        format!("{one}line 2: no such command\n")
    );
}

#[test]
fn spaces_and_tabs() {
    let one = "bypass global read -\n";
    for script in [
        " lookup 0",
        "\tlookup\t0\t",
        "  lookup \t 0  \t",
        "lookup\t\t0 \r",
    ] {
        assert_eq!(output(script), one, "{script:?}");
    }
    // Every other byte belongs to a word.
    for byte in (0..=255).filter(|byte| ![b' ', b'\t', b'\n'].contains(byte)) {
        let script = [b"lookup", [byte].as_slice(), b"0"].concat();
        let reason = "line 1: no such command\n";
        assert_eq!(output(script), reason, "{byte}");
    }
}

#[test]
fn lines_are_counted_from_1_with_those_that_do_nothing() {
    assert_eq!(output("bad"), "line 1: no such command\n");
    assert_eq!(
        output("\n# x\n\r\n \nbad\nworse"),
        "line 5: no such command\n"
    );
    let many = "\n".repeat(12_344) + "bad";
    assert_eq!(output(many), "line 12345: no such command\n");
}

#[test]
fn a_comment_begins_with_the_first_word() {
    right("#");
    right("#lookup x y z");
    right(" \t # \u{ff} \0");
    wrong("lookup 0 #", Reason::NotANumber);
    wrong("lookup 0 0 # why", Reason::TooManyWords);
    wrong("x# y", Reason::NoSuchCommand);
}

#[test]
fn the_first_wrong_line_ends_the_run_and_what_was_written_stays() {
    let script = "lookup 0\nlookup 0 0\nlookup\nlookup 0\nbad\n";
    let expected = "bypass global read -\nbypass global read -\nline 3: too few words\n";
    assert_eq!(output(script), expected);
}

// Numbers and HEX.

#[test]
fn what_a_number_is() {
    for number in [
        "0",
        "00",
        "0x0",
        "0xfF",
        "0x00fF",
        "18446744073709551615",
        "0xffffffffffffffff",
    ] {
        right(format!("open {number}"));
    }
    right(format!("open {}1", "0".repeat(4000)));
    right(format!("open 0x{}1", "0".repeat(4000)));
    for word in [
        "0x", "0X1", "x1", "1x", "-1", "+1", "1e3", "1.", "1_0", "0x-1", "0x1g", "ff", "0b1",
        "00x1", "0xx1", "\u{b9}", "\u{661}", "1\0", "0x\r1",
    ] {
        wrong(format!("open {word}"), Reason::NotANumber);
    }
    for number in [
        "18446744073709551616",
        "0x10000000000000000",
        "340282366920938463463374607431768211455",
        "340282366920938463463374607431768211456",
        "340282366920938463463374607431768211457",
        "0x100000000000000000000000000000000",
    ] {
        wrong(format!("open {number}"), Reason::NumberTooLarge);
    }
    wrong(format!("open {}", "9".repeat(4000)), Reason::NumberTooLarge);
    // So large and yet no number.
    wrong(format!("open {}x", "9".repeat(4000)), Reason::NotANumber);
}

#[test]
fn which_numbers_are_too_large() {
    for command in ["lookup", "part", "ask"] {
        right(format!("{command} 0xffffffff"));
        right(format!("{command} 0 0xffffffffffffffff"));
        wrong(format!("{command} 4294967296"), Reason::NumberTooLarge);
        wrong(
            format!("{command} 0 0x10000000000000000"),
            Reason::NumberTooLarge,
        );
    }
    for register in Register::ALL {
        let name = register.name();
        right(format!("register {name} 4294967295"));
        match register {
            Register::StrtabBase => {
                right(format!("register {name} 0xffffffffffffffff"));
                wrong(
                    format!("register {name} 0x10000000000000000"),
                    Reason::NumberTooLarge,
                );
            }
            _ => wrong(
                format!("register {name} 4294967296"),
                Reason::NumberTooLarge,
            ),
        }
    }
    right("memory 0xffffffffffffffff 65536");
    wrong("memory 0 65537", Reason::NumberTooLarge);
    wrong("memory 0x10000000000000000 0", Reason::NumberTooLarge);
    right("notice 0xffffffffffffffff 0xffffffffffffffff");
    wrong("notice 0 0x10000000000000000", Reason::NumberTooLarge);
    wrong("write 0x10000000000000000 00", Reason::NumberTooLarge);
    wrong("fill 0 0x10000000000000000 00", Reason::NumberTooLarge);
}

#[test]
fn what_hex_is() {
    right("write 0x1000 00");
    right("write 0x1000 0aBcDeF9");
    for word in [
        "0",
        "000",
        "0x00",
        "0g",
        "g0",
        "+1",
        " 0",
        "0\u{e9}",
        "00\0",
        "#0",
        "\u{ff10}\u{ff10}",
    ] {
        wrong(format!("write 0x1000 {word}"), Reason::NotPairs);
        wrong(format!("fill 0x1000 1 {word}"), Reason::NotPairs);
        wrong(format!("fill 0x1000 0 {word}"), Reason::NotPairs);
    }
}

// What each line does.

#[test]
fn registers_start_at_0_and_are_set_apart() {
    let session = Session::default();
    assert_eq!(session.registers, Registers::default());
    for (place, register) in Register::ALL.into_iter().enumerate() {
        let mut registers = Registers::default();
        registers.set(register, 0xffff_ffff);
        for (other_place, other) in Register::ALL.into_iter().enumerate() {
            let expected = if place == other_place { 0xffff_ffff } else { 0 };
            assert_eq!(registers.get(other), expected);
        }
    }
}

#[test]
fn memory_sets_every_byte_to_0_each_time() {
    let start = "register cr0 1\nregister idr1 1\nmemory 0 64\nwrite 0 09\nlookup 0\n";
    let again = "memory 0 64\nlookup 0\n";
    let expected = "bypass ste 0x0 read 0x0+64\nabort 04 read 0x0+64\n";
    assert_eq!(output(start.to_string() + again), expected);
    // Without the line: base 0, length 0.
    wrong_alone("write 0 00", "outside the memory");
    wrong_alone("fill 0 1 00", "outside the memory");
    assert_eq!(output("fill 0 0 00\n"), "");
}

fn wrong_alone(line: &str, reason: &str) {
    assert_eq!(output(line), format!("line 1: {reason}\n"));
}

#[test]
fn all_bytes_of_an_edit_lie_in_the_memory() {
    // The memory is 0x1000 to 0x1fff.
    right("write 0x1000 00");
    right("write 0x1fff 00");
    right(format!("write 0x1ff0 {}", "ab".repeat(16)));
    wrong("write 0xfff 00", Reason::OutsideTheMemory);
    wrong("write 0xfff 0000", Reason::OutsideTheMemory);
    wrong("write 0x1fff 0000", Reason::OutsideTheMemory);
    wrong("write 0x2000 00", Reason::OutsideTheMemory);
    wrong("write 0 00", Reason::OutsideTheMemory);
    wrong("write 0xffffffffffffffff 0000", Reason::OutsideTheMemory);
    right("fill 0x1000 4096 ab");
    right("fill 0x1000 64 00112233445566778899aabbccddeeff");
    wrong("fill 0x1000 4097 ab", Reason::OutsideTheMemory);
    wrong("fill 0x1001 4096 ab", Reason::OutsideTheMemory);
    wrong("fill 0x1000 2049 abcd", Reason::OutsideTheMemory);
    wrong("fill 0xfff 1 ab", Reason::OutsideTheMemory);
}

#[test]
fn count_0_puts_nothing_and_is_never_outside() {
    for address in ["0", "0xfff", "0x2000", "0xffffffffffffffff"] {
        right(format!("fill {address} 0 00"));
    }
}

#[test]
fn sums_and_products_are_exact_past_2_to_64() {
    // 2^63 times 2 bytes, 2^61 times 8 bytes: 2^64 in all, and 0 if it wrapped.
    wrong(
        "fill 0x1000 0x8000000000000000 0000",
        Reason::OutsideTheMemory,
    );
    wrong(
        "fill 0x1000 0x2000000000000000 0001020304050607",
        Reason::OutsideTheMemory,
    );
    wrong(
        "fill 0x1000 0xffffffffffffffff 000102",
        Reason::OutsideTheMemory,
    );
    wrong(
        "fill 0xffffffffffffffff 0xffffffffffffffff 00",
        Reason::OutsideTheMemory,
    );
    // A memory that ends past 2^64: 0xfffffffffffffff0 and 32 bytes on.
    let memory = "memory 0xfffffffffffffff0 32\n";
    let edit = |line: &str| output(memory.to_string() + line);
    assert_eq!(
        edit(&format!("write 0xfffffffffffffff0 {}\n", "11".repeat(32))),
        ""
    );
    assert_eq!(edit("fill 0xffffffffffffffff 17 11\n"), "");
    let outside = "line 2: outside the memory\n";
    assert_eq!(edit("fill 0xffffffffffffffff 18 11\n"), outside);
    assert_eq!(edit("write 0 11\n"), outside);
    assert_eq!(edit("write 0xffffffffffffffef 11\n"), outside);
    // Lookups there are refused with 2.
    assert_eq!(
        edit("lookup 0\npart 0\nopen 1\n"),
        "refused 2\npart empty\nrefused 2\n"
    );
}

#[test]
fn fill_puts_the_bytes_one_after_the_other() {
    let script = "memory 0 128\nregister cr0 1\nregister idr1 1\nregister strtab_base_cfg 1\n\
                  fill 3 40 0102a5\npart 0\npart 1\n";
    let mut bytes = [0u8; 128];
    for run in bytes[3..123].chunks_mut(3) {
        run.copy_from_slice(&[1, 2, 0xa5]);
    }
    let hex = |bytes: &[u8]| {
        bytes
            .iter()
            .map(|byte| format!("{byte:02x}"))
            .collect::<String>()
    };
    let expected = format!("part {}\npart {}\n", hex(&bytes[..64]), hex(&bytes[64..]));
    assert_eq!(output(script), expected);
}

#[test]
fn a_wrong_line_does_nothing_of_what_it_says() {
    let mut session = Session {
        bytes: vec![0; 4],
        ..Session::default()
    };
    let command = oracle::script::parse(b"write 2 010203").unwrap().unwrap();
    assert_eq!(session.run(&command), Err(Reason::OutsideTheMemory));
    assert_eq!(session.bytes, [0; 4]);
}

// What is wrong with a line.

#[test]
fn no_such_command() {
    for line in [
        "x",
        "Lookup 0",
        "LOOKUP",
        "lookups",
        "look up",
        "0",
        "register\u{a0}x",
        "\0",
        "lookup\u{c}0",
    ] {
        wrong(line, Reason::NoSuchCommand);
    }
    wrong(b"\xff\xfe", Reason::NoSuchCommand);
    wrong("x x x x x 0x 99999999999999999999", Reason::NoSuchCommand);
}

#[test]
fn too_few_and_too_many_words() {
    let least_and_most = [
        ("register", 2, 2),
        ("memory", 2, 2),
        ("write", 2, 2),
        ("fill", 3, 3),
        ("lookup", 1, 2),
        ("part", 1, 2),
        ("open", 1, 1),
        ("ask", 1, 2),
        ("notice", 2, 2),
        ("report", 0, 0),
    ];
    for (command, least, most) in least_and_most {
        for count in 0..7 {
            // The words themselves are wrong too, which comes later.
            let line = command.to_string() + &" zz".repeat(count);
            if count < least {
                wrong(&line, Reason::TooFewWords);
            }
            if count > most {
                wrong(&line, Reason::TooManyWords);
            }
        }
    }
}

#[test]
fn no_such_register_comes_before_the_number() {
    for name in [
        "idr2",
        "IDR0",
        "idr",
        "cr",
        "strtab",
        "strtab_base_",
        "strtab_base_cfg2",
        "gbpa\0",
        "0",
    ] {
        for number in ["0", "zz", "99999999999999999999"] {
            wrong(format!("register {name} {number}"), Reason::NoSuchRegister);
        }
    }
}

#[test]
fn not_a_number_comes_before_too_large_wherever_it_stands() {
    let huge = "99999999999999999999";
    for line in [
        format!("memory {huge} zz"),
        format!("memory zz {huge}"),
        "memory zz 65537".to_string(),
        "memory 65537 65537x".to_string(),
        format!("lookup {huge} zz"),
        "ask 4294967296 zz".to_string(),
        format!("part zz {huge}"),
        format!("notice {huge} zz"),
        format!("notice zz {huge}"),
        format!("fill {huge} zz 00"),
        format!("fill zz {huge} z"),
        "write zz z".to_string(),
    ] {
        wrong(line, Reason::NotANumber);
    }
}

#[test]
fn too_large_comes_before_the_pairs() {
    let huge = "99999999999999999999";
    wrong(format!("write {huge} z"), Reason::NumberTooLarge);
    wrong(format!("fill {huge} 0 z"), Reason::NumberTooLarge);
    wrong(format!("fill 0 {huge} z"), Reason::NumberTooLarge);
}

#[test]
fn the_pairs_come_before_the_memory() {
    wrong("write 0 z", Reason::NotPairs);
    wrong("write 0xffffffffffffffff 0", Reason::NotPairs);
    wrong("fill 0 5 000", Reason::NotPairs);
    wrong("write 0 00", Reason::OutsideTheMemory);
}

#[test]
fn the_line_is_too_long_before_any_other_reason() {
    for start in [
        "#",
        "",
        "lookup 0",
        "zz",
        "lookup",
        "write zz z",
        "report report",
    ] {
        let padded = |length: usize| start.to_string() + &" ".repeat(length - start.len());
        wrong(padded(4097), Reason::LineTooLong);
        wrong(padded(100_000), Reason::LineTooLong);
        assert!(!output(padded(4096)).contains("too long"));
        // A carriage return is counted.
        assert_eq!(
            output(padded(4096) + "\r\n"),
            "line 1: the line is too long\n"
        );
        assert!(!output(padded(4095) + "\r\n").contains("too long"));
        // The last line may lack its line feed.
        assert_eq!(output(padded(4097)), "line 1: the line is too long\n");
        assert_eq!(
            output(padded(4096) + "\r"),
            "line 1: the line is too long\n"
        );
        assert!(!output(padded(4095) + "\r").contains("too long"));
    }
    let longest = format!("# {}\n", "x".repeat(4094));
    assert_eq!(
        output(longest.repeat(3) + "lookup 0"),
        "bypass global read -\n"
    );
}

#[test]
fn a_line_without_end_is_too_long() {
    for byte in [b' ', b'#', b'\r', 0, b'x'] {
        let mut output = Vec::new();
        run(BufReader::new(io::repeat(byte)), &mut output).unwrap();
        assert_eq!(output, b"line 1: the line is too long\n");
    }
}

#[test]
fn how_the_input_comes_in_does_not_matter() {
    let script =
        figure_script() + "lookup 0\r\nlookup 1024\n" + &" ".repeat(4096) + "\npart 768\nlookup";
    let whole = output(&script);
    for size in [1, 2, 7, 4095, 4096, 4097, 5000] {
        let mut output = Vec::new();
        run(
            BufReader::with_capacity(size, script.as_bytes()),
            &mut output,
        )
        .unwrap();
        assert_eq!(String::from_utf8(output).unwrap(), whole);
    }
}

#[test]
fn the_program_itself_runs_a_script() {
    let script = figure_script() + "lookup 256\npart 260\n\u{ff}\nlookup 0\n";
    let mut child = process::Command::new(env!("CARGO_BIN_EXE_oracle"))
        .stdin(process::Stdio::piped())
        .stdout(process::Stdio::piped())
        .spawn()
        .unwrap();
    child
        .stdin
        .take()
        .unwrap()
        .write_all(script.as_bytes())
        .unwrap();
    let done = child.wait_with_output().unwrap();
    assert!(done.status.success());
    let expected =
        "bypass ste 0x2f00 read 0x8008+8 0x2f00+64\npart empty\nline 15: no such command\n";
    assert_eq!(String::from_utf8(done.stdout).unwrap(), expected);
    assert_eq!(output(script), expected);
}
