//! HEX export and import: examples, each sentence of document 02, §1, that a
//! reader may take another way, and every small case.

use second::hex;

const END: &str = ":00000001FF\n";

/// The text that is stored, or the number of the refusal. The output has further
/// bytes, which stay.
fn exported(bytes: &[u8], output_length: usize) -> Result<String, u8> {
    let stored = stored(output_length, |output| hex::export(bytes, output))?;
    Ok(String::from_utf8(stored).expect("a text is plain characters"))
}

fn imported_into(output_length: usize, text: &[u8]) -> Result<Vec<u8>, u8> {
    stored(output_length, |output| hex::import(text, output))
}

fn imported(text: &str) -> Result<Vec<u8>, u8> {
    imported_into(300, text.as_bytes())
}

/// What a call stores; a refused one stores nothing, and no call behind its length.
fn stored(
    output_length: usize,
    call: impl FnOnce(&mut [u8]) -> Result<usize, second::refusal::Refusal>,
) -> Result<Vec<u8>, u8> {
    let mut output = vec![0xa5; output_length];
    let answer = call(&mut output);
    let length = *answer.as_ref().unwrap_or(&0);
    assert!(output[length..].iter().all(|byte| *byte == 0xa5));
    match answer {
        Ok(length) => Ok(output[..length].to_vec()),
        Err(refusal) => Err(refusal.number()),
    }
}

/// A line with the sum that it should have.
fn line(digits: &str) -> String {
    let byte = |place: usize| u32::from_str_radix(&digits[place..place + 2], 16).expect("digits");
    let sum: u32 = (0..digits.len()).step_by(2).map(byte).sum();
    format!(":{}{:02X}\n", digits, (256 - sum % 256) % 256)
}

fn made_bytes(count: usize) -> Vec<u8> {
    (0..count)
        .map(|place| (place * 7 + place / 256) as u8)
        .collect()
}

#[test]
fn examples_of_export() {
    assert_eq!(exported(&[], 12), Ok(END.to_string()));
    let bytes: Vec<u8> = (0..=0x10).collect();
    let text = ":10000000000102030405060708090A0B0C0D0E0F78\n:0100100010DF\n:00000001FF\n";
    assert_eq!(exported(&bytes, 100), Ok(text.to_string()));
    assert_eq!(exported(&[0x4f], 25), Err(9));
    assert_eq!(exported(&[0; 65_537], 0), Err(8));
}

#[test]
fn examples_of_import() {
    let three = ":0100000001FE\n:020001000203F8\n:00000001FF\n";
    assert_eq!(imported(three), Ok(vec![1, 2, 3]));
    assert_eq!(imported(":00000001FF\n"), Ok(Vec::new()));
    assert_eq!(imported(":00000001FF\r"), Err(20));
    assert_eq!(imported(":00000101FE\n"), Err(20));
    assert_eq!(imported(":0100000141BD\n"), Err(20));
    assert_eq!(imported(":0200000212340A\n:00000001FF\n"), Err(21));
    let overlap = ":020000000102FB\n:0100010003FB\n:00000001FF\n";
    assert_eq!(imported(overlap), Err(22));
    assert_eq!(imported(":010000004FB0\n"), Err(23));
    let other_type = ":010000004FB0\n:021234040000B4\n:00000001FF\n";
    assert_eq!(imported(other_type), Err(24));
    assert_eq!(imported(":00000001FF\nno line at all"), Err(24));
    let two = b":020000004F505F\n:00000001FF\n";
    assert_eq!(imported_into(1, two), Err(9));
}

#[test]
fn example_of_full_size() {
    let lines = hex::text_of(&[0; 65_535]);
    let before_end = &lines[..lines.len() - END.len()];
    let text = [before_end, b":01FFFF0007FA\n", END.as_bytes()].concat();
    let bytes = imported_into(65_536, &text).expect("addresses go up to FFFF");
    assert_eq!(bytes.len(), 65_536);
    assert_eq!(bytes[65_535], 7);
    assert_eq!(imported_into(65_535, &text), Err(9));
}

/// Open point 1.1: the line end belongs to the shape, of the end record too.
#[test]
fn a_line_without_its_line_feed_is_bad_shape() {
    for ending in ["", "\r"] {
        assert_eq!(imported(&format!(":00000001FF{}", ending)), Err(20));
        let data = line("010000004F");
        let cut = data.trim_end();
        assert_eq!(imported(&format!("{}{}", cut, ending)), Err(20));
        assert_eq!(imported(&format!("{}:00000001FF{}", data, ending)), Err(20));
        // Before the sum and the type are looked at.
        assert_eq!(imported(&format!(":00000001FE{}", ending)), Err(20));
        assert_eq!(imported(&format!(":00000004FF{}", ending)), Err(20));
    }
}

/// Open point 1.2: no data lies at no address.
#[test]
fn a_line_of_no_data_may_have_any_address() {
    for address in 0..=0xffff {
        let blank = line(&format!("00{:04X}00", address));
        let data = line("02000000AABB");
        let text = format!("{}{}{}{}", blank, data, blank, END);
        assert_eq!(imported(&text), Ok(vec![0xaa, 0xbb]));
    }
    let full = hex::text_of(&[0; 65_536]);
    let before_end = &full[..full.len() - END.len()];
    for blank in [line("00000000"), line("00FFFF00")] {
        let text = [before_end, blank.as_bytes(), END.as_bytes()].concat();
        assert_eq!(imported_into(65_536, &text), Ok(vec![0; 65_536]));
    }
}

/// Open points 1.3 and 1.4: another type is 24 where it is met, with no end
/// behind it too, and its address and data are not looked at.
#[test]
fn another_type_is_told_at_its_line() {
    for digits in ["00000002", "00000003", "0212340400FF", "04FFFF0500000000"] {
        assert_eq!(imported(&line(digits)), Err(24));
        assert_eq!(imported(&(line(digits) + END)), Err(24));
        let after_data = line("01000000FF") + &line(digits);
        assert_eq!(imported(&after_data), Err(24));
        assert_eq!(imported(&(after_data + "no line")), Err(24));
    }
    // The lines before it come first.
    let text = line("0100010000") + &line("00000004");
    assert_eq!(imported(&text), Err(22));
}

/// Open point 1.5: a short output is told last.
#[test]
fn a_short_output_comes_after_all_lines_and_what_follows_them() {
    let data = line("020000000102");
    let first_fault = |text: String| imported_into(0, text.as_bytes());
    assert_eq!(first_fault(data.clone() + END), Err(9));
    assert_eq!(first_fault(data.clone() + END + "\n"), Err(24));
    assert_eq!(first_fault(data.clone()), Err(23));
    assert_eq!(first_fault(data.clone() + ":\n"), Err(20));
    assert_eq!(first_fault(data.clone() + ":00000001FE\n"), Err(21));
    assert_eq!(first_fault(data.clone() + &data + END), Err(22));
}

/// Open point 1.6: a text may be of any length.
#[test]
fn a_long_text_is_not_too_long() {
    let blank = line("00000000");
    let text = blank.repeat(100_000) + &line("010000004F") + END;
    assert!(text.len() > 1_000_000);
    assert_eq!(imported(&text), Ok(vec![0x4f]));
    let one_a_line: String = (0..65_536)
        .map(|address| line(&format!("01{:04X}00{:02X}", address, address % 256)).to_lowercase())
        .collect();
    let bytes = imported_into(65_536, (one_a_line + END).as_bytes());
    assert_eq!(bytes.map(|bytes| bytes.len()), Ok(65_536));
}

/// Open point 1.7, and the count of characters.
#[test]
fn an_exported_text_is_upper_case_with_line_feeds_alone() {
    for count in (0..600).chain([65_535, 65_536]) {
        let length = 12 * ((count + 15) / 16) + 2 * count + 12;
        let text = exported(&made_bytes(count), length).expect("it has that length");
        assert_eq!(text.len(), length);
        assert!(text.ends_with(END));
        assert!(text
            .chars()
            .all(|character| ":0123456789ABCDEF\n".contains(character)));
        let full_lines = text.lines().filter(|line| line.starts_with(":10")).count();
        assert_eq!(full_lines, count / 16);
        assert_eq!(exported(&made_bytes(count), length - 1), Err(9));
    }
    assert_eq!(hex::text_of(&[0; 65_536]).len(), 180_236);
}

#[test]
fn export_then_import_gives_the_same_bytes() {
    for count in (0..600).chain([65_535, 65_536]) {
        let bytes = made_bytes(count);
        let text = hex::text_of(&bytes);
        assert_eq!(imported_into(count, &text), Ok(bytes));
    }
}

#[test]
fn import_then_export_gives_one_standard_file() {
    let bytes = made_bytes(70);
    let standard = hex::text_of(&bytes);
    for count in 1..=70 {
        let mut text = String::new();
        for (place, data) in bytes.chunks(count).enumerate() {
            let data: String = data.iter().map(|byte| format!("{:02x}", byte)).collect();
            let start = format!("{:02x}{:04x}00", data.len() / 2, place * count);
            text += &line(&(start + &data)).replace('\n', "\r\n");
        }
        let import = imported(&(text + ":00000001ff\r\n")).expect("a good text");
        assert_eq!(hex::text_of(&import), standard);
    }
}

/// The order inside a line: 20, 21, 22, 24.
#[test]
fn the_first_fault_of_a_line_decides() {
    let unknown_with_bad_sum = ":02000004000000\n";
    assert_eq!(imported(unknown_with_bad_sum), Err(21));
    let end_with_data_and_bad_sum = ":010000010000\n";
    assert_eq!(imported(end_with_data_and_bad_sum), Err(20));
    let end_with_address_and_bad_sum = ":00000101FF\n";
    assert_eq!(imported(end_with_address_and_bad_sum), Err(20));
    let bare_end_with_bad_sum = ":00000001FE\n";
    assert_eq!(imported(bare_end_with_bad_sum), Err(21));
    let gap_with_bad_sum = ":010001000000\n";
    assert_eq!(imported(gap_with_bad_sum), Err(21));
    let miscounted_with_bad_sum = ":020000000000\n";
    assert_eq!(imported(miscounted_with_bad_sum), Err(20));
    // And a line before the next.
    assert_eq!(imported(":010000000000\n:\n"), Err(21));
    assert_eq!(imported(":\n:010000000000\n"), Err(20));
    // The shape of an end line with text behind it is tested, that text is not.
    assert_eq!(imported(":00000001FE\n:\n"), Err(21));
    assert_eq!(imported(":00000001FF\n:010000000000\n"), Err(24));
}

#[test]
fn shapes_that_are_none() {
    let good = line("020000004F50");
    let digits = good.trim_end();
    for bad in [
        "\n".to_string(),
        "\r\n".to_string(),
        ":\n".to_string(),
        ":0\n".to_string(),
        ":00\n".to_string(),
        ":00000000\n".to_string(),
        format!(" {}\n", digits),
        format!("{} \n", digits),
        format!("{}\r\r\n", digits),
        format!("{}\n\r", &digits[1..]),
        format!(":{}\n", digits),
        digits.replace("4F", "4 F") + "\n",
        digits.replace("4F", "4") + "\n",
        digits.replace("4F", "4G") + "\n",
        digits.replace("4F", "+F") + "\n",
        digits.replace("4F50", "4F") + "\n",
        digits.replace("4F50", "4F5000") + "\n",
    ] {
        assert_eq!(imported(&(bad.clone() + END)), Err(20), "{:?}", bad);
        assert_eq!(imported(&(good.clone() + &bad + END)), Err(20), "{:?}", bad);
    }
    // Behind the end the shape is not tested.
    for behind in ["\n", "\r\n", "\r", " ", ":", END, ":00000001FF"] {
        assert_eq!(imported(&format!("{}{}", END, behind)), Err(24));
    }
}

#[test]
fn letters_may_mix_and_so_may_line_ends() {
    let text = ":03000000aBCdEf96\r\n:010003000aF2\n:00000001Ff\r\n";
    assert_eq!(imported(text), Ok(vec![0xab, 0xcd, 0xef, 0x0a]));
}

#[test]
fn data_starts_nowhere_but_at_the_count_of_bytes_so_far() {
    for address in 0..=0xffff {
        let text = line("0200000001FF") + &line(&format!("01{:04X}0007", address)) + END;
        let due = if address == 2 {
            Ok(vec![1, 0xff, 7])
        } else {
            Err(22)
        };
        assert_eq!(imported(&text), due);
        let first = line(&format!("01{:04X}0007", address)) + END;
        let due = if address == 0 { Ok(vec![7]) } else { Err(22) };
        assert_eq!(imported(&first), due);
    }
}

#[test]
fn data_does_not_run_past_the_last_address() {
    for (before, count) in [(65_535, 2), (65_534, 3), (65_281, 256)] {
        let lines = hex::text_of(&vec![0; before]);
        let before_end = &lines[..lines.len() - END.len()];
        for further in 1..count {
            let data = "00".repeat(further);
            let last = line(&format!("{:02X}{:04X}00{}", further, before, data));
            let text = [before_end, last.as_bytes(), END.as_bytes()].concat();
            let due = if before + further <= 65_536 {
                Ok(before + further)
            } else {
                Err(22)
            };
            assert_eq!(imported_into(65_536, &text).map(|bytes| bytes.len()), due);
        }
    }
    // After the last address there is none, not 0 either.
    let full = hex::text_of(&[0; 65_536]);
    let before_end = &full[..full.len() - END.len()];
    for again in [line("0100000000"), line("01FFFF0000")] {
        let text = [before_end, again.as_bytes(), END.as_bytes()].concat();
        assert_eq!(imported_into(65_536, &text), Err(22));
    }
}

#[test]
fn every_count_of_data_bytes_and_every_count_that_is_said() {
    for count in 0..=255 {
        let bytes = made_bytes(count);
        let data: String = bytes.iter().map(|byte| format!("{:02X}", byte)).collect();
        for said in 0..=255 {
            let text = line(&format!("{:02X}000000{}", said, data)) + END;
            let due = if said == count {
                Ok(bytes.clone())
            } else {
                Err(20)
            };
            assert_eq!(imported(&text), due);
        }
    }
}

/// Without data and address, with data, with an address, with both; the sum right,
/// and every other one.
#[test]
fn every_type_with_every_sum() {
    for kind in 0..=255u8 {
        for (start, data) in [
            ("000000", ""),
            ("010000", "4F"),
            ("000100", ""),
            ("010100", "4F"),
        ] {
            let digits = format!("{}{:02X}{}", start, kind, data);
            let right = line(&digits);
            for sum in 0..=255u8 {
                let text = format!(":{}{:02X}\n{}", digits, sum, END);
                let due = match kind {
                    1 if start != "000000" => Err(20),
                    _ if !text.starts_with(&right) => Err(21),
                    0 if start == "010100" => Err(22),
                    0 => Ok(vec![0x4f; data.len() / 2]),
                    // An end with an end behind it, and any other type.
                    _ => Err(24),
                };
                assert_eq!(imported(&text), due, "{:?}", text);
            }
        }
    }
}
