//! The practice program: lines of an address and a word in, the lit points and the ending out.

use crate::refusals_and_endings::MEMORY_LENGTH;
use crate::words::octal;
use crate::{operate, run, Loan, Registers};

/// 01, a practice program: "five octal digits, a space, four octal digits, a newline".
const LINE_LENGTH: usize = 11;
/// 01, a practice program: "1 to 4,096 lines".
const GREATEST_LINES: usize = 4_096;
/// 01, a practice program: "budget 65,535".
const BUDGET: u32 = 65_535;
/// 01, a practice program: "room 1,024".
const ROOM: usize = 1_024;

/// 01, a practice program: the whole of it, from the bytes read to the bytes written.
pub fn practice(input: &[u8]) -> Vec<u8> {
    let written = match read_display_file(input) {
        Ok(file) => run_display_file(file),
        Err(line) => format!("bad line {line}\n"),
    };
    written.into_bytes()
}

/// What good input says.
struct DisplayFile {
    start: u16,
    memory: Vec<u16>,
}

/// 01: "Bad input (none, a bad or unfinished line, line 4,097) writes only `bad line N`, N the
/// first such, from 1". The error is that N. Every line before it has 11 bytes, so cutting the
/// input there finds the first bad line wherever its own newline is.
fn read_display_file(input: &[u8]) -> Result<DisplayFile, usize> {
    let mut start = None;
    let mut memory = vec![0; MEMORY_LENGTH];
    for (index, line) in input.chunks(LINE_LENGTH).enumerate() {
        if index >= GREATEST_LINES {
            return Err(index + 1);
        }
        let (address, word) = read_line(line).ok_or(index + 1)?;
        // 01: "at the first line's address", and "a later line for an address wins".
        start.get_or_insert(address);
        memory[usize::from(address)] = word;
    }
    match start {
        Some(start) => Ok(DisplayFile { start, memory }),
        None => Err(1),
    }
}

/// The address and the word of a good line.
fn read_line(line: &[u8]) -> Option<(u16, u16)> {
    if line.len() != LINE_LENGTH || line[5] != b' ' || line[10] != b'\n' {
        return None;
    }
    Some((octal(&line[..5])?, octal(&line[6..10])?))
}

/// 01: "It starts a fresh display at the first line's address, all memory else 0 and all lent".
fn run_display_file(file: DisplayFile) -> String {
    let (mut registers, _, _) = operate(Registers::fresh(), 1, u32::from(file.start));
    let mut memory = file.memory;
    let mut points = vec![0; ROOM];
    let answer = run(
        &mut registers,
        &mut memory,
        Loan::all(),
        BUDGET,
        &mut points,
    );
    let mut written: String = points[..answer.points as usize]
        .iter()
        .map(|&point| point_line(point))
        .collect();
    written += &format!("ending {} beats {}\n", answer.ending.number(), answer.beats);
    written
}

/// 01: "x, y, intensity, blink", taken out of "x + 1,024·y + 2^20·intensity + 2^23·blink". 02,
/// No. 5: the address stands above them, "as a fifth field in five octal digits".
fn point_line(point: u64) -> String {
    format!(
        "{} {} {} {} {:05o}\n",
        point % 1_024,
        point / 1_024 % 1_024,
        point / (1 << 20) % 8,
        point / (1 << 23) % 2,
        point / (1 << 24)
    )
}

#[cfg(test)]
mod tests {
    use super::*;

    fn written(input: &str) -> String {
        String::from_utf8(practice(input.as_bytes())).unwrap()
    }

    /// 4,096 good lines, the first a stop, so that the display never comes to the others.
    fn full_input() -> String {
        let mut lines = String::from("00000 1400\n");
        for address in 1..4_096 {
            lines += &format!("{address:05o} 0000\n");
        }
        lines
    }

    const STOP: &str = "00200 1400\n";
    const STOPPED: &str = "ending 12 beats 1\n";

    /// As 02, No. 5 has it.
    #[test]
    fn the_example_of_01() {
        assert_eq!(
            written("00200 1101\n00201 4144\n00202 4310\n00203 1400\n"),
            "200 100 0 0 00202\nending 12 beats 3\n"
        );
    }

    #[test]
    fn a_point_line_has_intensity_and_blink() {
        // INT 7, blink on, then the far corner of the screen and the near one.
        assert_eq!(
            written(
                "00200 0017\n00201 6302\n00202 1101\n00203 5777\n00204 1777\n00205 4000\n\
                 00206 4000\n00207 1400\n"
            ),
            "1023 1023 7 1 00204\n0 0 7 1 00206\nending 12 beats 6\n"
        );
    }

    #[test]
    fn no_input_is_bad_line_1() {
        assert_eq!(written(""), "bad line 1\n");
    }

    #[test]
    fn a_bad_byte_in_each_place() {
        for place in 0..LINE_LENGTH {
            let good = STOP.as_bytes()[place];
            for bad in 0..=255 {
                let is_digit = (b'0'..=b'7').contains(&bad);
                if bad == good || (is_digit && good != b' ' && good != b'\n') {
                    continue;
                }
                let mut line = STOP.as_bytes().to_vec();
                line[place] = bad;
                assert_eq!(practice(&line), b"bad line 1\n", "{bad} in place {place}");
                // The same line as the second and last.
                let mut input = STOP.as_bytes().to_vec();
                input.extend(&line);
                assert_eq!(practice(&input), b"bad line 2\n", "{bad} in place {place}");
            }
        }
    }

    #[test]
    fn every_octal_digit_is_good_in_each_place() {
        assert_eq!(written("01234 1456\n"), STOPPED);
        assert_eq!(written("76543 1403\n"), STOPPED);
        assert_eq!(written("77777 1727\n"), STOPPED);
        assert_eq!(written("00000 1400\n"), STOPPED);
    }

    #[test]
    fn lines_that_do_not_end_where_they_should() {
        for bad in [
            "00200 1400",
            "00200 1400\r\n",
            "00200 1400\r",
            "00200 140\n",
            "0200 1400\n",
            "00200 14000\n",
            "000200 1400\n",
            " 00200 1400\n",
            "00200 1400 \n",
            "00200  1400\n",
            "002001400\n",
            "00200\n",
            "0",
            "\n",
            "\n\n",
        ] {
            assert_eq!(written(bad), "bad line 1\n", "{bad:?}");
            assert_eq!(written(&(STOP.to_owned() + bad)), "bad line 2\n", "{bad:?}");
            assert_eq!(
                written(&(bad.to_owned() + STOP)),
                "bad line 1\n",
                "{bad:?} before a good line"
            );
        }
    }

    #[test]
    fn the_first_bad_line_is_named() {
        assert_eq!(
            written("00200 1101\n00201 4148\n00202 4310\n00209 1400\n"),
            "bad line 2\n"
        );
        let too_many_and_one_bad = full_input().replace("00006 0000", "00006 0008") + STOP;
        assert_eq!(written(&too_many_and_one_bad), "bad line 7\n");
    }

    #[test]
    fn line_4097_is_bad_by_its_first_byte() {
        let full = full_input();
        assert_eq!(written(&full), STOPPED);
        for more in [STOP, "0", "\n", " ", "\r", "x", "00200 1400\n00200 1400\n"] {
            assert_eq!(
                written(&(full.clone() + more)),
                "bad line 4097\n",
                "{more:?}"
            );
        }
        assert_eq!(
            practice(&[full.as_bytes(), b"\0"].concat()),
            b"bad line 4097\n"
        );
        let unfinished = &full[..full.len() - 1];
        assert_eq!(written(unfinished), "bad line 4096\n");
    }

    #[test]
    fn a_later_line_for_an_address_wins() {
        assert_eq!(written("00200 1171\n00200 1400\n"), STOPPED);
        assert_eq!(written("00200 1400\n00200 1171\n"), "ending 15 beats 1\n");
        // The first line says where to start, also when its word is replaced last.
        assert_eq!(written("00201 1171\n00200 1171\n00201 1400\n"), STOPPED);
    }

    #[test]
    fn every_ending_that_can_be_reached() {
        assert_eq!(written("00200 0000\n"), "ending 11 beats 65535\n");
        assert_eq!(written(STOP), STOPPED);
        // Increment mode, one lit move to the left of x 0.
        assert_eq!(written("00200 1111\n00201 5400\n"), "ending 14 beats 3\n");
        assert_eq!(written("00200 1171\n"), "ending 15 beats 1\n");
        // Character mode: words 0 call the routine at 0, a dark move to the right, twice each, to the
        // right edge; a table word of the unused form.
        assert_eq!(written("00200 1151\n"), "ending 14 beats 3585\n");
        assert_eq!(written("00200 1151\n00000 7000\n"), "ending 15 beats 3\n");
    }

    /// The program of the manual's appendix 1, its table at 0 and its last word a stop.
    #[test]
    fn the_manuals_text() {
        let words = [
            (0o2000, &[0o1107, 0o1000, 0o5000, 0o1151][..]),
            (0o2004, &[0o0001, 0o0203, 0o0104, 0o1400]),
            (0o0000, &[0o4555, 0o0200, 0o6100, 0o2206, 0o6040]),
            (0o0200, &[0o1672, 0o7251, 0o6057, 0o7674, 0o3762, 0o2701]),
            (0o0206, &[0o3140]),
        ];
        let lines = words.iter().flat_map(|&(first, words)| {
            let places = first..first + words.len();
            places
                .zip(words)
                .map(|(address, word)| format!("{address:05o} {word:04o}\n"))
        });
        let output = written(&lines.collect::<String>());
        let lines: Vec<&str> = output.lines().collect();
        assert_eq!(lines.len(), 37);
        assert_eq!(lines[0], "512 512 5 0 00200");
        assert_eq!(lines[3], "512 518 5 0 00201");
        // The second letter begins at the left, two scales of nine points below.
        assert_eq!(lines[18], "0 494 5 0 00200");
        assert_eq!(lines[36], "ending 12 beats 85");
    }

    #[test]
    fn the_1025th_point_has_no_room() {
        // Vector mode: 1,023 points to the right, and one up.
        let to_the_last = "00200 1121\n00201 4000\n00202 1777\n00203 4001\n";
        let one_up_and_stop = "00204 4000\n00205 1400\n";
        let output = written(&(to_the_last.to_owned() + one_up_and_stop));
        assert_eq!(output.lines().count(), 1_025);
        assert!(output.starts_with("1 0 0 0 00202\n2 0 0 0 00202\n"));
        assert!(output.ends_with("\n1023 1 0 0 00204\nending 12 beats 1028\n"));
        // The same and one more up: its command beat is made, its move is not.
        let one_up_and_another = "00204 0000\n00205 4001\n";
        let output = written(&(to_the_last.to_owned() + one_up_and_another));
        assert_eq!(output.lines().count(), 1_025);
        assert!(output.ends_with("\n1023 1 0 0 00204\nending 18 beats 1028\n"));
    }

    #[test]
    fn the_address_wraps() {
        assert_eq!(
            written("77776 1101\n77777 4144\n00000 4310\n00001 1400\n"),
            "200 100 0 0 00000\nending 12 beats 3\n"
        );
    }

    #[test]
    fn the_fifth_field_is_the_last_word_in_five_digits() {
        for (input, lines) in [
            // A point that ends at the end of memory, the brightest in the far corner.
            (
                "77773 0017\n77774 6302\n77775 1101\n77776 5777\n77777 5777\n00000 1400\n",
                "1023 1023 7 1 77777\n",
            ),
            // Two bytes of one word, and the next word.
            (
                "12344 1111\n12345 5050\n12346 4000\n12347 1400\n",
                "1 0 0 0 12345\n2 0 0 0 12345\n3 0 0 0 12346\n",
            ),
            // A vector over the end of memory, a short vector and a graphplot behind it.
            (
                "77776 1121\n77777 4000\n00000 4001\n00001 1141\n00002 4041\n00003 1161\n\
                 00004 4005\n00005 1400\n",
                "1 0 0 0 00000\n2 0 0 0 00002\n3 5 0 0 00004\n",
            ),
        ] {
            let output = written(input);
            let (points, ending) = output.split_at(lines.len());
            assert_eq!(points, lines);
            assert!(ending.starts_with("ending 12 "), "{ending}");
        }
    }
}
