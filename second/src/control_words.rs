//! The control words 0 to 7 of 01 and the manual's 2.1, each as one command beat.

use crate::refusals_and_endings::{Ending, LentMemory};
use crate::registers::{
    address_after, pointer_after, pointer_before, Registers, State, POINTERS, SECTOR,
};
use crate::turn::Beat;
use crate::words::{bit, field};

/// 01, control words: the first three bits choose (manual 1.1.4). `word` is the one at the display
/// address, fetched or held; what else the command touches it fetches here.
pub fn control_command_beat(
    registers: &mut Registers,
    memory: &mut LentMemory,
    word: u16,
) -> Result<Beat, Ending> {
    match field(word, 0, 2) {
        0 => Ok(parameter(registers, word)),
        1 => Ok(mode(registers, word)),
        2 => jump(registers, memory, word),
        3 => pop(registers, memory, word),
        4 => Ok(conditional_skip(registers, word, Bank::One)),
        5 => Ok(conditional_skip(registers, word, Bank::Two)),
        6 => Ok(miscellaneous(registers, word)),
        _ => Ok(synchronization(registers, word)),
    }
}

/// The display goes on with the next word.
fn go_on(registers: &mut Registers) {
    registers.display_address = address_after(registers.display_address, 1);
}

/// 01, control words: "Every skip passes two words", so that a two-word jump can be passed.
fn go_on_or_skip(registers: &mut Registers, skip: bool) {
    let words = if skip { 3 } else { 1 };
    registers.display_address = address_after(registers.display_address, words);
}

/// Manual 2.1.1, 2.1.3, 2.1.4: bits 3 to 7 say scale and pen alike in control words 0, 2 and 3.
fn set_scale_and_pen(registers: &mut Registers, word: u16) {
    if bit(word, 3) {
        registers.scale = field(word, 4, 5) as u8;
    }
    if bit(word, 6) {
        registers.pen_enable = bit(word, 7);
    }
}

/// 01, control word 0: "scale, pen, intensity by enable bits". Manual A1.1.1: a parameter control
/// character has them in the same bits.
pub fn set_parameters(registers: &mut Registers, word: u16) {
    set_scale_and_pen(registers, word);
    if bit(word, 8) {
        registers.intensity = field(word, 9, 11) as u8;
    }
}

/// 01, control word 0.
fn parameter(registers: &mut Registers, word: u16) -> Beat {
    set_parameters(registers, word);
    go_on(registers);
    Beat::quiet()
}

/// 01, control word 1. "All take effect, also together with a stop."
fn mode(registers: &mut Registers, word: u16) -> Beat {
    if bit(word, 4) {
        registers.hit_bank_1 = false;
        registers.hit_bank_2 = false;
    }
    if bit(word, 5) {
        registers.mode = field(word, 6, 8) as u8;
    }
    if bit(word, 9) {
        registers.x %= SECTOR;
        registers.y %= SECTOR;
    }
    if bit(word, 10) {
        registers.x -= registers.x % SECTOR;
        registers.y -= registers.y % SECTOR;
    }
    if bit(word, 11) {
        registers.state = State::Data;
    }
    // Manual 1.1.9.1: the address already points after the stop code.
    go_on(registers);
    if bit(word, 3) {
        registers.internal_stop_flag = true;
        registers.running = false;
        return Beat {
            point: None,
            stop: Some(Ending::InternalStop),
        };
    }
    Beat::quiet()
}

/// 01, control word 2: "two words", a jump or, with bit 8 (manual 2.1.3), a push jump.
fn jump(registers: &mut Registers, memory: &mut LentMemory, first: u16) -> Result<Beat, Ending> {
    let second = memory.fetch(address_after(registers.display_address, 1))?;
    if bit(first, 8) {
        push(registers, memory)?;
    }
    // Only now the new values: the push has stored the old ones.
    registers.display_address = field(first, 9, 11) * POINTERS + second;
    set_scale_and_pen(registers, first);
    Ok(Beat::quiet())
}

/// 01, control word 2, the push: "stores first (break field, pen, scale, mode, intensity) of the
/// return address and old status, then its low 12 bits; pointer +2".
fn push(registers: &mut Registers, memory: &mut LentMemory) -> Result<(), Ending> {
    let first_place = registers.pushdown_pointer;
    let second_place = pointer_after(registers.pushdown_pointer, 1);
    // Both are tested before either is stored, or a run fenced at the second would leave the first.
    memory.test_write(first_place)?;
    memory.test_write(second_place)?;
    let return_address = address_after(registers.display_address, 2);
    memory.write(
        first_place,
        status_word(registers, return_address / POINTERS),
    );
    memory.write(second_place, return_address % POINTERS);
    registers.pushdown_pointer = pointer_after(registers.pushdown_pointer, 2);
    Ok(())
}

/// Manual 1.1.6, the first word of an entry: break field 0-2, light pen 3, scale 4-5, mode 6-8,
/// intensity 9-11.
fn status_word(registers: &Registers, break_field: u16) -> u16 {
    (break_field << 9)
        | (u16::from(registers.pen_enable) << 8)
        | (u16::from(registers.scale) << 6)
        | (u16::from(registers.mode) << 3)
        | u16::from(registers.intensity)
}

/// 01, control word 3: "pointer −2; address restored, status too unless inhibited by bits 8, 9,
/// 10; then its own scale and pen; bit 11 enters data state".
fn pop(registers: &mut Registers, memory: &mut LentMemory, word: u16) -> Result<Beat, Ending> {
    let status = memory.fetch(pointer_before(registers.pushdown_pointer, 2))?;
    let low_address = memory.fetch(pointer_before(registers.pushdown_pointer, 1))?;
    registers.pushdown_pointer = pointer_before(registers.pushdown_pointer, 2);
    registers.display_address = field(status, 0, 2) * POINTERS + low_address;
    restore_status(registers, word, status);
    // After the restoring, so that the pop's own scale and pen win.
    set_scale_and_pen(registers, word);
    if bit(word, 11) {
        registers.state = State::Data;
    }
    Ok(Beat::quiet())
}

/// Manual 2.1.4: bit 8 inhibits the mode, bit 9 light pen and scale, bit 10 the intensity.
fn restore_status(registers: &mut Registers, word: u16, status: u16) {
    if !bit(word, 8) {
        registers.mode = field(status, 6, 8) as u8;
    }
    if !bit(word, 9) {
        registers.pen_enable = bit(status, 3);
        registers.scale = field(status, 4, 5) as u8;
    }
    if !bit(word, 10) {
        registers.intensity = field(status, 9, 11) as u8;
    }
}

/// 01, registers: "bank 1 is buttons 0 to 5, bank 2 is 6 to 11".
#[derive(Clone, Copy, Debug, PartialEq, Eq)]
pub enum Bank {
    One,
    Two,
}

/// The 12-bit place of six buttons or six button bits of a bank.
pub fn in_bank(six_bits: u16, bank: Bank) -> u16 {
    match bank {
        Bank::One => six_bits << 6,
        Bank::Two => six_bits,
    }
}

/// 01, control words 4 and 5: "if bit 3 is 0, skip if any selected button is 0, else if any is 1
/// (none selected: no skip); then clear, then complement the selected. Hit flags stay".
fn conditional_skip(registers: &mut Registers, word: u16, bank: Bank) -> Beat {
    let selected = in_bank(field(word, 6, 11), bank);
    let any_is_1 = registers.buttons & selected != 0;
    let any_is_0 = !registers.buttons & selected != 0;
    let skip = if bit(word, 3) { any_is_1 } else { any_is_0 };
    if bit(word, 4) {
        registers.buttons &= !selected;
    }
    if bit(word, 5) {
        registers.buttons ^= selected;
    }
    go_on_or_skip(registers, skip);
    Beat::quiet()
}

/// 01, control words 60 to 67: the next three bits choose (manual 2.1.7).
fn miscellaneous(registers: &mut Registers, word: u16) -> Beat {
    match field(word, 3, 5) {
        0 => compare(registers, word, Bank::One),
        1 => compare(registers, word, Bank::Two),
        2 => skip_on_flags(registers, word),
        3 => count(registers, word),
        _ => slaves(registers),
    }
}

/// 01, control words 60 and 61: "skip unless the six buttons equal bits 6 to 11".
fn compare(registers: &mut Registers, word: u16, bank: Bank) -> Beat {
    let buttons = registers.buttons & in_bank(0o77, bank);
    let wanted = in_bank(field(word, 6, 11), bank);
    go_on_or_skip(registers, buttons != wanted);
    Beat::quiet()
}

/// 01, control word 62: "skip once if any asked condition holds: bit 6 always; 7 beam not in
/// sector 0; 8, 9 hit flag of bank 1, 2 off; 10 LPSI off; then bit 11 clears LPSI".
fn skip_on_flags(registers: &mut Registers, word: u16) -> Beat {
    let skip = bit(word, 6)
        || (bit(word, 7) && !registers.in_sector_0())
        || (bit(word, 8) && !registers.hit_bank_1)
        || (bit(word, 9) && !registers.hit_bank_2)
        || (bit(word, 10) && !registers.pen_sense);
    if bit(word, 11) {
        registers.pen_sense = false;
    }
    go_on_or_skip(registers, skip);
    Beat::quiet()
}

/// 01, control word 63: "count scale and intensity, stopping at the ends; bit 10 blink on, then
/// bit 11 off". Manual 2.1.7.4: bits 6 and 8 enable, bits 7 and 9 count down when 1.
fn count(registers: &mut Registers, word: u16) -> Beat {
    if bit(word, 6) {
        count_scale(registers, bit(word, 7));
    }
    if bit(word, 8) {
        count_intensity(registers, bit(word, 9));
    }
    if bit(word, 10) {
        registers.blink = true;
    }
    if bit(word, 11) {
        registers.blink = false;
    }
    go_on(registers);
    Beat::quiet()
}

/// The scale one up or down, stopping at the ends.
pub fn count_scale(registers: &mut Registers, down: bool) {
    registers.scale = counted(registers.scale, down, 3);
}

/// The intensity one up or down, stopping at the ends.
pub fn count_intensity(registers: &mut Registers, down: bool) {
    registers.intensity = counted(registers.intensity, down, 7);
}

fn counted(value: u8, down: bool, greatest: u8) -> u8 {
    if down {
        value.saturating_sub(1)
    } else {
        value.saturating_add(1).min(greatest)
    }
}

/// 01, what the simulator covers: "control words 64xx to 67xx do nothing".
fn slaves(registers: &mut Registers) -> Beat {
    go_on(registers);
    Beat::quiet()
}

/// 01, control word 7: "bit 10 skips if idle is on, then bit 11 clears it".
fn synchronization(registers: &mut Registers, word: u16) -> Beat {
    let skip = bit(word, 10) && registers.idle;
    if bit(word, 11) {
        registers.idle = false;
    }
    go_on_or_skip(registers, skip);
    Beat::quiet()
}

#[cfg(test)]
mod tests {
    use super::*;
    use crate::refusals_and_endings::Loan;
    use crate::turn::tests::{ended, range, Bench};

    /// One word at 0100o, with the registers that `set` makes, for one beat.
    fn after_one(word: u16, set: impl FnOnce(&mut Registers)) -> Registers {
        let mut bench = Bench::at(0o100, &[word]);
        set(&mut bench.registers);
        let answer = bench.run(1);
        assert_eq!(answer.beats, 1);
        bench.registers
    }

    #[test]
    fn parameter_obeys_its_enable_bits() {
        let after = after_one(0o0554, |_| ());
        assert_eq!(
            (after.scale, after.pen_enable, after.intensity),
            (1, false, 4)
        );
        let after = after_one(0o0327, |registers| {
            registers.scale = 2;
            registers.intensity = 6;
        });
        assert_eq!(
            (after.scale, after.pen_enable, after.intensity),
            (2, false, 6)
        );
        assert!(after_one(0o0060, |_| ()).pen_enable);
        assert!(!after_one(0o0040, |registers| registers.pen_enable = true).pen_enable);
        // LPOF under hold: hold ends first, then the word turns the pen off.
        let after = after_one(0o0040, |registers| registers.pen_hold = true);
        assert!(!after.pen_enable && !after.pen_hold);
    }

    #[test]
    fn mode_word_does_all_together_with_a_stop() {
        let mut bench = Bench::at(0o77777, &[0o1777]);
        bench.registers.x = 8_191;
        bench.registers.y = 8_191;
        bench.registers.hit_bank_1 = true;
        bench.registers.hit_bank_2 = true;
        assert_eq!(bench.run(9), ended(Ending::InternalStop, 1, 0));
        let after = bench.registers;
        assert_eq!((after.x, after.y, after.mode), (0, 0, 7));
        assert_eq!(after.state, State::Data);
        assert!(!after.hit_bank_1 && !after.hit_bank_2);
        assert!(after.internal_stop_flag && !after.running);
        assert_eq!(after.display_address, 0);
    }

    #[test]
    fn mode_word_clears_sector_and_coordinate_bits_apart() {
        let set = |registers: &mut Registers| {
            registers.x = 0o12345;
            registers.y = 0o16543;
        };
        let after = after_one(0o1004, set);
        assert_eq!((after.x, after.y), (0o345, 0o543));
        let after = after_one(0o1002, set);
        assert_eq!((after.x, after.y), (0o12000, 0o16000));
        let after = after_one(0o1070, set);
        assert_eq!((after.x, after.y, after.mode), (0o12345, 0o16543, 0));
    }

    #[test]
    fn p1_push_jump_at_the_end_of_the_list() {
        let mut bench = Bench::at(0o1000, &[0o2010, 0o0300]);
        bench.registers.pen_enable = true;
        bench.registers.scale = 1;
        bench.registers.mode = 2;
        bench.registers.intensity = 5;
        bench.registers.pushdown_pointer = 0o7777;
        assert_eq!(bench.run(1), ended(Ending::BudgetSpent, 1, 0));
        assert_eq!(bench.memory[0o7777], 0o0525);
        assert_eq!(bench.memory[0], 0o1002);
        assert_eq!(bench.registers.pushdown_pointer, 1);
        assert_eq!(bench.registers.display_address, 0o300);
    }

    #[test]
    fn p2_push_jump_across_a_field() {
        let mut bench = Bench::at(0o7776, &[0o2013, 0o0300]);
        bench.registers.pushdown_pointer = 0o400;
        bench.run(1);
        assert_eq!(field(bench.memory[0o400], 0, 2), 1);
        assert_eq!(bench.memory[0o401], 0);
        assert_eq!(bench.registers.display_address, 0o30300);
    }

    #[test]
    fn a_push_stores_the_status_before_the_jumps_new_scale_and_pen() {
        // SC8 LPOF with the push; the old scale is 1 and the pen on.
        let mut bench = Bench::at(0o1000, &[0o2750, 0o0300]);
        bench.registers.scale = 1;
        bench.registers.pen_enable = true;
        bench.run(1);
        assert_eq!(bench.memory[0], 0o0500);
        assert_eq!(bench.registers.scale, 3);
        assert!(!bench.registers.pen_enable);
    }

    #[test]
    fn a_push_under_hold_stores_the_pen_on() {
        let mut bench = Bench::at(0o1000, &[0o2010, 0o0300]);
        bench.registers.pen_hold = true;
        bench.run(1);
        assert!(bit(bench.memory[0], 3));
    }

    #[test]
    fn a_push_fenced_at_its_second_word_stores_nothing() {
        let mut bench = Bench::at(0o1000, &[0o2010, 0o0300]);
        bench.registers.pushdown_pointer = 0o400;
        bench.memory[0o400] = 7;
        let before = bench.registers;
        bench.loan = Loan {
            file: range(0, 32_768),
            list: range(0o400, 0o401),
        };
        assert_eq!(bench.run(1), ended(Ending::WriteOutsideLoan(0o401), 0, 0));
        assert_eq!(bench.memory[0o400], 7);
        assert_eq!(bench.registers, before);
        // The second write is lent and the first not.
        bench.loan.list = range(0o401, 0o402);
        assert_eq!(bench.run(1), ended(Ending::WriteOutsideLoan(0o400), 0, 0));
        // With neither lent the first is told.
        bench.loan.list = range(0, 0o400);
        assert_eq!(bench.run(1), ended(Ending::WriteOutsideLoan(0o400), 0, 0));
        bench.loan.list = range(0o400, 0o402);
        assert_eq!(bench.run(1), ended(Ending::BudgetSpent, 1, 0));
        // What stood there was too wide to fetch: a write does not look.
        let mut bench = Bench::at(0o1000, &[0o2010, 0o0300]);
        bench.memory[0] = 0o177777;
        assert_eq!(bench.run(1), ended(Ending::BudgetSpent, 1, 0));
        assert_eq!(bench.memory[0], 0);
    }

    #[test]
    fn a_push_fenced_at_the_end_of_the_list_tells_which_write() {
        let mut bench = Bench::at(0o1000, &[0o2010, 0o0300]);
        bench.registers.pushdown_pointer = 0o7777;
        let before = bench.registers;
        bench.loan = Loan {
            file: range(0, 32_768),
            list: range(0, 0o7777),
        };
        assert_eq!(bench.run(1), ended(Ending::WriteOutsideLoan(0o7777), 0, 0));
        // Behind the pointer 7777o lies word 0, and not word 10000o, which is lent.
        bench.loan.list = range(1, 0o20000);
        assert_eq!(bench.run(1), ended(Ending::WriteOutsideLoan(0), 0, 0));
        assert_eq!(bench.memory[0o7777], 0);
        assert_eq!(bench.registers, before);
    }

    #[test]
    fn a_push_tests_all_its_fetches_before_its_writes() {
        // The second word is not lent, and neither is the list: the fetch is told.
        let mut bench = Bench::at(0o1000, &[0o2010, 0o0300]);
        bench.registers.pushdown_pointer = 0o400;
        bench.loan = Loan {
            file: range(0o1000, 0o1001),
            list: range(0, 0),
        };
        assert_eq!(bench.run(1), ended(Ending::FetchOutsideLoan(0o1001), 0, 0));
        // It is lent and too wide: the width comes before the writes too.
        bench.loan.file = range(0o1000, 0o1002);
        bench.memory[0o1001] = 0o10000;
        assert_eq!(bench.run(1), ended(Ending::WordTooWide, 0, 0));
        bench.memory[0o1001] = 0o0300;
        assert_eq!(bench.run(1), ended(Ending::WriteOutsideLoan(0o400), 0, 0));
    }

    #[test]
    fn a_push_may_store_over_its_own_words() {
        let mut bench = Bench::at(0o1000, &[0o2010, 0o0300]);
        bench.registers.pushdown_pointer = 0o1000;
        bench.run(1);
        assert_eq!(bench.registers.display_address, 0o300);
        assert_eq!(bench.memory[0o1000..0o1002], [0, 0o1002]);
    }

    #[test]
    fn a_plain_jump_stores_nothing_and_wraps_to_its_second_word() {
        let mut bench = Bench::at(0o77777, &[0o2507, 0o1234]);
        bench.loan = Loan {
            file: range(0, 32_768),
            list: range(0, 0),
        };
        assert_eq!(bench.run(1), ended(Ending::BudgetSpent, 1, 0));
        assert_eq!(bench.registers.display_address, 0o71234);
        assert_eq!(bench.registers.scale, 1);
    }

    fn popping(word: u16) -> Bench {
        let mut bench = Bench::at(0o1000, &[word]);
        // Break field 3, pen on, scale 2, mode 4, intensity 6; low address 0456o.
        bench.put(0o400, &[0o3646, 0o0456]);
        bench.registers.pushdown_pointer = 0o402;
        bench.run(1);
        bench
    }

    #[test]
    fn pop_restores_address_and_status() {
        let after = popping(0o3000).registers;
        assert_eq!(after.display_address, 0o30456);
        assert_eq!(after.pushdown_pointer, 0o400);
        assert_eq!((after.scale, after.mode, after.intensity), (2, 4, 6));
        assert!(after.pen_enable);
        assert_eq!(after.state, State::Control);
    }

    #[test]
    fn pop_inhibits_by_bits_8_9_10() {
        let after = popping(0o3010).registers;
        assert_eq!((after.scale, after.mode, after.intensity), (2, 0, 6));
        let after = popping(0o3004).registers;
        assert_eq!((after.scale, after.mode, after.intensity), (0, 4, 6));
        assert!(!after.pen_enable);
        let after = popping(0o3002).registers;
        assert_eq!((after.scale, after.mode, after.intensity), (2, 4, 0));
        assert_eq!(popping(0o3001).registers.state, State::Data);
    }

    #[test]
    fn a_pops_own_scale_and_pen_are_not_overwritten() {
        let after = popping(0o3740).registers;
        assert_eq!(after.scale, 3);
        assert!(!after.pen_enable);
        let after = popping(0o3744).registers;
        assert_eq!(after.scale, 3);
    }

    #[test]
    fn pop_below_place_0_wraps_in_field_0() {
        let mut bench = Bench::at(0o1000, &[0o3000]);
        bench.put(0o7777, &[0o1000]);
        bench.put(0, &[0o0123]);
        bench.registers.pushdown_pointer = 1;
        bench.run(1);
        assert_eq!(bench.registers.display_address, 0o10123);
        assert_eq!(bench.registers.pushdown_pointer, 0o7777);
    }

    #[test]
    fn pop_tests_its_fetches_in_order() {
        let mut bench = Bench::at(0o1000, &[0o3000]);
        bench.put(0o400, &[0o10000, 0]);
        bench.registers.pushdown_pointer = 0o402;
        bench.loan = Loan {
            file: range(0o1000, 0o1001),
            list: range(0o400, 0o401),
        };
        assert_eq!(bench.run(1), ended(Ending::WordTooWide, 0, 0));
        bench.put(0o400, &[0]);
        assert_eq!(bench.run(1), ended(Ending::FetchOutsideLoan(0o401), 0, 0));
        // The second cell is lent and the first not.
        bench.loan.list = range(0o401, 0o402);
        assert_eq!(bench.run(1), ended(Ending::FetchOutsideLoan(0o400), 0, 0));
        // The list may be read through the file range.
        bench.loan = Loan {
            file: range(0, 0o2000),
            list: range(0, 0),
        };
        assert_eq!(bench.run(1), ended(Ending::BudgetSpent, 1, 0));
    }

    #[test]
    fn a_pop_fenced_at_the_end_of_the_list_tells_which_fetch() {
        let mut bench = Bench::at(0o1000, &[0o3000]);
        bench.registers.pushdown_pointer = 1;
        bench.loan = Loan {
            file: range(0, 0o2000),
            list: range(0, 0),
        };
        assert_eq!(bench.run(1), ended(Ending::FetchOutsideLoan(0o7777), 0, 0));
        bench.loan = Loan {
            file: range(1, 0o2000),
            list: range(0o7777, 0o10000),
        };
        assert_eq!(bench.run(1), ended(Ending::FetchOutsideLoan(0), 0, 0));
    }

    #[test]
    fn p8_no_button_selected_does_not_skip() {
        let after = after_one(0o4300, |_| ());
        assert_eq!(after.display_address, 0o101);
        assert_eq!(after.buttons, 0);
        for word in [0o4000, 0o4400, 0o4700, 0o5000, 0o5400, 0o5700] {
            assert_eq!(
                after_one(word, |registers| registers.buttons = 0o5252).display_address,
                0o101
            );
        }
    }

    #[test]
    fn conditional_skips_pass_two_words() {
        // Buttons 0 and 1 selected, button 0 on: one is 0 and one is 1.
        let set = |registers: &mut Registers| registers.buttons = 0o4000;
        assert_eq!(after_one(0o4060, set).display_address, 0o103);
        assert_eq!(after_one(0o4460, set).display_address, 0o103);
        assert_eq!(after_one(0o4040, set).display_address, 0o101);
        assert_eq!(after_one(0o4420, set).display_address, 0o101);
        // Bank 2 looks at the other six.
        assert_eq!(after_one(0o5060, set).display_address, 0o103);
        assert_eq!(after_one(0o5460, set).display_address, 0o101);
    }

    #[test]
    fn buttons_are_cleared_and_then_complemented_and_hit_flags_stay() {
        let set = |registers: &mut Registers| {
            registers.buttons = 0o5252;
            registers.hit_bank_1 = true;
        };
        assert_eq!(after_one(0o4277, set).buttons, 0o0052);
        assert_eq!(after_one(0o4177, set).buttons, 0o2552);
        assert_eq!(after_one(0o4377, set).buttons, 0o7752);
        assert_eq!(after_one(0o5377, set).buttons, 0o5277);
        assert!(after_one(0o4377, set).hit_bank_1);
        assert!(!after_one(0o5377, set).hit_bank_2);
    }

    #[test]
    fn compares_skip_unless_equal() {
        let set = |registers: &mut Registers| registers.buttons = 0o5236;
        assert_eq!(after_one(0o6052, set).display_address, 0o101);
        assert_eq!(after_one(0o6053, set).display_address, 0o103);
        assert_eq!(after_one(0o6136, set).display_address, 0o101);
        assert_eq!(after_one(0o6152, set).display_address, 0o103);
    }

    #[test]
    fn skip_on_flags_skips_once() {
        let next = |word: u16, set: fn(&mut Registers)| after_one(word, set).display_address;
        assert_eq!(next(0o6200, |_| ()), 0o101);
        assert_eq!(next(0o6240, |_| ()), 0o103);
        assert_eq!(next(0o6220, |_| ()), 0o101);
        assert_eq!(next(0o6220, |registers| registers.x = 1_024), 0o103);
        assert_eq!(next(0o6220, |registers| registers.y = 1_024), 0o103);
        assert_eq!(next(0o6210, |_| ()), 0o103);
        assert_eq!(next(0o6210, |registers| registers.hit_bank_1 = true), 0o101);
        assert_eq!(next(0o6204, |registers| registers.hit_bank_1 = true), 0o103);
        assert_eq!(next(0o6204, |registers| registers.hit_bank_2 = true), 0o101);
        assert_eq!(next(0o6202, |_| ()), 0o103);
        assert_eq!(next(0o6202, |registers| registers.pen_sense = true), 0o101);
        assert_eq!(next(0o6276, |_| ()), 0o103);
        // Tested first, then cleared.
        let after = after_one(0o6203, |registers| registers.pen_sense = true);
        assert_eq!(after.display_address, 0o101);
        assert!(!after.pen_sense);
        // The buttons themselves are not asked.
        assert_eq!(next(0o6210, |registers| registers.buttons = 0o7777), 0o103);
    }

    #[test]
    fn counts_stop_at_the_ends() {
        let both = |scale: u8, intensity: u8, word: u16| {
            let after = after_one(word, |registers| {
                registers.scale = scale;
                registers.intensity = intensity;
            });
            (after.scale, after.intensity)
        };
        assert_eq!(both(1, 4, 0o6350), (2, 5));
        assert_eq!(both(3, 7, 0o6350), (3, 7));
        assert_eq!(both(1, 4, 0o6374), (0, 3));
        assert_eq!(both(0, 0, 0o6374), (0, 0));
        assert_eq!(both(1, 4, 0o6324), (1, 4));
        assert!(after_one(0o6302, |_| ()).blink);
        assert!(!after_one(0o6301, |registers| registers.blink = true).blink);
        assert!(!after_one(0o6303, |registers| registers.blink = true).blink);
    }

    #[test]
    fn slave_words_do_nothing() {
        for word in [0o6400, 0o6577, 0o6677, 0o6777] {
            let after = after_one(word, |_| ());
            let expected = Registers {
                display_address: 0o101,
                running: true,
                ..Registers::fresh()
            };
            assert_eq!(after, expected);
        }
    }

    #[test]
    fn idle_is_tested_and_then_cleared() {
        let on = |registers: &mut Registers| registers.idle = true;
        assert_eq!(after_one(0o7002, on).display_address, 0o103);
        assert!(after_one(0o7002, on).idle);
        assert_eq!(after_one(0o7002, |_| ()).display_address, 0o101);
        let after = after_one(0o7003, on);
        assert_eq!(after.display_address, 0o103);
        assert!(!after.idle);
        assert_eq!(after_one(0o7000, on).display_address, 0o101);
        assert_eq!(after_one(0o7001, on).display_address, 0o101);
    }

    #[test]
    fn a_skip_wraps_at_the_end_of_memory() {
        let mut bench = Bench::at(0o77776, &[0o6240]);
        bench.run(1);
        assert_eq!(bench.registers.display_address, 1);
    }
}
