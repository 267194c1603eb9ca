//! Each call of the library on the numbers and the slices of a case, the answer slice last.

use crate::guarded::Region;
use crate::library;

fn each<const COUNT: usize>(regions: &mut [Region]) -> [&mut Region; COUNT] {
    let regions: &mut [Region; COUNT] = regions.try_into().expect("a call has its slices");
    regions.each_mut()
}

pub fn verdict(_: &[usize], regions: &mut [Region]) -> u32 {
    let [sheet, prefix, period, answer] = each(regions);
    library::verdict(sheet.cells(), prefix.cells(), period.cells(), answer.cells_mut())
}

pub fn compare(_: &[usize], regions: &mut [Region]) -> u32 {
    let [first, second, prefix, period, answer] = each(regions);
    library::compare(first.cells(), second.cells(), prefix.cells_mut(), period.cells_mut(), answer.cells_mut())
}

pub fn check(_: &[usize], regions: &mut [Region]) -> u32 {
    let [sheet, answer] = each(regions);
    library::check(sheet.cells(), answer.cells_mut())
}

pub fn complement(_: &[usize], regions: &mut [Region]) -> u32 {
    let [sheet, out, answer] = each(regions);
    library::complement(sheet.cells(), out.cells_mut(), answer.cells_mut())
}

pub fn intersection(_: &[usize], regions: &mut [Region]) -> u32 {
    let [first, second, out, answer] = each(regions);
    library::intersection(first.cells(), second.cells(), out.cells_mut(), answer.cells_mut())
}

pub fn union(_: &[usize], regions: &mut [Region]) -> u32 {
    let [first, second, out, answer] = each(regions);
    library::union(first.cells(), second.cells(), out.cells_mut(), answer.cells_mut())
}

pub fn compare_in(_: &[usize], regions: &mut [Region]) -> u32 {
    let [first, second, prefix, period, work, answer] = each(regions);
    let (prefix, period, work) = (prefix.cells_mut(), period.cells_mut(), work.cells_mut());
    library::compare_in(first.cells(), second.cells(), prefix, period, work, answer.cells_mut())
}

pub fn emptiness(_: &[usize], regions: &mut [Region]) -> u32 {
    let [sheet, prefix, period, work, answer] = each(regions);
    let (prefix, period, work) = (prefix.cells_mut(), period.cells_mut(), work.cells_mut());
    library::emptiness(sheet.cells(), prefix, period, work, answer.cells_mut())
}

pub fn cursor_start(_: &[usize], regions: &mut [Region]) -> u32 {
    let [prefix, answer] = each(regions);
    library::cursor_start(prefix.cells(), answer.cells_mut())
}

pub fn cursor_step(numbers: &[usize], regions: &mut [Region]) -> u32 {
    let [prefix, period, answer] = each(regions);
    library::cursor_step(numbers[0], numbers[1], prefix.cells(), period.cells(), answer.cells_mut())
}

pub fn cursor_rest(numbers: &[usize], regions: &mut [Region]) -> u32 {
    let [prefix, period, answer] = each(regions);
    library::cursor_rest(numbers[0], numbers[1], prefix.cells(), period.cells(), answer.cells_mut())
}

pub fn pass_start(_: &[usize], regions: &mut [Region]) -> u32 {
    let [answer] = each(regions);
    library::pass_start(answer.cells_mut())
}

pub fn pass_on(numbers: &[usize], regions: &mut [Region]) -> u32 {
    let [sheet, part, answer] = each(regions);
    let &[failed, state, position] = numbers else { unreachable!("the pass holds three numbers") };
    library::pass_on(sheet.cells(), failed, state, position, part.cells(), answer.cells_mut())
}

pub fn number_read(numbers: &[usize], regions: &mut [Region]) -> u32 {
    let [text, answer] = each(regions);
    library::number_read(text.cells(), numbers[0], answer.cells_mut())
}

pub fn sheet_read(_: &[usize], regions: &mut [Region]) -> u32 {
    let [text, out, seconds, answer] = each(regions);
    library::sheet_read(text.cells(), out.cells_mut(), seconds.cells_mut(), answer.cells_mut())
}

pub fn sheet_write(numbers: &[usize], regions: &mut [Region]) -> u32 {
    let [sheet, seconds, out, answer] = each(regions);
    library::sheet_write(numbers[0], sheet.cells(), seconds.cells(), out.cells_mut(), answer.cells_mut())
}

pub fn show_read(_: &[usize], regions: &mut [Region]) -> u32 {
    let [text, prefix, period, answer] = each(regions);
    library::show_read(text.cells(), prefix.cells_mut(), period.cells_mut(), answer.cells_mut())
}

pub fn show_write(_: &[usize], regions: &mut [Region]) -> u32 {
    let [prefix, period, out, answer] = each(regions);
    library::show_write(prefix.cells(), period.cells(), out.cells_mut(), answer.cells_mut())
}

pub fn import(_: &[usize], regions: &mut [Region]) -> u32 {
    let [text, out, answer] = each(regions);
    library::import(text.cells(), out.cells_mut(), answer.cells_mut())
}

pub fn durations(_: &[usize], regions: &mut [Region]) -> u32 {
    let [prefix, period, seconds, out, answer] = each(regions);
    library::durations(prefix.cells(), period.cells(), seconds.cells(), out.cells_mut(), answer.cells_mut())
}

pub fn cart(_: &[usize], regions: &mut [Region]) -> u32 {
    let [sheet, cart, out, answer] = each(regions);
    library::cart(sheet.cells(), cart.cells(), out.cells_mut(), answer.cells_mut())
}
