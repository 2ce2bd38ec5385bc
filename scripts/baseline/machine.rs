//! The AIR of the machine of `docs/guide/machine.md`, as `scripts/machine` writes it: four
//! registers, four cells, and a program that runs past it in the preprocessed columns.

use crate::air::{Air, Selectors, Window};
use crate::field::{Algebra, BabyBear};
use std::array::from_fn;

/// How many main columns there are.
pub const WIDTH: usize = 40;

/// How many columns the program has.
pub const PROGRAM: usize = 14;

/// A row of the main columns.
struct Row<T> {
    pc: T,
    active: T,
    registers: [T; 4],
    cells: [T; 4],
    left: [T; 4],
    right: [T; 4],
    target: [T; 4],
    address: [T; 4],
    a: T,
    b: T,
    c: T,
    inverse: T,
    then: T,
    bits: [T; 9],
}

impl<T: Copy> Row<T> {
    #[inline(always)]
    fn new(row: &[T; WIDTH]) -> Row<T> {
        let four = |first: usize| from_fn(|i| row[first + i]);
        Row {
            pc: row[0],
            active: row[1],
            registers: four(2),
            cells: four(6),
            left: four(10),
            right: four(14),
            target: four(18),
            address: four(22),
            a: row[26],
            b: row[27],
            c: row[28],
            inverse: row[29],
            then: row[30],
            bits: from_fn(|i| row[31 + i]),
        }
    }
}

/// A row of the program: the instruction's place, flags of what it does and whether `b` is a
/// register, the registers' numbers, and a number.
struct Instruction<T> {
    place: T,
    add: T,
    sub: T,
    mul: T,
    less: T,
    load: T,
    store: T,
    jump: T,
    halt: T,
    from_register: T,
    left: T,
    right: T,
    target: T,
    number: T,
}

impl<T: Copy> Instruction<T> {
    #[inline(always)]
    fn new(row: &[T; PROGRAM]) -> Instruction<T> {
        Instruction {
            place: row[0],
            add: row[1],
            sub: row[2],
            mul: row[3],
            less: row[4],
            load: row[5],
            store: row[6],
            jump: row[7],
            halt: row[8],
            from_register: row[9],
            left: row[10],
            right: row[11],
            target: row[12],
            number: row[13],
        }
    }
}

#[inline(always)]
fn one<T: Algebra>() -> T {
    BabyBear::ONE.into()
}

#[inline(always)]
fn twice<T: Algebra>(x: T) -> T {
    x + x
}

/// The value, among four, whose flag is 1.
#[inline(always)]
fn chosen<T: Algebra>(flags: [T; 4], values: [T; 4]) -> T {
    let terms: [T; 4] = from_fn(|i| flags[i] * values[i]);
    (terms[0] + terms[1]) + (terms[2] + terms[3])
}

/// The number whose binary digits the bits are, the last one first, less two to the power of the
/// last one's place.
#[inline(always)]
fn digits<T: Algebra>(bits: [T; 9]) -> T {
    let [rest @ .., first] = bits;
    let below = |number, bit: &T| twice(number) + *bit;
    rest.iter().rev().fold(first - one(), below)
}

/// Each is 0 or 1.
#[inline(always)]
fn booleans<T: Algebra>(flags: &[T], zero: &mut impl FnMut(T)) {
    for flag in flags {
        zero(*flag * (*flag - one()));
    }
}

/// The flags are 0 or 1; `some` of them is 1, and it is the one at the index.
#[inline(always)]
fn choice<T: Algebra>(flags: [T; 4], some: T, index: T, zero: &mut impl FnMut(T)) {
    booleans(&flags, zero);
    zero((flags[0] + flags[1]) + (flags[2] + flags[3]) - some);
    zero((flags[1] + flags[3]) + twice(flags[2] + flags[3]) - index);
}

/// A row is active where its instruction is the one that comes next. Which registers are read and
/// written, and which cell.
#[inline(always)]
fn choices<T: Algebra>(row: &Row<T>, word: &Instruction<T>, zero: &mut impl FnMut(T)) {
    zero(row.active * (row.active - one()));
    zero(row.active * (row.pc - word.place));
    let writes = row.active * (word.add + word.sub + word.mul + word.less + word.load);
    let reaches = row.active * (word.load + word.store);
    choice(row.left, one(), word.left, zero);
    choice(row.right, one(), word.right, zero);
    choice(row.target, writes, writes * word.target, zero);
    choice(row.address, reaches, reaches * row.b, zero);
}

/// The operands, and what an instruction makes of them.
#[inline(always)]
fn results<T: Algebra>(row: &Row<T>, word: &Instruction<T>, zero: &mut impl FnMut(T)) {
    let (a, b, c, bits) = (row.a, row.b, row.c, row.bits);
    let second = chosen(row.right, row.registers);
    zero(a - chosen(row.left, row.registers));
    zero(b - (word.from_register * second + word.number));
    booleans(&bits, zero);
    zero(word.add * (c - (a + b)));
    zero(word.sub * (c - (a - b)));
    zero(word.mul * (c - a * b));
    zero(word.less * (c - (one::<T>() - bits[8])));
    zero(row.active * word.less * (a - b - digits(bits)));
    zero(word.load * (c - chosen(row.address, row.cells)));
    zero(word.jump * (c - a * row.inverse));
    zero(word.jump * (a - a * c));
}

/// What the next row begins with.
#[inline(always)]
fn steps<T: Algebra>(
    row: &Row<T>,
    word: &Instruction<T>,
    next: &Row<T>,
    transition: T,
    zero: &mut impl FnMut(T),
) {
    let jump = word.jump * (row.c * (word.number - row.pc - one()));
    zero(row.then - (row.pc + (one::<T>() - word.halt) + jump));
    zero(transition * (next.pc - (row.pc + row.active * (row.then - row.pc))));
    for i in 0..4 {
        let now = row.registers[i];
        zero(transition * (next.registers[i] - (now + row.target[i] * (row.c - now))));
    }
    for i in 0..4 {
        let now = row.cells[i];
        let change = word.store * (row.address[i] * (row.a - now));
        zero(transition * (next.cells[i] - (now + change)));
    }
}

/// The first row, with both inputs, and the last, where a halt is active, with the result.
#[inline(always)]
fn ends<T: Algebra>(
    row: &Row<T>,
    selectors: Selectors<T>,
    publics: &[BabyBear],
    zero: &mut impl FnMut(T),
) {
    zero(selectors.first * row.pc);
    zero(selectors.first * (row.registers[0] - publics[0].into()));
    zero(selectors.first * (row.registers[1] - publics[1].into()));
    for value in row.registers[2..].iter().chain(&row.cells) {
        zero(selectors.first * *value);
    }
    zero(selectors.last * (row.active - one()));
    zero(selectors.last * (row.registers[0] - publics[2].into()));
}

/// The AIR. Its public values are both inputs, and the result.
pub struct Machine;

impl Air<WIDTH, PROGRAM> for Machine {
    const DIGEST: &'static str = "8c2378d1696a3672079d708625d793d811402f9e5e4b3a1cf7fab5b732813407";
    const PUBLIC_VALUES: usize = 3;
    const CONSTRAINTS: usize = 66;
    const DEGREE: usize = 3;

    #[inline(always)]
    fn constraints<T: Algebra>(
        window: Window<T, WIDTH, PROGRAM>,
        publics: &[BabyBear],
        zero: &mut impl FnMut(T),
    ) {
        let (row, next) = (Row::new(window.local), Row::new(window.next));
        let word = Instruction::new(window.preprocessed);
        choices(&row, &word, zero);
        results(&row, &word, zero);
        steps(&row, &word, &next, window.selectors.transition, zero);
        ends(&row, window.selectors, publics, zero);
    }
}
