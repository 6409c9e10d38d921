// plain.rs: the compiler and the machine in plain Rust, the baseline for compilation.

use std::slice::{from_raw_parts, from_raw_parts_mut};

const MAX_NAMES: usize = 256;
const MAX_ROWS: usize = 1024;
const MAX_CELLS: u32 = 65_536;
const MAX_CODE_WORDS: usize = 262_144;

const CONSTANT: i32 = 1;
const VARIABLE: i32 = 2;
const ARRAY: i32 = 3;

const VALUE: i32 = 1;
const IDENTIFIER: i32 = 2;
const ELEMENT: i32 = 3;
const PLUS: i32 = 4;
const MINUS: i32 = 5;
const TIMES: i32 = 6;
const LESS: i32 = 7;
const EQUAL: i32 = 8;
const AND: i32 = 9;
const OR: i32 = 10;
const NOT: i32 = 11;
const SKIP: i32 = 16;
const ASSIGN: i32 = 17;
const ASSIGN_ELEMENT: i32 = 18;
const SEQUENCE: i32 = 19;
const IF: i32 = 20;
const WHILE: i32 = 21;

const HALT: i32 = 0;
const NOP: i32 = 1;
const ADD: i32 = 2;
const ADDI: i32 = 3;
const SUB: i32 = 4;
const MUL: i32 = 5;
const LOAD: i32 = 6;
const STORE: i32 = 7;
const JMP: i32 = 8;
const BNE: i32 = 9;
const BEQ: i32 = 10;
const SLT: i32 = 11;

// A refusal's number, and the number returned with it.
struct Refusal(u32, u32);

struct Compiled {
    instructions: u32,
    cells: u32,
    need: u32,
}

// ---- The tables of a rule, and refusals 1 to 10 ----

struct Rule<'a> {
    declarations: &'a [i32],
    nodes: &'a [i32],
    addresses: [u32; MAX_NAMES],
    uses: [u16; MAX_ROWS],
}

// What a word of a row gives where it gives no refusal: more than each of them.
const FINE: u32 = 10;

fn check_sizes(declarations: &[i32], nodes: &[i32], pool: u64) -> Result<(), Refusal> {
    if nodes.len() % 4 != 0 || nodes.is_empty() || nodes.len() > 4 * MAX_ROWS {
        return Err(Refusal(1, 0));
    }
    if declarations.len() % 2 != 0 || declarations.len() > 2 * MAX_NAMES {
        return Err(Refusal(2, 0));
    }
    if pool & 1 != 0 {
        return Err(Refusal(3, 0));
    }
    Ok(())
}

fn cells_of(kind: i32, value: i32) -> Option<u32> {
    match (kind, value) {
        (CONSTANT, _) => Some(0),
        (VARIABLE, 0) => Some(1),
        (ARRAY, 1..=65_536) => Some(value as u32),
        _ => None,
    }
}

fn unused(word: i32) -> u32 {
    if word == 0 {
        FINE
    } else {
        6
    }
}

fn is_expression(kind: i32) -> bool {
    (VALUE..=NOT).contains(&kind)
}

impl<'a> Rule<'a> {
    fn new(declarations: &'a [i32], nodes: &'a [i32]) -> Rule<'a> {
        Rule {
            declarations,
            nodes,
            addresses: [0; MAX_NAMES],
            uses: [0; MAX_ROWS],
        }
    }

    fn rows(&self) -> usize {
        self.nodes.len() / 4
    }

    fn node(&self, row: usize) -> [i32; 4] {
        let at = 4 * row;
        [
            self.nodes[at],
            self.nodes[at + 1],
            self.nodes[at + 2],
            self.nodes[at + 3],
        ]
    }

    // Refusals 4 and 5; gives out the cells and returns their count.
    fn give_cells(&mut self) -> Result<u32, Refusal> {
        let mut cells = 0;
        for (row, declaration) in self.declarations.chunks_exact(2).enumerate() {
            let taken = cells_of(declaration[0], declaration[1]).ok_or(Refusal(4, row as u32))?;
            self.addresses[row] = cells;
            cells += taken;
            if cells > MAX_CELLS {
                return Err(Refusal(5, row as u32));
            }
        }
        Ok(cells)
    }

    fn child(&mut self, row: usize, word: i32, expression: bool) -> u32 {
        if word < 0 || word as usize >= row {
            return 6;
        }
        self.uses[word as usize] += 1;
        if is_expression(self.nodes[4 * word as usize]) == expression {
            FINE
        } else {
            7
        }
    }

    fn name(&self, word: i32, fits: fn(i32) -> bool) -> u32 {
        if word < 0 || word as usize >= self.declarations.len() / 2 {
            return 8;
        }
        if fits(self.declarations[2 * word as usize]) {
            FINE
        } else {
            9
        }
    }

    fn scalar(&self, word: i32) -> u32 {
        self.name(word, |kind| kind != ARRAY)
    }

    fn variable(&self, word: i32) -> u32 {
        self.name(word, |kind| kind == VARIABLE)
    }

    fn array(&self, word: i32) -> u32 {
        self.name(word, |kind| kind == ARRAY)
    }

    // The lowest refusal that a row's words give.
    fn check_words(&mut self, row: usize) -> u32 {
        let [kind, a, b, c] = self.node(row);
        match kind {
            VALUE => unused(b | c),
            IDENTIFIER => self.scalar(a).min(unused(b | c)),
            ELEMENT => self.array(a).min(self.child(row, b, true)).min(unused(c)),
            PLUS..=OR => self
                .child(row, a, true)
                .min(self.child(row, b, true))
                .min(unused(c)),
            NOT => self.child(row, a, true).min(unused(b | c)),
            SKIP => unused(a | b | c),
            ASSIGN => self
                .variable(a)
                .min(self.child(row, b, true))
                .min(unused(c)),
            ASSIGN_ELEMENT => self
                .array(a)
                .min(self.child(row, b, true))
                .min(self.child(row, c, true)),
            SEQUENCE => self
                .child(row, a, false)
                .min(self.child(row, b, false))
                .min(unused(c)),
            IF => self
                .child(row, a, true)
                .min(self.child(row, b, false))
                .min(self.child(row, c, false)),
            WHILE => self
                .child(row, a, true)
                .min(self.child(row, b, false))
                .min(unused(c)),
            _ => 6,
        }
    }

    // Refusals 6 to 10.
    fn check_rows(&mut self) -> Result<(), Refusal> {
        let last = self.rows() - 1;
        for row in 0..=last {
            let mut number = self.check_words(row);
            if row == last && is_expression(self.nodes[4 * row]) {
                number = number.min(7);
            }
            if number != FINE {
                return Err(Refusal(number, row as u32));
            }
        }
        match self.uses[..last].iter().position(|&uses| uses != 1) {
            Some(row) => Err(Refusal(10, row as u32)),
            None => Ok(()),
        }
    }
}

// ---- Registers needed and instructions, from the lowest row up ----

#[derive(Clone, Copy)]
struct Measure {
    need: u16,
    size: u16,
}

fn measure_row(rule: &Rule, done: &[Measure], row: usize) -> Measure {
    let [kind, a, b, c] = rule.node(row);
    let of = |word: i32| done[word as usize];
    let (need, size) = match kind {
        VALUE => (0, 1),
        SKIP => (0, 1),
        IDENTIFIER if rule.declarations[2 * a as usize] == CONSTANT => (0, 1),
        IDENTIFIER => (1, 2),
        ELEMENT | ASSIGN => (1 + of(b).need.max(1), of(b).size + 2),
        NOT => (1 + of(a).need, of(a).size + 3),
        ASSIGN_ELEMENT => (
            (1 + of(b).need).max(2 + of(c).need).max(3),
            of(b).size + of(c).size + 2,
        ),
        SEQUENCE => (of(a).need.max(of(b).need), of(a).size + of(b).size),
        IF => (
            (1 + of(a).need).max(of(b).need).max(of(c).need),
            of(a).size + of(b).size + of(c).size + 2,
        ),
        WHILE => (
            (1 + of(a).need).max(of(b).need),
            of(a).size + of(b).size + 2,
        ),
        PLUS..=LESS => (
            (1 + of(a).need).max(2 + of(b).need),
            of(a).size + of(b).size + 1,
        ),
        _ => (
            (1 + of(a).need).max(2 + of(b).need),
            of(a).size + of(b).size + 4,
        ),
    };
    Measure { need, size }
}

fn measure(rule: &Rule) -> Measure {
    let mut done = [Measure { need: 0, size: 0 }; MAX_ROWS];
    let rows = rule.rows();
    for row in 0..rows {
        done[row] = measure_row(rule, &done, row);
    }
    done[rows - 1]
}

// ---- Emission ----

struct Emitter<'a> {
    rule: &'a Rule<'a>,
    code: &'a mut [i32],
    at: i32,
}

fn fresh(pool: u64) -> (i32, u64) {
    (pool.trailing_zeros() as i32, pool & (pool - 1))
}

impl Emitter<'_> {
    fn put_at(&mut self, at: i32, op: i32, a: i32, b: i32, c: i32) {
        let from = 4 * at as usize;
        self.code[from..from + 4].copy_from_slice(&[op, a, b, c]);
    }

    fn put(&mut self, op: i32, a: i32, b: i32, c: i32) {
        self.put_at(self.at, op, a, b, c);
        self.at += 1;
    }

    // Leaves room for an instruction that is put later.
    fn leave(&mut self) -> i32 {
        self.at += 1;
        self.at - 1
    }

    fn equal(&mut self, target: i32, t1: i32, t2: i32) {
        let equal = self.at + 3;
        self.put(BEQ, t1, t2, equal);
        self.put(ADDI, target, 0, 0);
        self.put(JMP, equal + 1, 0, 0);
        self.put(ADDI, target, 1, 0);
    }

    fn not(&mut self, target: i32, t1: i32) {
        let end = self.at + 3;
        self.put(ADDI, target, 1, 0);
        self.put(BEQ, t1, 0, end);
        self.put(ADDI, target, 0, 0);
    }

    // and, or: the first value stays where one operand makes the branch.
    fn both(&mut self, branch: i32, first: i32, target: i32, t1: i32, t2: i32) {
        let end = self.at + 4;
        self.put(ADDI, target, first, 0);
        self.put(branch, t1, 0, end);
        self.put(branch, t2, 0, end);
        self.put(ADDI, target, 1 - first, 0);
    }

    fn operator(&mut self, kind: i32, target: i32, t1: i32, t2: i32) {
        match kind {
            PLUS => self.put(ADD, target, t1, t2),
            MINUS => self.put(SUB, target, t1, t2),
            TIMES => self.put(MUL, target, t1, t2),
            LESS => self.put(SLT, target, t1, t2),
            EQUAL => self.equal(target, t1, t2),
            AND => self.both(BEQ, 0, target, t1, t2),
            _ => self.both(BNE, 1, target, t1, t2),
        }
    }

    // The first address of a name into a fresh register, which is returned.
    fn base(&mut self, name: i32, pool: u64) -> i32 {
        let (base, _) = fresh(pool);
        self.put(ADDI, base, self.rule.addresses[name as usize] as i32, 0);
        base
    }

    fn identifier(&mut self, name: i32, target: i32, pool: u64) {
        let at = 2 * name as usize;
        if self.rule.declarations[at] == CONSTANT {
            self.put(ADDI, target, self.rule.declarations[at + 1], 0);
        } else {
            let base = self.base(name, pool);
            self.put(LOAD, target, base, 0);
        }
    }

    fn expression(&mut self, row: i32, target: i32, pool: u64) {
        let [kind, a, b, _] = self.rule.node(row as usize);
        match kind {
            VALUE => self.put(ADDI, target, a, 0),
            IDENTIFIER => self.identifier(a, target, pool),
            ELEMENT => {
                let (t1, rest) = fresh(pool);
                self.expression(b, t1, rest);
                let base = self.base(a, rest);
                self.put(LOAD, target, base, t1);
            }
            NOT => {
                let (t1, rest) = fresh(pool);
                self.expression(a, t1, rest);
                self.not(target, t1);
            }
            _ => {
                let (t1, rest) = fresh(pool);
                self.expression(a, t1, rest);
                let (t2, left) = fresh(rest);
                self.expression(b, t2, left);
                self.operator(kind, target, t1, t2);
            }
        }
    }

    fn assign_element(&mut self, name: i32, index: i32, value: i32, pool: u64) {
        let (t1, rest) = fresh(pool);
        self.expression(index, t1, rest);
        let (t2, left) = fresh(rest);
        self.expression(value, t2, left);
        let base = self.base(name, left);
        self.put(STORE, base, t1, t2);
    }

    fn test(&mut self, row: i32, pool: u64) -> i32 {
        let (t, rest) = fresh(pool);
        self.expression(row, t, rest);
        t
    }

    fn choice(&mut self, test: i32, then: i32, other: i32, pool: u64) {
        let t = self.test(test, pool);
        let branch = self.leave();
        self.command(then, pool);
        let jump = self.leave();
        self.put_at(branch, BEQ, t, 0, self.at);
        self.command(other, pool);
        self.put_at(jump, JMP, self.at, 0, 0);
    }

    fn iteration(&mut self, test: i32, body: i32, pool: u64) {
        let start = self.at;
        let t = self.test(test, pool);
        let branch = self.leave();
        self.command(body, pool);
        self.put(JMP, start, 0, 0);
        self.put_at(branch, BEQ, t, 0, self.at);
    }

    fn command(&mut self, row: i32, pool: u64) {
        let [kind, a, b, c] = self.rule.node(row as usize);
        match kind {
            SKIP => self.put(NOP, 0, 0, 0),
            ASSIGN => {
                let (t1, rest) = fresh(pool);
                self.expression(b, t1, rest);
                let base = self.base(a, rest);
                self.put(STORE, base, 0, t1);
            }
            ASSIGN_ELEMENT => self.assign_element(a, b, c, pool),
            SEQUENCE => {
                self.command(a, pool);
                self.command(b, pool);
            }
            IF => self.choice(a, b, c, pool),
            _ => self.iteration(a, b, pool),
        }
    }
}

fn compile(
    declarations: &[i32],
    nodes: &[i32],
    pool: u64,
    code: &mut [i32],
) -> Result<Compiled, Refusal> {
    check_sizes(declarations, nodes, pool)?;
    let mut rule = Rule::new(declarations, nodes);
    let cells = rule.give_cells()?;
    rule.check_rows()?;
    let Measure { need, size } = measure(&rule);
    let need = u32::from(need);
    if need > pool.count_ones() {
        return Err(Refusal(11, need));
    }
    let instructions = u32::from(size) + 1;
    if code.len() < 4 * instructions as usize {
        return Err(Refusal(12, instructions));
    }
    let mut emitter = Emitter {
        rule: &rule,
        code,
        at: 0,
    };
    emitter.command(rule.rows() as i32 - 1, pool);
    emitter.put(HALT, 0, 0, 0);
    Ok(Compiled {
        instructions,
        cells,
        need,
    })
}

// ---- The machine ----

enum Ending {
    Halted,
    Faulted(u32),
    Unfinished,
}

// What stops a run within its budget.
enum Stop {
    Halt,
    Fault(u32),
}

struct Machine<'a> {
    code: &'a [i32],
    memory: &'a mut [i32],
    place: u32,
    registers: &'a mut [i32; 64],
}

fn registers_or_fault(numbers: &[i32]) -> Result<(), Stop> {
    if numbers.iter().all(|r| (0..64).contains(r)) {
        Ok(())
    } else {
        Err(Stop::Fault(2))
    }
}

fn zero_or_fault(words: i32) -> Result<(), Stop> {
    if words == 0 {
        Ok(())
    } else {
        Err(Stop::Fault(2))
    }
}

impl Machine<'_> {
    fn read(&self, r: i32) -> i32 {
        if r == 0 {
            0
        } else {
            self.registers[r as usize]
        }
    }

    fn write(&mut self, r: i32, value: i32) -> Result<u32, Stop> {
        if r == 0 {
            return Err(Stop::Fault(3));
        }
        self.registers[r as usize] = value;
        Ok(self.place + 1)
    }

    fn cell(&mut self, base: i32, index: i32) -> Result<&mut i32, Stop> {
        let address = i64::from(self.read(base)) + i64::from(self.read(index));
        let cell = usize::try_from(address)
            .ok()
            .and_then(|at| self.memory.get_mut(at));
        cell.ok_or(Stop::Fault(4))
    }

    fn load(&mut self, target: i32, base: i32, index: i32) -> Result<u32, Stop> {
        if target == 0 {
            return Err(Stop::Fault(3));
        }
        let value = *self.cell(base, index)?;
        self.write(target, value)
    }

    fn store(&mut self, base: i32, index: i32, source: i32) -> Result<u32, Stop> {
        let value = self.read(source);
        *self.cell(base, index)? = value;
        Ok(self.place + 1)
    }

    fn jump(&self, label: i32) -> Result<u32, Stop> {
        if label >= 0 && (label as usize) < self.code.len() / 4 {
            Ok(label as u32)
        } else {
            Err(Stop::Fault(5))
        }
    }

    fn branch(&self, taken: bool, label: i32) -> Result<u32, Stop> {
        if taken {
            self.jump(label)
        } else {
            Ok(self.place + 1)
        }
    }

    // Does one instruction and returns the next place.
    fn advance(&mut self) -> Result<u32, Stop> {
        let at = 4 * self.place as usize;
        let words = self.code.get(at..at + 4).ok_or(Stop::Fault(1))?;
        let (a, b, c) = (words[1], words[2], words[3]);
        match words[0] {
            HALT => zero_or_fault(a | b | c).and(Err(Stop::Halt)),
            NOP => zero_or_fault(a | b | c).map(|()| self.place + 1),
            JMP => zero_or_fault(b | c).and_then(|()| self.jump(a)),
            ADDI => {
                registers_or_fault(&[a, c])?;
                self.write(a, b.wrapping_add(self.read(c)))
            }
            BNE => {
                registers_or_fault(&[a, b])?;
                self.branch(self.read(a) != self.read(b), c)
            }
            BEQ => {
                registers_or_fault(&[a, b])?;
                self.branch(self.read(a) == self.read(b), c)
            }
            op @ (ADD | SUB | MUL | LOAD | STORE | SLT) => {
                registers_or_fault(&[a, b, c])?;
                match op {
                    ADD => self.write(a, self.read(b).wrapping_add(self.read(c))),
                    SUB => self.write(a, self.read(b).wrapping_sub(self.read(c))),
                    MUL => self.write(a, self.read(b).wrapping_mul(self.read(c))),
                    LOAD => self.load(a, b, c),
                    STORE => self.store(a, b, c),
                    _ => self.write(a, i32::from(self.read(b) < self.read(c))),
                }
            }
            _ => Err(Stop::Fault(2)),
        }
    }

    // Runs under a budget and returns the ending and the steps taken.
    fn run(&mut self, budget: u32) -> (Ending, u32) {
        for steps in 0..budget {
            match self.advance() {
                Ok(place) => self.place = place,
                Err(Stop::Halt) => return (Ending::Halted, steps + 1),
                Err(Stop::Fault(number)) => return (Ending::Faulted(number), steps),
            }
        }
        (Ending::Unfinished, budget)
    }
}

fn check_machine(code_words: usize, cells: usize) -> Result<(), u32> {
    if code_words % 4 != 0 || code_words > MAX_CODE_WORDS {
        return Err(13);
    }
    if cells > MAX_CELLS as usize {
        return Err(14);
    }
    Ok(())
}

// ---- The three functions as C calls them ----

/// # Safety
/// Each pointer with its count is a buffer of the caller's, and none that is written overlaps another.
#[no_mangle]
pub unsafe extern "C" fn plain_rust_compile(
    declarations: *const i32,
    declaration_words: usize,
    nodes: *const i32,
    node_words: usize,
    pool: u64,
    code: *mut i32,
    code_words: usize,
    answer: &mut [u32; 3],
) -> u32 {
    let declarations = from_raw_parts(declarations, declaration_words);
    let nodes = from_raw_parts(nodes, node_words);
    let code = from_raw_parts_mut(code, code_words);
    match compile(declarations, nodes, pool, code) {
        Ok(Compiled {
            instructions,
            cells,
            need,
        }) => {
            *answer = [instructions, cells, need];
            0
        }
        Err(Refusal(number, value)) => {
            *answer = [value, 0, 0];
            number
        }
    }
}

/// # Safety
/// As for `plain_rust_compile`.
#[no_mangle]
pub unsafe extern "C" fn plain_rust_run(
    code: *const i32,
    code_words: usize,
    memory: *mut i32,
    cells: usize,
    place: &mut u32,
    registers: &mut [i32; 64],
    budget: u32,
    answer: &mut [u32; 3],
) -> u32 {
    if let Err(number) = check_machine(code_words, cells) {
        *answer = [0, 0, 0];
        return number;
    }
    let code = from_raw_parts(code, code_words);
    let memory = from_raw_parts_mut(memory, cells);
    let mut machine = Machine {
        code,
        memory,
        place: *place,
        registers,
    };
    let (ending, steps) = machine.run(budget);
    *place = machine.place;
    *answer = match ending {
        Ending::Halted => [1, 0, steps],
        Ending::Faulted(number) => [2, number, steps],
        Ending::Unfinished => [3, 0, steps],
    };
    0
}

/// # Safety
/// As for `plain_rust_compile`.
#[no_mangle]
pub unsafe extern "C" fn plain_rust_step(
    code: *const i32,
    code_words: usize,
    memory: *mut i32,
    cells: usize,
    place: &mut u32,
    registers: &mut [i32; 64],
    answer: &mut [u32; 3],
) -> u32 {
    let number = plain_rust_run(code, code_words, memory, cells, place, registers, 1, answer);
    if answer[0] == 3 {
        answer[0] = 0;
    }
    number
}
