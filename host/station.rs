// station.rs: a station host in Rust that compiles the antenna-change rule, lists its code, and runs it epoch by epoch beside its own
// registers.

use std::process::ExitCode;

use sauskinna::declaration::{CONSTANT, VARIABLE};
use sauskinna::node::{ASSIGN, IDENTIFIER, MINUS, PLUS, TIMES};
use sauskinna::{compile, listing, Ending, Machine, Reason, Refusal, Stepped, REGISTERS};

// The rule: cut_over := local_time - (zone_hours * 3600 + zone_minutes * 60).
const LOCAL_TIME: usize = 0;
const ZONE_HOURS: usize = 1;
const ZONE_MINUTES: usize = 2;
const CUT_OVER: usize = 3;
const HOUR: usize = 4;
const MINUTE: usize = 5;

const DECLARATIONS: [[i32; 2]; 6] = [
    [VARIABLE, 0],
    [VARIABLE, 0],
    [VARIABLE, 0],
    [VARIABLE, 0],
    [CONSTANT, 3600],
    [CONSTANT, 60],
];

const NODES: [[i32; 4]; 10] = [
    [IDENTIFIER, LOCAL_TIME as i32, 0, 0],
    [IDENTIFIER, ZONE_HOURS as i32, 0, 0],
    [IDENTIFIER, HOUR as i32, 0, 0],
    [TIMES, 1, 2, 0],
    [IDENTIFIER, ZONE_MINUTES as i32, 0, 0],
    [IDENTIFIER, MINUTE as i32, 0, 0],
    [TIMES, 4, 5, 0],
    [PLUS, 3, 6, 0],
    [MINUS, 0, 7, 0], // nested on the right
    [ASSIGN, CUT_OVER as i32, 8, 0],
];

// $24 to $63 are the host's 40; the rule may use $1 to $23.
const FIRST_OWN: usize = 24;
const POOL: u64 = (1 << FIRST_OWN) - 2;

// Steps that an epoch's slot leaves for the rule, and the slots in which it has to be done.
const SLOT: u32 = 6;
const SLOTS: u32 = 4;

struct Epoch {
    local_time: i32,
    zone_hours: i32,
    zone_minutes: i32,
}

impl Epoch {
    fn memory(&self) -> [i32; 4] {
        let mut memory = [0; 4];
        memory[LOCAL_TIME] = self.local_time;
        memory[ZONE_HOURS] = self.zone_hours;
        memory[ZONE_MINUTES] = self.zone_minutes;
        memory
    }

    fn cut_over(&self) -> i32 {
        self.local_time - (self.zone_hours * 3600 + self.zone_minutes * 60)
    }
}

fn own_value(k: usize) -> i32 {
    1000 * k as i32 + 7
}

fn own_registers_untouched(machine: &Machine) -> bool {
    let own = |k: usize| machine.registers[k] == own_value(k);
    own(0) && (FIRST_OWN..REGISTERS).all(own)
}

// Runs the rule in slots until it ends; gives the steps and the slots, if it halts.
fn run_in_slots(
    code: &[i32],
    machine: &mut Machine,
    memory: &mut [i32],
) -> Result<Option<(u32, u32)>, Refusal> {
    let mut steps = 0;
    machine.place = 0;
    for slot in 1..=SLOTS {
        let ran = machine.run(code, memory, SLOT)?;
        steps += ran.steps;
        match ran.ending {
            Ending::Unfinished => {}
            Ending::Halted => return Ok(Some((steps, slot))),
            Ending::Faulted(_) => return Ok(None),
        }
    }
    Ok(None)
}

// Takes single steps until the rule ends, as many as the slots have; gives their number, if it halts.
fn run_by_steps(
    code: &[i32],
    machine: &mut Machine,
    memory: &mut [i32],
) -> Result<Option<u32>, Refusal> {
    machine.place = 0;
    for steps in 1..=SLOT * SLOTS {
        match machine.step(code, memory)? {
            Stepped::Went => {}
            Stepped::Halted => return Ok(Some(steps)),
            Stepped::Faulted(_) => return Ok(None),
        }
    }
    Ok(None)
}

fn clock(seconds: i32) -> String {
    format!(
        "{:02}:{:02}:{:02}",
        seconds / 3600,
        seconds / 60 % 60,
        seconds % 60
    )
}

// One epoch, in slots and then again in single steps.
fn run_epoch(code: &[i32], machine: &mut Machine, epoch: &Epoch) -> Result<bool, Refusal> {
    let mut memory = epoch.memory();
    let mut again = epoch.memory();
    let ran = run_in_slots(code, machine, &mut memory)?;
    let stepped = run_by_steps(code, machine, &mut again)?;
    let (steps, slots) = ran.unwrap_or((0, SLOTS));
    let right = ran.is_some()
        && stepped == Some(steps)
        && memory == again
        && memory[CUT_OVER] == epoch.cut_over();
    let untouched = own_registers_untouched(machine);
    println!(
        "local {}, zone {:+} h {:+} min: cut-over {} universal, {}; {steps} steps in {slots} slots; $24 to $63 {}",
        clock(epoch.local_time),
        epoch.zone_hours,
        epoch.zone_minutes,
        clock(memory[CUT_OVER]),
        if right { "right" } else { "WRONG" },
        if untouched { "untouched" } else { "CHANGED" },
    );
    Ok(right && untouched)
}

// A pool of three registers is too small, and the refusal says how many it takes.
fn show_refusal() -> bool {
    match compile(&DECLARATIONS, &NODES, 0xe) {
        Ok(_) => false,
        Err(refusal) => {
            println!("with a pool of 3: {refusal}");
            refusal.reason == Reason::Registers
        }
    }
}

fn run_station() -> Result<bool, Refusal> {
    let (code, compiled) = compile(&DECLARATIONS, &NODES, POOL)?;
    println!(
        "compiled: {} instructions, {} cells, {} registers of the pool's {}",
        compiled.instructions,
        compiled.cells,
        compiled.need,
        POOL.count_ones(),
    );
    print!("{}", listing(&code)?);
    let mut machine = Machine {
        place: 0,
        registers: std::array::from_fn(own_value),
    };
    let mut fine = compiled.cells == 4;
    let epochs = [
        (36000, 0, 0),
        (41400, 5, 45),
        (25200, -3, -30),
        (61200, 9, 30),
        (32399, 1, 0),
    ];
    for (local_time, zone_hours, zone_minutes) in epochs {
        fine &= run_epoch(
            &code,
            &mut machine,
            &Epoch {
                local_time,
                zone_hours,
                zone_minutes,
            },
        )?;
    }
    Ok(show_refusal() && fine)
}

fn main() -> ExitCode {
    match run_station() {
        Ok(true) => {
            println!("station (Rust): all well");
            ExitCode::SUCCESS
        }
        Ok(false) => {
            println!("station (Rust): something is off");
            ExitCode::FAILURE
        }
        Err(refusal) => {
            println!("station (Rust): {refusal}");
            ExitCode::FAILURE
        }
    }
}
