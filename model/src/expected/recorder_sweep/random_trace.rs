//! Random events for traces.

use std::iter;

use crate::access::{Access, Operation};
use crate::expected::random::Random;
use crate::recorder::{Event, Machine, Trap};
use crate::registers::csr::{MCTRCTL, SCTRDEPTH, SCTRSTATUS, VSCTRCTL};
use crate::registers::Mode;

/// How many events are drawn before recording is switched on again.
const STRETCH: usize = 64;

/// Control words: all switches, and with them RASEMU, the external bits, or these with NTBREN and
/// the bits that freeze. vsctrctl leaves out what it doesn't have.
const CONTROLS: [u64; 4] = [0x7, 0x87, 0x307, 0x10_0000_1B07];

/// Events without end, for a run from any good state. Drawn events would soon freeze the recorder or
/// inhibit most types, so that recording is switched on every now and then. A seed is not 0.
pub fn random_events(seed: u64) -> impl Iterator<Item = Event> {
    let mut random = Random(seed);
    iter::repeat_with(move || stretch(&mut random)).flatten()
}

fn stretch(random: &mut Random) -> Vec<Event> {
    let mut events = switching_on(random).to_vec();
    // What is drawn goes by the mode alone, which is M here as after reset.
    let mut machine = Machine::reset(false);
    for _ in 0..STRETCH {
        let event = random.event(machine.registers.mode);
        machine.step(event);
        events.push(event);
    }
    events.retain(has_row);
    events
}

/// Whether a row can hold the event: CSR numbers there are below 4096.
fn has_row(event: &Event) -> bool {
    !matches!(event, Event::Access(access) if access.csr >= 4096)
}

/// Enters M, and from there writes all that recording depends on.
fn switching_on(random: &mut Random) -> [Event; 6] {
    let [depth, mctrctl, vsctrctl] = random.draw_all();
    [
        Event::Trap(Trap {
            target_mode: Mode::M,
            is_interrupt: true,
            cause: 7,
            epc: depth,
            handler: mctrctl,
            cycles: 0,
        }),
        Event::Host {
            mstateen0_ctr: true,
            hstateen0_ctr: true,
        },
        write(SCTRDEPTH, depth % 8),
        write(SCTRSTATUS, 0),
        write(MCTRCTL, CONTROLS[(mctrctl % 4) as usize]),
        write(VSCTRCTL, CONTROLS[(vsctrctl % 4) as usize]),
    ]
}

fn write(csr: u64, operand: u64) -> Event {
    Event::Access(Access {
        operation: Operation::Write,
        csr,
        operand,
    })
}

#[cfg(test)]
mod tests {
    use super::*;
    use std::collections::HashSet;

    #[test]
    fn every_mode_number_and_value_occurs() {
        let mut machine = Machine::reset(false);
        let (mut modes, mut numbers, mut values) = (HashSet::new(), HashSet::new(), HashSet::new());
        for event in random_events(1).take(2000) {
            let answer = machine.step(event);
            modes.insert(machine.registers.mode as u8);
            numbers.insert(answer.number);
            if event.is_transfer() {
                values.insert(answer.value);
            }
        }
        assert_eq!(modes, HashSet::from([0, 1, 2, 3, 4]));
        assert_eq!(numbers, HashSet::from([0, 1, 2, 3, 4]));
        assert_eq!(values, HashSet::from([0, 1, 2, 3, 4]));
    }
}
