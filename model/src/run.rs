//! Whole traces in a call: what a run over rows gives, and what it leaves in the machine and in the
//! words lent for answers.

use crate::recorder::Machine;
use crate::replay::decode;

/// How many words are a row, and how many an answer: its number and its value.
const ROW_WORDS: usize = 4;
const ANSWER_WORDS: usize = 2;

// The numbers of runs.
const WHOLE: u8 = 0;
const LOOSE_WORDS: u8 = 6;
const TOO_FEW_ANSWER_WORDS: u8 = 7;
const MALFORMED_ROW: u8 = 9;

/// A number, 0 if all events were answered, and how many were.
#[derive(Clone, Copy, Debug, PartialEq, Eq)]
pub struct Outcome {
    pub number: u8,
    pub count: u64,
}

impl Machine {
    /// Answers the events of these words one after the other, up to a malformed row if there is
    /// one. Answer words past those of the events answered stay as they are.
    pub fn run(&mut self, words: &[u64], answers: &mut [u64]) -> Outcome {
        let (rows, loose) = words.as_chunks::<ROW_WORDS>();
        if !loose.is_empty() {
            return stopped(LOOSE_WORDS, 0);
        }
        if answers.len() < ANSWER_WORDS * rows.len() {
            return stopped(TOO_FEW_ANSWER_WORDS, 0);
        }
        let (places, _) = answers.as_chunks_mut::<ANSWER_WORDS>();
        for (index, (row, place)) in rows.iter().zip(places).enumerate() {
            let Ok(event) = decode(*row) else {
                return stopped(MALFORMED_ROW, index);
            };
            let answer = self.step(event);
            *place = [answer.number.into(), answer.value];
        }
        stopped(WHOLE, rows.len())
    }
}

/// What a run gives that stopped after `count` events.
fn stopped(number: u8, count: usize) -> Outcome {
    Outcome {
        number,
        count: count as u64,
    }
}

#[cfg(test)]
mod tests {
    use super::*;
    use crate::expected::random_events;
    use crate::replay::{encode, Row};

    /// Rows from reset, beside their answers: of every kind, some of them refused, some with
    /// cycles, both words mispredicted.
    const SAMPLES: [(Row, [u64; 2]); 11] = [
        // M turns M, S and U on, reads that back with an operand that says nothing, and calls.
        ([0x103, 0x34E, 7, 0], [0, 0]),
        ([0x003, 0x34E, u64::MAX, 0], [0, 7]),
        ([0x1234_0000_0200, 0xef, 0x1000, 0x2000], [0, 1]),
        // No such register; SCTRCLR; the host sets mstateen0.CTR.
        ([0x203, 0x999, 1, 0], [3, 0]),
        ([0x004, 0, 0, 0], [0, 0]),
        ([0x105, 0, 0, 0], [0, 0]),
        // To VU, which is off, where nothing is recorded and little is allowed.
        ([0xFFFF_FFFF_0000_0302, 0, 0x3000, 0x4000], [0, 1]),
        ([0x5_0000_0300, 0x63, 0x5000, 0x6000], [0, 0]),
        ([0x004, 0, 0, 0], [2, 0]),
        ([0x6_0000_0302, 0, 0x7000, 0x8000], [4, 0]),
        // An interrupt with a large cause, back to M.
        ([0x7_0000_0A01, u64::MAX, 0x9000, 0xA000], [0, 1]),
    ];

    const MALFORMED: Row = [0x003, 4096, 0, 0];

    fn sample_rows() -> Vec<Row> {
        SAMPLES.map(|(row, _)| row).to_vec()
    }

    fn sample_answers() -> Vec<u64> {
        SAMPLES.map(|(_, answer)| answer).concat()
    }

    /// A machine that has run the samples, so that there is something in it to be changed.
    fn used() -> Machine {
        stepped(&Machine::reset(false), &sample_rows()).0
    }

    /// As `used`, in each way of being bad.
    fn bad_machines() -> [Machine; 5] {
        let mut machines = [(); 5].map(|()| used());
        machines[0].registers.depth_code = 5;
        machines[1].registers.wrptr = 16;
        machines[2].registers.mctrctl |= 1 << 63;
        machines[3].registers.vsctrctl |= 1 << 2;
        machines[4].registers.cycles = 1 << 27;
        machines
    }

    /// Words that no event answers.
    fn lent(count: usize) -> Vec<u64> {
        (0..count as u64).map(|index| !index).collect()
    }

    /// The machine and the answers after these rows, one event after the other.
    fn stepped(start: &Machine, rows: &[Row]) -> (Machine, Vec<u64>) {
        let mut machine = start.clone();
        let mut answers = vec![];
        for row in rows {
            let answer = machine.step(decode(*row).expect("a well-formed row"));
            answers.extend([answer.number.into(), answer.value]);
        }
        (machine, answers)
    }

    /// Whether a run with so many answer words gives this number, and leaves the machine and the
    /// answers as the first `count` rows do.
    #[track_caller]
    fn assert_runs(start: &Machine, words: &[u64], room: usize, number: u8, count: usize) {
        let (mut machine, mut answers) = (start.clone(), lent(room));
        let outcome = machine.run(words, &mut answers);
        assert_eq!(outcome, stopped(number, count));
        let (rows, _) = words.as_chunks();
        let (expected, first_answers) = stepped(start, &rows[..count]);
        assert_eq!(machine, expected);
        let (filled, past) = answers.split_at(2 * count);
        assert_eq!(filled, first_answers);
        assert_eq!(past, &lent(room)[2 * count..]);
    }

    #[test]
    fn answers_are_number_and_value_of_each_event_in_turn() {
        let (mut machine, mut answers) = (Machine::reset(false), lent(2 * SAMPLES.len()));
        let outcome = machine.run(&sample_rows().concat(), &mut answers);
        let expected = Outcome {
            number: 0,
            count: SAMPLES.len() as u64,
        };
        assert_eq!(outcome, expected);
        assert_eq!(answers, sample_answers());
        assert_eq!(machine, used());
    }

    #[test]
    fn a_whole_run_gives_0_and_the_full_count() {
        for count in 0..=SAMPLES.len() {
            let words = sample_rows()[..count].concat();
            assert_runs(&Machine::reset(false), &words, 2 * count, 0, count);
            assert_runs(&used(), &words, 2 * count, 0, count);
        }
    }

    #[test]
    fn a_length_that_is_no_multiple_of_four_gives_6_and_changes_nothing() {
        let words = sample_rows().concat();
        for length in (0..words.len()).filter(|length| length % 4 != 0) {
            assert_runs(&used(), &words[..length], words.len(), 6, 0);
        }
    }

    #[test]
    fn too_few_answer_words_give_7_and_change_nothing() {
        for count in 1..=SAMPLES.len() {
            let words = sample_rows()[..count].concat();
            for room in 0..2 * count {
                assert_runs(&used(), &words, room, 7, 0);
            }
        }
    }

    #[test]
    fn the_length_is_asked_before_the_answer_words() {
        let words = sample_rows().concat();
        for length in [1, 2, 3, 5, 6, 7, 41, 42, 43] {
            for room in 0..length / 2 {
                assert_runs(&used(), &words[..length], room, 6, 0);
            }
        }
    }

    /// Also where there is room for the events before the malformed row.
    #[test]
    fn both_are_asked_of_the_whole_length_before_the_first_event() {
        for place in 0..=SAMPLES.len() {
            let mut rows = sample_rows();
            rows.insert(place, MALFORMED);
            let mut words = rows.concat();
            for room in 0..2 * rows.len() {
                assert_runs(&used(), &words, room, 7, 0);
            }
            words.push(0);
            for room in [0, 2 * place, 2 * rows.len(), 2 * rows.len() + 2] {
                assert_runs(&used(), &words, room, 6, 0);
            }
        }
    }

    #[test]
    fn a_malformed_row_stops_the_run_with_9_after_the_events_before_it() {
        for place in 0..=SAMPLES.len() {
            let mut rows = sample_rows();
            rows.insert(place, MALFORMED);
            for start in [Machine::reset(false), used()] {
                assert_runs(&start, &rows.concat(), 2 * rows.len(), 9, place);
            }
        }
    }

    #[test]
    fn the_first_malformed_row_counts() {
        let mut rows = sample_rows();
        (rows[3], rows[5]) = (MALFORMED, MALFORMED);
        assert_runs(&used(), &rows.concat(), 2 * rows.len(), 9, 3);
    }

    #[test]
    fn answer_words_past_the_count_stay_as_lent() {
        let mut rows = sample_rows();
        for more in 0..6 {
            let room = 2 * rows.len() + more;
            assert_runs(&used(), &rows.concat(), room, 0, rows.len());
            assert_runs(&used(), &[], more, 0, 0);
        }
        rows[4] = MALFORMED;
        for more in 0..6 {
            let room = 2 * rows.len() + more;
            assert_runs(&used(), &rows.concat(), room, 9, 4);
        }
    }

    #[test]
    fn a_bad_state_answers_5_to_each_event_of_a_whole_run() {
        let words = sample_rows().concat();
        for start in bad_machines() {
            assert_runs(&start, &words, 2 * SAMPLES.len(), 0, SAMPLES.len());
            let (mut machine, mut answers) = (start.clone(), lent(2 * SAMPLES.len()));
            machine.run(&words, &mut answers);
            assert_eq!(machine, start);
            assert_eq!(answers, [5, 0].repeat(SAMPLES.len()));
        }
    }

    #[test]
    fn runs_from_a_bad_state_stop_as_others_do() {
        let mut rows = sample_rows();
        rows[2] = MALFORMED;
        let words = rows.concat();
        for start in bad_machines() {
            assert_runs(&start, &words[..words.len() - 1], 0, 6, 0);
            assert_runs(&start, &words, 2 * rows.len() - 1, 7, 0);
            assert_runs(&start, &words, 2 * rows.len(), 9, 2);
        }
    }

    /// Long enough for more events than there are entries.
    #[test]
    fn a_trace_cut_between_events_gives_the_same() {
        let rows: Vec<Row> = random_events(1).take(300).map(encode).collect();
        let words = rows.concat();
        let mut starts = bad_machines().to_vec();
        starts.push(Machine::reset(false));
        for start in starts {
            let (mut whole, mut answers) = (start.clone(), lent(600));
            assert_eq!(whole.run(&words, &mut answers), stopped(0, 300));
            for place in 0..=300 {
                let (mut machine, mut pieces) = (start.clone(), lent(600));
                let (before, after) = words.split_at(4 * place);
                let (first, second) = pieces.split_at_mut(2 * place);
                assert_eq!(machine.run(before, first), stopped(0, place));
                assert_eq!(machine.run(after, second), stopped(0, 300 - place));
                assert_eq!((machine, pieces), (whole.clone(), answers.clone()));
            }
        }
    }
}
