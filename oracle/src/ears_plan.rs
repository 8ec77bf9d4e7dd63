// What goes into the calls of both ears, from a seed: every pair of cases at each rate and duration, then
// drawn frames, with losses, starts and refusals of one ear now and then.
use crate::ears::{in_turn, LEFT, RIGHT};
use crate::ears_judge::EarsJudge;
use crate::model::rates::Config;
use crate::model::{present, Pitch};
use crate::plan::{any_pitch, bits, scripted_pitch, voice, Plan};
use crate::random::Random;
use crate::set::Set;
use crate::signals::Voice;
use std::io::Write;

// The cases of left and right that the first run of each rate and duration goes through: each of the 25
// pairs once, in an order in which each ear is active where its next case asks for that.
pub const PAIRS: [[u8; 2]; 25] = [
    [2, 2],
    [4, 4],
    [4, 5],
    [4, 3],
    [4, 2],
    [5, 4],
    [5, 5],
    [5, 3],
    [4, 1],
    [5, 2],
    [3, 4],
    [2, 4],
    [3, 5],
    [2, 5],
    [3, 3],
    [2, 1],
    [5, 1],
    [3, 2],
    [2, 3],
    [3, 1],
    [1, 2],
    [1, 4],
    [1, 5],
    [1, 3],
    [1, 1],
];

// What is drawn for an ear: the voice that it hears, and the index that it had last.
struct Heard {
    voice: Voice,
    index: u32,
}

impl Heard {
    fn new(random: &mut Random, r: u32) -> Heard {
        Heard {
            voice: voice(random, r),
            index: random.below(512) as u32,
        }
    }

    // The ear's samples of the next frame.
    fn samples(&mut self, random: &mut Random, config: &Config) -> Vec<f32> {
        if random.one_in(5) {
            self.voice = voice(random, config.rate.r);
        }
        self.voice.floats(random, config.frame())
    }
}

pub fn run_ears<W: Write>(plan: &Plan, judge: &mut EarsJudge<W>) {
    let mut random = Random::new(plan.seed);
    for run in 0..plan.runs {
        let (hz, duration) = plan.config(run);
        judge.start_both(hz, duration);
        judge.lend(&plan.set(&mut random));
        let config = judge.ears[LEFT].judge.model.config;
        let mut heard = [LEFT, RIGHT].map(|_| Heard::new(&mut random, config.rate.r));
        for frame in 0..plan.frames {
            let (pitches, row) = match PAIRS.get(frame) {
                Some(cases) if plan.scripted(run) => {
                    let pitch = |ear: usize| {
                        let turn = 5 * run + frame + 7 * ear;
                        scripted_pitch(cases[ear], turn, config.rate.r, heard[ear].index)
                    };
                    ([LEFT, RIGHT].map(pitch), (run + frame) % 5)
                }
                _ => {
                    disturb(plan, judge, &mut random);
                    (drawn_pitches(&mut random, &heard), random.below(5))
                }
            };
            let samples = [LEFT, RIGHT].map(|ear| {
                heard[ear].index = pitches[ear].map_or(heard[ear].index, |p| p.index);
                heard[ear].samples(&mut random, &config)
            });
            let nbits = bits(&mut random, &config, row);
            judge.frame(pitches, nbits, &in_turn(&samples));
        }
    }
}

fn drawn_pitches(random: &mut Random, heard: &[Heard; 2]) -> [Pitch; 2] {
    [LEFT, RIGHT].map(|ear| any_pitch(random, heard[ear].index))
}

// Now and then a loss mark or a start of one ear, a frame to refuse in one ear or both, or another set: a
// good frame follows each.
fn disturb<W: Write>(plan: &Plan, judge: &mut EarsJudge<W>, random: &mut Random) {
    let config = judge.ears[LEFT].judge.model.config;
    let ear = random.below(2);
    let mut pitches = [any_pitch(random, 100), any_pitch(random, 100)];
    let mut buffer = vec![1.0; 2 * config.frame()];
    match random.below(40) {
        0 => drop(judge.loss_mark(ear)),
        1 => drop(judge.start(ear, config.rate.hz, config.duration())),
        2 => differ(judge, random, &config, ear),
        3 => drop(judge.frame(pitches, 3201 + random.bits() as u32 % 1000, &buffer)),
        4 => {
            pitches[ear] = present(512, true);
            judge.frame(pitches, 100, &buffer);
        }
        5 => {
            buffer[ear + 2 * random.below(config.frame())] = f32::NAN;
            judge.frame(pitches, 100, &buffer);
        }
        6 => {
            judge.put_run(ear, 9);
            judge.frame(pitches, 100, &buffer);
            judge.put_run(ear, 0);
        }
        7..=11 if plan.set.is_none() => judge.lend(&Set::random(random)),
        _ => {}
    }
}

// A frame while one ear is started with another rate or another duration: 13 for both.
fn differ<W: Write>(judge: &mut EarsJudge<W>, random: &mut Random, config: &Config, ear: usize) {
    let (hz, duration) = (config.rate.hz, config.duration());
    let others = [
        (if hz == 48000 { 44100 } else { 48000 }, duration),
        (hz, 17500 - duration),
    ];
    let (other_hz, other_duration) = random.pick(&others);
    judge.start(ear, other_hz, other_duration);
    judge.frame([None, present(3, true)], 100, &vec![1.0; 2 * config.frame()]);
    judge.start(ear, hz, duration);
}
