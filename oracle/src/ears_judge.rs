// Both ears: each has a decoder's judge of its own, which gets that ear's samples alone; what is shared and
// who is refused is told by the rules of the call. Every call is written down.
use crate::counts::Counts;
use crate::decoder_judge::{same_samples, DecoderJudge};
use crate::ears::{answers, in_turn, parted, started_names, unfit, Own, Shared, LEFT, RIGHT};
use crate::model::{answer, Pitch};
use crate::set::Set;
use crate::vectors::Vectors;
use std::collections::{BTreeMap, BTreeSet};
use std::io::{sink, Sink, Write};

// The judge of an ear's frames, which writes nothing itself, and what the ear's state names.
pub struct Ear {
    pub judge: DecoderJudge<Sink>,
    named: (u32, u32),
}

pub struct EarsJudge<W: Write> {
    vectors: Vectors<W>,
    pub ears: [Ear; 2],
    num: Vec<f32>,
    den: Vec<f32>,
    counts: Counts,
    calls: u64,
    frames: u64,
    // The pairs of cases met, by rate and duration.
    met: BTreeMap<(u32, u32), BTreeSet<[u8; 2]>>,
}

const NAMES: [&str; 2] = ["left", "right"];

impl<W: Write> EarsJudge<W> {
    pub fn new(out: W) -> Self {
        let ear = || Ear {
            judge: DecoderJudge::new(sink()),
            named: (48000, 10000),
        };
        EarsJudge {
            vectors: Vectors::new(out),
            ears: [ear(), ear()],
            num: vec![],
            den: vec![],
            counts: Counts::default(),
            calls: 0,
            frames: 0,
            met: BTreeMap::new(),
        }
    }

    // A start of one ear, good or refused.
    pub fn start(&mut self, ear: usize, hz: u32, duration: u32) -> u8 {
        self.calls += 1;
        let started = &mut self.ears[ear];
        let answer = started.judge.start(hz, duration);
        started.named = started_names(&started.judge.model);
        self.vectors.ear_start(ear as u8, hz, duration, answer);
        answer
    }

    // A start of both, each by itself.
    pub fn start_both(&mut self, hz: u32, duration: u32) {
        assert_eq!(self.start(LEFT, hz, duration), answer::DONE);
        assert_eq!(self.start(RIGHT, hz, duration), answer::DONE);
    }

    // Lends the rows of the left ear's rate from now on.
    pub fn lend(&mut self, set: &Set) {
        set.install();
        let fs_ind = self.ears[LEFT].judge.model.config.rate.fs_ind as usize;
        self.lend_slices(&set.numerators[fs_ind], &set.denominators[fs_ind]);
    }

    // Lends any two slices to the models alone, for a frame that is to be refused.
    pub fn lend_slices(&mut self, num: &[f32], den: &[f32]) {
        let bits = |slices: [&[f32]; 2]| slices.map(|s| s.iter().map(|c| c.to_bits()).collect::<Vec<_>>());
        if bits([&self.num, &self.den]) != bits([num, den]) {
            self.vectors.coefficients(&[num, den]);
        }
        self.num = num.to_vec();
        self.den = den.to_vec();
        for ear in &mut self.ears {
            ear.judge.lend_slices(num, den);
        }
    }

    // A loss mark of one ear: 9 where its state is unfit.
    pub fn loss_mark(&mut self, ear: usize) -> u8 {
        self.calls += 1;
        let marked = &mut self.ears[ear];
        let mut answer = answer::UNFIT_STATE;
        if !unfit(&marked.judge.model, marked.named) {
            marked.judge.loss_mark();
            answer = answer::DONE;
        }
        self.vectors
            .ear_loss_mark(ear as u8, answer, marked.judge.model.settled);
        self.counts.other(&format!("loss marks answered {answer}"));
        answer
    }

    // A made-up run of one ear.
    pub fn put_run(&mut self, ear: usize, run: u32) {
        self.ears[ear].judge.model.run = run;
        self.vectors.ear_run(ear as u8, run);
    }

    // A made-up rate and duration in the state of one ear, or its own again.
    pub fn put_names(&mut self, ear: usize, names: Option<(u32, u32)>) {
        let state = &mut self.ears[ear];
        state.named = names.unwrap_or(started_names(&state.judge.model));
        self.vectors.ear_names(ear as u8, state.named);
    }

    // A frame of both: an ear that is not refused has what its own judge gives for its own samples.
    pub fn frame(&mut self, pitches: [Pitch; 2], nbits: u32, buffer: &[f32]) -> [u8; 2] {
        self.calls += 1;
        self.frames += 1;
        let parts = parted(buffer);
        let answers = self.answers(pitches, nbits, &parts);
        let cases = [LEFT, RIGHT].map(|ear| self.case(ear, answers[ear], pitches[ear], nbits));
        let outs = [LEFT, RIGHT].map(|ear| match answers[ear] {
            answer::DONE => self.done(ear, pitches[ear], nbits, &parts[ear]),
            _ => parts[ear].clone(),
        });
        let settled = [LEFT, RIGHT].map(|ear| self.ears[ear].judge.model.settled);
        self.vectors.ears_frame(pitches, nbits, buffer);
        self.vectors.ears_answer(answers, settled, &in_turn(&outs));
        self.count(answers, cases, &parts, &outs);
        answers
    }

    fn answers(&self, pitches: [Pitch; 2], nbits: u32, parts: &[Vec<f32>; 2]) -> [u8; 2] {
        let shared = Shared {
            num: &self.num,
            den: &self.den,
            nbits,
            count: parts[LEFT].len() + parts[RIGHT].len(),
        };
        let own = |ear: usize| Own {
            state: &self.ears[ear].judge.model,
            named: self.ears[ear].named,
            pitch: pitches[ear],
            samples: &parts[ear],
        };
        answers(&shared, [own(LEFT), own(RIGHT)])
    }

    // The case of an ear's frame, 0 where it is refused.
    fn case(&self, ear: usize, answer: u8, pitch: Pitch, nbits: u32) -> u8 {
        let model = &self.ears[ear].judge.model;
        match answer {
            answer::DONE => model.case(&model.filter(&self.num, &self.den, pitch, nbits)),
            _ => 0,
        }
    }

    // An ear's frame in its own judge, which must not refuse it.
    fn done(&mut self, ear: usize, pitch: Pitch, nbits: u32, samples: &[f32]) -> Vec<f32> {
        let (answer, out) = self.ears[ear].judge.judged(pitch, nbits, samples);
        assert_eq!(answer, answer::DONE);
        out
    }

    fn count(&mut self, answers: [u8; 2], cases: [u8; 2], parts: &[Vec<f32>; 2], outs: &[Vec<f32>; 2]) {
        let config = self.ears[LEFT].judge.model.config;
        if answers == [answer::DONE; 2] {
            self.counts
                .frame(&config, format!("{}+{}", cases[LEFT], cases[RIGHT]));
            let key = (config.rate.hz, config.duration());
            self.met.entry(key).or_default().insert(cases);
            return;
        }
        self.counts
            .other(&format!("answered {}+{}", answers[LEFT], answers[RIGHT]));
        for ear in [LEFT, RIGHT] {
            if !same_samples(&parts[ear], &outs[ear]) {
                let name = NAMES[ear];
                self.counts.other(&format!("{name} alone filtered"));
            }
        }
    }

    // Ends the vectors and prints the counts of both and of each ear; whether all that differed is listed.
    pub fn end(mut self) -> bool {
        self.vectors.end();
        eprintln!("both ears, by their cases:");
        self.counts.print();
        let all = self.met.values().filter(|met| met.len() == 25).count();
        eprintln!("rates and durations with all 25 pairs of cases: {all}");
        eprintln!("calls {} frames {}", self.calls, self.frames);
        let mut clean = true;
        for (ear, name) in self.ears.into_iter().zip(NAMES) {
            eprintln!("{name} ear:");
            clean &= ear.judge.end();
        }
        clean
    }
}
