// Refusals, loss marks and settled reports of both ears: every number for one ear and for both, every pair
// of numbers, and after each refused call a good one that must go on as if the refused one had not been.
use crate::ears::{LEFT, RIGHT};
use crate::ears_judge::EarsJudge;
use crate::model::decoder::SETTLED_LIMIT;
use crate::model::rates::{DURATIONS, SEVEN_POINT_FIVE_MS, TEN_MS};
use crate::model::{present, Pitch};
use crate::refusals::{ramp, shorten, GOOD, REFUSED_STARTS};
use crate::set::Set;
use std::io::Write;

// The call that defects spoil, and what is made up in the states before it.
#[derive(Clone)]
struct Call {
    num: Vec<f32>,
    den: Vec<f32>,
    pitches: [Pitch; 2],
    nbits: u32,
    buffer: Vec<f32>,
    runs: [Option<u32>; 2],
    names: [Option<(u32, u32)>; 2],
}

// A number, whether it is an ear's own, and how an ear's part of a call is spoiled so as to deserve it.
type Defect = (u8, bool, fn(&mut Call, usize));

const OWN: bool = true;
const SHARED: bool = false;

// The order in which the numbers are looked for.
const ORDER: [u8; 8] = [13, 9, 3, 4, 5, 6, 7, 8];

// At 8000 Hz, 7.5 ms, with a frame of 60 samples.
const FRAME: usize = 60;
const NAMED: (u32, u32) = (8000, SEVEN_POINT_FIVE_MS);

// An ear's sample of a buffer.
fn put(call: &mut Call, ear: usize, at: usize, value: f32) {
    call.buffer[2 * at + ear] = value;
}

const DEFECTS: [Defect; 40] = [
    (13, SHARED, |c, _| {
        c.names[LEFT] = Some((8001, SEVEN_POINT_FIVE_MS))
    }),
    (13, SHARED, |c, _| c.names[RIGHT] = Some((8000, 7499))),
    (13, SHARED, |c, _| c.names = [Some((0, 0)), Some((1, 0))]),
    (13, SHARED, |c, _| c.names = [Some((0, 1)), Some((0, 0))]),
    (9, OWN, |c, ear| c.runs[ear] = Some(9)),
    (9, OWN, |c, ear| c.runs[ear] = Some(5)),
    (9, OWN, |c, ear| c.runs[ear] = Some(u32::MAX)),
    (9, SHARED, |c, _| c.names = [Some((8001, SEVEN_POINT_FIVE_MS)); 2]),
    (9, SHARED, |c, _| c.names = [Some((8000, 0)); 2]),
    (3, SHARED, |c, _| shorten(&mut c.num)),
    (3, SHARED, |c, _| c.den.push(0.0)),
    (3, SHARED, |c, _| c.num.clear()),
    (3, SHARED, |c, _| std::mem::swap(&mut c.num, &mut c.den)),
    (4, SHARED, |c, _| c.num[0] = f32::INFINITY),
    (4, SHARED, |c, _| *c.num.last_mut().unwrap() = f32::NAN),
    (4, SHARED, |c, _| *c.den.last_mut().unwrap() = f32::NEG_INFINITY),
    (5, SHARED, |c, _| shorten(&mut c.buffer)),
    (5, SHARED, |c, _| c.buffer.push(0.0)),
    (5, SHARED, |c, _| c.buffer.extend([0.0, 0.0])),
    (5, SHARED, |c, _| c.buffer.truncate(2 * FRAME - 2)),
    (5, SHARED, |c, _| c.buffer.truncate(FRAME)),
    (5, SHARED, |c, _| c.buffer.resize(160, 1.0)),
    (5, SHARED, |c, _| c.buffer.truncate(1)),
    (5, SHARED, |c, _| c.buffer.clear()),
    (6, SHARED, |c, _| c.nbits = 3201),
    (6, SHARED, |c, _| c.nbits = u32::MAX),
    (7, OWN, |c, ear| c.pitches[ear] = present(512, true)),
    (7, OWN, |c, ear| c.pitches[ear] = present(512, false)),
    (7, OWN, |c, ear| c.pitches[ear] = present(u32::MAX, true)),
    (8, OWN, |c, ear| put(c, ear, 0, f32::NAN)),
    (8, OWN, |c, ear| put(c, ear, 20, f32::NAN)),
    (8, OWN, |c, ear| put(c, ear, FRAME - 1, f32::INFINITY)),
    (8, OWN, |c, ear| put(c, ear, FRAME - 1, f32::NEG_INFINITY)),
    (8, OWN, |c, ear| put(c, ear, 1, f32::INFINITY)),
    (8, OWN, |c, ear| put(c, ear, 2, 1048577.0)),
    (8, OWN, |c, ear| put(c, ear, 3, -1048577.0)),
    (8, OWN, |c, ear| put(c, ear, 4, 1048576.125)),
    (8, OWN, |c, ear| put(c, ear, FRAME - 1, -1048576.125)),
    (8, OWN, |c, ear| put(c, ear, 5, f32::MAX)),
    (8, OWN, |c, ear| put(c, ear, 6, f32::MIN)),
];

// A defect and the ears that it is put into.
type Put = (&'static Defect, &'static [usize]);

// Where a defect may be put: an ear's own into left, right and both.
fn places(defect: &'static Defect) -> Vec<Put> {
    let both: Put = (defect, &[LEFT, RIGHT]);
    if defect.1 == OWN {
        vec![(defect, &[LEFT]), (defect, &[RIGHT]), both]
    } else {
        vec![both]
    }
}

// The first defect of each number, in the order of the numbers.
fn first_defects() -> Vec<&'static Defect> {
    let first = |number: &u8| DEFECTS.iter().find(|d| d.0 == *number).unwrap();
    ORDER.iter().map(first).collect()
}

// All defects alone; then each two numbers, at all their places, the later of the two put in first.
fn spoilings() -> Vec<Vec<Put>> {
    let mut spoilings: Vec<Vec<Put>> = DEFECTS.iter().flat_map(places).map(|alone| vec![alone]).collect();
    let first = first_defects();
    for (k, a) in first.iter().enumerate() {
        for b in &first[k + 1..] {
            for one in places(a) {
                spoilings.extend(places(b).into_iter().map(|other| vec![other, one]));
            }
        }
    }
    spoilings
}

// What an ear must answer: of the numbers that it deserves the first in the order.
fn expected(spoiling: &[Put], ear: usize) -> u8 {
    let deserved = |number: &&u8| {
        spoiling
            .iter()
            .any(|(d, ears)| d.0 == **number && ears.contains(&ear))
    };
    ORDER.iter().find(deserved).copied().unwrap_or(0)
}

// A good call. In every second one both ears are active, so that an ear that goes on shows it.
fn good_call(set: &Set, turn: usize) -> Call {
    let active = [present(60, true), present(200, true)];
    let in_turn = [GOOD[turn % GOOD.len()], GOOD[(3 * turn + 2) % GOOD.len()]];
    Call {
        num: set.numerators[0].clone(),
        den: set.denominators[0].clone(),
        pitches: if turn.is_multiple_of(2) { active } else { in_turn },
        nbits: 100 + 40 * (turn as u32 % 8),
        buffer: ramp(turn, 2 * FRAME),
        runs: [None; 2],
        names: [None; 2],
    }
}

// Puts a defect into a call: once, where the ears share it.
fn spoil(call: &mut Call, (defect, ears): &Put) {
    let times = if defect.1 == OWN { ears.len() } else { 1 };
    ears[..times].iter().for_each(|ear| defect.2(call, *ear));
}

// Makes a call and insists on its answers; what is made up is undone after it.
fn make<W: Write>(judge: &mut EarsJudge<W>, call: &Call, answers: [u8; 2]) {
    for ear in [LEFT, RIGHT] {
        call.runs[ear].iter().for_each(|run| judge.put_run(ear, *run));
        call.names[ear]
            .iter()
            .for_each(|names| judge.put_names(ear, Some(*names)));
    }
    judge.lend_slices(&call.num, &call.den);
    let given = judge.frame(call.pitches, call.nbits, &call.buffer);
    assert_eq!(given, answers);
    for ear in [LEFT, RIGHT] {
        call.runs[ear].iter().for_each(|_| judge.put_run(ear, 0));
        call.names[ear].iter().for_each(|_| judge.put_names(ear, None));
    }
}

// Every way to spoil a call, each followed by a good frame.
fn spoiled_calls<W: Write>(judge: &mut EarsJudge<W>, set: &Set) {
    judge.start_both(NAMED.0, NAMED.1);
    set.install();
    for (turn, spoiling) in spoilings().iter().enumerate() {
        let mut spoiled = good_call(set, 2 * turn);
        spoiling.iter().for_each(|put| spoil(&mut spoiled, put));
        let answers = [LEFT, RIGHT].map(|ear| expected(spoiling, ear));
        make(judge, &spoiled, answers);
        make(judge, &good_call(set, 2 * turn + 1), [0, 0]);
    }
}

// A refused start of one ear names 48000 Hz, 10 ms: 13, until the other names the same.
fn refused_starts<W: Write>(judge: &mut EarsJudge<W>, set: &Set) {
    for (turn, (hz, duration, answer)) in REFUSED_STARTS.into_iter().enumerate() {
        let ear = turn % 2;
        judge.start_both(8000, TEN_MS);
        judge.lend(set);
        assert_eq!(judge.frame([GOOD[0]; 2], 100, &ramp(1, 160)), [0, 0]);
        assert_eq!(judge.start(ear, hz, duration), answer);
        assert_eq!(judge.frame([GOOD[0]; 2], 100, &ramp(2, 160)), [13, 13]);
        assert_eq!(judge.start(1 - ear, 48000, TEN_MS), 0);
        judge.lend(set);
        assert_eq!(judge.frame([GOOD[0]; 2], 100, &ramp(3, 160)), [5, 5]);
    }
    assert_eq!(judge.frame([GOOD[0], GOOD[5]], 100, &ramp(4, 960)), [0, 0]);
    assert_eq!(judge.frame([GOOD[1], None], 100, &ramp(5, 960)), [0, 0]);
    assert_eq!(judge.frame([GOOD[0]; 2], 100, &ramp(6, 961)), [5, 5]);
}

// Starts of the two ears that name different rates or durations, the frame's length being the same or not.
const DIFFERENT: [[(u32, u32); 2]; 5] = [
    [(8000, TEN_MS), (16000, TEN_MS)],
    [(8000, TEN_MS), (8000, SEVEN_POINT_FIVE_MS)],
    [(16000, SEVEN_POINT_FIVE_MS), (8000, TEN_MS)],
    [(24000, SEVEN_POINT_FIVE_MS), (44100, TEN_MS)],
    [(44100, SEVEN_POINT_FIVE_MS), (48000, SEVEN_POINT_FIVE_MS)],
];

// Ears that differ: 13 for both, fit or not, whatever else is wrong. Once the other ear is started anew with
// the same names, the one that was kept goes on from where it was.
fn different_ears<W: Write>(judge: &mut EarsJudge<W>, set: &Set) {
    for (turn, names) in DIFFERENT.into_iter().enumerate() {
        for kept in [LEFT, RIGHT] {
            let (hz, duration) = names[kept];
            judge.start_both(hz, duration);
            judge.lend(set);
            let frame = judge.ears[kept].judge.model.config.frame();
            let good = ramp(turn, 2 * frame);
            assert_eq!(judge.frame([GOOD[0], GOOD[2]], 100, &good), [0, 0]);
            judge.start(1 - kept, names[1 - kept].0, names[1 - kept].1);
            assert_eq!(judge.frame([GOOD[0], GOOD[2]], 100, &good), [13, 13]);
            unfit_and_different(judge, kept);
            judge.start(1 - kept, hz, duration);
            judge.lend(set);
            assert_eq!(judge.frame([GOOD[1], GOOD[1]], 100, &good), [0, 0]);
        }
    }
}

// 13 also where one state or both are unfit, and where the buffer is empty.
fn unfit_and_different<W: Write>(judge: &mut EarsJudge<W>, ear: usize) {
    judge.put_run(ear, 9);
    assert_eq!(judge.frame([GOOD[0]; 2], 3201, &[]), [13, 13]);
    judge.put_run(1 - ear, 9);
    assert_eq!(judge.frame([present(512, true); 2], 100, &[f32::NAN]), [13, 13]);
    judge.put_run(ear, 0);
    assert_eq!(judge.frame([None; 2], 100, &[]), [13, 13]);
    judge.put_run(1 - ear, 0);
}

// A run at its limit is unfit while not settled, a run above 0 after an active frame, a run above its limit
// even where settled; one at its limit is fit where settled. A loss mark of an unfit ear is refused too.
fn unfit_runs<W: Write>(judge: &mut EarsJudge<W>, set: &Set, duration: u32) {
    let inactive = [None, present(9, false)];
    for ear in [LEFT, RIGHT] {
        judge.start_both(8000, duration);
        judge.lend(set);
        let buffer = ramp(5, 2 * judge.ears[ear].judge.model.config.frame());
        let one = |number: u8| [LEFT, RIGHT].map(|e| if e == ear { number } else { 0 });
        judge.put_run(ear, SETTLED_LIMIT);
        assert_eq!(judge.frame(inactive, 100, &buffer), one(9));
        assert_eq!(judge.loss_mark(ear), 9);
        assert_eq!(judge.loss_mark(1 - ear), 0);
        judge.put_run(ear, SETTLED_LIMIT - 1);
        assert_eq!(judge.frame(inactive, 100, &buffer), [0, 0]);
        judge.put_run(ear, SETTLED_LIMIT + 1);
        assert_eq!(judge.frame(inactive, 100, &buffer), one(9));
        judge.put_run(ear, SETTLED_LIMIT);
        assert_eq!(judge.frame([GOOD[0]; 2], 100, &buffer), [0, 0]);
        judge.put_run(ear, 1);
        assert_eq!(judge.frame([GOOD[1]; 2], 100, &buffer), one(9));
        judge.put_run(ear, 0);
        assert_eq!(judge.frame([GOOD[1]; 2], 100, &buffer), [0, 0]);
    }
}

// At 44100 the lent rows are those of 48000, whole, for both ears.
fn lent_rows_of_44100<W: Write>(judge: &mut EarsJudge<W>, set: &Set) {
    judge.start_both(44100, SEVEN_POINT_FIVE_MS);
    set.install();
    let (num, den) = (&set.numerators[4], &set.denominators[4]);
    judge.lend_slices(&num[..40], &den[..48]);
    assert_eq!(judge.frame([GOOD[0]; 2], 100, &ramp(1, 720)), [3, 3]);
    judge.lend(set);
    assert_eq!(judge.frame([GOOD[0], GOOD[6]], 100, &ramp(1, 720)), [0, 0]);
}

// The most that is accepted of everything, in both ears.
fn limits<W: Write>(judge: &mut EarsJudge<W>, set: &Set) {
    judge.start_both(8000, TEN_MS);
    judge.lend(set);
    let mut buffer = ramp(3, 160);
    buffer[..6].copy_from_slice(&[1048576.0, -1048576.0, -1048576.0, 1048576.0, -0.0, 1e-45]);
    for nbits in [3200, 559, 0] {
        let pitches = [present(511, true), present(0, true)];
        assert_eq!(judge.frame(pitches, nbits, &buffer), [0, 0]);
    }
}

// The settled reports, each ear by itself, a letter for each frame: `i` inactive, `a` active, `r` refused
// for its index, `u` refused for its run, `l` a loss mark before an inactive one, `s` a start before one.
fn settled<W: Write>(judge: &mut EarsJudge<W>, set: &Set, duration: u32, letters: [&str; 2]) {
    judge.start_both(8000, duration);
    judge.lend(set);
    let frame = judge.ears[LEFT].judge.model.config.frame();
    for (turn, (left, right)) in letters[LEFT].chars().zip(letters[RIGHT].chars()).enumerate() {
        let mut pitches = [None, present(7, false)];
        for (ear, letter) in [left, right].into_iter().enumerate() {
            match letter {
                'a' => pitches[ear] = present(200, true),
                'r' => pitches[ear] = present(512, false),
                'u' => judge.put_run(ear, 9),
                'l' => drop(judge.loss_mark(ear)),
                's' => drop(judge.start(ear, 8000, duration)),
                _ => {}
            }
        }
        judge.frame(pitches, 100, &ramp(turn, 2 * frame));
        for (ear, letter) in [left, right].into_iter().enumerate() {
            if letter == 'u' {
                judge.put_run(ear, 0);
            }
        }
    }
}

pub fn ears<W: Write>(judge: &mut EarsJudge<W>, set: &Set) {
    refused_starts(judge, set);
    spoiled_calls(judge, set);
    different_ears(judge, set);
    for duration in DURATIONS {
        unfit_runs(judge, set, duration);
    }
    lent_rows_of_44100(judge, set);
    limits(judge, set);
    let letters = ["iiiiairiliiruiisiiiai", "aiiriiiaiiiiliiiiuiii"];
    for duration in DURATIONS {
        settled(judge, set, duration, letters);
    }
}
