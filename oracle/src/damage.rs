// Short vectors with wrong answers at known places, to show that a compare program reports each.
use crate::decoder_judge::DecoderJudge;
use crate::ears::{LEFT, RIGHT};
use crate::ears_judge::EarsJudge;
use crate::encoder_judge::EncoderJudge;
use crate::model::present;
use crate::set::Set;
use std::cell::RefCell;
use std::io::Write;
use std::rc::Rc;

// A buffer that the judge writes to and we spoil afterwards.
#[derive(Clone, Default)]
struct Buffer(Rc<RefCell<Vec<u8>>>);

impl Write for Buffer {
    fn write(&mut self, bytes: &[u8]) -> std::io::Result<usize> {
        self.0.borrow_mut().write(bytes)
    }

    fn flush(&mut self) -> std::io::Result<()> {
        Ok(())
    }
}

impl Buffer {
    // Changes the byte that stands so far before the end, and says what it was part of.
    fn spoil(&self, back: usize, what: &str) {
        let mut bytes = self.0.borrow_mut();
        let at = bytes.len() - back;
        bytes[at] ^= 1;
        eprintln!("damaged byte {at}: {what}, now {}", bytes[at]);
    }

    fn print(&self) {
        std::io::stdout()
            .write_all(&self.0.borrow())
            .expect("the vectors can be written");
    }
}

pub fn decoder(set: &Set) -> bool {
    let buffer = Buffer::default();
    let mut judge = DecoderJudge::new(buffer.clone());
    let active = present(100, true);
    let samples: Vec<f32> = (0..80).map(|n| (n * n % 97) as f32 * 10.0 - 450.0).collect();
    judge.start(8000, 10000);
    judge.lend(set);
    judge.frame(active, 100, &samples);
    buffer.spoil(4, "frame 1, lowest byte of sample 79");
    judge.frame(active, 100, &samples);
    buffer.spoil(4 * 80 + 2, "frame 2, the answer");
    judge.frame(None, 100, &samples);
    buffer.spoil(4 * 80 + 1, "frame 3, the settled report");
    buffer.spoil(4 * 80 - 3, "frame 3, highest byte of sample 0");
    judge.frame(None, 3201, &samples);
    buffer.spoil(4 * 80 + 2, "frame 4, the answer of a refusal");
    judge.loss_mark();
    buffer.spoil(1, "loss mark 1, the settled report");
    judge.loss_mark();
    buffer.spoil(2, "loss mark 2, the answer");
    judge.start(8000, 1);
    buffer.spoil(1, "start 2, the answer");
    judge.start(8000, 10000);
    judge.frame(None, 100, &samples);
    let clean = judge.end();
    buffer.print();
    clean
}

pub fn encoder(set: &Set) -> bool {
    let buffer = Buffer::default();
    let mut judge = EncoderJudge::new(buffer.clone());
    let samples: Vec<i16> = (0..80).map(|n| (n % 40 * 97 % 41 * 200) as i16 - 4000).collect();
    judge.start(8000, 10000);
    judge.lend(set);
    let damages = [
        (8, "frame 1, the answer"),
        (7, "frame 2, the presence of pitch"),
        (6, "frame 3, lowest byte of the index"),
        (2, "frame 4, the active mark"),
        (1, "frame 5, the bits"),
    ];
    for (back, what) in damages {
        judge.frame(false, 100, &samples);
        buffer.spoil(back, what);
    }
    judge.frame(false, 3201, &samples);
    buffer.spoil(8, "frame 6, the answer of a refusal");
    judge.start(7999, 10000);
    buffer.spoil(1, "start 2, the answer");
    judge.start(8000, 10000);
    judge.frame(false, 100, &samples);
    let clean = judge.end();
    buffer.print();
    clean
}

pub fn ears(set: &Set) -> bool {
    let buffer = Buffer::default();
    let mut judge = EarsJudge::new(buffer.clone());
    let active = [present(100, true), present(400, true)];
    let samples: Vec<f32> = (0..160).map(|n| (n * n % 97) as f32 * 10.0 - 450.0).collect();
    judge.start_both(8000, 10000);
    judge.lend(set);
    judge.frame(active, 100, &samples);
    buffer.spoil(8, "frame 1, lowest byte of sample 158, on the left");
    judge.frame(active, 100, &samples);
    buffer.spoil(4, "frame 2, lowest byte of sample 159, on the right");
    buffer.spoil(4 * 160 + 4, "frame 2, the left answer");
    judge.frame([None; 2], 100, &samples);
    buffer.spoil(4 * 160 + 3, "frame 3, the left settled report");
    buffer.spoil(4 * 159 - 3, "frame 3, highest byte of sample 1, on the right");
    judge.frame([active[0], present(512, true)], 100, &samples);
    buffer.spoil(4 * 160 + 2, "frame 4, the right answer, of a refusal");
    judge.frame([present(512, true), active[1]], 100, &samples);
    buffer.spoil(4 * 160 + 1, "frame 5, the right settled report");
    buffer.spoil(4 * 160, "frame 5, lowest byte of sample 0, of the refused ear");
    judge.loss_mark(LEFT);
    buffer.spoil(1, "loss mark 1, the settled report");
    judge.loss_mark(RIGHT);
    buffer.spoil(2, "loss mark 2, the answer");
    judge.start(RIGHT, 8000, 1);
    buffer.spoil(1, "start 3, the answer");
    judge.frame(active, 100, &samples);
    buffer.spoil(4 * 160 + 4, "frame 6, the left answer, of ears that differ");
    judge.start(RIGHT, 8000, 10000);
    judge.frame([None; 2], 100, &samples);
    let clean = judge.end();
    buffer.print();
    clean
}
