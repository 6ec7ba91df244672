//! What is timed: jobs that take turns with the yardstick, of each of which the quickest turn counts.

use crate::clock::processor_time;
use crate::pictures::{self, Planes, Read, Shape, Write};
use std::rc::Rc;

/// What is done with a frame: it reads the source planes and writes the output planes.
pub trait Work {
    /// Before each turn, outside of the time.
    fn prepare(&mut self) {}
    fn convert(&mut self, shape: &Shape, from: Read, to: Write);
}

impl<F: FnMut(&Shape, Read, Write)> Work for F {
    fn convert(&mut self, shape: &Shape, from: Read, to: Write) {
        self(shape, from, to)
    }
}

pub struct Job {
    pub shape: Shape,
    pub source: Rc<Planes>,
    pub work: Box<dyn Work>,
}

struct Timed {
    job: Job,
    /// Frames in a turn: small ones go many times, so that the clock's grain does not show.
    frames: usize,
    /// Seconds that a frame took in the quickest turn.
    quickest: f64,
}

/// A job by its number in the list.
#[derive(Clone, Copy, PartialEq, Eq)]
pub struct Ticket(usize);

/// The jobs in the order in which they take their turns, and the planes that they write to. The first one is the yardstick.
#[derive(Default)]
pub struct Jobs {
    list: Vec<Timed>,
    planes: Vec<Planes>,
}

pub const YARDSTICK: Ticket = Ticket(0);
/// Seconds from which a frame is dear.
const DEAR: f64 = 5e-3;
const TURNS_OF_CHEAP: usize = 5;
const PIXELS_IN_A_TURN: usize = 1 << 18;

impl Jobs {
    pub fn add(&mut self, job: Job) -> Ticket {
        let frames = (PIXELS_IN_A_TURN / job.shape.pixels()).max(1);
        self.list.push(Timed { job, frames, quickest: f64::INFINITY });
        Ticket(self.list.len() - 1)
    }

    /// What a job gives, in planes that held something else before.
    pub fn result(&mut self, ticket: Ticket) -> Planes {
        let job = &mut self.list[ticket.0].job;
        let mut planes = pictures::filled(job.shape.output_length());
        job.work.convert(&job.shape, pictures::to_read(&job.source), pictures::to_write(&mut planes));
        planes
    }

    /// Every job so many times, cheap ones more often, and the yardstick once more before every tenth.
    pub fn take_turns(&mut self, turns: usize) {
        for _ in 0..turns {
            for number in 0..self.list.len() {
                if number % 10 == 0 {
                    self.take_turn(YARDSTICK);
                }
                self.take_turn(Ticket(number));
                if self.list[number].quickest < DEAR {
                    (1..TURNS_OF_CHEAP).for_each(|_| self.take_turn(Ticket(number)));
                }
            }
        }
    }

    /// What `take_turns` does, in words.
    pub fn rule(turns: usize) -> String {
        format!(
            "the quickest of {} turns, and of {} where a frame takes less than {} ms",
            turns,
            TURNS_OF_CHEAP * turns,
            DEAR * 1e3
        )
    }

    fn take_turn(&mut self, ticket: Ticket) {
        let timed = &mut self.list[ticket.0];
        let Job { shape, source, work } = &mut timed.job;
        let planes = planes_of(&mut self.planes, shape.output_length());
        pictures::fill(planes);
        work.prepare();
        let start = processor_time();
        for _ in 0..timed.frames {
            work.convert(shape, pictures::to_read(source), pictures::to_write(planes));
        }
        let took = (processor_time() - start) / timed.frames as f64;
        timed.quickest = timed.quickest.min(took);
    }

    pub fn seconds(&self, ticket: Ticket) -> f64 {
        self.list[ticket.0].quickest
    }

    pub fn seconds_per_pixel(&self, ticket: Ticket) -> f64 {
        self.seconds(ticket) / self.shape(ticket).pixels() as f64
    }

    pub fn shape(&self, ticket: Ticket) -> Shape {
        self.list[ticket.0].job.shape
    }
}

/// The planes of that length, which all jobs of a shape share.
fn planes_of(all: &mut Vec<Planes>, length: usize) -> &mut Planes {
    let place = all.iter().position(|planes| planes[0].len() == length).unwrap_or_else(|| {
        all.push(pictures::filled(length));
        all.len() - 1
    });
    &mut all[place]
}
