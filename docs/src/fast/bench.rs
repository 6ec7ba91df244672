//! The jobs and the rows that show them, with the pictures that they share.

use crate::claims::Claim;
use crate::converters::{by_box, by_plain, judge_by_box, judge_by_plain};
use crate::jobs::{Job, Jobs, Ticket, Work, YARDSTICK};
use crate::pictures::{self, Planes, Read, Shape, Write};
use crate::setting::{Setting, Way};
use crate::table::{self, Goal, Row};
use std::rc::Rc;

pub const LARGE: Shape = Shape::packed(1920, 1080);

pub const SHAPES: [(&str, Shape); 5] = [
    ("1 by 8,192", Shape::packed(1, 8192)),
    ("8,192 by 1", Shape::packed(8192, 1)),
    ("1,920 by 1,080, strides 2,048", Shape { source_stride: 2048, output_stride: 2048, ..LARGE }),
    ("1,920 by 1,080, output stride 3,840", Shape { output_stride: 3840, ..LARGE }),
    ("1,920 by 1,080, source stride 16,384", Shape { source_stride: 16_384, ..LARGE }),
];

/// A frame that the box converts, and its job.
#[derive(Clone)]
pub struct Frame {
    setting: Setting,
    way: Way,
    shape: Shape,
    source: Rc<Planes>,
    pub ticket: Ticket,
}

#[derive(Default)]
pub struct Bench {
    jobs: Jobs,
    frames: Vec<Frame>,
    rows: Vec<Row>,
    pictures: Vec<(usize, [u8; 3], Rc<Planes>)>,
}

impl Bench {
    /// Random samples for the sources of a shape.
    pub fn random(&mut self, shape: Shape, depths: [u8; 3]) -> Rc<Planes> {
        let length = shape.source_length();
        if let Some((_, _, planes)) = self.pictures.iter().find(|(l, d, _)| (*l, *d) == (length, depths)) {
            return Rc::clone(planes);
        }
        let planes = Rc::new(pictures::random(length, depths));
        self.pictures.push((length, depths, Rc::clone(&planes)));
        planes
    }

    pub fn job(&mut self, shape: Shape, source: Rc<Planes>, work: impl Work + 'static) -> Ticket {
        self.jobs.add(Job { shape, source, work: Box::new(work) })
    }

    /// A job at a setting. Its frame is held to the plain converter's, so that no wrong one is measured.
    pub fn job_at(&mut self, s: Setting, way: Way, shape: Shape, source: Rc<Planes>, work: impl Work + 'static) -> Ticket {
        let expected = self.answer(&s, way, shape, &source);
        let ticket = self.job(shape, source, work);
        assert!(self.jobs.result(ticket) == expected, "a frame differs from the plain converter's: {:?}, {:?}", s, way);
        ticket
    }

    pub fn box_job(&mut self, s: Setting, way: Way, shape: Shape, source: Rc<Planes>) -> Ticket {
        let ticket = self.job_at(s, way, shape, source.clone(), move |shape: &Shape, from: Read, to: Write| {
            by_box(&s, way, shape, from, to).expect("a frame that the box accepts")
        });
        self.frames.push(Frame { setting: s, way, shape, source, ticket });
        ticket
    }

    /// A frame that has its job already.
    pub fn converted(&self, s: Setting, way: Way, shape: Shape) -> Frame {
        let wanted = |frame: &&Frame| (frame.setting, frame.way, frame.shape) == (s, way, shape);
        self.frames.iter().find(wanted).expect("a frame that the box converts").clone()
    }

    /// Judges a claim on the frame's source. The judgement is held to the plain converter's, before the turns and in each of them.
    pub fn judge_job(&mut self, frame: &Frame, claim: Claim) -> Ticket {
        let Frame { setting: s, way, shape, source, .. } = frame.clone();
        let claimed = claim.of(self.answer(&s, way, shape, &source), &shape);
        let expected = judge_by_plain(&s, way, &shape, pictures::to_read(&source), pictures::to_read(&claimed));
        let ticket = self.job(shape.only_read(), source, move |_: &Shape, from: Read, _: Write| {
            let judged = judge_by_box(&s, way, &shape, from, pictures::to_read(&claimed));
            assert!(judged == expected, "a judgement differs from the plain converter's: {:?}, {:?}", s, way);
        });
        self.jobs.result(ticket);
        ticket
    }

    pub fn plain_job(&mut self, s: Setting, way: Way, shape: Shape, source: Rc<Planes>) -> Ticket {
        self.job_at(s, way, shape, source, move |shape: &Shape, from: Read, to: Write| {
            by_plain(&s, way, shape, from, to).expect("a frame that the plain converter accepts")
        })
    }

    /// The plain converter's frame.
    pub fn answer(&self, s: &Setting, way: Way, shape: Shape, source: &Planes) -> Planes {
        let mut planes = pictures::filled(shape.output_length());
        by_plain(s, way, &shape, pictures::to_read(source), pictures::to_write(&mut planes)).expect("a frame that is accepted");
        planes
    }

    pub fn row(&mut self, name: &str, ticket: Ticket, goal: Option<Goal>) {
        self.row_of_many(name, vec![(String::new(), ticket)], goal);
    }

    pub fn row_of_many(&mut self, name: &str, jobs: Vec<(String, Ticket)>, goal: Option<Goal>) {
        self.rows.push(Row { name: String::from(name), jobs, goal });
    }

    pub fn run(&mut self, turns: usize) {
        self.jobs.take_turns(turns);
    }

    pub fn print(&self) {
        table::print(&self.jobs, &self.rows);
    }
}

/// At most so many times the yardstick.
pub fn at_most(most: f64) -> Option<Goal> {
    Some(Goal { most, of: YARDSTICK, called: "" })
}

pub fn at_most_of(most: f64, of: Ticket, called: &'static str) -> Option<Goal> {
    Some(Goal { most, of, called })
}
