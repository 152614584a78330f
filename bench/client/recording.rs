//! A stimulus, recorded.

use crate::common::profile::{Input, Profile};
use crate::common::program::Failure;
use crate::common::spelling::{put_header, FORMAT};
use crate::common::stimulus::{Place, Stimulus};
use crate::encode::encode_frame;
use crate::engine::Engine;
use crate::frames::Frame;
use crate::job::Job;
use crate::pool::Crew;
use crate::probes::{all_probes, Probe};
use std::fs::File;
use std::io::{self, BufReader, Write};

/// The bytes of a stimulus that are read at a time.
const PIECE: usize = 4_096;

/// An engine, and where its frames go.
struct Recording<J: Job, W> {
    engine: Engine<J>,
    crew: Crew<J>,
    out: W,
    /// The frame that is written.
    bytes: Vec<u8>,
    probes: Vec<Box<dyn Probe>>,
}

impl<J: Job + 'static, W: Write> Recording<J, W> {
    /// Writes the header and the frames before the first cycle.
    fn begin(&mut self, profile: &Profile) -> io::Result<()> {
        put_header(FORMAT, J::NUMBER, profile, &mut self.bytes);
        let init = Frame::Init(self.engine.shown());
        for frame in [Frame::Register, Frame::Discover, init] {
            encode_frame(&frame, &mut self.bytes);
        }
        self.out.write_all(&self.bytes)
    }

    /// Writes a frame, and then shows it to the probes where it is a run.
    fn write(&mut self, frame: &Frame) -> io::Result<()> {
        self.bytes.clear();
        encode_frame(frame, &mut self.bytes);
        self.out.write_all(&self.bytes)?;
        if let Frame::Run(run) = frame {
            self.probes.iter_mut().for_each(|probe| probe.see(run));
        }
        Ok(())
    }

    /// Runs the next cycle, and writes its frame.
    fn run(&mut self, input: Input) -> io::Result<()> {
        let run = self.engine.cycle(&mut self.crew, input);
        self.write(&Frame::Run(run))
    }
}

/// Records a stimulus, up to its end or its bad line.
pub fn record<J: Job + 'static>(
    profile: &Profile,
    workers: usize,
    stimulus: File,
    out: impl Write,
) -> Result<(), Failure> {
    let events = profile.events.len();
    let job = J::make(&profile.params, events)?;
    let mut recording = Recording {
        engine: Engine::start(job, profile),
        crew: Crew::start(workers),
        out,
        bytes: Vec::new(),
        probes: all_probes(),
    };
    recording.begin(profile)?;
    let source = BufReader::with_capacity(PIECE, stimulus);
    let mut stimulus = Stimulus::open(source, events)?;
    let mut input = Input::default();
    while stimulus.next_block(&mut input)? {
        recording.run(std::mem::take(&mut input))?;
    }
    if let Place::BadLine(line) = stimulus.place {
        return Err(Failure::bad_stimulus(line));
    }
    recording.write(&Frame::Terminate)?;
    recording.crew.stop();
    Ok(())
}
