//! The cloud: particles that wander and are drawn to the one nearest to the target.

use crate::common::profile::Profile;
use crate::common::random_words::{Streams, Words};
use crate::common::spelling::put;
use crate::common::MOST_VALUE;
use crate::jobs::{Cycle, Job, Refusal};

#[derive(Clone, Copy, Default)]
struct Particle {
    x: i64,
    y: i64,
    draws: u32,
}

/// The best particle of a pass. The lesser distance is the better one, then the lesser number.
#[derive(Clone, Copy, PartialEq, Eq, PartialOrd, Ord)]
struct Best {
    distance: i64,
    number: u32,
    x: i64,
    y: i64,
}

pub struct Cloud {
    spread: i64,
    reseed: i64,
    far: i64,
    seed: u64,
    finished: u32,
    particles: Vec<Particle>,
    /// The particles of the cycle under way.
    moved: Vec<Particle>,
}

impl Cloud {
    pub fn new(profile: &Profile) -> Cloud {
        let count = profile.params[0] as usize;
        Cloud {
            spread: profile.params[1],
            reseed: profile.params[2],
            far: profile.params[3],
            seed: profile.seed,
            finished: 0,
            particles: vec![Particle::default(); count],
            moved: Vec::with_capacity(count),
        }
    }

    /// A particle after a random step inside the circle.
    fn stepped(&self, particle: Particle, mut words: Words) -> Particle {
        let side = 2 * self.spread as u64 + 1;
        for tries in 1..=8 {
            let dx = (words.next() % side) as i64 - self.spread;
            let dy = (words.next() % side) as i64 - self.spread;
            if dx * dx + dy * dy <= self.spread * self.spread {
                return Particle {
                    x: (particle.x + dx).clamp(-MOST_VALUE, MOST_VALUE),
                    y: (particle.y + dy).clamp(-MOST_VALUE, MOST_VALUE),
                    draws: 2 * tries,
                };
            }
        }
        Particle {
            draws: 16,
            ..particle
        }
    }

    /// Both passes: the particles into `moved`. Answers the best of them.
    fn move_all(&mut self, streams: Streams, tx: i64, ty: i64) -> Best {
        let mut moved = std::mem::take(&mut self.moved);
        moved.clear();
        let numbered = (0..).zip(&self.particles);
        moved.extend(numbered.map(|(n, &particle)| self.stepped(particle, streams.element(0, n))));
        let nearest = best_of(&moved, tx, ty);
        for (n, particle) in (0..).zip(&mut moved) {
            *particle = Cloud::drawn(*particle, nearest, streams.element(1, n));
        }
        self.moved = moved;
        best_of(&self.moved, tx, ty)
    }

    /// A particle that moved an eighth of the way to the best one, or stayed.
    fn drawn(particle: Particle, best: Best, mut words: Words) -> Particle {
        let draws = particle.draws + 1;
        if words.next() % 8 == 0 {
            return Particle { draws, ..particle };
        }
        Particle {
            x: particle.x + ((best.x - particle.x) >> 3),
            y: particle.y + ((best.y - particle.y) >> 3),
            draws,
        }
    }
}

fn best_of(particles: &[Particle], tx: i64, ty: i64) -> Best {
    let ranked = (0..)
        .zip(particles)
        .map(|(number, &Particle { x, y, .. })| Best {
            distance: (x - tx).abs() + (y - ty).abs(),
            number,
            x,
            y,
        });
    ranked.min().expect("a cloud has a particle")
}

impl Job for Cloud {
    const NUMBER: u16 = 2;

    fn count(&self) -> u32 {
        self.particles.len() as u32
    }

    fn put_element(&self, element: u32, bytes: &mut Vec<u8>) {
        let particle = self.particles[element as usize];
        put(element.to_be_bytes(), bytes);
        put(particle.x.to_be_bytes(), bytes);
        put(particle.y.to_be_bytes(), bytes);
    }

    fn draws(&self, element: u32) -> u32 {
        self.particles[element as usize].draws
    }

    fn run(&mut self, cycle: &Cycle, output: &mut Vec<u8>) -> Result<(), Refusal> {
        let newest = |event: usize| cycle.newest.get(event).copied().flatten();
        if newest(2).is_some_and(|hold| hold < 0) {
            return Err(Refusal::Prepare { code: 1 });
        }
        let is_reseeded = self.reseed != 0 && i64::from(cycle.number) % self.reseed == 0;
        let seed = if is_reseeded {
            Streams::new(self.seed, cycle.number).own().next()
        } else {
            self.seed
        };
        let (tx, ty) = (newest(0).unwrap_or(0), newest(1).unwrap_or(0));
        let streams = Streams::new(seed, cycle.number);

        let best = self.move_all(streams, tx, ty);
        if best.distance > self.far {
            return Err(Refusal::Conclude { code: 2 });
        }
        std::mem::swap(&mut self.particles, &mut self.moved);
        self.seed = seed;
        self.finished = self.finished.saturating_add(1);
        put(best.number.to_be_bytes(), output);
        put(best.x.to_be_bytes(), output);
        put(best.y.to_be_bytes(), output);
        put(best.distance.to_be_bytes(), output);
        put(self.finished.to_be_bytes(), output);
        Ok(())
    }
}
