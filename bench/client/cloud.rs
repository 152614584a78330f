//! The cloud: particles that wander and are drawn to the one nearest to the target.

use crate::cache::EventCache;
use crate::client::Client;
use crate::common::spelling::put;
use crate::common::MOST_VALUE;
use crate::container::Container;
use crate::job::{
    no_more, towards, whole_param, BadParam, Code, Concluded, Job, Started, Worked, WorkedBy,
};
use crate::random::ElementRandom;

pub struct Cloud {
    particles: u32,
    spread: i64,
    reseed: u32,
    far: u64,
}

#[derive(Clone, Copy)]
pub struct Particle {
    number: u32,
    x: i64,
    y: i64,
}

pub struct Target {
    x: i64,
    y: i64,
}

/// The best particle of a pass. The lesser distance is the better one, then the lesser number.
#[derive(Clone, Copy)]
pub struct Best {
    distance: u64,
    particle: Particle,
}

impl Cloud {
    /// By how much a particle moves along one coordinate.
    #[inline]
    fn offset(&self, random: &mut ElementRandom) -> i64 {
        let side = 2 * self.spread as u64 + 1;
        (random.get_random() % side) as i64 - self.spread
    }

    /// A particle after a random step inside the circle, or where it was after 8 steps outside.
    #[inline]
    fn stepped(&self, particle: Particle, random: &mut ElementRandom) -> Particle {
        for _ in 0..8 {
            let dx = self.offset(random);
            let dy = self.offset(random);
            if dx * dx + dy * dy <= self.spread * self.spread {
                return Particle {
                    x: (particle.x + dx).clamp(-MOST_VALUE, MOST_VALUE),
                    y: (particle.y + dy).clamp(-MOST_VALUE, MOST_VALUE),
                    ..particle
                };
            }
        }
        particle
    }
}

/// A particle that moved an eighth of the way to the best one, or stayed.
#[inline]
fn drawn(particle: Particle, best: &Option<Best>, random: &mut ElementRandom) -> Particle {
    let stays = random.get_random() % 8 == 0;
    match best {
        Some(best) if !stays => Particle {
            x: towards(particle.x, best.particle.x, 3),
            y: towards(particle.y, best.particle.y, 3),
            ..particle
        },
        _ => particle,
    }
}

#[inline]
fn best_of(particle: Particle, target: &Target) -> Best {
    Best {
        distance: particle.x.abs_diff(target.x) + particle.y.abs_diff(target.y),
        particle,
    }
}

impl Best {
    #[inline]
    fn rank(&self) -> (u64, u32) {
        (self.distance, self.particle.number)
    }
}

impl Job for Cloud {
    const NUMBER: u16 = 2;

    /// The number of finished cycles.
    type Globals = u32;

    type Element = Particle;

    type Plan = Target;

    /// None where there is no particle.
    type Part = Option<Best>;

    fn make(params: &[i64], _events: usize) -> Result<Cloud, BadParam> {
        let cloud = Cloud {
            particles: whole_param(params, 0, 1, 65_536)? as u32,
            spread: whole_param(params, 1, 1, 1_000_000)?,
            reseed: whole_param(params, 2, 0, 1_000_000)? as u32,
            far: whole_param(params, 3, 0, 4 * MOST_VALUE)? as u64,
        };
        no_more(params, 4)?;
        Ok(cloud)
    }

    fn start(&self, _client: &mut Client) -> Started<u32, Particle> {
        let particle = |number| Particle { number, x: 0, y: 0 };
        Started {
            globals: 0,
            elements: (0..self.particles).map(particle).collect(),
        }
    }

    fn prepare(
        &self,
        _globals: &u32,
        _elements: &Container<Particle>,
        cache: &EventCache,
        client: &mut Client,
    ) -> Result<Target, Code> {
        if cache.newest(2).is_some_and(|hold| hold < 0) {
            return Err(1);
        }
        if self.reseed != 0 && client.cycle() % self.reseed == 0 {
            let seed = client.get_random();
            client.set_random_seed(seed);
        }
        Ok(Target {
            x: cache.newest(0).unwrap_or(0),
            y: cache.newest(1).unwrap_or(0),
        })
    }

    fn passes(&self, _plan: &Target) -> u8 {
        2
    }

    fn unit(&self) -> Option<Best> {
        None
    }

    #[inline]
    fn run(
        &self,
        plan: &Target,
        carry: &Option<Best>,
        pass: u8,
        element: &Particle,
        random: &mut ElementRandom,
    ) -> Result<WorkedBy<Cloud>, Code> {
        let element = if pass == 0 {
            self.stepped(*element, random)
        } else {
            drawn(*element, carry, random)
        };
        Ok(Worked {
            element,
            part: Some(best_of(element, plan)),
        })
    }

    #[inline]
    fn merge(&self, left: Option<Best>, right: Option<Best>) -> Option<Best> {
        match (left, right) {
            (Some(left), Some(right)) if right.rank() < left.rank() => Some(right),
            (left, right) => left.or(right),
        }
    }

    /// Number and coordinates, 20 bytes.
    #[inline]
    fn put_element(&self, element: &Particle, out: &mut Vec<u8>) {
        let mut bytes = [0; 20];
        bytes[..4].copy_from_slice(&element.number.to_be_bytes());
        bytes[4..12].copy_from_slice(&element.x.to_be_bytes());
        bytes[12..].copy_from_slice(&element.y.to_be_bytes());
        put(bytes, out);
    }

    fn conclude(
        &self,
        globals: &u32,
        _plan: &Target,
        part: Option<Best>,
    ) -> Result<Concluded<u32>, Code> {
        let best = part.expect("a cloud has a particle");
        if best.distance > self.far {
            return Err(2);
        }
        let globals = globals.saturating_add(1);
        let mut output = Vec::with_capacity(32);
        put(best.particle.number.to_be_bytes(), &mut output);
        put(best.particle.x.to_be_bytes(), &mut output);
        put(best.particle.y.to_be_bytes(), &mut output);
        put(best.distance.to_be_bytes(), &mut output);
        put(globals.to_be_bytes(), &mut output);
        Ok(Concluded { globals, output })
    }
}
