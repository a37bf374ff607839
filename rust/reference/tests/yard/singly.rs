//! The yard against posts run singly, which judge every record and frame.

use super::{Answer, Random, Step};
use drift_reference::post::{HearAnswer, Post};
use drift_reference::yard::Yard;

/// Single posts and the frames that they have broadcast.
struct Singles {
    posts: Vec<Post>,
    frames: Vec<[u8; 32]>,
    beacons: [u16; 8],
}

impl Singles {
    fn of(yard: &Yard) -> Singles {
        Singles {
            posts: yard.posts.to_vec(),
            frames: Vec::new(),
            beacons: [0; 8],
        }
    }

    /// Runs a step other than a roll call, with lane and word in their ranges.
    fn run(&mut self, step: Step) -> Result<Answer, u8> {
        let mut buffer = [0; 32];
        let answer = match step {
            Step::Order(lane, word) => {
                let post = &mut self.posts[lane];
                Answer::Order(post.order(word as u16, &mut buffer)?)
            }
            Step::Hear(lane, frame) => {
                let post = &mut self.posts[lane];
                let frame = *self.frames.get(frame).ok_or(25)?;
                let answer = post.hear(&frame, &mut buffer)?;
                if !matches!(answer, HearAnswer::Taken(_)) {
                    return Ok(Answer::Heard(answer));
                }
                Answer::Heard(answer)
            }
            Step::Beacon(lane) => {
                self.posts[lane].beacon(&mut buffer)?;
                if self.beacons[lane] == 128 {
                    return Err(27);
                }
                self.beacons[lane] += 1;
                Answer::Sent
            }
            Step::Roll => unreachable!("only single steps"),
        };
        self.frames.push(buffer);
        Ok(answer)
    }
}

/// Whether single posts can run the step and 21 does not come before 25.
fn fits(step: Step, yard: &Yard) -> bool {
    let is_there = |lane: usize| lane < 8 && yard.present >> lane & 1 == 1;
    match step {
        Step::Order(lane, word) => lane < 8 && word < 65_536,
        Step::Hear(lane, _) => is_there(lane),
        Step::Beacon(lane) => lane < 8,
        Step::Roll => false,
    }
}

#[test]
fn random_steps_do_the_same() {
    let mut random = Random(77);
    for _ in 0..60 {
        let mut world = random.world();
        let mut singles = Singles::of(&world.yard);
        for _ in 0..400 {
            let step = random.step(&world);
            if fits(step, &world.yard) {
                assert_eq!(world.run(step), singles.run(step), "{step:?}");
            }
        }
        assert_eq!(world.yard.posts[..], singles.posts);
        assert_eq!(usize::from(world.yard.frames), singles.frames.len());
        assert_eq!(world.yard.beacons, singles.beacons);
        for (frame, bytes) in singles.frames.iter().enumerate() {
            assert_eq!(world.place(frame), bytes);
        }
        assert!(world.yard.posts.iter().all(|post| post.judge() == Ok(())));
    }
}
