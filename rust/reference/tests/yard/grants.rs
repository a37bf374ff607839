//! Request K2's promise: in lists of steps without a roll call the beacons of one
//! post do not alter which beacons another is granted.

use super::{Answer, Random, Step, World};

/// The longest row of beacons that is put into a list at once.
const LONGEST_ROW: usize = 90;

/// A list of steps without a roll call, rows of beacons and refused steps in it.
fn list(random: &mut Random, fresh: &World) -> Vec<Step> {
    let mut world = fresh.clone();
    let mut steps = Vec::new();
    for _ in 0..60 {
        let more = match (random.below(4), random.step(&world)) {
            (_, Step::Roll) => continue,
            (0, _) => row_of_beacons(random, &world),
            (_, step) => vec![step],
        };
        for &step in &more {
            let _ = world.run(step);
        }
        steps.extend(more);
    }
    steps
}

/// Beacons of one lane; seldom one without a post or over 7.
fn row_of_beacons(random: &mut Random, world: &World) -> Vec<Step> {
    let lane = match random.below(10) {
        0 => random.below(10),
        _ => random.one_of(world.yard.present),
    };
    vec![Step::Beacon(lane); 1 + random.below(LONGEST_ROW)]
}

fn is_beacon_of_another(step: Step, lane: usize) -> bool {
    matches!(step, Step::Beacon(other) if other != lane)
}

/// The list with some beacons of other lanes left out and others put in.
fn changed(random: &mut Random, world: &World, lane: usize, steps: &[Step]) -> Vec<Step> {
    let kept_of_4 = random.below(5);
    let added_one_in = [10, 40, 400][random.below(3)];
    let mut list = Vec::new();
    for &step in steps {
        if random.below(added_one_in) == 0 {
            let row = row_of_beacons(random, world).into_iter();
            list.extend(row.filter(|&step| is_beacon_of_another(step, lane)));
        }
        if !is_beacon_of_another(step, lane) || random.below(4) < kept_of_4 {
            list.push(step);
        }
    }
    list
}

/// The answers to the beacon steps of a lane.
fn answers(fresh: &World, lane: usize, steps: &[Step]) -> Vec<Result<Answer, u8>> {
    let mut world = fresh.clone();
    let ran = steps.iter().map(|&step| (step, world.run(step)));
    let own = ran.filter(|(step, _)| matches!(step, Step::Beacon(own) if *own == lane));
    own.map(|(_, answer)| answer).collect()
}

#[test]
fn beacons_of_other_posts_change_no_answer() {
    let mut random = Random(128);
    let (mut sent, mut spent, mut longer, mut shorter) = (0, 0, 0, 0);
    for _ in 0..40 {
        let fresh = random.world();
        let steps = list(&mut random, &fresh);
        for lane in 0..8 {
            let others = changed(&mut random, &fresh, lane, &steps);
            longer += usize::from(others.len() > steps.len());
            shorter += usize::from(others.len() < steps.len());
            let granted = answers(&fresh, lane, &steps);
            assert_eq!(granted, answers(&fresh, lane, &others), "lane {lane}");
            sent += granted.iter().filter(|answer| answer.is_ok()).count();
            spent += granted.iter().filter(|&&answer| answer == Err(27)).count();
        }
    }
    let came = [sent, spent, longer, shorter];
    assert!(came.iter().all(|&count| count >= 50), "{came:?}");
}

/// What holds is more: only the number of the lane's own beacon steps counts.
#[test]
fn the_first_128_beacons_of_a_post_are_granted() {
    let mut random = Random(129);
    for _ in 0..40 {
        let fresh = random.world();
        let steps = list(&mut random, &fresh);
        for lane in 0..10 {
            for (number, answer) in (1..).zip(answers(&fresh, lane, &steps)) {
                let expected = match lane {
                    8.. => Err(4),
                    _ if fresh.yard.present >> lane & 1 == 0 => Err(21),
                    _ if number > 128 => Err(27),
                    _ => Ok(Answer::Sent),
                };
                assert_eq!(answer, expected, "beacon {number} of lane {lane}");
            }
        }
    }
}
