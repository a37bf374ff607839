//! The clauses of refusal 12, each judged by itself on any record.

use crate::request::{Request, Step};
use drift_reference::post::Post;

pub struct Clause {
    pub name: &'static str,
    /// Whether lane and sets can break it, which is all that a fresh post has.
    pub is_of_fresh: bool,
    pub is_broken: fn(&Post) -> bool,
}

/// The clauses in the order of document 01.
pub const CLAUSES: [Clause; 13] = [
    Clause::of_fresh("lane", |post| post.lane > 7),
    Clause::new("own serial or last taken", |post| {
        post.serial.0 > 16 || post.last.iter().any(|&last| last > 16)
    }),
    Clause::new("length of the log", |post| post.logged > 128),
    Clause::new("place in the log", |post| {
        used(post).iter().any(|&place| place > 127)
    }),
    Clause::of_fresh("source without a post", |post| {
        post.sources & !post.posts != 0
    }),
    Clause::of_fresh("dest without a post", |post| post.dests & !post.posts != 0),
    Clause::new("own serial is not the last taken", |post| {
        post.lane < 8 && post.serial.0 != post.last[usize::from(post.lane)]
    }),
    Clause::new("order missing", |post| {
        (0..128).any(|place| is_taken(post, place) && post.stamps[place] == 0)
    }),
    Clause::new("stamp beyond", |post| {
        (0..128).any(|place| !is_taken(post, place) && post.stamps[place] != 0)
    }),
    Clause::new("word beyond", |post| {
        (0..128).any(|place| !is_taken(post, place) && post.words[place] != 0)
    }),
    Clause::new("log repeats", |post| {
        let log = used(post);
        (1..log.len()).any(|index| log[..index].contains(&log[index]))
    }),
    Clause::new("log has one not taken", |post| {
        let is_not_taken = |&place: &u8| place < 128 && !is_taken(post, place.into());
        used(post).iter().any(is_not_taken)
    }),
    Clause::new("unused place of the log", |post| {
        post.log[used(post).len()..].iter().any(|&place| place != 0)
    }),
];

/// Where the range of a clause ends.
pub struct End {
    pub clause: usize,
    pub least_bad: (&'static str, fn(&Post) -> bool),
    pub largest_good: (&'static str, fn(&Post) -> bool),
}

pub const ENDS: [End; 4] = [
    End {
        clause: 0,
        least_bad: ("lane 8", |post| post.lane == 8),
        largest_good: ("lane 7", |post| post.lane == 7),
    },
    End {
        clause: 1,
        least_bad: ("last taken 17", |post| {
            post.last.iter().max() == Some(&17) && post.serial.0 < 18
        }),
        largest_good: ("last taken 16", |post| post.last.contains(&16)),
    },
    End {
        clause: 2,
        least_bad: ("log of 129", |post| post.logged == 129),
        largest_good: ("log of 128", |post| post.logged == 128),
    },
    End {
        clause: 3,
        least_bad: ("place 128", |post| used(post).iter().max() == Some(&128)),
        largest_good: ("place 127", |post| used(post).contains(&127)),
    },
];

impl Clause {
    const fn new(name: &'static str, is_broken: fn(&Post) -> bool) -> Clause {
        Clause {
            name,
            is_of_fresh: false,
            is_broken,
        }
    }

    const fn of_fresh(name: &'static str, is_broken: fn(&Post) -> bool) -> Clause {
        Clause {
            name,
            is_of_fresh: true,
            is_broken,
        }
    }

    /// Whether a step judges it and so can be refused by it.
    pub fn is_judged_at(&self, step: Step) -> bool {
        self.is_of_fresh || step != Step::Fresh
    }
}

fn used(post: &Post) -> &[u8] {
    &post.log[..usize::from(post.logged.min(128))]
}

pub fn is_taken(post: &Post, place: usize) -> bool {
    place % 16 < usize::from(post.last[place / 16])
}

/// The record that is judged: the one lent or, for a fresh post, the one to be.
pub fn judged_record(request: &Request) -> Post {
    match request.step {
        Step::Fresh => fresh_record(request.asked),
        _ => request.post.clone(),
    }
}

/// The record of a fresh post, good or not.
pub fn fresh_record([lane, posts, sources, dests]: [u8; 4]) -> Post {
    Post {
        lane,
        posts,
        sources,
        dests,
        ..Post::EMPTY
    }
}

/// The number of the one clause that a record breaks; nothing if it breaks none
/// or more than one.
pub fn broken_alone(post: &Post) -> Option<usize> {
    let mut broken = (0..CLAUSES.len()).filter(|&index| (CLAUSES[index].is_broken)(post));
    let first = broken.next()?;
    broken.next().is_none().then_some(first)
}
