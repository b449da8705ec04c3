// The rival of the verdict: the pipeline of `bench pipeline` (`ahead`) and the four plans of `examples/verdicts`, of which the one
// named ahead there is `ahead256` here, unfolded into a graph of events and played out.
// rustc -O benches/unfolded.rs -o /tmp/unfolded && /tmp/unfolded
use std::time::Instant;

const TASKS: usize = 32;
const WORDS: usize = 65536;

// An event by its number: start and finish of each word of each task, in order.
fn event(task: usize, place: usize, side: usize) -> usize {
    (task * WORDS + place) * 2 + side
}

// Where a link's target stands: so many words further on, or at the beginning of the next block of so many words.
#[derive(Clone, Copy)]
enum Target {
    Further(usize),
    NextBlock(usize),
}

impl Target {
    fn of(self, place: usize) -> usize {
        match self {
            Target::Further(by) => place + by,
            Target::NextBlock(size) => place / size * size + size,
        }
    }
}

const SAME: Target = Target::Further(0);

// A link: from task and side, to task and side, and where its targets stand.
type Link = (usize, usize, usize, usize, Target);

// Builds the graph of all events, posts ready ones until none is ready, and counts them.
fn play(links: &[Link]) -> usize {
    let events = TASKS * WORDS * 2;
    let mut first = vec![0u32; events + 1];
    let mut waits = vec![0u32; events];
    let mut edges: Vec<(u32, u32)> = Vec::with_capacity(events + links.len() * WORDS);
    for task in 0..TASKS {
        for place in 0..WORDS {
            edges.push((event(task, place, 0) as u32, event(task, place, 1) as u32));
            if place + 1 < WORDS {
                edges.push((event(task, place, 1) as u32, event(task, place + 1, 0) as u32));
            }
        }
    }
    for &(from, from_side, to, to_side, targets) in links {
        for place in 0..WORDS {
            let target = targets.of(place);
            if target < WORDS {
                edges.push((event(from, place, from_side) as u32, event(to, target, to_side) as u32));
            }
        }
    }
    for &(from, to) in &edges {
        first[from as usize + 1] += 1;
        waits[to as usize] += 1;
    }
    for e in 0..events {
        first[e + 1] += first[e];
    }
    let mut next = first.clone();
    let mut targets = vec![0u32; edges.len()];
    for &(from, to) in &edges {
        targets[next[from as usize] as usize] = to;
        next[from as usize] += 1;
    }
    let mut ready: Vec<u32> = (0..events as u32).filter(|&e| waits[e as usize] == 0).collect();
    let mut posted = 0;
    while let Some(e) = ready.pop() {
        posted += 1;
        for i in first[e as usize]..first[e as usize + 1] {
            let to = targets[i as usize] as usize;
            waits[to] -= 1;
            if waits[to] == 0 {
                ready.push(to as u32);
            }
        }
    }
    posted
}

fn main() {
    let back = |targets: Target| (0..31).map(move |t| (t + 1, 1, t, 0, targets));
    let chain: Vec<Link> = (0..31).map(|t| (t, 1, t + 1, 0, SAME)).collect();
    let ahead: Vec<Link> = chain.iter().copied().chain(back(Target::Further(4))).collect();
    let ahead256: Vec<Link> = chain.iter().copied().chain(back(Target::NextBlock(256))).collect();
    let mut wide: Vec<Link> = chain.iter().copied().chain((0..31).map(|t| (t, 0, t + 1, 0, SAME))).collect();
    wide.push((0, 1, 2, 1, SAME));
    wide.push((1, 1, 3, 1, SAME));
    let steps: Vec<Link> = (0..31).map(|t| (t, 0, t + 1, 0, SAME)).chain((0..31).map(|t| (t + 1, 0, t, 1, SAME))).collect();
    for (name, links) in [("chain", chain), ("ahead", ahead), ("ahead256", ahead256), ("wide", wide), ("steps", steps)] {
        let start = Instant::now();
        let posted = play(&links);
        println!("{name}: {posted} events, {} ns an event", start.elapsed().as_nanos() / posted as u128);
    }
}
