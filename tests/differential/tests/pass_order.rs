//! The order of a pass's work: every order in which the edges rise along each line gives its window.

use differential::passes::Pass;
use differential::positions::{Position, decided, filtered, levelless, step};
use differential::random::Random;
use differential::returned::Returned;
use differential::say;
use std::collections::BTreeMap;

const PASSES: usize = 2_000;

/// Positions line by line, the edges rising along each.
fn lines(positions: &[Position]) -> Vec<Vec<Position>> {
    let mut lines = BTreeMap::<usize, Vec<Position>>::new();
    for at in positions {
        lines.entry(at.i).or_default().push(*at);
    }
    lines.into_values().collect()
}

/// The next position of any line, until there is none.
fn shuffled(random: &mut Random, positions: &[Position]) -> Vec<Position> {
    let mut rest: Vec<_> = lines(positions).into_iter().map(Vec::into_iter).collect();
    let mut order = Vec::new();
    while !rest.is_empty() {
        let k = random.between(0, rest.len() as i64 - 1) as usize;
        match rest[k].next() {
            Some(at) => order.push(at),
            None => drop(rest.swap_remove(k)),
        }
    }
    assert_eq!(order.len(), positions.len());
    order
}

/// Any order at all.
fn unordered(random: &mut Random, positions: &[Position]) -> Vec<Position> {
    let mut order = positions.to_vec();
    for k in (1..order.len()).rev() {
        order.swap(k, random.between(0, k as i64) as usize);
    }
    order
}

fn in_order(pass: &Pass, order: &[Position]) -> Vec<u16> {
    let mut samples = pass.samples.clone();
    order.iter().for_each(|at| step(pass, &mut samples, at));
    samples
}

/// Random passes that are accepted, with what ours makes of them.
fn accepted(random: &mut Random) -> (Pass, Vec<u16>) {
    loop {
        let pass = Pass::random(random);
        if levelless(&pass).is_none() {
            let (returned, after) = pass.ours();
            assert_eq!(returned, Returned { number: 0, place: 0 }, "{}", pass.call());
            return (pass, after);
        }
    }
}

#[test]
fn edge_by_edge() {
    let mut random = Random(25);
    let mut changed = 0;
    for _ in 0..PASSES {
        let (pass, after) = accepted(&mut random);
        let expected = filtered(&pass);
        assert!(after == expected, "{}", pass.difference(&after, &expected));
        changed += usize::from(after != pass.samples);
    }
    assert!(changed >= PASSES / 4, "{changed} of {PASSES} passes change a sample");
}

#[test]
fn rising_along_each_line() {
    let mut random = Random(26);
    for _ in 0..PASSES {
        let (pass, after) = accepted(&mut random);
        let positions = decided(&pass);
        let mut orders = vec![lines(&positions).concat()];
        orders.extend((0..3).map(|_| shuffled(&mut random, &positions)));
        for order in orders {
            let other = in_order(&pass, &order);
            assert!(after == other, "{}", pass.difference(&after, &other));
        }
    }
}

#[test]
fn other_orders_differ() {
    let mut random = Random(27);
    let [mut falling, mut any] = [0; 2];
    for _ in 0..PASSES {
        let (pass, after) = accepted(&mut random);
        let mut order = decided(&pass);
        order.reverse();
        falling += usize::from(in_order(&pass, &order) != after);
        order = unordered(&mut random, &order);
        any += usize::from(in_order(&pass, &order) != after);
    }
    assert!(falling >= PASSES / 20 && any >= PASSES / 20, "{falling}, {any}");
    say(&format!("of {PASSES} passes {falling} differ with falling edges, {any} in any order"));
}
