//! The rounds of collectives: worked rows, results on texts, and numbers that name nothing.

use cubejobs::rounds::{Collective, CollectiveError, Message, Shape, Step, MAX_DIM};

const SHAPES: [Shape; 4] = [Shape::Broadcast, Shape::Reduce, Shape::AllReduce, Shape::Scan];

fn collective(shape: Shape, dim: u32, root: u64) -> Collective {
    Collective::new(shape, dim, root).unwrap()
}

/// Runs a collective by its steps on one letter of each rank. Returns the totals and the prefixes.
fn run(of: Collective, shape: Shape, ranks: u64) -> (Vec<String>, Vec<String>) {
    let letters: Vec<String> = (b'a'..).map(|it| char::from(it).to_string()).take(ranks as usize).collect();
    let (mut totals, mut prefixes) = (letters.clone(), letters);
    for round in 0..of.rounds() {
        let sent = totals.clone();
        for rank in 0..ranks {
            let Some(from) = of.step(rank, round).unwrap().from else { continue };
            let (own, got) = (&sent[rank as usize], &sent[from as usize]);
            let joined = if rank < from { format!("{own}{got}") } else { format!("{got}{own}") };
            if from < rank {
                prefixes[rank as usize].insert_str(0, got);
            }
            totals[rank as usize] = if shape == Shape::Broadcast { got.clone() } else { joined };
        }
    }
    (totals, prefixes)
}

#[test]
fn worked_rows_of_a_broadcast_and_a_reduction() {
    let rows = [(0, 2, 3), (1, 2, 0), (1, 3, 1)].map(|(round, from, to)| Message { round, from, to });
    assert!(collective(Shape::Broadcast, 2, 2).messages().eq(rows));
    let rows = [(0, 0, 1), (0, 2, 3), (1, 3, 1)].map(|(round, from, to)| Message { round, from, to });
    assert!(collective(Shape::Reduce, 2, 1).messages().eq(rows));
    let both = Step { round: 1, to: Some(0), from: Some(0) };
    assert_eq!(collective(Shape::AllReduce, 2, 0).steps(2).next_back(), Some(both));
}

#[test]
fn results_are_in_the_order_of_the_ranks() {
    for root in 0..8 {
        let (all, letter) = ("abcdefgh", char::from(b'a' + root as u8).to_string());
        let (sent, _) = run(collective(Shape::Broadcast, 3, root), Shape::Broadcast, 8);
        assert!(sent.iter().all(|it| *it == letter));
        let (totals, _) = run(collective(Shape::Reduce, 3, root), Shape::Reduce, 8);
        assert_eq!(totals[root as usize], all);
        let (totals, prefixes) = run(collective(Shape::Scan, 3, root), Shape::Scan, 8);
        assert!(totals.iter().all(|it| it == all));
        assert!(prefixes.iter().zip(1..).all(|(it, length)| *it == all[..length]));
    }
}

#[test]
fn steps_are_the_messages() {
    for (shape, dim) in SHAPES.into_iter().flat_map(|shape| (0..6).map(move |dim| (shape, dim))) {
        for root in 0..1 << dim {
            let of = collective(shape, dim, root);
            let mut list: Vec<Message> = of.messages().collect();
            assert_eq!(list.len() as u64, of.message_count());
            let mut sends = Vec::new();
            for from in 0..1 << dim {
                for step in of.steps(from) {
                    sends.extend(step.to.map(|to| Message { round: step.round, from, to }));
                    let partner = step.from.and_then(|it| of.step(it, step.round)).and_then(|it| it.to);
                    assert_eq!(partner, step.from.map(|_| from));
                }
            }
            let key = |it: &Message| (it.round, it.from, it.to);
            sends.sort_by_key(key);
            list.sort_by_key(key);
            assert_eq!(sends, list);
        }
    }
}

#[test]
fn bad_numbers_name_nothing() {
    for shape in SHAPES {
        assert_eq!(Collective::new(shape, MAX_DIM + 1, u64::MAX), Err(CollectiveError::BadDimension));
        assert_eq!(Collective::new(shape, 3, 8), Err(CollectiveError::BadRoot));
        let of = collective(shape, 3, 7);
        assert_eq!((of.step(8, 0), of.step(0, 3), of.steps(8).count()), (None, None, 0));
        assert_eq!(of.message(of.message_count()), None);
        assert_eq!(of.steps(7).len(), 3);
        let none = collective(shape, 0, 0);
        assert_eq!((none.messages().next(), none.steps(0).next()), (None, None));
    }
    let large = collective(Shape::Scan, MAX_DIM, 0);
    assert_eq!(large.messages().next_back(), large.message(large.message_count() - 1));
    assert_eq!(CollectiveError::BadDimension.to_string(), "the dimension is past 31");
    assert_eq!(CollectiveError::BadRoot.to_string(), "the root is no rank");
}
