//! Replicas that hear of the same processors in drawn orders.

use rcu::replica::{Answer, Refused, Replica};

/// Drawn numbers, the same in each run.
struct Draws(u64);

impl Draws {
    fn below(&mut self, end: usize) -> usize {
        self.0 ^= self.0 << 13;
        self.0 ^= self.0 >> 7;
        self.0 ^= self.0 << 17;
        (self.0 % end as u64) as usize
    }
}

#[test]
fn replicas_end_where_all_were_heard_in_whatever_order() {
    let (cpus, mut draws) = (130, Draws(7));
    let mut replicas = [Replica::open(cpus).unwrap(), Replica::open(cpus).unwrap()];
    for round in 0..50 {
        let set: Vec<u32> = (0..cpus).filter(|_| draws.below(3) > 0).collect();
        let number = replicas[0].begin(set.iter().copied()).unwrap();
        assert_eq!(number, 4 * round + 1);
        assert_eq!(replicas[1].begin(set.iter().copied()), Ok(number));
        let mut awaited = set.clone();
        while !awaited.is_empty() {
            let cpu = awaited.swap_remove(draws.below(awaited.len()));
            let heard = draws.below(2);
            let told = replicas[heard].report(cpu, number).unwrap();
            assert!(matches!(told, Answer::Taken | Answer::Last));
            assert_eq!(replicas[heard].report(cpu, number), Ok(Answer::Repeat));
            assert_eq!(
                replicas[1 - heard].report(cpu, number + 4),
                Ok(Answer::Stale)
            );
        }
        let [one, other] = &mut replicas;
        one.merge(other).unwrap();
        other.merge(one).unwrap();
        for it in [one, other] {
            assert_eq!(it.awaited(), []);
            assert_eq!(it.end(), Ok(number + 3));
        }
    }
}

#[test]
fn a_refused_call_says_why_and_changes_nothing() {
    let (mut one, mut other) = (Replica::open(65).unwrap(), Replica::open(65).unwrap());
    assert!(Replica::open(0).is_err() && Replica::open(4097).is_err());
    assert_eq!(one.end(), Err(Refused::Idle));
    assert_eq!(one.begin([65]), Err(Refused::BadCpu));
    let number = one.begin([0, 64]).unwrap();
    assert_eq!(one.begin([0]), Err(Refused::Running));
    assert_eq!(one.depart(0), Err(Refused::BootStays));
    assert_eq!(one.depart(65), Err(Refused::BadCpu));
    assert_eq!(one.report(65, number), Err(Refused::BadCpu));
    other.begin([0]).unwrap();
    assert_eq!(one.merge(&mut other), Err(Refused::NotAlike));
    one.depart(64).unwrap();
    assert_eq!(one.end(), Err(Refused::Waiting));
    assert_eq!(one.awaited(), [0]);
}
