// The same applies with std's ordered maps.
use std::collections::BTreeMap;

#[derive(Clone)]
enum Operation {
    Register,
    Put(Vec<u8>, Vec<u8>),
    Get(Vec<u8>),
    Delete(Vec<u8>),
}

#[derive(Clone)]
enum Outcome {
    Session,
    Ok,
    Full,
    Absent,
    Value(Vec<u8>),
}

struct Session {
    number: u32,
    op: u64,
    outcome: Outcome,
}

enum Answer {
    Fresh,
    Repeat(Outcome, u64),
    Old,
    Gap,
    Evicted,
}

#[derive(Default)]
struct State {
    sessions: BTreeMap<u64, Session>,
    machine: BTreeMap<Vec<u8>, Vec<u8>>,
}

impl State {
    fn check(&self, client: u64, request: u32) -> Answer {
        match self.sessions.get(&client) {
            Some(s) if request == s.number => Answer::Repeat(s.outcome.clone(), s.op),
            Some(s) if request < s.number => Answer::Old,
            Some(s) if request == s.number + 1 => Answer::Fresh,
            Some(_) => Answer::Gap,
            None if request == 0 => Answer::Fresh,
            None => Answer::Evicted,
        }
    }

    fn change(&mut self, operation: &Operation) -> Outcome {
        match operation {
            Operation::Register => Outcome::Session,
            Operation::Put(key, value) => {
                if let Some(old) = self.machine.get_mut(key) {
                    *old = value.clone();
                    return Outcome::Ok;
                }
                if self.machine.len() >= 128 {
                    return Outcome::Full;
                }
                self.machine.insert(key.clone(), value.clone());
                Outcome::Ok
            }
            Operation::Get(key) => match self.machine.get(key) {
                Some(value) => Outcome::Value(value.clone()),
                None => Outcome::Absent,
            },
            Operation::Delete(key) => match self.machine.remove(key) {
                Some(_) => Outcome::Ok,
                None => Outcome::Absent,
            },
        }
    }

    fn store(&mut self, op: u64, client: u64, number: u32, outcome: &Outcome) {
        if self.sessions.len() >= 32 && !self.sessions.contains_key(&client) {
            if let Some(oldest) = self.sessions.iter().min_by_key(|(c, s)| (s.op, **c)).map(|(c, _)| *c) {
                self.sessions.remove(&oldest);
            }
        }
        self.sessions.insert(client, Session { number, op, outcome: outcome.clone() });
    }

    #[inline(never)]
    fn apply(&mut self, op: u64, client: u64, number: u32, operation: &Operation) -> bool {
        match self.check(client, number) {
            Answer::Fresh => {
                let outcome = self.change(operation);
                self.store(op, client, number, &outcome);
                true
            }
            Answer::Repeat(outcome, op) => std::hint::black_box((outcome, op)).1 == u64::MAX,
            Answer::Old | Answer::Gap | Answer::Evicted => false,
        }
    }
}

fn main() {
    let count: u32 = std::env::args().nth(1).and_then(|w| w.parse().ok()).unwrap_or(0);
    let mut operations = Vec::new();
    for number in 0..128u8 {
        let key = vec![b'k', b'a' + number % 8, b'a' + number / 8 % 16];
        operations.push(Operation::Put(key.clone(), vec![b'v'; 100]));
        operations.push(Operation::Get(key.clone()));
        operations.push(Operation::Delete(key));
    }
    let mut state = State::default();
    for client in 0..4 {
        state.apply(client, client, 0, &Operation::Register);
    }
    let mut done = 0u64;
    for i in 0..count {
        let at = (i.wrapping_mul(2654435761) / 128) as usize % 384;
        if state.apply(u64::from(i) + 4, u64::from(i % 4), i / 4 + 1, &operations[at]) {
            done += 1;
        }
    }
    println!("{done}");
}
