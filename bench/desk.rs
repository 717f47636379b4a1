// The plain program beside which `bench/desk.sh` times a desk: the same calls over the same kind of board, in ordinary Rust. What waits is a B-tree
// behind a mutex; what is out are words that threads take and post without it, and a set of bits that a turn goes over.
use std::collections::{BTreeMap, VecDeque};
use std::sync::atomic::{AtomicU64, Ordering::SeqCst};
use std::sync::Mutex;

const EMPTY: u64 = 0;
const OFFERED: u64 = 1;
const TAKEN: u64 = 2;
const POSTED: u64 = 3;

struct Row {
    place: usize,
}

struct State {
    // Class, due date and ticket of those that wait.
    waiting: BTreeMap<(i64, i64, u64), Row>,
    tickets: BTreeMap<u64, usize>,
    free: Vec<usize>,
    out: Vec<u64>,
    served: usize,
    last: u64,
    moment: u64,
}

struct Desk {
    state: Mutex<State>,
    words: Vec<AtomicU64>,
    limit: usize,
}

impl Desk {
    fn new(places: usize, limit: usize) -> Desk {
        Desk {
            state: Mutex::new(State {
                waiting: BTreeMap::new(),
                tickets: BTreeMap::new(),
                free: (0..places).rev().collect(),
                out: vec![0; places.div_ceil(64)],
                served: 0,
                last: 0,
                moment: 0,
            }),
            words: (0..places).map(|_| AtomicU64::new(EMPTY)).collect(),
            limit,
        }
    }

    fn offer(&self, state: &mut State, place: usize, ticket: u64) {
        state.served += 1;
        state.out[place / 64] |= 1 << (place % 64);
        self.words[place].store(ticket << 2 | OFFERED, SeqCst);
    }

    fn arrive(&self, moment: u64, class: i64, offset: i64) -> Option<(usize, u64)> {
        let mut state = self.state.lock().unwrap();
        state.moment = state.moment.max(moment);
        let place = state.free.pop()?;
        state.last += 1;
        let ticket = state.last;
        state.tickets.insert(ticket, place);
        if state.served < self.limit {
            self.offer(&mut state, place, ticket);
        } else {
            let due = state.moment as i64 + offset;
            state.waiting.insert((class, due, ticket), Row { place });
        }
        Some((place, ticket))
    }

    fn take(&self, place: usize, ticket: u64) -> bool {
        let offered = ticket << 2 | OFFERED;
        self.words[place].load(SeqCst) == offered
            && self.words[place]
                .compare_exchange(offered, ticket << 2 | TAKEN, SeqCst, SeqCst)
                .is_ok()
    }

    fn post(&self, place: usize, ticket: u64) {
        self.words[place].store(ticket << 2 | POSTED, SeqCst);
    }

    fn collect(&self, state: &mut State, place: usize) {
        let word = self.words[place].load(SeqCst);
        if word & 3 != POSTED {
            return;
        }
        self.words[place].store(EMPTY, SeqCst);
        state.out[place / 64] &= !(1 << (place % 64));
        state.tickets.remove(&(word >> 2));
        state.free.push(place);
        state.served -= 1;
        while state.served < self.limit {
            let Some(((_, _, ticket), row)) = state.waiting.pop_first() else {
                break;
            };
            self.offer(state, row.place, ticket);
        }
    }

    fn turn(&self, moment: u64) {
        let mut state = self.state.lock().unwrap();
        state.moment = state.moment.max(moment);
        for word in 0..state.out.len() {
            let mut rest = state.out[word];
            while rest != 0 {
                let bit = rest.trailing_zeros() as usize;
                self.collect(&mut state, word * 64 + bit);
                rest &= rest - 1;
            }
        }
    }
}

fn serve(desk: &Desk, share: usize, requests: u64) -> u64 {
    let mut live = VecDeque::new();
    let mut came = 0;
    let mut served = 0;
    while served < requests {
        if live.len() < share && came < requests {
            match desk.arrive(served, 0, 0) {
                Some(it) => live.push_back(it),
                None => break,
            }
            came += 1;
            continue;
        }
        if let Some(&(place, ticket)) = live.front() {
            if desk.take(place, ticket) {
                desk.post(place, ticket);
                live.pop_front();
                served += 1;
                desk.turn(served);
            } else {
                std::thread::yield_now();
            }
        }
    }
    served
}

fn main() {
    let words: Vec<u64> = std::env::args()
        .skip(1)
        .map(|word| word.parse().expect("a number"))
        .collect();
    let (threads, places, requests) = (words[0], words[1] as usize, words[2]);
    let desk = Desk::new(places, places / 2);
    let share = places / threads as usize;
    let served: u64 = std::thread::scope(|scope| {
        let threads: Vec<_> = (0..threads)
            .map(|_| scope.spawn(|| serve(&desk, share, requests / threads)))
            .collect();
        threads.into_iter().map(|thread| thread.join().unwrap()).sum()
    });
    println!("{served}");
}
