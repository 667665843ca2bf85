//! The exported functions, each wrapped once. Guard words stand on both sides of every lent slice.

use exports::*;
use second::script::Call;
use second::{Place, Record, State};

const GUARD: u32 = 0x5afe_c0de;
const GUARDS: usize = 8;

/// Words with guards on both sides.
struct Guarded {
    all: Vec<u32>,
    count: usize,
}

impl Guarded {
    fn new(words: &[u32]) -> Guarded {
        let mut all = vec![GUARD; GUARDS];
        all.extend_from_slice(words);
        all.extend_from_slice(&[GUARD; GUARDS]);
        Guarded {
            all,
            count: words.len(),
        }
    }

    fn pointer(&mut self) -> *mut u32 {
        self.all[GUARDS..].as_mut_ptr()
    }

    /// Gives the words back, after looking at the guards.
    fn give_back(&self, words: &mut Vec<u32>) -> Result<(), String> {
        let (before, rest) = self.all.split_at(GUARDS);
        let (lent, after) = rest.split_at(self.count);
        if before.iter().chain(after).any(|&word| word != GUARD) {
            return Err(String::from("a call wrote outside the words lent to it"));
        }
        *words = lent.to_vec();
        Ok(())
    }
}

pub fn lend(record: &Record) -> Filter {
    let r = record;
    let place = |p: &Place| [p.length, p.size_power, p.count];
    Filter {
        numbers: [r.k, r.start_power, r.f, r.regime, r.used, r.queue_length],
        annex: std::array::from_fn(|index| place(&r.places[index])),
    }
}

fn take(filter: &Filter) -> Record {
    let [k, start_power, f, regime, used, queue_length] = filter.numbers;
    let place = |[length, size_power, count]: [u32; 3]| Place {
        length,
        size_power,
        count,
    };
    Record {
        k,
        start_power,
        f,
        regime,
        used,
        queue_length,
        places: filter.annex.map(place),
    }
}

/// Makes the call on the state, and gives its number. Double and the exported Query have functions of their own.
pub fn call(state: &mut State, on: &Call) -> Result<u32, String> {
    let mut filter = lend(&state.record);
    let mut lent = [&state.main, &state.queue, &state.annex].map(|words| Guarded::new(words));
    let counts = [lent[0].count, lent[1].count, lent[2].count];
    let [m, q, a] = [0, 1, 2].map(|index| lent[index].pointer());
    let ([ml, ql, al], r) = (counts, &raw mut filter);
    // Each pointer is to as many words as its length says, and none overlaps another.
    let number = unsafe {
        match *on {
            Call::Start(power, f, regime) => kj_start(r, m, ml, q, ql, a, al, power, f, regime),
            Call::Query(hash) => kj_query(r, m, ml, q, ql, a, al, hash),
            Call::Insert(hash) => kj_insert(r, m, ml, q, ql, a, al, hash),
            Call::Delete(hash) => kj_delete(r, m, ml, q, ql, a, al, hash),
            Call::Rejuvenate(hash) => kj_rejuvenate(r, m, ml, q, ql, a, al, hash),
            Call::Audit => kj_audit(r, m, ml, q, ql, a, al),
            Call::Settle => kj_settle(r, m, ml, q, ql, a, al),
            _ => unreachable!("no call on record, main, queue and annex alone"),
        }
    };
    state.record = take(&filter);
    lent[0].give_back(&mut state.main)?;
    lent[1].give_back(&mut state.queue)?;
    lent[2].give_back(&mut state.annex)?;
    Ok(number)
}

/// Double, lent this second main: its number and what it leaves there.
pub fn double(state: &mut State, second: &[u32]) -> Result<(u32, Vec<u32>), String> {
    let mut filter = lend(&state.record);
    let words = [&state.main[..], &state.queue, &state.annex, second];
    let mut lent = words.map(Guarded::new);
    let counts = words.map(<[u32]>::len);
    let [m, q, a, s] = [0, 1, 2, 3].map(|index| lent[index].pointer());
    let ([ml, ql, al, sl], r) = (counts, &raw mut filter);
    // As above, with the second main.
    let number = unsafe { kj_double(r, m, ml, q, ql, a, al, s, sl) };
    state.record = take(&filter);
    let mut second = Vec::new();
    lent[0].give_back(&mut state.main)?;
    lent[1].give_back(&mut state.queue)?;
    lent[2].give_back(&mut state.annex)?;
    lent[3].give_back(&mut second)?;
    Ok((number, second))
}

/// The exported Query on these bytes.
pub fn query_bytes(k: u32, w: u32, hash: u64, bytes: &[u8]) -> u32 {
    // The pointer is to as many bytes as the length says.
    unsafe { kj_query_bytes(k, w, hash, bytes.as_ptr(), bytes.len()) }
}
