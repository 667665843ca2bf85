//! Playing a script: each call on the proved library, through its C interface.

use crate::product;
use crate::words;
use second::script::{Call, LENT_WORD};
use second::State;

/// The queue and annex words lent with a Start that is written in words.
const LENT: (usize, usize) = (1 << 10, 1 << 16);

/// A call, what it answered, and the state that it left.
pub struct Played {
    pub call: Call,
    pub number: Option<u32>,
    pub state: State,
}

impl Played {
    /// The call and its answer, as words.
    pub fn heading(&self) -> String {
        let call = words::written(&self.call);
        match self.number {
            Some(number) => format!("{call}: {number}, {}", words::meaning(&self.call, number)),
            None => call,
        }
    }

    /// The hash that the call names, if it names one.
    pub fn hash(&self) -> Option<u64> {
        match self.call {
            Call::Query(hash) | Call::Insert(hash) => Some(hash),
            Call::Delete(hash) | Call::Rejuvenate(hash) => Some(hash),
            Call::Bytes(_, _, hash, _) => Some(hash),
            _ => None,
        }
    }
}

/// What a call answers: a number, or nothing where the line is no call; or why it can't be played.
pub type Answered = Result<Option<u32>, String>;

/// Who carries a call out on a state.
pub type Player = fn(&mut State, &Call) -> Answered;

/// The proved library. After an accepted Double the second main is the main.
pub fn proved(state: &mut State, call: &Call) -> Answered {
    Ok(match call {
        Call::Load(loaded) => {
            state.clone_from(loaded);
            None
        }
        Call::Double(count) => {
            let (number, second) = product::double(state, &vec![LENT_WORD; *count])?;
            if number == 0 {
                state.main = second;
            }
            Some(number)
        }
        Call::Bytes(k, w, hash, count) => {
            let words = state.main.iter();
            let mut bytes: Vec<u8> = words.flat_map(|word| word.to_le_bytes()).collect();
            bytes.resize(*count, 0);
            Some(product::query_bytes(*k, *w, *hash, &bytes))
        }
        Call::Part(_) | Call::Show | Call::End => None,
        _ => Some(product::call(state, call)?),
    })
}

/// A Start in words is lent empty words, of the main as many as it has to have. A script in numbers lends its own.
fn lend_for(state: &mut State, line: &str, call: &Call) {
    if let (Some("start"), Call::Start(power @ 3..=10, _, _)) =
        (line.split_whitespace().next(), call)
    {
        *state = State::lent(1 << power, LENT.0, LENT.1);
    }
}

/// The calls of a script, one by one, on one state.
struct Session {
    state: State,
    player: Player,
}

impl Session {
    /// Plays one line; nothing where it is no call.
    fn line(&mut self, line: &str) -> Result<Option<Played>, String> {
        let call = match words::read(line, self.state.main.len())? {
            None | Some(Call::Show | Call::Part(_) | Call::End) => return Ok(None),
            Some(call) => call,
        };
        lend_for(&mut self.state, line, &call);
        let number = (self.player)(&mut self.state, &call)?;
        let state = self.state.clone();
        Ok(Some(Played {
            call,
            number,
            state,
        }))
    }
}

/// Plays a script with a player, and hands each call to `see` as it is played.
pub fn each(script: &str, player: Player, mut see: impl FnMut(Played)) -> Result<(), String> {
    let state = State::default();
    let mut session = Session { state, player };
    for (index, line) in script.lines().enumerate() {
        let played = session.line(line);
        let played = played.map_err(|fault| format!("line {}: {fault}", index + 1))?;
        played.into_iter().for_each(&mut see);
    }
    Ok(())
}

/// All of what a script gives.
pub fn all(script: &str, player: Player) -> Result<Vec<Played>, String> {
    let mut found = Vec::new();
    each(script, player, |played| found.push(played))?;
    Ok(found)
}
