//! What a transaction sees of a version, by its Begin word and then by its End word.

use crate::store::{Engine, State, Version};
use crate::words::{Begin, Lock, Time, TxnId, INFINITY};
use crate::Stop;

/// When a walk looks. `is_now`: it looks at the clock of its beginning, and walks again if more was committed since.
#[derive(Clone, Copy)]
pub struct View {
    pub time: Time,
    pub is_now: bool,
}

impl View {
    /// The sight of a version that begins or ends after the time.
    fn before(self, sight: Sight) -> Result<Sight, Stop> {
        if self.is_now {
            Err(Stop::Again)
        } else {
            Ok(sight)
        }
    }
}

pub enum Sight {
    /// Seen; if it names a transaction, only if that one commits.
    Seen(Option<TxnId>),
    Hidden,
    /// Hidden, if this Preparing transaction commits.
    HiddenIf(TxnId),
    /// Hidden: this Active transaction made it.
    HiddenActive(TxnId),
}

impl Engine {
    pub fn sight(&self, txn: TxnId, version: &Version, view: View) -> Result<Sight, Stop> {
        match version.made_by() {
            Begin::At(INFINITY) => Ok(Sight::Hidden),
            Begin::At(time) if view.time < time => view.before(Sight::Hidden),
            Begin::At(_) => self.sight_by_end(txn, version, view, None),
            Begin::By(maker) if maker == txn => Ok(own_sight(version)),
            Begin::By(maker) => self.sight_by_maker(txn, version, view, maker),
        }
    }

    fn sight_by_maker(&self, txn: TxnId, version: &Version, view: View, maker: TxnId) -> Result<Sight, Stop> {
        let made_by = self.txn(maker);
        match made_by.state() {
            State::Active => Ok(Sight::HiddenActive(maker)),
            State::Aborted(_) => Ok(Sight::Hidden),
            state @ (State::Preparing | State::Committed) => {
                if view.time < made_by.end() {
                    return view.before(Sight::Hidden);
                }
                let promised = (state == State::Preparing).then_some(maker);
                self.sight_by_end(txn, version, view, promised)
            }
            State::NotBegun | State::Terminated => Err(Stop::Again),
        }
    }

    fn sight_by_end(&self, txn: TxnId, version: &Version, view: View, promised: Option<TxnId>) -> Result<Sight, Stop> {
        let word = version.end.load(std::sync::atomic::Ordering::SeqCst);
        let Some(lock) = Lock::read(word) else {
            return if view.time < word { view.before(Sight::Seen(promised)) } else { Ok(Sight::Hidden) };
        };
        let Some(writer) = lock.writer else {
            return Ok(Sight::Seen(promised));
        };
        if writer == txn {
            return Ok(Sight::Hidden);
        }
        let written_by = self.txn(writer);
        match written_by.state() {
            State::Active | State::Aborted(_) => Ok(Sight::Seen(promised)),
            State::Preparing | State::Committed if view.time < written_by.end() => view.before(Sight::Seen(promised)),
            State::Preparing => Ok(Sight::HiddenIf(writer)),
            State::Committed => Ok(Sight::Hidden),
            State::NotBegun | State::Terminated => Err(Stop::Again),
        }
    }
}

/// A transaction sees its own version until it writes over it.
fn own_sight(version: &Version) -> Sight {
    match version.lock() {
        Some(Lock { writer: None, .. }) => Sight::Seen(None),
        _ => Sight::Hidden,
    }
}
