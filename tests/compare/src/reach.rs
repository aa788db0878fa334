//! Our answers that bring a run to a place, held to the model: whether there
//! are any, and every number and byte that a call is lent. Which list it is is
//! left open: it is judged by running the run with it.

use crate::ours::number;
use model::module::{Function, Module};
use model::reach::{questions, Reached};
use model::run::places_met;
use rulketoos::REACH_AREA;

/// What lies in the area and the buffer before a call.
const DIRT: u8 = 0xa5;
const DIRT_WORD: u32 = 0xa5a5_a5a5;

/// An area and a buffer that are used for call after call.
#[derive(Default)]
pub struct Lent {
    area: Vec<u32>,
    answers: Vec<u8>,
}

/// What a call is asked: a function, a place, and the lengths that it is lent.
#[derive(Debug, Clone, Copy)]
pub struct Asked {
    pub function: u64,
    pub place: u64,
    pub area: usize,
    pub room: usize,
}

/// What a call has to give.
#[derive(Debug, Clone, Copy, PartialEq, Eq)]
pub enum Expected {
    Refused(u8),
    None,
    /// A list of at most so many answers.
    Some(usize),
}

impl Lent {
    /// One call on a dirty area and a dirty buffer: the kind of answer, and
    /// what both hold after it. The list, if there is one.
    fn call(
        &mut self,
        module: &[u8],
        asked: Asked,
        expected: Expected,
    ) -> Result<Option<&[u8]>, String> {
        self.area.clear();
        self.area.resize(asked.area, DIRT_WORD);
        self.answers.clear();
        self.answers.resize(asked.room, DIRT);
        let (area, answers) = (&mut self.area, &mut self.answers);
        let ours = rulketoos::reach(module, asked.function, asked.place, area, answers);
        let ours = ours.map(|list| list.map(<[u8]>::len)).map_err(number);
        let count = match (ours, expected) {
            (Err(ours), Expected::Refused(number)) if ours == number => 0,
            (Ok(None), Expected::None) => 0,
            (Ok(Some(count)), Expected::Some(most)) if count <= most => count,
            _ => return Err(format!("ours {ours:?}, the model {expected:?}")),
        };
        let left = match expected {
            Expected::Refused(1) => DIRT_WORD,
            _ => 0,
        };
        if self.area.len() != asked.area || self.area.iter().any(|&word| word != left) {
            return Err(format!("the area is not all {left}"));
        }
        let (list, rest) = self.answers.split_at(count);
        if rest.iter().any(|&byte| byte != DIRT) {
            return Err("the rest of the buffer is changed".to_string());
        }
        if list.iter().any(|&answer| answer > 1) {
            return Err(format!("an answer is neither 0 nor 1: {list:?}"));
        }
        Ok((expected != Expected::None && ours.is_ok()).then_some(list))
    }

    /// One call, whatever it is asked.
    pub fn compare(&mut self, module: &[u8], asked: Asked) -> Result<(), String> {
        let model = model::reach(module, asked.function, asked.place, asked.area, asked.room);
        let read = model::module::read(module);
        let found = read.as_ref().ok().and_then(|read| {
            let number = usize::try_from(asked.function).ok()?;
            Some((read, read.functions.get(number)?))
        });
        let expected = match (&model, found) {
            (Err(number), _) => Expected::Refused(*number),
            (Ok(Some(_)), Some((read, function))) => Expected::Some(questions(read, function)),
            _ => Expected::None,
        };
        let called = self.call(module, asked, expected);
        let judged = called.and_then(|list| match (list, found) {
            (Some(list), Some((read, function))) => judge(read, function, asked, list),
            _ => Ok(()),
        });
        judged.map_err(|e| format!("{asked:?}: {e}"))
    }

    /// Every place of a function, in a buffer just as long as its questions
    /// are many.
    pub fn every_place(&mut self, module: &[u8], function: u64) -> Result<(), String> {
        let read = model::module::read(module).map_err(|n| format!("reader says {n}"))?;
        let found = &read.functions[function as usize];
        let (reached, room) = (Reached::of(&read, found), questions(&read, found));
        for place in 0..found.places.len() {
            let asked = Asked {
                function,
                place: place as u64,
                area: REACH_AREA,
                room,
            };
            let expected = match reached.list(place) {
                Some(_) => Expected::Some(room),
                None => Expected::None,
            };
            let judged = match self.call(module, asked, expected) {
                Ok(Some(list)) => judge(&read, found, asked, list),
                other => other.map(|_| ()),
            };
            judged.map_err(|e| format!("{asked:?}: {e}"))?;
        }
        Ok(())
    }
}

/// The model's run with the list counts the place as a step, within as many
/// steps as there are instructions; our run with the list, and a budget up to
/// that step, counts as many.
fn judge(module: &Module, function: &Function, asked: Asked, list: &[u8]) -> Result<(), String> {
    let mut met = places_met(module, function, list);
    let Some(before) = met.position(|place| place as u64 == asked.place) else {
        return Err(format!("the run with {list:?} doesn't meet the place"));
    };
    let budget = before as u64 + 1;
    if budget > function.places.len() as u64 {
        return Err(format!("the run with {list:?} takes {budget} steps"));
    }
    let mut events = vec![0; 9 * (before + 1)];
    let run = rulketoos::run(module.bytes, asked.function, list, budget, &mut events);
    let steps = run.map_err(|refusal| refusal.to_string())?.steps;
    if steps != budget {
        return Err(format!(
            "our run with {list:?} counts {steps} steps, not {budget}"
        ));
    }
    Ok(())
}
