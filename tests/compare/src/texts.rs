//! Our texts of a module held to the model's: the answer, and every byte of
//! the buffer.

use crate::ours::number;
use generator::{damage, listings, modules, random, Rng};
use rulketoos::Refusal;

/// What lies in a buffer before a call.
const DIRT: u8 = 0xa5;

/// A call that writes a text of a module, ours and the model's.
#[derive(Clone, Copy)]
pub struct Text {
    pub name: &'static str,
    pub ours: fn(&[u8], &mut [u8]) -> Result<usize, Refusal>,
    pub model: fn(&[u8], usize) -> Result<String, u8>,
    /// The question whether the text fits.
    pub question: u8,
}

pub const LISTING: Text = Text {
    name: "listing",
    ours: rulketoos::list,
    model: model::list,
    question: 31,
};

pub const SHEET: Text = Text {
    name: "count sheet",
    ours: rulketoos::count_sheet,
    model: model::count_sheet,
    question: 32,
};

impl Text {
    /// One call on a module in buffers that are longer than the text, just
    /// full, one short and empty. A module that is refused has two buffers.
    pub fn compare(&self, module: &[u8]) -> Result<(), String> {
        let whole = (self.model)(module, usize::MAX);
        let rooms = match &whole {
            Ok(text) => vec![text.len() + 9, text.len(), text.len().saturating_sub(1), 0],
            Err(_) => vec![100, 0],
        };
        for room in rooms {
            let expected = match &whole {
                Ok(text) if text.len() > room => Err(self.question),
                other => other.as_deref().map_err(|&number| number),
            };
            self.call(module, room, expected)
                .map_err(|e| format!("{}, room {room}: {e}", self.name))?;
        }
        Ok(())
    }

    fn call(&self, module: &[u8], room: usize, expected: Result<&str, u8>) -> Result<(), String> {
        let mut out = vec![DIRT; room];
        let ours = (self.ours)(module, &mut out).map_err(number);
        let count = expected.map(str::len);
        if ours != count {
            return Err(format!("ours {ours:?}, the model {count:?}"));
        }
        let text = expected.unwrap_or("");
        let (written, rest) = out.split_at(text.len());
        if written != text.as_bytes() {
            return Err(format!(
                "ours\n{}model\n{text}",
                String::from_utf8_lossy(written)
            ));
        }
        if rest.iter().any(|&byte| byte != DIRT) {
            return Err("the rest of the buffer is changed".to_string());
        }
        Ok(())
    }
}

/// Hand-made modules of every kind, and damaged copies of them.
pub fn directed(rng: &mut Rng, mut visit: impl FnMut(&[u8])) {
    for case in modules::all().into_iter().chain(listings::all()) {
        visit(&case.module);
        if case.module.len() < 2_000 {
            for _ in 0..10 {
                visit(&damage::damaged(rng, &case.module));
            }
        }
    }
    for length in [524_287, 524_288, 524_289] {
        visit(&modules::of_length(length).module);
    }
    visit(&modules::full_of_code());
}

/// Random modules, short ones and ones of some pages, lowered ones, and a
/// damaged copy of each.
pub fn random(rng: &mut Rng, count: usize, mut visit: impl FnMut(&[u8])) {
    for round in 0..count {
        let longest = if round % 8 == 0 { 130 } else { 12 };
        let made = modules::random_of(rng, longest).bytes();
        let lowered = model::lower(
            &random::tree(rng),
            model::OFFICE,
            model::AREA,
            model::AREA,
            crate::WIDE,
        );
        for module in [Some(made), lowered.ok()].into_iter().flatten() {
            visit(&module);
            visit(&damage::damaged(rng, &module));
        }
    }
}
