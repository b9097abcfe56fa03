//! The lines of a text: `state:` and `target:` with phrases, `X0 = VALUE`, steps.
use crate::source::{Place, Source};
use crate::state_text::StateText;
use crate::step_text::{self, Registers};
use crate::target_text::TargetText;
use chickadoor::{State, Step, Target};

/// A step, and the line it stands in.
pub struct Line {
    pub place: Place,
    pub words: String,
    pub step: Step,
}

pub struct Text {
    pub state: State,
    pub target: Target,
    pub steps: Vec<Line>,
}

#[derive(Default)]
struct Reader {
    state: Option<(Place, StateText)>,
    target: Option<(Place, TargetText)>,
    registers: Registers,
    steps: Vec<Line>,
}

pub fn parse(sources: &[Source]) -> Result<Text, String> {
    let mut reader = Reader::default();
    for source in sources {
        source.each_line(|place, line| reader.read(place, line))?;
    }
    let (place, state) = reader.state.ok_or_else(|| missing("state"))?;
    let state = state.finish().map_err(|message| format!("{}: {}", place, message))?;
    let (place, target) = reader.target.ok_or_else(|| missing("target"))?;
    let target = target.finish(&state.board).map_err(|message| format!("{}: {}", place, message))?;
    Ok(Text { state, target, steps: reader.steps })
}

fn missing(what: &str) -> String {
    format!("expected a line `{}: ...`, and found none: `chickadoor --help` says how a text is written", what)
}

impl Reader {
    fn read(&mut self, place: &Place, line: &str) -> Result<(), String> {
        if let Some(phrases) = after(line, "state:") {
            return self.state.get_or_insert_with(|| (place.clone(), StateText::default())).1.add(phrases);
        }
        if let Some(phrases) = after(line, "target:") {
            return self.target.get_or_insert_with(|| (place.clone(), TargetText::default())).1.add(phrases);
        }
        if step_text::is_tail(line) {
            return Ok(());
        }
        if line.contains('=') {
            return self.registers.set(line);
        }
        let step = step_text::parse(line, &self.registers)?;
        self.steps.push(Line { place: place.clone(), words: line.to_string(), step });
        Ok(())
    }
}

fn after<'a>(line: &'a str, word: &str) -> Option<&'a str> {
    let head = line.get(..word.len())?;
    head.eq_ignore_ascii_case(word).then(|| &line[word.len()..])
}
