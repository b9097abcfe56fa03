//! What the judge says, in words.
use crate::faults;
use crate::refusals;
use crate::text::{Line, Text};
use chickadoor::{Asids, Company, Granule, JudgeError, Regime, Security, State, Step, Table, Target};

/// Whether the list is accepted, and the sentence about it.
pub fn judge(text: &Text) -> (bool, String) {
    let steps: Vec<Step> = text.steps.iter().map(|line| line.step).collect();
    match chickadoor::judge(&text.state, &text.target, &steps) {
        Ok(()) => (true, "accepted: from every table the list clears the target and touches nobody else".to_string()),
        Err(error) => (false, format!("refused: {}", reason(text, error))),
    }
}

fn reason(text: &Text, error: JudgeError) -> String {
    match error {
        JudgeError::BadShape => too_many(&text.steps),
        JudgeError::BadState => with("the processor state cannot be", faults::of_state(&text.state)),
        JudgeError::BadTarget => with("the target breaks a rule", faults::of_target(&text.state.board, &text.target)),
        JudgeError::Refused { step } => about(text, step, |line| format!("would not be done: {}", why(&text.state, line))),
        JudgeError::Outside { step } => about(text, step, |line| touches(text, line)),
        JudgeError::Gap(entry) => format!("there is a gap: {} would survive", entry),
    }
}

fn with(what: &str, why: Option<String>) -> String {
    why.map_or_else(|| what.to_string(), |why| format!("{}: {}", what, why))
}

fn too_many(steps: &[Line]) -> String {
    let seventeenth = steps.get(16).map_or(String::new(), |line| format!("; {} has the 17th", line.place));
    format!("a list has 16 steps at most, and this has {}{}", steps.len(), seventeenth)
}

/// Steps count from 0, as everywhere in the library.
fn about(text: &Text, step: usize, words: impl Fn(&Line) -> String) -> String {
    match text.steps.get(step) {
        Some(line) => format!("step {} ({}: {}) {}", step, line.place, line.words, words(line)),
        None => format!("step {}", step),
    }
}

/// Why a step would not be done: what executing it on an empty table answers, and the rule behind it.
fn why(state: &State, line: &Line) -> String {
    match Table::new(&mut []).execute(state, line.step) {
        Ok(_) => "it would be done".to_string(),
        Err(error) => with(&error.to_string(), refusals::of_step(state, line.step, error)),
    }
}

fn touches(text: &Text, line: &Line) -> String {
    let target = &text.target.company;
    match company(&text.state, line.step) {
        Some(company) => format!("touches somebody else: it acts on {}, and the target is {}", company, target),
        None => format!("touches somebody else than the target, {}", target),
    }
}

/// Whose entries a step acts on: the company of the target that it is not outside of.
fn company(state: &State, step: Step) -> Option<Company> {
    companies(state.vmid).into_iter().find(|company| {
        let target = Target {
            company: *company,
            wide: false,
            granule: Granule::K4,
            asids: Asids::All,
            leaves: false,
            processors: 1,
            first: 0,
            last: 0,
        };
        matches!(chickadoor::judge(state, &target, &[step]), Ok(()) | Err(JudgeError::Gap(_)))
    })
}

/// Every company that a step of this VMID can have, and more that nobody has.
fn companies(vmid: u16) -> Vec<Company> {
    let mut all = Vec::new();
    for regime in [Regime::El10, Regime::El20, Regime::El2, Regime::El3] {
        for security in [Security::Secure, Security::NonSecure, Security::Realm, Security::Root] {
            for (stage2, ns) in [(false, false), (true, false), (true, true)] {
                all.extend([0, vmid].map(|vmid| Company { regime, security, vmid, stage2, ns }));
            }
        }
    }
    all
}
