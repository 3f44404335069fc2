//! What the C functions have to tell, put together from plans and refusals.

use bicycle::ffi::{BuildResult, CheckResult, LookupResult, TextResult, ValueResult};

use crate::model::{Built, Plan, Refusal};

/// Either lookup.
pub type Lookup = fn(&[u8], &[u8], &[u8], u32, &mut [u8]) -> LookupResult;

/// A lookup's answer; the rotations go to the buffer.
pub fn lookup(answer: Result<Plan, Refusal>, out: &mut [u8]) -> LookupResult {
    match answer.and_then(|plan| plan.write(out).map(|()| plan)) {
        Ok(plan) => LookupResult {
            needed: 0,
            number: 0,
            measures: plan.measures,
            native: u32::from(plan.native),
            base: plan.base,
            rotations: plan.rotations.len() as u32,
        },
        Err(Refusal { number, needed }) => LookupResult {
            needed,
            number,
            measures: 0,
            native: 0,
            base: 0,
            rotations: 0,
        },
    }
}

/// A check's verdict, from the lowest index that breaks its rule.
pub fn check(broken: Option<u32>) -> CheckResult {
    CheckResult {
        number: 0,
        accepted: broken.is_none().into(),
        index: broken.unwrap_or(0),
    }
}

pub fn build(built: Built) -> BuildResult {
    BuildResult {
        number: 0,
        entries: built.entries,
        depth: built.depth,
    }
}

/// A value, or a refusal's number.
pub fn value(answer: Result<u32, u32>) -> ValueResult {
    ValueResult {
        number: answer.err().unwrap_or(0),
        value: answer.unwrap_or(0),
    }
}

/// A text's answer, or a refusal's; the text goes to the front of the buffer if it has room.
pub fn text(answer: Result<&str, u32>, out: &mut [u8]) -> TextResult {
    let refused = |number, needed| TextResult {
        needed,
        length: 0,
        number,
    };
    match answer {
        Err(number) => refused(number, 0),
        Ok(text) if out.len() < text.len() => refused(9, text.len()),
        Ok(text) => {
            out[..text.len()].copy_from_slice(text.as_bytes());
            TextResult {
                needed: 0,
                length: text.len(),
                number: 0,
            }
        }
    }
}
