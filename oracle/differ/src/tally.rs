//! How often each call was answered how, and with which effects: what a run has met.
use std::cell::RefCell;
use std::collections::BTreeMap;

use crate::port::Returned;

type Met = BTreeMap<(u64, Vec<u8>), u64>;

thread_local! {
    static MET: RefCell<BTreeMap<&'static str, Met>> = const { RefCell::new(BTreeMap::new()) };
}

pub fn met(call: &'static str, r: &Returned) {
    MET.with(|met| {
        let mut met = met.borrow_mut();
        let of_call = met.entry(call).or_default();
        *of_call.entry((r.answer, r.effects.clone())).or_default() += 1;
    });
}

pub fn show() {
    MET.with(|met| {
        for (call, answers) in met.borrow().iter() {
            let all: Vec<String> = answers
                .iter()
                .map(|((answer, effects), n)| {
                    let codes: Vec<String> = effects.iter().map(|code| format!("{code:02x}")).collect();
                    format!("{answer}[{}] {n}", codes.join(" "))
                })
                .collect();
            println!("  {call}: {}", all.join(", "));
        }
    });
}
