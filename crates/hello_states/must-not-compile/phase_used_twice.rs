//! A call that leads on takes the phase away: it can't be led on a second time.

use hello_states::{Answered, Asked, Greeting, InfoFields, Informed, Joined, PartCause, Parting};
use screen_config::Config;
use share_base::ScreenSet;

fn answered_twice(it: Greeting, config: &Config, used: &ScreenSet) -> (Answered, Answered) {
    let first = it.answer(1, 6, b"pad", config, used, 0);
    (first, it.answer(1, 6, b"pad", config, used, 0)) //~ use of moved value: `it`
}

fn informed_twice(it: Asked, info: &InfoFields) -> (Informed, Informed) {
    let first = it.info(info, 0);
    (first, it.info(info, 0)) //~ use of moved value: `it`
}

fn informed_after_parting(it: Joined, info: &InfoFields) -> (Parting, Informed) {
    let parting = it.part(PartCause::Bye, 0);
    (parting, it.info(info, 0)) //~ use of moved value: `it`
}

fn main() {}
