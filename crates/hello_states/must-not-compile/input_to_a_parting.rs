//! A parting takes no input, and no phase takes the input of another.

use hello_states::{Answered, Asked, Greeting, InfoFields, Informed, Joined, PartCause, Parting};
use screen_config::Config;
use share_base::ScreenSet;

// These calls are allowed.

fn greeting_is_answered(it: Greeting, config: &Config, used: &ScreenSet) -> Answered {
    it.answer(1, 6, b"pad", config, used, 0)
}

fn asked_is_informed(it: Asked, info: &InfoFields) -> Informed {
    it.info(info, 0)
}

fn joined_is_informed(it: Joined, info: &InfoFields) -> Informed {
    it.info(info, 0)
}

fn joined_parts(it: Joined) -> Parting {
    it.part(PartCause::Bye, 0)
}

// These are not.

fn parting_is_answered(it: Parting, config: &Config, used: &ScreenSet) -> Answered {
    it.answer(1, 6, b"pad", config, used, 0) //~ no method named `answer` found for type `Parting`: help: it has only `serial`, `cause`, `moment`
}

fn parting_is_informed(it: Parting, info: &InfoFields) -> Informed {
    it.info(info, 0) //~ no method named `info` found for type `Parting`: help: it has only `serial`, `cause`, `moment`
}

fn parting_parts(it: Parting) -> Parting {
    it.part(PartCause::Bye, 0) //~ no method named `part` found for type `Parting`: help: it has only `serial`, `cause`, `moment`
}

fn parting_is_heard(mut it: Parting) {
    it.alive_mut().heard(0); //~ no method named `alive_mut` found for type `Parting`: help: it has only `serial`, `cause`, `moment`
}

fn greeting_is_informed(it: Greeting, info: &InfoFields) -> Informed {
    it.info(info, 0) //~ no method named `info` found for type `Greeting`
}

fn asked_is_answered(it: Asked, config: &Config, used: &ScreenSet) -> Answered {
    it.answer(1, 6, b"pad", config, used, 0) //~ no method named `answer` found for type `Asked`
}

fn joined_is_answered(it: Joined, config: &Config, used: &ScreenSet) -> Answered {
    it.answer(1, 6, b"pad", config, used, 0) //~ no method named `answer` found for type `Joined`
}

fn main() {}
