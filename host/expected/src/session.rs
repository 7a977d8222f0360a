//! What `run_session` must print: every combination of state, event, Source IDs and options.

use reference::session::{self, Session, State};

/// Without and with the PIN option.
const KEPT_OPTIONS: [u8; 2] = [0, 2];
const BROUGHT_OPTIONS: [u8; 2] = [0, 3];
const KEPT_ID: [u8; 16] = [7; 16];
const OTHER_ID: [u8; 16] = [8; 16];

fn line(state: State, event: u8, kept: bool, which: usize, options: u8, brought: u8) -> String {
    let session = Session { state, id_kept: kept, source_id: KEPT_ID, options };
    let carried = [None, Some(KEPT_ID), Some(OTHER_ID)][which];
    let answer = session::step(session, event, carried, brought);
    let after = answer.session;
    format!(
        "{state:?} {event} {} {which} {options} {brought}: {} {} {:?} {} {}\n",
        kept as u8,
        answer.number as u8,
        answer.check_pin as u8,
        after.state,
        after.options,
        if after.id_kept { after.source_id[0] } else { 0 },
    )
}

pub fn lines() -> String {
    let mut text = String::new();
    for state in State::ALL {
        for event in 0..=11 {
            for kept in [false, true] {
                for which in 0..3 {
                    for options in KEPT_OPTIONS {
                        text.extend(
                            BROUGHT_OPTIONS
                                .map(|brought| line(state, event, kept, which, options, brought)),
                        );
                    }
                }
            }
        }
    }
    text
}
