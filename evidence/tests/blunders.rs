//! Every blunder shows: on the surveys by which 01 names it, and on the generated texts.

use evidence::blunder::{program, Blunder, BLUNDERS};
use evidence::gen::{text_case, WORKED};
use evidence::plan::fast;
use evidence::print::{program as sound, survey_text};
use evidence::Survey;

fn differs(blunder: Blunder, p: usize) -> bool {
    let text = survey_text(&Survey::new(WORKED[p - 1].0, WORKED[p - 1].1));
    program(blunder, &text) != sound(fast, &text)
}

#[test]
fn on_the_surveys_that_name_them() {
    assert!(differs(Blunder::OneByOne, 10));
    assert!(differs(Blunder::WholeUnits, 4));
    assert!(differs(Blunder::IdlePart, 3));
    assert!(differs(Blunder::LoneMembers, 7));
    assert!(differs(Blunder::HighestTrack, 6));
    assert!(differs(Blunder::AllTight, 5));

    let text = survey_text(&Survey::new(WORKED[3].0, WORKED[3].1));
    assert!(!program(Blunder::WholeUnits, &text).contains("moat="));
    let text = survey_text(&Survey::new(WORKED[2].0, WORKED[2].1));
    assert!(program(Blunder::IdlePart, &text).ends_with("moat=6:0\nmoat=8:2\n"));
}

#[test]
fn on_generated_texts() {
    for blunder in BLUNDERS {
        // Past the directed texts, so that the random ones are judged.
        let found = (10_000..20_000)
            .map(|case| text_case(41, case))
            .find(|text| text.len() < 3_000 && program(blunder, text) != sound(fast, text));
        assert!(found.is_some(), "{blunder:?} goes unseen");
    }
}
