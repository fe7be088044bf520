//! The stored runs of the programs, `../tests` and `../samples`: what is stored for a survey or an STP file is what the
//! second implementation prints, with either planner.

use evidence::plan::{fast, reference};
use evidence::print::{program, stp_program, why_program};
use evidence::printed::verify_program;
use evidence::season::season_program;
use std::path::{Path, PathBuf};

/// The files of a folder of the repository with such an ending.
fn beside(folder: &str, ending: &str) -> Vec<PathBuf> {
    let folder = Path::new(env!("CARGO_MANIFEST_DIR")).join("..").join(folder);
    let files = std::fs::read_dir(&folder).unwrap_or_else(|error| panic!("{}: {error}", folder.display()));
    let mut files: Vec<PathBuf> = files.map(|file| file.expect("a file").path()).collect();
    files.retain(|file| file.extension().is_some_and(|kind| kind == ending));
    files.sort();
    files
}

#[test]
fn stored_runs() {
    let surveys = beside("tests/plan", "survey");
    assert!(surveys.len() > 40, "{}", surveys.len());
    for survey in surveys {
        let text = std::fs::read(&survey).expect("it is there");
        let stored = std::fs::read_to_string(survey.with_extension("expected")).expect("each survey has its answer");
        assert_eq!(program(fast, &text), stored, "{}", survey.display());
        assert_eq!(program(reference, &text), stored, "{}", survey.display());
    }
}

/// Each sample is planned, but for the two halves of a district, each of which has a group that it cannot join.
#[test]
fn samples_are_planned() {
    let mut halves = 0;
    for survey in beside("samples", "survey") {
        let text = std::fs::read(&survey).expect("it is there");
        let half = ["north", "south"].iter().any(|name| survey.file_stem().is_some_and(|stem| stem == *name));
        let begins = if half { "refused=8\n" } else { "sites=" };
        assert!(program(fast, &text).starts_with(begins), "{}", survey.display());
        halves += half as usize;
    }
    assert_eq!(halves, 2);
}

#[test]
fn stored_stp_files() {
    let stored = |file: &Path, ending: &str| {
        let name = file.file_name().expect("a file");
        let stored = Path::new(env!("CARGO_MANIFEST_DIR")).join("../tests/stp").join(name).with_extension(ending);
        std::fs::read_to_string(&stored).unwrap_or_else(|error| panic!("{}: {error}", stored.display()))
    };
    let (samples, files) = (beside("samples", "stp"), beside("tests/stp", "stp"));
    assert!(samples.len() >= 3 && files.len() > 25, "{} {}", samples.len(), files.len());
    for file in samples.iter().chain(&files) {
        let read = stp_program(&std::fs::read(file).expect("it is there"));
        assert_eq!(read, stored(file, "expected"), "{}", file.display());
    }
    for file in samples {
        let survey = stp_program(&std::fs::read(&file).expect("it is there"));
        let plan = program(reference, survey.as_bytes());
        assert!(plan.starts_with("sites="), "{}", file.display());
        assert_eq!(plan, stored(&file, "plan"), "{}", file.display());
    }
}

/// `NAME.TRACK.expected` is the reason for a track of the survey `NAME` of the plan program's runs.
#[test]
fn stored_reasons() {
    let answers = beside("tests/why", "expected");
    assert!(answers.len() > 50, "{}", answers.len());
    for answer in answers {
        let name = answer.file_stem().and_then(|name| name.to_str()).expect("a name").to_string();
        let (survey, track) = name.rsplit_once('.').expect("a survey and a track");
        let text = std::fs::read(answer.with_file_name(format!("../plan/{survey}.survey"))).expect("it is there");
        let stored = std::fs::read_to_string(&answer).expect("it is there");
        assert_eq!(why_program(&text, track.parse().expect("a number")), stored, "{name}");
    }
}

#[test]
fn stored_checks() {
    let texts = beside("tests/verify", "text");
    assert!(texts.len() > 40, "{}", texts.len());
    for text in texts {
        let found = verify_program(&std::fs::read(&text).expect("it is there"));
        let stored = std::fs::read_to_string(text.with_extension("expected")).expect("each text has its answer");
        assert_eq!(found, stored, "{}", text.display());
    }
}

#[test]
fn stored_seasons() {
    let seasons = beside("tests/season", "surveys");
    assert!(seasons.len() > 8, "{}", seasons.len());
    for surveys in seasons {
        let printed = season_program(&std::fs::read(&surveys).expect("it is there"));
        let stored = std::fs::read_to_string(surveys.with_extension("expected")).expect("each season has its answer");
        assert_eq!(printed, stored, "{}", surveys.display());
    }
}
