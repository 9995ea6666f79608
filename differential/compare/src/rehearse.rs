//! The rehearsals of documents 01 and 02 on the original, those with different lookaheads by the model.
use crate::judge::Judge;
use crate::lists;
use crate::store::{begins, lines};

/// Whether the original, or the model, answers as the documents say it does.
pub fn rehearse() -> bool {
    let rehearsals = generate::rehearsals();
    let (mut wrong, mut judged) = (0, 0);
    for rehearsal in &rehearsals {
        let observed = lists::observe(&rehearsal.list);
        judged += u64::from(observed.judge == Judge::Rust);
        let (lines, _) = lines(&observed);
        let expected = &rehearsal.answers;
        let as_written = lines.len() == expected.len()
            && lines
                .iter()
                .zip(expected)
                .all(|(line, with)| begins(line, with));
        if !as_written || lists::difference(&rehearsal.list).is_some() {
            wrong += 1;
            println!("DIFFERENCE in rehearsal {}: {lines:?}", rehearsal.name);
        }
    }
    println!(
        "compared: {} rehearsals of documents 01 and 02, {judged} judged by the Rust and the others by the model alone, {wrong} differences",
        rehearsals.len()
    );
    wrong == 0
}
