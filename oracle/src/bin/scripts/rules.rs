//! The chip rule of a description: fitted, kept on boards without an X24C02, and in state files of both lengths.
use crate::{boards, rng::Rng, writer::Script};
use tetanes_core::{
    host::Desc,
    state::State,
    state_file::{encode, encode_old},
};

pub fn all(script: &mut Script) {
    fitted(script);
    old_files(script);
    lengths(script);
}

const MAPPERS: [u16; 4] = [16, 153, 157, 159];

/// Every mapper with listed rules and others. 1, 2 and 3 come before 17.
fn fitted(script: &mut Script) {
    script.about("rules at fitting, on every mapper; 1, 2 and 3 before 17");
    for mapper in MAPPERS {
        let desc = |rule: u8| Desc { rule, ..boards::plain(mapper, 0, 4) };
        for rule in [0, 1, 2, 3, 128, 255] {
            script.fit(&desc(rule));
            script.lines(0, 1, 1);
            script.line("file");
        }
        for refused in [
            Desc { mapper: mapper + 1, ..desc(2) },
            Desc { sizes: [boards::LARGEST + 1; 7], ..desc(2) },
            Desc { nes2: 2, ..desc(2) },
            Desc { mir: 5, ..desc(2) },
            Desc { access: 5, ..desc(255) },
            Desc { access: 5, ..desc(1) },
            desc(2),
        ] {
            script.fit(&refused);
        }
        script.lines(0, 1, 1);
        script.line("state");
    }
}

/// A state of rule 0 from the file that it had when there was no rule, and from today's; both go on alike, and today's
/// is written.
fn old_files(script: &mut Script) {
    script.about("files of 34-byte descriptions, read as rule 0 and written with 35");
    script.resume_old_state(&fresh(Desc { sizes: [0; 7], ..boards::plain(153, 0, 4) }));
    script.line("state");
    script.line("file");
    for mapper in MAPPERS {
        let state = boards::state_of(&mut Rng::new(u64::from(mapper) + 34), boards::plain(mapper, 0, 3));
        for old in [true, false] {
            script.fit(&Desc { rule: 1, ..boards::plain(mapper, 0, 3) });
            script.resume(&if old { encode_old(&state) } else { encode(&state) });
            for value in [0x60, 0x40, 0x20] {
                script.write(0x800D, value);
            }
            script.lines(0, 0, 1);
            script.line("stop");
            script.line("file");
        }
    }
}

/// A board as it is fitted: a 153, which has no reader and no chip.
fn fresh(desc: Desc) -> State {
    State { desc, regs: Default::default(), reader: None, standard: None, extra: None }
}

/// Puts a word at a place of a file.
fn with_word(file: &[u8], at: usize, word: u16) -> Vec<u8> {
    let mut file = file.to_vec();
    file[at..at + 2].copy_from_slice(&word.to_le_bytes());
    file
}

/// Files whose contents and bytes do not go together: all are refused. The length of body 1 stands at 3, the start of
/// body 2 at 11.
fn lengths(script: &mut Script) {
    script.about("files whose description has a wrong length, or an unlisted rule");
    for mapper in MAPPERS {
        let state = boards::state_of(&mut Rng::new(u64::from(mapper) + 35), boards::plain(mapper, 0, 3));
        let (new, old) = (encode(&state), encode_old(&state));
        let start = u16::from_le_bytes([new[5], new[6]]);
        let rule_at = usize::from(start) + 34;
        let mut refused = vec![
            with_word(&new, 3, 34),
            with_word(&old, 3, 35),
            with_word(&with_word(&new, 3, 34), 11, start + 34),
            with_word(&with_word(&old, 3, 35), 11, start + 35),
            with_word(&new, 11, start + 34),
            with_word(&old, 11, start + 35),
            with_word(&new, 3, 33),
            with_word(&new, 3, 36),
            with_word(&new, 3, 35 + 256),
            [&new[..rule_at], &new[rule_at + 1..]].concat(),
            [&old[..rule_at], &[0], &old[rule_at..]].concat(),
            [&old[..], &[0]].concat(),
            old[..old.len() - 1].to_vec(),
        ];
        for rule in [2, 3, 128, 255] {
            let mut file = new.clone();
            file[rule_at] = rule;
            refused.push(file);
        }
        script.fit(&boards::plain(mapper, 0, 4));
        for file in refused {
            script.resume(&file);
        }
        script.line("file");
    }
}
