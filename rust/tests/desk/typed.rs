//! Lines as they are typed at the desk, and lines of random sessions.
use crate::reference::books::{Asked, DESK};
use crate::reference::draws::{
    draw, draw_bundle, draw_crew, draw_grant, draw_pending, draw_serial,
};
use crate::reference::Random;

use super::NaiveDesk;

/// A grant's numbers as they are typed; the desk may go unnamed.
pub fn typed_grant(asked: Asked, name_the_desk: bool) -> String {
    let unnamed = asked[4] == DESK && !name_the_desk;
    let count = asked.len() - unnamed as usize;
    let words: Vec<String> = asked[..count].iter().map(u16::to_string).collect();
    words.join(" ")
}

/// A bundle as it is typed, with this between its lines; every other line names the desk.
pub fn typed(lines: &[Asked], between: &str) -> String {
    let line = |(i, asked): (usize, &Asked)| typed_grant(*asked, i % 2 == 1);
    let words: Vec<String> = lines.iter().enumerate().map(line).collect();
    format!("preview {}", words.join(between))
}

/// A crew behind the numbers of a question, or nothing for the desk.
fn draw_behind(random: &mut Random) -> String {
    match random.below(2) {
        0 => String::new(),
        _ => format!(" {}", draw_crew(random)),
    }
}

/// A line of a random session.
pub fn draw_line(random: &mut Random, desk: &NaiveDesk) -> String {
    let Some(book) = &desk.book() else {
        return format!("open {} {}\n", draw(random, 256), draw(random, 128));
    };
    let serial = match random.below(4) {
        0 => draw(random, book.grants.saturating_add(2)),
        _ => draw_serial(random, book),
    };
    let pending = draw_pending(random, book);
    let line = match random.below(16) {
        0 => format!("open {} {}", draw(random, 256), draw(random, 128)),
        1 => {
            let commands = ["count", "list", "pending", "revision", "help", ""];
            commands[random.below(6) as usize].to_string()
        }
        2 => format!("show  {serial} {}", draw_behind(random)),
        3 => {
            let (link, colour) = (draw(random, book.n), draw(random, book.w));
            format!("holder {link} {colour}{}", draw_behind(random))
        }
        4 => typed(
            &draw_bundle(random, book.n, book.w),
            [",", ", "][random.below(2) as usize],
        ),
        5 | 6 => format!("remove {serial}"),
        7 => format!("confirm {pending}"),
        8 => format!("confirm {serial}"),
        _ => {
            let asked = draw_grant(random, book.n, book.w);
            format!("grant {}", typed_grant(asked, random.below(2) == 0))
        }
    };
    let mut bytes = line.into_bytes();
    if !bytes.is_empty() && random.below(40) == 0 {
        let at = random.below(bytes.len() as u64) as usize;
        bytes[at] = b"09 xG-,"[random.below(7) as usize];
    }
    String::from_utf8(bytes).unwrap() + "\n"
}
