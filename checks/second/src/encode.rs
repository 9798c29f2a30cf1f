//! The job encode: the values of the message at the points.

use crate::checks::{self, Refusal, DONE};
use crate::field::Field;
use crate::poly::{symbols, value};

/// Writes the encoded word into the first n bytes of `word`; k is the message's length.
pub fn encode(p: u8, points: &[u8], message: &[u8], word: &mut [u8]) -> u8 {
    match checked(p, points, message, word) {
        Err(refusal) => refusal.number(),
        Ok(field) => {
            let message = symbols(message);
            for (place, &point) in points.iter().enumerate() {
                word[place] = value(field, &message, i64::from(point)) as u8;
            }
            DONE
        }
    }
}

fn checked(p: u8, points: &[u8], message: &[u8], word: &[u8]) -> Result<Field, Refusal> {
    let field = checks::field(p)?;
    checks::point_count(points.len(), p)?;
    checks::message_length(message.len(), points.len())?;
    checks::symbols(p, points, message)?;
    checks::points_differ(points)?;
    checks::room(word, points.len())?;
    Ok(field)
}
