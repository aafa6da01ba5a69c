//! Questions by text: files in, the program's text out.
use crate::error::{Error, DONE, NO_ROOM};
use crate::raw;

/// The text that a call writes to a buffer, with a second try if the text is long.
fn asked(call: impl Fn(*mut u8, usize, *mut usize) -> u32) -> Result<String, Error> {
    let mut out = vec![0u8; 1 << 16];
    loop {
        let mut written = 0;
        let status = call(out.as_mut_ptr(), out.len(), &mut written);
        if status == NO_ROOM {
            out.resize(written, 0);
            continue;
        }
        out.truncate(written);
        let text = String::from_utf8_lossy(&out).into_owned();
        return if status == DONE {
            Ok(text)
        } else {
            Err(Error {
                status,
                line: text.trim_end().to_owned(),
            })
        };
    }
}

// SAFETY of the calls below: each pointer is that of a slice with its length, and never null; what
// is written to is borrowed by nobody else; and the library keeps no pointer.

/// The report: each best trade-off between the layouts, a strategy for it, and the card to play.
pub fn report(deal: &[u8], layouts: &[u8], moves: u32, nodes: u64) -> Result<String, Error> {
    asked(|out, room, written| unsafe {
        let (deal, deal_length, layouts, layouts_length) =
            (deal.as_ptr(), deal.len(), layouts.as_ptr(), layouts.len());
        raw::alphamu_report(
            deal,
            deal_length,
            layouts,
            layouts_length,
            moves,
            nodes,
            out,
            room,
            written,
        )
    })
}

/// The card to play, with its weight.
pub fn card(deal: &[u8], layouts: &[u8], moves: u32, nodes: u64) -> Result<String, Error> {
    asked(|out, room, written| unsafe {
        let (deal, deal_length, layouts, layouts_length) =
            (deal.as_ptr(), deal.len(), layouts.as_ptr(), layouts.len());
        raw::alphamu_card(
            deal,
            deal_length,
            layouts,
            layouts_length,
            moves,
            nodes,
            out,
            room,
            written,
        )
    })
}

/// What a simulation with open hands believes of each card.
pub fn fusion(deal: &[u8], layouts: &[u8]) -> Result<String, Error> {
    asked(|out, room, written| unsafe {
        raw::alphamu_fusion(
            deal.as_ptr(),
            deal.len(),
            layouts.as_ptr(),
            layouts.len(),
            out,
            room,
            written,
        )
    })
}

/// A layout file of all layouts that the play of the deal allows.
pub fn list_layouts(deal: &[u8]) -> Result<String, Error> {
    asked(|out, room, written| unsafe {
        raw::alphamu_list(deal.as_ptr(), deal.len(), out, room, written)
    })
}

/// Whether each plan of a report wins exactly its vector. A plan at fault is an error with status
/// 1.
pub fn check(deal: &[u8], layouts: &[u8], report: &[u8]) -> Result<String, Error> {
    asked(|out, room, written| unsafe {
        let (deal, deal_length, layouts, layouts_length) =
            (deal.as_ptr(), deal.len(), layouts.as_ptr(), layouts.len());
        raw::alphamu_check(
            deal,
            deal_length,
            layouts,
            layouts_length,
            report.as_ptr(),
            report.len(),
            out,
            room,
            written,
        )
    })
}
