//! The calls of alphamu.h as C has them.

/// The card to play, and the weight that it wins.
#[repr(C)]
#[derive(Clone, Copy, Debug, Default, PartialEq, Eq)]
pub struct Choice {
    /// The card's number, 0 to 51.
    pub card: u32,
    /// The weight of the layouts in which it makes the contract.
    pub weight: u32,
}

#[repr(C)]
pub struct Question {
    pub declarer: u64,
    pub dummy: u64,
    pub unseen: u64,
    pub nodes: u64,
    pub trick: [u32; 3],
    pub played: u32,
    pub leader: u32,
    pub trump: u32,
    pub need: u32,
    pub moves: u32,
}

#[repr(C)]
#[derive(Clone, Copy, Default)]
pub struct Worth {
    pub vector: [u64; 4],
    pub card: u32,
    pub weight: u32,
    pub double_dummy: u32,
}

#[repr(C)]
#[derive(Clone, Copy, Default)]
pub struct Node {
    pub first_reply: usize,
    pub replies: usize,
    pub card: u32,
}

extern "C" {
    pub fn alphamu_version() -> u32;
    pub fn alphamu_report(
        deal: *const u8,
        deal_length: usize,
        layouts: *const u8,
        layouts_length: usize,
        moves: u32,
        nodes: u64,
        out: *mut u8,
        out_length: usize,
        written: *mut usize,
    ) -> u32;
    pub fn alphamu_card(
        deal: *const u8,
        deal_length: usize,
        layouts: *const u8,
        layouts_length: usize,
        moves: u32,
        nodes: u64,
        out: *mut u8,
        out_length: usize,
        written: *mut usize,
    ) -> u32;
    pub fn alphamu_fusion(
        deal: *const u8,
        deal_length: usize,
        layouts: *const u8,
        layouts_length: usize,
        out: *mut u8,
        out_length: usize,
        written: *mut usize,
    ) -> u32;
    pub fn alphamu_list(
        deal: *const u8,
        deal_length: usize,
        out: *mut u8,
        out_length: usize,
        written: *mut usize,
    ) -> u32;
    pub fn alphamu_check(
        deal: *const u8,
        deal_length: usize,
        layouts: *const u8,
        layouts_length: usize,
        report: *const u8,
        report_length: usize,
        out: *mut u8,
        out_length: usize,
        written: *mut usize,
    ) -> u32;
    pub fn alphamu_bits_card(
        question: *const Question,
        lefts: *const u64,
        lefts_length: usize,
        weights: *const u32,
        weights_length: usize,
        choice: *mut Choice,
    ) -> u32;
    pub fn alphamu_bits_cards(
        question: *const Question,
        lefts: *const u64,
        lefts_length: usize,
        weights: *const u32,
        weights_length: usize,
        worths: *mut Worth,
        worths_length: usize,
        written: *mut usize,
    ) -> u32;
    pub fn alphamu_bits_front(
        question: *const Question,
        lefts: *const u64,
        lefts_length: usize,
        weights: *const u32,
        weights_length: usize,
        vectors: *mut u64,
        vectors_length: usize,
        written: *mut usize,
    ) -> u32;
    pub fn alphamu_bits_strategy(
        question: *const Question,
        lefts: *const u64,
        lefts_length: usize,
        weights: *const u32,
        weights_length: usize,
        vector: usize,
        nodes: *mut Node,
        nodes_length: usize,
        written: *mut usize,
    ) -> u32;
}
