// Our library: the C functions of crate `corbelnib`, and the same with slices. A slice crosses as its start and its length.
use crate::lent::Scratch;

mod c {
    extern "C" {
        pub fn corbelnib_examine(board: *const u8, board_len: usize) -> u8;
        pub fn corbelnib_read(
            image: *const u8,
            image_len: usize,
            board: *mut u8,
            board_len: usize,
        ) -> u8;
        pub fn corbelnib_deal(
            deck: *const u8,
            deck_len: usize,
            board: *mut u8,
            board_len: usize,
        ) -> u8;
        pub fn corbelnib_number(number: usize, board: *mut u8, board_len: usize) -> u8;
        pub fn corbelnib_move(
            board: *const u8,
            board_len: usize,
            record: *const u8,
            record_len: usize,
            after: *mut u8,
            after_len: usize,
        ) -> u8;
        pub fn corbelnib_replay(
            board: *const u8,
            board_len: usize,
            list: *const u8,
            list_len: usize,
            after: *mut u8,
            after_len: usize,
            played: *mut usize,
        ) -> u8;
        pub fn corbelnib_moves(
            board: *const u8,
            board_len: usize,
            kind: u8,
            records: *mut u8,
            records_len: usize,
            count: *mut usize,
        ) -> u8;
        pub fn corbelnib_candidates(
            board: *const u8,
            board_len: usize,
            records: *mut u8,
            records_len: usize,
            count: *mut usize,
        ) -> u8;
        pub fn corbelnib_priority(
            board: *const u8,
            board_len: usize,
            record: *const u8,
            record_len: usize,
            priority: *mut i64,
        ) -> u8;
        pub fn corbelnib_chain(
            board: *const u8,
            board_len: usize,
            after: *mut u8,
            after_len: usize,
            moves: *mut usize,
        ) -> u8;
        pub fn corbelnib_safe(
            board: *const u8,
            board_len: usize,
            record: *mut u8,
            record_len: usize,
            count: *mut usize,
        ) -> u8;
        pub fn corbelnib_top(
            board: *const u8,
            board_len: usize,
            column: usize,
            code: *mut u8,
        ) -> u8;
        pub fn corbelnib_cell(board: *const u8, board_len: usize, cell: usize, code: *mut u8)
            -> u8;
        pub fn corbelnib_home(
            board: *const u8,
            board_len: usize,
            suit: usize,
            count: *mut usize,
        ) -> u8;
        pub fn corbelnib_most(
            board: *const u8,
            board_len: usize,
            column: usize,
            count: *mut usize,
        ) -> u8;
        pub fn corbelnib_won(board: *const u8, board_len: usize, won: *mut u8) -> u8;
        pub fn corbelnib_features(
            board: *const u8,
            board_len: usize,
            features: *mut u64,
            features_len: usize,
        ) -> u8;
        pub fn corbelnib_scores(
            board: *const u8,
            board_len: usize,
            heuristic: *mut i64,
            progress: *mut i64,
        ) -> u8;
        pub fn corbelnib_signature(board: *const u8, board_len: usize, signature: *mut u64) -> u8;
        pub fn corbelnib_token(
            board: *const u8,
            board_len: usize,
            text: *mut u8,
            text_len: usize,
            count: *mut usize,
        ) -> u8;
        pub fn corbelnib_read_line(
            board: *const u8,
            board_len: usize,
            text: *const u8,
            text_len: usize,
            list: *mut u8,
            list_len: usize,
            count: *mut usize,
        ) -> u8;
        pub fn corbelnib_write_line(
            board: *const u8,
            board_len: usize,
            list: *const u8,
            list_len: usize,
            text: *mut u8,
            text_len: usize,
            count: *mut usize,
        ) -> u8;
        pub fn corbelnib_capacity(nodes: usize, heap: usize, keys: usize, costs: usize) -> usize;
        pub fn corbelnib_judge(
            board: *const u8,
            board_len: usize,
            budget: usize,
            partial: u8,
            nodes: *mut u32,
            nodes_len: usize,
            heap: *mut u64,
            heap_len: usize,
            keys: *mut u64,
            keys_len: usize,
            costs: *mut u8,
            costs_len: usize,
            list: *mut u8,
            list_len: usize,
            pops: *mut usize,
            moves: *mut usize,
        ) -> u8;
        pub fn corbelnib_season(
            first: usize,
            last: usize,
            budget: usize,
            partial: u8,
            nodes: *mut u32,
            nodes_len: usize,
            heap: *mut u64,
            heap_len: usize,
            keys: *mut u64,
            keys_len: usize,
            costs: *mut u8,
            costs_len: usize,
            sheet: *mut u64,
            sheet_len: usize,
        ) -> u8;
        pub fn corbelnib_add(
            into: *mut u64,
            into_len: usize,
            other: *const u64,
            other_len: usize,
        ) -> u8;
    }
}

pub fn examine(board: &[u8]) -> u8 {
    unsafe { c::corbelnib_examine(board.as_ptr(), board.len()) }
}

pub fn read(image: &[u8], board: &mut [u8]) -> u8 {
    unsafe { c::corbelnib_read(image.as_ptr(), image.len(), board.as_mut_ptr(), board.len()) }
}

pub fn deal(deck: &[u8], board: &mut [u8]) -> u8 {
    unsafe { c::corbelnib_deal(deck.as_ptr(), deck.len(), board.as_mut_ptr(), board.len()) }
}

pub fn number(number: usize, board: &mut [u8]) -> u8 {
    unsafe { c::corbelnib_number(number, board.as_mut_ptr(), board.len()) }
}

pub fn play(board: &[u8], record: &[u8], after: &mut [u8]) -> u8 {
    unsafe {
        c::corbelnib_move(
            board.as_ptr(),
            board.len(),
            record.as_ptr(),
            record.len(),
            after.as_mut_ptr(),
            after.len(),
        )
    }
}

pub fn replay(board: &[u8], list: &[u8], after: &mut [u8], played: &mut usize) -> u8 {
    unsafe {
        c::corbelnib_replay(
            board.as_ptr(),
            board.len(),
            list.as_ptr(),
            list.len(),
            after.as_mut_ptr(),
            after.len(),
            played,
        )
    }
}

pub fn moves(board: &[u8], kind: u8, records: &mut [u8], count: &mut usize) -> u8 {
    unsafe {
        c::corbelnib_moves(
            board.as_ptr(),
            board.len(),
            kind,
            records.as_mut_ptr(),
            records.len(),
            count,
        )
    }
}

pub fn candidates(board: &[u8], records: &mut [u8], count: &mut usize) -> u8 {
    unsafe {
        c::corbelnib_candidates(
            board.as_ptr(),
            board.len(),
            records.as_mut_ptr(),
            records.len(),
            count,
        )
    }
}

pub fn priority(board: &[u8], record: &[u8], priority: &mut i64) -> u8 {
    unsafe {
        c::corbelnib_priority(
            board.as_ptr(),
            board.len(),
            record.as_ptr(),
            record.len(),
            priority,
        )
    }
}

pub fn chain(board: &[u8], after: &mut [u8], moves: &mut usize) -> u8 {
    unsafe {
        c::corbelnib_chain(
            board.as_ptr(),
            board.len(),
            after.as_mut_ptr(),
            after.len(),
            moves,
        )
    }
}

pub fn safe(board: &[u8], record: &mut [u8], count: &mut usize) -> u8 {
    unsafe {
        c::corbelnib_safe(
            board.as_ptr(),
            board.len(),
            record.as_mut_ptr(),
            record.len(),
            count,
        )
    }
}

pub fn top(board: &[u8], column: usize, code: &mut u8) -> u8 {
    unsafe { c::corbelnib_top(board.as_ptr(), board.len(), column, code) }
}

pub fn cell(board: &[u8], cell: usize, code: &mut u8) -> u8 {
    unsafe { c::corbelnib_cell(board.as_ptr(), board.len(), cell, code) }
}

pub fn home(board: &[u8], suit: usize, count: &mut usize) -> u8 {
    unsafe { c::corbelnib_home(board.as_ptr(), board.len(), suit, count) }
}

pub fn most(board: &[u8], column: usize, count: &mut usize) -> u8 {
    unsafe { c::corbelnib_most(board.as_ptr(), board.len(), column, count) }
}

pub fn won(board: &[u8], won: &mut u8) -> u8 {
    unsafe { c::corbelnib_won(board.as_ptr(), board.len(), won) }
}

pub fn features(board: &[u8], features: &mut [u64]) -> u8 {
    unsafe {
        c::corbelnib_features(
            board.as_ptr(),
            board.len(),
            features.as_mut_ptr(),
            features.len(),
        )
    }
}

pub fn scores(board: &[u8], heuristic: &mut i64, progress: &mut i64) -> u8 {
    unsafe { c::corbelnib_scores(board.as_ptr(), board.len(), heuristic, progress) }
}

pub fn signature(board: &[u8], signature: &mut u64) -> u8 {
    unsafe { c::corbelnib_signature(board.as_ptr(), board.len(), signature) }
}

pub fn token(board: &[u8], text: &mut [u8], count: &mut usize) -> u8 {
    unsafe {
        c::corbelnib_token(
            board.as_ptr(),
            board.len(),
            text.as_mut_ptr(),
            text.len(),
            count,
        )
    }
}

pub fn read_line(board: &[u8], text: &[u8], list: &mut [u8], count: &mut usize) -> u8 {
    unsafe {
        c::corbelnib_read_line(
            board.as_ptr(),
            board.len(),
            text.as_ptr(),
            text.len(),
            list.as_mut_ptr(),
            list.len(),
            count,
        )
    }
}

pub fn write_line(board: &[u8], list: &[u8], text: &mut [u8], count: &mut usize) -> u8 {
    unsafe {
        c::corbelnib_write_line(
            board.as_ptr(),
            board.len(),
            list.as_ptr(),
            list.len(),
            text.as_mut_ptr(),
            text.len(),
            count,
        )
    }
}

pub fn capacity(nodes: usize, heap: usize, keys: usize, costs: usize) -> usize {
    unsafe { c::corbelnib_capacity(nodes, heap, keys, costs) }
}

pub fn judge(
    board: &[u8],
    budget: usize,
    partial: u8,
    scratch: &mut Scratch,
    list: &mut [u8],
    pops: &mut usize,
    moves: &mut usize,
) -> u8 {
    let (nodes, heap) = (scratch.nodes.lent(), scratch.heap.lent());
    let (keys, costs) = (scratch.keys.lent(), scratch.costs.lent());
    unsafe {
        c::corbelnib_judge(
            board.as_ptr(),
            board.len(),
            budget,
            partial,
            nodes.as_mut_ptr(),
            nodes.len(),
            heap.as_mut_ptr(),
            heap.len(),
            keys.as_mut_ptr(),
            keys.len(),
            costs.as_mut_ptr(),
            costs.len(),
            list.as_mut_ptr(),
            list.len(),
            pops,
            moves,
        )
    }
}

pub fn season(
    (first, last): (usize, usize),
    budget: usize,
    partial: u8,
    scratch: &mut Scratch,
    sheet: &mut [u64],
) -> u8 {
    let (nodes, heap) = (scratch.nodes.lent(), scratch.heap.lent());
    let (keys, costs) = (scratch.keys.lent(), scratch.costs.lent());
    unsafe {
        c::corbelnib_season(
            first,
            last,
            budget,
            partial,
            nodes.as_mut_ptr(),
            nodes.len(),
            heap.as_mut_ptr(),
            heap.len(),
            keys.as_mut_ptr(),
            keys.len(),
            costs.as_mut_ptr(),
            costs.len(),
            sheet.as_mut_ptr(),
            sheet.len(),
        )
    }
}

pub fn add(into: &mut [u64], other: &[u64]) -> u8 {
    unsafe { c::corbelnib_add(into.as_mut_ptr(), into.len(), other.as_ptr(), other.len()) }
}
