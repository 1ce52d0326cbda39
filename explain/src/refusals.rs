//! The refusals by number: what each means, in a few words and in a sentence, and what to do.

pub struct Refusal {
    /// For the picture.
    pub short: &'static str,
    pub meaning: &'static str,
    pub advice: &'static str,
}

const fn refusal(short: &'static str, meaning: &'static str, advice: &'static str) -> Refusal {
    Refusal { short, meaning, advice }
}

pub fn refused(number: u8) -> Refusal {
    match number {
        1 => refusal("not opened", "a sheet has 1 to 8 bays and at most 128 opening steps", "correct the first line"),
        2 => refusal("damaged end", "the bytes of the end are damaged", "put the last good copy of the end back"),
        3 => refusal("no message", "the bytes are not exactly one message with its fields in range", "log it and drop it"),
        4 => refusal("misdirected", "the message is for another end, line or rank", "log it and drop it"),
        5 => refusal("taken before", "the edit was taken before", "nothing: a repeat is dropped"),
        6 => refusal("earlier edit missing", "an earlier edit is missing", "send the earlier one first"),
        7 => refusal("overtaken", "its sender knew less than a message taken before", "nothing: drop it and send it again as it now is"),
        8 => refusal("acknowledges too many", "it acknowledges edits that were not made", "log it and drop it"),
        9 => refusal(
            "outside the list",
            "the position is outside the list, or the list would pass 512 steps",
            "choose a position on the list",
        ),
        10 => refusal("48 inserts made", "a bay may insert 48 steps", "insert at another bay, or open a new sheet"),
        11 => refusal("400 edits made", "a bay may make 400 edits", "edit at another bay, or open a new sheet"),
        12 => refusal("64 edits pending", "64 edits of a line are not acknowledged", "acknowledge, then try again"),
        13 => refusal("not pending", "that number is not pending", "send a number that is pending"),
        14 => refusal("short buffer", "the message does not fit the lent buffer", "lend 17 bytes"),
        15 => refusal("no packet", "a packet has 1 to 1,400 bytes", "log it and drop it"),
        16 => refusal("bad ranks", "the ranks are not 1 to n, each used once", "correct the ranks"),
        17 => refusal("nothing to take back", "no edit was made yet, or another bay deleted its step", "nothing: edit again"),
        18 => refusal("short end", "the lent bytes of the end are too few", "lend as many bytes as the layout has"),
        _ => refusal("unknown", "a number that this tool does not know", "look into the header of the library"),
    }
}
