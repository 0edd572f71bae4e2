//! The wrong variants of the reference: a name, a place of src/reference.rs, and what stands there instead.
//! They show that the comparison can fail; several are the document's own "Errors that look right".

pub const WRONG: &[(&str, &str, &str)] = &[
    (
        "tie-by-higher-crossing",
        "|&(distance, crossing)| (distance, crossing)",
        "|&(distance, crossing)| (distance, u32::MAX - crossing)",
    ),
    (
        "tie-by-higher-link",
        "number < way.link",
        "number > way.link",
    ),
    (
        "tie-replaces-no-link",
        "number < way.link",
        "way.link == 0 || number < way.link",
    ),
    ("ceiling-passed-over", "sum > CEILING", "sum >= CEILING"),
    ("done-at-the-limit", "far > limit", "far >= limit"),
    ("mark-below-the-limit", "<= limit", "< limit"),
    (
        "mark-only-the-settled",
        "turned.mark_all();",
        "turned.marks[crossing as usize - 1] = turned.mark(crossing);",
    ),
    (
        "marks-on-done",
        "return Ok(None);",
        "turned.mark_all(); bench[..bench_length(n)].copy_from_slice(&turned.words()); return Ok(None);",
    ),
    (
        "stop-at-the-target",
        "(!over).then_some",
        "(!over && self.half(side).settled(self.ends(side).1).is_none()).then_some",
    ),
    (
        "divide-first",
        "u64::from(self.stretch) * u64::from(optimum)",
        "u64::from(self.stretch) / 1_000 * u64::from(optimum) * 1_000",
    ),
    (
        "limit-rounded-up",
        "Some(u64::from(self.stretch) * u64::from(optimum))",
        "Some((u64::from(self.stretch) * u64::from(optimum)).div_ceil(1_000) * 1_000)",
    ),
    (
        "optimum-twice",
        "crossing == end && self.optimum.is_none()",
        "crossing == end",
    ),
    ("locality-strict", "d > locality", "d >= locality"),
    (
        "unsound-before-no-route",
        "if self.optimum.is_none() {",
        "if self.optimum.is_none() && self.is_sound(links) {",
    ),
    (
        "done-before-mask",
        "let part = mask.get_mut(",
        "bench.check_finished(&links)?; let part = mask.get_mut(",
    ),
    (
        "buffer-before-mark",
        "if !bench.is_marked(crossing) {",
        "if buffer.is_empty() { return Err(3); } if !bench.is_marked(crossing) {",
    ),
    ("route-names-twice", ".skip(1)", ".skip(0)"),
    (
        "cost-before-head",
        "check_crossing(n, head)?;",
        "check_cost(cost)?; check_crossing(n, head)?;",
    ),
    (
        "leading-zero",
        "field.len() > 1 && field[0]",
        "field.len() > 10 && field[0]",
    ),
    (
        "last-line-feed",
        "bytes.strip_suffix(b\"\\n\")?",
        "bytes.strip_suffix(b\"\\n\").unwrap_or(bytes)",
    ),
    (
        "room-of-the-map",
        "room < 3 * m as usize",
        "room <= 3 * m as usize",
    ),
    (
        "length-of-the-text",
        "text.len() > MOST_TEXT",
        "text.len() >= MOST_TEXT",
    ),
    (
        "length-in-the-program",
        "text.len() > PROGRAM_TEXT",
        "text.len() >= PROGRAM_TEXT",
    ),
];
