//! The context of a fault, in words.

use crate::context::{Context, Numbers, Place};
use crate::keys;
use crate::layout::Header;
use crate::meant::Meant;
use crate::range::{End, Range};
use crate::trace::Named;
use crate::walk::Step;

/// The lines that a person reads below a refusal.
pub fn lines(context: &Context, meant: &Meant, page: u64) -> String {
    let mut lines: Vec<String> = context.cause.iter().map(|cause| format!("cause     {cause}")).collect();
    let page = context.named.as_ref().map_or(page, |place| place.page);
    if let Some(place) = &context.named {
        lines.push(format!("path      {}", path(place, meant)));
        lines.push(format!("named     page {page} is named by {}", named_by(place, meant)));
    }
    if let Some((twice, place)) = &context.twice {
        lines.push(format!("in use    {} is named by {}", twice.first, named_by(place, meant)));
    }
    if let Some((byte, header)) = &context.header {
        lines.push(format!("header    page {page} at byte {byte}: {}", header_words(header)));
    }
    if let Some((byte, numbers)) = &context.element {
        lines.push(format!("element   at byte {byte}: {}", number_words(numbers)));
    }
    if let Some(range) = &context.range {
        lines.push(format!("range     {}", range_words(range)));
    }
    lines.extend(context.keys.lines().into_iter().map(|(name, line)| format!("{name:10}{line}")));
    let lines: String = lines.iter().map(|line| format!("  {line}\n")).collect();
    format!("  help      the lines below are read anew and not proved\n{lines}{}", context.rows)
}

/// The pages from the root on, each with the element that names the next.
fn path(place: &Place, meant: &Meant) -> String {
    let Named::Tree(steps) = &place.named else {
        return format!("freelist page {}", place.page);
    };
    let steps = steps.iter().map(|step| format!("page {}, element {}", step.page, step.element));
    let way: Vec<String> = steps.chain([format!("page {}", place.page)]).collect();
    format!("{}: root {}", meant.name(), way.join(" > "))
}

/// What names a page, and at which byte.
fn named_by(place: &Place, meant: &Meant) -> String {
    let by = match (&place.named, place.byte) {
        (Named::Tree(steps), _) if !steps.is_empty() => {
            let Step { page, element } = steps[steps.len() - 1];
            format!("element {element} of page {page}")
        }
        (_, None) => "the command line".to_string(),
        (Named::Freelist, _) => format!("meta page {}, as freelist page", meta_page(meant)),
        _ if meant.bucket.is_some() => format!("the entry of the {}, as root page", meant.name()),
        _ => format!("meta page {}, as root page", meta_page(meant)),
    };
    place.byte.map_or(by.clone(), |byte| format!("{by}, at byte {byte}"))
}

fn meta_page(meant: &Meant) -> u64 {
    meant.meta.map_or(0, |meta| meta.meta_page)
}

fn header_words(header: &Header) -> String {
    let Header { id, kind, count, overflow } = header;
    format!("id {id}, type {kind} ({}), count {count}, overflow {overflow}", header.type_name())
}

fn number_words(numbers: &Numbers) -> String {
    match numbers {
        Numbers::FreeId(id) => format!("free id {id}"),
        Numbers::Branch(element) => {
            format!("page {}, key size {}, pos {}", element.tag, element.key_size, element.pos)
        }
        Numbers::Leaf(element) => format!(
            "kind {}, pos {}, key size {}, value size {}",
            element.tag, element.pos, element.key_size, element.value_size
        ),
    }
}

fn range_words(range: &Range) -> String {
    let ends = [&range.low, &range.high].map(Option::as_ref);
    let [low_key, high_key] = keys::pair(ends.map(|end| end.map_or(&[][..], |end| &end.key)));
    let place = |End { step, .. }: &End, key| format!("{key} (element {} of page {})", step.element, step.page);
    let low = ends[0].map_or("the lowest key".to_string(), |end| place(end, low_key));
    let high = ends[1]
        .map_or(" to the highest key".to_string(), |end| format!(" up to, not including, {}", place(end, high_key)));
    let crossed = if range.below { "below its lower end" } else { "not below its upper end" };
    format!("from {low}{high}: the key is {crossed}")
}
