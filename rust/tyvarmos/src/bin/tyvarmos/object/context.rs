//! The context of a fault, as JSON.

use crate::context::{Context, Numbers, Place};
use crate::json::Object;
use crate::layout::Header;
use crate::meant::Meant;
use crate::parting::Keys;
use crate::range::{End, Range};
use crate::trace::Named;
use crate::twice::Extent;
use crate::walk::Step;

/// The context as an object.
pub fn of(context: &Context, meant: &Meant) -> Object {
    let mut object = Object::default();
    object.number("proved", false);
    if let Some(cause) = &context.cause {
        object.text("cause", cause);
    }
    object.number_or_null("named_by", context.named.as_ref().map(|place| place_object(place, meant)));
    if let Some((twice, place)) = &context.twice {
        object.number("page_in_use", twice.page);
        object.list("used_by", twice.blocks().map(extent_object));
        object.number("first_named_by", place_object(place, meant));
    }
    if let Some((byte, header)) = &context.header {
        object.number("page_byte", byte);
        object.number("header", header_object(header));
    }
    if let Some((byte, numbers)) = &context.element {
        object.number("element_byte", byte);
        object.number("element", number_object(numbers));
    }
    if let Keys::Parted(parting) = &context.keys {
        let keys = parting.sides.each_ref().map(|side| side.key.as_slice());
        let end_told_in_range = usize::from(context.range.is_some());
        object.byte_strings("keys", &keys[end_told_in_range..]);
    }
    if let Some(range) = &context.range {
        object.number("range", range_object(range));
    }
    object
}

fn place_object(place: &Place, meant: &Meant) -> Object {
    let mut object = Object::default();
    let steps = if let Named::Tree(steps) = &place.named { steps.as_slice() } else { &[] };
    let by = match (&place.named, steps, place.byte) {
        (_, [.., _], _) => "element",
        (_, _, None) => "command_line",
        (Named::Tree(_), _, _) if meant.bucket.is_some() => "bucket_entry",
        _ => "meta_page",
    };
    object.text("by", by);
    object.text(
        "as",
        if place.named == Named::Freelist {
            "freelist"
        } else if steps.is_empty() {
            "root"
        } else {
            "child"
        },
    );
    object.number_or_null("page", steps.last().map(|step| step.page));
    object.number_or_null("element", steps.last().map(|step| step.element));
    object.number_or_null("byte", place.byte);
    object.list("path", steps.iter().map(step_object));
    object
}

fn extent_object(extent: Extent) -> Object {
    let mut object = Object::default();
    object.number("first_page", extent.first);
    object.number("last_page", extent.last);
    object.text("type_name", extent.type_name);
    object
}

fn step_object(step: &Step) -> Object {
    let mut object = Object::default();
    object.number("page", step.page);
    object.number("element", step.element);
    object
}

fn header_object(header: &Header) -> Object {
    let mut object = Object::default();
    object.number("id", header.id);
    object.number("type", header.kind);
    object.text("type_name", header.type_name());
    object.number("count", header.count);
    object.number("overflow", header.overflow);
    object
}

fn number_object(numbers: &Numbers) -> Object {
    let mut object = Object::default();
    let element = match numbers {
        Numbers::FreeId(id) => {
            object.number("free_id", id);
            return object;
        }
        Numbers::Branch(element) => {
            object.number("page", element.tag);
            element
        }
        Numbers::Leaf(element) => {
            object.number("kind", element.tag);
            object.number("value_size", element.value_size);
            element
        }
    };
    object.number("key_size", element.key_size);
    object.number("pos", element.pos);
    object
}

fn range_object(range: &Range) -> Object {
    let end = |end: &End| {
        let mut object = step_object(&end.step);
        object.bytes("key", &end.key);
        object
    };
    let mut object = Object::default();
    object.number_or_null("low", range.low.as_ref().map(end));
    object.number_or_null("high", range.high.as_ref().map(end));
    object.text("crossed", if range.below { "low" } else { "high" });
    object
}
