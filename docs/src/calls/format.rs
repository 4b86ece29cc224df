//! The file format of calls and of their outcomes. A word is 4 bytes, big-endian.
//!
//! A case is 20 words, three lists of words, and a list of bytes:
//!
//!   0       the call: 1 share of A, 2 share of B, 3 product, 4 write a message, 5 read a message,
//!           6 signed reading, 7 its way back, 8 draw masks, 9 write a page, 10 plan, 11 a host's
//!           whole part
//!   1..=14  the call's numbers, unused ones 0
//!             share           modulus number, t, s, r, m, p, n, X_A, X_B, N, job number, opening,
//!                             closing, host
//!             product         modulus number, rows, inner, columns
//!             write           kind, modulus number, host, rows, columns, job number
//!             signed reading  modulus number, element
//!             way back        modulus number, value: the high word and the low one
//!             draw            modulus number
//!             page            modulus number, t, r
//!             plan            the thirteen numbers of a share's job
//!             whole part      length of A's message
//!   15      length of list 1: the points of a share or a plan
//!   16      length of list 2: a share's matrix, a product's a, the elements to write, the words to draw
//!           masks from, a page's table
//!   17      length of list 3: a share's masks, a product's b
//!   18      length of the list of bytes: the message to read; of a whole part A's message, then B's
//!   19      length of the output: in bytes for a message or a page to write and for a whole part, else in
//!           elements
//!
//! A signed value has 64 bits in two's complement, and goes as two words, the high one first.
//!
//! An outcome is the refusal number, 0 for a call that was done; then, of a message that was read,
//! kind, modulus number, host, rows, columns and job number, of an element that was read its signed
//! value in two words, of a value taken back its element, of masks that were drawn the number of words
//! used, of a plan that was accepted the layout's number, K, and the rows, inner side and columns of the
//! blocks, and of a whole part, done or refused, how many bytes it says were written, which is A5A5A5A5
//! hex before the call; then the output after the call. Before it every byte of the output is A5 hex. Of
//! the output the part up to the last element that is not A5A5A5A5 hex is told (where its length is in
//! bytes: the last byte that is not A5): a word with its length, then the elements as words, or the bytes.
//! Signed reading, its way back and a plan have an output of length 0.

use crate::sheet::answer::{answer, Answering};
use crate::sheet::masks::{draw, Drawing};
use crate::sheet::message::{read, write, Fields, Reading, Writing};
use crate::sheet::page::{page, Paging};
use crate::sheet::plan::{plan, Planning};
use crate::sheet::product::{product, Multiplying};
use crate::sheet::share::{share, Sharing, Side};
use crate::sheet::signed::{signed_reading, way_back, SignedReading, WayBack};

/// What every byte of the output is before a call.
const FILLING: u8 = 0xA5;

/// A call with its input and the length of its output.
#[derive(Clone)]
pub enum Call {
    Share(Sharing),
    Product(Multiplying),
    Write(Writing),
    Read(Reading),
    Signed(SignedReading),
    Back(WayBack),
    Draw(Drawing),
    Page(Paging),
    Plan(Planning),
    Answer(Answering),
}

/// A case before it is made into bytes.
struct Case<'a> {
    call: u32,
    numbers: Vec<u32>,
    lists: [&'a [u32]; 3],
    messages: [&'a [u8]; 2],
    room: usize,
}

/// The bytes of a call's case.
pub fn case(call: &Call) -> Vec<u8> {
    bytes_of(&match call {
        Call::Share(call) => share_case(call),
        Call::Product(call) => product_case(call),
        Call::Write(call) => write_case(call),
        Call::Read(call) => read_case(call),
        Call::Signed(call) => numbers_case(6, vec![call.modulus, call.element]),
        Call::Back(call) => {
            let [high, low] = signed_words(call.value);
            numbers_case(7, vec![call.modulus, high, low])
        }
        Call::Draw(call) => draw_case(call),
        Call::Page(call) => page_case(call),
        Call::Plan(call) => plan_case(call),
        Call::Answer(call) => answer_case(call),
    })
}

/// The case of a share.
fn share_case(call: &Sharing) -> Case<'_> {
    Case {
        call: if call.side == Side::A { 1 } else { 2 },
        numbers: [call.job.numbers(call.job_number), vec![call.host]].concat(),
        lists: [&call.points, &call.matrix, &call.masks],
        messages: [&[]; 2],
        room: call.room,
    }
}

/// The case of a product.
fn product_case(call: &Multiplying) -> Case<'_> {
    Case {
        call: 3,
        numbers: vec![call.modulus, call.rows, call.inner, call.columns],
        lists: [&[], &call.a, &call.b],
        messages: [&[]; 2],
        room: call.room,
    }
}

/// The case of a message to write.
fn write_case(call: &Writing) -> Case<'_> {
    Case {
        call: 4,
        numbers: field_words(&call.fields).to_vec(),
        lists: [&[], &call.elements, &[]],
        messages: [&[]; 2],
        room: call.room,
    }
}

/// The case of a message to read.
fn read_case(call: &Reading) -> Case<'_> {
    Case {
        call: 5,
        numbers: Vec::new(),
        lists: [&[]; 3],
        messages: [&call.message, &[]],
        room: call.room,
    }
}

/// The case of masks to draw.
fn draw_case(call: &Drawing) -> Case<'_> {
    Case {
        call: 8,
        numbers: vec![call.modulus],
        lists: [&[], &call.words, &[]],
        messages: [&[]; 2],
        room: call.room,
    }
}

/// The case of a page to write.
fn page_case(call: &Paging) -> Case<'_> {
    Case {
        call: 9,
        numbers: vec![call.modulus, call.t, call.r],
        lists: [&[], &call.table, &[]],
        messages: [&[]; 2],
        room: call.room,
    }
}

/// The case of a plan.
fn plan_case(call: &Planning) -> Case<'_> {
    Case {
        lists: [&call.points, &[], &[]],
        ..numbers_case(10, call.job.numbers(call.job_number))
    }
}

/// The case of a host's whole part.
fn answer_case(call: &Answering) -> Case<'_> {
    Case {
        messages: [&call.a, &call.b],
        room: call.room,
        ..numbers_case(11, vec![call.a.len() as u32])
    }
}

/// The case of a call that has numbers alone.
fn numbers_case<'a>(call: u32, numbers: Vec<u32>) -> Case<'a> {
    Case {
        call,
        numbers,
        lists: [&[]; 3],
        messages: [&[]; 2],
        room: 0,
    }
}

/// The high and the low word of a signed value.
fn signed_words(value: i64) -> [u32; 2] {
    [(value >> 32) as u32, value as u32]
}

/// A message's fields in the order in which they are written.
fn field_words(fields: &Fields) -> [u32; 6] {
    [
        fields.kind,
        fields.modulus,
        fields.host,
        fields.rows,
        fields.columns,
        fields.job_number,
    ]
}

/// The bytes of a case; panics if it is over the limits that the program on the other side has.
fn bytes_of(case: &Case) -> Vec<u8> {
    let lengths = case.lists.map(<[u32]>::len);
    let most_room = match case.call {
        4 | 11 => 40_000,
        9 => 400_000,
        _ => 8192,
    };
    assert!(lengths[0] <= 128 && lengths.iter().sum::<usize>() <= 32_896);
    let messages = case.messages.concat();
    assert!(messages.len() <= 40_000 && case.room <= most_room);
    let mut head = vec![case.call];
    head.extend(&case.numbers);
    head.resize(15, 0);
    head.extend(lengths.map(|length| length as u32));
    head.extend([messages.len() as u32, case.room as u32]);
    let mut bytes = words(&head);
    bytes.extend(case.lists.iter().flat_map(|list| words(list)));
    bytes.extend(messages);
    bytes
}

/// Numbers as words.
pub fn words(numbers: &[u32]) -> Vec<u8> {
    numbers.iter().flat_map(|word| word.to_be_bytes()).collect()
}

/// The refusal number of a call, 0 if it is done.
pub fn number(call: &Call) -> u32 {
    let refused = match call {
        Call::Share(call) => share(call).err(),
        Call::Product(call) => product(call).err(),
        Call::Write(call) => write(call).err(),
        Call::Read(call) => read(call).err(),
        Call::Signed(call) => signed_reading(call).err(),
        Call::Back(call) => way_back(call).err(),
        Call::Draw(call) => draw(call).err(),
        Call::Page(call) => page(call).err(),
        Call::Plan(call) => plan(call).err(),
        Call::Answer(call) => answer(call).err(),
    };
    refused.unwrap_or(0)
}

/// The bytes of a call's outcome.
pub fn outcome(call: &Call) -> Vec<u8> {
    let mut bytes = words(&[number(call)]);
    bytes.extend(match call {
        Call::Share(call) => elements_told(&share(call).unwrap_or_default(), call.room),
        Call::Product(call) => elements_told(&product(call).unwrap_or_default(), call.room),
        Call::Write(call) => bytes_told(&write(call).unwrap_or_default(), call.room),
        Call::Read(call) => reading_told(call),
        Call::Signed(call) => value_told(signed_reading(call).map(signed_words)),
        Call::Back(call) => value_told(way_back(call).map(|element| [element])),
        Call::Draw(call) => drawing_told(call),
        Call::Page(call) => bytes_told(&page(call).unwrap_or_default(), call.room),
        Call::Plan(call) => value_told(plan(call)),
        Call::Answer(call) => answer_told(call),
    });
    bytes
}

/// The fields of a message that is read, then the output; of a refused one the output alone.
fn reading_told(call: &Reading) -> Vec<u8> {
    match read(call) {
        Ok((fields, elements)) => {
            let mut bytes = words(&field_words(&fields));
            bytes.extend(elements_told(&elements, call.room));
            bytes
        }
        Err(_) => elements_told(&[], call.room),
    }
}

/// How many words a drawing used, then the output; of a refused one the output alone.
fn drawing_told(call: &Drawing) -> Vec<u8> {
    match draw(call) {
        Ok(drawn) => {
            let mut bytes = words(&[drawn.used as u32]);
            bytes.extend(elements_told(&drawn.elements, call.room));
            bytes
        }
        Err(_) => elements_told(&[], call.room),
    }
}

/// How many bytes a whole part says were written, the filling where it is refused; then the output.
fn answer_told(call: &Answering) -> Vec<u8> {
    let (written, message) = match answer(call) {
        Ok(message) => (message.len() as u32, message),
        Err(_) => (u32::from_be_bytes([FILLING; 4]), Vec::new()),
    };
    let mut bytes = words(&[written]);
    bytes.extend(bytes_told(&message, call.room));
    bytes
}

/// The words of a value, of a refused call none; then an output of length 0.
fn value_told<const N: usize>(value: Result<[u32; N], u32>) -> Vec<u8> {
    let mut bytes = value.map_or(Vec::new(), |value| words(&value));
    bytes.extend(elements_told(&[], 0));
    bytes
}

/// The output after a call that wrote these elements.
pub fn elements_told(written: &[u32], room: usize) -> Vec<u8> {
    let told = trimmed(written, room, u32::from_be_bytes([FILLING; 4]));
    let mut bytes = words(&[told.len() as u32]);
    bytes.extend(words(&told));
    bytes
}

/// The output after a call that wrote these bytes.
fn bytes_told(written: &[u8], room: usize) -> Vec<u8> {
    let told = trimmed(written, room, FILLING);
    let mut bytes = words(&[told.len() as u32]);
    bytes.extend(told);
    bytes
}

/// An output of this length after something was written to its front, up to the last of it
/// that differs from the filling.
fn trimmed<T: Copy + PartialEq>(written: &[T], room: usize, filling: T) -> Vec<T> {
    let mut output = vec![filling; room];
    output[..written.len()].copy_from_slice(written);
    let length = output
        .iter()
        .rposition(|&told| told != filling)
        .map_or(0, |last| last + 1);
    output.truncate(length);
    output
}
