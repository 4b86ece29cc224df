//! The command's arguments, as bytes: options and operands in the order given.
//!
//!   Usage     what a command takes
//!   Item      an option, an option with its value, or an operand
//!   items     the items of a command's arguments
//!   operands  the operands of a command without options
//!   exactly   operands, where there must be so many
//!   number    a number of 32 bits as the value of an option

use crate::fault::{wrong_use, Done, Fault};
use crate::text::{shown, whole_32};
use std::ffi::{OsStr, OsString};
use std::os::unix::ffi::OsStrExt;

/// What a command takes: how it is used, its options, and those that have a value.
pub struct Usage {
    pub text: &'static str,
    pub flags: &'static [&'static str],
    pub valued: &'static [&'static str],
}

/// An option, an option with its value, or an operand.
pub enum Item {
    Flag(&'static str),
    Value(&'static str, OsString),
    Operand(OsString),
}

impl Usage {
    /// A wrong use, with how it should be.
    pub fn fault(&self, why: &str) -> Fault {
        wrong_use(format!("{why}\nusage: {}", self.text))
    }

    /// The option that an argument names, with the value that stands in the same argument after `=`
    /// or is the next argument.
    fn option(&self, argument: &OsStr, next: &mut impl Iterator<Item = OsString>) -> Done<Item> {
        let mut halves = argument.as_bytes().splitn(2, |&byte| byte == b'=');
        let (name, value) = (halves.next().unwrap_or_default(), halves.next());
        let named = |known: &&&str| known.as_bytes() == name;
        if let (Some(flag), None) = (self.flags.iter().find(named), value) {
            return Ok(Item::Flag(flag));
        }
        let unknown = || self.fault(&format!("no such option: {}", shown(argument)));
        let option = self.valued.iter().find(named).ok_or_else(unknown)?;
        let value = value.map(|bytes| OsStr::from_bytes(bytes).to_os_string());
        match value.or_else(|| next.next()) {
            Some(value) => Ok(Item::Value(option, value)),
            None => Err(self.fault(&format!("{option} needs a value"))),
        }
    }
}

/// The items of a command's arguments. `--` ends the options, and `-` alone is an operand.
pub fn items(given: Vec<OsString>, usage: &Usage) -> Done<Vec<Item>> {
    let mut items = Vec::new();
    let mut given = given.into_iter();
    let mut ended = false;
    while let Some(argument) = given.next() {
        let bytes = argument.as_bytes();
        if ended || !bytes.starts_with(b"-") || bytes == b"-" {
            items.push(Item::Operand(argument));
        } else if bytes == b"--" {
            ended = true;
        } else {
            items.push(usage.option(&argument, &mut given)?);
        }
    }
    Ok(items)
}

/// The operands, where there must be so many.
pub fn exactly<const COUNT: usize>(given: Vec<OsString>, usage: &Usage) -> Done<[OsString; COUNT]> {
    let few = given.len() < COUNT;
    given.try_into().map_err(|_| {
        let why = if few { "too few" } else { "too many" };
        usage.fault(&format!("{why} arguments"))
    })
}

/// The operands of a command without options.
pub fn operands(given: Vec<OsString>, usage: &Usage) -> Done<Vec<OsString>> {
    let operand = |item| match item {
        Item::Operand(operand) => Some(operand),
        Item::Flag(_) | Item::Value(..) => None,
    };
    Ok(items(given, usage)?
        .into_iter()
        .filter_map(operand)
        .collect())
}

/// A number of 32 bits as the value of an option.
pub fn number(option: &str, value: &OsStr, usage: &Usage) -> Done<u32> {
    let text = value.to_str().unwrap_or_default();
    whole_32(text).map_err(|wrong| usage.fault(&format!("{option}: {} {wrong}", shown(value))))
}
