//! The flags and indents of printers, and what a fault of a formatter gives.
use der_parser::ber::{BerObject, BerObjectContent, PrettyBer, PrettyPrinterFlag};
use std::alloc::{AllocError, Global};
use std::fmt;
use std::fmt::Write;
use std::process::Abort;
use std::test::Fail;

/// `Debug` writes the text.
fn expect_shown(
    rt: &(impl Abort + AllocGlobal),
    printer: &PrettyBer<'_, '_>,
    text: &str,
) -> Result<(), Fail> {
    let shown = format!(in rt.alloc(); "{printer:?}")?;
    assert_eq!(rt; shown.as_str(), text);
    Ok(())
}

/// A printer of the object with headers.
fn printer_with_headers<'o, 'a>(
    alloc: Global,
    object: &'o BerObject<'a>,
) -> Result<PrettyBer<'o, 'a>, AllocError> {
    let mut printer = object.as_pretty(alloc, 0, 2)?;
    printer.set_flag(PrettyPrinterFlag::ShowHeader)?;
    Ok(printer)
}

/// A writer of text that has room for a number of octets, and fails after them.
#[derive(Drop)]
struct Short {
    room: usize,
}

impl fmt::Write for Short {
    fn write_str(&mut self, text: &str) -> fmt::Result {
        if text.len() > self.room {
            self.room = 0;
            return Err(fmt::Error);
        }
        self.room -= text.len();
        Ok(())
    }
}

/// Whether `Debug` writes the printer's text into a room of so many octets.
fn is_shown_in(printer: &PrettyBer<'_, '_>, room: usize) -> bool {
    let mut short = Short { room };
    write!(short, "{printer:?}").is_ok()
}

/// `Debug` reports the fault of a formatter that has no room for the whole text.
fn expect_faults(rt: &impl Abort, printer: &PrettyBer<'_, '_>, text: &str) {
    for room in 0..text.len() {
        assert!(rt; !is_shown_in(printer, room), "{room}");
    }
    assert!(rt; is_shown_in(printer, text.len()));
}

#[test]
fn faults_of_a_formatter_are_reported(rt: HostRuntime) -> Result<(), Fail> {
    let object = BerObject::from_int_slice(b"\x01\x00\x01");
    let printer = printer_with_headers(rt.alloc(), &object)?;
    expect_faults(&rt, &printer, "[Integer] 0 Integer([01 00 01])");
    Ok(())
}

/// Whether the flags are set: that of the items of lists, and that of the headers.
fn flags_of(printer: &PrettyBer<'_, '_>) -> (bool, bool) {
    (
        printer.is_flag_set(PrettyPrinterFlag::Recursive),
        printer.is_flag_set(PrettyPrinterFlag::ShowHeader),
    )
}

/// Adds the flag of the headers twice.
fn set_twice(printer: &mut PrettyBer<'_, '_>) -> Result<(), AllocError> {
    printer.set_flag(PrettyPrinterFlag::ShowHeader)?;
    printer.set_flag(PrettyPrinterFlag::ShowHeader)
}

/// The flags of a printer: at first, with a flag added twice, and with it taken out.
fn flags_in_turn(alloc: Global, object: &BerObject<'_>) -> Result<[(bool, bool); 3], AllocError> {
    let mut printer = object.as_pretty(alloc, 1, usize::MAX)?;
    let first = flags_of(&printer);
    set_twice(&mut printer)?;
    let added = flags_of(&printer);
    printer.unset_flag(PrettyPrinterFlag::ShowHeader);
    Ok([first, added, flags_of(&printer)])
}

/// The flags of a printer of an object within, and those of the one around it where a flag is taken
/// out of the first.
fn flags_handed_on(alloc: Global, object: &BerObject<'_>) -> Result<[(bool, bool); 2], AllocError> {
    let printer = object.as_pretty(alloc, 1, usize::MAX)?;
    let mut further = printer.next_indent(alloc, object)?;
    let first = flags_of(&further);
    further.unset_flag(PrettyPrinterFlag::Recursive);
    Ok([first, flags_of(&printer)])
}

/// A printer of an object within stands further in.
fn expect_further_text<'a>(
    rt: &(impl Abort + AllocGlobal),
    object: &BerObject<'a>,
    inner: &BerObject<'a>,
) -> Result<(), Fail> {
    let printer = object.as_pretty(rt.alloc(), 1, 2)?;
    let further = printer.next_indent(rt.alloc(), inner)?;
    expect_shown(rt, &further, "   Integer([02])")
}

/// A flag is added once, and taken out wherever it is.
#[test]
fn flags_are_set(rt: HostRuntime) -> Result<(), Fail> {
    let null = BerObject::from_obj(BerObjectContent::Null);
    let given = flags_in_turn(rt.alloc(), &null)?;
    assert!(rt; given == [(true, false), (true, true), (true, false)]);
    Ok(())
}

#[test]
fn flags_are_handed_on(rt: HostRuntime) -> Result<(), Fail> {
    let null = BerObject::from_obj(BerObjectContent::Null);
    let given = flags_handed_on(rt.alloc(), &null)?;
    assert!(rt; given == [(true, false), (true, false)]);
    Ok(())
}

#[test]
fn indents_are_handed_on(rt: HostRuntime) -> Result<(), Fail> {
    let null = BerObject::from_obj(BerObjectContent::Null);
    let inner = BerObject::from_int_slice(b"\x02");
    expect_further_text(&rt, &null, &inner)
}
