//! What is written of inputs that are refused, and what is said of them on the standard error.
use der_input::Form;
use der_print::{Limit, Style};
use der_actions::options::{Action, Naming, Options};
use der_cli::run::run;
use der_elements::Rules;
use std::process::Abort;
use std::str;
use std::test::Fail;

/// An input that is refused: the lines of the elements before the refusal, and the report.
struct Row {
    rules: Rules,
    input: &'static [u8],
    lines: &'static str,
    report: &'static str,
}

const ROWS: [Row; 6] = [
    // An INTEGER that isn't in the fewest octets: DER alone refuses it.
    Row {
        rules: Rules::Der,
        input: b"\x30\x0b\x02\x01\x05\x30\x06\x02\x02\x00\x7f\x05\x00",
        lines: "      0  2+11      SEQUENCE\n      2  2+1         INTEGER 5\n      5  2+6         SEQUENCE\n",
        report: "der: input: at 7, SEQUENCE[0].SEQUENCE[1].INTEGER[0]: \
the first nine bits of a number are alike (X.690 8.3.2)\n",
    },
    // A BOOLEAN of two octets, which a tree by BER marks.
    Row {
        rules: Rules::Der,
        input: b"\x30\x07\x02\x01\x05\x01\x02\x00\x00",
        lines: "      0  2+7       SEQUENCE\n      2  2+1         INTEGER 5\n",
        report: "der: input: at 5, SEQUENCE[0].BOOLEAN[1]: \
a BOOLEAN isn't one octet (X.690 8.2.1)\n",
    },
    // An INTEGER of three octets, of which the SEQUENCE around it has two.
    Row {
        rules: Rules::Ber,
        input: b"\x30\x04\x02\x03\x05\x06\x07",
        lines: "      0  2+4       SEQUENCE\n",
        report: "der: input: at 2, SEQUENCE[0].INTEGER[0]: it ends 1 octet after the element around it (X.690 8.1.3)\n",
    },
    // A SEQUENCE of ten octets, of which there are four.
    Row {
        rules: Rules::Ber,
        input: b"\x30\x0a\x02\x01\x05\x02",
        lines: "      0  2+10      SEQUENCE\n      2  2+1         INTEGER 5\n",
        report: "der: input: at 5, SEQUENCE[0]: the input is cut, at least 6 octets are missing (X.690 8.1.1)\n",
    },
    // An indefinite length without its end marker, at the end of the input.
    Row {
        rules: Rules::Ber,
        input: b"\x30\x80\x05\x00",
        lines: "      0  2+inf     SEQUENCE\n      2  2+0         NULL\n",
        report: "der: input: at 4, SEQUENCE[0]: the input is cut, at least 2 octets are missing (X.690 8.1.1)\n",
    },
    // The same, at the end of the element around it.
    Row {
        rules: Rules::Ber,
        input: b"\x30\x04\x30\x80\x05\x00",
        lines: "      0  2+4       SEQUENCE\n      2  2+inf       SEQUENCE\n      4  2+0           NULL\n",
        report: "der: input: at 2, SEQUENCE[0].SEQUENCE[0]: \
an indefinite length has no end-of-contents octets (X.690 8.1.3.6)\n",
    },
];

/// How the tool reads: a tree, by these rules.
fn options(rules: Rules) -> Options<'static> {
    Options {
        action: Action::Tree,
        rules,
        enters_strings: true,
        form: Some(Form::Der),
        style: Style {
            limit: Limit::Front,
            colours: false,
        },
        own_names: None,
        naming: Naming::Unnamed,
        place: None,
        depth: None,
        is_json: false,
        has_octets: false,
        is_content: false,
        is_quiet: false,
        is_strict: false,
        present: None,
        has_several_files: false,
    }
}

/// The input is refused, with the row's lines and report.
fn expect_refusal(rt: &impl Abort, row: &Row, is_read: bool, out: &[u8], err: &[u8]) {
    assert!(rt; !is_read);
    assert_eq!(rt; str::from_utf8(out), Ok(row.lines));
    assert_eq!(rt; str::from_utf8(err), Ok(row.report));
}

/// The tool refuses the row's input so.
fn expect_row(rt: &(impl Abort + AllocGlobal), row: &Row) -> Result<(), Fail> {
    let (mut out, mut err) = (Vec::new(rt.alloc()), Vec::new(rt.alloc()));
    let options = options(row.rules);
    let is_read = run(rt.alloc(), &options, "input", row.input, &mut out, &mut err)?;
    expect_refusal(rt, row, is_read, &out, &err);
    Ok(())
}

#[test]
fn refusals_are_reported(rt: HostRuntime) -> Result<(), Fail> {
    for row in &ROWS {
        expect_row(&rt, row)?;
    }
    Ok(())
}
