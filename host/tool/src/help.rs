//! `help`.

use std::fmt;
use std::io;

use crate::forms::{Form, SUBJECTS};
use crate::output::{Output, Tone};

/// Lists the calls.
pub fn list(out: &mut dyn Output) -> io::Result<()> {
    let mut plain = |line: fmt::Arguments| out.say(Tone::Plain, line);
    plain(format_args!(
        "help: the calls; help CALL says more about one"
    ))?;
    for (subject, forms) in SUBJECTS {
        plain(format_args!("  {subject}"))?;
        for Form { usage, short, .. } in *forms {
            plain(format_args!("    {usage:<33} {short}"))?;
        }
    }
    for line in LAST {
        plain(format_args!("  {line}"))?;
    }
    Ok(())
}

const LAST: [&str; 3] = [
    "fresh!, load!, put! and take! give up a floor that holds canisters",
    "# begins a remark; a name with blanks or # is quoted: \"floor 1.image\"",
    "a line has at most 400 bytes; one that is a remark may have more",
];

/// Says more about a call.
pub fn about(form: &Form, out: &mut dyn Output) -> io::Result<()> {
    let Form { usage, short, .. } = form;
    out.say(Tone::Plain, format_args!("help: {usage}: {short}"))?;
    for line in form.more {
        out.say(Tone::Plain, format_args!("      {line}"))?;
    }
    Ok(())
}
